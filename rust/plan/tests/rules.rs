//! The rule that a damaged image breaks, and the byte told: of an image of each edition. A rule is broken exactly where the library refuses the image.

use plan::check::first_fault;
use std::collections::BTreeSet;
use telephone::{Refusal, Table};

/// Bytes in hex.
fn bytes(hex: &str) -> Vec<u8> {
    hex.split_whitespace().map(|byte| u8::from_str_radix(byte, 16).unwrap()).collect()
}

/// The image "Two steps" of docs/IMAGE.md in edition 1: step 0, and step 1, a contact at its answered exit.
fn two_steps() -> Vec<u8> {
    bytes(
        "0A 00 01 00 04 00 01 00 02 00
         14 00 02 00 00 00 00 00 00 00 00 00 01 00 00 00 00 00 00 00
         14 00 02 00 01 00 01 00 00 00 00 00 00 00 00 00 00 00 00 00",
    )
}

fn cabins() -> Vec<u8> {
    include_bytes!("images/cabins.img").to_vec()
}

/// The rule that is broken and the byte told, where the library refuses the image, and nothing where it does not.
fn told(image: &[u8]) -> Option<(u8, usize)> {
    let fault = first_fault(image);
    let refused = Table::load(image) == Err(Refusal::NotAccepted);
    assert_eq!(fault.is_some(), refused, "{fault:?} in {image:?}");
    fault.map(|fault| (fault.rule, fault.byte))
}

/// An image with bytes changed.
fn changed(mut image: Vec<u8>, changes: &[(usize, u8)]) -> Vec<u8> {
    changes.iter().for_each(|&(at, value)| image[at] = value);
    image
}

/// The rules in edition 1, where all steps are charged to cabin 0 and those about cabins cannot be broken.
#[test]
fn edition_1() {
    assert_eq!(told(&two_steps()), None);
    for (changes, rule, byte) in [
        (&[(0, 42)][..], 1, 2),
        (&[(0, 11)], 1, 0),
        (&[(2, 2)], 1, 2),
        (&[(2, 3)], 1, 2),
        (&[(0, 42), (2, 3)], 2, 42),
        (&[(10, 0)], 2, 10),
        (&[(10, 22), (12, 4)], 2, 10),
        (&[(32, 4)], 2, 32),
        (&[(8, 1)], 3, 30),
        (&[(8, 3)], 3, 50),
        (&[(34, 0)], 4, 34),
        (&[(40, 32)], 5, 40),
        (&[(4, 0)], 6, 4),
        (&[(4, 129)], 6, 4),
        (&[(6, 4)], 6, 6),
        (&[(34, 4), (22, 4)], 6, 34),
        (&[(14, 2)], 7, 10),
        (&[(16, 1)], 7, 16),
        (&[(18, 1)], 7, 18),
        (&[(36, 0)], 7, 36),
        (&[(36, 4)], 7, 36),
        (&[(36, 3)], 7, 38),
        (&[(22, 2)], 8, 22),
        (&[(20, 2)], 9, 20),
        (&[(20, 1)], 10, 34),
        (&[(42, 1)], 10, 42),
    ] {
        assert_eq!(told(&changed(two_steps(), changes)), Some((rule, byte)), "{changes:?}");
    }
    for length in 0..50 {
        let rule = if length < 10 { 1 } else { 3 };
        assert_eq!(told(&two_steps()[..length]), Some((rule, length)));
    }
    assert_eq!(told(&[two_steps(), vec![0]].concat()), Some((3, 50)));
}

/// What edition 2 adds. The image has guarantees and limits 1/2, 4/6, 0/0, 0/5; steps 1 to 4 are of cabins 0, 3, 3 and 1, and 3 steps are free.
#[test]
fn edition_2() {
    assert_eq!(told(&cabins()), None);
    for (changes, rule, byte) in [
        (&[(0, 10)][..], 1, 2),
        (&[(2, 1)], 1, 2),
        (&[(42, 20), (44, 2)], 2, 42),
        (&[(130, 20), (132, 2)], 2, 130),
        (&[(44, 2)], 2, 44),
        (&[(12, 0)], 11, 12),
        (&[(38, 1)], 11, 40),
        (&[(10, 2), (18, 2), (20, 2)], 11, 18),
        (&[(19, 128), (21, 128), (23, 128), (25, 128)], 11, 18),
        (&[(62, 1)], 12, 62),
        (&[(84, 8)], 12, 84),
        (&[(151, 1)], 12, 150),
        (&[(84, 7)], 13, 84),
        (&[(24, 1)], 13, 128),
        (&[(24, 0)], 13, 106),
        (&[(10, 2)], 14, 14),
        (&[(26, 1), (28, 1)], 14, 26),
    ] {
        assert_eq!(told(&changed(cabins(), changes)), Some((rule, byte)), "{changes:?}");
    }
    for length in 0..cabins().len() {
        let rule = if length < 42 { 1 } else { 3 };
        assert_eq!(told(&cabins()[..length]), Some((rule, length)));
    }
}

/// Contents of each kind up to four digits: a contact goes up to 99 in edition 1 and up to 999 in edition 2, messages and waits are the same in both.
#[test]
fn contents() {
    for (image, at, last) in [(two_steps(), 36, 99), (cabins(), 70, 999)] {
        for (kind, range) in [(1, 0..=last), (2, 0..=15), (3, 1..=600)] {
            for content in 0..1100_u16 {
                let [low, high] = content.to_le_bytes();
                let changes = [(at, kind), (at + 2, low), (at + 3, high)];
                let fault = (!range.contains(&content)).then_some((7, at + 2));
                assert_eq!(told(&changed(image.clone(), &changes)), fault, "{kind}, {content}");
            }
        }
    }
}

/// Records of both editions, each in its own length.
#[test]
fn mixed_editions() {
    let mixed = include_bytes!("images/mixed.img");
    assert_eq!(told(mixed), Some((2, 42)));
    let (ring, ring_2) = (include_bytes!("images/ring.img"), include_bytes!("images/ring-2.img"));
    assert_eq!(told(&[&ring[..10], &ring_2[42..]].concat()), Some((2, 10)));
    assert_eq!(told(&[&ring[..70], &ring_2[108..]].concat()), Some((2, 70)));
    assert_eq!(told(&[&ring_2[..108], &ring[70..]].concat()), Some((2, 108)));
}

/// Every value in every byte. All rules come up.
#[test]
fn single_bytes() {
    for (image, rules) in [(two_steps(), 1..=10), (cabins(), 1..=14)] {
        let mut seen = BTreeSet::new();
        for at in 0..image.len() {
            for value in 0..=255 {
                seen.extend(told(&changed(image.clone(), &[(at, value)])).map(|(rule, _)| rule));
            }
        }
        assert_eq!(seen, rules.collect());
    }
}
