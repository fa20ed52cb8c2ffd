//! W6's sentences on examples with the bytes written out, the order of the refusals, single numbers
//! of a list, W9's contacts, every content, images damaged a byte at a time, and the laws and faults
//! on generated conversions. `examples` has P10.

mod common;
mod contents;

use common::image_of;
use contents::every_content;
use reference::cabins::for_cabin_0;
use reference::calls::{add, fresh_for_cabin_0, Answer};
use reference::convert::{convert, run, Conversion, Way};
use reference::faults::{Fault, Length};
use reference::generate::{for_old_telephone, Random};
use reference::history;
use reference::image::{fields, in_edition_1, in_edition_2, is_old, load, records, sorted};
use reference::keys::key_line;
use reference::laws;
use reference::table::Table;
use std::collections::BTreeSet;

/// "Two steps, with bits" of docs/IMAGE.md, in edition 2 and in edition 1.
const BITS: &str = "
    2A 00 03 00 04 00 01 00 02 00
    03 00 03 00 00 00 00 00 00 00 00 00 00 00 00 00 00 00 00 00 00 00 00 00 00 00 00 00 00 00 00 00
    16 00 04 00 00 00 00 00 00 00 02 00 00 00 01 00 00 00 00 00 00 00
    16 00 04 00 01 00 01 00 00 00 10 00 00 00 00 00 00 00 00 00 00 00";
const OLD_BITS: &str = "
    0A 00 01 00 04 00 01 00 02 00
    14 00 02 00 00 00 00 00 00 00 02 00 00 00 01 00 00 00 00 00
    14 00 02 00 01 00 01 00 00 00 10 00 00 00 00 00 00 00 00 00";

/// "Two cabins" of docs/IMAGE.md.
const CABINS: &str = "
    2A 00 03 00 04 00 01 00 02 00
    01 00 02 00 00 00 00 00 00 00 00 00 00 00 00 00 00 00 00 00 02 00 03 00 00 00 00 00 00 00 00 00
    16 00 04 00 00 00 00 00 00 00 00 00 01 00 00 00 00 00 00 00 00 00
    16 00 04 00 01 00 01 00 07 00 00 00 00 00 00 00 00 00 00 00 05 00";

fn hex(text: &str) -> Vec<u8> {
    text.split_whitespace().map(|byte| u8::from_str_radix(byte, 16).unwrap()).collect()
}

/// An image with these two-byte fields set.
fn with(image: &[u8], changes: &[(usize, u16)]) -> Vec<u8> {
    let mut image = image.to_vec();
    for &(at, field) in changes {
        image[at..at + 2].copy_from_slice(&field.to_le_bytes());
    }
    image
}

/// Checks that a conversion into a buffer of this length answers this refusal and writes nothing.
#[track_caller]
fn refuses(refusal: u16, way: Way, image: &[u8], length: usize) {
    let mut buffer = vec![0xEE; length];
    let answer = convert(way, image, &mut buffer);
    assert_eq!(answer, Answer { refusal, first: 0, second: 0 }, "{way:?} {image:02X?}");
    assert_eq!(buffer, vec![0xEE; length]);
}

/// Checks that an image is converted to these bytes, that the bytes past them stay, and that a
/// buffer of one byte less is refused.
#[track_caller]
fn converts(way: Way, image: &[u8], expected: &[u8]) {
    let length = expected.len();
    for more in [0, 1, 40] {
        let mut buffer = vec![0xEE; length + more];
        let answer = convert(way, image, &mut buffer);
        assert_eq!(answer, Answer { refusal: 0, first: length as u16, second: 0 });
        assert_eq!(buffer[..length], *expected);
        assert_eq!(buffer[length..], vec![0xEE; more]);
    }
    refuses(11, way, image, length - 1);
    refuses(11, way, image, 0);
}

/// Strengths and all other fields stay, with the records in either order.
#[test]
fn two_steps_with_bits() {
    let (new, old) = (hex(BITS), hex(OLD_BITS));
    let exchanged = |image: &[u8]| match records(image)[..] {
        [header, zero, one] => [header, one, zero].concat(),
        _ => unreachable!(),
    };
    for image in [old.clone(), exchanged(&old)] {
        converts(Way::Up, &image, &new);
        for length in [0, 86, 3000] {
            refuses(12, Way::Down, &image, length);
        }
    }
    for image in [new.clone(), exchanged(&new)] {
        converts(Way::Down, &image, &old);
        for length in [0, 50, 3000] {
            refuses(12, Way::Up, &image, length);
        }
    }
}

/// Going down, 17 comes before 11, and 12 before both. Cabin 8 is not accepted, nor are guarantees
/// of 1 and 3 with a capacity of 4. With both steps cabin 0's, the list is still another.
#[test]
fn two_cabins_do_not_go_down() {
    let image = hex(CABINS);
    assert_eq!(load(&image).1.refusal, 0);
    for length in [0, 1, 49, 50, 86, 3000] {
        refuses(17, Way::Down, &image, length);
        refuses(12, Way::Up, &image, length);
        refuses(12, Way::Down, &with(&image, &[(84, 8)]), length);
        refuses(12, Way::Down, &with(&image, &[(30, 3)]), length);
        refuses(17, Way::Down, &with(&image, &[(84, 0)]), length);
        refuses(12, Way::Down, &image[..85], length);
        refuses(12, Way::Down, &[], length);
        refuses(12, Way::Up, &[], length);
    }
}

/// Each number of the list by itself, and such as go together. The capacity belongs to the list: 5
/// with 3 and 3 is more than edition 1 can say.
#[test]
fn numbers_of_the_list() {
    let image = hex(BITS);
    let down = |refusal, changes: &[(usize, u16)]| {
        refuses(refusal, Way::Down, &with(&image, changes), 50);
    };
    for guarantee in [0, 1, 2] {
        down(17, &[(10, guarantee)]);
    }
    for limit in [4, 5, 256, 259, 65535] {
        down(17, &[(12, limit)]);
    }
    for cabin in 1..8 {
        let at = 10 + 4 * cabin;
        for limit in [1, 3, 256, 65535] {
            down(17, &[(at + 2, limit)]);
        }
        down(17, &[(10, 2), (at, 1), (at + 2, 1)]);
        down(17, &[(84, cabin as u16), (10, 0), (at, 3), (at + 2, 3)]);
        // a guarantee above its limit, one step too many guaranteed, a step past its limit
        down(12, &[(at, 1)]);
        down(12, &[(at, 1), (at + 2, 1)]);
        down(12, &[(84, cabin as u16)]);
    }
    for capacity in [5, 128] {
        down(17, &[(4, capacity)]);
        let list = [(4, capacity), (10, capacity - 1), (12, capacity - 1)];
        converts(Way::Down, &with(&image, &list), &with(&hex(OLD_BITS), &[(4, capacity)]));
    }
    for wrong in [(4, 3), (4, 129), (10, 4), (12, 0), (12, 2), (62, 1), (84, 8), (84, 256)] {
        down(12, &[wrong]);
    }
}

/// With the list that edition 1 images get, no step of another cabin is accepted, so that the list
/// decides 17.
#[test]
fn other_cabins_have_other_lists() {
    let mut random = Random(2);
    for _ in 0..40 {
        let table = for_old_telephone(&random.sound_table());
        let image = image_of(&table);
        assert_eq!(convert(Way::Down, &image, &mut [0; 2570]).refusal, 0);
        for step in 0..usize::from(table.size()) {
            for cabin in [1, 7, 8, 256] {
                refuses(12, Way::Down, &with(&image, &[(62 + 22 * step, cabin)]), 2570);
            }
        }
    }
}

/// "Two steps, with bits" with step 1 of this kind and content, in edition 2 and in edition 1.
fn with_content(kind: u16, content: u16) -> [Vec<u8>; 2] {
    [(BITS, 70), (OLD_BITS, 36)]
        .map(|(image, at)| with(&hex(image), &[(at, kind), (at + 2, content)]))
}

/// No old telephone takes a contact above 99, though cabin 0 has the plan to itself. Going down, 17
/// comes before 11. A bad image gets 12 before both: cut, with cabin 8, and with a link to step 2.
/// Going up, edition 1 is not accepted with such a contact.
#[test]
fn larger_contacts_do_not_go_down() {
    for contact in [0, 1, 99] {
        let [new, old] = with_content(1, contact);
        converts(Way::Up, &old, &new);
        converts(Way::Down, &new, &old);
    }
    for contact in [100, 101, 255, 256, 355, 600, 999] {
        let [new, old] = with_content(1, contact);
        assert_eq!([load(&new).1.refusal, load(&old).1.refusal], [0, 12]);
        for length in [0, 1, 49, 50, 85, 86, 3000] {
            refuses(17, Way::Down, &new, length);
            refuses(12, Way::Up, &new, length);
            refuses(12, Way::Up, &old, length);
            refuses(12, Way::Down, &old, length);
            refuses(12, Way::Down, &new[..85], length);
            refuses(12, Way::Down, &with(&new, &[(84, 8)]), length);
            refuses(12, Way::Down, &with(&new, &[(76, 2)]), length);
        }
    }
    for contact in [1000, 1024, 32768, 65535] {
        let [new, old] = with_content(1, contact);
        refuses(12, Way::Down, &new, 50);
        refuses(12, Way::Up, &old, 86);
    }
    // with two cabins too
    refuses(17, Way::Down, &with(&hex(CABINS), &[(72, 100)]), 50);
}

/// Messages and waits have one range in both editions.
#[test]
fn waits_of_600_go_both_ways() {
    for (kind, content) in [(2, 0), (2, 15), (3, 1), (3, 99), (3, 100), (3, 600)] {
        let [new, old] = with_content(kind, content);
        converts(Way::Up, &old, &new);
        converts(Way::Down, &new, &old);
    }
    for (kind, content) in [(2, 16), (2, 100), (3, 0), (3, 601), (0, 0), (4, 0)] {
        let [new, old] = with_content(kind, content);
        refuses(12, Way::Up, &old, 86);
        refuses(12, Way::Down, &new, 50);
    }
}

/// Every content of each kind, both ways.
#[test]
fn contents_in_range_and_out_of_it() {
    let mut down = [0; 3];
    for (kind, content, fits) in every_content() {
        let [new, old] = with_content(kind, content);
        let larger = kind == 1 && content > 99;
        match (fits, larger) {
            (true, false) => {
                converts(Way::Up, &old, &new);
                converts(Way::Down, &new, &old);
                down[0] += 1;
            }
            (true, true) => {
                refuses(12, Way::Up, &old, 86);
                refuses(17, Way::Down, &new, 50);
                down[1] += 1;
            }
            (false, _) => {
                refuses(12, Way::Up, &old, 86);
                refuses(12, Way::Down, &new, 50);
                down[2] += 1;
            }
        }
    }
    assert_eq!(down, [100 + 16 + 600, 900, 5 * 65536 - 1616]);
}

/// The image of 127 steps of this kind and content, in edition 2 and in edition 1.
fn largest(kind: u16, content: u16) -> [Vec<u8>; 2] {
    let mut table = fresh_for_cabin_0(128);
    for step in 1..128 {
        assert_eq!(add(&mut table, step - 1, 3, kind, content, 0).first, step);
    }
    let image = image_of(&table);
    [image.clone(), in_edition_1(&image)]
}

/// The largest image with contacts: any one of them that is above 99 decides.
#[test]
fn one_larger_contact() {
    let [new, old] = largest(1, 99);
    converts(Way::Up, &old, &new);
    converts(Way::Down, &new, &old);
    for step in 1..128 {
        for length in [0, 2569, 2570, 3000] {
            refuses(17, Way::Down, &with(&new, &[(50 + 22 * step, 100)]), length);
            refuses(12, Way::Up, &with(&old, &[(18 + 20 * step, 100)]), length);
        }
    }
}

/// Going up, guarantee and limit of cabin 0 are the capacity less 1, and all other numbers 0.
#[test]
fn fresh_tables_of_every_capacity() {
    for capacity in 1..=128 {
        let image = image_of(&fresh_for_cabin_0(capacity));
        let [pair @ .., _, _] = fields::<4>(&image[10..]);
        assert_eq!(pair, [capacity - 1; 2]);
        assert_eq!(image[14..42], [0; 28]);
        converts(Way::Down, &image, &in_edition_1(&image));
        converts(Way::Up, &in_edition_1(&image), &image);
    }
}

#[test]
fn the_largest_image() {
    let [new, old] = largest(3, 600);
    assert_eq!((new.len(), old.len()), (2858, 2570));
    for (way, given, expected) in [(Way::Up, &old, &new), (Way::Down, &new, &old)] {
        converts(way, given, expected);
        let mut records = records(given);
        records[1..].reverse();
        converts(way, &records.concat(), expected);
    }
}

/// Whether a table has a contact above 99.
fn has_larger_contact(table: &Table) -> bool {
    table.kinds.iter().zip(&table.contents).any(|(&kind, &content)| kind == 1 && content > 99)
}

/// Checks a conversion by loading: 12 unless the image is accepted and of the edition to be
/// converted; going down 17 unless the table is cabin 0's alone, and has no contact above 99; else
/// what is written is sorted, of the other edition, and the same table. Gives the refusal.
fn converts_as_loaded(way: Way, image: &[u8]) -> u16 {
    let (table, loaded) = load(image);
    if loaded.refusal != 0 || is_old(image) != (way == Way::Up) {
        refuses(12, way, image, 3000);
        12
    } else if way == Way::Down && (table != for_cabin_0(&table) || has_larger_contact(&table)) {
        refuses(17, way, image, 3000);
        17
    } else {
        let mut buffer = vec![0xEE; 3000];
        let length = convert(way, image, &mut buffer).first;
        let written = &buffer[..length.into()];
        assert_eq!(load(written), (table, loaded));
        assert_eq!(is_old(written), way == Way::Down);
        assert_eq!(sorted(written), written);
        converts(way, image, written);
        0
    }
}

/// The table after P5, with bits of both values.
fn after_p5() -> Table {
    let mut table = fresh_for_cabin_0(4);
    for line in ["H*100001000A", "H*100121001A", "H*200000022A", "H*200120001A", "H*30000A"] {
        assert_eq!(key_line(&mut table, line.as_bytes()).refusal, 0);
    }
    table
}

/// Every byte of five images takes every value, and the images are cut everywhere and extended,
/// going both ways.
#[test]
fn small_images_damaged() {
    let f4 = image_of(&fresh_for_cabin_0(4));
    let [[at_end, _], [larger, _]] = [99, 100].map(|contact| with_content(1, contact));
    let down: [(Vec<u8>, &[u16]); 5] = [
        (f4, &[0, 12, 17]),
        (image_of(&after_p5()), &[0, 12, 17]),
        (hex(CABINS), &[12, 17]),
        (at_end, &[0, 12, 17]),
        (larger, &[0, 12, 17]),
    ];
    for (new, down) in down {
        let old = in_edition_1(&new);
        for (way, image, expected) in [
            (Way::Up, &old, &[0, 12][..]),
            (Way::Down, &new, down),
            (Way::Up, &new, &[12]),
            (Way::Down, &old, &[12]),
        ] {
            let mut met = BTreeSet::new();
            for at in 0..image.len() {
                for byte in 0..=255 {
                    let mut damaged = image.clone();
                    damaged[at] = byte;
                    met.insert(converts_as_loaded(way, &damaged));
                }
                refuses(12, way, &image[..at], 3000);
                refuses(12, way, &[&image[..], &vec![0; 1 + at]].concat(), 3000);
            }
            assert_eq!(met, expected.iter().copied().collect());
        }
    }
}

/// Bytes of any length that are no image.
#[test]
fn no_images() {
    for length in (0..200).chain([2570, 2858, 65_535, 65_536, 65_566, 70_000]) {
        for byte in [0, 1, 10, 42, 255] {
            refuses(12, Way::Up, &vec![byte; length], 64);
            refuses(12, Way::Down, &vec![byte; length], 64);
        }
    }
}

#[test]
fn there_and_back() {
    let right = |conversion: &Conversion| run(conversion, Fault::None);
    let begin = |start: &history::Start| history::begin(start, Fault::None);
    let call = |table: &mut Table, call: &history::Call| history::run(table, call, Fault::None);
    assert!(laws::there_and_back(&right, &begin, &call, 0..200) > 300);
}

/// Generated conversions.
fn conversions(seed: u64) -> impl Iterator<Item = Conversion> {
    let mut random = Random(seed);
    std::iter::from_fn(move || Some(random.conversion())).take(1500)
}

/// Each refusal comes up often, and accepted conversions too. So do 17 for the list alone and for a
/// contact alone, and 12 for a contact alone, with which the same in edition 2 is accepted.
#[test]
fn generated_conversions() {
    let mut refusals = [[0; 19]; 2];
    let (mut lists, mut contacts) = (0, [0; 2]);
    for conversion in conversions(3) {
        let Conversion { way, image, .. } = &conversion;
        let refusal = run(&conversion, Fault::None).refusal;
        let with_room = converts_as_loaded(*way, image);
        assert!(refusal == with_room || (refusal, with_room) == (11, 0));
        refusals[*way as usize][usize::from(refusal)] += 1;
        let (table, loaded) = in_edition_2(image).map_or_else(|| load(&[]), |image| load(&image));
        let sole = table == for_cabin_0(&table);
        match refusal {
            12 if is_old(image) && loaded.refusal == 0 => {
                contacts[0] += u32::from(*way == Way::Up);
            }
            17 if sole => contacts[1] += 1,
            17 => lists += u32::from(!has_larger_contact(&table)),
            _ => {}
        }
    }
    assert!(lists > 50 && contacts.iter().all(|&times| times > 50), "{lists} {contacts:?}");
    for (met, expected) in refusals.iter().zip([&[0, 11, 12][..], &[0, 11, 12, 17]]) {
        for (refusal, &times) in met.iter().enumerate() {
            assert_eq!(times > 50, expected.contains(&refusal), "{refusals:?}");
        }
    }
}

/// How many of the generated conversions show a fault.
fn found(fault: Fault) -> usize {
    conversions(4)
        .filter(|conversion| run(conversion, fault) != run(conversion, Fault::None))
        .count()
}

#[test]
fn every_fault_is_found() {
    let faults = [
        Fault::CabinsBeforeImage,
        Fault::BufferBeforeCabins,
        Fault::BufferBeforeEdition,
        Fault::SameEditionTaken,
        Fault::CabinsDropped,
        Fault::ListDropped,
        Fault::LimitsDropped,
        Fault::OtherPairsDropped,
        Fault::ContactsUnasked,
        Fault::OldRangeUnasked,
        Fault::OldRangeInBoth,
        Fault::OldRangeTo100,
        Fault::OldRangeOfWaits,
        Fault::AlarmGuaranteed,
        Fault::BitsDropped(31),
        Fault::BitsDropped(16),
        Fault::AlarmBitDropped,
        Fault::LastIsHighest,
        Fault::OrderKept,
        Fault::RoomForEither,
        Fault::WrittenAsFits,
        Fault::ZeroBehind,
        Fault::LengthOfGiven,
    ];
    for fault in faults {
        let found = found(fault);
        println!("{fault:?} is found by {found} conversions of 1500");
        assert!(found >= 20, "{fault:?} is found by {found} conversions of 1500");
    }
    assert_eq!(found(Fault::None), 0);
}

/// What is wrong in one part of what a conversion gives is found too.
#[test]
fn every_spoiled_part_is_found() {
    let of_conversions = Fault::spoiled()
        .into_iter()
        .filter(|fault| matches!(fault, Fault::Spoiled { sort, .. } if sort.converts()));
    let faults: Vec<Fault> = of_conversions.collect();
    assert_eq!(faults.len(), 18);
    for fault in faults {
        assert!(found(fault) > 0, "{fault:?}");
    }
}

/// Lengths are not cut to 16 bits: an image with 65,536 bytes behind it is not accepted, and a
/// buffer of 65,536 bytes has room for one.
#[test]
fn long_lengths() {
    let image = image_of(&after_p5());
    let old = in_edition_1(&image);
    for (way, given, expected) in [(Way::Up, &old, &image), (Way::Down, &image, &old)] {
        let long = [&given[..], &[0; 65_536]].concat();
        let conversion = |image: &[u8], buffer| Conversion { way, image: image.to_vec(), buffer };
        let refused = run(&conversion(&long, 300), Fault::None);
        assert_eq!(refused.refusal, 12);
        assert!(run(&conversion(&long, 300), Fault::Cut(Length::Image)) != refused);
        let made = run(&conversion(given, 65_536), Fault::None);
        assert_eq!((made.refusal, &made.lent[..expected.len()]), (0, &expected[..]));
        assert!(run(&conversion(given, 65_536), Fault::Cut(Length::Buffer)) != made);
    }
}
