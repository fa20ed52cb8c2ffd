//! Images of both editions: every damage of one byte, cuts, additions, records in other orders and
//! of both editions, every content in each edition, and the round trip over many sound tables with
//! any strengths and lists.

mod common;
mod contents;

use common::image_of;
use contents::every_content;
use reference::cabins::{for_cabin_0, list};
use reference::calls::{add, clear, fresh, fresh_for_cabin_0, link, Answer};
use reference::generate::{for_old_telephone, old_image, Random};
use reference::image::{in_edition_1, in_edition_2, length, load, records, sorted, write};
use reference::plan::{plan_of, Plan};
use reference::table::Table;

#[track_caller]
fn not_accepted(bytes: &[u8]) {
    let refusal = Answer { refusal: 12, first: 0, second: 0 };
    assert_eq!(load(bytes), (fresh_for_cabin_0(1), refusal), "{bytes:02X?}");
}

#[track_caller]
fn accepted(bytes: &[u8]) -> Table {
    let (table, answer) = load(bytes);
    assert_eq!(answer, Answer::default());
    table
}

/// The table after P5, with bits of both values; step 1 is cabin 3's.
fn after_p5() -> Table {
    let (mut table, _) = fresh(4, list(&[[1, 3], [0, 0], [0, 0], [1, 2]]));
    add(&mut table, 0, 0, 1, 0, 3);
    add(&mut table, 1, 2, 1, 1, 0);
    link(&mut table, 0, 0, 2, 2);
    link(&mut table, 1, 2, 0, 1);
    clear(&mut table, 0, 0);
    table
}

/// The image of the table after P5 in edition 2 and in edition 1, each with the table it loads as.
fn both_editions() -> [(Vec<u8>, Table); 2] {
    let image = image_of(&after_p5());
    let old = in_edition_1(&image);
    [(image, after_p5()), (old, for_cabin_0(&after_p5()))]
}

/// An image with one two-byte field set.
fn with(mut image: Vec<u8>, at: usize, field: u16) -> Vec<u8> {
    image[at..at + 2].copy_from_slice(&field.to_le_bytes());
    image
}

/// An image of fields of two bytes.
fn bytes(fields: &[u16]) -> Vec<u8> {
    fields.iter().flat_map(|field| field.to_le_bytes()).collect()
}

/// Checks that an image is refused, or that its table is written as the same image, sorted and in
/// edition 2. Gives whether it is accepted.
fn accepted_rightly(image: &[u8]) -> bool {
    let (table, answer) = load(image);
    if answer.refusal == 0 {
        let new = in_edition_2(image).expect("an accepted image");
        assert_eq!(image_of(&table), sorted(&new));
        assert_eq!(Plan::of_image(image), plan_of(&table));
    } else {
        not_accepted(image);
    }
    answer.refusal == 0
}

#[test]
fn fields_of_an_image() {
    let expected = [
        42, 3, 4, 2, 3, // capacity, last number given, steps in use
        1, 3, 0, 0, 0, 0, 1, 2, 0, 0, 0, 0, 0, 0, 0, 0, // guarantees and limits
        22, 4, 0, 0, 0, 2, 0, 2, 0, 0, 0, // step 0: exit 1 with bit 1
        22, 4, 1, 1, 0, 16, 0, 0, 2, 0, 3, // step 1: bit 1, exit 2 with bit 0, cabin 3
        22, 4, 2, 1, 1, 20, 0, 0, 1, 0, 0, // step 2: bit 1, exit 2 with bit 1
    ];
    assert_eq!(image_of(&after_p5()), bytes(&expected));
    assert_eq!(accepted(&bytes(&expected)), after_p5());
}

#[test]
fn fields_of_an_image_of_edition_1() {
    let fields = [
        10, 1, 4, 2, 3, // capacity, last number given, steps in use
        20, 2, 0, 0, 0, 2, 0, 2, 0, 0, // step 0: exit 1 with bit 1
        20, 2, 1, 1, 0, 16, 0, 0, 2, 0, // step 1: bit 1, exit 2 with bit 0
        20, 2, 2, 1, 1, 20, 0, 0, 1, 0, // step 2: bit 1, exit 2 with bit 1
    ];
    let table = accepted(&bytes(&fields));
    assert_eq!(table.quotas, [3, 3, 0, 0, 0, 0, 0, 0, 0, 0, 0, 0, 0, 0, 0, 0]);
    assert_eq!(table, for_cabin_0(&after_p5()));
    assert_eq!(in_edition_1(&image_of(&after_p5())), bytes(&fields));
}

/// At each byte of F4's image, in how many ways it can be changed to give another accepted image.
fn ways<const N: usize>(image: &[u8]) -> [u32; N] {
    assert_eq!(image.len(), N);
    std::array::from_fn(|at| {
        let changed = (0..=255).filter(|&byte| {
            let mut damaged = image.to_vec();
            damaged[at] = byte;
            damaged != image && accepted_rightly(&damaged)
        });
        changed.count() as u32
    })
}

/// Capacities from 4 on fit the list. The last number given may be any below 4, the guarantee of
/// cabin 0 may fall, its limit may rise, the limits of the others may be anything, and so may the
/// bit of step 0.
#[test]
fn f4_damaged_one_byte_at_a_time() {
    let mut expected = [0; 64];
    (expected[4], expected[6], expected[52]) = (124, 3, 1);
    (expected[10], expected[12], expected[13]) = (3, 252, 255);
    for limit in (16..42).step_by(4) {
        expected[limit..limit + 2].fill(255);
    }
    assert_eq!(ways::<64>(&image_of(&fresh_for_cabin_0(4))), expected);
}

/// The list follows the capacity, so that every capacity from 1 to 128 is accepted.
#[test]
fn f4_in_edition_1_damaged_one_byte_at_a_time() {
    let mut expected = [0; 30];
    (expected[4], expected[6], expected[20]) = (127, 3, 1);
    assert_eq!(ways::<30>(&in_edition_1(&image_of(&fresh_for_cabin_0(4)))), expected);
}

#[test]
fn a_ring_damaged_one_byte_at_a_time() {
    for (image, _) in both_editions() {
        for at in 0..image.len() {
            for byte in 0..=255 {
                let mut damaged = image.clone();
                damaged[at] = byte;
                accepted_rightly(&damaged);
            }
        }
    }
}

#[test]
fn cut_and_extended() {
    for (image, _) in both_editions() {
        for length in 0..image.len() {
            not_accepted(&image[..length]);
        }
        for more in 1..=40 {
            not_accepted(&[&image[..], &vec![0; more]].concat());
        }
        not_accepted(&[&image[..], records(&image)[0]].concat());
        not_accepted(&[&image[..], &image].concat());
    }
}

#[test]
fn records_in_other_orders() {
    for (image, table) in both_editions() {
        let [header, steps @ ..] = &records(&image)[..] else { unreachable!() };
        let step = |number: usize| steps[number];
        for [a, b, c] in [[0, 1, 2], [0, 2, 1], [1, 0, 2], [1, 2, 0], [2, 0, 1], [2, 1, 0]] {
            assert_eq!(accepted(&[header, step(a), step(b), step(c)].concat()), table);
        }
        let steps = &steps.concat()[..];
        // The header is first, and there is one.
        not_accepted(&[step(0), header, step(1), step(2)].concat());
        not_accepted(&[steps, header].concat());
        not_accepted(steps);
        not_accepted(&[header, header, steps].concat());
        // A step twice, with the count as before and with the records counted.
        not_accepted(&[header, step(0), step(1), step(1)].concat());
        not_accepted(&[header, step(0), step(1), step(2), step(2)].concat());
        not_accepted(&with([header, steps, step(2)].concat(), 8, 4));
        // A step left out, with the count as before and with the records counted.
        not_accepted(&[header, step(0), step(1)].concat());
        not_accepted(&with([header, step(0), step(1)].concat(), 8, 2));
        not_accepted(&with([header, step(1), step(2)].concat(), 8, 2));
    }
}

/// Each record of either edition: only the two images of one edition are accepted.
#[test]
fn editions_do_not_mix() {
    let new = image_of(&for_cabin_0(&after_p5()));
    let old = in_edition_1(&new);
    let editions = [records(&new), records(&old)];
    for choice in 0..16 {
        let record = |number: usize| editions[choice >> number & 1][number];
        let image = [record(0), record(1), record(2), record(3)].concat();
        match choice {
            0 | 15 => assert_eq!(accepted(&image), for_cabin_0(&after_p5())),
            _ => not_accepted(&image),
        }
    }
}

/// Puts each value that is not accepted at the place of its field.
fn wrong_fields(image: &[u8], wrong: &[(usize, &[u16])]) {
    for &(at, values) in wrong {
        for &value in values {
            not_accepted(&with(image.to_vec(), at, value));
        }
    }
}

#[test]
fn single_fields() {
    let image = image_of(&after_p5());
    let wrong: [(usize, &[u16]); 21] = [
        (0, &[0, 1, 10, 41, 43, 298, 65535]), // length of the header
        (2, &[0, 1, 2, 4, 259]),              // its kind
        (4, &[0, 1, 2, 129, 260, 65535]),     // capacity
        (6, &[4, 258, 65535]),                // last number given
        (8, &[0, 2, 4, 259]),                 // steps in use
        (10, &[3, 4, 257, 65535]),            // guarantee of cabin 0
        (12, &[0]),                           // its limit
        (14, &[1, 65535]),                    // guarantee of cabin 1, whose limit is 0
        (22, &[3, 258, 65535]),               // guarantee of cabin 3
        (24, &[0]),                           // its limit
        (42, &[0, 1, 10, 20, 21, 23, 278, 65535]), // length of a step record
        (44, &[0, 1, 2, 3, 260]),             // its kind
        (62, &[1, 3, 7, 8, 256, 65535]),      // cabin of step 0
        (68, &[0, 2, 3, 4, 128, 257, 65535]), // number
        (70, &[0, 4, 257]),                   // step kind
        (72, &[1000, 65535]),                 // content
        (74, &[0, 17, 18, 20, 24, 32, 48, 272]), // bits
        (78, &[3, 4, 128, 65535]),            // target of exit 1 of step 1, which is empty
        (80, &[3, 4, 128, 65535]),            // target of exit 2 of step 1
        (84, &[1, 2, 7, 8, 255, 256, 259, 65535]), // cabin of step 1
        (106, &[1, 2, 7, 8, 65535]),          // cabin of step 2
    ];
    wrong_fields(&image, &wrong);
    for content in [99, 100, 999] {
        assert_eq!(accepted(&with(image.clone(), 72, content)).contents[1], content);
    }
    // The steps fit cabins 0 and 3 the other way round too, and one cabin alone.
    for [one, two] in [[0, 0], [0, 3], [3, 3]] {
        let table = accepted(&with(with(image.clone(), 84, one), 106, two));
        assert_eq!(table.cabins[..4], [0, one, two, 0]);
    }
}

#[test]
fn single_fields_of_edition_1() {
    let wrong: [(usize, &[u16]); 13] = [
        (0, &[0, 1, 9, 11, 20, 42, 266, 65535]), // length of the header
        (2, &[0, 2, 3, 257]),                    // its kind
        (4, &[0, 1, 2, 129, 260, 65535]),        // capacity
        (6, &[4, 258, 65535]),                   // last number given
        (8, &[0, 2, 4, 259]),                    // steps in use
        (10, &[0, 1, 10, 19, 21, 22, 276]),      // length of a step record
        (12, &[0, 1, 3, 4, 258]),                // its kind
        (34, &[0, 2, 3, 4, 128, 257, 65535]),    // number
        (36, &[0, 4, 257]),                      // step kind
        (38, &[100, 999, 1000, 65535]),          // content
        (40, &[0, 17, 18, 20, 24, 32, 48, 272]), // bits
        (44, &[3, 4, 128, 65535]),               // target of exit 1 of step 1, which is empty
        (46, &[3, 4, 128, 65535]),               // target of exit 2 of step 1
    ];
    let image = in_edition_1(&image_of(&after_p5()));
    wrong_fields(&image, &wrong);
    assert_eq!(accepted(&with(image, 38, 99)).contents[1], 99);
}

/// An image of two steps, the second of this kind and content, in edition 2 and in edition 1.
fn two_steps(kind: u16, content: u16) -> [Vec<u8>; 2] {
    let new = [
        42, 3, 4, 1, 2, // capacity, last number given, steps in use
        3, 3, 0, 0, 0, 0, 0, 0, 0, 0, 0, 0, 0, 0, 0, 0, // guarantees and limits
        22, 4, 0, 0, 0, 0, 1, 0, 0, 0, 0, // step 0: exit 0
        22, 4, 1, kind, content, 0, 0, 0, 0, 0, 0, // step 1
    ];
    let old = [
        10, 1, 4, 1, 2, // capacity, last number given, steps in use
        20, 2, 0, 0, 0, 0, 1, 0, 0, 0, // step 0: exit 0
        20, 2, 1, kind, content, 0, 0, 0, 0, 0, // step 1
    ];
    [bytes(&new), bytes(&old)]
}

/// Checks whether an image is accepted, and that step 1 then has this kind and content.
#[track_caller]
fn accepts(is: bool, image: &[u8], kind: u16, content: u16) {
    if is {
        let table = accepted(image);
        assert_eq!((table.kinds[1], table.contents[1]), (kind, content));
    } else {
        not_accepted(image);
    }
}

/// An old telephone takes contacts 0 to 99. Messages and waits have one range in both editions.
#[test]
fn contents_by_edition() {
    for (kind, content, in_edition_2, in_edition_1) in [
        (1, 0, true, true),
        (1, 99, true, true),
        (1, 100, true, false),
        (1, 256, true, false),
        (1, 355, true, false),
        (1, 999, true, false),
        (1, 1000, false, false),
        (2, 15, true, true),
        (2, 16, false, false),
        (2, 100, false, false),
        (3, 0, false, false),
        (3, 99, true, true),
        (3, 100, true, true),
        (3, 600, true, true),
        (3, 601, false, false),
        (4, 0, false, false),
    ] {
        let [new, old] = two_steps(kind, content);
        accepts(in_edition_2, &new, kind, content);
        accepts(in_edition_1, &old, kind, content);
    }
}

/// Every content of each kind in both editions: they differ in the contacts 100 to 999 alone.
#[test]
fn contents_in_range_and_out_of_it() {
    let mut differ = Vec::new();
    for (kind, content, fits) in every_content() {
        let [new, old] = two_steps(kind, content);
        let in_old = fits && (kind != 1 || content <= 99);
        accepts(fits, &new, kind, content);
        accepts(in_old, &old, kind, content);
        differ.extend((fits != in_old).then_some((kind, content)));
    }
    assert!(differ.into_iter().eq((100..1000).map(|content| (1, content))));
}

/// A table of 127 steps of this kind and content.
fn chain(kind: u16, content: u16) -> Table {
    let mut table = fresh_for_cabin_0(128);
    for step in 1..128 {
        add(&mut table, step - 1, 3, kind, content, 0);
    }
    table
}

/// The largest image with contacts: with any one of them above 99, it is not accepted in edition 1.
#[test]
fn one_larger_contact() {
    let table = chain(1, 99);
    assert_eq!(accepted(&in_edition_1(&image_of(&table))), table);
    let mut random = Random(6);
    for step in 1..128 {
        for contact in [100, 999] {
            let mut table = table.clone();
            table.contents[step] = contact;
            let image = random.reordered(&image_of(&table));
            assert_eq!(accepted(&image), table);
            not_accepted(&in_edition_1(&image));
        }
    }
}

/// Guarantees of 32768 twice, 16384 four times and 8192 eight times are no guarantees of 0.
#[test]
fn sums_past_16_bits() {
    for times in [2, 4, 8] {
        let pair = [(65536 / times) as u16, 65535];
        let image = image_of(&fresh_for_cabin_0(128));
        let header = [&image[..10], &bytes(&list(&vec![pair; times]))].concat();
        not_accepted(&[&header, &image[42..]].concat());
    }
}

/// Capacity 0 has no list, with step 0 and without, in either edition.
#[test]
fn capacity_0() {
    let image = image_of(&fresh_for_cabin_0(1));
    for image in [in_edition_1(&image), image] {
        assert_eq!(accepted(&image), fresh_for_cabin_0(1));
        not_accepted(&with(image.clone(), 4, 0));
        not_accepted(&with(with(records(&image)[0].to_vec(), 4, 0), 8, 0));
    }
}

#[test]
fn bits_above_31() {
    let image = image_of(&fresh_for_cabin_0(1));
    for (image, at) in [(in_edition_1(&image), 20), (image, 52)] {
        for power in 5..16 {
            not_accepted(&with(image.clone(), at, 1 << power));
            not_accepted(&with(image.clone(), at, 16 | 1 << power));
        }
        assert_eq!(accepted(&with(image, at, 16)).own[0], 1);
    }
}

#[test]
fn the_largest_image() {
    let table = chain(3, 600);
    let image = image_of(&table);
    assert_eq!(image.len(), 2858);
    assert_eq!(accepted(&image), table);
    assert_eq!(write(&table, &mut [0; 2857]).refusal, 11);
    let old = in_edition_1(&image);
    assert_eq!(old.len(), 2570);
    assert_eq!(accepted(&old), table);
}

#[test]
fn round_trips() {
    let mut random = Random(4);
    for _ in 0..300 {
        let table = random.sound_table();
        let image = image_of(&table);
        assert_eq!(usize::from(length(&table).first), image.len());
        for (image, table) in [(old_image(&table), for_old_telephone(&table)), (image, table)] {
            let shuffled = random.reordered(&image);
            assert_eq!([accepted(&image), accepted(&shuffled)], [table.clone(), table]);
            assert!(accepted_rightly(&shuffled));
        }
    }
}

#[test]
fn damaged_images() {
    let mut random = Random(5);
    let mut still_accepted = [0; 2];
    let mut larger_contacts = 0;
    for round in 0..4000 {
        let table = random.sound_table();
        let mut image = if round % 2 == 1 { old_image(&table) } else { image_of(&table) };
        random.damage_image(&mut image);
        let accepted = accepted_rightly(&image);
        still_accepted[round % 2] += u32::from(accepted);
        // refused for a contact alone: the same in edition 2 is accepted
        let new = in_edition_2(&image);
        larger_contacts += u32::from(!accepted && new.is_some_and(|new| load(&new).1.refusal == 0));
    }
    assert!(still_accepted.iter().all(|n| (100..1000).contains(n)), "{still_accepted:?}");
    assert!(larger_contacts > 10, "{larger_contacts}");
}
