//! Conversions of images (W6) through the interface and on the second program: images of both editions both ways, damaged a byte at a time, cut,
//! extended and of mixed editions, with their records in any order, into buffers of all lengths; those of histories by cabin 0 alone and by several
//! cabins; lists that differ from edition 1's in one number; contacts that no old telephone takes (W9) and every content; and the laws of a conversion.
//! Bytes beside the lent ones and the image have to stay.

use compare::{
    both, converted, every_content, has_larger_contact, next_line, tables_of_histories, two_steps,
    Pair, Refusals,
};
use reference::cabins::{for_cabin_0, list, one_cabin};
use reference::calls::{add, fresh, fresh_for_cabin_0};
use reference::convert::{Conversion, Way};
use reference::faults::Fault;
use reference::generate::{for_old_telephone, Generator, Random};
use reference::history::{Call, Outcome, Start, UNTOUCHED};
use reference::image::{
    encode, in_edition_1, in_edition_2, is_old, load, records, sizes, HEADER, OLD_HEADER,
    OLD_RECORD, RECORD,
};
use reference::laws;
use reference::table::Table;

const WAYS: [Way; 2] = [Way::Up, Way::Down];

/// Bytes of the largest image.
const LARGEST: usize = HEADER + 128 * RECORD;

/// Makes a conversion by both programs, which have to agree. What is not written stays.
fn made(way: Way, image: &[u8], buffer: usize) -> Outcome {
    let conversion = Conversion { way, image: image.to_vec(), buffer };
    let outcome = converted(&conversion, Fault::None).unwrap();
    let written = if outcome.refusal == 0 { outcome.numbers[0] } else { 0 };
    assert_eq!(outcome.numbers, [written, 0]);
    assert!(
        outcome.lent[written..].iter().all(|&byte| byte == UNTOUCHED),
        "written past the image"
    );
    outcome
}

/// Converts an image into a buffer of this length and gives the refusal.
fn refusal(way: Way, image: &[u8], buffer: usize) -> u16 {
    made(way, image, buffer).refusal
}

/// How often each refusal came up, by the way, and what edition 1 could not say.
#[derive(Default)]
struct Seen {
    refusals: [Refusals; 2],
    /// 17 for a step of another cabin than 0, for the list alone, for a contact alone, and for contacts and cabins or list.
    unsayable: [usize; 4],
    /// 12 going up for a contact alone: the same in edition 2 is accepted.
    lacking: usize,
}

impl Seen {
    fn note(&mut self, way: Way, image: &[u8], refusal: u16) {
        self.refusals[way as usize][usize::from(refusal)] += 1;
        match (way, refusal) {
            (Way::Up, 12) if is_old(image) => {
                let accepted = in_edition_2(image).is_some_and(|new| load(&new).1.refusal == 0);
                self.lacking += usize::from(accepted);
            }
            (Way::Down, 17) => {
                let (table, _) = load(image);
                let sole = table.quotas == one_cabin(table.capacity);
                let what = match (has_larger_contact(&table), sole) {
                    (true, true) => 2,
                    (true, false) => 3,
                    (false, _) => usize::from(table.cabins == [0; 128]),
                };
                self.unsayable[what] += 1;
            }
            _ => {}
        }
    }

    /// Each thing that edition 1 cannot say came up as often as that.
    fn met_unsayable(&self, times: usize) {
        println!("{:?} {}", self.unsayable, self.lacking);
        assert!(self.unsayable.iter().chain([&self.lacking]).all(|&found| found >= times));
    }

    /// Each of these refusals came up as often as that, and no other did.
    fn met(&self, up: &[usize], down: &[usize], times: usize) {
        for (found, expected) in self.refusals.iter().zip([up, down]) {
            println!("{found:?}");
            for (refusal, &found) in found.iter().enumerate() {
                assert_eq!(found >= times, expected.contains(&refusal), "{refusal}: {found}");
                assert!(found >= times || found == 0, "{refusal}: {found}");
            }
        }
    }
}

/// The bytes that an image with as many step records has in the edition that the way leads to.
fn needed(way: Way, image: &[u8]) -> usize {
    let steps = records(image).len() - 1;
    match way {
        Way::Up => HEADER + RECORD * steps,
        Way::Down => OLD_HEADER + OLD_RECORD * steps,
    }
}

/// The image of a table in edition 1, which drops cabins and list, and in edition 2.
fn both_editions(table: &Table) -> [Vec<u8>; 2] {
    let image = encode(table);
    [in_edition_1(&image), image]
}

/// Made-up tables with any strengths, such as an old telephone takes.
fn tables(seeds: std::ops::Range<u64>) -> impl Iterator<Item = Table> {
    seeds.map(|seed| for_old_telephone(&Random(seed).sound_table()))
}

/// Small tables: step 0 alone, with its bit 0 and 1; two steps, with the last contact that an old telephone takes, and with the next; three steps with
/// bits of both values; two steps of two cabins.
fn small_tables() -> Vec<Table> {
    let mut bit = fresh_for_cabin_0(4);
    bit.own[0] = 1;
    let (mut cabins, _) = fresh(4, list(&[[1, 2], [0, 0], [0, 0], [0, 0], [0, 0], [2, 3]]));
    assert_eq!(add(&mut cabins, 0, 0, 1, 7, 5).first, 1);
    let mut three = fresh_for_cabin_0(4);
    for line in ["H*100001000A", "H*100121001A", "H*200000022A", "H*200120001A", "H*30000A"] {
        assert_eq!(both(&mut three, &Call::KeyLine(line.into())).refusal, 0);
    }
    let [last, larger] = [99, 100].map(|contact| two_steps(1, contact));
    vec![fresh_for_cabin_0(1), fresh_for_cabin_0(4), bit, last, larger, three, cabins]
}

/// P10: F4's image of edition 2 converted down, and up again.
#[test]
fn example_of_document_01() {
    let old = [&[0x0A, 0, 1, 0, 4, 0, 0, 0, 1, 0, 0x14, 0, 2, 0][..], &[0; 16]].concat();
    let new = encode(&fresh_for_cabin_0(4));
    let [down, up] = [made(Way::Down, &new, 30), made(Way::Up, &old, 64)];
    assert_eq!((down.refusal, down.numbers, down.lent), (0, vec![30, 0], old));
    assert_eq!((up.refusal, up.numbers, up.lent), (0, vec![64, 0], new));
}

/// Every byte of a small image takes every value; the buffer is exact, one byte short, and long.
#[test]
fn small_images_damaged() {
    let mut seen = Seen::default();
    for image in small_tables().iter().flat_map(both_editions) {
        for (way, at) in WAYS.into_iter().flat_map(|way| (0..image.len()).map(move |at| (way, at)))
        {
            let mut damaged = image.clone();
            for byte in 0..=255 {
                damaged[at] = byte;
                let room = needed(way, &image);
                for buffer in [room, room - 1, LARGEST] {
                    seen.note(way, &damaged, refusal(way, &damaged, buffer));
                }
            }
        }
    }
    seen.met(&[0, 11, 12], &[0, 11, 12, 17], 100);
    seen.met_unsayable(100);
}

/// Every byte of larger images takes several wrong values. Most of the tables are such as an old telephone takes. The rest have steps of several cabins,
/// one contact above 99, another list alone, or any of these.
#[test]
fn images_damaged() {
    let mut seen = Seen::default();
    let tables = (500..516).map(|seed| {
        let mut random = Random(seed);
        let any = random.sound_table();
        let mut table = for_old_telephone(&any);
        match seed % 8 {
            1 => table = Table { contents: table.contents, ..any },
            3 => random.put_contact(&mut table, 100),
            5 => table.quotas = list(&[[0, u16::MAX]]),
            7 => table = any,
            _ => {}
        }
        table
    });
    let images = tables.flat_map(|table| WAYS.into_iter().zip(both_editions(&table)));
    for (way, mut image) in images {
        let room = needed(way, &image);
        for at in 0..image.len() {
            let was = image[at];
            for now in [was ^ 1, was ^ 16, was.wrapping_add(1), was.wrapping_sub(1), 127, 128, 255]
            {
                image[at] = now;
                let refusal = refusal(way, &image, room - usize::from(now == 128));
                seen.note(way, &image, refusal);
            }
            image[at] = was;
        }
    }
    seen.met(&[0, 11, 12], &[0, 11, 12, 17], 20);
    seen.met_unsayable(20);
}

/// Generated conversions, most of them accepted, into buffers that are about as long as needed.
#[test]
fn generated_conversions() {
    let mut random = Random(82);
    let mut seen = Seen::default();
    for _ in 0..4000 {
        let conversion = random.conversion();
        let outcome = converted(&conversion, Fault::None).unwrap();
        seen.note(conversion.way, &conversion.image, outcome.refusal);
    }
    seen.met(&[0, 11, 12], &[0, 11, 12, 17], 200);
    seen.met_unsayable(50);
}

/// Every content of each kind, both ways. A contact above 99 is not in edition 1; in edition 2 it is, and does not go down.
#[test]
fn every_content_agrees() {
    let mut found = [Refusals::default(); 2];
    for (kind, content) in every_content() {
        let [old, new] = both_editions(&two_steps(kind, content));
        let [up, down] = [refusal(Way::Up, &old, 86), refusal(Way::Down, &new, 50)];
        assert_eq!(down == 17, kind == 1 && (100..1000).contains(&content), "{kind} {content}");
        assert_eq!(up, if down == 17 { 12 } else { down }, "{kind} {content}");
        found[0][usize::from(up)] += 1;
        found[1][usize::from(down)] += 1;
    }
    let [up, down] = found;
    assert_eq!((up[0], up[12]), (716, 5 * 65_536 - 716));
    assert_eq!((down[0], down[12], down[17]), (716, 5 * 65_536 - 1616, 900));
}

/// One contact at a time of a table that an old telephone takes is above 99: 17 going down, before 11, and 12 going up. With a byte cut off, 12 comes
/// first.
#[test]
fn one_larger_contact() {
    let mut seen = Seen::default();
    for mut table in tables(690..704) {
        for step in (0..128).filter(|&step| table.kinds[step] == 1) {
            let was = table.contents[step];
            for contact in [99, 100, 356, 999, 1000] {
                table.contents[step] = contact;
                let [old, new] = both_editions(&table);
                let (up, down) = match contact {
                    99 => (0, 0),
                    1000 => (12, 12),
                    _ => (12, 17),
                };
                for (way, image, expected) in [(Way::Up, &old, up), (Way::Down, &new, down)] {
                    let room = needed(way, image);
                    assert_eq!(refusal(way, image, room), expected, "{step}: {contact}");
                    let short = if expected == 0 { 11 } else { expected };
                    assert_eq!(refusal(way, image, room - 1), short, "{step}: {contact}");
                    assert_eq!(refusal(way, &image[..image.len() - 1], room), 12);
                    seen.note(way, image, expected);
                }
            }
            table.contents[step] = was;
        }
    }
    seen.met(&[0, 12], &[0, 12, 17], 200);
    assert!(seen.unsayable[2] > 500 && seen.lacking > 500);
}

/// Records in any order, into buffers of all sorts of lengths: empty, one byte, one byte short, exact, longer, and past 16 bits, where 16 bits would
/// leave nothing of the length, too little and just enough.
#[test]
fn any_order_and_any_room() {
    let mut random = Random(83);
    let mut seen = Seen::default();
    let largest = {
        let mut table = fresh_for_cabin_0(128);
        for step in 0..127 {
            assert_eq!(add(&mut table, step, 3, 3, 600, 0).refusal, 0);
        }
        table
    };
    for table in tables(600..640).chain([largest]) {
        let [old, new] = both_editions(&table);
        for (way, given, expected) in [(Way::Up, &old, &new), (Way::Down, &new, &old)] {
            let room = needed(way, given);
            assert_eq!(room, expected.len());
            let long = [0, 1, room - 1, room].map(|more| 65_536 + more);
            for buffer in
                [0, 1, room - 1, room, room + 1, room + 77, LARGEST + 1].into_iter().chain(long)
            {
                let image = random.reordered(given);
                let outcome = made(way, &image, buffer);
                seen.note(way, &image, outcome.refusal);
                if buffer < room {
                    assert_eq!(outcome.refusal, 11);
                } else {
                    assert_eq!((outcome.refusal, outcome.numbers[0]), (0, room));
                    assert!(outcome.lent[..room] == *expected, "other bytes");
                }
            }
        }
    }
    seen.met(&[0, 11], &[0, 11], 100);
}

/// Bytes of every length up to some, images cut and extended, near 16 bits and past them too, and records of both editions: none is accepted.
#[test]
fn no_images() {
    let mut random = Random(84);
    let mut seen = Seen::default();
    let mut refused = |image: &[u8]| {
        for (way, buffer) in WAYS.into_iter().flat_map(|way| [0, LARGEST].map(|room| (way, room))) {
            let refusal = refusal(way, image, buffer);
            assert_eq!(refusal, 12);
            seen.note(way, image, refusal);
        }
    };
    for length in (0..130).chain([2570, 2858, 65_535, 65_536, 65_566, 65_600, 131_136]) {
        for byte in [0, 1, 10, 42, UNTOUCHED] {
            refused(&vec![byte; length]);
        }
    }
    for table in tables(640..650).chain(small_tables()) {
        for image in both_editions(&table) {
            let (header, record) = sizes(&image);
            for length in (0..image.len()).step_by(1 + image.len() / 150) {
                refused(&image[..length]);
            }
            refused(&image[..image.len() - 1]);
            for more in [1, 2, header, record, 65_536 - image.len(), 65_536, 65_536 / 2 * record] {
                refused(&[&image[..], &vec![0; more]].concat());
                let again = image[header..].iter().copied().cycle().take(more);
                refused(&image.iter().copied().chain(again).collect::<Vec<u8>>());
            }
        }
        let image = encode(&table);
        for record in 0..records(&image).len() {
            refused(&random.mixed_image(&image, record));
        }
    }
    seen.met(&[12], &[12], 1000);
}

/// W5's list for edition 1 with one number changed: 17 where the image is accepted, else 12; the other way 12.
#[test]
fn lists_with_one_other_number() {
    let mut seen = Seen::default();
    for table in tables(650..690).chain([1, 2, 4, 128].map(fresh_for_cabin_0)) {
        for (at, was) in one_cabin(table.capacity).into_iter().enumerate() {
            let near = [was.wrapping_sub(1), was + 1, 0, 1, 127, 256, 32_768, u16::MAX];
            for number in near.into_iter().filter(|&number| number != was) {
                let mut other = table.clone();
                other.quotas[at] = number;
                let image = encode(&other);
                let expected = if load(&image).1.refusal == 0 { 17 } else { 12 };
                for buffer in [0, LARGEST] {
                    assert_eq!(refusal(Way::Down, &image, buffer), expected, "{at}: {number}");
                    assert_eq!(refusal(Way::Up, &image, buffer), 12);
                    seen.note(Way::Down, &image, expected);
                    seen.note(Way::Up, &image, 12);
                }
            }
        }
    }
    seen.met(&[12], &[12, 17], 1000);
    assert_eq!(seen.unsayable[1], seen.refusals[1][17], "17 for the list alone");
}

/// Converts the image that a table is written as, in both editions, both ways. Edition 1 can say what cabin 0 has by itself, with contacts up to 99.
fn convert_written(table: &Table, seen: &mut Seen) {
    let [old, new] = both_editions(table);
    let larger = has_larger_contact(table);
    let up = if larger { 12 } else { 0 };
    let down = if larger || *table != for_cabin_0(table) { 17 } else { 0 };
    for (way, image, expected) in
        [(Way::Up, &old, up), (Way::Down, &new, down), (Way::Up, &new, 12), (Way::Down, &old, 12)]
    {
        let outcome = made(way, image, LARGEST);
        assert_eq!(outcome.refusal, expected);
        seen.note(way, image, outcome.refusal);
    }
}

/// Images of histories by key lines, which are cabin 0's alone, and of histories of all calls, by several cabins and with other lists.
#[test]
fn images_of_histories() {
    let mut seen = Seen::default();
    for seed in 0..18 {
        let mut table = fresh_for_cabin_0(128);
        let mut generator = Generator::new(seed);
        for call in 0..600 {
            let line = next_line(&mut generator, &table);
            both(&mut table, &Call::KeyLine(line));
            if call % 12 == 0 {
                convert_written(&table, &mut seen);
            }
        }
    }
    seen.met(&[0, 12], &[0, 12, 17], 100);
    assert_eq!(seen.unsayable[2], seen.refusals[1][17], "17 for a contact alone");
    tables_of_histories(300..354, 150, 12, |table| convert_written(table, &mut seen));
    seen.met(&[0, 12], &[0, 12, 17], 300);
    seen.met_unsayable(20);
}

/// The law, of which each call is made by both programs: there and back is the first image, sorted; all load as one table; what an image of edition 1
/// is loaded and written as is its conversion up.
#[test]
fn there_and_back() {
    let convert = |conversion: &Conversion| converted(conversion, Fault::None).unwrap();
    let begin = |start: &Start| {
        let (pair, outcome) = Pair::begin(start, Fault::None);
        (pair.second, outcome.unwrap())
    };
    assert!(laws::there_and_back(&convert, &begin, &both, 1700..1900) > 300);
}
