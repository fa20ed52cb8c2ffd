//! Images of both editions: written, loaded, with every content, damaged a byte at a time, cut, extended, with their records in any order and of both
//! editions; into buffers one byte short, exact and longer.

use compare::{every_content, has_larger_contact, kept, two_steps, Pair};
use reference::cabins::list;
use reference::calls::fresh_for_cabin_0;
use reference::faults::Fault;
use reference::generate::{for_old_telephone, old_image, Random};
use reference::history::{Call, Start, UNTOUCHED};
use reference::image::{
    encode, fields, in_edition_1, in_edition_2, load, records, sizes, HEADER, RECORD,
};
use reference::plan::{plan_of, Plan};
use reference::sound::sound;
use reference::table::Table;

/// Loads an image in both programs. Gives the table, or nothing where it was refused. The plan is the one that the image says.
fn loaded(bytes: &[u8]) -> Option<Table> {
    let (pair, compared) = Pair::begin(&Start::Load { image: bytes.to_vec() }, Fault::None);
    let outcome = compared.unwrap();
    assert_eq!(outcome.numbers, [0, 0]);
    let table = kept(&pair.proved.lent);
    if outcome.refusal != 0 {
        assert!(outcome.refusal == 12 && table == fresh_for_cabin_0(1));
        return None;
    }
    assert!(plan_of(&table) == Plan::of_image(bytes), "the table has another plan than the image");
    Some(table)
}

/// The image that both programs write, with the buffer one byte short, exact and longer.
fn image_of(table: &Table) -> Vec<u8> {
    let needed = HEADER + RECORD * usize::from(table.size());
    let mut pair = Pair::new(table, Fault::None);
    assert_eq!(pair.call(&Call::ImageLength).unwrap().numbers, [needed, 0]);
    for buffer in [0, needed - 1, needed + 1, needed + 77] {
        let outcome = pair.call(&Call::Write { buffer }).unwrap();
        assert_eq!(outcome.refusal, if buffer < needed { 11 } else { 0 });
        let past = if buffer < needed { 0 } else { needed };
        assert!(outcome.lent[past..].iter().all(|&byte| byte == UNTOUCHED));
    }
    let outcome = pair.call(&Call::Write { buffer: needed }).unwrap();
    assert_eq!((outcome.refusal, outcome.numbers), (0, vec![needed, 0]));
    assert!(kept(&pair.proved.lent) == *table, "writing changed the table");
    outcome.lent
}

/// Made-up tables of all sizes, with strengths that no history from a fresh table gives.
fn tables(seeds: std::ops::Range<u64>) -> impl Iterator<Item = Table> {
    let ends = [1, 2, 4, 128].into_iter().map(fresh_for_cabin_0);
    ends.chain(seeds.map(|seed| Random(seed).sound_table()))
}

/// An image of edition 1 of a table, as an old telephone takes it, and the image that both programs write; each with the table that it is to load
/// as.
fn both_editions(table: &Table) -> [(Vec<u8>, Table); 2] {
    [(old_image(table), for_old_telephone(table)), (image_of(table), table.clone())]
}

#[test]
fn images_written_and_loaded() {
    for table in tables(0..300) {
        for (image, expected) in both_editions(&table) {
            assert!(loaded(&image) == Some(expected), "the image loads as another table");
        }
    }
}

/// Records in any order load as one table, which both programs write with the records in ascending step number, and in edition 2.
#[test]
fn records_in_any_order() {
    let mut random = Random(7);
    let mut moved = 0;
    for (image, table) in tables(300..500).flat_map(|table| both_editions(&table)) {
        let (header, mut steps) = (records(&image)[0], records(&image)[1..].to_vec());
        assert!(steps.is_sorted_by_key(|record| fields::<3>(record)[2]), "not ascending");
        steps.reverse();
        for _ in 0..3 {
            let other = [header, &steps.concat()].concat();
            let again = loaded(&other).expect("the order of records matters");
            assert!(again == table, "the order of records makes another table");
            assert!(Some(image_of(&again)) == in_edition_2(&image), "not sorted by writing");
            moved += usize::from(other != image);
            random.shuffle(&mut steps);
        }
    }
    assert!(moved > 800, "{moved} orders other than the written one");
}

/// One table, one image: tables that differ in a strength alone have different images, though one plan. So do tables that differ in a cabin, a
/// guarantee or a limit alone.
#[test]
fn images_tell_tables_apart() {
    let (mut strengths, mut cabins, mut quotas) = (0, 0, 0);
    for table in tables(580..640) {
        let image = image_of(&table);
        // 1 where the change makes another sound table
        let apart = |change: &dyn Fn(&mut Table)| {
            let mut other = table.clone();
            change(&mut other);
            let is_other = other != table && sound(&other);
            assert!(!is_other || image_of(&other) != image, "two tables, one image");
            usize::from(is_other)
        };
        for place in (0..table.bits.len()).filter(|&place| table.targets[place] != 0) {
            strengths += apart(&|other| {
                other.bits[place] ^= 1;
                other.counts = other.counted();
                assert!(plan_of(other) == plan_of(&table));
            });
        }
        for (step, cabin) in (0..128).flat_map(|step| [0, 1, 7].map(|cabin| (step, cabin))) {
            cabins += apart(&|other| other.cabins[step] = cabin);
        }
        for (at, value) in (0..16).flat_map(|at| [0, 1, 9, u16::MAX].map(|value| (at, value))) {
            quotas += apart(&|other| other.quotas[at] = value);
        }
    }
    assert!(strengths > 100 && cabins > 1000 && quotas > 1000, "{strengths} {cabins} {quotas}");
}

/// Every byte of an image takes several wrong values; some of the results are accepted. In edition 1, many are refused for a contact alone; in edition 2
/// such contacts are accepted.
#[test]
fn images_damaged() {
    // refused and accepted, by edition; refused in edition 1 and accepted in edition 2 for a larger contact
    let mut found = [[0; 2]; 2];
    let mut larger = [0; 2];
    for table in tables(500..560) {
        for (edition, (mut image, _)) in both_editions(&table).into_iter().enumerate() {
            let (header, record) = sizes(&image);
            for at in 0..image.len() {
                let of_content = at >= header && (at - header) % record / 2 == 4;
                let was = image[at];
                let near = [was ^ 1, was ^ 2, was ^ 16, was.wrapping_add(1), was.wrapping_sub(1)];
                for now in near.into_iter().chain([0, 127, 128, 255]) {
                    image[at] = now;
                    let table = loaded(&image);
                    found[edition][usize::from(table.is_some())] += 1;
                    if of_content && table.is_some() == (edition == 1) {
                        let (in_2, _) = load(&in_edition_2(&image).expect("records as they were"));
                        larger[edition] += usize::from(has_larger_contact(&in_2));
                    }
                }
                image[at] = was;
            }
        }
    }
    assert!(found.iter().all(|[no, yes]| *no > 1000 && *yes > 100), "{found:?}");
    assert!(larger.iter().all(|&times| times > 1000), "{larger:?}");
}

/// Every content of each kind in both editions: they differ in the contacts 100 to 999 alone.
#[test]
fn every_content_agrees() {
    let mut accepted = [[0; 5]; 2];
    for (kind, content) in every_content() {
        let table = two_steps(kind, content);
        let image = encode(&table);
        let editions = [in_edition_1(&image), image].map(|image| loaded(&image));
        for (accepted, loaded) in accepted.iter_mut().zip(&editions) {
            assert!(loaded.as_ref().is_none_or(|loaded| *loaded == table), "another table");
            accepted[usize::from(kind)] += usize::from(loaded.is_some());
        }
        let differ = editions[0] != editions[1];
        assert_eq!(differ, kind == 1 && (100..1000).contains(&content), "{kind} {content}");
    }
    assert_eq!(accepted, [[0, 100, 16, 600, 0], [0, 1000, 16, 600, 0]]);
}

/// Images of old telephones in which one contact is 100 or more, wherever it stands: refused in edition 1, and accepted in edition 2.
#[test]
fn one_larger_contact() {
    let mut refused = 0;
    for mut table in tables(1700..1730).map(|table| for_old_telephone(&table)) {
        for step in (0..128).filter(|&step| table.kinds[step] == 1) {
            let was = table.contents[step];
            for contact in [99, 100, 355, 999] {
                table.contents[step] = contact;
                let image = encode(&table);
                assert_eq!(loaded(&in_edition_1(&image)).is_some(), contact == 99);
                assert!(loaded(&image) == Some(table.clone()), "{step} {contact}");
                refused += usize::from(contact > 99);
            }
            table.contents[step] = was;
        }
    }
    assert!(refused > 1000, "{refused}");
}

/// A field with an odd number in it, a cut, records again, and records of both editions.
#[test]
fn images_damaged_at_random() {
    let mut random = Random(11);
    let mut accepted = 0;
    for (mut image, _) in tables(640..1640).flat_map(|table| both_editions(&table)) {
        for _ in 0..1 + random.below(2) {
            let mut damaged = image.clone();
            random.damage_image(&mut damaged);
            match loaded(&damaged) {
                Some(_) => {
                    accepted += 1;
                    image = damaged;
                }
                None => break,
            }
        }
    }
    assert!(accepted > 100, "{accepted} accepted");
}

/// One record, the header or any step's, of the other edition than all the rest.
#[test]
fn editions_do_not_mix() {
    let mut random = Random(12);
    let mut mixed = 0;
    for table in tables(1640..1700) {
        let image = image_of(&for_old_telephone(&table));
        for record in 0..records(&image).len() {
            assert_eq!(loaded(&random.mixed_image(&image, record)), None, "record {record}");
            mixed += 1;
        }
    }
    assert!(mixed > 1000, "{mixed}");
}

/// Capacities in the header that no table has, 0 among them, in both editions, with step 0 and with no step.
#[test]
fn bad_capacities() {
    for (image, _) in both_editions(&fresh_for_cabin_0(1)) {
        for capacity in [0, 129, 256, 257, 32768, 65535] {
            let mut bad = image.clone();
            bad[4..6].copy_from_slice(&u16::to_le_bytes(capacity));
            assert_eq!(loaded(&bad), None, "{capacity}");
            bad.truncate(records(&image)[0].len());
            bad[8] = 0;
            assert_eq!(loaded(&bad), None, "{capacity}, and no step");
        }
    }
}

/// Lists in the header whose guarantees add up to 0 in 16 bits, or to a little more.
#[test]
fn sums_past_16_bits() {
    let image = image_of(&fresh_for_cabin_0(128));
    for times in [2, 4, 8] {
        for more in 0..3 {
            let mut pairs = vec![[(65536 / times) as u16, 65535]; times];
            pairs[0][0] += more;
            let quotas = list(&pairs).map(u16::to_le_bytes);
            let header = [&image[..10], quotas.as_flattened()].concat();
            assert_eq!(loaded(&[&header, &image[HEADER..]].concat()), None);
        }
    }
}

#[test]
fn images_cut_and_extended() {
    let mut random = Random(9);
    for (image, _) in tables(560..580).flat_map(|table| both_editions(&table)) {
        for length in 0..image.len().min(200) {
            assert_eq!(loaded(&image[..length]), None);
            assert_eq!(loaded(&image[..image.len() - 1 - length]), None);
        }
        for more in [1, 2, 9, 10, 19, 20, 21, 22, 23, 40, 42, 44, 5000] {
            let tail: Vec<u8> = (0..more).map(|_| random.below(256) as u8).collect();
            assert_eq!(loaded(&[&image[..], &tail].concat()), None);
            assert_eq!(loaded(&[&image[..], &vec![0; more]].concat()), None);
        }
        let all = records(&image);
        assert_eq!(loaded(&[&image[..], all[all.len() - 1]].concat()), None, "a step twice");
        assert_eq!(loaded(&[&image[..], all[0]].concat()), None, "a second header");
    }
    let mut bytes = vec![0; 3000];
    for _ in 0..300 {
        let length = random.below(bytes.len());
        bytes[..length].iter_mut().for_each(|byte| *byte = random.below(4) as u8);
        loaded(&bytes[..length]);
    }
}
