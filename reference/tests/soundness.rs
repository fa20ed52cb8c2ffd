//! The soundness test: each item of document 01's list, and of W5's, broken alone, any values in
//! the fields, its graph half against marking from each step alone, and its cabins against W5's
//! words.

use reference::cabins::{list, one_cabin, pairs};
use reference::calls::{add, fresh, fresh_for_cabin_0, link, Command};
use reference::faults::Fault;
use reference::generate::Random;
use reference::history::{agrees, run, Call};
use reference::sound::sound;
use reference::steps::STEPS_ROOM;
use reference::table::{mark, members, Table};

/// Step 0 leads to 1, 1 to 2, both strong; 2 leads weakly to 1 and 0 weakly to 2. Step 1 is cabin
/// 0's and step 2 cabin 1's; the free step is guaranteed to cabin 1.
fn ring() -> Table {
    let (mut table, _) = fresh(4, list(&[[1, 2], [2, 2], [0, 65535]]));
    add(&mut table, 0, 0, 1, 0, 0);
    add(&mut table, 1, 2, 1, 1, 1);
    link(&mut table, 0, 0, 2, 2);
    link(&mut table, 1, 2, 0, 1);
    table
}

#[test]
fn the_layout_is_3876_bytes() {
    assert_eq!(size_of::<Table>(), 3876);
}

#[test]
fn sound_tables() {
    assert!(sound(&fresh_for_cabin_0(1)) && sound(&fresh_for_cabin_0(128)) && sound(&ring()));
    // Limits have no bound of their own, and both steps may be one cabin's.
    let mut table = ring();
    table.quotas.iter_mut().skip(1).step_by(2).for_each(|limit| *limit = 65535);
    assert!(sound(&table));
    table.cabins[1] = 1;
    assert!(sound(&table));
    // The bit of step 0 is free, and so is the last number given, in use or not.
    let mut table = ring();
    table.own[0] = 1;
    for last in 0..4 {
        table.last = last;
        assert!(sound(&table));
    }
    assert!(!sound(&Table::zero()));
}

type Change = fn(&mut Table);

/// Every change spoils the ring table in one item of the list; all counters but those changed
/// on purpose are exact.
#[test]
fn each_item_of_the_list() {
    let changes: [(&str, Change); 58] = [
        ("capacity 0", |t| t.capacity = 0),
        ("capacity 129", |t| t.capacity = 129),
        ("capacity 65535", |t| t.capacity = 65535),
        ("a step at the capacity", |t| t.capacity = 2),
        ("last at the capacity", |t| t.last = 4),
        ("last 65535", |t| t.last = 65535),
        ("step 0 out of use", |t| t.used[0] = 0),
        ("used 2", |t| t.used[1] = 2),
        ("used 2 at a free step", |t| t.used[3] = 2),
        ("a step in use above the capacity", |t| t.used[4] = 1),
        ("kind of step 0", |t| t.kinds[0] = 1),
        ("content of step 0", |t| t.contents[0] = 1),
        ("kind 0", |t| t.kinds[1] = 0),
        ("kind 4", |t| t.kinds[1] = 4),
        ("kind 257", |t| t.kinds[1] = 257),
        ("contact 1000", |t| t.contents[1] = 1000),
        ("message 16", |t| (t.kinds[1], t.contents[1]) = (2, 16)),
        ("wait 0", |t| (t.kinds[1], t.contents[1]) = (3, 0)),
        ("wait 601", |t| (t.kinds[1], t.contents[1]) = (3, 601)),
        ("a link to a free step", |t| t.targets[3] = 3),
        ("a link above the capacity", |t| t.targets[3] = 4),
        ("a link to 128", |t| t.targets[3] = 128),
        ("a link to 65535", |t| t.targets[3] = 65535),
        ("a bit at an empty exit", |t| t.bits[3] = 1),
        ("link bit 2, counted nowhere", |t| {
            t.bits[1] = 2;
            t.counts = t.counted();
        }),
        ("step bit 2", |t| t.own[0] = 2),
        ("kind of a free step", |t| t.kinds[3] = 1),
        ("content of a free step", |t| t.contents[3] = 1),
        ("bit of a free step", |t| t.own[3] = 1),
        ("link of a free step", |t| t.targets[12] = 1),
        ("link bit of a free step", |t| t.bits[12] = 1),
        ("counter of a free step", |t| t.counts[6] = 1),
        ("fields above the capacity", |t| t.kinds[127] = 1),
        ("counter 0 one too large", |t| t.counts[2] += 1),
        ("counter 1 one too small", |t| t.counts[3] -= 1),
        ("a counter of step 0", |t| t.counts[0] = 1),
        ("counter 65535", |t| t.counts[5] = 65535),
        ("a strong ring below step 0", |t| {
            t.bits[10] = 0;
            t.counts = t.counted();
        }),
        ("a strong link to itself", |t| {
            t.targets[4] = 1;
            t.counts = t.counted();
        }),
        ("a step with weak links only", |t| {
            t.bits[0] = 1;
            t.counts = t.counted();
        }),
        ("a step with no links", |t| {
            (t.used[3], t.kinds[3], t.cabins[3]) = (1, 1, 1);
        }),
        ("cabin 8", |t| t.cabins[1] = 8),
        ("cabin 65535", |t| t.cabins[1] = 65535),
        ("cabin of step 0", |t| t.cabins[0] = 1),
        ("cabin of a free step", |t| t.cabins[3] = 1),
        ("cabin above the capacity", |t| t.cabins[127] = 1),
        ("a step of a cabin with limit 0", |t| t.cabins[1] = 7),
        ("one free step, two guaranteed to cabin 1", |t| t.cabins[2] = 0),
        ("a charge above the limit", |t| (t.quotas[0], t.quotas[1]) = (0, 0)),
        ("a charge of cabin 1 above the limit", |t| (t.quotas[2], t.quotas[3]) = (0, 0)),
        ("guarantee above the limit", |t| (t.capacity, t.quotas[0]) = (8, 3)),
        ("guarantee of cabin 7 above the limit", |t| (t.capacity, t.quotas[14]) = (8, 1)),
        ("one guarantee too many", |t| (t.quotas[2], t.quotas[3]) = (3, 3)),
        ("one guarantee too many, of cabin 7", |t| (t.quotas[14], t.quotas[15]) = (1, 1)),
        ("a capacity of one guarantee less", |t| t.capacity = 3),
        ("guarantee 65535", |t| t.quotas[4] = 65535),
        ("guarantees that add up to 3 in 16 bits", |t| t.quotas[4..8].fill(32768)),
        ("others that do", |t| {
            (t.quotas[4], t.quotas[6], t.quotas[7]) = (65535, 1, 1);
        }),
    ];
    for (name, change) in changes {
        let mut table = ring();
        change(&mut table);
        assert!(!sound(&table), "{name}");
    }
}

/// All calls but fresh and load, each accepted on some sound table.
fn calls() -> Vec<Call> {
    vec![
        Call::Edit(Command::Add { holder: 0, exit: 3, kind: 1, content: 0, cabin: 0 }),
        Call::Edit(Command::Link { source: 0, source_exit: 0, second: 0, second_exit: 2 }),
        Call::Edit(Command::Clear { step: 0, exit: 0 }),
        Call::Rung { buffer: STEPS_ROOM },
        Call::Squeeze { capacity: 128, quotas: one_cabin(128) },
        Call::Read { step: 0 },
        Call::Trial { limit: 4, results: vec![0, 1, 2, 3], trace: 4 },
        Call::Write { buffer: 2858 },
        Call::KeyLine(b"H*4A".to_vec()),
    ]
}

/// Every call answers 1 and changes nothing on a table that is not sound, and keeps it sound else.
#[track_caller]
fn answers_by_soundness(table: &Table) {
    let was_sound = sound(table);
    for call in calls() {
        let mut given = table.clone();
        let outcome = run(&mut given, &call, Fault::None);
        assert_eq!(outcome.refusal != 1, was_sound);
        assert_eq!(sound(&given), was_sound);
        assert!(was_sound || (given == *table && agrees(&outcome, &Err(1))));
    }
}

#[test]
fn damaged_tables() {
    let mut random = Random(1);
    let mut still_sound = 0;
    for _ in 0..400 {
        let mut table = random.sound_table();
        assert!(sound(&table));
        for _ in 0..random.below(3) + 1 {
            random.damage(&mut table);
        }
        still_sound += u32::from(sound(&table));
        answers_by_soundness(&table);
    }
    assert!((20..200).contains(&still_sound), "{still_sound}");
}

/// Any values at all in the fields, and the largest value in every field.
#[test]
fn any_values() {
    let mut random = Random(2);
    for round in 0..100 {
        let mut table = Table::zero();
        let limit = random.pick(&[2, 4, 129, 65536]);
        let mut any = || if round == 0 { 65535 } else { random.below(limit) as u16 };
        table.capacity = any();
        table.last = any();
        table.used.fill_with(&mut any);
        table.kinds.fill_with(&mut any);
        table.contents.fill_with(&mut any);
        table.own.fill_with(&mut any);
        table.targets.fill_with(&mut any);
        table.bits.fill_with(&mut any);
        table.counts.fill_with(&mut any);
        table.cabins.fill_with(&mut any);
        table.quotas.fill_with(&mut any);
        answers_by_soundness(&table);
    }
}

/// Marked from each step alone: no step is reached from its own strong links, and each step in
/// use is step 0 or reached from step 0's.
fn marks_right(table: &Table) -> bool {
    let strong = table.strong_links();
    let reached = |from: usize, to: usize| mark(strong[from], &strong) >> to & 1 == 1;
    members(table.in_use()).all(|step| !reached(step, step) && (step == 0 || reached(0, step)))
}

#[test]
fn strengths_against_marks() {
    let mut random = Random(3);
    let mut right = 0;
    for _ in 0..1000 {
        let mut table = random.sound_table();
        assert!(marks_right(&table));
        for _ in 0..random.below(24) {
            let place = random.below(512);
            if table.targets[place] != 0 {
                table.bits[place] = 1 - table.bits[place];
            }
        }
        table.counts = table.counted();
        assert_eq!(sound(&table), marks_right(&table));
        right += u32::from(sound(&table));
    }
    assert!((300..900).contains(&right), "{right}");
}

/// W5's clauses, as they are written and with wide numbers, on a table that keeps document 01's.
fn as_w5_says(table: &Table) -> bool {
    let wide = |number: u16| u64::from(number);
    let in_use = || members(table.in_use()).filter(|&step| step != 0);
    let charge = |cabin: u64| in_use().filter(|&step| wide(table.cabins[step]) == cabin).count();
    let cabins: Vec<[u64; 3]> = (0..)
        .zip(pairs(&table.quotas))
        .map(|(cabin, [guarantee, limit])| [wide(guarantee), wide(limit), charge(cabin) as u64])
        .collect();
    let places = wide(table.capacity) - 1;
    let free = wide(table.capacity) - wide(table.size());
    cabins.iter().all(|[guarantee, limit, _]| guarantee <= limit)
        && cabins.iter().map(|[guarantee, ..]| guarantee).sum::<u64>() <= places
        && table.cabins[0] == 0
        && (0..128).all(|step| table.has(step as u16) || table.cabins[step] == 0)
        && in_use().all(|step| table.cabins[step] <= 7)
        && cabins.iter().all(|[_, limit, charge]| charge <= limit)
        && free
            >= cabins.iter().map(|[guarantee, _, charge]| guarantee.saturating_sub(*charge)).sum()
}

#[test]
fn cabins_against_the_words() {
    let mut random = Random(6);
    let mut right = 0;
    for _ in 0..4000 {
        let mut table = random.sound_table();
        assert!(as_w5_says(&table));
        match random.below(3) {
            0 => table.quotas = random.list(table.capacity, &[0; 8]),
            1 => table.cabins[random.below(128)] = random.pick(&[0, 1, 2, 3, 4, 5, 6, 7, 8]),
            _ => {
                let change = random.pick(&[1, 2, 32768, 65535]);
                let quota = &mut table.quotas[random.below(16)];
                *quota = quota.wrapping_add(change);
            }
        }
        assert_eq!(sound(&table), as_w5_says(&table));
        right += u32::from(sound(&table));
    }
    assert!((1000..3000).contains(&right), "{right}");
}
