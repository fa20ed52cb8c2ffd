//! Single calls on chosen tables: the cases of document 01, every content, and every refusal's order on wild tables.

use compare::{every_content, lend, two_steps, words, Pair, WORDS};
use reference::cabins::one_cabin;
use reference::calls::{fresh_for_cabin_0, Command};
use reference::faults::Fault;
use reference::generate::{key_text, Random};
use reference::history::{Call, Start};
use reference::slip::between;
use reference::sound::sound;
use reference::table::Table;
use telephone::raw;

/// An add for cabin 0.
fn add(holder: u16, exit: u16, kind: u16, content: u16) -> Call {
    Call::Edit(Command::Add { holder, exit, kind, content, cabin: 0 })
}

fn link(source: u16, source_exit: u16, second: u16, second_exit: u16) -> Call {
    Call::Edit(Command::Link { source, source_exit, second, second_exit })
}

fn clear(step: u16, exit: u16) -> Call {
    Call::Edit(Command::Clear { step, exit })
}

/// Runs calls on both programs from a fresh table for cabin 0; each has to answer these three numbers.
fn case(capacity: u16, calls: &[(Call, [usize; 3])]) -> Table {
    let mut pair = Pair::new(&fresh_for_cabin_0(capacity), Fault::None);
    for (call, [refusal, first, second]) in calls {
        let outcome = pair.call(call).unwrap();
        assert_eq!(usize::from(outcome.refusal), *refusal, "{call:?}");
        assert_eq!(outcome.numbers[..2], [*first, *second], "{call:?}");
    }
    pair.second
}

#[test]
fn edition_fits() {
    assert_eq!(telephone::check_edition(), Ok(()));
}

#[test]
fn fresh_agrees() {
    for capacity in (0..=300).chain([32767, 32768, 65408, 65535]) {
        let start = Start::Fresh { capacity, quotas: one_cabin(capacity) };
        let (_, compared) = Pair::begin(&start, Fault::None);
        let accepted = (1..=128).contains(&capacity);
        assert_eq!(compared.unwrap().refusal, if accepted { 0 } else { 2 }, "fresh {capacity}");
    }
}

#[test]
fn examples_of_document_01() {
    let p5 = case(
        4,
        &[
            (add(0, 0, 1, 0), [0, 1, 0]),
            (add(1, 2, 1, 1), [0, 2, 0]),
            (link(0, 0, 2, 2), [0, 0, 0]),
            (link(1, 2, 0, 1), [0, 0, 0]),
            (clear(0, 0), [0, 2, 0]),
        ],
    );
    assert_eq!((p5.own[1], p5.own[2], p5.bits[1], p5.bits[10], p5.bits[6]), (1, 1, 1, 1, 0));
    case(
        4,
        &[
            (add(0, 0, 1, 0), [0, 1, 0]),
            (add(1, 2, 1, 1), [0, 2, 0]),
            (link(0, 0, 2, 2), [0, 0, 0]),
            (link(1, 2, 0, 1), [0, 0, 0]),
            (clear(0, 0), [0, 2, 0]),
            (clear(0, 1), [0, 2, 2]),
            (add(0, 0, 3, 600), [0, 3, 0]),
            (add(3, 0, 2, 15), [0, 1, 0]),
        ],
    );
    case(
        4,
        &[(add(0, 0, 1, 0), [0, 1, 0]), (link(0, 0, 1, 0), [0, 0, 0]), (clear(0, 0), [0, 1, 1])],
    );
    case(
        4,
        &[(add(0, 0, 1, 0), [0, 1, 0]), (link(0, 0, 0, 1), [0, 0, 0]), (clear(0, 0), [0, 1, 0])],
    );
    let lines: [(&[u8], _); 5] = [
        (b"H*100001000A", [0, 1, 0]),
        (b"H*200000012A", [0, 0, 0]),
        (b"H*30000A", [0, 1, 1]),
        (b"H*4A", [0, 1, 127]),
        (b"H*30000A", [6, 0, 0]),
    ];
    case(128, &lines.map(|(line, numbers)| (Call::KeyLine(line.to_vec()), numbers)));
    let long = vec![b'H'; 1 << 20];
    case(128, &[(Call::KeyLine(long), [9, 0, 0]), (Call::KeyLine(Vec::new()), [9, 0, 0])]);
    case(4, &[(Call::Write { buffer: 63 }, [11, 0, 0]), (Call::Write { buffer: 64 }, [0, 64, 0])]);
    case(4, &[(Call::ImageLength, [0, 64, 0]), (Call::Edit(Command::Count), [0, 1, 3])]);
    case(1, &[(add(0, 0, 1, 0), [8, 0, 0])]);
    case(
        4,
        &[
            (Call::Read { step: 1 }, [3, 0, 0]),
            (clear(0, 4), [4, 0, 0]),
            (clear(0, 0), [6, 0, 0]),
            (add(0, 0, 3, 0), [7, 0, 0]),
            (add(0, 0, 3, 601), [7, 0, 0]),
            (add(0, 0, 1, 1000), [7, 0, 0]),
            (add(256, 0, 1, 0), [3, 0, 0]),
            (add(0, 256, 1, 0), [4, 0, 0]),
            (add(0, 0, 257, 0), [7, 0, 0]),
            (Call::KeyLine(b"H*5A".to_vec()), [9, 0, 0]),
            (Call::Trial { limit: 2, results: vec![0, 4], trace: 2 }, [10, 0, 0]),
            (Call::Trial { limit: 2, results: vec![0, 3], trace: 1 }, [11, 0, 0]),
            (add(0, 0, 1, 0), [0, 1, 0]),
            (add(0, 0, 1, 0), [5, 0, 0]),
            (add(0, 1, 1, 999), [0, 2, 0]),
            (Call::KeyLine(b"H*100021999A".to_vec()), [0, 3, 0]),
        ],
    );
}

/// Every content of each kind, added: 1000 contacts, 16 messages and 600 waits are accepted.
#[test]
fn every_content_agrees() {
    let mut accepted = [0; 5];
    let start = fresh_for_cabin_0(4);
    for (kind, content) in every_content() {
        let mut pair = Pair::new(&start, Fault::None);
        let outcome = pair.call(&add(0, 0, kind, content)).unwrap();
        let (expected, refusal) = match outcome.refusal {
            0 => (two_steps(kind, content), 0),
            _ => (start.clone(), 7),
        };
        assert!(pair.second == expected && outcome.refusal == refusal, "{kind} {content}");
        accepted[usize::from(kind)] += usize::from(outcome.refusal == 0);
    }
    assert_eq!(accepted, [0, 1000, 16, 600, 0]);
}

/// Each call once, with arguments in range and out of it, on one table.
fn every_call(table: &Table, random: &mut Random) {
    let mut calls = vec![
        Call::Read { step: 0 },
        Call::Write { buffer: 2900 },
        Call::ImageLength,
        Call::Edit(Command::Count),
        Call::Squeeze { capacity: table.size(), quotas: table.quotas },
        Call::KeyLine(b"H*4A".to_vec()),
    ];
    for _ in 0..3 {
        let mut number = || random.pick(&[0, 0, 1, 1, 2, 3, 4, 7, 127, 128, 300, 999, 1000, 65535]);
        let [a, b, c, d] = [number(), number(), number(), number()];
        let cabin = number() % 10;
        let quotas = random.list(a, &table.charges());
        calls.extend([
            Call::Edit(Command::Add { holder: a, exit: b % 6, kind: c, content: d, cabin }),
            link(a, b % 6, c, d % 6),
            clear(a, b % 6),
            Call::ClearWithSlip { step: a, exit: b % 6, buffer: usize::from(c) * 50 },
            Call::TakeBack { slip: vec![a as u8; usize::from(c)] },
            Call::PreviewClear { step: a, exit: b % 6, buffer: usize::from(c) },
            Call::Rung { buffer: usize::from(d) },
            Call::Read { step: a },
            Call::Squeeze { capacity: a, quotas },
        ]);
        // a slip that fits the table but for what its target may be
        let mut before = table.clone();
        before.targets[usize::from(a) % 128 * 4 + usize::from(b) % 4] = c;
        calls.push(Call::TakeBack { slip: between(&before, table, a % 128, b % 4) });
        calls.push(Call::KeyLine(key_text(Command::Clear { step: a % 1000, exit: b % 10 })));
        calls.push(Call::Trial {
            limit: d % 8,
            results: vec![a as u8 % 5, b as u8 % 4, 0, 1],
            trace: usize::from(c % 8),
        });
    }
    for call in calls {
        Pair::new(table, Fault::None).call(&call).unwrap();
    }
}

/// Tables damaged in a few fields, tables of random words, and tables whose bytes are all the same.
#[test]
fn wild_tables() {
    let mut random = Random(21);
    let (mut stayed, mut broke) = (0, 0);
    for seed in 0..400 {
        let mut table = Random(seed).sound_table();
        for _ in 0..1 + seed % 3 {
            random.damage(&mut table);
        }
        assert_eq!(raw::is_sound(&lend(&table)), u16::from(sound(&table)), "seed {seed}");
        *if sound(&table) { &mut stayed } else { &mut broke } += 1;
        every_call(&table, &mut random);
    }
    assert!(stayed > 20 && broke > 200, "{stayed} sound, {broke} not");
    for byte in 0..=255u8 {
        let word = u16::from_ne_bytes([byte, byte]);
        let mut table = Table::zero();
        words(&mut table).for_each(|field| *field = word);
        assert_eq!(raw::is_sound(&lend(&table)), 0);
        every_call(&table, &mut random);
    }
    for bound in [2, 3, 129, 65536] {
        for _ in 0..60 {
            let mut table = Random(random.number()).sound_table();
            let from = random.pick(&[0, 2, 130, 514, 1026, 1794, 1922]);
            for field in words(&mut table).skip(from) {
                *field = random.below(bound) as u16;
            }
            assert_eq!(raw::is_sound(&lend(&table)), u16::from(sound(&table)));
            every_call(&table, &mut random);
        }
    }
}

/// One word of a sound table at a time, changed to each of a few numbers: the two soundness tests agree.
#[test]
fn soundness_agrees_word_by_word() {
    for seed in 30..34 {
        let table = Random(seed).sound_table();
        for at in 0..WORDS {
            for value in [0, 1, 2, 7, 8, 127, 128, 999, 1000, 65535] {
                let mut changed = table.clone();
                *words(&mut changed).nth(at).unwrap() = value;
                let found = raw::is_sound(&lend(&changed));
                assert_eq!(
                    found,
                    u16::from(sound(&changed)),
                    "seed {seed}, word {at}, value {value}"
                );
            }
        }
    }
}
