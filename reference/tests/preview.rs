//! W8's sentences on examples with the numbers written out, the order of the refusals, buffers of
//! all lengths, tables that are not sound, and the laws on every small table and on generated tables
//! and histories. `histories` has the faults.

use reference::cabins::list;
use reference::calls::{add, clear, fresh, fresh_for_cabin_0, link, Answer};
use reference::faults::{Fault, Length};
use reference::generate::{small_tables, Random};
use reference::history::{begin, run, Call, Outcome, Start, UNTOUCHED};
use reference::laws;
use reference::plan::plan_of;
use reference::preview::preview_clear;
use reference::sound::sound;
use reference::steps::STEPS_ROOM;
use reference::table::{place, Table, EXITS};

fn yes(first: u16, second: u16) -> Answer {
    Answer { refusal: 0, first, second }
}

/// Checks that so many steps would be doubtful and these would go. The other bytes stay, and the
/// clearing, made next, gives the same counts and frees these steps.
#[track_caller]
fn tells(table: &Table, step: u16, exit: u16, doubtful: u16, steps: &[u8]) {
    let counts = yes(doubtful, steps.len() as u16);
    let mut buffer = [UNTOUCHED; STEPS_ROOM];
    assert_eq!(preview_clear(table, step, exit, &mut buffer), counts);
    assert_eq!(buffer[..steps.len()], *steps);
    assert_eq!(buffer[steps.len()..], vec![UNTOUCHED; STEPS_ROOM - steps.len()]);
    let mut cleared = table.clone();
    assert_eq!(clear(&mut cleared, step, exit), counts);
    let freed = (0..128).filter(|&step| table.has(step.into()) && !cleared.has(step.into()));
    assert_eq!(freed.collect::<Vec<u8>>(), steps);
}

/// Checks that a preview into a buffer of that length is refused, and writes nothing.
#[track_caller]
fn refuses(refusal: u16, table: &Table, step: u16, exit: u16, length: usize) {
    let mut buffer = vec![UNTOUCHED; length];
    let answer = preview_clear(table, step, exit, &mut buffer);
    assert_eq!(answer, Answer { refusal, first: 0, second: 0 });
    assert_eq!(buffer, vec![UNTOUCHED; length]);
}

/// Capacity 4, with a ring: step 0 leads to 1 by exit 0, 1 to 2 by exit 2, both strong, and 2 back
/// to 1 by exit 2, weak.
fn ring() -> Table {
    let mut table = fresh_for_cabin_0(4);
    assert_eq!(add(&mut table, 0, 0, 1, 0, 0), yes(1, 0));
    assert_eq!(add(&mut table, 1, 2, 1, 1, 0), yes(2, 0));
    assert_eq!(link(&mut table, 0, 0, 2, 2), yes(0, 0));
    table
}

/// The chain 0, 1 and so on of so many steps along exit 3, in a table that has no place more.
fn chain(steps: u16) -> Table {
    let mut table = fresh_for_cabin_0(steps);
    for step in 1..steps {
        assert_eq!(add(&mut table, step - 1, 3, 3, 600, 0), yes(step, 0));
    }
    table
}

#[test]
fn a_ring_that_goes() {
    let table = ring();
    tells(&table, 0, 0, 2, &[1, 2]);
    tells(&table, 1, 2, 1, &[2]);
    tells(&table, 2, 2, 0, &[]);
}

/// P4 to P6: the weak link from step 0 to 2 keeps the ring, until it alone holds it.
#[test]
fn a_ring_that_a_weak_link_keeps() {
    let mut table = ring();
    assert_eq!(link(&mut table, 1, 2, 0, 1), yes(0, 0));
    tells(&table, 0, 0, 2, &[]);
    tells(&table, 0, 1, 0, &[]);
    tells(&table, 1, 2, 1, &[]);
    assert_eq!(clear(&mut table, 0, 0), yes(2, 0));
    tells(&table, 0, 1, 2, &[1, 2]);
    tells(&table, 2, 2, 1, &[1]);
    tells(&table, 1, 2, 0, &[]);
}

/// The first steps of a chain go, and what a weak link leads to, with all behind it, stays. It may
/// come from step 0 or from a step that is beside the chain, but not from one that goes.
#[test]
fn a_part_of_a_chain() {
    let mut table = fresh_for_cabin_0(8);
    for step in 0..5 {
        assert_eq!(add(&mut table, step, 3, 1, 0, 0), yes(step + 1, 0));
    }
    assert_eq!(add(&mut table, 0, 1, 1, 0, 0), yes(6, 0));
    tells(&table, 0, 3, 5, &[1, 2, 3, 4, 5]);
    tells(&table, 2, 3, 3, &[3, 4, 5]);
    let mut from_behind = table.clone();
    assert_eq!(link(&mut from_behind, 1, 3, 5, 0), yes(0, 0));
    tells(&from_behind, 0, 3, 5, &[1, 2, 3, 4, 5]);
    for holder in [0, 6] {
        let mut table = table.clone();
        assert_eq!(link(&mut table, 2, 3, holder, 2), yes(0, 0));
        tells(&table, 0, 3, 5, &[1, 2]);
        tells(&table, 1, 3, 4, &[2]);
        tells(&table, 2, 3, 3, &[]);
        tells(&table, 3, 3, 2, &[4, 5]);
        tells(&table, holder, 2, 0, &[]);
    }
}

/// P8: a link of a step to itself holds nothing.
#[test]
fn a_step_that_leads_to_itself() {
    let mut table = fresh_for_cabin_0(4);
    assert_eq!(add(&mut table, 0, 0, 1, 0, 0), yes(1, 0));
    assert_eq!(link(&mut table, 0, 0, 1, 0), yes(0, 0));
    tells(&table, 0, 0, 1, &[1]);
    tells(&table, 1, 0, 0, &[]);
}

/// P9, with a second copy: a weak exit, and then two strong ones, of which each is enough.
#[test]
fn a_target_that_still_has_a_strong_link() {
    let mut table = fresh_for_cabin_0(4);
    assert_eq!(add(&mut table, 0, 0, 1, 0, 0), yes(1, 0));
    assert_eq!(link(&mut table, 0, 0, 0, 1), yes(0, 0));
    assert_eq!(link(&mut table, 0, 0, 0, 2), yes(0, 0));
    tells(&table, 0, 0, 1, &[]);
    tells(&table, 0, 1, 0, &[]);
    assert_eq!(clear(&mut table, 0, 0), yes(1, 0));
    assert_eq!((table.counts[2], table.counts[3], table.own[1]), (0, 2, 1));
    tells(&table, 0, 1, 0, &[]);
    tells(&table, 0, 2, 0, &[]);
    assert_eq!(clear(&mut table, 0, 1), yes(0, 0));
    tells(&table, 0, 2, 1, &[1]);
}

/// The numbers ascend, whatever leads to what: step 0 leads to 3, 3 to 1 and 1 to 2.
#[test]
fn numbers_ascend() {
    let mut table = fresh_for_cabin_0(4);
    for exit in 0..2 {
        assert_eq!(add(&mut table, 0, exit, 1, 0, 0), yes(exit + 1, 0));
    }
    assert_eq!((clear(&mut table, 0, 0), clear(&mut table, 0, 1)), (yes(1, 1), yes(1, 1)));
    assert_eq!(add(&mut table, 0, 0, 3, 600, 0), yes(3, 0));
    assert_eq!(add(&mut table, 3, 0, 2, 15, 0), yes(1, 0));
    assert_eq!(add(&mut table, 1, 0, 2, 15, 0), yes(2, 0));
    tells(&table, 0, 0, 3, &[1, 2, 3]);
    tells(&table, 3, 0, 2, &[1, 2]);
}

/// All 127 steps go, which is why the buffer must hold 127 bytes; or all are doubtful and stay.
#[test]
fn the_whole_table() {
    let mut table = chain(128);
    let all: Vec<u8> = (1..128).collect();
    tells(&table, 0, 3, 127, &all);
    tells(&table, 126, 3, 1, &[127]);
    assert_eq!(link(&mut table, 0, 3, 0, 0), yes(0, 0));
    tells(&table, 0, 3, 127, &[]);
    tells(&table, 0, 0, 0, &[]);
    tells(&table, 1, 3, 126, &all[1..]);
}

/// Steps go whichever cabins added them, and guarantees and limits do not matter.
#[test]
fn steps_of_any_cabin() {
    let (mut table, _) = fresh(4, list(&[[0, 1], [1, 1], [1, 9]]));
    assert_eq!(add(&mut table, 0, 0, 1, 0, 2), yes(1, 0));
    assert_eq!(add(&mut table, 1, 1, 1, 0, 0), yes(2, 0));
    assert_eq!(add(&mut table, 1, 2, 1, 0, 1), yes(3, 0));
    tells(&table, 0, 0, 3, &[1, 2, 3]);
    tells(&table, 1, 1, 1, &[2]);
}

/// One plan with other strengths: the same steps go, and other ones are doubtful.
#[test]
fn other_strengths_of_one_plan() {
    let mut table = ring();
    assert_eq!(link(&mut table, 1, 2, 0, 1), yes(0, 0));
    let mut other = table.clone();
    // step 2 turns its bit, so that it is held by step 0 and not by 1, and holds 1 weakly
    other.own[2] = 1;
    assert!(sound(&other) && plan_of(&other) == plan_of(&table));
    tells(&table, 0, 0, 2, &[]);
    tells(&other, 0, 0, 1, &[]);
    tells(&table, 0, 1, 0, &[]);
    tells(&other, 0, 1, 1, &[]);
    tells(&table, 1, 2, 1, &[]);
    tells(&other, 1, 2, 0, &[]);
}

/// 1, 3, 4, 6, then 11. A refused preview writes nothing.
#[test]
fn the_order_of_a_preview() {
    let table = ring();
    let mut unsound = table.clone();
    unsound.counts[2] += 1;
    for (refusal, table, step, exit) in [
        (1, &unsound, 0, 0),
        (1, &unsound, 65535, 65535),
        (1, &Table::zero(), 0, 0),
        (3, &table, 3, 0),
        (3, &table, 4, 65535),
        (3, &table, 128, 0),
        (3, &table, 256, 0),
        (3, &table, 65535, 4),
        (4, &table, 0, 4),
        (4, &table, 1, 256),
        (4, &table, 2, 65535),
        (6, &table, 0, 1),
        (6, &table, 2, 0),
        (6, &fresh_for_cabin_0(1), 0, 3),
    ] {
        for length in [0, 1, 126, 127, 65_536 + 126] {
            refuses(refusal, table, step, exit, length);
        }
    }
}

/// 127 bytes are asked of every table, and even where nothing would go: where two steps would, where
/// the exit is weak, where a weak link keeps the target, and where there is but one step to go.
#[test]
fn short_buffers() {
    let mut kept = ring();
    assert_eq!(link(&mut kept, 1, 2, 0, 1), yes(0, 0));
    for (table, step, exit) in
        [(&ring(), 0, 0), (&ring(), 2, 2), (&kept, 0, 0), (&chain(2), 0, 3), (&chain(128), 0, 3)]
    {
        for length in [0, 1, 2, 3, 4, 64, 125, 126] {
            refuses(11, table, step, exit, length);
        }
    }
}

/// 127 bytes are enough, and of more only the first ones are written, past 16 bits too.
#[test]
fn long_buffers() {
    let chain = chain(128);
    let all: Vec<u8> = (1..128).collect();
    for length in [127, 128, 129, 255, 256, 65_535, 65_536, 65_536 + 126, 65_536 + 127, 1_000_000] {
        for (table, step, exit, counts, steps) in [
            (&ring(), 0, 0, yes(2, 2), &[1, 2][..]),
            (&ring(), 2, 2, yes(0, 0), &[]),
            (&chain, 0, 3, yes(127, 127), &all),
            (&chain, 63, 3, yes(64, 64), &all[63..]),
        ] {
            let mut buffer = vec![UNTOUCHED; length];
            assert_eq!(preview_clear(table, step, exit, &mut buffer), counts);
            let (written, past) = buffer.split_at(steps.len());
            assert!(written == steps && past.iter().all(|&byte| byte == UNTOUCHED));
        }
    }
    let call = Call::PreviewClear { step: 0, exit: 0, buffer: 65_536 + 126 };
    assert_eq!(right(&mut ring(), &call).refusal, 0);
    assert_eq!(run(&mut ring(), &call, Fault::Cut(Length::Buffer)).refusal, 11);
}

/// The plan, which is told nothing, knows the refusal and the steps that would go, and stays.
#[test]
fn what_the_plan_says() {
    let plan = plan_of(&ring());
    for (step, exit, buffer, said) in [
        (0, 0, 127, Ok([None, Some(2)].into())),
        (1, 2, 128, Ok([None, Some(1)].into())),
        (2, 2, 65_536, Ok([None, Some(0)].into())),
        (2, 2, 126, Err(11)),
        (2, 0, 126, Err(6)),
        (2, 4, 126, Err(4)),
        (3, 4, 126, Err(3)),
    ] {
        let call = Call::PreviewClear { step, exit, buffer };
        assert!(!call.told(11) && call.command().is_none());
        let mut drawn = plan.clone();
        assert_eq!(drawn.draw(&call, false), said);
        assert_eq!(drawn, plan);
    }
}

/// Damaged tables get 1, whatever the exit and the buffer, unless they are sound all the same.
#[test]
fn damaged_tables() {
    let mut random = Random(12);
    let mut unsound = 0;
    for seed in 0..300 {
        let mut table = Random(seed).sound_table();
        random.damage(&mut table);
        for (step, exit) in [(0, 0), (1, 3), (127, 0), (128, 4), (65535, 65535)] {
            for length in [0, 126, 127] {
                if sound(&table) {
                    laws::foretold(&right, &table, step, exit, length);
                } else {
                    refuses(1, &table, step, exit, length);
                    unsound += 1;
                }
            }
        }
    }
    assert!(unsound > 1000, "{unsound}");
}

/// A call without a fault.
fn right(table: &mut Table, call: &Call) -> Outcome {
    run(table, call, Fault::None)
}

/// Every exit of every small table, with all the strengths that it may have.
#[test]
fn every_small_table() {
    let (mut tables, mut found) = (0, [0; 4]);
    for table in small_tables() {
        tables += 1;
        for at in (0..3 * EXITS).filter(|&at| table.targets[at] != 0) {
            let (step, exit) = ((at / EXITS) as u16, (at % EXITS) as u16);
            assert_eq!(place(step.into(), exit.into()), at);
            let told = laws::foretold(&right, &table, step, exit, STEPS_ROOM);
            let [doubtful, freed] = told.numbers[..] else { unreachable!() };
            found[usize::from(doubtful > 0) + usize::from(freed > 0)] += 1;
            found[3] += usize::from(freed > 0 && freed < doubtful);
        }
    }
    assert!(tables == 5184 && found.iter().all(|&found| found > 100), "{tables} {found:?}");
}

#[test]
fn previews_foretell() {
    let found = laws::previews_foretell(&right, 680..760);
    assert!(found.iter().all(|&found| found > 100), "{found:?}");
}

#[test]
fn strengths_do_not_matter() {
    let load = |start: &Start| begin(start, Fault::None);
    let [told, other] = laws::strengths_do_not_matter(&load, &right, 760..880);
    assert!(told > 500 && other > 1000, "{told} {other}");
}

#[test]
fn previews_of_histories_foretell() {
    let [told, made] = laws::previews_of_histories(&right, 0..72);
    assert!(told > 300 && made > 30, "{told} {made}");
}
