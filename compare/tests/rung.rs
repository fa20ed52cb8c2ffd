//! Who can be rung, through the interface and on the second program, the plain plan and trials held to it: the caretaker's plan, every small plan with
//! every short list of results, the tables of histories, the smallest and the largest tables, buffers of all lengths, tables that are not sound, one that
//! nobody can write to, and the laws.

use compare::{
    as_said, both, both_and_plan, damaged_tables, full_ring, lend, proved, ring,
    tables_of_histories, RING,
};
use reference::calls::{add, fresh_for_cabin_0, Command};
use reference::generate::{caretakers_plan, small_plans};
use reference::history::{Call, UNTOUCHED};
use reference::laws::{self, entered, rung_by_trials, Program};
use reference::rung::fewest_results;
use reference::sound::{CONTACT, MESSAGE, WAIT};
use reference::steps::STEPS_ROOM;
use reference::table::Table;
use std::ops::Range;
use telephone::raw;

/// The kinds of a step that can be added.
const KINDS: [u16; 3] = [CONTACT, MESSAGE, WAIT];

/// Tells who can be rung by both programs and by the plan, and holds it to trials: these steps are listed, and so many of them are contacts.
#[track_caller]
fn rings(table: &Table, steps: &[u8], contacts: usize) {
    let told = rung_by_trials(&both_and_plan, table, 130);
    assert_eq!((told.refusal, &told.numbers[..]), (0, &[steps.len(), contacts][..]));
    assert_eq!(told.lent, [steps, &vec![UNTOUCHED; 130 - steps.len()]].concat());
}

/// The flat's no reply is cleared: nothing is freed, and the primary and nine more contacts can no longer be rung.
#[test]
fn the_caretakers_plan() {
    let mut table = caretakers_plan();
    let all: Vec<u8> = (1..13).collect();
    rings(&table, &all, 11);
    let fewest = fewest_results(&table);
    assert_eq!((&fewest[&2], &fewest[&3], &fewest[&12]), (&vec![], &vec![2], &vec![2; 10]));
    let clear = Command::Clear { step: 2, exit: 2 };
    assert_eq!(both(&mut table, &Call::Edit(clear)).numbers, [10, 0]);
    rings(&table, &all[..2], 1);
    // the alarm's engaged exit still holds them, and the flat's engaged exit would ring them again
    let link = Command::Link { source: 0, source_exit: 1, second: 2, second_exit: 1 };
    assert_eq!(both(&mut table, &Call::Edit(link)).refusal, 0);
    rings(&table, &all, 11);
}

/// No step; one step behind each exit of step 0; 127 steps of one kind in a ring, and in a chain along each exit; 127 contacts with every exit filled.
#[test]
fn smallest_and_largest() {
    let all: Vec<u8> = (1..128).collect();
    for capacity in [1, 2, 128] {
        rings(&fresh_for_cabin_0(capacity), &[], 0);
    }
    rings(&full_ring(), &all, 127);
    for kind in KINDS {
        let expect = |table: &Table, steps: &[u8]| {
            rings(table, steps, if kind == CONTACT { steps.len() } else { 0 });
        };
        expect(&ring(&[kind; 127]), &all);
        for exit in 0..4 {
            let mut table = fresh_for_cabin_0(2);
            assert_eq!(add(&mut table, 0, exit, kind, 1, 0).refusal, 0);
            expect(&table, if exit == 0 { &[1] } else { &[] });
            let mut table = fresh_for_cabin_0(128);
            assert_eq!(add(&mut table, 0, 0, kind, 1, 0).refusal, 0);
            for step in 1..127 {
                assert_eq!(add(&mut table, step, exit, kind, 1, 0).refusal, 0);
            }
            expect(&table, if kind == CONTACT || exit == 0 { &all } else { &[1] });
        }
    }
}

/// The steps that trials by the proved library alone enter in a small plan with each of these lists. No trial makes more moves but in a ring of waits and
/// messages.
fn small_trials(table: &Table, lists: &[Vec<u8>]) -> Vec<Vec<u8>> {
    let (table, mut trace) = (lend(table), [0; 16]);
    let entered = |results: &Vec<u8>| {
        let raw::TrialReply { refusal, moves, .. } = raw::trial(&table, 16, results, &mut trace);
        assert_eq!(refusal, 0);
        trace[..usize::from(moves)].to_vec()
    };
    lists.iter().map(entered).collect()
}

/// Every plan of one step, and of two steps with links in three exits. No step of these needs two results.
#[test]
fn every_plan_of_one_or_two_steps() {
    let plans = small_plans(1, &[0, 1, 2, 3], &KINDS).chain(small_plans(2, &[0, 1, 3], &KINDS));
    let [plans, none, one, two, silent] =
        laws::small_plans_rung(&both_and_plan, &small_trials, plans);
    assert_eq!((plans, two), (72_405, 0));
    assert!([none, one, silent].iter().all(|&steps| steps > 10_000), "{none} {one} {silent}");
}

/// Every plan of three steps with links in two exits.
#[test]
fn every_plan_of_three_steps() {
    let plans = small_plans(3, &[0, 2], &KINDS);
    let [plans, found @ ..] = laws::small_plans_rung(&both_and_plan, &small_trials, plans);
    assert_eq!(plans, 141_696);
    assert!(found.iter().all(|&steps| steps > 4000), "{found:?}");
}

/// The tables of histories, every so many calls; each step listed is entered by a trial of the proved library.
#[test]
fn tables_in_histories() {
    let mut found = [0; 3];
    tables_of_histories(436..460, 300, 10, |table| {
        let told = rung_by_trials(&both_and_plan, table, STEPS_ROOM);
        for (step, results) in fewest_results(table) {
            assert!(entered(&proved, table, &results, 127).contains(&step));
        }
        found[0] += told.numbers[0];
        found[1] += told.numbers[1];
        found[2] += usize::from(table.size()) - 1 - told.numbers[0];
    });
    assert!(found.iter().all(|&found| found > 1000), "{found:?}");
}

/// Each length up to some, and those at and past 16 bits, where 16 bits would leave nothing of the length, too little and just enough. Fewer than 127
/// bytes get 11, whoever can be rung, and of more only the first ones are written.
#[test]
fn buffers() {
    let long = [65_535, 65_536, 65_537, 65_536 + 126, 65_536 + 127, 131_072, 1_000_000];
    let few = ring(&[MESSAGE, CONTACT, WAIT]);
    for (table, steps) in [(fresh_for_cabin_0(1), 0), (few, 3), (full_ring(), 127)] {
        for buffer in (0..=140).chain(long) {
            let told = rung_by_trials(&both_and_plan, &table, buffer);
            let (refusal, written) = if buffer < 127 { (11, 0) } else { (0, steps) };
            assert_eq!((told.refusal, told.numbers[0]), (refusal, written));
            let past = &told.lent[written..];
            assert!(past.len() + written == buffer && past.iter().all(|&byte| byte == UNTOUCHED));
        }
    }
}

/// Damaged tables, most of which are not sound: 1, whatever the buffer.
#[test]
fn unsound_tables() {
    damaged_tables(2800..3000, |table, is_sound| {
        for buffer in [0, 126, 127] {
            if is_sound {
                rung_by_trials(&both_and_plan, table, buffer);
            } else {
                let told = as_said(table, &Call::Rung { buffer });
                assert_eq!(told.refusal, 1);
            }
        }
    });
}

#[test]
fn a_table_that_nobody_can_write_to() {
    for (room, reply, steps) in
        [(127, [0, 2, 2], &[1, 2][..]), (126, [11, 0, 0], &[]), (0, [11, 0, 0], &[])]
    {
        let mut buffer = vec![UNTOUCHED; room];
        let raw::Reply { refusal, first, second } = raw::rung(&RING, &mut buffer);
        assert_eq!([refusal, first, second], reply);
        assert_eq!(buffer, [steps, &vec![UNTOUCHED; room - steps.len()]].concat());
    }
}

/// The laws, on tables with these seeds, and in histories.
fn laws_hold(program: Program, [tables, cleared, histories]: [Range<u64>; 3]) {
    let found = laws::who_can_be_rung(program, tables);
    let [never_taken, silenced] = laws::clearings_silence(program, cleared);
    let [told, left_out] = laws::rung_in_histories(program, histories);
    println!("{found:?}, {never_taken} {silenced}, {told} {left_out}");
    assert!(found.iter().all(|&found| found > 100) && never_taken > 500 && silenced > 200);
    assert!(told > 200 && left_out > 100);
}

/// Each call is made by both programs and by the plan.
#[test]
fn laws_hold_of_both() {
    laws_hold(&both_and_plan, [3000..3040, 3040..3060, 288..318]);
}

#[test]
fn laws_hold_of_the_proved_library() {
    laws_hold(&proved, [3100..3160, 3160..3200, 318..366]);
}
