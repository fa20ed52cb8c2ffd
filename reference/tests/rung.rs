//! Who can be rung: examples with the numbers written out, the order of the refusals, buffers of all
//! lengths, tables that are not sound, small plans with every short list of results, the laws on
//! generated tables and histories, and wrong programs, which break them. `histories` has the faults.

use reference::calls::{add, clear, fresh_for_cabin_0, link, Answer};
use reference::faults::{Fault, Length};
use reference::generate::{caretakers_plan, small_plans, Random};
use reference::history::{run, Call, Outcome, UNTOUCHED};
use reference::laws::{self, Program};
use reference::plan::{plan_of, Known};
use reference::rung::{fewest_results, rung};
use reference::sound::{sound, CONTACT, MESSAGE, WAIT};
use reference::steps::STEPS_ROOM;
use reference::table::Table;

fn yes(first: u16, second: u16) -> Answer {
    Answer { refusal: 0, first, second }
}

/// Checks that these steps can be rung, so many contacts among them, and that the other bytes stay.
#[track_caller]
fn rings(table: &Table, steps: &[u8], contacts: u16) {
    let mut buffer = [UNTOUCHED; STEPS_ROOM];
    assert_eq!(rung(table, &mut buffer), yes(steps.len() as u16, contacts));
    assert_eq!(buffer[..steps.len()], *steps);
    assert_eq!(buffer[steps.len()..], vec![UNTOUCHED; STEPS_ROOM - steps.len()]);
}

/// Checks that a call with a buffer of that length is refused, and writes nothing.
#[track_caller]
fn refuses(refusal: u16, table: &Table, length: usize) {
    let mut buffer = vec![UNTOUCHED; length];
    assert_eq!(rung(table, &mut buffer), Answer { refusal, first: 0, second: 0 });
    assert_eq!(buffer, vec![UNTOUCHED; length]);
}

/// Step 1 at exit 0 of step 0, and a contact behind exits 0 to 3 of it, steps 2 to 5.
fn fan(kind: u16) -> Table {
    let mut table = fresh_for_cabin_0(8);
    assert_eq!(add(&mut table, 0, 0, kind, 1, 0), yes(1, 0));
    for exit in 0..4 {
        assert_eq!(add(&mut table, 1, exit, CONTACT, exit, 0), yes(2 + exit, 0));
    }
    table
}

/// The flat's no reply is cleared: all steps stay in use, and ten contacts can no longer be rung.
#[test]
fn the_caretakers_plan() {
    let mut table = caretakers_plan();
    let all: Vec<u8> = (1..13).collect();
    rings(&table, &all, 11);
    assert_eq!(clear(&mut table, 2, 2), yes(10, 0));
    assert_eq!(table.size(), 13);
    rings(&table, &all[..2], 1);
    assert_eq!(link(&mut table, 0, 1, 2, 3), yes(0, 0));
    rings(&table, &all, 11);
}

/// The alarm and a message or a wait take the answered exit, and a contact any.
#[test]
fn exits_that_are_taken() {
    rings(&fan(CONTACT), &[1, 2, 3, 4, 5], 5);
    for kind in [MESSAGE, WAIT] {
        rings(&fan(kind), &[1, 2], 1);
    }
    for exit in 1..4 {
        let mut table = fan(CONTACT);
        assert_eq!(add(&mut table, 0, exit, CONTACT, 9, 0), yes(6, 0));
        assert_eq!(add(&mut table, 6, 0, CONTACT, 9, 0), yes(7, 0));
        rings(&table, &[1, 2, 3, 4, 5], 5);
        // once a contact leads there by any exit, both can be rung
        assert_eq!(link(&mut table, 0, exit, 5, 4 - exit), yes(0, 0));
        rings(&table, &[1, 2, 3, 4, 5, 6, 7], 7);
    }
}

/// Rings of waits go on for ever, and what stands beside them is not entered; step 0 never is.
#[test]
fn rings_of_steps() {
    let mut table = fan(WAIT);
    assert_eq!(clear(&mut table, 1, 0), yes(1, 1));
    assert_eq!(link(&mut table, 0, 0, 1, 0), yes(0, 0));
    rings(&table, &[1], 0);
    assert_eq!(add(&mut table, 0, 2, CONTACT, 0, 0), yes(6, 0));
    assert_eq!(link(&mut table, 0, 0, 6, 1), yes(0, 0));
    rings(&table, &[1], 0);
    let mut table = fan(CONTACT);
    assert_eq!(link(&mut table, 0, 0, 5, 3), yes(0, 0));
    rings(&table, &[1, 2, 3, 4, 5], 5);
}

/// The numbers ascend, whatever leads to what: step 0 leads to 3, 3 to 1 and 1 to 2.
#[test]
fn numbers_ascend() {
    let mut table = fresh_for_cabin_0(4);
    for exit in 0..2 {
        assert_eq!(add(&mut table, 0, exit, CONTACT, 0, 0), yes(exit + 1, 0));
    }
    assert_eq!((clear(&mut table, 0, 0), clear(&mut table, 0, 1)), (yes(1, 1), yes(1, 1)));
    for (holder, number) in [(0, 3), (3, 1), (1, 2)] {
        assert_eq!(add(&mut table, holder, 0, CONTACT, 0, 0), yes(number, 0));
    }
    rings(&table, &[1, 2, 3], 3);
    assert_eq!(clear(&mut table, 1, 0), yes(1, 1));
    rings(&table, &[1, 3], 2);
}

/// No step at all; all 127, which is why the buffer must hold 127 bytes.
#[test]
fn the_smallest_and_the_largest() {
    for capacity in [1, 2, 128] {
        rings(&fresh_for_cabin_0(capacity), &[], 0);
    }
    let all: Vec<u8> = (1..128).collect();
    for kind in [CONTACT, MESSAGE, WAIT] {
        let mut table = fresh_for_cabin_0(128);
        for step in 0..127 {
            assert_eq!(add(&mut table, step, 0, kind, 1, 0), yes(step + 1, 0));
        }
        rings(&table, &all, if kind == CONTACT { 127 } else { 0 });
        assert_eq!(clear(&mut table, 126, 0), yes(1, 1));
        rings(&table, &all[..126], if kind == CONTACT { 126 } else { 0 });
    }
}

/// A contact uses up a result to go on, and nothing else does: one contact and messages are nearer
/// than two contacts.
#[test]
fn the_fewest_results() {
    let mut table = fan(CONTACT);
    assert_eq!(add(&mut table, 2, 1, MESSAGE, 0, 0), yes(6, 0));
    assert_eq!(add(&mut table, 6, 0, CONTACT, 0, 0), yes(7, 0));
    let fewest = fewest_results(&table);
    let expected: [(u8, &[u8]); 7] =
        [(1, &[]), (2, &[0]), (3, &[1]), (4, &[2]), (5, &[3]), (6, &[0, 1]), (7, &[0, 1])];
    assert_eq!(fewest, expected.map(|(step, results)| (step, results.to_vec())).into());
    assert_eq!(link(&mut table, 2, 1, 3, 0), yes(0, 0));
    assert_eq!(clear(&mut table, 1, 0).refusal, 0);
    assert_eq!(fewest_results(&table)[&7], [1, 0]);
    assert_eq!(fewest_results(&caretakers_plan())[&12], [2; 10]);
}

/// 1, then 11, whatever the table. A refused call writes nothing.
#[test]
fn refusals_and_buffers() {
    let mut unsound = fan(CONTACT);
    unsound.counts[2] += 1;
    for length in (0..=140).chain([65_535, 65_536, 65_536 + 126, 1_000_000]) {
        for table in [&unsound, &Table::zero()] {
            refuses(1, table, length);
        }
        for (table, steps) in [(fresh_for_cabin_0(1), 0), (fan(CONTACT), 5), (fan(WAIT), 2)] {
            if length < 127 {
                refuses(11, &table, length);
            } else {
                let mut buffer = vec![UNTOUCHED; length];
                assert_eq!(rung(&table, &mut buffer).first, steps);
                let (listed, past) = buffer.split_at(steps.into());
                assert!(listed.iter().copied().eq(1..=steps as u8));
                assert!(past.iter().all(|&byte| byte == UNTOUCHED));
            }
        }
    }
    let call = Call::Rung { buffer: 65_536 + 126 };
    assert_eq!(right(&mut fan(WAIT), &call).refusal, 0);
    assert_eq!(run(&mut fan(WAIT), &call, Fault::Cut(Length::Buffer)).refusal, 11);
}

/// The plan, which is told nothing, knows the refusal, both counts and the bytes, and stays.
#[test]
fn what_the_plan_says() {
    let known = |steps: u16, contacts| {
        let listed = Some((1..=steps as u8).collect());
        Ok(Known { numbers: [Some(steps), Some(contacts)], listed })
    };
    for (table, buffer, said) in [
        (fan(CONTACT), 127, known(5, 5)),
        (fan(WAIT), 1000, known(2, 1)),
        (caretakers_plan(), 128, known(12, 11)),
        (fresh_for_cabin_0(1), 127, known(0, 0)),
        (fan(CONTACT), 126, Err(11)),
        (fresh_for_cabin_0(1), 0, Err(11)),
    ] {
        let call = Call::Rung { buffer };
        assert!(!call.told(11) && call.command().is_none());
        let mut drawn = plan_of(&table);
        assert_eq!(drawn.draw(&call, false), said);
        assert_eq!(drawn, plan_of(&table));
    }
}

/// Damaged tables get 1, whatever the buffer, unless they are sound all the same.
#[test]
fn damaged_tables() {
    let mut random = Random(13);
    let mut unsound = 0;
    for seed in 0..600 {
        let mut table = Random(seed).sound_table();
        random.damage(&mut table);
        for length in [0, 126, 127] {
            if sound(&table) {
                laws::rung_by_trials(&right, &table, length);
            } else {
                refuses(1, &table, length);
                unsound += 1;
            }
        }
    }
    assert!(unsound > 1000, "{unsound}");
}

/// A call without a fault.
fn right(table: &mut Table, call: &Call) -> Outcome {
    run(table, call, Fault::None)
}

/// Who can be rung in every plan of one step, of two steps with links in two exits, and of three
/// contacts with links in two exits. Trials are made by this program.
fn small_plans_rung(program: Program) -> [usize; 5] {
    let kinds = [CONTACT, MESSAGE, WAIT];
    let plans = small_plans(1, &[0, 1, 2, 3], &kinds)
        .chain(small_plans(2, &[0, 3], &kinds))
        .chain(small_plans(3, &[0, 2], &kinds[..1]));
    let trials = |table: &Table, lists: &[Vec<u8>]| {
        lists.iter().map(|results| laws::entered(program, table, results, 16)).collect()
    };
    laws::small_plans_rung(&right, &trials, plans)
}

#[test]
fn every_small_plan() {
    let [plans, found @ ..] = small_plans_rung(&right);
    assert!(plans == 7912 && found.iter().all(|&steps| steps > 1000), "{plans} {found:?}");
}

#[test]
fn who_can_be_rung() {
    let found = laws::who_can_be_rung(&right, 880..960);
    assert!(found.iter().all(|&found| found > 200), "{found:?}");
}

#[test]
fn clearings_silence() {
    let [never_taken, silenced] = laws::clearings_silence(&right, 960..1000);
    assert!(never_taken > 1000 && silenced > 1000, "{never_taken} {silenced}");
}

#[test]
fn rung_in_histories() {
    let [told, left_out] = laws::rung_in_histories(&right, 0..72);
    assert!(told > 300 && left_out > 300, "{told} {left_out}");
}

/// Calls with a fault.
fn with(fault: Fault) -> impl Fn(&mut Table, &Call) -> Outcome {
    move |table, call| run(table, call, fault)
}

#[test]
#[should_panic(expected = "not what trials enter")]
fn steps_that_are_only_held() {
    laws::rung_by_trials(&with(Fault::HeldListed), &fan(WAIT), STEPS_ROOM);
}

#[test]
#[should_panic(expected = "is not entered by")]
fn trials_in_which_a_wait_uses_up_a_result() {
    laws::who_can_be_rung(&with(Fault::UsesUp(WAIT)), 880..960);
}

/// A trial that has one result more than it is given.
#[test]
#[should_panic(expected = "is entered by")]
fn trials_with_a_result_too_many() {
    let wrong = |table: &mut Table, call: &Call| match call.clone() {
        Call::Trial { limit, results, trace } => {
            let results = [&results[..], &[2]].concat();
            right(table, &Call::Trial { limit, results, trace })
        }
        call => right(table, &call),
    };
    laws::who_can_be_rung(&wrong, 880..960);
}

#[test]
#[should_panic(expected = "not all listed")]
fn trials_that_enter_step_0() {
    let wrong = |table: &mut Table, call: &Call| {
        let mut outcome = right(table, call);
        match call {
            Call::Trial { results, .. } if results.len() == 64 && outcome.numbers[2] > 0 => {
                outcome.lent[0] = 0;
            }
            _ => {}
        }
        outcome
    };
    laws::who_can_be_rung(&wrong, 880..960);
}

#[test]
#[should_panic(expected = "squeezed")]
fn a_squeeze_that_reverses_the_order() {
    laws::who_can_be_rung(&with(Fault::OrderReversed), 880..960);
}

#[test]
#[should_panic(expected = "no trial takes exit")]
fn clearings_of_exits_that_are_thought_to_be_taken() {
    laws::clearings_silence(&with(Fault::EveryExitTaken), 960..1000);
}

/// A list of those who cannot be rung, in which a clearing puts more.
#[test]
#[should_panic(expected = "rung without exit")]
fn those_who_cannot_be_rung() {
    let wrong = |table: &mut Table, call: &Call| {
        let mut outcome = right(table, call);
        if matches!(call, Call::Rung { .. }) {
            let rung = outcome.lent[..outcome.numbers[0]].to_vec();
            let silent = (1..128).filter(|&step| table.has(step.into()) && !rung.contains(&step));
            outcome.lent = silent.collect();
            outcome.numbers[0] = outcome.lent.len();
        }
        outcome
    };
    laws::clearings_silence(&wrong, 960..1000);
}

#[test]
#[should_panic(expected = "other fewest results")]
fn small_plans_in_which_a_wait_takes_any_exit() {
    small_plans_rung(&with(Fault::WaitTakesResult));
}
