//! W3's sentences on examples with the numbers written out, the largest limit, and its law on
//! generated tables. `refusals` has the refused trials.

use reference::calls::{add, fresh_for_cabin_0, link, trial, Ending, TrialAnswer};
use reference::faults::Fault;
use reference::history::{run, UNTOUCHED};
use reference::laws;
use reference::sound::{CONTACT, MESSAGE, WAIT};
use reference::table::Table;

/// A ring of steps 1 upward with these kinds, which step 0 enters at 1. Contacts lead on by exit 2,
/// the others by the answered exit.
fn ring(kinds: &[u16]) -> Table {
    let mut t = fresh_for_cabin_0(8);
    let exit = |step: u16| match step {
        0 => 0,
        _ if kinds[usize::from(step) - 1] == CONTACT => 2,
        _ => 0,
    };
    for (step, &kind) in (0..).zip(kinds) {
        assert_eq!(add(&mut t, step, exit(step), kind, 1, 0).first, step + 1);
    }
    let last = kinds.len() as u16;
    assert_eq!(link(&mut t, 0, 0, last, exit(last)).refusal, 0);
    t
}

/// A trial with a trace that is longer than its limit, and the part of it that was written.
fn made(table: &Table, limit: u16, results: &[u8]) -> (Ending, u16, Vec<u8>) {
    let mut trace = vec![UNTOUCHED; usize::from(limit) + 3];
    let TrialAnswer { refusal, ending, last, moves } = trial(table, limit, results, &mut trace);
    assert_eq!(refusal, 0);
    let rest = trace.split_off(moves.into());
    assert!(rest.iter().all(|&byte| byte == UNTOUCHED));
    assert!(!trace.contains(&UNTOUCHED));
    (ending, last, trace)
}

#[test]
fn the_example_of_document_02() {
    let t = ring(&[WAIT]);
    assert_eq!(made(&t, 3, &[]), (Ending::Stopped, 1, vec![1, 1, 1]));
    let mut trace = [0; 3];
    let answer = TrialAnswer { refusal: 0, ending: Ending::Stopped, last: 1, moves: 3 };
    assert_eq!((trial(&t, 3, &[], &mut trace), trace), (answer, [1, 1, 1]));
}

/// An empty exit ends a trial open before the limit stops it.
#[test]
fn limit_0() {
    let f4 = fresh_for_cabin_0(4);
    for results in [&[][..], &[0], &[3, 3]] {
        assert_eq!(made(&f4, 0, results), (Ending::Open, 0, vec![]));
        for kind in [CONTACT, MESSAGE, WAIT] {
            assert_eq!(made(&ring(&[kind]), 0, results), (Ending::Stopped, 0, vec![]));
        }
    }
    assert_eq!(trial(&f4, 0, &[], &mut []), TrialAnswer::default());
}

/// The first result belongs to the first contact.
#[test]
fn step_0_uses_up_no_result() {
    let mut t = fresh_for_cabin_0(4);
    add(&mut t, 0, 0, CONTACT, 0, 0);
    add(&mut t, 0, 3, CONTACT, 0, 0);
    add(&mut t, 1, 3, CONTACT, 0, 0);
    assert_eq!(made(&t, 9, &[3]), (Ending::Spent, 3, vec![1, 3]));
    assert_eq!(made(&t, 9, &[2]), (Ending::Open, 1, vec![1]));
    assert_eq!(made(&t, 9, &[]), (Ending::Spent, 1, vec![1]));
}

/// Messages and waits take the answered exit, whatever the results, and leave them to contacts.
#[test]
fn only_contacts_use_up_results() {
    for kind in [MESSAGE, WAIT] {
        let t = ring(&[CONTACT, kind, kind, CONTACT]);
        assert_eq!(made(&t, 99, &[]), (Ending::Spent, 1, vec![1]));
        assert_eq!(made(&t, 99, &[2]), (Ending::Spent, 4, vec![1, 2, 3, 4]));
        assert_eq!(made(&t, 99, &[2, 2]), (Ending::Spent, 1, vec![1, 2, 3, 4, 1]));
        assert_eq!(made(&t, 99, &[2, 1, 2]), (Ending::Open, 4, vec![1, 2, 3, 4]));
        // exits of a message or a wait that are not the answered one are never taken
        let mut t = fresh_for_cabin_0(4);
        add(&mut t, 0, 0, kind, 1, 0);
        for exit in 1..4 {
            link(&mut t, 0, 0, 1, exit);
        }
        for result in 0..4 {
            assert_eq!(made(&t, 99, &[result; 5]), (Ending::Open, 1, vec![1]));
        }
    }
}

/// A contact with no result left ends a trial spent, at the limit and without a link too.
#[test]
fn spent_comes_before_open_and_stopped() {
    let t = ring(&[CONTACT, CONTACT]);
    assert_eq!(made(&t, 1, &[]), (Ending::Spent, 1, vec![1]));
    assert_eq!(made(&t, 3, &[2, 2]), (Ending::Spent, 1, vec![1, 2, 1]));
    assert_eq!(made(&t, 2, &[2, 2]), (Ending::Stopped, 2, vec![1, 2]));
    let mut t = fresh_for_cabin_0(4);
    add(&mut t, 0, 0, CONTACT, 0, 0);
    for limit in [1, 2] {
        assert_eq!(made(&t, limit, &[]), (Ending::Spent, 1, vec![1]));
        assert_eq!(made(&t, limit, &[0]), (Ending::Open, 1, vec![1]));
    }
}

#[test]
fn open_comes_before_stopped() {
    for kind in [MESSAGE, WAIT] {
        let mut t = fresh_for_cabin_0(4);
        add(&mut t, 0, 0, kind, 1, 0);
        add(&mut t, 1, 0, kind, 1, 0);
        for limit in [2, 3, 65535] {
            assert_eq!(made(&t, limit, &[3]), (Ending::Open, 2, vec![1, 2]));
        }
        assert_eq!(made(&t, 1, &[3]), (Ending::Stopped, 1, vec![1]));
    }
}

/// More results than moves: the trace is held to the limit and not to them.
#[test]
fn results_left_over() {
    let t = ring(&[CONTACT, WAIT]);
    assert_eq!(made(&t, 4, &[2; 100]), (Ending::Stopped, 2, vec![1, 2, 1, 2]));
    assert_eq!(made(&t, 4, &[1; 100]), (Ending::Open, 1, vec![1]));
    assert_eq!(trial(&t, 0, &[2; 100], &mut []).ending, Ending::Stopped);
}

/// The largest limit, on rings that results never end, and on some that they end just before it.
#[test]
fn the_largest_limit() {
    let stopped = |table: &Table, results: &[u8], steps: usize| {
        let trace = (0..65535).map(|i| 1 + (i % steps) as u8).collect::<Vec<_>>();
        let last = u16::from(trace[65534]);
        assert!(made(table, 65535, results) == (Ending::Stopped, last, trace));
    };
    stopped(&ring(&[WAIT]), &[], 1);
    stopped(&ring(&[WAIT, MESSAGE]), &[3; 70_000], 2);
    stopped(&ring(&[CONTACT]), &[2; 70_000], 1);
    stopped(&ring(&[CONTACT]), &[2; 65535], 1);
    stopped(&ring(&[CONTACT, MESSAGE, CONTACT, WAIT]), &[2; 32_768], 4);
    let (ending, last, trace) = made(&ring(&[CONTACT]), 65535, &[2; 65534]);
    assert_eq!((ending, last, trace.len()), (Ending::Spent, 1, 65535));
    let (ending, last, trace) = made(&ring(&[CONTACT]), 65535, &[2; 65533]);
    assert_eq!((ending, last, trace.len()), (Ending::Spent, 1, 65534));
}

#[test]
fn larger_limits_go_on() {
    assert!(laws::larger_limits_go_on(&|t, call| run(t, call, Fault::None), 640..800) > 1000);
}
