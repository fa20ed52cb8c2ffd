//! W11's sentences on examples with the numbers written out, on every dispatcher with words 0 and
//! 1, on any words, and on short and long rows of calls; and wrong programs, each of which breaks
//! the sentences that it should.

use reference::line::examples::examples;
use reference::line::faults::{self, all_show, cases, named, spoiled, Fault};
use reference::line::generate::{calls, dispatchers, with_waiting, NO_CABIN};
use reference::line::laws::{self, came_up, kept, Made, Sentence};
use reference::line::{run, Call, Line, Words, CABINS, LAST};
use std::collections::BTreeSet;

#[test]
fn examples_hold() {
    assert_eq!(examples().iter().find_map(|example| example.wrong(&run)), None);
}

#[test]
fn next_on_every_dispatcher() {
    let refusals = laws::every_next(&run, 0..CABINS).unwrap();
    assert_eq!((refusals[0], refusals[21]), (16 * 65_535, 16));
}

/// 1, whoever waits, and nobody too.
#[test]
fn next_with_no_such_last_served() {
    came_up(&laws::every_next(&run, NO_CABIN).unwrap(), &[1], 8 * 65_536);
}

#[test]
fn alarms_on_every_dispatcher() {
    came_up(&laws::every_alarm(&run, [9]).unwrap(), &[0], 2 * 16 * 65_536);
}

#[test]
fn every_number_of_a_cabin() {
    let refusals = laws::every_number(&run).unwrap();
    came_up(&refusals, &[0, 1, 20], 4 * 32);
    assert_eq!((refusals[0], refusals[1]), (4 * 32, 2 * 131_072));
}

/// Every word of a cabin, and every last served.
#[test]
fn every_word() {
    let refusals = laws::every_word(&run, &[0, 7, 15, LAST]).unwrap();
    came_up(&refusals, &[0, 1], 3 * (65_536 - 16));
}

#[test]
fn any_words() {
    came_up(&laws::any_words(&run, 110, 2000).unwrap(), &[0, 1, 20, 21], 200);
}

/// A queue that is kept from call to call is that of the words after each.
#[test]
fn one_queue_for_a_whole_row() {
    let mut served = 0;
    for (seed, mut words) in (0..).zip(dispatchers(111, 60)) {
        words[LAST] %= CABINS;
        let mut line = Line::of(&words).expect("a last served below 16");
        for call in calls(seed, 300) {
            let answer = run(&mut words, call);
            match call {
                Call::Fresh => line = Line::fresh(),
                Call::Raise(cabin) if cabin < CABINS => line.raise(cabin),
                Call::Withdraw(cabin) if cabin < CABINS => line.withdraw(cabin),
                Call::Raise(_) | Call::Withdraw(_) => {}
                Call::Next => {
                    let cabin = line.serve();
                    let expected = (answer.refusal == 0).then_some(answer.first);
                    assert_eq!(cabin, expected);
                    served += u32::from(cabin.is_some());
                }
            }
            assert_eq!(Line::of(&words).as_ref(), Some(&line), "after {call:?}");
        }
    }
    assert!(served > 2000, "{served}");
}

#[test]
fn all_are_served_in_turn() {
    assert_eq!(laws::all_served(&run, [6, 15]), Ok(2 * 8 * 65_536));
}

#[test]
fn raises_in_any_order() {
    assert!(laws::raises_in_any_order(&run, 112, 2000).unwrap() > 3000);
}

#[test]
fn sixteen_turns_among_all() {
    assert_eq!(laws::among_all(&run), Ok(16));
}

/// Every row of six calls of three cabins and of none, from five dispatchers.
#[test]
fn short_rows() {
    let calls = [
        Call::Next,
        Call::Raise(0),
        Call::Raise(15),
        Call::Withdraw(0),
        Call::Raise(7),
        Call::Withdraw(16),
        Call::Fresh,
    ];
    let all = (1..=6).map(|number| calls.len().pow(number)).sum();
    for (waiting, last) in [(0, 15), (0xFFFF, 15), (0x8001, 0), (0x0100, 7), (0, 16)] {
        assert_eq!(laws::short_rows(&run, &with_waiting(waiting, last), &calls, 6), Ok(all));
    }
}

#[test]
fn long_rows() {
    let checked = |words: &mut Words, call: Call| kept(&run, words, call).unwrap();
    laws::long_rows(&checked, 0..80, 1500).unwrap().came_up(150);
}

#[test]
fn every_fault_shows() {
    assert_eq!(all_show(&run), 28 + 7 * 20);
}

/// The examples alone find every fault that has a name.
#[test]
fn every_fault_fails_an_example() {
    let examples = examples();
    for (fault, ..) in named() {
        let wrong = |words: &mut Words, call: Call| faults::run(words, call, fault);
        assert!(examples.iter().any(|example| example.wrong(&wrong).is_some()), "{fault:?}");
    }
}

/// The sentences that these calls break when the variant with a fault makes them, each call the
/// first that it does.
fn broken(cases: &[Made], fault: Fault) -> BTreeSet<Sentence> {
    let wrong = |words: &mut Words, call: Call| faults::run(words, call, fault);
    let broken = |made: &Made| kept(&wrong, &mut made.before.clone(), made.call).err();
    cases.iter().filter_map(broken).map(|broken| broken.sentence).collect()
}

#[test]
fn every_fault_breaks_a_sentence() {
    let cases = cases(&run);
    let mut all = BTreeSet::new();
    for (fault, _, expected) in named() {
        assert_eq!(broken(&cases, fault), expected, "{fault:?}");
        all.extend(expected);
    }
    assert_eq!(all.len(), 8, "some sentence on a single call is never broken: {all:?}");
    for (fault, _) in spoiled() {
        assert!(!broken(&cases, fault).is_empty(), "{fault:?}");
    }
    assert_eq!(broken(&cases, Fault::None), BTreeSet::new());
}

/// The account of who waits, which goes by the calls alone, finds a cabin that waits too long, and
/// one that is served and does not wait. The other faults serve every cabin in time.
#[test]
fn cabins_that_wait_too_long() {
    use Fault::*;
    use Sentence::{FirstAfter, Within16};
    for (fault, ..) in named() {
        let expected: &[Sentence] = match fault {
            LastLookedAtFirst | LowestServed | LastNotNoted | RaisedAgainIsNext
            | RaisedAgainWithdraws | WithdrawnIsLast | Cabin16Taken | OneWaits | LowByteWaits => {
                &[Within16]
            }
            NeighbourWithdraws | CabinCut => &[FirstAfter, Within16],
            ServedStays | PreviousAnswered | FreshKeepsAlarms | RefusedRaiseKept => &[FirstAfter],
            _ => &[],
        };
        let wrong = |words: &mut Words, call: Call| faults::run(words, call, fault);
        let found: BTreeSet<Sentence> = (0..40)
            .filter_map(|seed| laws::long_rows(&wrong, seed..seed + 1, 1000).err())
            .map(|broken| broken.sentence)
            .collect();
        assert_eq!(found, expected.iter().copied().collect(), "{fault:?}");
    }
}
