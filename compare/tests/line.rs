//! The dispatcher of the line (W11) through the interface and on the second program: every dispatcher with words 0 and 1, every number of a cabin, any
//! words, and short and long rows of calls; the laws, of both programs and of the proved library alone; and planted faults.

use compare::Lent;
use reference::calls::Answer;
use reference::generate::Random;
use reference::line::examples::examples;
use reference::line::faults::all_show;
use reference::line::generate::{calls, dispatchers, with_waiting, NO_CABIN};
use reference::line::laws::{self, came_up, kept, Made, Program};
use reference::line::{run, Call, Words, CABINS, LAST};
use std::hint::black_box;
use std::ops::Range;
use telephone::raw;

/// The same dispatcher for the interface, with bytes on both sides that no call may change.
fn lend(words: &Words) -> Lent<raw::Line> {
    let [waiting @ .., last] = *words;
    Lent::new(raw::Line { waiting, last })
}

/// Makes a call through the interface. Gives every word after it, too.
fn call(lent: &mut Lent<raw::Line>, made: Call) -> (Answer, Words) {
    let line = &mut lent.lent;
    let raw::Reply { refusal, first, second } = match made {
        Call::Fresh => raw::line_fresh(line),
        Call::Raise(cabin) => raw::line_raise(line, cabin),
        Call::Withdraw(cabin) => raw::line_withdraw(line, cabin),
        Call::Next => raw::line_next(line),
    };
    // the words and the bytes beside them are looked at again, whatever the compiler knows of them
    let lent = black_box(&*lent);
    assert!(lent.edges_stand(), "{made:?}: a byte beside the dispatcher was written");
    let mut words = [lent.lent.last; LAST + 1];
    words[..LAST].copy_from_slice(&lent.lent.waiting);
    (Answer { refusal, first, second }, words)
}

/// A call made by the proved library alone: nothing that the second program says comes into it.
fn proved(words: &mut Words, made: Call) -> Answer {
    let (answer, after) = call(&mut lend(words), made);
    *words = after;
    answer
}

/// A call made by both programs, which have to agree in the answer and in every word.
fn both(words: &mut Words, made: Call) -> Answer {
    let [one, other] = [&proved as Program, &run].map(|program| Made::by(program, words, made));
    assert_eq!(one, other, "proved, second");
    *words = one.after;
    one.answer
}

#[test]
fn examples_hold() {
    assert_eq!(examples().iter().find_map(|example| example.wrong(&both)), None);
}

#[test]
fn next_on_every_dispatcher() {
    let refusals = laws::every_next(&both, 0..CABINS).unwrap();
    assert_eq!((refusals[0], refusals[21]), (16 * 65_535, 16));
}

/// 1, whoever waits, and nobody too.
#[test]
fn next_with_no_such_last_served() {
    came_up(&laws::every_next(&both, NO_CABIN).unwrap(), &[1], 8 * 65_536);
}

#[test]
fn alarms_on_every_dispatcher() {
    came_up(&laws::every_alarm(&both, [0, 15]).unwrap(), &[0], 2 * 2 * 16 * 65_536);
}

#[test]
fn every_number_of_a_cabin() {
    let refusals = laws::every_number(&both).unwrap();
    came_up(&refusals, &[0, 1, 20], 4 * 32);
    assert_eq!((refusals[0], refusals[1]), (4 * 32, 2 * 131_072));
}

/// Every word of a cabin, and every last served.
#[test]
fn every_word() {
    let refusals = laws::every_word(&both, &[0, 7, 15, LAST]).unwrap();
    came_up(&refusals, &[0, 1], 3 * (65_536 - 16));
}

#[test]
fn any_words() {
    came_up(&laws::any_words(&both, 113, 5000).unwrap(), &[0, 1, 20, 21], 500);
}

/// Every row of seven calls of two cabins and of none, from five dispatchers.
#[test]
fn short_rows() {
    use Call::{Fresh, Next, Raise, Withdraw};
    let calls = [Next, Raise(0), Raise(15), Withdraw(15), Raise(16), Fresh];
    let all = (1..=7).map(|number| calls.len().pow(number)).sum();
    for (waiting, last) in [(0, 15), (0xFFFF, 15), (0x8001, 0), (0x0100, 8), (0, 16)] {
        assert_eq!(laws::short_rows(&both, &with_waiting(waiting, last), &calls, 7), Ok(all));
    }
}

/// Rows in which each call keeps every sentence, and no cabin waits too long.
fn long_rows(program: Program, seeds: Range<u64>, times: usize) {
    let checked = |words: &mut Words, made: Call| kept(program, words, made).unwrap();
    laws::long_rows(&checked, seeds, 2000).unwrap().came_up(times);
}

#[test]
fn long_rows_of_both() {
    long_rows(&both, 80..280, 500);
}

#[test]
fn long_rows_of_the_proved_library() {
    long_rows(&proved, 280..1080, 2000);
}

/// Four dispatchers in one piece of memory, which stay in their places: each call changes the one that it is lent, by what stands in that one alone.
#[test]
fn side_by_side() {
    let (mut random, mut changed) = (Random(114), 0);
    for (seed, start) in (0..).zip(dispatchers(115, 50)) {
        let mut words = [start, random.dispatcher(), start, with_waiting(0, 15)];
        let mut lent = words.each_ref().map(lend);
        for made in calls(seed, 1000) {
            let which = random.below(lent.len());
            let before = words[which];
            let answer = run(&mut words[which], made);
            let given = call(&mut lent[which], made);
            assert_eq!(given, (answer, words[which]), "{made:?} on {before:?}");
            changed += usize::from(words[which] != before);
            for (lent, words) in lent.iter().zip(&words) {
                assert!(lent.edges_stand() && lent.lent == lend(words).lent, "{made:?}");
            }
        }
    }
    assert!(changed > 10_000, "{changed}");
}

/// The bytes on both sides are looked at: another word before that of cabin 0 or behind the last served is seen.
#[test]
fn words_beside_are_seen() {
    let first = std::mem::offset_of!(Lent<raw::Line>, lent) / 2;
    let last = first + LAST;
    for (word, beside) in [(first - 1, true), (first, false), (last, false), (last + 1, true)] {
        let mut lent = lend(&with_waiting(0xFFFF, 15));
        let start: *mut u16 = (&raw mut lent).cast();
        // SAFETY: the word stands within `lent`, which is aligned as a word and may hold any bytes.
        unsafe { *start.add(word) ^= 1 };
        assert_eq!(!black_box(&lent).edges_stand(), beside, "word {word}");
    }
}

/// The laws, of rows that are not made up.
fn laws_hold(program: Program, lasts: &[u16]) {
    assert_eq!(laws::among_all(program), Ok(16));
    assert!(laws::raises_in_any_order(program, 116, 2000).unwrap() > 3000);
    let served = laws::all_served(program, lasts.iter().copied());
    assert_eq!(served, Ok(lasts.len() * 8 * 65_536));
}

#[test]
fn laws_hold_of_both() {
    laws_hold(&both, &[7]);
}

/// Those of single calls too, after other cabins.
#[test]
fn laws_hold_of_the_proved_library() {
    laws_hold(&proved, &[0, 6, 15]);
    came_up(&laws::every_alarm(&proved, [1, 6, 9, 14]).unwrap(), &[0], 4 * 2 * 16 * 65_536);
    came_up(&laws::any_words(&proved, 117, 20_000).unwrap(), &[0, 1, 20, 21], 2000);
}

/// Each fault of the second program is found by the evidence that it leaves, in the calls that have it and in no other. So is one in each number that a
/// call answers and in each word that it leaves.
#[test]
fn planted_faults_show() {
    assert_eq!(all_show(&proved), 28 + 7 * 20);
}
