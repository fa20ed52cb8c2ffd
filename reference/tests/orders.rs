//! W14's sentences on examples with the numbers written out, and the laws on every small table, on
//! generated tables and histories, and of wrong programs, which break them.

use reference::calls::{add, clear, fresh_for_cabin_0, link, Answer, Command};
use reference::faults::Fault;
use reference::history::{run, Call, Outcome};
use reference::laws::{self, Orders, Program};
use reference::plan::plan_of;
use reference::table::{after, mark, members, place, Table};

fn yes(first: u16, second: u16) -> Answer {
    Answer { refusal: 0, first, second }
}

fn no(refusal: u16) -> Answer {
    Answer { refusal, first: 0, second: 0 }
}

/// A table of this capacity with a contact added at each of these exits, and these links copied.
fn built(capacity: u16, adds: &[(u16, u16)], links: &[[u16; 4]]) -> Table {
    let mut table = fresh_for_cabin_0(capacity);
    for (number, &(holder, exit)) in (1..).zip(adds) {
        assert_eq!(add(&mut table, holder, exit, 1, 0, 0), yes(number, 0));
    }
    for &[source, from, second, into] in links {
        assert_eq!(link(&mut table, source, from, second, into), yes(0, 0));
    }
    table
}

/// Clears two exits on copies of a table, which gives these answers in this order, and those in the
/// other. Gives the tables at the end, which have one plan.
#[track_caller]
fn ends(
    table: &Table,
    exits: [(u16, u16); 2],
    in_this_order: [Answer; 2],
    in_the_other: [Answer; 2],
) -> [Table; 2] {
    let [first, second] = exits;
    let end = |exits: [(u16, u16); 2], answers| {
        let mut table = table.clone();
        assert_eq!(exits.map(|(step, exit)| clear(&mut table, step, exit)), answers);
        table
    };
    let ends = [end([first, second], in_this_order), end([second, first], in_the_other)];
    assert_eq!(plan_of(&ends[0]), plan_of(&ends[1]));
    laws::either_order(&right, table, &exits, &mut Orders::default());
    ends
}

/// Step 0 leads to 1 and 2, and to 2 by a copy; 2 leads to 1, weakly.
fn by_way_of_2() -> Table {
    built(3, &[(0, 0), (0, 1)], &[[0, 1, 0, 2], [0, 0, 2, 0]])
}

/// Step 1 stays by way of 2. It is doubtful twice if the exit that leads to it is cleared first.
#[test]
fn other_bits_and_doubtful_counts() {
    let [one, other] =
        ends(&by_way_of_2(), [(0, 0), (0, 1)], [yes(1, 0), yes(2, 0)], [yes(1, 0), yes(1, 0)]);
    assert_eq!((&one.own[1..3], &other.own[1..3]), (&[0, 1][..], &[1, 1][..]));
    assert_eq!(one.strong_exits(), [(0, 2), (2, 0)]);
    assert_eq!(other.strong_exits(), one.strong_exits());
}

/// The link from 2 to 3 is weak at the end, or strong, and 2 was doubtful once or twice.
#[test]
fn other_strengths_and_doubtful_counts() {
    let links = [[0, 0, 0, 2], [0, 1, 1, 1], [1, 0, 2, 0]];
    let table = built(4, &[(0, 0), (0, 1), (1, 0)], &links);
    let [one, other] =
        ends(&table, [(0, 0), (0, 1)], [yes(2, 0), yes(1, 0)], [yes(1, 0), yes(3, 0)]);
    assert_eq!(one.strong_exits(), [(0, 2), (1, 0), (1, 1)]);
    assert_eq!(other.strong_exits(), [(0, 2), (1, 0), (1, 1), (2, 0)]);
}

/// Step 2 goes when the exit that leads to it is cleared, be it first or second.
#[test]
fn freed_by_the_first_or_by_the_second() {
    let links = [[0, 0, 0, 1], [2, 0, 0, 2], [0, 2, 1, 1]];
    let table = built(4, &[(0, 0), (1, 0), (2, 0)], &links);
    let [one, other] =
        ends(&table, [(0, 0), (1, 0)], [yes(3, 0), yes(1, 1)], [yes(2, 1), yes(1, 0)]);
    assert_eq!(one.strong_exits(), [(0, 1), (0, 2), (1, 1)]);
    assert_eq!(other.strong_exits(), [(0, 1), (0, 2)]);
}

/// A step that leads to itself, a chain, and a step that goes while others stay.
#[test]
fn the_first_frees_the_step_of_the_second() {
    let itself = built(2, &[(0, 0)], &[[0, 0, 1, 0]]);
    ends(&itself, [(0, 0), (1, 0)], [yes(1, 1), no(3)], [yes(0, 0), yes(1, 1)]);
    let chain = built(3, &[(0, 0), (1, 0)], &[]);
    ends(&chain, [(0, 0), (1, 0)], [yes(2, 2), no(3)], [yes(1, 1), yes(1, 1)]);
    let links = [[1, 0, 0, 1], [1, 1, 0, 2], [0, 2, 2, 0]];
    let others = built(4, &[(0, 0), (1, 0), (1, 1)], &links);
    let [one, other] = ends(&others, [(0, 0), (1, 1)], [yes(3, 1), no(3)], [yes(1, 0), yes(2, 1)]);
    assert_eq!(one.strong_exits(), [(0, 1), (0, 2), (2, 0)]);
    assert_eq!(other.strong_exits(), [(0, 1), (0, 2)]);
}

/// An exit that is cleared twice: 6, whether its target was doubtful or not.
#[test]
fn the_same_exit_again() {
    let table = by_way_of_2();
    for (exit, counts) in [((0, 0), yes(1, 0)), ((0, 2), yes(0, 0)), ((2, 0), yes(0, 0))] {
        let [one, other] = ends(&table, [exit; 2], [counts, no(6)], [counts, no(6)]);
        assert_eq!(one, other);
    }
}

/// An exit that is empty or not there, of a step that the other clearing frees: 6 and 4, and then 3.
#[test]
fn one_that_is_refused_anyway() {
    let chain = built(4, &[(0, 0), (1, 0)], &[]);
    for (exit, before, after) in
        [((1, 1), 6, 3), ((1, 4), 4, 3), ((3, 0), 3, 3), ((0, 1), 6, 6), ((0, 65535), 4, 4)]
    {
        let [one, other] =
            ends(&chain, [(0, 0), exit], [yes(2, 2), no(after)], [no(before), yes(2, 2)]);
        assert_eq!(one, other);
    }
}

/// A call without a fault.
fn right(table: &mut Table, call: &Call) -> Outcome {
    run(table, call, Fault::None)
}

/// These tables fill two exits of a step at most, and no strength differs at the end.
#[test]
fn pairs_of_small_tables() {
    let met = laws::pairs_of_small_tables(&right);
    assert_eq!((met.two_steps, met.one_step, met.holder_freed), (32_256, 10_008, 7296));
    assert_eq!((met.same_exit, met.refused), (24_912, 0));
    assert_eq!((met.other_tables, met.other_strengths, met.other_doubtful), (288, 0, 6816));
}

#[test]
fn pairs_in_either_order() {
    laws::pairs_in_either_order(&right, 880..1120).came_up(100);
}

#[test]
fn pairs_in_histories() {
    laws::pairs_in_histories(&right, 0..54).came_up(200);
}

#[test]
fn lists_in_any_order() {
    let met = laws::lists_in_any_order(&right, 1120..1520);
    assert!(met.iter().all(|&met| met > 30), "{met:?}");
}

/// A repair that takes the highest doubtful step first gives other strengths, and keeps the laws.
#[test]
fn the_highest_first() {
    let highest = |table: &mut Table, call: &Call| run(table, call, Fault::HighestFirst);
    laws::pairs_in_either_order(&highest, 880..1120).came_up(100);
    laws::lists_in_any_order(&highest, 1120..1220);
}

/// A clearing that clears further exits, given the table before it and the one after it. It says
/// that it freed what they free.
fn with_more(
    table: &mut Table,
    call: &Call,
    further: impl Fn(&Table, &Table) -> Vec<(u16, u16)>,
) -> Outcome {
    let before = table.clone();
    let mut outcome = right(table, call);
    if outcome.refusal == 0 {
        for (step, exit) in further(&before, table) {
            clear(table, step, exit);
        }
        outcome.numbers[1] = usize::from(before.size() - table.size());
    }
    outcome
}

/// A clearing whose repair looks at each doubtful step once, lowest first: it overlooks the links of
/// a step that it takes back later. The exits that lead to what it frees are cleared.
fn looks_once(table: &mut Table, call: &Call) -> Outcome {
    let Call::Edit(Command::Clear { step, exit }) = *call else { unreachable!() };
    with_more(table, call, |before, cleared| {
        let mut emptied = before.clone();
        emptied.targets[place(step.into(), exit.into())] = 0;
        let mut kept = mark(1, &emptied.strong_links());
        for step in members(emptied.in_use() & !kept) {
            kept |= after(kept, &emptied.links()) & 1 << step;
        }
        let leads_out = |&(step, exit): &(u16, u16)| {
            kept >> step & 1 == 1 && kept >> cleared.target(step, exit) & 1 == 0
        };
        cleared.filled().into_iter().filter(leads_out).collect()
    })
}

/// All doubtful steps are said to be freed.
fn says_freed(table: &mut Table, call: &Call) -> Outcome {
    run(table, call, Fault::DoubtfulSaidFreed)
}

/// The law of two clearings, of one pair of exits.
fn of_one_pair(program: Program, table: &Table, exits: [(u16, u16); 2]) {
    laws::either_order(program, table, &exits, &mut Orders::default());
}

/// If step 1 loses its own exit before 2 does, it is overlooked and freed, and else it stays.
#[test]
#[should_panic(expected = "plan after")]
fn a_repair_that_overlooks_a_link() {
    of_one_pair(&looks_once, &by_way_of_2(), [(0, 0), (0, 1)]);
}

#[test]
#[should_panic(expected = "plan after")]
fn lists_with_such_a_repair() {
    laws::lists_in_any_order(&looks_once, 1120..1520);
}

#[test]
#[should_panic(expected = "freed by")]
fn wrong_freed_counts() {
    of_one_pair(&says_freed, &by_way_of_2(), [(0, 0), (0, 1)]);
}

#[test]
#[should_panic(expected = "freed by")]
fn lists_with_wrong_freed_counts() {
    laws::lists_in_any_order(&says_freed, 1120..1520);
}

/// The law of two clearings, of a program that gives one refusal in place of another.
fn with_refusal(right_one: u16, wrong_one: u16) {
    let wrong = |table: &mut Table, call: &Call| {
        let mut outcome = right(table, call);
        if outcome.refusal == right_one {
            outcome.refusal = wrong_one;
        }
        outcome
    };
    of_one_pair(&wrong, &built(3, &[(0, 0), (1, 0)], &[]), [(0, 0), (1, 0)]);
}

#[test]
#[should_panic(expected = "refusal of the second of [(1, 0), (0, 0)]")]
fn a_wrong_refusal_of_a_step_that_is_gone() {
    with_refusal(3, 6);
}

#[test]
#[should_panic(expected = "refusal of the second of [(0, 0), (0, 0)]")]
fn a_wrong_refusal_of_an_exit_cleared_twice() {
    with_refusal(6, 3);
}

/// A clearing that frees all steps but 0.
#[test]
#[should_panic(expected = "each frees the other's step")]
fn a_clearing_of_everything() {
    let wrong = |table: &mut Table, call: &Call| {
        with_more(table, call, |_, cleared| {
            cleared.filled().into_iter().filter(|&(step, _)| step == 0).collect()
        })
    };
    let chain = built(4, &[(0, 0), (1, 0), (2, 0)], &[]);
    of_one_pair(&wrong, &chain, [(1, 0), (2, 0)]);
}
