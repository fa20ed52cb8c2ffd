//! W2's sentences on examples with the numbers written out, W5's list in them, and W2's laws on
//! generated tables.

use reference::cabins::{list, one_cabin};
use reference::calls::{add, clear, fresh, fresh_for_cabin_0, link, Answer};
use reference::faults::Fault;
use reference::generate::Random;
use reference::history::{run, Call, Outcome};
use reference::laws;
use reference::squeeze::squeeze;
use reference::table::{Quotas, Table};

fn yes(first: u16, second: u16) -> Answer {
    Answer { refusal: 0, first, second }
}

/// Steps 0, 2, 3 and 5 of capacity 8: a ring 2 to 3 to 5 to 2 with own bits 1, which step 0 enters
/// at 5, and a link of 3 to itself. From 3, the links to 5 and 3 are weak. Step 0 has bit 1. Steps
/// 2 and 5 are cabin 6's, step 3 is cabin 0's.
fn gaps() -> Table {
    let (mut t, _) = fresh(8, for_0_and_6([0, 65535], [0, 65535]));
    let adds = [(0, 0, 2, 0), (0, 1, 1, 5), (2, 0, 3, 600), (0, 2, 2, 15), (3, 3, 1, 999)];
    for (number, (holder, exit, kind, content)) in (1..).zip(adds) {
        let cabin = if matches!(number, 2 | 5) { 6 } else { 0 };
        assert_eq!(add(&mut t, holder, exit, kind, content, cabin), yes(number, 0));
    }
    for (source, from, second, into) in [(0, 1, 5, 0), (2, 0, 3, 1), (3, 3, 0, 3)] {
        assert_eq!(link(&mut t, source, from, second, into), yes(0, 0));
    }
    assert_eq!((clear(&mut t, 0, 0), clear(&mut t, 0, 2)), (yes(1, 1), yes(1, 1)));
    assert_eq!(clear(&mut t, 0, 1), yes(3, 0));
    t.own[0] = 1;
    t
}

/// Those steps as 0, 1, 2 and 3, in a table of this capacity and list.
fn no_gaps(capacity: u16, quotas: Quotas) -> Table {
    let mut t = Table { capacity, last: 3, quotas, ..Table::zero() };
    t.used[..4].fill(1);
    t.kinds[..4].copy_from_slice(&[0, 1, 3, 1]);
    t.contents[..4].copy_from_slice(&[0, 5, 600, 999]);
    t.own[..4].fill(1);
    t.targets[..16].copy_from_slice(&[0, 0, 0, 3, 2, 0, 0, 0, 0, 2, 0, 3, 1, 0, 0, 0]);
    t.bits[..16].copy_from_slice(&[0, 0, 0, 1, 1, 0, 0, 0, 0, 0, 0, 0, 1, 0, 0, 0]);
    t.counts[..8].copy_from_slice(&[0, 0, 0, 1, 1, 1, 1, 1]);
    t.cabins[..4].copy_from_slice(&[0, 6, 0, 6]);
    t
}

/// The list with these guarantees and limits for cabins 0 and 6.
fn for_0_and_6(zero: [u16; 2], six: [u16; 2]) -> Quotas {
    let none = [0, 0];
    list(&[zero, none, none, none, none, none, six])
}

/// Into what is needed, as many places as before, and the most; with no limit, and with as much
/// guaranteed to cabin 0 as the steps leave over.
#[test]
fn steps_are_renumbered_in_their_order() {
    for capacity in [4, 5, 8, 128] {
        let over = capacity - 3;
        for list in [for_0_and_6([0, 65535], [0, 65535]), for_0_and_6([over, over], [2, 2])] {
            let mut t = gaps();
            assert_eq!(squeeze(&mut t, capacity, list), yes(0, 0));
            assert_eq!(t, no_gaps(capacity, list));
            assert_eq!(squeeze(&mut t, capacity, list), yes(0, 0));
            assert_eq!(t, no_gaps(capacity, list));
        }
    }
}

/// Lists that are good for the capacity but not for the steps: 13. Bad ones, for which the steps
/// are too many too: 16. Two steps are cabin 6's, and one is cabin 0's.
#[test]
fn lists_that_the_steps_do_not_fit() {
    let refusals = [
        (13, 128, one_cabin(128)),
        (13, 128, [0; 16]),
        (13, 128, for_0_and_6([0, 0], [0, 2])),
        (13, 128, for_0_and_6([0, 1], [0, 1])),
        (0, 128, for_0_and_6([0, 1], [0, 2])),
        (13, 6, for_0_and_6([4, 4], [0, 2])),
        (0, 6, for_0_and_6([3, 3], [0, 2])),
        (13, 6, for_0_and_6([0, 1], [5, 5])),
        (0, 6, for_0_and_6([0, 1], [4, 5])),
        (13, 4, for_0_and_6([2, 2], [1, 2])),
        (0, 4, for_0_and_6([1, 1], [2, 2])),
        (16, 4, for_0_and_6([2, 2], [2, 2])),
        (13, 3, for_0_and_6([1, 1], [1, 2])),
        (16, 3, for_0_and_6([1, 1], [2, 2])),
        (16, 128, for_0_and_6([1, 0], [2, 2])),
        (16, 128, for_0_and_6([32768, 65535], [32768, 65535])),
        (2, 129, for_0_and_6([32768, 65535], [32768, 65535])),
    ];
    for (refusal, capacity, list) in refusals {
        let mut t = gaps();
        assert_eq!(squeeze(&mut t, capacity, list).refusal, refusal, "{capacity} {list:?}");
        assert_eq!(t, if refusal == 0 { no_gaps(capacity, list) } else { gaps() });
    }
}

/// With the list of edition 1 a squeeze is accepted exactly if all steps are cabin 0's.
#[test]
fn the_list_of_edition_1() {
    let mut random = Random(1);
    let mut refused = 0;
    for _ in 0..200 {
        let table = random.sound_table();
        let others = table.charges()[1..] != [0; 7];
        let answer = squeeze(&mut table.clone(), 128, one_cabin(128));
        assert_eq!(answer.refusal, if others { 13 } else { 0 });
        refused += u32::from(others);
    }
    assert!((50..150).contains(&refused), "{refused}");
}

#[test]
fn the_next_number_is_the_one_after_the_last_step() {
    let mut t = gaps();
    assert_eq!(add(&mut t.clone(), 0, 0, 2, 0, 0), yes(6, 0));
    squeeze(&mut t, 5, for_0_and_6([0, 2], [0, 2]));
    assert_eq!(add(&mut t, 0, 0, 2, 0, 0), yes(4, 0));
    assert_eq!(add(&mut t, 0, 1, 2, 0, 0).refusal, 8);
}

/// With nothing freed, the last number given alone may change: it need not be the highest.
#[test]
fn without_gaps_the_steps_stay() {
    let mut t = fresh_for_cabin_0(3);
    for (exit, number) in [(0, 1), (1, 2)] {
        assert_eq!(add(&mut t, 0, exit, 1, 0, 0), yes(number, 0));
    }
    assert_eq!((clear(&mut t, 0, 0), add(&mut t, 0, 0, 1, 0, 0)), (yes(1, 1), yes(1, 0)));
    let before = t.clone();
    assert_eq!(squeeze(&mut t, 3, one_cabin(3)), yes(0, 0));
    assert_eq!((before.last, &t), (1, &Table { last: 2, ..before.clone() }));
}

#[test]
fn step_0_alone() {
    for capacity in [1, 2, 128] {
        let mut t = Table { last: 127, ..fresh_for_cabin_0(128) };
        assert_eq!(squeeze(&mut t, capacity, one_cabin(capacity)), yes(0, 0));
        assert_eq!(t, fresh_for_cabin_0(capacity));
    }
}

/// A call without a fault.
fn right(table: &mut Table, call: &Call) -> Outcome {
    run(table, call, Fault::None)
}

#[test]
fn steps_travel() {
    assert!(laws::steps_travel(&right, 0..200) > 1000);
}

#[test]
fn twice_is_once() {
    assert!(laws::twice_is_once(&right, 200..400) > 100);
}

#[test]
fn trials_end_alike() {
    assert!(laws::trials_end_alike(&right, 400..600) > 1000);
}

#[test]
fn clearings_count_alike() {
    assert!(laws::clearings_count_alike(&right, 600..640) > 100);
}
