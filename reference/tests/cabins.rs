//! W5's sentences on examples with the numbers written out, and its laws on generated tables and
//! histories. `refusals` has each refusal and the orders, `squeeze` the lists of a squeeze,
//! `images` the editions, `soundness` W5's clauses of it.

use reference::cabins::{list, list_fits, one_cabin};
use reference::calls::{add, clear, fresh, fresh_for_cabin_0, link, read, Answer};
use reference::faults::Fault;
use reference::history::{run, Call, Outcome};
use reference::laws;
use reference::table::{Quotas, Table};

fn table(capacity: u16, quotas: Quotas) -> Table {
    let (table, answer) = fresh(capacity, quotas);
    assert_eq!(answer.refusal, 0);
    table
}

/// Adds a message for a cabin at an exit of step 0; gives the refusal.
fn add_at(table: &mut Table, exit: u16, cabin: u16) -> u16 {
    add(table, 0, exit, 2, 0, cabin).refusal
}

/// Adds a chain of so many waits for a cabin below a step; gives the last.
fn chain(table: &mut Table, mut holder: u16, cabin: u16, steps: u16) -> u16 {
    for _ in 0..steps {
        let answer = add(table, holder, 0, 3, 1, cabin);
        assert_eq!(answer.refusal, 0);
        holder = answer.first;
    }
    holder
}

#[test]
fn a_fresh_table_has_its_list() {
    let quotas = list(&[[1, 3], [0, 65535], [2, 2]]);
    let expected = Table { quotas, ..fresh_for_cabin_0(4) };
    assert_eq!(fresh(4, quotas), (expected, Answer::default()));
    assert_eq!(fresh_for_cabin_0(4).quotas, [3, 3, 0, 0, 0, 0, 0, 0, 0, 0, 0, 0, 0, 0, 0, 0]);
    assert_eq!(fresh_for_cabin_0(1), Table { capacity: 1, ..fresh(4, [0; 16]).0 });
    // A refused fresh hands back capacity 1, whose list is of zeros.
    for (capacity, quotas) in [(0, [0; 16]), (129, [0; 16]), (4, [1; 16]), (1, one_cabin(2))] {
        assert_eq!(fresh(capacity, quotas).0, fresh_for_cabin_0(1));
    }
}

/// Guarantees up to the capacity less 1, limits up to the largest number.
#[test]
fn good_and_bad_lists() {
    let good = [
        (1, [0; 16]),
        (1, list(&[[0, 65535]; 8])),
        (2, list(&[[0, 0], [1, 1]])),
        (9, [1; 16]),
        (128, one_cabin(128)),
        (128, list(&[[100, 65535], [0, 65535], [27, 27]])),
    ];
    for (capacity, quotas) in good {
        assert_eq!(fresh(capacity, quotas).1.refusal, 0, "{capacity} {quotas:?}");
        assert!(list_fits(capacity + 1, &quotas));
    }
    let bad = [
        (1, list(&[[0, 0], [1, 1]])),
        (8, [1; 16]),
        (128, one_cabin(129)),
        (128, list(&[[100, 100], [0, 0], [28, 28]])),
        (128, list(&[[1, 0]])),
        (128, list(&[[127, 126]])),
        (128, list(&[[0, 0], [65535, 0]])),
        (128, list(&[[32768, 65535]; 2])),
        (128, list(&[[16384, 16384]; 4])),
        (128, list(&[[8192, 8192]; 8])),
        (128, list(&[[65535, 65535], [1, 1]])),
        (128, list(&[[65535, 65535]; 8])),
    ];
    for (capacity, quotas) in bad {
        assert_eq!(fresh(capacity, quotas).1.refusal, 16, "{capacity} {quotas:?}");
    }
}

#[test]
fn a_step_keeps_its_cabin_until_it_is_freed() {
    let mut t = table(8, list(&[[0, 9]; 8]));
    for cabin in 0..4 {
        assert_eq!(add_at(&mut t, cabin, 7 - cabin), 0);
    }
    assert_eq!(t.cabins[..6], [0, 7, 6, 5, 4, 0]);
    assert_eq!([0, 1, 2, 3, 4].map(|step| read(&t, step).cabin), [0, 7, 6, 5, 4]);
    assert_eq!(t.charges(), [0, 0, 0, 0, 1, 1, 1, 1]);
    // Another cabin's link to it, and a repair, leave the cabin.
    assert_eq!(add(&mut t, 4, 0, 1, 0, 0).first, 5);
    assert_eq!(link(&mut t, 0, 0, 5, 0).refusal, 0);
    assert_eq!(clear(&mut t, 0, 0), Answer { refusal: 0, first: 1, second: 0 });
    assert_eq!(read(&t, 1).cabin, 7);
    assert_eq!(clear(&mut t, 0, 3), Answer { refusal: 0, first: 3, second: 3 });
    assert_eq!(t.cabins[..6], [0, 0, 6, 5, 0, 0]);
    assert_eq!(t.charges(), [0, 0, 0, 0, 0, 1, 1, 0]);
}

/// Step 0 is no charge of cabin 0: with a limit of 2 it may add two steps.
#[test]
fn step_0_is_not_charged() {
    let mut t = table(8, list(&[[0, 2]]));
    assert_eq!(t.charges(), [0; 8]);
    assert_eq!([0, 1, 2].map(|exit| add_at(&mut t, exit, 0)), [0, 0, 14]);
    assert_eq!(t.charges(), [2, 0, 0, 0, 0, 0, 0, 0]);
    let mut t = table(3, list(&[[2, 2]]));
    assert_eq!([0, 1, 2].map(|exit| add_at(&mut t, exit, 0)), [0, 0, 8]);
}

/// Of four places, two are guaranteed to cabin 1. Cabin 0 gets the other two, and no more until a
/// guaranteed one is used up and one is freed.
#[test]
fn beyond_the_guarantee() {
    let mut t = table(5, list(&[[0, 9], [2, 4]]));
    assert_eq!([0, 1, 2].map(|exit| add_at(&mut t, exit, 0)), [0, 0, 15]);
    assert_eq!(add_at(&mut t, 2, 1), 0);
    assert_eq!(add_at(&mut t, 3, 0), 15);
    assert_eq!(add_at(&mut t, 3, 1), 0);
    assert_eq!(add(&mut t, 1, 0, 1, 0, 0).refusal, 8);
    // A step of cabin 0 is freed, and either cabin may have its place: cabin 1's guarantee is met.
    clear(&mut t, 0, 0);
    assert_eq!([0, 1].map(|cabin| add_at(&mut t.clone(), 0, cabin)), [0, 0]);
    // A step of cabin 1 is freed: then one of the two free places is reserved.
    clear(&mut t, 0, 3);
    assert_eq!(add_at(&mut t, 0, 0), 0);
    assert_eq!((add_at(&mut t.clone(), 3, 0), add_at(&mut t, 3, 1)), (15, 0));
}

/// All the others are full, at their limits or held back: a cabin below its guarantee adds.
#[test]
fn a_cabin_below_its_guarantee_is_never_full() {
    let mut t = table(128, list(&[[0, 65535], [0, 3], [10, 10], [20, 65535]]));
    let last = chain(&mut t, 0, 1, 3);
    let last = chain(&mut t, last, 3, 20);
    // 127 places less 23 in use and 10 reserved for cabin 2
    let last = chain(&mut t, last, 0, 94);
    let others = [0, 1, 3, 4].map(|cabin| add_at(&mut t, 1, cabin));
    assert_eq!(others, [15, 14, 15, 14]);
    let last = chain(&mut t, last, 2, 10);
    assert_eq!(last, 127);
    assert_eq!([0, 1, 2, 3].map(|cabin| add_at(&mut t, 1, cabin)), [8; 4]);
}

/// 8 comes before 14, and 14 before 15, where both hold.
#[test]
fn which_comes_first() {
    // Cabin 0 is at its limit, and the free place is guaranteed to cabin 1.
    let mut t = table(3, list(&[[0, 1], [1, 1]]));
    assert_eq!([0, 1].map(|exit| add_at(&mut t, exit, 0)), [0, 14]);
    assert_eq!(add_at(&mut t.clone(), 1, 2), 14);
    // With a limit of 2, 15 alone is left.
    let mut t = table(3, list(&[[0, 2], [1, 1]]));
    assert_eq!([0, 1].map(|exit| add_at(&mut t, exit, 0)), [0, 15]);
    // The table is full, and cabin 1 is at its limit.
    assert_eq!((add_at(&mut t, 1, 1), add_at(&mut t, 2, 0), add_at(&mut t, 2, 1)), (0, 8, 8));
    // At the limit, with places that nobody is guaranteed.
    let mut t = table(8, list(&[[1, 1], [1, 1]]));
    assert_eq!([0, 1].map(|exit| add_at(&mut t, exit, 0)), [0, 14]);
}

/// A call without a fault.
fn right(table: &mut Table, call: &Call) -> Outcome {
    run(table, call, Fault::None)
}

#[test]
fn guarantees_are_kept() {
    assert!(laws::guarantees_are_kept(&right, 800..860) > 500);
}

#[test]
fn charges_are_counted() {
    let [freed, back] = laws::charges_are_counted(&right, 0..72);
    assert!(freed > 500 && back > 100, "{freed} {back}");
}
