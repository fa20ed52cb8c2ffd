//! Each row of "Reasons for no" with its example, W2's 13, W3's 11, W5's 14 to 16, each call's
//! order of refusals, every content of each kind, with W9's contacts, and numbers that would wrap. A
//! refused call changes neither table nor buffer.
//! `convert` has W6's 17 and the orders of conversions, `slip` W7's 18 and the orders of its calls,
//! `preview` the order of W8's, `rung` that of telling who can be rung.

mod contents;

use contents::every_content;
use reference::cabins::{list, one_cabin};
use reference::calls::{
    add, clear, counts, fresh, fresh_for_cabin_0, link, read, trial, Answer, ReadAnswer,
    TrialAnswer,
};
use reference::image::{length, load, write};
use reference::keys::key_line;
use reference::sound::sound;
use reference::squeeze::squeeze;
use reference::table::Table;

fn f4() -> Table {
    fresh_for_cabin_0(4)
}

fn no(refusal: u16) -> Answer {
    Answer { refusal, first: 0, second: 0 }
}

/// Checks that a call on a table answers this refusal and leaves the table as it was.
#[track_caller]
fn refuses(refusal: u16, table: &Table, call: impl Fn(&mut Table) -> Answer) {
    let mut given = table.clone();
    assert_eq!(call(&mut given), no(refusal));
    assert_eq!(given, *table);
}

/// Checks that a trial with a trace of this length answers this refusal and writes nothing.
#[track_caller]
fn trial_refuses(refusal: u16, table: &Table, limit: u16, results: &[u8], length: usize) {
    let mut trace = vec![0xEE; length];
    let answer = trial(table, limit, results, &mut trace);
    assert_eq!(answer, TrialAnswer { refusal, ..Default::default() });
    assert_eq!(trace, vec![0xEE; length]);
}

/// Checks that writing into a buffer of this length answers this refusal and writes nothing.
#[track_caller]
fn write_refuses(refusal: u16, table: &Table, length: usize) {
    let mut buffer = vec![0xEE; length];
    assert_eq!(write(table, &mut buffer), no(refusal));
    assert_eq!(buffer, vec![0xEE; length]);
}

fn read_refuses(refusal: u16, table: &Table, step: u16) {
    assert_eq!(read(table, step), ReadAnswer { refusal, ..Default::default() });
}

/// A table of capacity 2 that is full: step 0's exit 0 leads to step 1.
fn full() -> Table {
    let mut table = fresh_for_cabin_0(2);
    add(&mut table, 0, 0, 1, 0, 0);
    table
}

#[test]
fn examples_of_the_table() {
    let mut unsound = f4();
    unsound.used[0] = 0;
    // 1, which all calls on a table give, before any other
    refuses(1, &unsound, |t| add(t, 9, 9, 9, 9, 9));
    refuses(1, &unsound, |t| link(t, 9, 9, 9, 9));
    refuses(1, &unsound, |t| clear(t, 9, 9));
    refuses(1, &unsound, |t| squeeze(t, 0, [1; 16]));
    refuses(1, &unsound, |t| key_line(t, b"H*5A"));
    refuses(1, &unsound, |t| key_line(t, b"H*4A"));
    assert_eq!((counts(&unsound), length(&unsound)), (no(1), no(1)));
    read_refuses(1, &unsound, 9);
    trial_refuses(1, &unsound, 1, &[4], 0);
    write_refuses(1, &unsound, 0);
    // 2
    assert_eq!(fresh(129, one_cabin(129)), (fresh_for_cabin_0(1), no(2)));
    // 3
    read_refuses(3, &f4(), 1);
    // 4
    refuses(4, &f4(), |t| clear(t, 0, 4));
    // 5
    let mut added = f4();
    assert_eq!(add(&mut added, 0, 0, 1, 0, 0).refusal, 0);
    refuses(5, &added, |t| add(t, 0, 0, 1, 0, 0));
    // 6
    refuses(6, &f4(), |t| clear(t, 0, 0));
    // 7
    refuses(7, &f4(), |t| add(t, 0, 0, 3, 0, 0));
    // 8
    refuses(8, &fresh_for_cabin_0(1), |t| add(t, 0, 0, 1, 0, 0));
    // 9
    refuses(9, &f4(), |t| key_line(t, b"H*5A"));
    // 10
    trial_refuses(10, &f4(), 2, &[0, 4], 2);
    // 11
    write_refuses(11, &f4(), 29);
    write_refuses(11, &f4(), 63);
    trial_refuses(11, &f4(), 2, &[0, 0], 1);
    // 12
    assert_eq!(load(&[]), (fresh_for_cabin_0(1), no(12)));
    // 13
    refuses(13, &added, |t| squeeze(t, 1, one_cabin(1)));
    // 14: cabin 0 may have one step, and has it
    let mut limited = fresh(4, list(&[[0, 1]])).0;
    assert_eq!(add(&mut limited, 0, 0, 1, 0, 0).refusal, 0);
    refuses(14, &limited, |t| add(t, 0, 1, 1, 0, 0));
    // 15: the three free places are guaranteed to cabin 1
    refuses(15, &fresh(4, list(&[[0, 9], [3, 3]])).0, |t| add(t, 0, 0, 1, 0, 0));
    // 16: a cabin, and a list at a fresh table and at a squeeze
    refuses(16, &f4(), |t| add(t, 0, 0, 1, 0, 8));
    assert_eq!(fresh(4, one_cabin(5)), (fresh_for_cabin_0(1), no(16)));
    refuses(16, &f4(), |t| squeeze(t, 4, one_cabin(5)));
}

#[test]
fn capacities() {
    for capacity in [1, 2, 127, 128] {
        let (table, answer) = fresh(capacity, one_cabin(capacity));
        assert_eq!((table.capacity, answer), (capacity, no(0)));
    }
    for capacity in [0, 129, 256, 257, 65535] {
        for quotas in [one_cabin(capacity), one_cabin(128), [0; 16], [1; 16]] {
            assert_eq!(fresh(capacity, quotas), (fresh_for_cabin_0(1), no(2)));
            refuses(2, &full(), |t| squeeze(t, capacity, quotas));
        }
    }
}

#[test]
fn kinds_and_contents() {
    let right = [
        (1, 0),
        (1, 99),
        (1, 100),
        (1, 256),
        (1, 999),
        (2, 0),
        (2, 15),
        (3, 1),
        (3, 100),
        (3, 600),
    ];
    for (kind, content) in right {
        let mut table = f4();
        assert_eq!(add(&mut table, 0, 0, kind, content, 0).first, 1);
        assert_eq!((read(&table, 1).kind, read(&table, 1).content), (kind, content));
    }
    let wrong = [(1, 1000), (2, 16), (3, 0), (3, 601), (0, 0), (4, 1), (257, 0), (65535, 1)];
    for (kind, content) in wrong.into_iter().chain([1, 2, 3].map(|kind| (kind, 65535))) {
        refuses(7, &f4(), |t| add(t, 0, 0, kind, content, 0));
    }
}

/// Every content of each kind, added, and put into a table that is sound exactly if it fits.
#[test]
fn contents_in_range_and_out_of_it() {
    let mut accepted = [0; 5];
    let (start, mut with) = (fresh_for_cabin_0(2), full());
    for (kind, content, fits) in every_content() {
        (with.kinds[1], with.contents[1]) = (kind, content);
        assert_eq!(sound(&with), fits, "{kind} {content}");
        let mut table = start.clone();
        let answer = add(&mut table, 0, 0, kind, content, 0);
        if fits {
            assert_eq!(answer, Answer { refusal: 0, first: 1, second: 0 });
        } else {
            assert_eq!(answer, no(7), "{kind} {content}");
        }
        assert_eq!(&table, if fits { &with } else { &start });
        accepted[usize::from(kind)] += u32::from(fits);
    }
    assert_eq!(accepted, [0, 1000, 16, 600, 0]);
}

#[test]
fn the_order_of_add() {
    let table = full();
    refuses(16, &table, |t| add(t, 2, 4, 0, 0, 8));
    refuses(3, &table, |t| add(t, 2, 4, 0, 0, 0));
    refuses(4, &table, |t| add(t, 0, 4, 0, 0, 0));
    refuses(5, &table, |t| add(t, 0, 0, 0, 0, 0));
    refuses(7, &table, |t| add(t, 0, 1, 0, 0, 0));
    refuses(8, &table, |t| add(t, 0, 1, 1, 0, 0));
    // Steps 1 and 2 are cabin 0's, which may have no more; the free place is guaranteed to cabin 1.
    let (mut table, _) = fresh(4, list(&[[2, 2], [1, 1], [0, 1]]));
    assert_eq!([0, 1].map(|exit| add(&mut table, 0, exit, 1, 0, 0).refusal), [0, 0]);
    refuses(16, &table, |t| add(t, 4, 4, 0, 0, 8));
    refuses(3, &table, |t| add(t, 4, 4, 0, 0, 0));
    refuses(7, &table, |t| add(t, 0, 2, 0, 0, 0));
    refuses(14, &table, |t| add(t, 0, 2, 1, 0, 0));
    refuses(15, &table, |t| add(t, 0, 2, 1, 0, 2));
    assert_eq!(add(&mut table, 0, 2, 1, 0, 1).first, 3);
    for cabin in 0..8 {
        refuses(8, &table, |t| add(t, 0, 3, 1, 0, cabin));
    }
}

#[test]
fn the_order_of_link() {
    let table = full();
    refuses(3, &table, |t| link(t, 2, 4, 2, 4));
    refuses(4, &table, |t| link(t, 0, 4, 2, 4));
    refuses(6, &table, |t| link(t, 0, 1, 2, 4));
    refuses(3, &table, |t| link(t, 0, 0, 2, 4));
    refuses(4, &table, |t| link(t, 0, 0, 0, 4));
    refuses(5, &table, |t| link(t, 0, 0, 0, 0));
    refuses(6, &table, |t| link(t, 0, 1, 0, 0));
}

#[test]
fn the_orders_of_the_other_calls() {
    let table = full();
    refuses(3, &table, |t| clear(t, 2, 4));
    refuses(4, &table, |t| clear(t, 0, 4));
    refuses(6, &table, |t| clear(t, 0, 1));
    // Capacity 0 is also below the steps in use, and so is 1, for which the second list is bad too.
    refuses(2, &table, |t| squeeze(t, 0, one_cabin(2)));
    refuses(16, &table, |t| squeeze(t, 1, one_cabin(2)));
    refuses(13, &table, |t| squeeze(t, 1, one_cabin(1)));
    // Step 1 fits a capacity of 2, but not a limit of 0, nor with a place guaranteed to cabin 1.
    refuses(13, &table, |t| squeeze(t, 2, [0; 16]));
    refuses(13, &table, |t| squeeze(t, 2, list(&[[0, 1], [1, 1]])));
    assert_eq!(squeeze(&mut table.clone(), 2, one_cabin(2)), no(0));
    // A result above 3 counts even where no contact uses it up, and before the trace.
    trial_refuses(10, &table, 0, &[1, 1, 4], 0);
    trial_refuses(10, &table, 9, &[1, 4], 0);
    trial_refuses(10, &table, 1, &[255], 1);
    // The trace is held to the limit, even where the trial would end before it.
    for limit in [1, 2, 256, 65535] {
        trial_refuses(11, &table, limit, &[1], usize::from(limit) - 1);
        assert_eq!(trial(&table, limit, &[1], &mut vec![0; limit.into()]).refusal, 0);
    }
    trial_refuses(11, &table, 3, &[], 2);
    trial_refuses(11, &table, 65535, &[1; 100], 255);
    // Needed is the length of this image, and no more.
    write_refuses(11, &table, 85);
    write_refuses(11, &table, 0);
    assert_eq!(write(&table, &mut [0; 86]), Answer { refusal: 0, first: 86, second: 0 });
}

#[test]
fn key_lines_give_the_refusals_of_their_calls() {
    let table = full();
    let lines: [(u16, &[u8]); 12] = [
        (3, b"H*199900000A"),
        (4, b"H*100090000A"),
        (5, b"H*100000000A"),
        (7, b"H*100010000A"),
        (8, b"H*100011000A"),
        (3, b"H*200299999A"),
        (4, b"H*200049999A"),
        (6, b"H*200019999A"),
        (3, b"H*31280A"),
        (4, b"H*30004A"),
        (6, b"H*30001A"),
        (9, b"H*3000A"),
    ];
    for (refusal, line) in lines {
        refuses(refusal, &table, |t| key_line(t, line));
    }
}

#[test]
fn numbers_do_not_wrap() {
    let table = full();
    for large in [256, 257, 65535] {
        refuses(3, &table, |t| add(t, large, 1, 1, 0, 0));
        refuses(3, &table, |t| link(t, large, 0, 0, 1));
        refuses(3, &table, |t| link(t, 0, 0, large, 1));
        refuses(3, &table, |t| clear(t, large, 0));
        read_refuses(3, &table, large);
        refuses(4, &table, |t| add(t, 0, large, 1, 0, 0));
        refuses(4, &table, |t| link(t, 0, large, 0, 1));
        refuses(4, &table, |t| link(t, 0, 0, 0, large));
        refuses(4, &table, |t| clear(t, 0, large));
        refuses(7, &table, |t| add(t, 0, 1, large, 0, 0));
        refuses(16, &table, |t| add(t, 0, 1, 1, 0, large));
    }
}

#[test]
fn steps_at_and_above_the_capacity_are_not_in_use() {
    for step in [2, 3, 127, 128, 129] {
        read_refuses(3, &full(), step);
    }
}
