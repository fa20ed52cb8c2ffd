//! W7's sentences on examples with the numbers written out, the order of the refusals, slips that are
//! old, damaged, of no clearing, or of any length, and the laws on generated tables and histories.
//! `histories` has the faults.

mod common;

use common::image_of;
use reference::cabins::{list, one_cabin};
use reference::calls::{add, clear, counts, fresh, fresh_for_cabin_0, link, read, trial, Answer};
use reference::faults::{Fault, Length};
use reference::generate::Random;
use reference::history::{run, Call, Outcome, UNTOUCHED};
use reference::image::{bytes, record};
use reference::keys::key_line;
use reference::laws;
use reference::slip::{between, clear_with_slip, listed, take_back, LARGEST_SLIP};
use reference::sound::sound;
use reference::squeeze::squeeze;
use reference::table::{place, Table};

fn yes(first: u16, second: u16) -> Answer {
    Answer { refusal: 0, first, second }
}

/// The slip with these fields and records.
fn slip_of(first: [u16; 3], records: &[[u16; 11]]) -> Vec<u8> {
    bytes(first.into_iter().chain(records.as_flattened().iter().copied()))
}

/// Clears an exit with a slip, into a buffer that is long enough, and gives the slip.
#[track_caller]
fn cleared(table: &mut Table, step: u16, exit: u16) -> Vec<u8> {
    let mut buffer = [UNTOUCHED; LARGEST_SLIP];
    let answer = clear_with_slip(table, step, exit, &mut buffer);
    assert_eq!(answer.refusal, 0);
    let length = 50 + 44 * usize::from(answer.first);
    assert_eq!(buffer[length..], vec![UNTOUCHED; LARGEST_SLIP - length]);
    buffer[..length].to_vec()
}

/// Checks that a slip is not accepted, and leaves the table.
#[track_caller]
fn refuses(table: &Table, slip: &[u8]) {
    let mut given = table.clone();
    assert_eq!(take_back(&mut given, slip), Answer { refusal: 18, first: 0, second: 0 });
    assert_eq!(given, *table);
}

/// Checks that a slip is accepted, brings back so many steps, and gives a table.
#[track_caller]
fn gives(table: &Table, slip: &[u8], steps: u16, expected: &Table) {
    let mut given = table.clone();
    assert_eq!(take_back(&mut given, slip), yes(steps, 0));
    assert_eq!(given, *expected);
}

/// Capacity 4, with a contact 7 at exit 0 of step 0.
fn one_step() -> Table {
    let mut table = fresh_for_cabin_0(4);
    assert_eq!(add(&mut table, 0, 0, 1, 7, 0), yes(1, 0));
    table
}

/// The same, and a copy of the link at exit 2.
fn two_links() -> Table {
    let mut table = one_step();
    assert_eq!(link(&mut table, 0, 0, 0, 2), yes(0, 0));
    table
}

#[test]
fn a_step_is_freed_and_brought_back() {
    let before = one_step();
    let mut table = before.clone();
    let slip = cleared(&mut table, 0, 0);
    let records = [
        [22, 4, 0, 0, 0, 0, 1, 0, 0, 0, 0],
        [22, 4, 0, 0, 0, 0, 0, 0, 0, 0, 0],
        [22, 4, 1, 1, 7, 0, 0, 0, 0, 0, 0],
        [22, 4, 1, 0, 0, 0, 0, 0, 0, 0, 0],
    ];
    assert_eq!(slip, slip_of([0, 0, 2], &records));
    assert_eq!(counts(&table), yes(1, 3));
    gives(&table, &slip, 1, &before);
    // A second time, the new records are not the present ones.
    refuses(&before, &slip);
}

/// Step 1 turns its bit, so that the copy becomes strong; the slip has the bits.
#[test]
fn a_step_changes_its_bit_and_changes_it_back() {
    let before = two_links();
    let mut table = before.clone();
    let slip = cleared(&mut table, 0, 0);
    let records = [
        [22, 4, 0, 0, 0, 4, 1, 0, 1, 0, 0],
        [22, 4, 0, 0, 0, 4, 0, 0, 1, 0, 0],
        [22, 4, 1, 1, 7, 0, 0, 0, 0, 0, 0],
        [22, 4, 1, 1, 7, 16, 0, 0, 0, 0, 0],
    ];
    assert_eq!(slip, slip_of([0, 0, 2], &records));
    gives(&table, &slip, 0, &before);
}

/// Of the target only a counter changes, and no record has counters.
#[test]
fn a_weak_link_alone() {
    let before = two_links();
    let mut table = before.clone();
    let slip = cleared(&mut table, 0, 2);
    assert_eq!((slip.len(), listed(&slip)), (50, vec![0]));
    assert_eq!((before.counts[2], before.counts[3]), (1, 1));
    assert_eq!((table.counts[2], table.counts[3]), (1, 0));
    gives(&table, &slip, 0, &before);
}

/// A chain of 127 steps, all freed, and all taken back: the largest slip.
#[test]
fn the_largest_slip() {
    let mut chain = fresh_for_cabin_0(128);
    for step in 0..127 {
        assert_eq!(add(&mut chain, step, 3, 3, 600, 0).first, step + 1);
    }
    let mut held = chain.clone();
    assert_eq!(link(&mut held, 0, 3, 0, 0), yes(0, 0));
    for (before, steps) in [(chain, 127), (held, 0)] {
        let mut table = before.clone();
        let slip = cleared(&mut table, 0, 3);
        assert_eq!((slip.len(), LARGEST_SLIP), (5638, 5638));
        assert_eq!(listed(&slip), (0..128).collect::<Vec<u16>>());
        gives(&table, &slip, steps, &before);
    }
}

/// 1, 3, 4, 6, then 11, which is about this slip and not about the largest one. A refused call
/// leaves the table and every byte.
#[test]
fn the_order_of_a_clearing_with_a_slip() {
    let mut unsound = two_links();
    unsound.counts[2] += 1;
    let cases = [
        (1, &unsound, 9, 9),
        (3, &two_links(), 2, 9),
        (3, &two_links(), 65535, 0),
        (4, &two_links(), 0, 4),
        (4, &two_links(), 1, 256),
        (6, &two_links(), 0, 1),
        (6, &two_links(), 1, 3),
    ];
    let refuses = |refusal, table: &Table, step, exit, length| {
        let (mut given, mut buffer) = (table.clone(), vec![UNTOUCHED; length]);
        let answer = clear_with_slip(&mut given, step, exit, &mut buffer);
        assert_eq!(answer, Answer { refusal, first: 0, second: 0 });
        assert_eq!((given, buffer), (table.clone(), vec![UNTOUCHED; length]));
    };
    for (refusal, table, step, exit) in cases {
        for length in [0, 49, 50, LARGEST_SLIP] {
            refuses(refusal, table, step, exit, length);
        }
    }
    for (exit, length) in [(0, 94), (2, 50)] {
        for short in [0, 1, 6, length - 1] {
            refuses(11, &two_links(), 0, exit, short);
        }
        for enough in [length, length + 1, LARGEST_SLIP, 65_536] {
            let mut buffer = vec![UNTOUCHED; enough];
            let mut table = two_links();
            let answer = clear_with_slip(&mut table, 0, exit, &mut buffer);
            assert_eq!(answer, clear(&mut two_links(), 0, exit));
            assert_eq!(buffer[..length], cleared(&mut two_links(), 0, exit));
            assert_eq!(buffer[length..], vec![UNTOUCHED; enough - length]);
        }
    }
}

/// 1 comes before 18, whatever the slip.
#[test]
fn a_table_that_is_not_sound() {
    let mut table = two_links();
    let slip = cleared(&mut table, 0, 0);
    let damages: [fn(&mut Table); 3] =
        [|table| table.counts[2] += 1, |table| table.own[3] = 1, |table| table.capacity = 0];
    for damage in damages {
        let mut unsound = table.clone();
        damage(&mut unsound);
        for slip in [&slip[..], &[], &slip[1..]] {
            let mut given = unsound.clone();
            assert_eq!(take_back(&mut given, slip), Answer { refusal: 1, first: 0, second: 0 });
            assert_eq!(given, unsound);
        }
    }
}

/// Reads, trials, writing and refused calls are no changes.
#[test]
fn calls_that_change_nothing_in_between() {
    let before = two_links();
    let mut table = before.clone();
    let slip = cleared(&mut table, 0, 0);
    assert_eq!(read(&table, 1).own, 1);
    assert_eq!(trial(&table, 3, &[0], &mut [0; 3]).refusal, 0);
    image_of(&table);
    assert_eq!(clear(&mut table, 0, 0).refusal, 6);
    assert_eq!(add(&mut table, 0, 2, 1, 0, 0).refusal, 5);
    assert_eq!(key_line(&mut table, b"H*5A").refusal, 9);
    assert_eq!(take_back(&mut table, &[&slip[..], &[0]].concat()).refusal, 18);
    gives(&table, &slip, 0, &before);
}

/// Capacity 5, with the chain 0, 1, 2, 3 along exit 0.
fn chain() -> Table {
    let mut table = fresh_for_cabin_0(5);
    for step in 0..3 {
        assert_eq!(add(&mut table, step, 0, 1, step, 0), yes(step + 1, 0));
    }
    table
}

/// An add elsewhere stays, and so does the last number given. One that changes a record of the slip
/// is in its way: at another exit of the holder, or where the freed number is given again.
#[test]
fn adds_in_between() {
    let before = chain();
    let mut table = before.clone();
    let slip = cleared(&mut table, 2, 0);
    assert_eq!((listed(&slip), table.last), (vec![2, 3], 3));
    let mut held = table.clone();
    assert_eq!(add(&mut held, 2, 1, 1, 9, 0), yes(4, 0));
    refuses(&held, &slip);
    let mut expected = before;
    for table in [&mut table, &mut expected] {
        assert_eq!(add(table, 1, 1, 1, 9, 0), yes(4, 0));
    }
    gives(&table, &slip, 1, &expected);
    assert_eq!(expected.last, 4);
    assert_eq!(add(&mut table, 1, 2, 1, 9, 0), yes(3, 0));
    refuses(&table, &slip);
}

/// What stands at the cleared exit has to be as the clearing left it: empty.
#[test]
fn the_cleared_exit_filled_and_emptied() {
    let before = chain();
    let mut table = before.clone();
    let slip = cleared(&mut table, 2, 0);
    assert_eq!(link(&mut table, 0, 0, 2, 0), yes(0, 0));
    refuses(&table, &slip);
    assert_eq!(clear(&mut table, 2, 0), yes(0, 0));
    gives(&table, &slip, 1, &before);
    assert_eq!(add(&mut table, 2, 0, 3, 5, 0), yes(4, 0));
    refuses(&table, &slip);
    assert_eq!(clear(&mut table, 2, 0), yes(1, 1));
    gives(&table, &slip, 1, &Table { last: 4, ..before });
}

/// Two clearings: the later slip first, then the earlier; and the other way round, where they have
/// no step in common.
#[test]
fn another_clearing_in_between() {
    let mut before = chain();
    assert_eq!(add(&mut before, 1, 1, 2, 0, 0), yes(4, 0));
    let mut table = before.clone();
    let first = cleared(&mut table, 2, 0);
    let between = table.clone();
    let second = cleared(&mut table, 1, 1);
    gives(&table, &second, 1, &between);
    gives(&between, &first, 1, &before);
    let mut other = before.clone();
    assert_eq!(clear(&mut other, 1, 1), yes(1, 1));
    gives(&table, &first, 1, &other);
    // Clearing the exit that holds the chain takes the holder of the first slip with it.
    let third = cleared(&mut table, 0, 0);
    refuses(&table, &first);
    refuses(&table, &second);
    gives(&table, &third, 2, &cleared_both(&before));
}

fn cleared_both(table: &Table) -> Table {
    let mut table = table.clone();
    assert_eq!((clear(&mut table, 2, 0), clear(&mut table, 1, 1)), (yes(1, 1), yes(1, 1)));
    table
}

/// The freed step's cabin has come to its limit meanwhile, or its place is guaranteed to another.
#[test]
fn cabins_that_have_used_the_place() {
    let (mut table, _) = fresh(5, list(&[[0, 2], [0, 9]]));
    assert_eq!(add(&mut table, 0, 0, 1, 0, 1), yes(1, 0));
    assert_eq!(add(&mut table, 1, 0, 1, 0, 0), yes(2, 0));
    assert_eq!(add(&mut table, 1, 1, 1, 0, 0), yes(3, 0));
    let before = table.clone();
    let slip = cleared(&mut table, 1, 1);
    gives(&table, &slip, 1, &before);
    assert_eq!(read(&before, 3).cabin, 0);
    // Cabin 0 adds its second step elsewhere: then it would have three.
    let mut other = table.clone();
    assert_eq!(add(&mut other, 2, 0, 1, 0, 0), yes(4, 0));
    refuses(&other, &slip);
    // Cabin 1 adds there instead.
    assert_eq!(add(&mut table, 2, 0, 1, 0, 1), yes(4, 0));
    let mut expected = before.clone();
    assert_eq!(add(&mut expected, 2, 0, 1, 0, 1), yes(4, 0));
    gives(&table, &slip, 1, &expected);
    // A squeeze that moves nothing gives the free place to cabin 5 for good.
    let fives = |guarantee| list(&[[0, 9], [0, 9], [0, 0], [0, 0], [0, 0], [guarantee, 9]]);
    let mut table = before.clone();
    let slip = cleared(&mut table, 1, 1);
    assert_eq!(squeeze(&mut table, 5, fives(2)), yes(0, 0));
    refuses(&table, &slip);
    assert_eq!(squeeze(&mut table, 5, fives(1)), yes(0, 0));
    let expected = Table { quotas: fives(1), last: 2, ..before };
    gives(&table, &slip, 1, &expected);
}

/// A squeeze that takes the freed number away, or moves steps of the slip.
#[test]
fn a_squeeze_in_between() {
    let before = chain();
    let mut table = before.clone();
    let slip = cleared(&mut table, 2, 0);
    assert_eq!(squeeze(&mut table, 3, one_cabin(3)), yes(0, 0));
    refuses(&table, &slip);
    assert_eq!(squeeze(&mut table, 4, one_cabin(4)), yes(0, 0));
    let expected = Table { capacity: 4, last: 2, quotas: one_cabin(4), ..before };
    gives(&table, &slip, 1, &expected);
    // A gap at 1 is closed, and the steps of the slip have other numbers.
    let mut table = fresh_for_cabin_0(5);
    for exit in 0..3 {
        assert_eq!(add(&mut table, 0, exit, 1, 0, 0), yes(exit + 1, 0));
    }
    assert_eq!(add(&mut table, 3, 0, 2, 1, 0), yes(4, 0));
    assert_eq!(clear(&mut table, 0, 0), yes(1, 1));
    let slip = cleared(&mut table, 3, 0);
    assert_eq!(squeeze(&mut table, 5, one_cabin(5)), yes(0, 0));
    refuses(&table, &slip);
}

/// A slip that no clearing wrote is accepted if it fits: another content of the freed step, a link
/// that nobody made, of a strength that no copy has, and a step that nobody added.
#[test]
fn slips_of_no_clearing() {
    let mut table = one_step();
    let mut slip = cleared(&mut table, 0, 0);
    for (content, accepted) in
        [(99, true), (100, true), (999, true), (1000, false), (65535, false), (0, true)]
    {
        slip[6 + 44 + 8..][..2].copy_from_slice(&u16::to_le_bytes(content));
        let mut expected = one_step();
        expected.contents[1] = content;
        if accepted {
            gives(&table, &slip, 1, &expected);
        } else {
            refuses(&table, &slip);
        }
    }
    let table = chain();
    for (step, target, bit, accepted) in
        [(1, 3, 0, true), (1, 3, 1, true), (3, 1, 1, true), (3, 1, 0, false), (1, 0, 1, false)]
    {
        let mut before = table.clone();
        (before.targets[place(step, 2)], before.bits[place(step, 2)]) = (target, bit);
        before.counts = before.counted();
        assert_eq!(sound(&before), accepted);
        let slip = between(&before, &table, step as u16, 2);
        assert_eq!(listed(&slip), [step as u16]);
        if accepted {
            gives(&table, &slip, 0, &before);
        } else {
            refuses(&table, &slip);
        }
    }
    let mut before = table.clone();
    (before.used[4], before.kinds[4], before.own[4]) = (1, 2, 1);
    (before.targets[place(1, 3)], before.bits[place(1, 3)]) = (4, 1);
    (before.targets[place(4, 0)], before.bits[place(4, 0)]) = (2, 1);
    before.counts = before.counted();
    gives(&table, &between(&before, &table, 1, 3), 1, &before);
}

/// Two strong links, one of which was cleared while the other was there: put back behind it, it
/// would close a strong ring.
#[test]
fn a_slip_that_would_close_a_strong_ring() {
    let mut table = fresh_for_cabin_0(3);
    assert_eq!(add(&mut table, 0, 0, 1, 0, 0), yes(1, 0));
    assert_eq!(add(&mut table, 0, 1, 1, 0, 0), yes(2, 0));
    let strong_link = |from: usize, to: u16| {
        let mut before = table.clone();
        before.targets[place(from, 0)] = to;
        before.counts = before.counted();
        assert!(sound(&before));
        (between(&before, &table, from as u16, 0), before)
    };
    let [(one, with_one), (two, with_two)] = [strong_link(1, 2), strong_link(2, 1)];
    gives(&table, &one, 0, &with_one);
    gives(&table, &two, 0, &with_two);
    refuses(&with_one, &two);
    refuses(&with_two, &one);
}

/// A slip has each changed step once, in order, and no other, and no more bytes.
#[test]
fn slips_put_together_wrongly() {
    let mut table = chain();
    let slip = cleared(&mut table, 1, 0);
    assert_eq!(listed(&slip), [1, 2, 3]);
    let head = |count: u16| bytes([1, 0, count]);
    let pairs: Vec<&[u8]> = slip[6..].chunks(44).collect();
    let put = |count, which: &[usize]| {
        let chosen: Vec<&[u8]> = which.iter().map(|&i| pairs[i]).collect();
        [head(count), chosen.concat()].concat()
    };
    gives(&table, &put(3, &[0, 1, 2]), 2, &chain());
    for (count, which) in [
        (0, &[][..]),
        (3, &[]),
        (1, &[0]),
        (2, &[0, 1]),
        (2, &[0, 2]),
        (2, &[1, 2]),
        (3, &[1, 0, 2]),
        (3, &[0, 2, 1]),
        (3, &[2, 1, 0]),
        (4, &[0, 0, 1, 2]),
        (4, &[0, 1, 2, 2]),
        (4, &[0, 1, 2]),
        (2, &[0, 1, 2]),
        (259, &[0, 1, 2]),
        (65535, &[0, 1, 2]),
    ] {
        refuses(&table, &put(count, which));
    }
    // Step 0 as it was and is, free step 4, and old and new exchanged.
    for step in [0, 4] {
        let same = record(&table, step).repeat(2);
        let parts = if step == 0 { [&same, &slip[6..]] } else { [&slip[6..], &same[..]] };
        refuses(&table, &[&head(4)[..], &parts.concat()].concat());
    }
    for at in [6, 50, 94] {
        let mut exchanged = slip.clone();
        exchanged[at..at + 44].rotate_left(22);
        refuses(&table, &exchanged);
    }
    for place in [[0, 0], [2, 0], [1, 1], [1, 4], [128, 0], [257, 0], [1, 256], [65535, 65535]] {
        refuses(&table, &[bytes(place), slip[4..].to_vec()].concat());
    }
}

/// Every byte of small slips takes every value. What is accepted retraces, and what is not leaves
/// the table; cut anywhere or with any bytes behind it, no slip is accepted.
#[test]
fn small_slips_damaged() {
    for (before, exit, also_accepted) in
        [(one_step(), 0, true), (two_links(), 0, false), (two_links(), 2, false)]
    {
        let mut table = before.clone();
        let slip = cleared(&mut table, 0, exit);
        let mut accepted = 0;
        for at in 0..slip.len() {
            for byte in (0..=255).filter(|&byte| byte != slip[at]) {
                let mut damaged = slip.clone();
                damaged[at] = byte;
                let mut given = table.clone();
                if take_back(&mut given, &damaged).refusal == 0 {
                    laws::retraces(&right, &table, &given, &damaged);
                    accepted += 1;
                } else {
                    refuses(&table, &damaged);
                }
            }
            refuses(&table, &slip[..at]);
            for more in [vec![0; 1 + at], vec![UNTOUCHED; 1 + at], slip[..1 + at].to_vec()] {
                refuses(&table, &[&slip[..], &more].concat());
            }
        }
        // other contents of the freed contact, and other kinds that they fit
        assert_eq!(accepted > 90, also_accepted, "{accepted}");
        gives(&table, &slip, before.size() - table.size(), &before);
    }
}

/// Bytes of any length that are no slip.
#[test]
fn no_slips() {
    let mut table = chain();
    let slip = cleared(&mut table, 1, 0);
    for length in (0..200).chain([5638, 5639, 65_535, 65_536, 65_586, 70_000, 131_072]) {
        for byte in [0, 1, 22, 255] {
            refuses(&table, &vec![byte; length]);
        }
        refuses(&table, &slip.iter().copied().cycle().skip(1).take(length).collect::<Vec<u8>>());
    }
    refuses(&table, &[bytes([1, 0, 65535]), slip[6..].to_vec()].concat());
}

/// Lengths are not cut to 16 bits: a slip with 65,536 bytes behind it is not accepted, and a buffer
/// of 65,536 bytes has room for one.
#[test]
fn long_lengths() {
    let mut table = one_step();
    let slip = cleared(&mut table, 0, 0);
    let long = Call::TakeBack { slip: [&slip[..], &[0; 65_536]].concat() };
    let made = |call: &Call, table: &Table, fault| run(&mut table.clone(), call, fault);
    assert_eq!(made(&long, &table, Fault::None).refusal, 18);
    assert_eq!(made(&long, &table, Fault::Cut(Length::Slip)).refusal, 0);
    let roomy = Call::ClearWithSlip { step: 0, exit: 0, buffer: 65_536 };
    assert_eq!(made(&roomy, &one_step(), Fault::None).refusal, 0);
    assert_eq!(made(&roomy, &one_step(), Fault::Cut(Length::Buffer)).refusal, 11);
}

/// A call without a fault.
fn right(table: &mut Table, call: &Call) -> Outcome {
    run(table, call, Fault::None)
}

#[test]
fn slips_bring_back() {
    assert!(laws::slips_bring_back(&right, 640..680) > 20);
}

#[test]
fn take_backs_retrace() {
    let [accepted, later] = laws::take_backs_retrace(&right, 0..72);
    assert!(accepted > 500 && later > 200, "{accepted} {later}");
}

/// Slips that no clearing wrote, and damaged ones, on generated tables: many are accepted, and what
/// they give retraces.
#[test]
fn made_up_slips_retrace() {
    let mut random = Random(9);
    let mut found = [0; 2];
    for _ in 0..1000 {
        let table = random.sound_table();
        let mut slip = random.made_up_slip(&table);
        for _ in 0..2 {
            let mut given = table.clone();
            let accepted = take_back(&mut given, &slip).refusal == 0;
            if accepted {
                laws::retraces(&right, &table, &given, &slip);
            } else {
                refuses(&table, &slip);
            }
            found[usize::from(accepted)] += 1;
            random.damage_slip(&table, &mut slip);
        }
    }
    assert!(found[0] > 500 && found[1] > 200, "{found:?}");
}
