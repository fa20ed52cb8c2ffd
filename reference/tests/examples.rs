//! Document 01's examples P1 to P10, with bits and counters, and further edits, all for cabin 0.
//! Small cases: self links, two exits to one step, which step is taken first, numbers going round.

use reference::calls::{add, clear, fresh_for_cabin_0, link, read, Answer, ReadAnswer};
use reference::convert::{convert, Way};
use reference::image::{load, write};
use reference::sound::sound;
use reference::table::Table;

fn f4() -> Table {
    fresh_for_cabin_0(4)
}

fn yes(first: u16, second: u16) -> Answer {
    Answer { refusal: 0, first, second }
}

fn is_strong(table: &Table, step: u16, exit: u16) -> bool {
    let fields = read(table, step);
    let exit = usize::from(exit);
    fields.bits[exit] == read(table, fields.targets[exit]).own
}

fn counts(table: &Table, step: u16) -> [u16; 2] {
    read(table, step).counts
}

#[test]
fn p1_to_p7() {
    let mut t = f4();
    // P1, P2
    assert_eq!(add(&mut t, 0, 0, 1, 0, 0), yes(1, 0));
    assert_eq!(add(&mut t, 1, 2, 1, 1, 0), yes(2, 0));
    assert!(is_strong(&t, 0, 0) && is_strong(&t, 1, 2));
    // P3
    assert_eq!(link(&mut t, 0, 0, 2, 2), yes(0, 0));
    assert!(!is_strong(&t, 2, 2));
    assert_eq!(counts(&t, 1), [1, 1]);
    // P4
    assert_eq!(link(&mut t, 1, 2, 0, 1), yes(0, 0));
    assert!(!is_strong(&t, 0, 1));
    assert_eq!(counts(&t, 2), [1, 1]);
    // P5
    assert_eq!(clear(&mut t, 0, 0), yes(2, 0));
    assert!(is_strong(&t, 0, 1) && is_strong(&t, 2, 2) && !is_strong(&t, 1, 2));
    let zero = ReadAnswer { targets: [0, 2, 0, 0], bits: [0, 1, 0, 0], ..Default::default() };
    let one = ReadAnswer {
        kind: 1,
        own: 1,
        targets: [0, 0, 2, 0],
        bits: [0, 0, 0, 0],
        counts: [0, 1],
        ..Default::default()
    };
    let two = ReadAnswer {
        kind: 1,
        content: 1,
        own: 1,
        targets: [0, 0, 1, 0],
        bits: [0, 0, 1, 0],
        counts: [1, 1],
        ..Default::default()
    };
    assert_eq!([read(&t, 0), read(&t, 1), read(&t, 2)], [zero, one, two]);
    // P6: only step 0 is left, and the last number given stays.
    assert_eq!(clear(&mut t, 0, 1), yes(2, 2));
    assert_eq!(t, Table { last: 2, ..f4() });
    // P7
    assert_eq!(add(&mut t, 0, 0, 3, 600, 0), yes(3, 0));
    assert_eq!(add(&mut t, 3, 0, 2, 15, 0), yes(1, 0));
    assert!(sound(&t));
}

#[test]
fn p8_a_self_link_does_not_hold_its_step() {
    let mut t = f4();
    add(&mut t, 0, 0, 1, 0, 0);
    assert_eq!(link(&mut t, 0, 0, 1, 0), yes(0, 0));
    assert_eq!(clear(&mut t, 0, 0), yes(1, 1));
    assert_eq!(t, Table { last: 1, ..f4() });
}

#[test]
fn p9_two_exits_lead_to_one_step() {
    let mut t = f4();
    add(&mut t, 0, 0, 1, 0, 0);
    link(&mut t, 0, 0, 0, 1);
    let mut weak_first = t.clone();
    assert_eq!(clear(&mut t, 0, 0), yes(1, 0));
    assert!(is_strong(&t, 0, 1));
    assert_eq!(counts(&t, 1), [0, 1]);
    assert_eq!(clear(&mut weak_first, 0, 1), yes(0, 0));
    assert_eq!(counts(&weak_first, 1), [1, 0]);
    assert_eq!(clear(&mut weak_first, 0, 0), yes(1, 1));
}

/// F4 is written in edition 2, where guarantee and limit of cabin 0 are 3. Converted down, which W6
/// makes of P10, it is P10's 30 bytes; converted up again, it is the 64 bytes written.
#[test]
fn p10_f4_as_an_image() {
    let mut old = vec![0x0A, 0, 1, 0, 4, 0, 0, 0, 1, 0, 0x14, 0, 2, 0];
    old.extend([0; 16]);
    let mut new = vec![0x2A, 0, 3, 0, 4, 0, 0, 0, 1, 0, 3, 0, 3, 0];
    new.extend([0; 28]);
    new.extend([0x16, 0, 4, 0]);
    new.extend([0; 18]);
    let mut buffer = [0xEE; 66];
    assert_eq!(write(&f4(), &mut buffer), yes(64, 0));
    assert_eq!(buffer[..64], new);
    assert_eq!(buffer[64..], [0xEE; 2]);
    let mut lowered = [0xEE; 32];
    assert_eq!(convert(Way::Down, &buffer[..64], &mut lowered), yes(30, 0));
    assert_eq!(lowered[..30], old);
    assert_eq!(lowered[30..], [0xEE; 2]);
    buffer.fill(0xEE);
    assert_eq!(convert(Way::Up, &lowered[..30], &mut buffer), yes(64, 0));
    assert_eq!(buffer[..64], new);
    assert_eq!(buffer[64..], [0xEE; 2]);
    assert_eq!([load(&old), load(&new)], [(f4(), yes(0, 0)), (f4(), yes(0, 0))]);
}

/// A weak self link is strong once its step's bit is flipped, so it is turned.
#[test]
fn a_self_link_is_made_weak_after_the_flip() {
    let mut t = f4();
    add(&mut t, 0, 0, 1, 0, 0);
    link(&mut t, 0, 0, 1, 0);
    link(&mut t, 0, 0, 0, 1);
    assert_eq!(counts(&t, 1), [1, 2]);
    assert_eq!(clear(&mut t, 0, 0), yes(1, 0));
    assert!(is_strong(&t, 0, 1) && !is_strong(&t, 1, 0));
    assert_eq!(counts(&t, 1), [1, 1]);
}

#[test]
fn a_copy_of_a_weak_link_is_weak() {
    let mut t = f4();
    add(&mut t, 0, 0, 1, 0, 0);
    link(&mut t, 0, 0, 0, 1);
    link(&mut t, 0, 1, 0, 2);
    assert!(is_strong(&t, 0, 0) && !is_strong(&t, 0, 1) && !is_strong(&t, 0, 2));
    assert_eq!(counts(&t, 1), [1, 2]);
}

/// Steps 1 and 2 both have a weak link from step 0. Step 1 is taken first, so its link to 2, made
/// weak then, is strong once 2 is flipped. In the other order it would be left weak, and clearing
/// 0, 1 would make step 2 doubtful.
#[test]
fn the_lowest_doubtful_step_is_taken_first() {
    let mut t = f4();
    add(&mut t, 0, 0, 1, 0, 0);
    add(&mut t, 1, 0, 1, 1, 0);
    link(&mut t, 1, 0, 0, 1);
    link(&mut t, 0, 0, 0, 2);
    assert_eq!(clear(&mut t, 0, 0), yes(2, 0));
    assert_eq!((read(&t, 1).own, read(&t, 2).own), (1, 1));
    assert!(is_strong(&t, 0, 1) && is_strong(&t, 0, 2) && is_strong(&t, 1, 0));
    assert_eq!(counts(&t, 2), [0, 2]);
    assert_eq!(clear(&mut t, 0, 1), yes(0, 0));
}

/// A step taken back can open the way to a lower one, which is then taken before a higher one.
#[test]
fn the_doubtful_steps_are_looked_at_afresh() {
    let mut t = fresh_for_cabin_0(5);
    // Strong links 0 to 3, 3 to 4, 3 to 1; weak links 1 to 4, 0 to 3, 0 to 4.
    for _ in 0..2 {
        add(&mut t, 0, 3, 2, 0, 0);
        clear(&mut t, 0, 3);
    }
    assert_eq!(add(&mut t, 0, 0, 1, 0, 0), yes(3, 0));
    assert_eq!(add(&mut t, 3, 0, 1, 0, 0), yes(4, 0));
    assert_eq!(add(&mut t, 3, 1, 1, 0, 0), yes(1, 0));
    link(&mut t, 3, 0, 1, 0);
    link(&mut t, 0, 0, 0, 1);
    link(&mut t, 3, 0, 0, 2);
    // Doubtful are 1, 3 and 4; step 0 has links to 3 and 4. After 3, step 1 comes before 4.
    assert_eq!(clear(&mut t, 0, 0), yes(3, 0));
    assert!(is_strong(&t, 0, 1) && is_strong(&t, 3, 1));
    // All links to 4 were weak before its flip, so they are strong after it.
    assert!(is_strong(&t, 3, 0) && is_strong(&t, 1, 0) && is_strong(&t, 0, 2));
}

#[test]
fn links_of_freed_steps_leave_the_counters_of_kept_ones() {
    let mut t = f4();
    add(&mut t, 0, 0, 1, 0, 0);
    add(&mut t, 0, 1, 1, 1, 0);
    link(&mut t, 0, 0, 2, 0);
    link(&mut t, 0, 0, 2, 1);
    assert_eq!(counts(&t, 1), [1, 2]);
    assert_eq!(clear(&mut t, 0, 1), yes(1, 1));
    assert_eq!(counts(&t, 1), [1, 0]);
}

#[test]
fn numbers_go_round_past_the_top() {
    let mut t = f4();
    for exit in 0..3 {
        assert_eq!(add(&mut t, 0, exit, 1, exit, 0), yes(exit + 1, 0));
    }
    assert_eq!(clear(&mut t, 0, 1), yes(1, 1));
    assert_eq!(add(&mut t, 0, 1, 1, 1, 0), yes(2, 0));
    clear(&mut t, 0, 2);
    clear(&mut t, 0, 0);
    clear(&mut t, 0, 1);
    assert_eq!(t.last, 2);
    assert_eq!(add(&mut t, 0, 0, 1, 0, 0), yes(3, 0));
    assert_eq!(add(&mut t, 0, 1, 1, 0, 0), yes(1, 0));
    assert_eq!(add(&mut t, 0, 2, 1, 0, 0), yes(2, 0));
}

/// With 128 steps, 386 links can lead to one of them.
#[test]
fn counters_pass_255() {
    let mut t = fresh_for_cabin_0(128);
    for step in 1..128 {
        assert_eq!(add(&mut t, step - 1, 0, 2, 0, 0), yes(step, 0));
    }
    link(&mut t, 0, 0, 127, 0);
    for step in 0..128 {
        for exit in 1..4 {
            assert_eq!(link(&mut t, 0, 0, step, exit), yes(0, 0));
        }
    }
    assert_eq!(counts(&t, 1), [1, 385]);
    assert_eq!(clear(&mut t, 0, 0), yes(127, 0));
    for exit in 1..3 {
        assert_eq!(clear(&mut t, 0, exit), yes(0, 0));
    }
    assert_eq!(clear(&mut t, 0, 3), yes(127, 127));
    assert_eq!(t, Table { last: 127, ..fresh_for_cabin_0(128) });
}
