//! Every call keeps to 16 kB of stack, the caller's table or dispatcher counted where it has one. Each is measured by itself, on tables and images
//! where it has the most to do.

use compare::stack::depth;
use compare::{full_ring, lend, lend_list, ring, rounds};
use reference::cabins::{list, one_cabin};
use reference::calls::{add, clear, fresh, fresh_for_cabin_0, link};
use reference::image::{encode, in_edition_1, OLD_HEADER, OLD_RECORD};
use reference::slip::{between, SLIP_HEADER, SLIP_PAIR};
use reference::sound::{CONTACT, WAIT};
use reference::squeeze::squeeze;
use reference::table::Table;
use std::hint::black_box;
use telephone::{raw, sole_quotas, Exit, Kind};

const LIMIT: usize = 16 * 1024;
const TABLE: usize = size_of::<raw::Table>();
/// Bytes of the largest image.
const IMAGE: u16 = telephone::IMAGE_MAX as u16;
/// The same in edition 1.
const OLD_IMAGE: u16 = (OLD_HEADER + 128 * OLD_RECORD) as u16;

/// A table of 128 places with a chain of steps, step i held by exit `exit` of the step before it.
fn chain(steps: u16, exit: u16) -> Table {
    let mut table = fresh_for_cabin_0(128);
    for step in 0..steps {
        assert_eq!(add(&mut table, step, exit, 1, 0, 0).refusal, 0);
    }
    table
}

/// A full chain, with a weak link from step 0 to step 1 that takes all steps back when the strong one is cleared.
fn held(exit: u16) -> Table {
    let mut table = chain(127, exit);
    assert_eq!(link(&mut table, 0, exit, 0, (exit + 1) % 4).refusal, 0);
    table
}

/// A chain of 126 steps above a free place, so that a squeeze moves each of them.
fn gap(exit: u16) -> Table {
    let mut table = fresh_for_cabin_0(128);
    let other = (exit + 1) % 4;
    assert_eq!(add(&mut table, 0, other, 1, 0, 0).first, 1);
    for step in 1..127 {
        let holder = if step == 1 { 0 } else { step };
        assert_eq!(add(&mut table, holder, exit, 1, 0, 0).first, step + 1);
    }
    assert_eq!(clear(&mut table, 0, other).second, 1);
    table
}

/// A chain of 126 steps of eight cabins in turn. The last free step is reserved for cabin 7; cabin 6 is at its limit.
fn shared(exit: u16) -> Table {
    let mut pairs = [[15, 65535]; 8];
    (pairs[6], pairs[7]) = ([0, 15], [16, 65535]);
    let (mut table, answer) = fresh(128, list(&pairs));
    assert_eq!(answer.refusal, 0);
    for step in 0..126 {
        let cabin = if step < 120 { step % 8 } else { step - 120 };
        assert_eq!(add(&mut table, step, exit, 1, 0, cabin).refusal, 0);
    }
    table
}

/// A table after an exit of step 0 is cleared, and the slip.
fn cleared(before: &Table, exit: u16) -> (Table, Vec<u8>) {
    let mut after = before.clone();
    assert_eq!(clear(&mut after, 0, exit).refusal, 0);
    let slip = between(before, &after, 0, exit);
    (after, slip)
}

/// A call by name, and the bytes that it takes: of the caller's table or dispatcher, and of stack.
#[derive(Debug)]
struct Taken {
    name: &'static str,
    lent: usize,
    stack: usize,
}

/// Measures a call. It gives a number, which is checked.
fn measured(name: &'static str, number: u16, lent: usize, mut call: impl FnMut() -> u16) -> Taken {
    let mut given = None;
    let stack = depth(|| given = Some(call()));
    assert_eq!(given, Some(number), "{name}");
    Taken { name, lent, stack }
}

/// A call on a table, which stands outside the stack that is measured.
fn taken(
    name: &'static str,
    table: &Table,
    number: u16,
    mut call: impl FnMut(&mut raw::Table) -> u16,
) -> Taken {
    let mut table = lend(table);
    measured(name, number, TABLE, || call(black_box(&mut table)))
}

/// Every call on chains along an exit.
fn calls(exit: u16) -> Vec<Taken> {
    let (chain, open, held, gap) = (chain(127, exit), chain(126, exit), held(exit), gap(exit));
    let shared = shared(exit);
    let mut unsound = chain.clone();
    unsound.counts[255] += 1;
    let (image, shared_image) = (encode(&chain), encode(&shared));
    let old_image = in_edition_1(&image);
    // no old telephone takes the last contact
    let mut larger = chain.clone();
    larger.contents[127] = 100;
    let larger_image = encode(&larger);
    let old_larger_image = in_edition_1(&larger_image);
    let [least, most, bad] = [127, 128, 129].map(|capacity| lend_list(&one_cabin(capacity)));
    let own = lend_list(&shared.quotas);
    let (mut buffer, mut trace) = ([0; IMAGE as usize], [0; 127]);
    let results = [exit as u8; 127];
    let (mut longest, rings) = (vec![0; 65535], [CONTACT, WAIT].map(|kind| ring(&[kind; 127])));
    let (full, fresh) = (full_ring(), fresh_for_cabin_0(128));
    let rounds = rounds(&[CONTACT; 127], 70_000);
    let adds = format!("H*1126{exit}1099A").into_bytes();
    let filled = format!("H*1000{exit}1099A").into_bytes();
    let links = format!("H*2000{exit}127{exit}A").into_bytes();
    let clears = format!("H*3000{exit}A").into_bytes();
    let ((empty, freed), (turned, kept)) = (cleared(&chain, exit), cleared(&held, exit));
    let over = [&freed[..], &[0]].concat();
    let [tight, limited] =
        [(127, one_cabin(127)), (128, list(&[[0, 126]]))].map(|(places, list)| {
            let mut table = empty.clone();
            assert_eq!(squeeze(&mut table, places, list).refusal, 0);
            table
        });
    // another content for the last step, which the clearing would leave
    let mut other = kept.clone();
    other[SLIP_HEADER + 127 * SLIP_PAIR + 8] = 1;
    let mut room = [0; telephone::SLIP_MAX];
    vec![
        taken("edition", &chain, telephone::EDITION, |_| raw::edition()),
        taken("sole quotas", &chain, 127, |t| {
            raw::sole_quotas(&mut t.quotas, 128);
            t.quotas[0].limit
        }),
        taken("fresh", &chain, 0, |t| raw::fresh(t, 128, &most).refusal),
        taken("fresh, refused", &chain, 2, |t| raw::fresh(t, 129, &most).refusal),
        taken("fresh, refused for its list", &chain, 16, |t| raw::fresh(t, 128, &bad).refusal),
        taken("is sound", &chain, 1, |t| raw::is_sound(t)),
        taken("is sound, not so", &unsound, 0, |t| raw::is_sound(t)),
        taken("is sound, a fresh table", &fresh, 1, |t| raw::is_sound(t)),
        taken("counts", &chain, 128, |t| raw::counts(t).first),
        taken("image length", &chain, IMAGE, |t| raw::image_length(t).length),
        taken("read", &chain, 1, |t| raw::read(t, 127).kind),
        taken("add", &open, 127, |t| raw::add(t, 126, exit, 1, 0, 0).first),
        taken("add to a fresh table", &fresh, 1, |t| raw::add(t, 0, exit, 1, 0, 0).first),
        taken("add, refused as full", &chain, 8, |t| raw::add(t, 127, exit, 1, 0, 0).refusal),
        taken("add, exit filled", &chain, 5, |t| raw::add(t, 0, exit, 1, 0, 0).refusal),
        taken("add, no such contact", &open, 7, |t| raw::add(t, 126, exit, 1, 1000, 0).refusal),
        taken("add for cabin 7", &shared, 127, |t| raw::add(t, 126, exit, 1, 0, 7).first),
        taken("add at a limit", &shared, 14, |t| raw::add(t, 126, exit, 1, 0, 6).refusal),
        taken("add, steps reserved", &shared, 15, |t| raw::add(t, 126, exit, 1, 0, 0).refusal),
        taken("add for no cabin", &shared, 16, |t| raw::add(t, 126, exit, 1, 0, 8).refusal),
        taken("link", &chain, 0, |t| raw::link(t, 0, exit, 127, exit).refusal),
        taken("link, exit filled", &chain, 5, |t| raw::link(t, 0, exit, 1, exit).refusal),
        taken("clear, 127 freed", &chain, 127, |t| raw::clear(t, 0, exit).second),
        taken("clear, 127 taken back", &held, 127, |t| raw::clear(t, 0, exit).first),
        taken("clear with slip, 127 freed", &chain, 127, |t| {
            raw::clear_with_slip(t, 0, exit, &mut room).second
        }),
        taken("clear with slip, 127 taken back", &held, 127, |t| {
            raw::clear_with_slip(t, 0, exit, &mut room).first
        }),
        taken("clear with slip, no room", &chain, 11, |t| {
            raw::clear_with_slip(t, 0, exit, &mut room[1..]).refusal
        }),
        taken("clear with slip, no link", &chain, 6, |t| {
            raw::clear_with_slip(t, 127, exit, &mut room).refusal
        }),
        taken("take back, 127 brought back", &empty, 127, |t| raw::take_back(t, &freed).first),
        taken("take back, 127 turned back", &turned, 0, |t| raw::take_back(t, &kept).refusal),
        taken("take back, another present", &chain, 18, |t| raw::take_back(t, &freed).refusal),
        taken("take back, no such place", &tight, 18, |t| raw::take_back(t, &freed).refusal),
        taken("take back, past a limit", &limited, 18, |t| raw::take_back(t, &freed).refusal),
        taken("take back, another result", &turned, 18, |t| raw::take_back(t, &other).refusal),
        taken("take back, a byte more", &empty, 18, |t| raw::take_back(t, &over).refusal),
        taken("take back, no bytes", &empty, 18, |t| raw::take_back(t, &[]).refusal),
        taken("take back, table unsound", &unsound, 1, |t| raw::take_back(t, &freed).refusal),
        taken("preview clear, 127 to go", &chain, 127, |t| {
            raw::preview_clear(t, 0, exit, &mut trace).second
        }),
        taken("preview clear, 127 taken back", &held, 127, |t| {
            raw::preview_clear(t, 0, exit, &mut trace).first
        }),
        taken("preview clear, a weak link", &held, 0, |t| {
            raw::preview_clear(t, 0, (exit + 1) % 4, &mut trace).refusal
        }),
        taken("preview clear, no room", &chain, 11, |t| {
            raw::preview_clear(t, 0, exit, &mut trace[1..]).refusal
        }),
        taken("preview clear, no link", &chain, 6, |t| {
            raw::preview_clear(t, 127, exit, &mut trace).refusal
        }),
        taken("preview clear, table unsound", &unsound, 1, |t| {
            raw::preview_clear(t, 0, exit, &mut trace).refusal
        }),
        taken("rung, no exit empty", &full, 127, |t| raw::rung(t, &mut trace).second),
        taken("rung, 127 waits", &rings[1], 127, |t| raw::rung(t, &mut trace).first),
        // a trial goes on along the chain if it leaves step 0 by the answered exit
        taken("rung, a chain", &chain, if exit == 0 { 127 } else { 0 }, |t| {
            raw::rung(t, &mut trace).first
        }),
        taken("rung, nobody", &fresh, 0, |t| raw::rung(t, &mut trace).first),
        taken("rung, no room", &chain, 11, |t| raw::rung(t, &mut trace[1..]).refusal),
        taken("rung, table unsound", &unsound, 1, |t| raw::rung(t, &mut trace).refusal),
        taken("squeeze, 126 moved", &gap, 0, |t| raw::squeeze(t, 127, &least).refusal),
        taken("squeeze, none moved", &chain, 0, |t| raw::squeeze(t, 128, &most).refusal),
        taken("squeeze of eight cabins", &shared, 0, |t| raw::squeeze(t, 128, &own).refusal),
        taken("squeeze, refused", &chain, 13, |t| raw::squeeze(t, 127, &least).refusal),
        taken("squeeze, steps unfit", &shared, 13, |t| raw::squeeze(t, 128, &most).refusal),
        taken("squeeze, bad list", &chain, 16, |t| raw::squeeze(t, 128, &bad).refusal),
        taken("trial", &chain, 0, |t| raw::trial(t, 127, &results, &mut trace).refusal),
        taken("trial, 65535 contacts", &rings[0], 65535, |t| {
            raw::trial(t, 65535, &rounds, &mut longest).moves
        }),
        taken("trial, 65535 waits", &rings[1], 65535, |t| {
            raw::trial(t, 65535, &[], &mut longest).moves
        }),
        taken("trial, refused", &chain, 11, |t| raw::trial(t, 128, &[], &mut trace).refusal),
        taken("write image", &chain, IMAGE, |t| raw::write_image(t, &mut buffer).length),
        taken("load image", &open, 0, |t| raw::load_image(t, &image).refusal),
        taken("load image of edition 1", &open, 0, |t| raw::load_image(t, &old_image).refusal),
        taken("load image, refused", &open, 12, |t| raw::load_image(t, &image[1..]).refusal),
        taken("load image, larger contact", &open, 0, |t| {
            raw::load_image(t, &larger_image).refusal
        }),
        taken("load image of edition 1, larger contact", &open, 12, |t| {
            raw::load_image(t, &old_larger_image).refusal
        }),
        measured("convert up", IMAGE, 0, || raw::convert_up(&old_image, &mut buffer).length),
        measured("convert up, not accepted", 12, 0, || {
            raw::convert_up(&old_image[1..], &mut buffer).refusal
        }),
        measured("convert up, larger contact", 12, 0, || {
            raw::convert_up(&old_larger_image, &mut buffer).refusal
        }),
        measured("convert up, other edition", 12, 0, || {
            raw::convert_up(&image, &mut buffer).refusal
        }),
        measured("convert up, no room", 11, 0, || {
            raw::convert_up(&old_image, &mut buffer[1..]).refusal
        }),
        measured("convert down", OLD_IMAGE, 0, || raw::convert_down(&image, &mut buffer).length),
        measured("convert down, not accepted", 12, 0, || {
            raw::convert_down(&image[1..], &mut buffer).refusal
        }),
        measured("convert down, other edition", 12, 0, || {
            raw::convert_down(&old_image, &mut buffer).refusal
        }),
        measured("convert down, eight cabins", 17, 0, || {
            raw::convert_down(&shared_image, &mut buffer).refusal
        }),
        measured("convert down, larger contact", 17, 0, || {
            raw::convert_down(&larger_image, &mut buffer).refusal
        }),
        measured("convert down, no room", 11, 0, || {
            raw::convert_down(&image, &mut buffer[..2569]).refusal
        }),
        taken("key line that adds", &open, 127, |t| raw::key_line(t, &adds).first),
        taken("key line, exit filled", &chain, 5, |t| raw::key_line(t, &filled).refusal),
        taken("key line that links", &chain, 0, |t| raw::key_line(t, &links).refusal),
        taken("key line, 127 freed", &chain, 127, |t| raw::key_line(t, &clears).second),
        taken("key line, 127 taken back", &held, 127, |t| raw::key_line(t, &clears).first),
        taken("key line that counts", &chain, 128, |t| raw::key_line(t, b"H*4A").first),
        taken("key line, refused", &chain, 9, |t| raw::key_line(t, b"H*5A").refusal),
    ]
}

/// Every call on a dispatcher: nobody waits, all do, or the last cabin looked at does.
fn line_calls() -> Vec<Taken> {
    let taken = |name, waiting, last, number, call: fn(&mut raw::Line) -> u16| {
        let mut line = raw::Line { waiting, last };
        measured(name, number, size_of::<raw::Line>(), || call(black_box(&mut line)))
    };
    let (nobody, all, mut alone) = ([0; 16], [1; 16], [0; 16]);
    alone[15] = 1;
    vec![
        taken("line fresh", all, 16, 0, |l| raw::line_fresh(l).refusal),
        taken("line raise", nobody, 15, 0, |l| raw::line_raise(l, 15).refusal),
        taken("line raise, waits already", all, 15, 0, |l| raw::line_raise(l, 15).refusal),
        taken("line raise, no such cabin", all, 15, 20, |l| raw::line_raise(l, 16).refusal),
        taken("line raise, no such last", all, 16, 1, |l| raw::line_raise(l, 15).refusal),
        taken("line withdraw", all, 15, 0, |l| raw::line_withdraw(l, 15).refusal),
        taken("line withdraw, not waiting", nobody, 15, 0, |l| raw::line_withdraw(l, 15).refusal),
        taken("line withdraw, no such cabin", all, 15, 20, |l| raw::line_withdraw(l, 16).refusal),
        taken("line withdraw, no such last", all, 16, 1, |l| raw::line_withdraw(l, 15).refusal),
        taken("line next, the first", all, 14, 15, |l| raw::line_next(l).first),
        taken("line next, the sixteenth", alone, 15, 15, |l| raw::line_next(l).first),
        taken("line next, nobody waits", nobody, 15, 21, |l| raw::line_next(l).refusal),
        taken("line next, no such last", all, 16, 1, |l| raw::line_next(l).refusal),
    ]
}

/// Every call, with the most that it takes on chains along some exit.
fn deepest() -> Vec<Taken> {
    let mut deepest = calls(0);
    for exit in 1..4 {
        for (most, taken) in deepest.iter_mut().zip(calls(exit)) {
            most.stack = most.stack.max(taken.stack);
        }
    }
    deepest.extend(line_calls());
    deepest
}

#[test]
fn every_call_keeps_to_the_limit() {
    assert_eq!(LIMIT, telephone::STACK_MAX);
    let mut deepest = deepest();
    println!("bytes of stack: with the caller's table or dispatcher, without");
    for Taken { name, lent, stack } in &deepest {
        println!("{:6} {stack:6}  {name}", stack + lent);
    }
    deepest.retain(|taken| taken.stack + taken.lent > LIMIT);
    assert!(deepest.is_empty(), "more than {LIMIT} bytes: {deepest:?}");
}

/// The bytes of stack that the header tells of each function, by the function's name in words.
fn told() -> Vec<(String, usize)> {
    let header = include_str!("../../include/telephone.h");
    let mut told = Vec::new();
    for line in header.lines().filter_map(|line| line.strip_prefix(" *     plan_")) {
        let (names, bytes) = line.trim_end_matches(" bytes").rsplit_once(' ').unwrap();
        // other lines are those of an example
        let Ok(bytes) = bytes.replace(',', "").parse() else { continue };
        told.extend(names.trim().split(", plan_").map(|name| (name.replace('_', " "), bytes)));
    }
    told
}

/// The header tells no less than what is measured, and not much more: functions stand in one line of it, and closures here may or may not be inlined.
#[test]
fn the_header_tells_the_stack() {
    let (deepest, mut told) = (deepest(), told());
    // a call is that of the longest name that it begins with
    told.sort_by_key(|(name, _)| usize::MAX - name.len());
    let function = |taken: &Taken| told.iter().position(|(name, _)| taken.name.starts_with(name));
    assert_eq!(told.len(), 25);
    assert!(deepest.iter().all(|taken| function(taken).is_some()));
    for (at, (name, bytes)) in told.iter().enumerate() {
        let its = deepest.iter().filter(|taken| function(taken) == Some(at));
        let most = its.map(|taken| taken.stack).max().expect(name);
        assert!(
            most <= *bytes && *bytes <= most + 96,
            "{name}: {most}, and the header tells {bytes}"
        );
    }
}

/// The measure sees what a function takes: this one keeps 100 kB on its stack, and would fail the test above.
#[test]
fn measure_sees_a_deep_stack() {
    let bytes = depth(|| {
        let mut deep = [0u8; 100_000];
        black_box(&mut deep)[0] = 1;
    });
    assert!((100_000..110_000).contains(&bytes), "{bytes} bytes");
    assert!(depth(|| ()) < 512);
}

/// The deepest calls in a thread with twice the limit for everything: the table, the call and what Rust needs to start a thread. An overflow ends
/// the test program.
#[test]
fn deepest_calls_in_a_small_thread() {
    let visit = || {
        let mut table = telephone::Table::fresh(128, &sole_quotas(128))?;
        for step in 0..127 {
            table.add(step, Exit::Answered, Kind::Contact(0), 0)?;
        }
        table.link(0, Exit::Answered, 0, Exit::Engaged)?;
        let mut slip = vec![0; telephone::SLIP_MAX];
        let (_, length) = table.clear_with_slip(0, Exit::Answered, &mut slip)?;
        table.take_back(&slip[..length])?;
        table.preview_clear(0, Exit::Answered, &mut slip)?;
        table.rung(&mut slip)?;
        table.key_line(b"H*30000A")
    };
    let thread = std::thread::Builder::new().stack_size(2 * LIMIT).spawn(visit);
    assert_eq!(thread.unwrap().join().unwrap(), Ok((127, 0)));
}
