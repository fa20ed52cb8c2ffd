//! (d) Clearings with a slip and take-backs, in safe Rust written for speed. A slip lists the holder and the doubtful steps, so its length is known before
//! anything is changed. To take back, the counters are put right by the links that the records gain and lose; then the clearing is made again on a copy.

#![forbid(unsafe_code)]

use crate::tuned::{filled, lowest, one, repair, sound, unlink, EXITS, PLACES};
use reference::image::RECORD;
use reference::slip::{SLIP_HEADER, SLIP_PAIR};
use telephone::raw::Table;

/// The record of a step.
#[inline(always)]
fn record(t: &Table, step: usize) -> [u8; RECORD] {
    let (targets, _) = t.targets.as_chunks::<EXITS>();
    let (bits, _) = t.bits.as_chunks::<EXITS>();
    let ([a, b, c, d], [p, q, r, s]) = (targets[step], bits[step]);
    let sum = p | q << 1 | r << 2 | s << 3 | t.own[step] << 4;
    let (kind, content) = (t.kinds[step], t.contents[step]);
    let words = [RECORD as u16, 4, step as u16, kind, content, sum, a, b, c, d, t.cabins[step]];
    let mut bytes = [0; RECORD];
    let (pairs, _) = bytes.as_chunks_mut::<2>();
    pairs.iter_mut().zip(words).for_each(|(pair, word)| *pair = word.to_le_bytes());
    bytes
}

/// Puts one record of each step of a set into a slip, ascending: the old one at 0, or the new one behind it.
#[inline(always)]
fn put(t: &Table, steps: u128, slip: &mut [u8], at: usize) {
    let (pairs, _) = slip[SLIP_HEADER..].as_chunks_mut::<SLIP_PAIR>();
    let mut rest = steps;
    for pair in pairs {
        let step = lowest(rest);
        rest &= rest.wrapping_sub(1);
        pair[at..at + RECORD].copy_from_slice(&record(t, step));
    }
}

/// Gives the steps made doubtful and those freed.
#[inline(never)]
pub fn clear(t: &mut Table, step: u16, exit: u16, buffer: &mut [u8]) -> Result<(u16, u16), u16> {
    if !sound(t) {
        return Err(1);
    }
    let at = filled(t, step, exit)?;
    let (target, bit) = (t.targets[at], t.bits[at]);
    let (doubtful, held) = unlink(t, at);
    let changed = doubtful | one(at / EXITS);
    let count = changed.count_ones() as u16;
    let slip = buffer.get_mut(..SLIP_HEADER + SLIP_PAIR * usize::from(count));
    (t.targets[at], t.bits[at]) = (target, bit);
    let Some(slip) = slip else {
        t.counts[usize::from(target) % PLACES * 2 + usize::from(bit & 1)] += 1;
        return Err(11);
    };
    for (pair, word) in slip.as_chunks_mut::<2>().0.iter_mut().zip([step, exit, count]) {
        *pair = word.to_le_bytes();
    }
    put(t, changed, slip, 0);
    (t.targets[at], t.bits[at]) = (0, 0);
    let lost = repair(t, doubtful, held);
    put(t, changed, slip, RECORD);
    Ok((doubtful.count_ones() as u16, lost.count_ones() as u16))
}

/// Gives the number of steps that are in use again.
#[inline(never)]
pub fn take_back(t: &mut Table, slip: &[u8]) -> Result<u16, u16> {
    if !sound(t) {
        return Err(1);
    }
    let (before, back) = before(t, slip).ok_or(18u16)?;
    *t = before;
    Ok(back)
}

/// The table before the clearing of a slip, and the steps that it has more, if the slip is accepted.
#[inline(always)]
fn before(t: &Table, slip: &[u8]) -> Option<(Table, u16)> {
    let (head, pairs) = slip.split_at_checked(SLIP_HEADER)?;
    let (pairs, rest) = pairs.as_chunks::<SLIP_PAIR>();
    let word = |at: usize| u16::from_le_bytes([head[at], head[at + 1]]);
    if !rest.is_empty() || pairs.len() != usize::from(word(4)) {
        return None;
    }
    let mut before = t.clone();
    let (mut named, mut back, mut lowest_next) = (0, 0, 0);
    for pair in pairs {
        let (old, new) = pair.split_at(RECORD);
        let step = usize::from(new[4]);
        if step < lowest_next || step >= PLACES || *new != record(t, step) {
            return None;
        }
        lowest_next = step + 1;
        named |= one(step);
        back += 1 - t.used[step];
        put_back(&mut before, step, old)?;
    }
    if !sound(&before) {
        return None;
    }
    let at = filled(&before, word(0), word(2)).ok()?;
    let mut again = before.clone();
    let (doubtful, held) = unlink(&mut again, at);
    if doubtful | one(at / EXITS) != named {
        return None;
    }
    repair(&mut again, doubtful, held);
    (again == *t).then_some((before, back))
}

/// Puts a record in the place of a step's present one, and counts its links instead.
#[inline(always)]
fn put_back(t: &mut Table, step: usize, old: &[u8]) -> Option<()> {
    let (words, _) = old.as_chunks::<2>();
    let word = |i: usize| u16::from_le_bytes(words[i]);
    let sum = word(5);
    if word(0) != RECORD as u16 || word(1) != 4 || word(2) != step as u16 || sum > 31 {
        return None;
    }
    (t.used[step], t.kinds[step], t.contents[step]) = (1, word(3), word(4));
    (t.own[step], t.cabins[step]) = (sum >> EXITS, word(10));
    for exit in 0..EXITS {
        let place = step * EXITS + exit;
        let (target, bit) = (word(6 + exit), sum >> exit & 1);
        let (was, was_bit) = (t.targets[place], t.bits[place]);
        if (target, bit) != (was, was_bit) {
            if usize::from(target) >= PLACES {
                return None;
            }
            let counter =
                |target: u16, bit: u16| usize::from(target) % PLACES * 2 + usize::from(bit & 1);
            if was != 0 {
                t.counts[counter(was, was_bit)] -= 1;
            }
            if target != 0 {
                t.counts[counter(target, bit)] += 1;
            }
            (t.targets[place], t.bits[place]) = (target, bit);
        }
    }
    Some(())
}
