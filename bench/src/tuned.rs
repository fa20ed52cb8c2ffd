//! (d) The same job as (b) on the same table, and trials, in safe Rust written for speed. Ranges are tested over whole arrays with no branch, so that the
//! compiler uses vectors; then one search withdraws every link from a copy of the counters. Sets of steps are the bits of a number. What a clearing
//! would free is found from the doubtful steps by reading alone.

#![forbid(unsafe_code)]

use crate::counted::only_below;
use crate::quotas::{fit, refuse_list, refuse_step, Charges};
use telephone::raw::{Quotas, Table};

pub const PLACES: usize = 128;
pub const EXITS: usize = 4;
pub const LINKS: usize = PLACES * EXITS;
pub const COUNTERS: usize = PLACES * 2;
const CABINS: usize = 8;
/// The kind of a contact.
const CONTACT: u16 = 1;

/// Set in a counter of weak links while a search runs, so that it never comes to 0.
pub const WEAK: u16 = 0x8000;
/// The bits that a counter may have: there are 512 links.
const COUNT: u16 = 0x03FF;

/// The counter that an empty exit is withdrawn from. It stands past those of the steps; there are four, so that few exits wait for the same one.
const NO_LINK: [u16; LINKS] = {
    let mut counters = [0; LINKS];
    let mut place = 0;
    while place < LINKS {
        counters[place] = (COUNTERS + place % EXITS) as u16;
        place += 1;
    }
    counters
};

/// All bits if it holds, else none.
fn mask(holds: bool) -> u16 {
    0u16.wrapping_sub(u16::from(holds))
}

/// Whether a table is sound.
pub fn sound(t: &Table) -> bool {
    charges(t).is_some()
}

/// The charges of a table that is sound.
#[inline(never)]
fn charges(t: &Table) -> Option<Charges> {
    let capacity = usize::from(t.capacity);
    if !(1..=PLACES).contains(&capacity) || t.last >= t.capacity || t.used[0] != 1 {
        return None;
    }

    // Single fields. For each counter of a step, `marks` gets WEAK if it counts weak links, and COUNT if the step is in use.
    let mut marks = [0u16; COUNTERS];
    let mut bad = t.kinds[0] | t.contents[0] | t.cabins[0];
    let (mut any_used, mut any_kind, mut any_cabin) = (0, 0, 0);
    let (mut size, mut differ) = (0u16, 0u16);
    for i in 0..PLACES {
        let (used, kind, content, own) = (t.used[i], t.kinds[i], t.contents[i], t.own[i]);
        let cabin = t.cabins[i];
        // A wait has 1 to 600, which is 0 to 599 from 1 on.
        let wait = mask(kind == 3);
        let most = mask(kind == 1) & 999 | mask(kind == 2) & 15 | wait & 599;
        bad |= own.saturating_sub(used) | content.wrapping_add(wait).saturating_sub(most);
        // A cabin is at most 7, and that of a free step 0.
        bad |= cabin.saturating_sub(used.wrapping_mul(CABINS as u16 - 1));
        any_used |= used;
        any_kind |= kind;
        any_cabin |= cabin;
        // Step 0, and no other, is in use without a kind.
        differ = differ.wrapping_sub(mask(used == 0) ^ mask(kind == 0));
        size = size.wrapping_add(used);
        let zero = own << 15 | 0u16.wrapping_sub(used) & COUNT;
        (marks[2 * i], marks[2 * i + 1]) = (zero, zero ^ WEAK);
    }
    bad |= t.used[capacity..].iter().fold(any_used & !1 | any_kind & !3, |bad, used| bad | used);

    // Links: for each exit, the counter that its link stands in.
    let (mut any_target, mut any_bit, mut empty) = (0, 0, 0u16);
    let counter: [u16; LINKS] = std::array::from_fn(|place| {
        let (target, bit) = (t.targets[place], t.bits[place]);
        let none = mask(target == 0);
        any_target |= target;
        any_bit |= bit;
        bad |= bit.saturating_sub(target);
        empty = empty.wrapping_sub(none);
        target.wrapping_add(target).wrapping_add(bit) | none & NO_LINK[place]
    });
    bad |= any_bit & !1 | any_target & !(PLACES as u16 - 1);

    // Counters: the steps in use have as many as there are links.
    let mut left = [WEAK; 2 * COUNTERS];
    let (mut any_count, mut counted) = (0, 0u16);
    for place in 0..COUNTERS {
        let (count, mark) = (t.counts[place], marks[place]);
        any_count |= count;
        counted = counted.wrapping_add(count & mark);
        left[place] = count | mark & WEAK;
    }
    bad |= any_count & !COUNT;
    if bad != 0 || differ != 1 || counted != LINKS as u16 - empty {
        return None;
    }
    // Where all steps are cabin 0's, none are counted.
    let charges = match any_cabin {
        0 => [size - 1, 0, 0, 0, 0, 0, 0, 0],
        _ => sorted(&t.cabins, size),
    };
    if !fit(t.capacity, &t.quotas, &charges) {
        return None;
    }

    // Every link is withdrawn, from step 0 on; a step is entered at its last strong link. The table is sound exactly if all steps in use are entered
    // and all counters come to 0: none can pass 0 and come back, and then the counters of free steps are 0 too, and their exits empty.
    let entered = withdraw(&counter, &mut left);
    let rest = left[..COUNTERS].iter().fold(0, |rest, count| rest | count);
    (entered == size && rest & !WEAK == 0).then_some(charges)
}

/// For each pair of cabins, a unit in the byte of each.
const UNITS: [u64; CABINS * CABINS] = {
    let mut units = [0; CABINS * CABINS];
    let mut pair = 0;
    while pair < units.len() {
        units[pair] = (1 << (8 * (pair % CABINS))) + (1 << (8 * (pair / CABINS)));
        pair += 1;
    }
    units
};

/// The charges, where so many steps are in use, and step 0 and all free ones have cabin 0. Two steps are counted at a time, each cabin in a byte of a
/// number.
#[inline(always)]
fn sorted(cabins: &[u16; PLACES], size: u16) -> Charges {
    let (low, high) = cabins.split_at(PLACES / 2);
    let pairs: [u16; PLACES / 2] = std::array::from_fn(|i| low[i] | high[i] << 3);
    let sums = pairs.iter().fold(0u64, |sums, &pair| sums + UNITS[usize::from(pair) % UNITS.len()]);
    let mut charges = sums.to_le_bytes().map(u16::from);
    charges[0] -= PLACES as u16 + 1 - size;
    charges
}

/// Withdraws the exits of step 0 and of each step whose last strong link is withdrawn; gives how many steps that are. The step to go on with is
/// kept beside the stack, at the bottom of which stands a 0.
#[inline(always)]
pub fn withdraw(counter: &[u16; LINKS], left: &mut [u16; 2 * COUNTERS]) -> u16 {
    let mut stack = [0u8; 256];
    let (mut next, mut height, mut entered) = (0u8, 1u8, 1);
    loop {
        let exits = usize::from(next >> 1) * EXITS;
        height = height.wrapping_sub(1);
        next = stack[usize::from(height)];
        for &place in &counter[exits..exits + EXITS] {
            let count = &mut left[usize::from(place) % (2 * COUNTERS)];
            *count = count.wrapping_sub(1);
            if *count == 0 {
                stack[usize::from(height)] = next;
                height = height.wrapping_add(1);
                next = place as u8;
                entered += 1;
            }
        }
        if next == 0 {
            return entered;
        }
    }
}

fn content_fits(kind: u16, content: u16) -> bool {
    match kind {
        1 => content <= 999,
        2 => content <= 15,
        3 => (1..=600).contains(&content),
        _ => false,
    }
}

/// The place of an exit of a step in use, or refusal 3 or 4.
fn place(t: &Table, step: u16, exit: u16) -> Result<usize, u16> {
    if usize::from(step) >= PLACES || t.used[usize::from(step)] == 0 {
        return Err(3);
    }
    if usize::from(exit) >= EXITS {
        return Err(4);
    }
    Ok(usize::from(step) * EXITS + usize::from(exit))
}

/// Steps in use and free ones.
pub fn counts(t: &Table) -> Result<(u16, u16), u16> {
    if !sound(t) {
        return Err(1);
    }
    let size = t.used.iter().sum();
    Ok((size, t.capacity - size))
}

#[inline(never)]
pub fn add(
    t: &mut Table,
    holder: u16,
    exit: u16,
    kind: u16,
    content: u16,
    cabin: u16,
) -> Result<u16, u16> {
    let charges = charges(t).ok_or(1u16)?;
    if usize::from(cabin) >= CABINS {
        return Err(16);
    }
    let at = place(t, holder, exit)?;
    if t.targets[at] != 0 {
        return Err(5);
    }
    if !content_fits(kind, content) {
        return Err(7);
    }
    let free = |number: &u16| t.used[usize::from(*number)] == 0;
    let number =
        (t.last + 1..t.capacity).find(free).or_else(|| (1..=t.last).find(free)).ok_or(8u16)?;
    refuse_step(t.capacity, &t.quotas, &charges, cabin)?;
    let step = usize::from(number);
    (t.used[step], t.kinds[step], t.contents[step], t.cabins[step]) = (1, kind, content, cabin);
    (t.last, t.targets[at], t.counts[step * 2]) = (number, number, 1);
    Ok(number)
}

#[inline(never)]
pub fn link(t: &mut Table, source: u16, from: u16, second: u16, into: u16) -> Result<(), u16> {
    if !sound(t) {
        return Err(1);
    }
    let target = t.targets[place(t, source, from)?];
    if target == 0 {
        return Err(6);
    }
    let at = place(t, second, into)?;
    if t.targets[at] != 0 {
        return Err(5);
    }
    let weak = t.own[usize::from(target)] ^ 1;
    (t.targets[at], t.bits[at]) = (target, weak);
    t.counts[usize::from(target * 2 + weak)] += 1;
    Ok(())
}

/// Gives the steps made doubtful and those freed.
#[inline(never)]
pub fn clear(t: &mut Table, step: u16, exit: u16) -> Result<(u16, u16), u16> {
    if !sound(t) {
        return Err(1);
    }
    let at = filled(t, step, exit)?;
    let (doubtful, held) = unlink(t, at);
    let lost = repair(t, doubtful, held);
    Ok((doubtful.count_ones() as u16, lost.count_ones() as u16))
}

/// The counts that a clearing would give; writes the numbers of the steps that it would free.
#[inline(never)]
pub fn preview(t: &Table, step: u16, exit: u16, buffer: &mut [u8]) -> Result<(u16, u16), u16> {
    if !sound(t) {
        return Err(1);
    }
    let at = filled(t, step, exit)?;
    let Some(room) = buffer.get_mut(..PLACES - 1) else {
        return Err(11);
    };
    let (doubtful, held) = without(t, at);
    let lost = unheld(t, doubtful, held);
    list(lost, room);
    Ok((doubtful.count_ones() as u16, lost.count_ones() as u16))
}

/// How many steps some trial enters, and how many of these are contacts; writes their numbers. Whether a step was met is kept as a byte, which is read
/// for every exit; the set of the steps is written once for each of them.
#[inline(never)]
pub fn rung(t: &Table, buffer: &mut [u8]) -> Result<(u16, u16), u16> {
    if !sound(t) {
        return Err(1);
    }
    let Some(room) = buffer.get_mut(..PLACES - 1) else {
        return Err(11);
    };
    let (targets, _) = t.targets.as_chunks::<EXITS>();
    let mut stack = [0u8; PLACES];
    let (mut next, mut height) = (usize::from(targets[0][0]) % PLACES, 1);
    let mut met = [false; PLACES];
    // step 0, which an empty exit leads to, is never entered
    (met[0], met[next]) = (true, true);
    let (mut entered, mut contacts) = (0, 0);
    while next != 0 {
        let step = next % PLACES;
        entered |= one(step);
        height -= 1;
        next = stack[height % PLACES].into();
        let is_contact = t.kinds[step] == CONTACT;
        contacts += u16::from(is_contact);
        for &target in &targets[step][..if is_contact { EXITS } else { 1 }] {
            let target = usize::from(target) % PLACES;
            if !met[target] {
                met[target] = true;
                stack[height % PLACES] = next as u8;
                height += 1;
                next = target;
            }
        }
    }
    list(entered, room);
    Ok((entered.count_ones() as u16, contacts))
}

/// Writes the numbers of the steps, ascending, to the start of a buffer that has room for them.
#[inline(always)]
fn list(steps: u128, room: &mut [u8]) {
    let mut room = room.iter_mut();
    for (half, first) in [(steps as u64, 0), ((steps >> 64) as u64, 64)] {
        let mut rest = half;
        while rest != 0 {
            let Some(byte) = room.next() else { break };
            *byte = first + rest.trailing_zeros() as u8;
            rest &= rest - 1;
        }
    }
}

/// The place of an exit that holds a link, or refusal 3, 4 or 6.
#[inline(always)]
pub fn filled(t: &Table, step: u16, exit: u16) -> Result<usize, u16> {
    let at = place(t, step, exit)?;
    if t.targets[at] == 0 {
        return Err(6);
    }
    Ok(at)
}

/// Empties an exit that holds a link; gives the doubtful steps, and those of them that are held from elsewhere.
#[inline(always)]
pub fn unlink(t: &mut Table, at: usize) -> (u128, u128) {
    let (target, bit) = (usize::from(t.targets[at]) % PLACES, t.bits[at]);
    let count = &mut t.counts[target * 2 + usize::from(bit & 1)];
    *count -= 1;
    let last = *count == 0;
    (t.targets[at], t.bits[at]) = (0, 0);
    if bit != t.own[target] || !last {
        return (0, 0);
    }
    doubtful(t, target, t.counts)
}

/// The same two sets without the link at a place, which stays.
#[inline(always)]
fn without(t: &Table, at: usize) -> (u128, u128) {
    let (target, bit) = (usize::from(t.targets[at]) % PLACES, t.bits[at]);
    let counter = target * 2 + usize::from(bit & 1);
    if bit != t.own[target] || t.counts[counter] != 1 {
        return (0, 0);
    }
    let mut left = t.counts;
    left[counter] = 0;
    doubtful(t, target, left)
}

/// Takes steps back and frees the rest of the doubtful ones, which it gives.
#[inline(always)]
pub fn repair(t: &mut Table, doubtful: u128, held: u128) -> u128 {
    if doubtful == 0 {
        return 0;
    }
    let lost = take_back(t, doubtful, held);
    free(t, lost);
    lost
}

#[inline(never)]
pub fn squeeze(t: &mut Table, capacity: u16, quotas: &Quotas) -> Result<(), u16> {
    let charges = charges(t).ok_or(1u16)?;
    if !(1..=PLACES).contains(&usize::from(capacity)) {
        return Err(2);
    }
    refuse_list(capacity, quotas, &charges)?;
    let last: u16 = charges.iter().sum();
    (t.capacity, t.last, t.quotas) = (capacity, last, *quotas);
    let size = usize::from(last) + 1;
    if t.used[..size].iter().all(|&used| used == 1) {
        return Ok(());
    }
    // The new number of each step, and the step that gets each number.
    let (mut numbers, mut steps) = ([0u16; PLACES], [0u8; PLACES]);
    let mut number = 0;
    for (step, used) in t.used.into_iter().enumerate() {
        numbers[step] = number;
        steps[usize::from(number) % PLACES] = step as u8;
        number += used;
    }
    for (to, &step) in steps[..size].iter().enumerate() {
        let from = usize::from(step) % PLACES;
        (t.kinds[to], t.contents[to]) = (t.kinds[from], t.contents[from]);
        (t.own[to], t.cabins[to]) = (t.own[from], t.cabins[from]);
        move_fields::<EXITS>(&mut t.targets, from, to);
        move_fields::<EXITS>(&mut t.bits, from, to);
        move_fields::<2>(&mut t.counts, from, to);
    }
    for target in &mut t.targets[..size * EXITS] {
        *target = numbers[usize::from(*target) % PLACES];
    }
    only_below(t, size);
    Ok(())
}

/// The ending, the last step and the moves of a trial, or its refusal.
#[inline(never)]
pub fn trial(t: &Table, limit: u16, results: &[u8], trace: &mut [u8]) -> Result<[u16; 3], u16> {
    if !sound(t) {
        return Err(1);
    }
    if results.iter().fold(0, |bits, result| bits | result) >= EXITS as u8 {
        return Err(10);
    }
    let Some(trace) = trace.get_mut(..usize::from(limit)) else {
        return Err(11);
    };
    let (targets, _) = t.targets.as_chunks::<EXITS>();
    let mut left = results.iter();
    let (mut step, mut moves) = (0, 0);
    loop {
        let mut exit = 0;
        if t.kinds[step] == CONTACT {
            let Some(&result) = left.next() else {
                return Ok([1, step as u16, moves as u16]);
            };
            exit = usize::from(result) % EXITS;
        }
        let next = targets[step][exit];
        if next == 0 {
            return Ok([0, step as u16, moves as u16]);
        }
        let Some(byte) = trace.get_mut(moves) else {
            return Ok([2, step as u16, moves as u16]);
        };
        *byte = next as u8;
        step = usize::from(next) % PLACES;
        moves += 1;
    }
}

/// Moves the fields of a step to another, where each step has so many.
#[inline(always)]
fn move_fields<const N: usize>(fields: &mut [u16], from: usize, to: usize) {
    let (all, _) = fields.as_chunks_mut::<N>();
    all[to] = all[from];
}

/// The set of one step.
#[inline(always)]
pub fn one(step: usize) -> u128 {
    let bit = u128::from(1u64 << (step % 64));
    if step < 64 {
        bit
    } else {
        bit << 64
    }
}

/// The lowest step of a set that has one.
#[inline(always)]
pub fn lowest(set: u128) -> usize {
    let (low, high) = (set as u64, (set >> 64) as u64);
    let lowest = if low != 0 { low.trailing_zeros() } else { 64 + high.trailing_zeros() };
    lowest as usize % PLACES
}

/// Rule 2: the steps that lose their last strong link, from one that has, given the counters without it. All their links are withdrawn, so that a link
/// left to one of them comes from a step that is not doubtful; those are the second set.
#[inline(never)]
fn doubtful(t: &Table, first: usize, mut left: [u16; COUNTERS]) -> (u128, u128) {
    let mut stack = [0u8; PLACES];
    let (mut next, mut height) = (first, 1);
    let (mut found, mut held) = (0, 0);
    while next != 0 {
        let step = next % PLACES;
        found |= one(step);
        height -= 1;
        next = stack[height % PLACES].into();
        for place in step * EXITS..(step + 1) * EXITS {
            let (target, bit) = (usize::from(t.targets[place]) % PLACES, t.bits[place]);
            if target != 0 {
                let count = &mut left[target * 2 + usize::from(bit & 1)];
                *count = count.wrapping_sub(1);
                if *count == 0 && bit == t.own[target] {
                    stack[height % PLACES] = next as u8;
                    height += 1;
                    next = target;
                }
            }
        }
    }
    let mut rest = found;
    while rest != 0 {
        let step = lowest(rest);
        rest &= rest - 1;
        if left[step * 2] | left[step * 2 + 1] != 0 {
            held |= one(step);
        }
    }
    (found, held)
}

/// Rule 3: takes the lowest held step back as long as there is one; gives the steps still doubtful.
#[inline(never)]
fn take_back(t: &mut Table, mut doubtful: u128, mut held: u128) -> u128 {
    while held != 0 {
        let step = lowest(held);
        t.own[step] ^= 1;
        doubtful &= !one(step);
        for place in step * EXITS..(step + 1) * EXITS {
            let target = usize::from(t.targets[place]) % PLACES;
            if target != 0 {
                held |= one(target);
                let (bit, weak) = (t.bits[place], t.own[target] ^ 1);
                if bit != weak {
                    t.bits[place] = weak;
                    t.counts[target * 2 + usize::from(bit & 1)] -= 1;
                    t.counts[target * 2 + usize::from(weak & 1)] += 1;
                }
            }
        }
        held &= doubtful;
    }
    doubtful
}

/// What rule 3 leaves doubtful: the steps that no held one leads to. Their order does not matter, and no bit is turned.
#[inline(never)]
fn unheld(t: &Table, doubtful: u128, mut held: u128) -> u128 {
    let (targets, _) = t.targets.as_chunks::<EXITS>();
    let mut rest = doubtful & !held;
    let mut stack = [0u8; PLACES];
    while held != 0 {
        let (mut next, mut height) = (lowest(held), 1);
        held &= held - 1;
        while next != 0 {
            let step = next % PLACES;
            height -= 1;
            next = stack[height % PLACES].into();
            for &target in &targets[step] {
                let target = usize::from(target) % PLACES;
                // step 0, which an empty exit leads to, is never doubtful
                if rest & one(target) != 0 {
                    rest &= !one(target);
                    stack[height % PLACES] = next as u8;
                    height += 1;
                    next = target;
                }
            }
        }
    }
    rest
}

/// Rule 4: the links of the steps leave the counters, and their records become zero.
#[inline(never)]
fn free(t: &mut Table, steps: u128) {
    let mut rest = steps;
    while rest != 0 {
        let step = lowest(rest);
        rest &= rest - 1;
        for place in step * EXITS..(step + 1) * EXITS {
            let (target, bit) = (usize::from(t.targets[place]) % PLACES, t.bits[place]);
            if target != 0 {
                t.counts[target * 2 + usize::from(bit & 1)] -= 1;
                (t.targets[place], t.bits[place]) = (0, 0);
            }
        }
        (t.used[step], t.kinds[step], t.contents[step]) = (0, 0, 0);
        (t.own[step], t.cabins[step]) = (0, 0);
    }
}
