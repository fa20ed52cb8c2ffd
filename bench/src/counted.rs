//! (b) The same job in Rust: bits and counters in a table that is changed in place, with a linear soundness test on every call.

use crate::quotas::{fit, refuse_list, refuse_step, Charges};
use telephone::raw::{Quotas, Table};

const PLACES: usize = 128;
const EXITS: usize = 4;
const CABINS: u16 = 8;
/// The kind of a contact.
const CONTACT: u16 = 1;

/// Whether a table is sound.
pub fn sound(t: &Table) -> bool {
    charges(t).is_some()
}

/// The charges of a table that is sound: single steps and a recount in one pass, then the strong links in topological order from step 0.
#[inline(never)]
fn charges(t: &Table) -> Option<Charges> {
    let capacity = usize::from(t.capacity);
    if !(1..=PLACES).contains(&capacity) || t.last >= t.capacity || t.used[0] != 1 {
        return None;
    }
    let mut counts = [0u16; 256];
    let mut charges = Charges::default();
    let mut size = 0;
    for step in 0..PLACES {
        let targets = &t.targets[step * EXITS..][..EXITS];
        let bits = &t.bits[step * EXITS..][..EXITS];
        match t.used[step] {
            1 => {
                size += 1;
                let (kind, content, cabin) = (t.kinds[step], t.contents[step], t.cabins[step]);
                let fits = match step {
                    0 => (kind, content, cabin) == (0, 0, 0),
                    _ => content_fits(kind, content) && cabin < CABINS,
                };
                if step >= capacity || !fits || t.own[step] > 1 {
                    return None;
                }
                charges[usize::from(cabin)] += u16::from(step != 0);
                for (&target, &bit) in targets.iter().zip(bits) {
                    if target == 0 {
                        if bit != 0 {
                            return None;
                        }
                    } else {
                        let target = usize::from(target);
                        if target >= PLACES || t.used[target] != 1 || bit > 1 {
                            return None;
                        }
                        counts[target * 2 + usize::from(bit)] += 1;
                    }
                }
            }
            0 => {
                let single = t.kinds[step] | t.contents[step] | t.own[step] | t.cabins[step];
                let links = targets.iter().chain(bits).fold(0, |all, &field| all | field);
                if single | links | t.counts[step * 2] | t.counts[step * 2 + 1] != 0 {
                    return None;
                }
            }
            _ => return None,
        }
    }
    let fits = fit(t.capacity, &t.quotas, &charges);
    (fits && counts == t.counts && reached(t) == size).then_some(charges)
}

/// The steps that step 0 reaches when each is entered at its last strong link: all in use exactly if strong links form no ring and reach each.
fn reached(t: &Table) -> usize {
    let mut left = strong_counts(t);
    let mut waiting = [0u8; PLACES];
    let (mut next, mut end) = (0, 1);
    while next < end {
        let step = usize::from(waiting[next]);
        next += 1;
        for place in step * EXITS..(step + 1) * EXITS {
            let target = usize::from(t.targets[place]) % PLACES;
            if target != 0 && t.bits[place] == t.own[target] {
                left[target] -= 1;
                if left[target] == 0 && end < PLACES {
                    waiting[end] = target as u8;
                    end += 1;
                }
            }
        }
    }
    end
}

fn strong_counts(t: &Table) -> [u16; PLACES] {
    std::array::from_fn(|step| t.counts[step * 2 + usize::from(t.own[step] & 1)])
}

fn content_fits(kind: u16, content: u16) -> bool {
    match kind {
        1 => content <= 999,
        2 => content <= 15,
        3 => (1..=600).contains(&content),
        _ => false,
    }
}

/// The place of an exit of a step in use, or refusal 3 or 4.
fn place(t: &Table, step: u16, exit: u16) -> Result<usize, u16> {
    if usize::from(step) >= PLACES || t.used[usize::from(step)] != 1 {
        return Err(3);
    }
    if usize::from(exit) >= EXITS {
        return Err(4);
    }
    Ok(usize::from(step) * EXITS + usize::from(exit))
}

#[inline(never)]
pub fn add(
    t: &mut Table,
    holder: u16,
    exit: u16,
    kind: u16,
    content: u16,
    cabin: u16,
) -> Result<u16, u16> {
    let charges = charges(t).ok_or(1u16)?;
    if cabin >= CABINS {
        return Err(16);
    }
    let at = place(t, holder, exit)?;
    if t.targets[at] != 0 {
        return Err(5);
    }
    if !content_fits(kind, content) {
        return Err(7);
    }
    let free = |number: &u16| t.used[usize::from(*number)] == 0;
    let number =
        (t.last + 1..t.capacity).find(free).or_else(|| (1..=t.last).find(free)).ok_or(8u16)?;
    refuse_step(t.capacity, &t.quotas, &charges, cabin)?;
    let step = usize::from(number);
    t.used[step] = 1;
    t.kinds[step] = kind;
    t.contents[step] = content;
    t.cabins[step] = cabin;
    t.last = number;
    t.targets[at] = number;
    t.counts[step * 2] += 1;
    Ok(number)
}

#[inline(never)]
pub fn link(t: &mut Table, source: u16, from: u16, second: u16, into: u16) -> Result<(), u16> {
    if !sound(t) {
        return Err(1);
    }
    let target = t.targets[place(t, source, from)?];
    if target == 0 {
        return Err(6);
    }
    let at = place(t, second, into)?;
    if t.targets[at] != 0 {
        return Err(5);
    }
    let weak = 1 - t.own[usize::from(target)];
    t.targets[at] = target;
    t.bits[at] = weak;
    t.counts[usize::from(target * 2 + weak)] += 1;
    Ok(())
}

#[inline(never)]
pub fn clear(t: &mut Table, step: u16, exit: u16) -> Result<(u16, u16), u16> {
    if !sound(t) {
        return Err(1);
    }
    let at = filled(t, step, exit)?;
    let (doubts, freed) = unlink(t, at);
    free(t, freed);
    Ok((doubts, freed.count_ones() as u16))
}

/// The counts that a clearing would give; writes the numbers of the steps that it would free.
#[inline(never)]
pub fn preview(t: &Table, step: u16, exit: u16, buffer: &mut [u8]) -> Result<(u16, u16), u16> {
    if !sound(t) {
        return Err(1);
    }
    let at = filled(t, step, exit)?;
    if buffer.len() < PLACES - 1 {
        return Err(11);
    }
    let (doubts, freed) = unlink(&mut t.clone(), at);
    list(freed, buffer);
    Ok((doubts, freed.count_ones() as u16))
}

/// How many steps some trial enters, and how many of these are contacts; writes their numbers.
#[inline(never)]
pub fn rung(t: &Table, buffer: &mut [u8]) -> Result<(u16, u16), u16> {
    if !sound(t) {
        return Err(1);
    }
    if buffer.len() < PLACES - 1 {
        return Err(11);
    }
    let (mut entered, mut contacts) = (0u128, 0);
    let mut wanted = leads_by(t, 0, 1);
    while wanted != 0 {
        let step = wanted.trailing_zeros() as usize;
        let is_contact = t.kinds[step] == CONTACT;
        contacts += u16::from(is_contact);
        entered |= 1 << step;
        wanted = (wanted | leads_by(t, step, if is_contact { EXITS } else { 1 })) & !entered;
    }
    list(entered, buffer);
    Ok((entered.count_ones() as u16, contacts))
}

/// Writes the numbers of the steps, ascending, to the start of a buffer.
fn list(steps: u128, buffer: &mut [u8]) {
    buffer.iter_mut().zip(members(steps)).for_each(|(byte, step)| *byte = step as u8);
}

/// The place of an exit that holds a link, or refusal 3, 4 or 6.
fn filled(t: &Table, step: u16, exit: u16) -> Result<usize, u16> {
    let at = place(t, step, exit)?;
    if t.targets[at] == 0 {
        return Err(6);
    }
    Ok(at)
}

/// Rules 1 to 3: empties an exit that holds a link and takes steps back; gives the number of steps made doubtful, and those that are still doubtful.
#[inline(always)]
fn unlink(t: &mut Table, at: usize) -> (u16, u128) {
    let target = usize::from(t.targets[at]);
    let bit = t.bits[at];
    let counter = target * 2 + usize::from(bit);
    (t.targets[at], t.bits[at]) = (0, 0);
    t.counts[counter] -= 1;
    if bit != t.own[target] || t.counts[counter] != 0 {
        return (0, 0);
    }
    let mut doubt = doubtful(t, target);
    let doubts = doubt.count_ones() as u16;
    take_back(t, &mut doubt);
    (doubts, doubt)
}

#[inline(never)]
pub fn squeeze(t: &mut Table, capacity: u16, quotas: &Quotas) -> Result<(), u16> {
    let charges = charges(t).ok_or(1u16)?;
    if !(1..=PLACES).contains(&usize::from(capacity)) {
        return Err(2);
    }
    refuse_list(capacity, quotas, &charges)?;
    let mut numbers = [0u16; PLACES];
    let mut size = 0;
    for (number, used) in numbers.iter_mut().zip(t.used) {
        *number = size;
        size += used;
    }
    // A new number is at most the old one, so that no record is written over before it has moved.
    for step in (0..PLACES).filter(|&step| t.used[step] == 1) {
        let number = usize::from(numbers[step]);
        t.kinds[number] = t.kinds[step];
        t.contents[number] = t.contents[step];
        t.own[number] = t.own[step];
        t.cabins[number] = t.cabins[step];
        for exit in 0..EXITS {
            let (from, to) = (step * EXITS + exit, number * EXITS + exit);
            t.targets[to] = numbers[usize::from(t.targets[from])];
            t.bits[to] = t.bits[from];
        }
        t.counts[number * 2] = t.counts[step * 2];
        t.counts[number * 2 + 1] = t.counts[step * 2 + 1];
    }
    (t.capacity, t.last, t.quotas) = (capacity, size - 1, *quotas);
    only_below(t, size.into());
    Ok(())
}

/// The steps below a number are in use, and the records from there on become zero.
pub fn only_below(t: &mut Table, size: usize) {
    t.used[..size].fill(1);
    for fields in [&mut t.used, &mut t.kinds, &mut t.contents, &mut t.own, &mut t.cabins] {
        fields[size..].fill(0);
    }
    t.targets[size * EXITS..].fill(0);
    t.bits[size * EXITS..].fill(0);
    t.counts[size * 2..].fill(0);
}

/// Rule 2: the steps that lose their last strong link, from one that has.
fn doubtful(t: &Table, first: usize) -> u128 {
    let mut left = strong_counts(t);
    let mut doubt = 1u128 << first;
    let mut waiting = [0u8; PLACES];
    waiting[0] = first as u8;
    let mut end = 1;
    while end > 0 {
        end -= 1;
        let step = usize::from(waiting[end]);
        for place in step * EXITS..(step + 1) * EXITS {
            let target = usize::from(t.targets[place]);
            if target != 0 && t.bits[place] == t.own[target] {
                left[target] -= 1;
                if left[target] == 0 {
                    doubt |= 1 << target;
                    waiting[end] = target as u8;
                    end += 1;
                }
            }
        }
    }
    doubt
}

/// Rule 3, with the doubtful steps that have a link from one that is not kept as a set.
fn take_back(t: &mut Table, doubt: &mut u128) {
    let mut wanted = 0u128;
    for step in 0..usize::from(t.capacity) {
        if t.used[step] == 1 && *doubt >> step & 1 == 0 {
            wanted |= leads_to(t, step);
        }
    }
    wanted &= *doubt;
    while wanted != 0 {
        let step = wanted.trailing_zeros() as usize;
        t.own[step] = 1 - t.own[step];
        *doubt &= !(1 << step);
        for place in step * EXITS..(step + 1) * EXITS {
            let target = usize::from(t.targets[place]);
            if target != 0 && t.bits[place] == t.own[target] {
                let bit = t.bits[place];
                t.bits[place] = 1 - bit;
                t.counts[target * 2 + usize::from(bit)] -= 1;
                t.counts[target * 2 + usize::from(1 - bit)] += 1;
            }
        }
        wanted = (wanted | leads_to(t, step)) & *doubt;
    }
}

/// The steps of a set, ascending.
fn members(mut set: u128) -> impl Iterator<Item = usize> {
    std::iter::from_fn(move || {
        let step = set.trailing_zeros() as usize;
        set &= set.wrapping_sub(1);
        (step < PLACES).then_some(step)
    })
}

/// The steps that the links of a step lead to.
fn leads_to(t: &Table, step: usize) -> u128 {
    leads_by(t, step, EXITS)
}

/// The same by its first exits, so many.
#[inline(always)]
fn leads_by(t: &Table, step: usize, exits: usize) -> u128 {
    t.targets[step * EXITS..][..exits].iter().fold(0, |set, &target| set | 1 << target) & !1
}

/// Rule 4: the links of the steps leave the counters, and their records become zero.
fn free(t: &mut Table, steps: u128) {
    for step in members(steps) {
        for place in step * EXITS..(step + 1) * EXITS {
            let target = usize::from(t.targets[place]);
            if target != 0 {
                t.counts[target * 2 + usize::from(t.bits[place])] -= 1;
            }
            (t.targets[place], t.bits[place]) = (0, 0);
        }
    }
    for step in members(steps) {
        (t.used[step], t.kinds[step], t.contents[step]) = (0, 0, 0);
        (t.own[step], t.cabins[step]) = (0, 0);
        (t.counts[step * 2], t.counts[step * 2 + 1]) = (0, 0);
    }
}
