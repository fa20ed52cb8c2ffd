//! A clearing with a slip, and taking it back. The clearing is made on a copy, and the slip has the
//! records that differ between the two tables. To take back, the old records are put into the
//! present table's image, which is loaded; then the clearing is made once more, and its slip has to
//! be the one given. Renders W7 of document 02.

use std::collections::BTreeMap;

use crate::calls::{bare, clear, Answer};
use crate::faults::{put, Fault};
use crate::image::{bytes, encode, fields, load, number, record, records, HEADER, RECORD};
use crate::sound::sound;
use crate::table::{Table, EXITS, PLACES};

/// Bytes of the three fields that a slip begins with.
pub const SLIP_HEADER: usize = 6;
/// Bytes of the old and the new record of a step.
pub const SLIP_PAIR: usize = 2 * RECORD;
/// Bytes of the largest slip.
pub const LARGEST_SLIP: usize = SLIP_HEADER + SLIP_PAIR * PLACES;

/// Clears an exit and writes the slip into a lent buffer; answers what a clearing does.
pub fn clear_with_slip(table: &mut Table, step: u16, exit: u16, buffer: &mut [u8]) -> Answer {
    clear_with_slip_with(table, step, exit, buffer, Fault::None)
}

/// Clears an exit with a slip, with a fault or without.
pub fn clear_with_slip_with(
    table: &mut Table,
    step: u16,
    exit: u16,
    buffer: &mut [u8],
    fault: Fault,
) -> Answer {
    let mut cleared = table.clone();
    let answer = clear(&mut cleared, step, exit);
    if answer.refusal != 0 {
        let least = SLIP_HEADER + SLIP_PAIR;
        let short = fault == Fault::RoomBeforeEmpty && answer.refusal == 6 && buffer.len() < least;
        return if short { bare(11) } else { answer };
    }
    let slip = between_with(table, &cleared, step, exit, fault);
    let needed = match fault {
        Fault::RoomForLargest => LARGEST_SLIP,
        _ => slip.len(),
    };
    let refusal = if buffer.len() < needed { 11 } else { 0 };
    put(refusal, &slip, buffer, fault);
    if refusal == 0 || fault == Fault::ClearedThoughShort {
        *table = cleared;
    }
    if refusal == 0 {
        answer
    } else {
        bare(refusal)
    }
}

/// Takes back a clearing; answers the number of steps that are in use again.
pub fn take_back(table: &mut Table, slip: &[u8]) -> Answer {
    take_back_with(table, slip, Fault::None)
}

/// Takes back a clearing, with a fault or without.
pub fn take_back_with(table: &mut Table, mut slip: &[u8], fault: Fault) -> Answer {
    if !sound(table) {
        return bare(1);
    }
    if let (Fault::ExtraBytesTaken, [_, _, _, _, low, high, ..]) = (fault, slip) {
        let said = SLIP_HEADER + SLIP_PAIR * usize::from(u16::from_le_bytes([*low, *high]));
        slip = &slip[..said.min(slip.len())];
    }
    let Some(mut before) = before(&asked_about(table, fault), slip, fault) else {
        return bare(18);
    };
    (before.capacity, before.quotas) = (table.capacity, table.quotas);
    let first = match fault {
        Fault::ListedSaidBack => listed(slip).len() as u16,
        _ => before.size() - table.size(),
    };
    spoil_rebuilt(&mut before, table, slip, fault);
    *table = before;
    Answer { refusal: 0, first, second: 0 }
}

/// The slip of a clearing that made one table of the other.
pub fn between(before: &Table, after: &Table, step: u16, exit: u16) -> Vec<u8> {
    between_with(before, after, step, exit, Fault::None)
}

/// The numbers in the new records of a slip.
pub fn listed(slip: &[u8]) -> Vec<u16> {
    changes(slip).iter().map(|(_, new)| number(new)).collect()
}

/// The old and the new record of each step. Bytes that are too few for both are dropped.
pub fn changes(slip: &[u8]) -> Vec<(&[u8], &[u8])> {
    let pairs = slip.get(SLIP_HEADER..).unwrap_or_default().chunks_exact(SLIP_PAIR);
    pairs.map(|pair| pair.split_at(RECORD)).collect()
}

/// The slip of a clearing, with a fault or without.
fn between_with(before: &Table, after: &Table, step: u16, exit: u16, fault: Fault) -> Vec<u8> {
    let counts = |table: &Table, step: usize| table.counts[2 * step..2 * step + 2].to_vec();
    let changed = |at: &usize| match fault {
        Fault::TargetListed if *at == usize::from(before.target(step, exit)) => true,
        Fault::CountersListed if counts(before, *at) != counts(after, *at) => true,
        Fault::FreedLeftOut if before.used[*at] != after.used[*at] => false,
        _ => record(before, *at) != record(after, *at),
    };
    let mut steps: Vec<usize> = (0..PLACES).filter(changed).collect();
    if fault == Fault::SlipDescending {
        steps.reverse();
    }
    let count = match fault {
        Fault::HolderNotCounted => steps.len() - 1,
        _ => steps.len(),
    } as u16;
    let mut slip = bytes(match fault {
        Fault::ExitFirst => [exit, step, count],
        _ => [step, exit, count],
    });
    for at in steps {
        let mut pair = [record(before, at), record(after, at)];
        match fault {
            Fault::NewBeforeOld => pair.reverse(),
            Fault::FreedUnnumbered if after.used[at] == 0 => pair[1][4] = 0,
            Fault::BitsLeftOut => pair.iter_mut().for_each(|record| record[10] = 0),
            _ => {}
        }
        slip.extend(pair.concat());
    }
    slip
}

/// The table that a clearing of this slip was made on, if the slip is accepted.
fn before(table: &Table, slip: &[u8], fault: Fault) -> Option<Table> {
    let present = |new: &[u8]| {
        let step = usize::from(number(new));
        step < PLACES && record(table, step) == new
    };
    if fault != Fault::PresentUnread && !changes(slip).into_iter().all(|(_, new)| present(new)) {
        return None;
    }
    let before = with_old_records(table, slip)?;
    let [step, exit, _] = fields(slip.get(..SLIP_HEADER)?);
    let mut again = before.clone();
    let made = clear(&mut again, step, exit).refusal == 0;
    let same_table = again == *table || fault == Fault::PresentUnread;
    let written = between(&before, &again, step, exit);
    let same_slip = slip == written || fault == Fault::SlipUnread;
    (made && same_table && same_slip || fault == Fault::RetraceSkipped).then_some(before)
}

/// The table with the old records of a slip in place, if it is sound. They are put into its image,
/// which keeps the capacity, the last number given and the list, and has no counters.
fn with_old_records(table: &Table, slip: &[u8]) -> Option<Table> {
    let image = encode(table);
    let mut steps: BTreeMap<u16, &[u8]> = BTreeMap::new();
    let old = changes(slip).into_iter().map(|(old, _)| old);
    steps.extend(records(&image)[1..].iter().copied().chain(old).map(|step| (number(step), step)));
    let mut header = image[..HEADER].to_vec();
    header[8..10].copy_from_slice(&(steps.len() as u16).to_le_bytes());
    let steps: Vec<&[u8]> = steps.into_values().collect();
    let (before, answer) = load(&[header, steps.concat()].concat());
    (answer.refusal == 0).then_some(before)
}

/// The table that a slip has to fit, with the capacity and the list that are asked about.
fn asked_about(table: &Table, fault: Fault) -> Table {
    let mut table = table.clone();
    match fault {
        Fault::CapacityUnasked => table.capacity = PLACES as u16,
        Fault::ListUnasked => table.quotas = std::array::from_fn(|i| [0, u16::MAX][i % 2]),
        _ => {}
    }
    table
}

/// Puts a fault into a table rebuilt from a slip.
fn spoil_rebuilt(before: &mut Table, table: &Table, slip: &[u8], fault: Fault) {
    let steps: Vec<usize> = listed(slip).into_iter().map(usize::from).collect();
    let mut back = steps.iter().copied().filter(|&step| table.used[step] == 0);
    match fault {
        Fault::CountersKept => before.counts = table.counts,
        Fault::CountersOfListed => {
            let counted = before.counts;
            before.counts = table.counts;
            for at in steps.iter().flat_map(|step| [2 * step, 2 * step + 1]) {
                before.counts[at] = counted[at];
            }
        }
        Fault::LastIsBack => {
            before.last = back.next_back().map_or(table.last, |step| step as u16);
        }
        Fault::BitsNotBack => {
            for step in steps {
                before.own[step] = 0;
                before.bits[EXITS * step..EXITS * (step + 1)].fill(0);
            }
        }
        Fault::CabinsNotBack => back.for_each(|step| before.cabins[step] = 0),
        _ => {}
    }
}
