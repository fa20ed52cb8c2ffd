//! Steps listed in a lent buffer: their numbers, ascending, a byte each, at its start. A preview
//! lists the steps that would go, and `rung` those that some trial enters.
//! Renders "into a lent buffer" and "must hold 127 bytes" of W8 of document 02.

use crate::faults::{put, Fault};
use crate::table::{members, Set, Table, PLACES};

/// Bytes that the buffer must hold, whatever is listed: one for each step but 0.
pub const STEPS_ROOM: usize = PLACES - 1;

/// Lists these steps of a table in a buffer, with a fault or without; gives the refusal or 0.
pub fn list_steps(table: &Table, steps: Set, buffer: &mut [u8], fault: Fault) -> u16 {
    let needed = match fault {
        Fault::StepsRoomForThese => steps.count_ones() as usize,
        Fault::StepsRoomByCapacity => usize::from(table.capacity) - 1,
        Fault::StepsRoomForAlarm => STEPS_ROOM + 1,
        Fault::StepsRoomOneLess => STEPS_ROOM - 1,
        _ => STEPS_ROOM,
    };
    let refusal = if buffer.len() < needed { 11 } else { 0 };
    put(refusal, &numbers(steps, fault), buffer, fault);
    refusal
}

/// The numbers of the steps, ascending, a byte each.
fn numbers(steps: Set, fault: Fault) -> Vec<u8> {
    let mut numbers: Vec<u8> = members(steps).map(|step| step as u8).collect();
    match fault {
        Fault::StepsDescending => numbers.reverse(),
        Fault::StepsInWords => numbers = numbers.into_iter().flat_map(|n| [n, 0]).collect(),
        Fault::StepsPadded => numbers.resize(STEPS_ROOM, 0),
        _ => {}
    }
    numbers
}
