//! The squeeze: the steps in use are put into a new table in their order, and counted there.
//! Renders W2 of document 02 and W5's list in it; no record is moved within a table.

use crate::cabins::list_order;
use crate::calls::{bare, first_refusal, Answer};
use crate::faults::Fault;
use crate::sound::sound;
use crate::table::{members, place, Quotas, Table, EXITS};

/// Renumbers the steps in use from 0 upward in their order, in a table of this capacity and list.
pub fn squeeze(table: &mut Table, capacity: u16, quotas: Quotas) -> Answer {
    squeeze_with(table, capacity, quotas, Fault::None)
}

/// Squeezes a table, with a fault or without. Whether the steps fit the list is read off the right
/// result.
pub fn squeeze_with(table: &mut Table, capacity: u16, quotas: Quotas, fault: Fault) -> Answer {
    let [first, second] = list_order(capacity, &quotas, fault);
    let mut order = [(1, !sound(table)), first, second, (13, capacity < table.size())];
    match fault {
        Fault::FitBeforeRange => order[1..].rotate_right(1),
        Fault::FitBeforeList => order.swap(2, 3),
        _ => {}
    }
    let refusal = first_refusal(&order);
    if refusal != 0 {
        return bare(refusal);
    }
    if fault != Fault::FitBySize && !sound(&squeezed(table, capacity, quotas, Fault::None)) {
        return bare(13);
    }
    *table = squeezed(table, capacity, quotas, fault);
    bare(0)
}

/// The squeezed table. The new number of a step is its place in the list of the steps in use; so an
/// empty exit, which is target 0, stays empty.
fn squeezed(table: &Table, capacity: u16, quotas: Quotas, fault: Fault) -> Table {
    let mut steps: Vec<usize> = members(table.in_use()).collect();
    if fault == Fault::OrderReversed {
        steps[1..].reverse();
    }
    let follow = |target: u16| match fault {
        Fault::TargetsStay => target,
        _ => {
            let found = steps.iter().position(|&step| step == usize::from(target));
            found.expect("a target in use") as u16
        }
    };
    let mut new = match fault {
        Fault::RecordsStay => table.clone(),
        _ => Table::zero(),
    };
    new.capacity = capacity;
    new.last = match fault {
        Fault::LastStays => table.last,
        _ => steps.len() as u16 - 1,
    };
    new.quotas = match fault {
        Fault::ListStays => table.quotas,
        _ => quotas,
    };
    for (number, &step) in steps.iter().enumerate() {
        new.used[number] = 1;
        new.kinds[number] = table.kinds[step];
        new.contents[number] = table.contents[step];
        new.own[number] = match fault {
            Fault::OwnBitsStay => table.own[number],
            _ => table.own[step],
        };
        new.cabins[number] = match fault {
            Fault::CabinsLost => 0,
            _ => table.cabins[step],
        };
        for exit in 0..EXITS {
            new.targets[place(number, exit)] = follow(table.targets[place(step, exit)]);
            new.bits[place(number, exit)] = table.bits[place(step, exit)];
        }
    }
    new.counts = match fault {
        Fault::CountersStay => table.counts,
        _ => new.counted(),
    };
    new
}
