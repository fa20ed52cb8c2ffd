//! The repair after an exit is emptied: doubtful steps found by marking, taken back, freed.
//! Renders "Clearing an exit" of document 01, and W5's "until it is freed"; nothing is withdrawn
//! and no counter is read.

use crate::faults::Fault;
use crate::table::{after, mark, members, place, Set, Table, EXITS};

/// Empties the exit at a place of a sound table and repairs the table.
/// Gives the steps made doubtful and the steps freed.
///
/// Rule 1 needs no case of its own: a weak link is in no strong chain, and a target with a strong
/// link left keeps a strong chain, since strong links formed no ring. No step is doubtful then.
pub fn clear_exit(table: &mut Table, exit: usize, fault: Fault) -> (u16, u16) {
    (table.targets[exit], table.bits[exit]) = (0, 0);
    let mut counts = (0, 0);
    if fault != Fault::SkipRepair {
        let doubtful = table.in_use() & !mark(1, &table.strong_links());
        let unreached = take_back(table, doubtful, fault);
        members(unreached).for_each(|step| free(table, step, fault));
        counts = (doubtful.count_ones() as u16, unreached.count_ones() as u16);
    }
    table.counts = table.counted();
    counts
}

/// Rule 3: takes back the lowest doubtful step with a link from a step in use that is not
/// doubtful, as long as there is one. Gives the steps still doubtful.
fn take_back(table: &mut Table, mut doubtful: Set, fault: Fault) -> Set {
    loop {
        let held = after(table.in_use() & !doubtful, &table.links()) & doubtful;
        let chosen = match fault {
            Fault::HighestFirst => members(held).last(),
            _ => members(held).next(),
        };
        let Some(step) = chosen else {
            return doubtful;
        };
        table.own[step] = 1 - table.own[step];
        doubtful &= !(1 << step);
        for exit in place(step, 0)..place(step, EXITS) {
            if table.targets[exit] != 0 {
                table.bits[exit] = 1 - table.own[usize::from(table.targets[exit])];
            }
        }
    }
}

/// Rule 4: makes a step's record zero and empty.
fn free(table: &mut Table, step: usize, fault: Fault) {
    table.used[step] = 0;
    table.kinds[step] = 0;
    table.contents[step] = 0;
    if fault != Fault::FreedKeepsBit {
        table.own[step] = 0;
    }
    if fault != Fault::FreedKeepsCabin {
        table.cabins[step] = 0;
    }
    table.targets[place(step, 0)..place(step, EXITS)].fill(0);
    table.bits[place(step, 0)..place(step, EXITS)].fill(0);
}
