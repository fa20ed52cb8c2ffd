//! The soundness test, total on any values. Each part below is one item of the list.
//! Renders the list "A table is sound when" of document 01, the kinds and their contents, what W5 of
//! document 02 adds to the list, and W9's contacts.

use crate::cabins::charges_fit;
use crate::table::{after, mark, members, place, Table, CABINS, EXITS, PLACES};

/// The kinds of step.
pub const ALARM: u16 = 0;
pub const CONTACT: u16 = 1;
pub const MESSAGE: u16 = 2;
pub const WAIT: u16 = 3;

/// The highest contact, and the highest that an old telephone takes. The lowest is 0.
pub const HIGHEST_CONTACT: u16 = 999;
pub const OLD_HIGHEST_CONTACT: u16 = 99;

/// Whether a table is sound.
pub fn sound(table: &Table) -> bool {
    numbers_in_range(table)
        && kinds_in_range(table)
        && (0..PLACES).all(|step| fields_right(table, step))
        && table.counts == table.counted()
        && strengths_right(table)
        && cabins_right(table)
}

/// Whether a table may have this capacity.
pub fn capacity_fits(capacity: u16) -> bool {
    (1..=PLACES).contains(&usize::from(capacity))
}

/// Whether a step that can be added may have this kind and content.
pub fn fits(kind: u16, content: u16) -> bool {
    match kind {
        CONTACT => content <= HIGHEST_CONTACT,
        MESSAGE => content <= 15,
        WAIT => (1..=600).contains(&content),
        _ => false,
    }
}

/// The capacity, the last number given, and no step in use at or above the capacity.
fn numbers_in_range(table: &Table) -> bool {
    capacity_fits(table.capacity)
        && table.last < table.capacity
        && table.used.iter().all(|&used| used <= 1)
        && table.used[table.capacity.into()..].iter().all(|&used| used == 0)
}

/// Step 0 is in use and the alarm; every other step in use has a kind and content that fit.
fn kinds_in_range(table: &Table) -> bool {
    table.has(0)
        && (table.kinds[0], table.contents[0]) == (ALARM, 0)
        && members(table.in_use() & !1).all(|step| fits(table.kinds[step], table.contents[step]))
}

/// A step in use has bits of 0 and 1, links to steps in use but 0, and zero bits at empty exits.
/// A free step has all fields zero or empty.
fn fields_right(table: &Table, step: usize) -> bool {
    let exits = place(step, 0)..place(step, EXITS);
    let (targets, bits) = (&table.targets[exits.clone()], &table.bits[exits]);
    if table.used[step] == 1 {
        table.own[step] <= 1
            && targets.iter().zip(bits).all(|(&target, &bit)| match target {
                0 => bit == 0,
                _ => table.has(target) && bit <= 1,
            })
    } else {
        let single = [table.kinds[step], table.contents[step], table.own[step], table.cabins[step]];
        let counts = &table.counts[step * 2..step * 2 + 2];
        [&single, targets, bits, counts].iter().all(|fields| fields.iter().all(|&field| field == 0))
    }
}

/// Strong links form no ring, and step 0 reaches all steps in use by them. Along a ring there are
/// chains of any length; without one, a chain has fewer links than there are steps in use.
fn strengths_right(table: &Table) -> bool {
    let strong = table.strong_links();
    let ends = (0..table.size()).fold(table.in_use(), |ends, _| after(ends, &strong));
    ends == 0 && mark(1, &strong) == table.in_use()
}

/// The cabins are 0 to 7, and 0 at step 0; the list is good, and the steps are within it.
fn cabins_right(table: &Table) -> bool {
    table.cabins[0] == 0
        && table.cabins.iter().all(|&cabin| usize::from(cabin) < CABINS)
        && charges_fit(table.capacity, &table.quotas, &table.charges())
}
