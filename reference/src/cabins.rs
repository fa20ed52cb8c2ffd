//! Lists of guarantees and limits, and the places that they take from a table: each cabin as many
//! as the larger of its guarantee and its charge. A list is good, a table keeps to its list, and an
//! add leaves the other cabins what they are guaranteed, as long as those places and step 0's fit
//! into the capacity. Unmet guarantees are counted in `plan`, and nowhere here.
//! Renders W5 of document 02.

use std::array::from_fn;
use std::iter::zip;

use crate::faults::Fault;
use crate::sound::capacity_fits;
use crate::table::{Charges, Quotas, Table, CABINS, PLACES};

/// The list with these guarantees and limits, from cabin 0 on, and zeros for all other cabins.
pub fn list(pairs: &[[u16; 2]]) -> Quotas {
    let mut quotas = [0; 2 * CABINS];
    quotas[..2 * pairs.len()].copy_from_slice(pairs.as_flattened());
    quotas
}

/// W5's list for an image of edition 1: all places but step 0's are guaranteed to cabin 0. No table
/// has capacity 0; its list is that of capacity 1.
pub fn one_cabin(capacity: u16) -> Quotas {
    list(&[[capacity.saturating_sub(1); 2]])
}

/// A table with all its steps charged to cabin 0, and W5's list for edition 1.
pub fn for_cabin_0(table: &Table) -> Table {
    Table { cabins: [0; PLACES], quotas: one_cabin(table.capacity), ..table.clone() }
}

/// The guarantee and the limit of each cabin.
pub fn pairs(quotas: &Quotas) -> [[u16; 2]; CABINS] {
    from_fn(|cabin| [quotas[2 * cabin], quotas[2 * cabin + 1]])
}

/// Whether the list is good for this capacity: the one of a table with no steps but step 0.
pub fn list_fits(capacity: u16, quotas: &Quotas) -> bool {
    charges_fit(capacity, quotas, &[0; CABINS])
}

/// Whether a list is good for this capacity, the charges are within its limits, and the free steps
/// are enough for all guarantees.
pub fn charges_fit(capacity: u16, quotas: &Quotas, charges: &Charges) -> bool {
    let within = |([guarantee, limit], &charge): ([u16; 2], &u16)| guarantee.max(charge) <= limit;
    zip(pairs(quotas), charges).all(within) && left_over(capacity, quotas, charges).is_some()
}

/// The places that no cabin has and none is guaranteed; nothing where there are too few places.
/// They are handed out cabin by cabin: nothing is added up that could pass 16 bits.
fn left_over(capacity: u16, quotas: &Quotas, charges: &Charges) -> Option<u16> {
    zip(pairs(quotas), charges)
        .try_fold(capacity.checked_sub(1)?, |left, ([guarantee, _], &charge)| {
            left.checked_sub(guarantee.max(charge))
        })
}

/// The refusals of a capacity and a list, at a fresh table and a squeeze, with a fault or without.
pub fn list_order(capacity: u16, quotas: &Quotas, fault: Fault) -> [(u16, bool); 2] {
    let good = match fault {
        Fault::SumIn16Bits => {
            let sum = pairs(quotas).iter().fold(0u16, |sum, pair| sum.wrapping_add(pair[0]));
            pairs(quotas).iter().all(|[guarantee, limit]| guarantee <= limit) && sum < capacity
        }
        _ => list_fits(capacity, quotas),
    };
    let mut order = [(2, !capacity_fits(capacity)), (16, !good)];
    if fault == Fault::ListBeforeRange {
        order.swap(0, 1);
    }
    order
}

/// The last two refusals of an add, with a fault or without: the cabin's charge has come to its
/// limit; with one step more of the cabin, too few places would be left for the guarantees. They
/// can be read on any table, and for a cabin above 7 neither holds.
pub fn charge_order(table: &Table, cabin: u16, fault: Fault) -> [(u16, bool); 2] {
    let cabin = usize::from(cabin);
    let mut charges = table.charges();
    if fault == Fault::AlarmCharged {
        charges[0] += 1;
    }
    let Some(&charge) = charges.get(cabin) else {
        return [(14, false), (15, false)];
    };
    let [_, limit] = pairs(&table.quotas)[cabin];
    let left = |charges: &Charges| left_over(table.capacity, &table.quotas, charges);
    let none_over = left(&charges) == Some(0);
    charges[cabin] += 1;
    let at_limit = match fault {
        Fault::LimitPassed => charge > limit,
        _ => charge >= limit,
    };
    let reserved = match fault {
        Fault::ReservedTaken => false,
        Fault::GuaranteeRefused => none_over,
        _ => left(&charges).is_none(),
    };
    let mut order = [(14, at_limit), (15, reserved)];
    if fault == Fault::ReservedBeforeLimit {
        order.swap(0, 1);
    }
    order
}
