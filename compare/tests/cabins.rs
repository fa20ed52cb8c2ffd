//! Cabins, lists and charges (W5) through the interface, on the second program and on the plain plan: lists of all sorts, adds for every cabin on
//! tables that are nearly full, small tables with every list, sums past 16 bits, and tables with any words for cabins and lists. `images` has the
//! editions; `histories`, `squeeze` and `faults` have cabins too.

use compare::{as_said, both, kept_list, lend, lend_list, Lent, Pair, Refusals};
use reference::cabins::{list, one_cabin};
use reference::calls::{fresh, Command};
use reference::faults::Fault;
use reference::generate::Random;
use reference::history::{agrees, Call, Start};
use reference::laws;
use reference::plan::{plan_of, Plan};
use reference::sound::{sound, CONTACT};
use reference::squeeze::squeeze;
use reference::table::{Charges, Quotas, Table, CABINS};
use telephone::raw;

/// Cabins in range, at its end, and such as would be in range in fewer bits.
const ANY_CABIN: [u16; 14] = [0, 1, 2, 3, 4, 5, 6, 7, 8, 15, 255, 256, 32768, 65535];

fn add(holder: u16, exit: u16, kind: u16, cabin: u16) -> Call {
    Call::Edit(Command::Add { holder, exit, kind, content: 9, cabin })
}

/// A list for a table of this capacity with these charges, mostly a good one, and often with other words in it.
fn any_list(random: &mut Random, capacity: u16, charges: &Charges) -> Quotas {
    let mut quotas = random.list(capacity, charges);
    for _ in 0..random.pick(&[0, 0, 1, 2, 2 * CABINS]) {
        let small = random.below(9) as u16;
        let any = random.number() as u16;
        let at = random.below(2 * CABINS);
        quotas[at] = random.pick(&[0, small, small, 126, 127, 128, 32768, 65535, any]);
    }
    quotas
}

/// Makes a fresh table by both programs; its plan is what the plan draws. Gives the refusal.
fn fresh_as_said(capacity: u16, quotas: Quotas) -> u16 {
    let start = Start::Fresh { capacity, quotas };
    let (pair, compared) = Pair::begin(&start, Fault::None);
    let outcome = compared.unwrap();
    let (plan, said) = Plan::begin(&start, true);
    assert!(agrees(&outcome, &said), "{start:?}: {outcome:?}, plan: {said:?}");
    assert!(plan_of(&pair.second) == plan && sound(&pair.second), "{start:?}");
    outcome.refusal
}

/// A sound table with any strengths and so many free steps at most, and a list that its charges fit.
fn nearly_full(random: &mut Random, free: u16) -> Table {
    let mut table = random.sound_table();
    let capacity = (table.size() + free).min(128);
    let quotas = random.fitting_list(capacity, &table.charges());
    assert_eq!(squeeze(&mut table, capacity, quotas).refusal, 0);
    table
}

/// A step in use and an exit of it that is empty or filled, as asked for; any exit where there is none.
fn place(random: &mut Random, table: &Table, filled: bool) -> (u16, u16) {
    let suits =
        |place: &usize| table.used[place / 4] == 1 && (table.targets[*place] != 0) == filled;
    let places: Vec<usize> = (0..512).filter(suits).collect();
    let place = if places.is_empty() { 0 } else { random.pick(&places) };
    ((place / 4) as u16, (place % 4) as u16)
}

/// Adds for every cabin, right but for the cabin and wrong in one thing more.
fn adds(random: &mut Random, table: &Table) -> Vec<Call> {
    let ((holder, exit), (full, filled)) =
        (place(random, table, false), place(random, table, true));
    let free = (0..=128).find(|&step| !table.has(step)).expect("128 is free");
    let each = |cabin| {
        [
            add(holder, exit, CONTACT, cabin),
            add(free, exit, CONTACT, cabin),
            add(holder, 4, CONTACT, cabin),
            add(full, filled, CONTACT, cabin),
            add(holder, exit, 0, cabin),
        ]
    };
    ANY_CABIN.into_iter().flat_map(each).collect()
}

fn many(refusals: &Refusals, expected: &[usize]) {
    for (refusal, &times) in refusals.iter().enumerate() {
        let met = if expected.contains(&refusal) { times > 100 } else { times == 0 };
        assert!(met, "refusal {refusal} came up {times} times");
    }
}

/// The list for one cabin, of every capacity; the call writes it whole and nothing beside it.
#[test]
fn sole_quotas() {
    for capacity in 0..=u16::MAX {
        let mut lent = Lent::new(lend_list(&[capacity ^ 21; 2 * CABINS]));
        raw::sole_quotas(&mut lent.lent, capacity);
        assert!(lent.edges_stand() && kept_list(&lent.lent) == one_cabin(capacity), "{capacity}");
    }
}

#[test]
fn fresh_tables() {
    let mut random = Random(71);
    let mut refusals = Refusals::default();
    for capacity in (0..=260).chain([32767, 32768, 65408, 65535]) {
        for _ in 0..20 {
            let quotas = any_list(&mut random, capacity, &[0; CABINS]);
            refusals[usize::from(fresh_as_said(capacity, quotas))] += 1;
        }
    }
    many(&refusals, &[0, 2, 16]);
}

/// With no step free to three free ones, of which none are guaranteed, some or all.
#[test]
fn adds_on_nearly_full_tables() {
    let mut random = Random(72);
    let mut refusals = Refusals::default();
    for round in 0..400 {
        let table = nearly_full(&mut random, round % 4);
        for call in adds(&mut random, &table) {
            refusals[usize::from(as_said(&table, &call).refusal)] += 1;
        }
    }
    many(&refusals, &[0, 3, 4, 5, 7, 8, 14, 15, 16]);
}

/// Every add of three cabins and a clearing, four calls deep.
fn every_edit(table: &Table, depth: usize, refusals: &mut Refusals) {
    if depth == 0 {
        return;
    }
    let exit = (0..4).find(|&exit| table.targets[exit] == 0).unwrap_or(0) as u16;
    let adds = [0, 5, 7].map(|cabin| add(0, exit, CONTACT, cabin));
    for call in adds.into_iter().chain([Call::Edit(Command::Clear { step: 0, exit: 0 })]) {
        let mut after = table.clone();
        let refusal = both(&mut after, &call).refusal;
        assert_eq!(plan_of(table).draw(&call, false).err().unwrap_or(0), refusal, "{call:?}");
        refusals[usize::from(refusal)] += 1;
        if refusal == 0 {
            every_edit(&after, depth - 1, refusals);
        }
    }
}

/// Every list with guarantees and limits of cabins 0 and 5 up to 4, on fresh tables of capacity 4.
#[test]
fn small_tables() {
    let mut refusals = Refusals::default();
    let pairs = || (0..5).flat_map(|guarantee| (0..5).map(move |limit| [guarantee, limit]));
    for (zero, five) in pairs().flat_map(|zero| pairs().map(move |five| (zero, five))) {
        let none = [0, 0];
        let quotas = list(&[zero, none, none, none, none, five]);
        let refusal = fresh_as_said(4, quotas);
        let good = zero[0] <= zero[1] && five[0] <= five[1] && zero[0] + five[0] <= 3;
        assert_eq!(refusal, if good { 0 } else { 16 }, "{quotas:?}");
        if good {
            every_edit(&fresh(4, quotas).0, 4, &mut refusals);
        }
    }
    many(&refusals, &[0, 6, 8, 14, 15]);
}

#[test]
fn squeezes_with_any_list() {
    let mut random = Random(73);
    let mut refusals = Refusals::default();
    let mut unfit = 0;
    for _ in 0..600 {
        let table = random.sound_table();
        let size = table.size();
        for capacity in [size - 1, size, size + 1, (size + 9).min(128), table.capacity, 128, 129] {
            for _ in 0..3 {
                let quotas = any_list(&mut random, capacity, &table.charges());
                let refusal = as_said(&table, &Call::Squeeze { capacity, quotas }).refusal;
                refusals[usize::from(refusal)] += 1;
                unfit += usize::from(refusal == 13 && capacity >= size);
            }
        }
    }
    many(&refusals, &[0, 2, 13, 16]);
    assert!(unfit > 500 && refusals[13] - unfit > 500, "{unfit} of {refusals:?}");
}

/// Guarantees that are a good list if they are added up in 16 bits: at a fresh table, a squeeze and in a table.
#[test]
fn sums_past_16_bits() {
    let mut random = Random(74);
    for times in 2..=CABINS {
        for sum in [0, 1, 100, 126, 127, 128] {
            let mut guarantees = [0; CABINS];
            guarantees[..times].fill((65536 / times) as u16);
            guarantees[0] += (65536 % times) as u16 + sum;
            random.shuffle(&mut guarantees);
            assert_eq!(guarantees.iter().fold(0, |sum: u16, &more| sum.wrapping_add(more)), sum);
            for limit in [None, Some(65535)] {
                let quotas =
                    list(&guarantees.map(|guarantee| [guarantee, limit.unwrap_or(guarantee)]));
                assert_eq!(fresh_as_said(128, quotas), 16, "{quotas:?}");
                let mut table = random.sound_table();
                let squeeze = Call::Squeeze { capacity: 128, quotas };
                assert_eq!(as_said(&table, &squeeze).refusal, 16, "{quotas:?}");
                table.quotas = quotas;
                assert_eq!(raw::is_sound(&lend(&table)), 0, "{quotas:?}");
                assert_eq!(as_said(&table, &squeeze).refusal, 1);
            }
        }
    }
}

/// Tables that are sound but for their cabins and their list, in which any words stand; many are sound all the same.
#[test]
fn any_cabins_and_lists() {
    let mut random = Random(75);
    let (mut stayed, mut broke) = (0, 0);
    for _ in 0..600 {
        let mut table = nearly_full(&mut random, 20);
        if random.once_in(2) {
            table.quotas = any_list(&mut random, table.capacity, &table.charges());
        }
        for _ in 0..random.pick(&[0, 1, 1, 2, 128]) {
            let near = random.pick(&[1, 4, 128]);
            let at = random.below(near);
            table.cabins[at] = random.pick(&ANY_CABIN);
        }
        let whole = sound(&table);
        assert_eq!(raw::is_sound(&lend(&table)), u16::from(whole), "{table:?}");
        *if whole { &mut stayed } else { &mut broke } += 1;
        let (capacity, quotas) = (table.capacity, table.quotas);
        let list = any_list(&mut random, capacity, &table.charges());
        let calls = adds(&mut random, &table).into_iter().chain([
            Call::Squeeze { capacity, quotas },
            Call::Squeeze { capacity, quotas: list },
            Call::Read { step: 1 },
            Call::Edit(Command::Count),
            Call::ImageLength,
        ]);
        for call in calls {
            let outcome = as_said(&table, &call);
            assert_eq!(outcome.refusal == 1, !whole, "{call:?}");
        }
    }
    assert!(stayed > 100 && broke > 200, "{stayed} sound, {broke} not");
}

#[test]
fn guarantees_are_kept() {
    assert!(laws::guarantees_are_kept(&both, 1800..1840) > 300);
}

#[test]
fn charges_are_counted() {
    let [freed, back] = laws::charges_are_counted(&both, 1800..1836);
    assert!(freed > 200 && back > 50, "{freed} {back}");
}
