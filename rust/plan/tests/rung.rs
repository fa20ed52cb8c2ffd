//! Who can be rung, held against all lists of line results in trials of the library; and the risks of exits, held against its clearings.

use plan::risks::{risks, Risk};
use plan::rung::Rung;
use plan::view::View;
use std::cmp::Reverse;
use std::collections::{BTreeMap, BTreeSet};
use telephone::{sole_quotas, Exit, Kind, Table, STEPS_ROOM};

/// Numbers that follow from the first.
struct Numbers(u64);

impl Numbers {
    fn below(&mut self, end: u16) -> u16 {
        self.0 = self.0.wrapping_mul(6364136223846793005).wrapping_add(1442695040888963407);
        ((self.0 >> 33) % u64::from(end)) as u16
    }

    fn exit(&mut self) -> Exit {
        Exit::ALL[usize::from(self.below(4))]
    }

    /// A kind; a contact three times out of five.
    fn kind(&mut self) -> Kind {
        match self.below(5) {
            0 => Kind::Message(3),
            1 => Kind::Wait(60),
            entry => Kind::Contact(entry),
        }
    }
}

/// Places of a small table. A trial enters its last step with at most four line results, and takes an exit of it with five.
const SMALL: u16 = 6;

/// A small table after edits, some of them refused.
fn edited(numbers: &mut Numbers) -> Table {
    let mut table = Table::fresh(SMALL, &sole_quotas(SMALL)).unwrap();
    table.add(0, Exit::Answered, numbers.kind(), 0).unwrap();
    for _ in 0..30 {
        let (step, exit) = (numbers.below(SMALL), numbers.exit());
        let _ = match numbers.below(16) {
            0 => table.clear(step, exit).map(drop),
            1..=8 => table.link(step, exit, numbers.below(SMALL), numbers.exit()),
            _ => table.add(step, exit, numbers.kind(), 0).map(drop),
        };
    }
    table
}

/// The fewest line results with which trials enter each step, and the exits that they take, by trials with all lists of up to five line results.
fn tried(table: &Table) -> (BTreeMap<u16, usize>, BTreeSet<(u16, u16)>) {
    let (mut fewest, mut taken) = (BTreeMap::new(), BTreeSet::new());
    let mut lists = vec![vec![]];
    for length in 0..usize::from(SMALL) {
        for results in &lists {
            let (mut trace, mut left, mut at) = ([0; 64], results.iter(), 0);
            let trial = table.trial(64, results, &mut trace).unwrap();
            for &step in &trace[..trial.moves.into()] {
                let exit = match table.read(at).unwrap().kind {
                    Kind::Contact(_) => *left.next().unwrap(),
                    _ => 0,
                };
                taken.insert((at, exit.into()));
                at = step.into();
                fewest.entry(at).or_insert(length);
            }
        }
        lists = lists.iter().flat_map(|l| (0..4).map(move |r| [&l[..], &[r]].concat())).collect();
    }
    (fewest, taken)
}

#[test]
fn fewest_results_of_small_tables() {
    let mut numbers = Numbers(35);
    // steps by how many line results they need, and those that are never entered; exits that are taken, and those that never are
    let (mut needed, mut never, mut exits) = ([0; 5], 0, [0; 2]);
    for _ in 0..500 {
        let table = edited(&mut numbers);
        let view = View::of(&table);
        let rung = Rung::of(&table, &view).unwrap();
        let (fewest, taken) = tried(&table);
        let found = rung.fewest(&table, &view).unwrap();
        let lengths = found.iter().map(|(&step, results)| (step, results.len())).collect();
        assert_eq!(fewest, lengths, "{view:?}");
        assert!(rung.entered().iter().eq(fewest.keys()), "{view:?}");
        fewest.values().for_each(|&length| needed[length] += 1);
        never += view.steps.keys().filter(|&&step| rung.never_enters(step)).count();
        for held in view.links() {
            let is_taken = taken.contains(&(held.step, held.exit.number()));
            assert_eq!(rung.never_taken(&view, &held).is_none(), is_taken, "{held:?} in {view:?}");
            exits[usize::from(is_taken)] += 1;
        }
    }
    assert_eq!((needed, never, exits), ([517, 447, 135, 25, 1], 1054, [1523, 1255]));
}

/// Messages use up no line result: nine of them make a longer way than a second contact does, and one that needs fewer.
#[test]
fn fewer_results_by_a_longer_way() {
    let mut table = Table::fresh(16, &sole_quotas(16)).unwrap();
    table.add(0, Exit::Answered, Kind::Contact(1), 0).unwrap();
    table.add(1, Exit::Engaged, Kind::Contact(2), 0).unwrap();
    let mut last = table.add(1, Exit::NoReply, Kind::Message(0), 0).unwrap();
    for message in 1..9 {
        last = table.add(last, Exit::Answered, Kind::Message(message), 0).unwrap();
    }
    let step = table.add(last, Exit::Answered, Kind::Contact(3), 0).unwrap();
    table.link(last, Exit::Answered, 2, Exit::Answered).unwrap();
    let view = View::of(&table);
    let fewest = Rung::of(&table, &view).unwrap().fewest(&table, &view).unwrap();
    assert_eq!(fewest[&step], [Exit::NoReply]);
}

/// The phone book numbers that some trial rings: those of the steps that the library lists.
fn rung_numbers(table: &Table) -> BTreeSet<u16> {
    let mut steps = [0; STEPS_ROOM];
    let listed = table.rung(&mut steps).unwrap().steps;
    let kinds = steps.iter().take(listed.into()).map(|&step| table.read(step.into()).unwrap().kind);
    kinds
        .filter_map(|kind| if let Kind::Contact(entry) = kind { Some(entry) } else { None })
        .collect()
}

/// Every exit of stored images, cleared on a copy: its risk is what the preview tells and who is rung no more, and the worst come first.
#[test]
fn risks_of_every_exit() {
    for (name, bytes) in [
        ("ring", &include_bytes!("images/ring.img")[..]),
        ("flat", include_bytes!("images/flat.img")),
        ("silent", include_bytes!("images/silent.img")),
        ("thirty", include_bytes!("images/thirty.img")),
        ("cabins", include_bytes!("images/cabins.img")),
    ] {
        let table = Table::load(bytes).unwrap();
        let view = View::of(&table);
        let mut expected = Vec::new();
        for link in view.links() {
            let mut steps = [0; STEPS_ROOM];
            let told = table.preview_clear(link.step, link.exit, &mut steps).unwrap();
            let freed = steps.iter().take(told.freed.into()).map(|&step| step.into()).collect();
            let mut after = table.clone();
            after.clear(link.step, link.exit).unwrap();
            let silent = &rung_numbers(&table) - &rung_numbers(&after);
            expected.push(Risk { link, silent: silent.into_iter().collect(), freed });
        }
        // a sort keeps the order of equals, so the last one decides first
        expected.sort_by_key(|risk| Reverse(risk.freed.len()));
        expected.sort_by_key(|risk| Reverse(risk.silent.len()));
        expected.sort_by_key(|risk| !risk.silent.contains(&0));
        assert_eq!(risks(&table, &view).unwrap(), expected, "{name}");
    }
}
