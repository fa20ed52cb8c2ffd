//! Every call of made-up histories, through the interface and on the second program: key lines alone, and all calls, from fresh tables, from loaded
//! ones, and from tables with strengths that no history from a fresh one gives.

use compare::{next_line, Pair, Refusals};
use reference::calls::{fresh_for_cabin_0, Command};
use reference::faults::Fault;
use reference::generate::{start, Generator, Random};
use reference::history::{Call, Outcome};
use reference::sound::CONTACT;
use reference::table::Table;

/// What a run of calls came across, so that a test can say that it covered what it should.
#[derive(Default, Debug)]
struct Seen {
    /// First calls by their refusal, and all other calls.
    begun: Refusals,
    refusals: Refusals,
    full: usize,
    freed: usize,
    kept: usize,
    refilled: usize,
    squeezed: usize,
    renumbered: usize,
    /// Squeezes refused for a bad list, for too small a capacity, and for steps that do not fit a good list.
    bad_lists: usize,
    too_small: usize,
    unfit_lists: usize,
    /// Accepted adds by their cabin, and refused ones for a cabin above 7.
    adds: [usize; 8],
    no_cabin: usize,
    /// Adds of contacts above 99: accepted, accepted by key line, and of contact 1000, which is refused.
    larger_contacts: usize,
    keyed_contacts: usize,
    no_contact: usize,
    /// Key lines refused by 14 and by 15.
    held_lines: [usize; 2],
    /// Trials by their ending.
    endings: [usize; 3],
    /// Clearings with a slip, accepted and refused by 11.
    slips: [usize; 2],
    /// Take-backs: accepted, those of them that brought steps back, and refused by 18.
    taken_back: usize,
    brought_back: usize,
    not_taken_back: usize,
    /// Previews: accepted, refused by 11, and of clearings that free some of the doubtful steps and take others back.
    previews: [usize; 2],
    part_goes: usize,
    /// Who can be rung: told, refused by 11, and told where steps in use are left out.
    rungs: [usize; 2],
    silent: usize,
}

impl Seen {
    /// Notes a call, the table before it and the table after it.
    fn note(&mut self, call: &Call, outcome: &Outcome, before: &Table, after: &Table) {
        let Outcome { refusal, numbers, .. } = outcome;
        let accepted = *refusal == 0;
        self.refusals[usize::from(*refusal)] += 1;
        match call.command() {
            Some(Command::Add { cabin, .. }) if accepted => self.adds[usize::from(cabin)] += 1,
            Some(Command::Add { .. }) => self.no_cabin += usize::from(*refusal == 16),
            Some(Command::Clear { .. }) if accepted => {
                self.freed += usize::from(numbers[1] > 0);
                self.kept += usize::from(numbers[0] > numbers[1]);
            }
            _ => {}
        }
        if let Some(Command::Add { kind: CONTACT, content, .. }) = call.command() {
            let larger = accepted && content > 99;
            self.larger_contacts += usize::from(larger);
            self.keyed_contacts += usize::from(larger && matches!(call, Call::KeyLine(_)));
            self.no_contact += usize::from(content == 1000 && *refusal == 7);
        }
        match call {
            Call::Squeeze { .. } if accepted => {
                self.squeezed += 1;
                self.renumbered += usize::from(after.used != before.used);
            }
            Call::Squeeze { capacity, .. } => {
                let small = *capacity < before.size();
                self.bad_lists += usize::from(*refusal == 16);
                self.too_small += usize::from(*refusal == 13 && small);
                self.unfit_lists += usize::from(*refusal == 13 && !small);
            }
            Call::Trial { .. } if accepted => self.endings[numbers[0]] += 1,
            Call::ClearWithSlip { .. } if matches!(refusal, 0 | 11) => {
                self.slips[usize::from(*refusal) / 11] += 1;
            }
            Call::TakeBack { .. } if accepted => {
                self.taken_back += 1;
                self.brought_back += usize::from(numbers[0] > 0);
            }
            Call::TakeBack { .. } => self.not_taken_back += usize::from(*refusal == 18),
            Call::PreviewClear { .. } if matches!(refusal, 0 | 11) => {
                self.previews[usize::from(*refusal) / 11] += 1;
                self.part_goes += usize::from(numbers[1] > 0 && numbers[1] < numbers[0]);
            }
            Call::Rung { .. } => {
                self.rungs[usize::from(*refusal) / 11] += 1;
                self.silent += usize::from(accepted && numbers[0] + 1 < after.size().into());
            }
            Call::KeyLine(_) if matches!(refusal, 14 | 15) => {
                self.held_lines[usize::from(refusal - 14)] += 1;
            }
            _ => {}
        }
        if after.size() == 128 {
            self.full += 1;
            self.refilled += usize::from(self.freed > 0);
        }
    }
}

/// Makes so many calls on a pair of tables.
fn run(mut pair: Pair, calls: usize, seen: &mut Seen, mut next: impl FnMut(&Table) -> Call) {
    for _ in 0..calls {
        let before = pair.second.clone();
        let call = next(&before);
        let outcome = pair.call(&call).unwrap();
        seen.note(&call, &outcome, &before, &pair.second);
    }
}

/// A visit by key lines.
fn visit(seed: u64, lines: usize, start: &Table, seen: &mut Seen) {
    let mut generator = Generator::new(seed);
    run(Pair::new(start, Fault::None), lines, seen, |table| {
        Call::KeyLine(next_line(&mut generator, table))
    });
}

/// A history of all calls.
fn history(seed: u64, pair: Pair, calls: usize, seen: &mut Seen) {
    let mut generator = Generator::new(seed);
    run(pair, calls, seen, |table| generator.call(table));
}

#[test]
fn key_lines_agree() {
    let mut seen = Seen::default();
    for seed in 1000..1030 {
        visit(seed, 1500, &fresh_for_cabin_0(128), &mut seen);
    }
    assert!(
        seen.full > 100 && seen.refilled > 100,
        "the table was filled to 128, and again after clearings"
    );
    assert!(seen.freed > 100 && seen.kept > 100, "clearings freed steps, and took steps back");
    for refusal in [0, 3, 4, 5, 6, 7, 8, 9] {
        assert!(seen.refusals[refusal] > 0, "refusal {refusal} came up");
    }
    assert_eq!(seen.held_lines, [0, 0], "with cabin 0 alone, 8 comes first");
    for seed in 1030..1070 {
        visit(seed, 150, &Random(seed).sound_table(), &mut seen);
    }
    assert!(seen.held_lines.iter().all(|&lines| lines > 100), "{:?}", seen.held_lines);
}

#[test]
fn histories_agree() {
    let mut seen = Seen::default();
    for seed in 0..12 {
        visit(seed, 1500, &fresh_for_cabin_0(128), &mut seen);
    }
    for seed in 100..140 {
        let capacity = [1, 2, 3, 4, 5, 8, 16, 64, 127, 128][seed as usize % 10];
        history(seed, Pair::new(&fresh_for_cabin_0(capacity), Fault::None), 500, &mut seen);
    }
    for seed in 200..280 {
        history(seed, Pair::new(&Random(seed).sound_table(), Fault::None), 150, &mut seen);
    }
    for seed in 300..390 {
        let (pair, begun) = Pair::begin(&start(seed), Fault::None);
        seen.begun[usize::from(begun.unwrap().refusal)] += 1;
        history(seed, pair, 250, &mut seen);
    }
    println!("{seen:?}");
    assert!(seen.squeezed > 300 && seen.renumbered > 100, "squeezes gave new numbers");
    assert!(seen.endings.iter().all(|&ended| ended > 300), "trials ended {:?}", seen.endings);
    for (refusal, &calls) in seen.refusals.iter().enumerate() {
        assert_eq!(calls > 100, !matches!(refusal, 1 | 12 | 17), "{calls} with refusal {refusal}");
        assert_eq!(seen.begun[refusal] > 0, matches!(refusal, 0 | 2 | 12 | 16));
    }
    assert!(seen.bad_lists > 100 && seen.too_small > 100 && seen.unfit_lists > 100);
    assert!(seen.adds.iter().all(|&adds| adds > 300) && seen.no_cabin > 100);
    assert!(seen.larger_contacts > 1000 && seen.keyed_contacts > 300 && seen.no_contact > 50);
    assert!(seen.slips.iter().all(|&slips| slips > 300), "slips {:?}", seen.slips);
    assert!(seen.taken_back > 300 && seen.brought_back > 100 && seen.not_taken_back > 300);
    assert!(seen.previews.iter().all(|&made| made > 1000) && seen.part_goes > 30);
    assert!(seen.rungs.iter().all(|&made| made > 500) && seen.silent > 500);
}
