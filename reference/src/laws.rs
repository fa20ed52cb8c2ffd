//! What a squeeze has to keep, what the limit of a trial does, what cabins are promised, what
//! conversions leave, what slips say and bring back, what a preview foretells, who can be rung, and
//! what clearings give in any order, checked on generated tables with any strengths, and histories.
//! It is stated of any program that makes calls, so that it can be asked of this one and of the one
//! it is held to. Renders W2, W3, W5, W6, W7, W8 and W14 of document 02, and who can be rung by W3's
//! rule. Each law gives how often it met the case that it is about.

use std::collections::BTreeMap;
use std::ops::Range;

use crate::cabins::pairs;
use crate::calls::{Command, Ending};
use crate::convert::{Conversion, Way};
use crate::faults::Fault;
use crate::generate::{digits, for_old_telephone, small_tables, start, Generator, Random};
use crate::history::{begin, Call, Outcome, Start, UNTOUCHED};
use crate::image::{bytes, encode, fields, in_edition_1, number, record, sorted, HEADER, RECORD};
use crate::plan::{plan_of, Plan};
use crate::rung::fewest_results;
use crate::slip::{changes, listed, SLIP_HEADER, SLIP_PAIR};
use crate::sound::{sound, CONTACT};
use crate::steps::STEPS_ROOM;
use crate::table::{mark, members, place, Quotas, Successors, Table, CABINS, EXITS, PLACES};

/// Makes a call on a table.
pub type Program<'a> = &'a dyn Fn(&mut Table, &Call) -> Outcome;

/// Makes the first call of a history; gives its table.
pub type Beginner<'a> = &'a dyn Fn(&Start) -> (Table, Outcome);

/// Makes a conversion.
pub type Converter<'a> = &'a dyn Fn(&Conversion) -> Outcome;

/// Makes a trial of a table with each of these lists of results; gives the steps that each enters.
pub type Trials<'a> = &'a dyn Fn(&Table, &[Vec<u8>]) -> Vec<Vec<u8>>;

/// The steps in their order get the numbers from 0 upward, with all their fields, and targets
/// follow. The table is sound and has the capacity and the list given, and its plain plan is the
/// renumbered one. Gives the steps that got another number.
pub fn steps_travel(program: Program, seeds: Range<u64>) -> usize {
    let mut moved = 0;
    for (table, capacity, quotas) in tables(seeds) {
        let new = squeezed(program, &table, capacity, quotas);
        assert!(sound(&new));
        assert_eq!((new.capacity, new.quotas, new.last), (capacity, quotas, table.size() - 1));
        let mut plan = plan_of(&table);
        let drawn = plan.draw(&Call::Squeeze { capacity, quotas }, false);
        assert_eq!(drawn, Ok([Some(0), Some(0)].into()));
        assert_eq!(plan_of(&new), plan);
        for step in members(table.in_use()) {
            let number = renumbered(&table, step);
            let mut fields = read(program, &table, step);
            for target in &mut fields.numbers[3..3 + EXITS] {
                *target = renumbered(&table, *target);
            }
            assert_eq!(read(program, &new, number), fields);
            moved += usize::from(number != step);
        }
    }
    moved
}

/// Squeezing twice is squeezing once, whatever the first capacity and list. Gives the tables that
/// the first squeeze renumbered.
pub fn twice_is_once(program: Program, seeds: Range<u64>) -> usize {
    let mut renumbered = 0;
    for (table, capacity, quotas) in tables(seeds) {
        let once = squeezed(program, &table, capacity, quotas);
        let mut random = Random(capacity.into());
        for last in [table.size(), capacity, PLACES as u16] {
            let list = random.fitting_list(last, &table.charges());
            let [twice, at_once] =
                [&once, &table].map(|table| squeezed(program, table, last, list));
            assert_eq!(twice, at_once);
        }
        renumbered += usize::from(once.used != table.used);
    }
    renumbered
}

/// Trials of the old and the squeezed table end alike; the last step and the trace are renumbered.
/// Gives the trials in which one of these is another number.
pub fn trials_end_alike(program: Program, seeds: Range<u64>) -> usize {
    let mut other = 0;
    for (table, capacity, quotas) in tables(seeds) {
        let new = squeezed(program, &table, capacity, quotas);
        let plan = plan_of(&table);
        let mut random = Random(capacity.into());
        for _ in 0..12 {
            let call = random.trial(&plan);
            let old = program(&mut table.clone(), &call);
            let mut expected = old.clone();
            expected.numbers[1] = renumbered(&table, old.numbers[1]);
            for step in &mut expected.lent[..old.numbers[2]] {
                *step = renumbered(&table, usize::from(*step)) as u8;
            }
            assert_eq!(program(&mut new.clone(), &call), expected);
            other += usize::from(expected != old);
        }
    }
    other
}

/// A trial with a larger limit begins with the same trace and makes no fewer moves; where the
/// smaller limit did not stop the trial, both answer the same. Gives the trials that were stopped
/// and went on under a larger limit.
pub fn larger_limits_go_on(program: Program, seeds: Range<u64>) -> usize {
    let mut went_on = 0;
    for (table, ..) in tables(seeds) {
        let mut random = Random(table.size().into());
        for length in 0..12 {
            let (results, moves) = random.results(&plan_of(&table), length);
            let mut limits = [0, 1, 2, 3, moves, moves + 1, moves + 300];
            limits.sort();
            let trials = limits.map(|trace| {
                let call = Call::Trial { limit: trace as u16, results: results.clone(), trace };
                program(&mut table.clone(), &call)
            });
            for [smaller, larger] in trials.windows(2).map(|two| [&two[0], &two[1]]) {
                let moves = smaller.numbers[2];
                assert!(smaller.refusal == 0 && larger.refusal == 0);
                assert!(larger.numbers[2] >= moves);
                assert_eq!(larger.lent[..moves], smaller.lent[..moves]);
                if smaller.numbers[0] != Ending::Stopped as usize {
                    assert_eq!(larger.numbers, smaller.numbers);
                }
                went_on += usize::from(larger.numbers[2] > moves);
            }
        }
    }
    went_on
}

/// Clearing an exit of the old table, and the same exit of the step under its new number, gives the
/// same two counts, and the results squeeze into one table: the order of the steps is kept. Gives
/// the clearings that took two steps or more back, in which the order matters.
pub fn clearings_count_alike(program: Program, seeds: Range<u64>) -> usize {
    let mut taken_back = 0;
    for (table, capacity, quotas) in tables(seeds) {
        let squeezed = |table: &Table| squeezed(program, table, capacity, quotas);
        let start = squeezed(&table);
        for step in members(table.in_use()) {
            for exit in 0..EXITS as u16 {
                let (old, counts) = cleared(program, &table, step as u16, exit);
                let number = renumbered(&table, step) as u16;
                let (new, same) = cleared(program, &start, number, exit);
                assert_eq!(same, counts);
                assert_eq!(squeezed(&new), squeezed(&old));
                taken_back += usize::from(counts.numbers[0] > counts.numbers[1] + 1);
            }
        }
    }
    taken_back
}

/// A cabin below its guarantee may add, whatever the others add or keep. When each of the others
/// has added until it was refused, the cabin is given all steps up to its guarantee. Gives those
/// steps.
pub fn guarantees_are_kept(program: Program, seeds: Range<u64>) -> usize {
    let mut given = 0;
    for (table, ..) in tables(seeds) {
        for (cabin, [guarantee, _]) in pairs(&table.quotas).into_iter().enumerate() {
            let unmet = guarantee.saturating_sub(table.charges()[cabin]);
            if unmet == 0 {
                continue;
            }
            let mut table = table.clone();
            for other in (0..CABINS).filter(|&other| other != cabin) {
                let mut refusals = (0..PLACES).map(|_| add(program, &mut table, other));
                let refusal = refusals.find(|&refusal| refusal != 0);
                assert!(matches!(refusal, Some(14 | 15)), "{refusal:?}");
            }
            for _ in 0..unmet {
                assert_eq!(add(program, &mut table, cabin), 0);
            }
            given += usize::from(unmet);
        }
    }
    given
}

/// The steps in use less 1 are the cabins' charges, counted from the first table and the answers to
/// adds, clearings and take-backs since; each step keeps the cabin that added it until it is freed,
/// and has it again when it is brought back; and no add below a guarantee gets 8, 14 or 15. Gives
/// the steps of other cabins than 0 that were freed, and those brought back.
pub fn charges_are_counted(program: Program, seeds: Range<u64>) -> [usize; 2] {
    let cabins = |table: &Table| -> BTreeMap<usize, u16> {
        members(table.in_use() & !1).map(|step| (step, table.cabins[step])).collect()
    };
    let [mut freed, mut back] = [0, 0];
    for seed in seeds {
        let (mut table, _) = begin(&start(seed), Fault::None);
        let mut generator = Generator::new(seed);
        let mut charged = cabins(&table);
        let mut count = charged.len();
        for _ in 0..400 {
            let call = generator.call(&table);
            let outcome = program(&mut table, &call);
            let accepted = outcome.refusal == 0;
            match call.command() {
                Some(Command::Add { cabin, .. }) if accepted => {
                    count += 1;
                    charged.insert(outcome.numbers[0], cabin);
                }
                Some(Command::Add { cabin, .. }) if matches!(outcome.refusal, 8 | 14 | 15) => {
                    let charge = charged.values().filter(|&&of| of == cabin).count();
                    assert!(charge >= usize::from(table.quotas[2 * usize::from(cabin)]));
                }
                Some(Command::Clear { .. }) if accepted => {
                    count -= outcome.numbers[1];
                    charged.retain(|&step, cabin| {
                        freed += usize::from(table.used[step] == 0 && *cabin != 0);
                        table.used[step] == 1
                    });
                }
                _ => {}
            }
            match &call {
                Call::Squeeze { .. } if accepted => {
                    charged = (1..).zip(charged.into_values()).collect();
                }
                Call::TakeBack { slip } if accepted => {
                    count += outcome.numbers[0];
                    for (old, _) in changes(slip).into_iter().filter(|(old, _)| number(old) != 0) {
                        let cabin = u16::from_le_bytes([old[RECORD - 2], old[RECORD - 1]]);
                        let new = charged.insert(number(old).into(), cabin).is_none();
                        back += usize::from(new && cabin != 0);
                    }
                }
                _ => {}
            }
            let said = program(&mut table, &Call::Edit(Command::Count)).numbers[0];
            assert_eq!((said - 1, charged.len()), (count, count), "{call:?}");
            assert_eq!(cabins(&table), charged, "{call:?}");
        }
    }
    [freed, back]
}

/// A clearing with a slip gives the counts and the table of the clearing; its slip has the holder
/// and the steps made doubtful, and no others, each with its records of before and after. Taken
/// back at once, it gives the table from before and answers the steps freed; another last number
/// given stays. Gives the clearings that freed steps and took others back.
pub fn slips_bring_back(program: Program, seeds: Range<u64>) -> usize {
    let mut both = 0;
    for (table, ..) in tables(seeds) {
        for (step, exit) in table.filled() {
            let (cleared, counts) = cleared(program, &table, step, exit);
            let (after, slip) = cleared_with_slip(program, &table, step, exit, &counts);
            assert_eq!(after, cleared);
            let mut changed = table.in_use() & !mark(1, &emptied(&table, step, exit));
            assert_eq!(changed.count_ones() as usize, counts.numbers[0]);
            changed |= 1 << step;
            let steps: Vec<usize> = members(changed).collect();
            let head = bytes([step, exit, steps.len() as u16]);
            let of = |&step: &usize| [record(&table, step), record(&cleared, step)].concat();
            assert_eq!(slip, [head, steps.iter().flat_map(of).collect()].concat());
            let [doubtful, freed] = [counts.numbers[0], counts.numbers[1]];
            for last in [table.last, (table.last + 1) % table.capacity] {
                let present = Table { last, ..cleared.clone() };
                let back = taken_back(program, &present, &slip, freed);
                assert_eq!(back, Table { last, ..table.clone() });
            }
            both += usize::from(freed > 0 && doubtful > freed);
        }
    }
    both
}

/// What a take-back that is accepted has done, whatever the slip: capacity, last number given and
/// list are as they were, and so are all steps that the slip does not name; no step is taken out;
/// the table is sound, and clearing the named exit gives the table from before the take-back and
/// the slip. Gives the accepted ones, and of these the ones whose slip was not the last thing that
/// changed the table.
pub fn take_backs_retrace(program: Program, seeds: Range<u64>) -> [usize; 2] {
    let [mut accepted, mut later] = [0, 0];
    for seed in seeds {
        let mut last = Vec::new();
        for (present, call, outcome, table) in calls(program, seed) {
            match &call {
                Call::TakeBack { slip } if outcome.refusal == 0 => {
                    accepted += 1;
                    later += usize::from(std::mem::take(&mut last) != *slip);
                    retraces(program, &present, &table, slip);
                    assert_eq!(outcome.numbers[0], (table.size() - present.size()).into());
                }
                Call::ClearWithSlip { .. } if outcome.refusal == 0 => {
                    last = outcome.lent[..slip_length(&outcome)].to_vec();
                }
                _ => last = if table == present { last } else { Vec::new() },
            }
        }
    }
    [accepted, later]
}

/// The calls of a history, each with the table before it, its outcome and the table after it.
fn calls<'a>(
    program: Program<'a>,
    seed: u64,
) -> impl Iterator<Item = (Table, Call, Outcome, Table)> + 'a {
    let (mut table, _) = begin(&start(seed), Fault::None);
    let mut generator = Generator::new(seed);
    let next = move || {
        let before = table.clone();
        let call = generator.call(&table);
        let outcome = program(&mut table, &call);
        (before, call, outcome, table.clone())
    };
    std::iter::repeat_with(next).take(400)
}

/// What a table rebuilt from a slip has to be, given the one that it was put into.
pub fn retraces(program: Program, present: &Table, rebuilt: &Table, slip: &[u8]) {
    assert!(sound(rebuilt));
    assert_eq!(
        (rebuilt.capacity, rebuilt.last, rebuilt.quotas),
        (present.capacity, present.last, present.quotas)
    );
    let named = listed(slip);
    for step in 0..PLACES {
        let same = record(rebuilt, step) == record(present, step);
        assert_eq!(same, !named.contains(&(step as u16)));
        assert!(rebuilt.used[step] >= present.used[step]);
    }
    let [step, exit, _] = fields(slip);
    let (_, counts) = cleared(program, rebuilt, step, exit);
    let again = cleared_with_slip(program, rebuilt, step, exit, &counts);
    assert_eq!(again, (present.clone(), slip.to_vec()));
}

/// The length of the slip that a clearing with this outcome writes.
pub fn slip_length(cleared: &Outcome) -> usize {
    SLIP_HEADER + SLIP_PAIR * (1 + cleared.numbers[0])
}

/// Clears an exit with a slip, which has to give these counts; gives the table and the slip. One
/// byte less is refused, and what is past the slip stays.
fn cleared_with_slip(
    program: Program,
    table: &Table,
    step: u16,
    exit: u16,
    counts: &Outcome,
) -> (Table, Vec<u8>) {
    let length = slip_length(counts);
    let mut short = table.clone();
    let refused = program(&mut short, &Call::ClearWithSlip { step, exit, buffer: length - 1 });
    assert_eq!(
        (refused.refusal, refused.numbers, refused.lent),
        (11, vec![0, 0], vec![UNTOUCHED; length - 1])
    );
    assert_eq!(short, *table);
    let mut cleared = table.clone();
    let made = program(&mut cleared, &Call::ClearWithSlip { step, exit, buffer: length + 9 });
    assert_eq!((made.refusal, &made.numbers), (0, &counts.numbers));
    assert_eq!(made.lent[length..], [UNTOUCHED; 9]);
    (cleared, made.lent[..length].to_vec())
}

/// The table after a take-back, which has to be accepted and bring back so many steps.
fn taken_back(program: Program, table: &Table, slip: &[u8], steps: usize) -> Table {
    let mut table = table.clone();
    let outcome = program(&mut table, &Call::TakeBack { slip: slip.to_vec() });
    assert_eq!((outcome.refusal, outcome.numbers), (0, vec![steps, 0]));
    table
}

/// The strong links that are left when an exit is emptied.
fn emptied(table: &Table, step: u16, exit: u16) -> Successors {
    let mut emptied = table.clone();
    emptied.targets[place(step.into(), exit.into())] = 0;
    emptied.strong_links()
}

/// What every preview of generated tables foretells, of each exit of each step. Gives the previews
/// of clearings that free some of the doubtful steps and take others back, those that free all and
/// those that free none, and those of exits that are empty.
pub fn previews_foretell(program: Program, seeds: Range<u64>) -> [usize; 4] {
    let mut found = [0; 4];
    for (table, ..) in tables(seeds) {
        for step in members(table.in_use()) {
            for exit in 0..EXITS as u16 {
                let told = foretold(program, &table, step as u16, exit, STEPS_ROOM);
                match told.numbers[..] {
                    _ if told.refusal != 0 => found[3] += 1,
                    [doubtful, freed] if freed > 0 => found[usize::from(doubtful == freed)] += 1,
                    _ => found[2] += 1,
                }
            }
        }
    }
    found
}

/// The same of the previews of histories, whatever their step, exit and buffer. Gives the previews
/// that told of steps, and of those the ones after which the same clearing was the next call.
pub fn previews_of_histories(program: Program, seeds: Range<u64>) -> [usize; 2] {
    let [mut told, mut made] = [0, 0];
    for seed in seeds {
        // the exit that the last call told of, and what it said
        let mut last = None;
        for (before, call, outcome, table) in calls(program, seed) {
            match (&call, last.take()) {
                (Call::PreviewClear { step, exit, buffer }, _) => {
                    assert_eq!(outcome, foretold(program, &before, *step, *exit, *buffer));
                    assert_eq!(table, before);
                    let freed = outcome.numbers[1];
                    told += usize::from(freed > 0);
                    last = (freed > 0).then_some(((*step, *exit), outcome));
                }
                (Call::Edit(Command::Clear { step, exit }), Some((place, said)))
                    if place == (*step, *exit) =>
                {
                    assert_eq!(outcome.numbers, said.numbers);
                    assert_eq!(freed_between(&before, &table), said.lent[..said.numbers[1]]);
                    made += 1;
                }
                _ => {}
            }
        }
    }
    [told, made]
}

/// The steps that would go are those of the plan, whatever its strengths: an image with other bits
/// loads as a table of which each preview gives the same bytes and the same freed count. Gives the
/// previews that tell of steps, and those whose doubtful count is another.
pub fn strengths_do_not_matter(begin: Beginner, program: Program, seeds: Range<u64>) -> [usize; 2] {
    let [mut told, mut other] = [0, 0];
    for (table, ..) in tables(seeds) {
        let mut random = Random(table.size().into());
        let image = encode(&random.other_strengths(&table));
        let (turned, outcome) = begin(&Start::Load { image });
        assert_eq!((outcome.refusal, plan_of(&turned)), (0, plan_of(&table)));
        for step in members(table.in_use()) {
            for exit in 0..EXITS as u16 {
                let [first, second] = [&table, &turned]
                    .map(|table| foretold(program, table, step as u16, exit, STEPS_ROOM));
                assert_eq!((first.refusal, &first.lent), (second.refusal, &second.lent));
                assert_eq!(first.numbers[1], second.numbers[1]);
                told += usize::from(first.numbers[1] > 0);
                other += usize::from(first.numbers[0] != second.numbers[0]);
            }
        }
    }
    [told, other]
}

/// What a preview gives, which leaves the table: the refusal of the clearing, made next, or 11
/// where the buffer is short and nothing else is wrong; else its counts, and the numbers of just the
/// steps that it frees, ascending. The bytes past them stay, and all where it is refused.
pub fn foretold(program: Program, table: &Table, step: u16, exit: u16, buffer: usize) -> Outcome {
    let mut given = table.clone();
    let told = program(&mut given, &Call::PreviewClear { step, exit, buffer });
    assert_eq!(given, *table);
    let cleared = program(&mut given, &Call::Edit(Command::Clear { step, exit }));
    let short = cleared.refusal == 0 && buffer < STEPS_ROOM;
    let mut expected = cleared;
    expected.lent = vec![UNTOUCHED; buffer];
    if short {
        (expected.refusal, expected.numbers) = (11, vec![0, 0]);
    } else {
        let freed = freed_between(table, &given);
        expected.lent[..freed.len()].copy_from_slice(&freed);
    }
    assert_eq!(told, expected, "{step} {exit}");
    told
}

/// The numbers of the steps that are in use in one table and not in the other, ascending.
fn freed_between(before: &Table, after: &Table) -> Vec<u8> {
    members(before.in_use() & !after.in_use()).map(|step| step as u8).collect()
}

/// Who can be rung in generated tables: a step is listed exactly if some trial enters it. Squeezed,
/// the table has the same steps under their new numbers; with other strengths it has the same. Gives
/// the steps listed, those of them that need two results or more, those in use that are not listed,
/// and the listed ones that got another number.
pub fn who_can_be_rung(program: Program, seeds: Range<u64>) -> [usize; 4] {
    let mut found = [0; 4];
    for (table, capacity, quotas) in tables(seeds) {
        let mut random = Random(table.size().into());
        let told = rung_by_trials(program, &table, STEPS_ROOM);
        let steps = &told.lent[..told.numbers[0]];
        found[1] += trials_ring(program, &table, steps, &mut random);
        let number = |&step: &u8| renumbered(&table, step.into()) as u8;
        let numbers: Vec<u8> = steps.iter().map(number).collect();
        let new = rung_by_trials(program, &squeezed(program, &table, capacity, quotas), STEPS_ROOM);
        assert_eq!(new.numbers, told.numbers, "squeezed");
        assert_eq!(new.lent[..numbers.len()], numbers, "squeezed");
        let call = Call::Rung { buffer: STEPS_ROOM };
        let other = program(&mut random.other_strengths(&table), &call);
        assert_eq!(other, told, "with other strengths");
        found[0] += steps.len();
        found[2] += usize::from(table.size()) - 1 - steps.len();
        found[3] += numbers.iter().zip(steps).filter(|(new, old)| new != old).count();
    }
    found
}

/// Trials of a table with these steps listed. The fewest results known for a step enter it, and none
/// of those that are tried with one result fewer; whatever a trial enters is listed. Gives the steps
/// that need two results or more.
fn trials_ring(program: Program, table: &Table, listed: &[u8], random: &mut Random) -> usize {
    let plan = plan_of(table);
    let entered = |results: &[u8]| entered(program, table, results, 1000);
    let fewest = fewest_results(table);
    for (step, results) in &fewest {
        assert!(entered(results).contains(step), "{step} is not entered by {results:?}");
        if let Some((_, fewer)) = results.split_last() {
            let (other, _) = random.results(&plan, fewer.len());
            for fewer in [fewer, &results[1..], &other] {
                assert!(!entered(fewer).contains(step), "{step} is entered by {fewer:?}");
            }
        }
    }
    for length in [0, 1, 2, 4, 8, 16, 64] {
        let (results, _) = random.results(&plan, length);
        let steps = entered(&results);
        assert!(steps.iter().all(|step| listed.contains(step)), "not all listed: {steps:?}");
    }
    fewest.values().filter(|results| results.len() > 1).count()
}

/// Calls of histories that tell who can be rung list what trials enter, whatever their buffer. Gives
/// those that list steps, and of these the ones that leave steps in use out.
pub fn rung_in_histories(program: Program, seeds: Range<u64>) -> [usize; 2] {
    let mut found = [0; 2];
    for (before, call, outcome, after) in seeds.flat_map(|seed| calls(program, seed)) {
        if let Call::Rung { buffer } = call {
            assert_eq!((&outcome, &after), (&rung_by_trials(program, &before, buffer), &before));
            let listed = outcome.numbers[0];
            found[0] += usize::from(listed > 0);
            found[1] += usize::from(listed > 0 && listed + 1 < before.size().into());
        }
    }
    found
}

/// Clearing an exit lets nobody be rung who could not be before, and if no trial takes the exit,
/// those who can be rung stay the same. A trial takes an exit of step 0 or of a listed step, and only
/// the answered one unless the step is a contact. Gives the clearings of exits that no trial takes,
/// and the steps that the others leave in use and can no longer be rung.
pub fn clearings_silence(program: Program, seeds: Range<u64>) -> [usize; 2] {
    let rung = |table: &Table| {
        let told = program(&mut table.clone(), &Call::Rung { buffer: STEPS_ROOM });
        told.lent[..told.numbers[0]].to_vec()
    };
    let mut found = [0; 2];
    for (table, ..) in tables(seeds) {
        let before = rung(&table);
        for (step, exit) in table.filled() {
            let (cleared, _) = cleared(program, &table, step, exit);
            let now = rung(&cleared);
            let more = now.iter().find(|step| !before.contains(step));
            assert_eq!(more, None, "rung without exit {exit} of {step}");
            let visited = step == 0 || before.contains(&(step as u8));
            if visited && (exit == 0 || table.kind(step) == CONTACT) {
                let silent = |&&step: &&u8| cleared.has(step.into()) && !now.contains(&step);
                found[1] += before.iter().filter(silent).count();
            } else {
                assert_eq!(now, before, "no trial takes exit {exit} of {step}");
                found[0] += 1;
            }
        }
    }
    found
}

/// What telling who can be rung gives, which leaves the table: 11 where the buffer is short; else
/// how many steps trials enter, how many of these are contacts, and the numbers of just these,
/// ascending. The bytes past them stay, and all where it is refused.
pub fn rung_by_trials(program: Program, table: &Table, buffer: usize) -> Outcome {
    let mut given = table.clone();
    let told = program(&mut given, &Call::Rung { buffer });
    assert_eq!(given, *table);
    let mut expected = Outcome { refusal: 11, numbers: vec![0, 0], lent: vec![UNTOUCHED; buffer] };
    if buffer >= STEPS_ROOM {
        let steps: Vec<u8> = fewest_results(table).into_keys().collect();
        let is_contact = |&&step: &&u8| table.kind(step.into()) == CONTACT;
        let contacts = steps.iter().filter(is_contact).count();
        (expected.refusal, expected.numbers) = (0, vec![steps.len(), contacts]);
        expected.lent[..steps.len()].copy_from_slice(&steps);
    }
    assert_eq!(told, expected, "not what trials enter");
    told
}

/// Who can be rung in small plans of at most three steps: a step is listed exactly if a trial enters
/// it with some list of up to two results, which are enough to come to each, and the fewest results
/// known are as many as the shortest such list has. Gives the plans, the steps that are entered with
/// no result, with one and with two, and the steps in use that are not listed.
pub fn small_plans_rung(
    program: Program,
    trials: Trials,
    plans: impl Iterator<Item = Table>,
) -> [usize; 5] {
    let lists: Vec<Vec<u8>> = (0..3)
        .flat_map(|length| (0..EXITS.pow(length)).map(move |list| (list, length as usize)))
        .map(|(list, length)| digits(list, EXITS).take(length).map(|result| result as u8).collect())
        .collect();
    let mut found = [0; 5];
    for table in plans {
        rung_by_trials(program, &table, STEPS_ROOM);
        let mut shortest = BTreeMap::new();
        for (results, entered) in lists.iter().zip(trials(&table, &lists)) {
            entered.into_iter().for_each(|step| {
                shortest.entry(step).or_insert(results.len());
            });
        }
        let (steps, known): (Vec<u8>, Vec<Vec<u8>>) = fewest_results(&table).into_iter().unzip();
        let fewest = steps.iter().copied().zip(known.iter().map(Vec::len)).collect();
        assert_eq!(shortest, fewest, "other fewest results in {:?}", plan_of(&table));
        let shown = steps.iter().zip(trials(&table, &known));
        shown.for_each(|(step, entered)| assert!(entered.contains(step)));
        found[0] += 1;
        shortest.values().for_each(|results| found[1 + results] += 1);
        found[4] += usize::from(table.size()) - 1 - steps.len();
    }
    found
}

/// The steps that a trial enters with these results, within so many moves.
pub fn entered(program: Program, table: &Table, results: &[u8], limit: u16) -> Vec<u8> {
    let call = Call::Trial { limit, results: results.to_vec(), trace: limit.into() };
    let Outcome { refusal, numbers, mut lent } = program(&mut table.clone(), &call);
    assert_eq!(refusal, 0);
    lent.truncate(numbers[2]);
    lent
}

/// What pairs of clearings came across. Each pair is made in both orders, and counts in one of the
/// first five.
#[derive(Default, Debug)]
pub struct Orders {
    /// Both clearings are accepted in both orders, of exits of two steps or of one.
    pub two_steps: usize,
    pub one_step: usize,
    /// One clearing frees the step of the other, which then gets 3.
    pub holder_freed: usize,
    /// Both are of the same exit, so that the second gets 6.
    pub same_exit: usize,
    /// One of them is refused on the table as it was.
    pub refused: usize,
    /// The tables at the end differ; of these, the ones in which links differ in strength.
    pub other_tables: usize,
    pub other_strengths: usize,
    /// The sums of the doubtful counts differ.
    pub other_doubtful: usize,
}

impl Orders {
    /// All of these came up as often as that.
    pub fn came_up(&self, times: usize) {
        println!("{self:?}");
        let Orders { two_steps, one_step, holder_freed, same_exit, refused, .. } = self;
        let Orders { other_tables, other_strengths, other_doubtful, .. } = self;
        let pairs = [two_steps, one_step, holder_freed, same_exit, refused];
        let ends = [other_tables, other_strengths, other_doubtful];
        assert!(pairs.iter().chain(&ends).all(|&&met| met >= times), "{self:?}");
    }
}

/// Pairs of clearings of generated tables.
pub fn pairs_in_either_order(program: Program, seeds: Range<u64>) -> Orders {
    let mut met = Orders::default();
    tables(seeds).for_each(|(table, ..)| some_pairs(program, &table, &mut met));
    met
}

/// Pairs of clearings of every two filled exits of small tables, with all the strengths that these
/// may have.
pub fn pairs_of_small_tables(program: Program) -> Orders {
    let mut met = Orders::default();
    small_tables().for_each(|table| either_order(program, &table, &table.filled(), &mut met));
    met
}

/// Pairs of clearings of the tables of histories, every so many calls.
pub fn pairs_in_histories(program: Program, seeds: Range<u64>) -> Orders {
    let mut met = Orders::default();
    for (table, ..) in seeds.flat_map(|seed| calls(program, seed).step_by(20)) {
        some_pairs(program, &table, &mut met);
    }
    met
}

/// Pairs of clearings of one table: of exits that are filled, and of some that are empty or not
/// there.
fn some_pairs(program: Program, table: &Table, met: &mut Orders) {
    let (plan, mut random) = (plan_of(table), Random(table.size().into()));
    let exits: Vec<(u16, u16)> = (0..10).map(|_| random.place(&plan, true)).collect();
    either_order(program, table, &exits, met);
}

/// Lists of clearings of generated tables: of a few exits, of more, or of all that are filled, and
/// of one that is empty or not there. Gives what `any_order` gives, added up.
pub fn lists_in_any_order(program: Program, seeds: Range<u64>) -> [usize; 5] {
    let mut met = [0; 5];
    for (table, ..) in tables(seeds) {
        let (mut exits, mut random) = (table.filled(), Random(table.size().into()));
        random.shuffle(&mut exits);
        let (few, more) = (2 + random.below(8), random.below(exits.len() + 1));
        exits.truncate(random.pick(&[few, few, few, more, exits.len()]));
        exits.push(random.place(&plan_of(&table), false));
        let found = any_order(program, &table, &exits, &mut random);
        met = std::array::from_fn(|i| met[i] + found[i]);
    }
    met
}

/// Clears every two of these exits in both orders, which have to agree. The second clearing gets 3
/// if the first freed its step, 6 if the first emptied the same exit, and else what it gets on the
/// table as it was. Two clearings never free each other's step.
pub fn either_order(program: Program, table: &Table, exits: &[(u16, u16)], met: &mut Orders) {
    let start = Cleared::new(table);
    let alone: Vec<(Cleared, u16)> = exits.iter().map(|&exit| start.then(program, exit)).collect();
    for (i, j) in (0..exits.len()).flat_map(|i| (0..=i).map(move |j| (i, j))) {
        let pair = [exits[i], exits[j]];
        let same = pair[0] == pair[1];
        let [one, other] = [(i, j), (j, i)].map(|(first, second)| {
            let (left, step) = (&alone[first].0, exits[second].0);
            let freed = table.has(step) && !left.table.has(step);
            let expected = match alone[second].1 {
                _ if freed => 3,
                0 if same => 6,
                refusal => refusal,
            };
            let (end, refusal) = left.then(program, exits[second]);
            (end, freed, [refusal, expected])
        });
        let [tables, strengths, doubtful] = agree(&one.0, &other.0, &pair);
        for [refusal, expected] in [one.2, other.2] {
            assert_eq!(refusal, expected, "refusal of the second of {pair:?}");
        }
        assert!(!(one.1 && other.1), "each frees the other's step: {pair:?}");
        *match alone[i].1 == 0 && alone[j].1 == 0 {
            false => &mut met.refused,
            _ if same => &mut met.same_exit,
            _ if one.1 || other.1 => &mut met.holder_freed,
            _ if pair[0].0 == pair[1].0 => &mut met.one_step,
            _ => &mut met.two_steps,
        } += 1;
        met.other_tables += tables;
        met.other_strengths += strengths;
        met.other_doubtful += doubtful;
    }
}

/// Makes two lists of clearings, which have to agree: each of these exits is in both, in any order
/// and once or more often. Gives what `agree` gives, and how many clearings got 3 and 6.
pub fn any_order(
    program: Program,
    table: &Table,
    exits: &[(u16, u16)],
    random: &mut Random,
) -> [usize; 5] {
    let [mut freed, mut empty] = [0, 0];
    let [one, other] = [(); 2].map(|()| {
        let again = random.below(exits.len() + 1);
        let mut list = exits.to_vec();
        list.extend((0..again).map(|_| random.pick(exits)));
        random.shuffle(&mut list);
        list.into_iter().fold(Cleared::new(table), |made, exit| {
            let (made, refusal) = made.then(program, exit);
            freed += usize::from(refusal == 3);
            empty += usize::from(refusal == 6);
            made
        })
    });
    let [tables, strengths, doubtful] = agree(&one, &other, exits);
    [tables, strengths, doubtful, freed, empty]
}

/// What clearings of a table have led to: the table after them, and the sums of their counts.
struct Cleared {
    table: Table,
    doubtful: usize,
    freed: usize,
}

impl Cleared {
    fn new(table: &Table) -> Cleared {
        Cleared { table: table.clone(), doubtful: 0, freed: 0 }
    }

    /// Makes one clearing more; gives its refusal too.
    fn then(&self, program: Program, (step, exit): (u16, u16)) -> (Cleared, u16) {
        let (table, outcome) = cleared(program, &self.table, step, exit);
        let doubtful = self.doubtful + outcome.numbers[0];
        let freed = self.freed + outcome.numbers[1];
        (Cleared { table, doubtful, freed }, outcome.refusal)
    }
}

/// Two orders of clearing these exits end in one plain plan and have one sum of freed counts. Gives
/// 1 or 0: whether the tables differ, whether strengths do, and whether the doubtful sums do.
fn agree(one: &Cleared, other: &Cleared, exits: &[(u16, u16)]) -> [usize; 3] {
    assert_eq!(plan_of(&one.table), plan_of(&other.table), "plan after {exits:?}");
    assert_eq!(one.freed, other.freed, "freed by {exits:?}");
    let tables = one.table != other.table;
    let strengths = tables && one.table.strong_exits() != other.table.strong_exits();
    [tables, strengths, one.doubtful != other.doubtful].map(usize::from)
}

/// An image converted to the other edition loads as the same table, and its plan is the one that
/// its records say; converted back, it is the first image, sorted. What an image of edition 1 is
/// converted to is what it is loaded and written as. Gives the images that were not sorted.
pub fn there_and_back(
    convert: Converter,
    begin: Beginner,
    program: Program,
    seeds: Range<u64>,
) -> usize {
    let loaded = |image: &[u8]| {
        let (table, outcome) = begin(&Start::Load { image: image.to_vec() });
        assert_eq!(outcome.refusal, 0);
        table
    };
    let mut unsorted = 0;
    for (table, ..) in tables(seeds) {
        let table = for_old_telephone(&table);
        let mut random = Random(table.size().into());
        let new = random.reordered(&encode(&table));
        let old = random.reordered(&in_edition_1(&new));
        let [raised, lowered] =
            [converted(convert, Way::Up, &old), converted(convert, Way::Down, &new)];
        for image in [&old, &new, &raised, &lowered] {
            assert_eq!(loaded(image), table);
            assert_eq!(Plan::of_image(image), plan_of(&table));
        }
        assert_eq!(converted(convert, Way::Down, &raised), sorted(&old));
        assert_eq!(converted(convert, Way::Up, &lowered), sorted(&new));
        let written = program(&mut loaded(&old), &Call::Write { buffer: raised.len() });
        assert_eq!(written.lent, raised);
        unsorted += [&old, &new].into_iter().filter(|image| sorted(image) != **image).count();
    }
    unsorted
}

/// What an image is converted to, which has to be accepted.
fn converted(convert: Converter, way: Way, image: &[u8]) -> Vec<u8> {
    let buffer = HEADER + RECORD * PLACES;
    let outcome = convert(&Conversion { way, image: image.to_vec(), buffer });
    assert_eq!(outcome.refusal, 0);
    outcome.lent[..outcome.numbers[0]].to_vec()
}

/// Adds a contact for a cabin at the first empty exit; gives the refusal.
fn add(program: Program, table: &mut Table, cabin: usize) -> u16 {
    let free = |place: &usize| table.used[place / EXITS] == 1 && table.targets[*place] == 0;
    let place = (0..PLACES * EXITS).find(free).expect("an empty exit");
    let command = Command::Add {
        holder: (place / EXITS) as u16,
        exit: (place % EXITS) as u16,
        kind: CONTACT,
        content: 0,
        cabin: cabin as u16,
    };
    program(table, &Call::Edit(command)).refusal
}

/// A copy of a table with a clearing made, and what it gave.
fn cleared(program: Program, table: &Table, step: u16, exit: u16) -> (Table, Outcome) {
    let mut table = table.clone();
    let outcome = program(&mut table, &Call::Edit(Command::Clear { step, exit }));
    (table, outcome)
}

/// Generated tables, each with a capacity that it fits, no place more than it needs, or some, and
/// with a list.
fn tables(seeds: Range<u64>) -> impl Iterator<Item = (Table, u16, Quotas)> {
    seeds.map(|seed| {
        let mut random = Random(seed);
        let table = random.sound_table();
        let more = random.below(PLACES + 1 - usize::from(table.size()));
        let capacity = table.size() + random.pick(&[0, more]) as u16;
        let quotas = random.fitting_list(capacity, &table.charges());
        (table, capacity, quotas)
    })
}

/// The number that a squeeze gives a step: so many steps in use are lower.
fn renumbered(table: &Table, step: usize) -> usize {
    table.used[..step].iter().filter(|&&used| used == 1).count()
}

/// A table after a squeeze, which has to be accepted.
fn squeezed(program: Program, table: &Table, capacity: u16, quotas: Quotas) -> Table {
    let mut table = table.clone();
    let outcome = program(&mut table, &Call::Squeeze { capacity, quotas });
    assert_eq!((outcome.refusal, outcome.numbers), (0, vec![0, 0]));
    table
}

fn read(program: Program, table: &Table, step: usize) -> Outcome {
    program(&mut table.clone(), &Call::Read { step: step as u16 })
}
