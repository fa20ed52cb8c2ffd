//! Who can be rung: the steps that some trial enters. A step in use need not be one: of the alarm, a
//! message and a wait a trial takes the answered exit alone. Each step is asked by itself: the steps
//! that a trial can come from are marked backward, and it is entered if step 0 is among them. The
//! fewest line results that enter a step are found by making trials, with none and then with more.
//! Renders the question of the caretaker in the demands, by W3's rule of a trial in document 02.

use std::collections::{BTreeMap, VecDeque};

use crate::calls::{bare, next_step, steps_entered, Answer};
use crate::faults::Fault;
use crate::sound::{sound, ALARM, CONTACT, MESSAGE, WAIT};
use crate::steps::{list_steps, STEPS_ROOM};
use crate::table::{after, mark, members, Set, Successors, Table, EXITS, PLACES};

/// Writes the numbers of the steps that some trial enters into a lent buffer; answers how many these
/// are, and how many of them are contacts.
pub fn rung(table: &Table, buffer: &mut [u8]) -> Answer {
    rung_with(table, buffer, Fault::None)
}

/// Tells who can be rung, with a fault or without.
pub fn rung_with(table: &Table, buffer: &mut [u8], fault: Fault) -> Answer {
    if !sound(table) {
        let short = fault == Fault::StepsRoomFirst && buffer.len() < STEPS_ROOM;
        return bare(if short { 11 } else { 1 });
    }
    let steps = entered(table, fault);
    let refusal = list_steps(table, steps, buffer, fault);
    if refusal != 0 {
        return bare(refusal);
    }
    let [first, contacts] = [steps, steps & contacts(table)].map(|set| set.count_ones() as u16);
    let second = match fault {
        Fault::StepsSaidContacts => first,
        Fault::NoContactSaid => 0,
        Fault::OneContactSaidMore => contacts + 1,
        _ => contacts,
    };
    Answer { refusal: 0, first, second }
}

/// The contacts of a table.
fn contacts(table: &Table) -> Set {
    set(members(table.in_use()).filter(|&step| table.kinds[step] == CONTACT))
}

/// The steps that some trial enters, with a fault or without.
fn entered(table: &Table, fault: Fault) -> Set {
    let sources = sources(table, fault);
    let steps = set((1..PLACES).filter(|&step| {
        let before = mark(sources[step], &sources);
        before & 1 == 1 && (fault != Fault::RingsLeftOut || before >> step & 1 == 0)
    }));
    let tried =
        |results: &[u8]| set(steps_entered(table, results).take(STEPS_ROOM).map(usize::from));
    match fault {
        Fault::AlarmListed => steps | 1,
        Fault::ContactsAlone => steps & contacts(table),
        Fault::HeldListed => steps | after(steps | 1, &table.links()),
        Fault::FirstRungAlone => tried(&[]),
        Fault::SameResultsAlone => {
            (0..EXITS as u8).fold(0, |steps, result| steps | tried(&[result; STEPS_ROOM]))
        }
        _ => steps,
    }
}

/// For each step, those from which a trial can go on to it by one move, with a fault or without.
fn sources(table: &Table, fault: Fault) -> Successors {
    let results = if fault == Fault::AnsweredAlone { 0..1 } else { 0..EXITS as u8 };
    let mut sources = [0; PLACES];
    for step in members(table.in_use()) {
        let number = step as u16;
        let never_taken = match (fault, table.kinds[step]) {
            (Fault::EngagedTaken, MESSAGE | WAIT) => 1..2,
            (Fault::AlarmExitsTaken, ALARM) | (Fault::EveryExitTaken, _) => 0..EXITS as u16,
            _ => 0..0,
        };
        let wrong = never_taken.map(|exit| table.target(number, exit)).filter(|&next| next != 0);
        let right = results.clone().filter_map(|result| next_step(table, number, result));
        right.chain(wrong).for_each(|next| sources[usize::from(next)] |= 1 << step);
    }
    sources
}

/// For each step that some trial enters, line results with which one does, as few as there are. A
/// trial is made with no result; then, for each contact that no trial entered before, with each
/// result that it can have behind the results that led to it. Before such a trial enters a step for
/// the first time it enters no step twice, so that it needs no more moves than there are steps.
pub fn fewest_results(table: &Table) -> BTreeMap<u8, Vec<u8>> {
    let mut found = BTreeMap::new();
    let mut waiting = VecDeque::from([Vec::new()]);
    while let Some(results) = waiting.pop_front() {
        for step in steps_entered(table, &results).take(STEPS_ROOM) {
            if found.contains_key(&(step as u8)) {
                continue;
            }
            found.insert(step as u8, results.clone());
            if table.kind(step) == CONTACT {
                let longer = |result| [&results[..], &[result]].concat();
                waiting.extend((0..EXITS as u8).map(longer));
            }
        }
    }
    found
}

/// The set of these steps.
fn set(steps: impl Iterator<Item = usize>) -> Set {
    steps.fold(0, |set, step| set | 1 << step)
}
