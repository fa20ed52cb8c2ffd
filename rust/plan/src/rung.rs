//! Which steps some trial enters, and with how few line results. The library says which; the line results are found here, and a trial of the library has
//! to enter the step with them.

use crate::change::agreed;
use crate::view::{Held, View};
use crate::words::{answered_alone, refused, NEVER_ENTERED};
use std::collections::{BTreeMap, BTreeSet, VecDeque};
use telephone::{Ending, Exit, Table, Trial, PLACES, STEPS_ROOM};

/// A table, and what stands in it.
pub type Viewed<'a> = (&'a Table, &'a View);

/// A phone book number, and a step that rings it.
pub type Contact = (u16, u16);

/// For each step that some trial enters, as few line results as any with which one does.
pub type Fewest = BTreeMap<u16, Vec<Exit>>;

/// The steps that some trial enters.
#[derive(Clone, PartialEq, Eq, Debug)]
pub struct Rung {
    entered: BTreeSet<u16>,
    contacts: BTreeSet<Contact>,
}

impl Rung {
    /// What the library lists, where the two numbers of its answer are those of the list; else what differs.
    pub fn of(table: &Table, view: &View) -> Result<Rung, String> {
        let mut steps = [0; STEPS_ROOM];
        let answer = table.rung(&mut steps).map_err(refused)?;
        let listed = steps.iter().take(answer.steps.into()).map(|&step| u16::from(step));
        let entered: BTreeSet<u16> = listed.collect();
        let contact = |&step: &u16| Some((view.contact(step)?, step));
        let contacts: BTreeSet<Contact> = entered.iter().filter_map(contact).collect();
        let shown = (entered.len(), contacts.len());
        agreed(Rung { entered, contacts }, shown, (answer.steps, answer.contacts))
    }

    /// The steps, ascending.
    pub fn entered(&self) -> &BTreeSet<u16> {
        &self.entered
    }

    /// The contacts among them, by phone book number and step.
    pub fn contacts(&self) -> &BTreeSet<Contact> {
        &self.contacts
    }

    /// Whether some trial rings a phone book number.
    pub fn rings(&self, entry: u16) -> bool {
        self.contacts.range((entry, 0)..=(entry, u16::MAX)).next().is_some()
    }

    /// Whether no trial enters a step. Every trial starts at step 0.
    pub fn never_enters(&self, step: u16) -> bool {
        step != 0 && !self.entered.contains(&step)
    }

    /// Why no trial takes the exit of a link; nothing where one does.
    pub fn never_taken(&self, view: &View, held: &Held) -> Option<String> {
        if !goes_on(view, held) {
            return Some(answered_alone(view, held.step));
        }
        let step = held.step;
        self.never_enters(step).then(|| format!("step {step} is {NEVER_ENTERED} itself"))
    }

    /// The contacts that some trial rings here and none does there.
    pub fn silent_in(&self, there: &Rung) -> Vec<Contact> {
        self.contacts.iter().copied().filter(|&(entry, _)| !there.rings(entry)).collect()
    }

    /// The fewest line results for each step, where the steps are those that the library lists and its trials enter them; else what differs.
    pub fn fewest(&self, table: &Table, view: &View) -> Result<Fewest, String> {
        let found = search(view);
        if !found.keys().eq(&self.entered) {
            return Err("other steps were found than those that some trial enters".to_string());
        }
        for (&step, results) in &found {
            if !tried(table, results)?.1.iter().any(|&entered| u16::from(entered) == step) {
                return Err(format!("the line results found for step {step} do not enter it"));
            }
        }
        Ok(found)
    }
}

/// The contacts that some trial rings in one table and none in another.
pub fn silent(here: Viewed, there: Viewed) -> Result<Vec<Contact>, String> {
    Ok(Rung::of(here.0, here.1)?.silent_in(&Rung::of(there.0, there.1)?))
}

/// The step that rings first: where a trial with no line result is spent.
pub fn first(table: &Table) -> Result<Option<u16>, String> {
    let (trial, _) = tried(table, &[])?;
    Ok((trial.ending == Ending::Spent).then_some(trial.last))
}

/// A trial, and the steps that it enters. It may make as many moves as there are places: a way that enters no step twice has fewer.
fn tried(table: &Table, results: &[Exit]) -> Result<(Trial, Vec<u8>), String> {
    let results: Vec<u8> = results.iter().map(|&exit| exit as u8).collect();
    let mut trace = vec![0; PLACES];
    let trial = table.trial(PLACES as u16, &results, &mut trace).map_err(refused)?;
    trace.truncate(trial.moves.into());
    Ok((trial, trace))
}

/// Whether a trial that is at the step of a link can go on by it: a contact goes on by any exit, every other step by answered alone.
fn goes_on(view: &View, held: &Held) -> bool {
    view.contact(held.step).is_some() || held.exit == Exit::Answered
}

/// The steps that can be come to from step 0, each with the fewest line results. A contact uses up one to go on, every other step none.
fn search(view: &View) -> Fewest {
    let mut found = Fewest::new();
    let mut waiting = VecDeque::from([(0, Vec::new())]);
    // each time round: those that wait are in the order of their line results, and the last has at most one more than the first
    while let Some((step, results)) = waiting.pop_front() {
        if found.contains_key(&step) {
            continue;
        }
        for held in view.links_from(step).filter(|held| goes_on(view, held)) {
            let target = held.link.target;
            match view.contact(step) {
                Some(_) => waiting.push_back((target, [&results[..], &[held.exit]].concat())),
                None => waiting.push_front((target, results.clone())),
            }
        }
        found.insert(step, results);
    }
    found.remove(&0);
    found
}
