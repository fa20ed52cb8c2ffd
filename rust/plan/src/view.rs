//! What stands in a table: its steps and links, and the strong chains that hold its steps.

use std::collections::{BTreeMap, VecDeque};
use telephone::{Exit, Kind, Link, Quotas, Step, Table};

/// A link where it stands.
#[derive(Clone, Copy, PartialEq, Eq, Debug)]
pub struct Held {
    /// The step out of which it leads.
    pub step: u16,
    /// The exit that holds it.
    pub exit: Exit,
    /// Its target and its bit.
    pub link: Link,
    /// Whether it is strong.
    pub strong: bool,
}

/// The numbers of a table, its guarantees and limits, and its steps in use, by their numbers.
#[derive(Clone, PartialEq, Eq, Debug)]
pub struct View {
    pub capacity: u16,
    pub last: u16,
    pub quotas: Quotas,
    pub steps: BTreeMap<u16, Step>,
}

impl View {
    /// What stands in a table, read step by step.
    pub fn of(table: &Table) -> View {
        let (capacity, last) = (table.as_raw().capacity, table.as_raw().last);
        let steps = (0..capacity).filter_map(|number| Some((number, table.read(number).ok()?)));
        View { capacity, last, quotas: table.quotas(), steps: steps.collect() }
    }

    /// The number of free steps.
    pub fn free(&self) -> usize {
        usize::from(self.capacity).saturating_sub(self.steps.len())
    }

    /// The steps that are charged to a cabin. Step 0 is charged to none.
    pub fn charged(&self, cabin: usize) -> impl Iterator<Item = u16> + '_ {
        let steps = self.steps.iter().filter(move |(_, step)| usize::from(step.cabin) == cabin);
        steps.map(|(&number, _)| number).filter(|&number| number != 0)
    }

    /// The number of steps that a cabin lacks of its guarantee.
    pub fn owed(&self, cabin: usize) -> usize {
        usize::from(self.quotas[cabin].guarantee).saturating_sub(self.charged(cabin).count())
    }

    /// The phone book number that a step rings, where it is a contact.
    pub fn contact(&self, step: u16) -> Option<u16> {
        match self.steps.get(&step)?.kind {
            Kind::Contact(entry) => Some(entry),
            _ => None,
        }
    }

    /// What an exit of a step holds, where the step is in use and the exit is not empty.
    pub fn link(&self, step: u16, exit: Exit) -> Option<Held> {
        let link = self.steps.get(&step)?.exit(exit)?;
        let strong = self.steps.get(&link.target).is_some_and(|target| link.is_strong(target));
        Some(Held { step, exit, link, strong })
    }

    /// All links out of a step, by exit.
    pub fn links_from(&self, step: u16) -> impl Iterator<Item = Held> + '_ {
        Exit::ALL.into_iter().filter_map(move |exit| self.link(step, exit))
    }

    /// All links, by step and exit.
    pub fn links(&self) -> impl Iterator<Item = Held> + '_ {
        self.steps.keys().flat_map(|&step| self.links_from(step))
    }

    /// All links to a step, by the step that holds each and its exit.
    pub fn links_to(&self, target: u16) -> impl Iterator<Item = Held> + '_ {
        self.links().filter(move |held| held.link.target == target)
    }

    /// The strong links to a step: those that hold it.
    pub fn holders(&self, step: u16) -> Vec<Held> {
        self.links_to(step).filter(|held| held.strong).collect()
    }

    /// A strong chain from one step to another with as few links as any; nothing where there is none.
    pub fn strong_chain(&self, from: u16, to: u16) -> Option<Vec<Held>> {
        // the strong link by which each step was first come to
        let mut entered = BTreeMap::new();
        let mut waiting = VecDeque::from([from]);
        while let Some(step) = waiting.pop_front() {
            if step == to {
                return Some(back(&entered, from, to));
            }
            for held in self.links_from(step).filter(|held| held.strong) {
                let target = held.link.target;
                if target != from && !entered.contains_key(&target) {
                    entered.insert(target, held);
                    waiting.push_back(target);
                }
            }
        }
        None
    }
}

/// The row of links by which a step was come to.
fn back(entered: &BTreeMap<u16, Held>, from: u16, to: u16) -> Vec<Held> {
    let mut row = Vec::new();
    let mut at = to;
    while at != from {
        let Some(held) = entered.get(&at) else { break };
        row.push(*held);
        at = held.step;
    }
    row.reverse();
    row
}
