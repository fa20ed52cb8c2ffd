//! What clearing each exit would do: who would fall silent, and which steps would go.

use crate::change::foretold;
use crate::rung::Rung;
use crate::view::{Held, View};
use std::cmp::Reverse;
use std::collections::BTreeSet;
use telephone::Table;

/// What clearing an exit would do.
#[derive(Clone, PartialEq, Eq, Debug)]
pub struct Risk {
    /// The link that the exit holds.
    pub link: Held,
    /// The phone book numbers that some trial rings and none would, ascending. So the primary, which is 0, comes first.
    pub silent: Vec<u16>,
    /// The steps that would go.
    pub freed: Vec<u16>,
}

impl Risk {
    /// Whether nobody would fall silent, and no step would go.
    pub fn is_harmless(&self) -> bool {
        self.silent.is_empty() && self.freed.is_empty()
    }

    fn silences_primary(&self) -> bool {
        self.silent.first() == Some(&0)
    }
}

/// Every exit that holds a link, the worst first: those that silence the primary, then by how many contacts would fall silent, how many steps would go,
/// step and exit. Each clearing is made on a copy.
pub fn risks(table: &Table, view: &View) -> Result<Vec<Risk>, String> {
    let rung = Rung::of(table, view)?;
    let risk = |link: Held| {
        let (after, seen, clearing) = foretold(table, view, link.step, link.exit.number())?;
        let silent = rung.silent_in(&Rung::of(&after, &seen)?);
        let entries: BTreeSet<u16> = silent.into_iter().map(|(entry, _)| entry).collect();
        Ok(Risk { link, silent: entries.into_iter().collect(), freed: clearing.freed })
    };
    let mut risks = view.links().map(risk).collect::<Result<Vec<Risk>, String>>()?;
    // links come by step and exit, and a sort keeps the order of equals
    risks.sort_by_key(|risk| {
        Reverse((risk.silences_primary(), risk.silent.len(), risk.freed.len()))
    });
    Ok(risks)
}
