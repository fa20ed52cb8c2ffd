//! What an accepted call did to a table, read off the table before and the table after.

use crate::view::{Held, View};
use crate::words::refused;
use telephone::{raw, Refusal, Table, STEPS_ROOM};

/// What changed.
#[derive(Clone, PartialEq, Eq, Debug)]
pub enum Change {
    /// A new step and the link to it.
    Added(Held),
    /// A link in an exit that was empty.
    Linked(Held),
    /// An exit emptied, with what followed.
    Cleared(Clearing),
    /// Nothing.
    Nothing,
}

/// What a clearing did.
#[derive(Clone, PartialEq, Eq, Debug)]
pub struct Clearing {
    /// The link that the exit held.
    pub link: Held,
    /// The doubtful steps that stayed: those whose own bit was flipped.
    pub stayed: Vec<u16>,
    /// The steps that went.
    pub freed: Vec<u16>,
}

impl Clearing {
    /// All steps that became doubtful, ascending: those that stayed and those that went.
    pub fn doubtful(&self) -> Vec<u16> {
        let mut steps = [&self.stayed[..], &self.freed].concat();
        steps.sort_unstable();
        steps
    }
}

/// A call on a table with any numbers: the table after it and its two numbers, or its refusal.
pub fn call(
    table: &Table,
    call: impl FnOnce(&mut raw::Table) -> raw::Reply,
) -> Result<(Table, (u16, u16)), Refusal> {
    let mut after = table.clone().into_raw();
    let reply = call(&mut after);
    Refusal::check(reply.refusal)?;
    Ok((Table::from_raw(after)?, (reply.first, reply.second)))
}

/// What clearing an exit does, made on a copy: the table after it, what stands in it, and what changed; where its preview tells the same.
pub fn foretold(
    table: &Table,
    view: &View,
    step: u16,
    exit: u16,
) -> Result<(Table, View, Clearing), String> {
    let mut steps = [0; STEPS_ROOM];
    let told = call(table, |table| raw::preview_clear(table, step, exit, &mut steps));
    let (same, answer) = told.map_err(refused)?;
    let (after, made) = call(table, |table| raw::clear(table, step, exit)).map_err(refused)?;
    let seen = View::of(&after);
    let clearing = cleared(view, &seen, made)?;
    let freed = steps.iter().take(answer.1.into()).map(|&step| u16::from(step));
    if same != *table || made != answer || !freed.eq(clearing.freed.iter().copied()) {
        return Err("the clearing does not do what its preview tells".to_string());
    }
    Ok((after, seen, clearing))
}

/// What an add, a link, a clearing or a call that changes nothing did.
pub fn change(before: &View, after: &View) -> Change {
    if let Some(held) = filled(before, after) {
        let new = !before.steps.contains_key(&held.link.target);
        return if new { Change::Added(held) } else { Change::Linked(held) };
    }
    match filled(after, before) {
        Some(link) => Change::Cleared(Clearing {
            link,
            stayed: flipped(before, after),
            freed: gone(before, after),
        }),
        None => Change::Nothing,
    }
}

/// The same, where the two numbers of the call's answer are those that the tables show; else what differs.
pub fn checked(before: &View, after: &View, answer: (u16, u16)) -> Result<Change, String> {
    let change = change(before, after);
    let shown = match &change {
        Change::Added(held) => (held.link.target.into(), 0),
        Change::Linked(_) => (0, 0),
        Change::Cleared(clearing) => (clearing.doubtful().len(), clearing.freed.len()),
        Change::Nothing => (after.steps.len(), after.free()),
    };
    agreed(change, shown, answer)
}

/// What a clearing did, where the two numbers of its answer are those that the tables show; else what differs.
pub fn cleared(before: &View, after: &View, answer: (u16, u16)) -> Result<Clearing, String> {
    match checked(before, after, answer)? {
        Change::Cleared(clearing) => Ok(clearing),
        _ => Err("no exit was cleared".to_string()),
    }
}

/// The clearing that a take-back took back, where the two numbers of its answer are those that the tables show; else what differs.
pub fn taken_back(before: &View, after: &View, answer: (u16, u16)) -> Result<Clearing, String> {
    match change(after, before) {
        Change::Cleared(clearing) => {
            let shown = (clearing.freed.len(), 0);
            agreed(clearing, shown, answer)
        }
        _ => Err("no clearing was taken back".to_string()),
    }
}

/// What the tables show, where its two numbers are those of the call's answer.
pub fn agreed<T>(seen: T, shown: (usize, usize), answer: (u16, u16)) -> Result<T, String> {
    if shown == (answer.0.into(), answer.1.into()) {
        return Ok(seen);
    }
    Err(format!("the tables show the numbers {shown:?}, and the call answered {answer:?}"))
}

/// The first link in the second view that stands in an exit which is empty in the first, of a step that both have.
fn filled(without: &View, with: &View) -> Option<Held> {
    with.links().find(|held| {
        let step = without.steps.get(&held.step);
        step.is_some_and(|step| step.exit(held.exit).is_none())
    })
}

/// The steps of both views whose own bits differ.
fn flipped(before: &View, after: &View) -> Vec<u16> {
    let other = |number: &u16, own: u16| after.steps.get(number).is_some_and(|s| s.own != own);
    before.steps.iter().filter(|(n, step)| other(n, step.own)).map(|(&n, _)| n).collect()
}

/// The steps that the second view does not have.
fn gone(before: &View, after: &View) -> Vec<u16> {
    before.steps.keys().copied().filter(|number| !after.steps.contains_key(number)).collect()
}
