//! Words for numbers, steps, exits, links and refusals.

use crate::view::{Held, View};
use telephone::{Kind, Refusal};

/// Of a step that no trial enters, and of an exit that none takes.
pub const NEVER_ENTERED: &str = "never entered";
pub const NEVER_TAKEN: &str = "never taken";

/// A refusal with its number.
pub fn refused(refusal: Refusal) -> String {
    format!("refused by {}: {refusal}", refusal.number())
}

/// So many things, as `1 step`, `2 steps` or `no step`.
pub fn count(number: usize, thing: &str) -> String {
    match number {
        0 => format!("no {thing}"),
        1 => format!("1 {thing}"),
        _ => format!("{number} {thing}s"),
    }
}

/// Words in a row, as `a, b and c`.
pub fn row(words: &[String]) -> String {
    match words {
        [] => String::new(),
        [word] => word.clone(),
        [first @ .., last] => format!("{} and {last}", first.join(", ")),
    }
}

/// Numbers that ascend, as `1, 3 to 5 and 9`.
pub fn numbers(given: &[u16]) -> String {
    // the runs of numbers that follow each other, by their first and last
    let mut runs: Vec<(u16, u16)> = Vec::new();
    for &number in given {
        match runs.last_mut() {
            Some((_, last)) if last.checked_add(1) == Some(number) => *last = number,
            _ => runs.push((number, number)),
        }
    }
    let words = |&(first, last): &(u16, u16)| match last - first {
        0 => vec![first.to_string()],
        1 => vec![first.to_string(), last.to_string()],
        _ => vec![format!("{first} to {last}")],
    };
    row(&runs.iter().flat_map(words).collect::<Vec<_>>())
}

/// Things by their numbers, as `step 4` or `steps 1 to 3`.
pub fn listed(thing: &str, given: &[u16]) -> String {
    format!("{thing}{} {}", if given.len() == 1 { "" } else { "s" }, numbers(given))
}

/// Steps by their numbers.
pub fn steps(given: &[u16]) -> String {
    listed("step", given)
}

/// A step by its number, kind and content, as `step 1 (contact 0, the primary)`.
pub fn named(view: &View, number: u16) -> String {
    match view.steps.get(&number) {
        Some(step) => format!("step {number} ({})", step.kind),
        None => format!("step {number}"),
    }
}

/// A contact by its phone book number, as `contact 0 (the primary)`.
pub fn contact(entry: u16) -> String {
    match entry {
        0 => "contact 0 (the primary)".to_string(),
        _ => Kind::Contact(entry).to_string(),
    }
}

/// How a step that is no contact goes on.
pub fn answered_alone(view: &View, number: u16) -> String {
    let kind = match view.steps.get(&number).map(|step| step.kind) {
        Some(Kind::Alarm) => "the alarm",
        Some(Kind::Message(_)) => "a message",
        _ => "a wait",
    };
    format!("{kind} goes on by answered alone")
}

/// The cabin of a step, as ` for cabin 3`, where it is not 0.
pub fn for_cabin(view: &View, number: u16) -> String {
    match view.steps.get(&number) {
        Some(step) if step.cabin != 0 => format!(" for cabin {}", step.cabin),
        _ => String::new(),
    }
}

/// An exit by its number and its step.
pub fn place(held: &Held) -> String {
    format!("exit {} of step {}", held.exit.number(), held.step)
}

pub fn strength(held: &Held) -> &'static str {
    if held.strong {
        "strong"
    } else {
        "weak"
    }
}
