//! How two tables differ.

use crate::view::{Held, View};
use crate::words::{for_cabin, named, strength};
use std::cmp::Reverse;
use std::collections::BTreeSet;
use std::fmt::Display;
use telephone::{Exit, Step};

/// Two tables held against each other; the wider the difference, the later.
#[derive(Clone, Copy, PartialEq, Eq, PartialOrd, Ord, Debug)]
pub enum Verdict {
    /// One table.
    Same,
    /// One plan with the same strengths, in other bits.
    OtherBits,
    /// One plan, and other strengths.
    OtherStrengths,
    /// Two plans.
    OtherPlans,
}

impl Verdict {
    pub fn words(self) -> &'static str {
        match self {
            Verdict::Same => "one table",
            Verdict::OtherBits => "one plan with the same strengths; the bits differ",
            Verdict::OtherStrengths => "one plan; the strengths differ",
            Verdict::OtherPlans => "the plans differ",
        }
    }
}

/// The verdict, and a line for each difference, step by step: first those of the plans, then those of strengths, last those of bits. Strengths and bits
/// are compared of links that both tables have.
pub fn diff(a: &View, b: &View) -> (Verdict, Vec<String>) {
    let mut found = Found::default();
    found.unless_same(Verdict::OtherPlans, "capacity", a.capacity, b.capacity);
    found.unless_same(Verdict::OtherPlans, "last number given", a.last, b.last);
    for (cabin, (left, right)) in a.quotas.iter().zip(&b.quotas).enumerate() {
        let what = |which: &str| format!("{which} of cabin {cabin}");
        found.unless_same(Verdict::OtherPlans, &what("guarantee"), left.guarantee, right.guarantee);
        found.unless_same(Verdict::OtherPlans, &what("limit"), left.limit, right.limit);
    }
    let numbers: BTreeSet<u16> = a.steps.keys().chain(b.steps.keys()).copied().collect();
    for number in numbers {
        match (a.steps.get(&number), b.steps.get(&number)) {
            (Some(left), Some(right)) => found.steps((a, b), number, (left, right)),
            (Some(_), None) => found.only(a, number, "A"),
            (None, _) => found.only(b, number, "B"),
        }
    }
    let Found { mut lines } = found;
    lines.sort_by_key(|(verdict, _)| Reverse(*verdict));
    let verdict = lines.first().map_or(Verdict::Same, |(verdict, _)| *verdict);
    (verdict, lines.into_iter().map(|(_, line)| line).collect())
}

/// The differences found, each with what follows from it alone.
#[derive(Default)]
struct Found {
    lines: Vec<(Verdict, String)>,
}

impl Found {
    fn add(&mut self, verdict: Verdict, line: String) {
        self.lines.push((verdict, line));
    }

    fn unless_same<T: PartialEq + Display>(&mut self, verdict: Verdict, what: &str, a: T, b: T) {
        if a != b {
            self.add(verdict, format!("{what}: {a} in A, {b} in B"));
        }
    }

    /// A step that one table has alone, with its links.
    fn only(&mut self, view: &View, number: u16, name: &str) {
        let step = named(view, number) + &for_cabin(view, number);
        self.add(Verdict::OtherPlans, format!("{step} is in use in {name} alone"));
        for held in view.links_from(number) {
            let words = exit_words(Some(held));
            self.add(Verdict::OtherPlans, format!("    exit {}: {words}", held.exit.number()));
        }
    }

    /// A step that both have.
    fn steps(&mut self, (a, b): (&View, &View), number: u16, (left, right): (&Step, &Step)) {
        let step = format!("step {number}");
        self.unless_same(Verdict::OtherPlans, &step, left.kind, right.kind);
        self.unless_same(Verdict::OtherPlans, &format!("{step}, cabin"), left.cabin, right.cabin);
        self.unless_same(Verdict::OtherBits, &format!("{step}, own bit"), left.own, right.own);
        for exit in Exit::ALL {
            let (in_a, in_b) = (a.link(number, exit), b.link(number, exit));
            let verdict = verdict_of(in_a, in_b);
            if verdict != Verdict::Same {
                let what = format!("exit {} of {step}", exit.number());
                let (in_a, in_b) = match verdict {
                    Verdict::OtherBits => (bit_words(in_a), bit_words(in_b)),
                    _ => (exit_words(in_a), exit_words(in_b)),
                };
                self.add(verdict, format!("{what}: {in_a} in A, {in_b} in B"));
            }
        }
    }
}

fn verdict_of(a: Option<Held>, b: Option<Held>) -> Verdict {
    match (a, b) {
        (None, None) => Verdict::Same,
        (Some(a), Some(b)) if a.link.target == b.link.target => {
            match (a.strong == b.strong, a == b) {
                (false, _) => Verdict::OtherStrengths,
                (true, false) => Verdict::OtherBits,
                (true, true) => Verdict::Same,
            }
        }
        _ => Verdict::OtherPlans,
    }
}

fn exit_words(held: Option<Held>) -> String {
    match held {
        Some(held) => format!("{} link to step {}", strength(&held), held.link.target),
        None => "empty".to_string(),
    }
}

fn bit_words(held: Option<Held>) -> String {
    held.map_or(String::new(), |held| format!("link bit {}", held.link.bit))
}
