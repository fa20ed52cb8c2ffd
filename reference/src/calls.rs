//! The calls on a table but squeezes, images and key lines; refusals are ordered lists of
//! conditions. Edits and trials take a `Fault`, so that wrong variants can be run against the right
//! one. Renders "Calls" and "Reasons for no" of document 01, W3's trial, and W5's cabins.

use std::iter::successors;

use crate::cabins::{charge_order, list_order, one_cabin};
use crate::clearing;
use crate::faults::Fault;
use crate::sound::{fits, sound, CONTACT, HIGHEST_CONTACT, OLD_HIGHEST_CONTACT, WAIT};
use crate::table::{place, Quotas, Table, CABINS, EXITS};

/// An answer: the refusal or 0, then two numbers.
#[derive(Clone, Copy, PartialEq, Eq, Debug, Default)]
pub struct Answer {
    pub refusal: u16,
    pub first: u16,
    pub second: u16,
}

/// The answer to a read: the refusal or 0, then all fields of the step.
#[derive(Clone, PartialEq, Eq, Debug, Default)]
pub struct ReadAnswer {
    pub refusal: u16,
    pub kind: u16,
    pub content: u16,
    pub own: u16,
    pub targets: [u16; 4],
    pub bits: [u16; 4],
    pub counts: [u16; 2],
    pub cabin: u16,
}

/// How a trial ends: at an empty exit, at a contact with no result left, or at the limit of moves.
#[derive(Clone, Copy, PartialEq, Eq, Debug, Default)]
pub enum Ending {
    #[default]
    Open = 0,
    Spent = 1,
    Stopped = 2,
}

/// The answer to a trial.
#[derive(Clone, PartialEq, Eq, Debug, Default)]
pub struct TrialAnswer {
    pub refusal: u16,
    pub ending: Ending,
    pub last: u16,
    pub moves: u16,
}

/// What a key line can ask for. Each is a call of its own too. In a key line, the cabin is 0.
#[derive(Clone, Copy, PartialEq, Eq, Debug)]
pub enum Command {
    Add { holder: u16, exit: u16, kind: u16, content: u16, cabin: u16 },
    Link { source: u16, source_exit: u16, second: u16, second_exit: u16 },
    Clear { step: u16, exit: u16 },
    Count,
}

/// A fresh table with this list; of capacity 1, for cabin 0, where it is refused.
pub fn fresh(capacity: u16, quotas: Quotas) -> (Table, Answer) {
    fresh_with(capacity, quotas, Fault::None)
}

/// Makes a fresh table, with a fault or without.
pub fn fresh_with(capacity: u16, quotas: Quotas, fault: Fault) -> (Table, Answer) {
    let refusal = first_refusal(&list_order(capacity, &quotas, fault));
    if refusal != 0 {
        return (fresh_for_cabin_0(1), bare(refusal));
    }
    let mut table = Table { capacity, quotas, ..Table::zero() };
    table.used[0] = 1;
    (table, bare(0))
}

/// A fresh table with W5's list for edition 1, as `keys`, F4 and what a refused call hands back
/// have it. The capacity has to be in range.
pub fn fresh_for_cabin_0(capacity: u16) -> Table {
    let (table, answer) = fresh(capacity, one_cabin(capacity));
    assert_eq!(answer.refusal, 0, "capacity {capacity}");
    table
}

/// Puts a new step at an empty exit, charged to a cabin; answers its number.
pub fn add(
    table: &mut Table,
    holder: u16,
    exit: u16,
    kind: u16,
    content: u16,
    cabin: u16,
) -> Answer {
    let command = Command::Add { holder, exit, kind, content, cabin };
    edit(table, command, Fault::None)
}

/// Copies the target of the source's exit into the second exit.
pub fn link(
    table: &mut Table,
    source: u16,
    source_exit: u16,
    second: u16,
    second_exit: u16,
) -> Answer {
    let command = Command::Link { source, source_exit, second, second_exit };
    edit(table, command, Fault::None)
}

/// Clears an exit; answers the steps made doubtful and the steps freed.
pub fn clear(table: &mut Table, step: u16, exit: u16) -> Answer {
    edit(table, Command::Clear { step, exit }, Fault::None)
}

/// The steps in use and the free ones.
pub fn counts(table: &Table) -> Answer {
    if sound(table) {
        Answer { refusal: 0, first: table.size(), second: table.capacity - table.size() }
    } else {
        bare(1)
    }
}

/// All fields of a step.
pub fn read(table: &Table, step: u16) -> ReadAnswer {
    let refusal = first_refusal(&[(1, !sound(table)), (3, !table.has(step))]);
    if refusal != 0 {
        return ReadAnswer { refusal, ..Default::default() };
    }
    let step = usize::from(step);
    ReadAnswer {
        refusal: 0,
        kind: table.kinds[step],
        content: table.contents[step],
        own: table.own[step],
        targets: std::array::from_fn(|exit| table.targets[place(step, exit)]),
        bits: std::array::from_fn(|exit| table.bits[place(step, exit)]),
        counts: [table.counts[step * 2], table.counts[step * 2 + 1]],
        cabin: table.cabins[step],
    }
}

/// Goes on from step 0, where each contact uses up a line result, for at most as many moves as the
/// limit; writes each step entered into the trace.
pub fn trial(table: &Table, limit: u16, results: &[u8], trace: &mut [u8]) -> TrialAnswer {
    trial_with(table, limit, results, trace, Fault::None)
}

/// Makes a trial, with a fault or without. Where the path stands when the limit has cut it says how
/// the trial ends: it is stopped where it could go on.
pub fn trial_with(
    table: &Table,
    limit: u16,
    results: &[u8],
    trace: &mut [u8],
    fault: Fault,
) -> TrialAnswer {
    let most = match fault {
        Fault::OneMoveMore if trace.len() > limit.into() => usize::from(limit) + 1,
        _ => limit.into(),
    };
    let path: Vec<Position> = path(table, results, fault).take(1 + most).collect();
    let end = path[path.len() - 1];
    let looked_at = match fault {
        Fault::UsedResultsOnly => end.used + usize::from(table.kind(end.step) == CONTACT),
        _ => results.len(),
    };
    let needed = match fault {
        Fault::TraceAsResults => results.len(),
        _ => limit.into(),
    };
    let refusal = first_refusal(&[
        (1, !sound(table)),
        (10, results.iter().take(looked_at).any(|&result| result > 3)),
        (11, trace.len() < needed),
    ]);
    if refusal != 0 {
        return TrialAnswer { refusal, ..Default::default() };
    }
    for (byte, entered) in trace.iter_mut().zip(&path[1..]) {
        *byte = entered.step as u8;
    }
    let at_limit = path.len() > most;
    let ending = match (onward(table, results, end, fault), fault) {
        (Err(Ending::Open), Fault::StoppedBeforeOpen) if at_limit => Ending::Stopped,
        (Err(Ending::Spent), Fault::StoppedBeforeSpent) if at_limit => Ending::Stopped,
        (Err(ending), _) => ending,
        (Ok(_), _) => Ending::Stopped,
    };
    TrialAnswer { refusal: 0, ending, last: end.step, moves: (path.len() - 1) as u16 }
}

/// Where a trial stands: a step, and how many results are used up.
#[derive(Clone, Copy)]
struct Position {
    step: u16,
    used: usize,
}

/// The positions of a trial that has no limit, which may go on for ever. They can be read on any
/// table.
fn path<'a>(
    table: &'a Table,
    results: &'a [u8],
    fault: Fault,
) -> impl Iterator<Item = Position> + 'a {
    let start = Position { step: 0, used: 0 };
    successors(Some(start), move |&at| onward(table, results, at, fault).ok())
}

/// The steps that a trial with these results and no limit enters, which may go on for ever.
pub fn steps_entered<'a>(table: &'a Table, results: &'a [u8]) -> impl Iterator<Item = u16> + 'a {
    path(table, results, Fault::None).skip(1).map(|at| at.step)
}

/// The step that a trial enters from a step, if it goes on with this line result.
pub fn next_step(table: &Table, step: u16, result: u8) -> Option<u16> {
    let next = onward(table, &[result], Position { step, used: 0 }, Fault::None);
    next.ok().map(|at| at.step)
}

/// The position after a move, or why there is none.
fn onward(table: &Table, results: &[u8], at: Position, fault: Fault) -> Result<Position, Ending> {
    let target = |exit| table.target(at.step, exit);
    let kind = table.kind(at.step);
    let (exit, used) = match (kind, results.get(at.used)) {
        (CONTACT, None) => {
            let open = fault == Fault::OpenBeforeSpent && (0..4).all(|exit| target(exit) == 0);
            return Err(if open { Ending::Open } else { Ending::Spent });
        }
        (CONTACT, Some(&result)) => (result, at.used + 1),
        (WAIT, Some(&result)) if fault == Fault::WaitTakesResult => (result, at.used),
        (_, Some(_)) if fault == Fault::UsesUp(kind) => (0, at.used + 1),
        _ => (0, at.used),
    };
    match target(exit.into()) {
        0 => Err(Ending::Open),
        step => Ok(Position { step, used }),
    }
}

/// Carries out a command, with a fault or without.
pub fn edit(table: &mut Table, mut command: Command, fault: Fault) -> Answer {
    if let (Command::Add { cabin, .. }, Fault::CabinCut) = (&mut command, fault) {
        *cabin %= CABINS as u16;
    }
    let refusal = edit_refusal(table, command, fault);
    if refusal != 0 {
        return bare(refusal);
    }
    let (first, second) = match command {
        Command::Add { holder, exit, kind, content, cabin } => {
            let content = match (kind, fault) {
                (CONTACT, Fault::ContactInAByte) => content % 256,
                _ => content,
            };
            let number = accepted_add(table, place(holder.into(), exit.into()), kind, content);
            table.cabins[usize::from(number)] = match fault {
                Fault::CabinForgotten => 0,
                _ => cabin,
            };
            (number, 0)
        }
        Command::Link { source, source_exit, second, second_exit } => {
            let from = place(source.into(), source_exit.into());
            let to = place(second.into(), second_exit.into());
            accepted_link(table, from, to, fault);
            (0, 0)
        }
        Command::Clear { step, exit } => {
            clearing::clear_exit(table, place(step.into(), exit.into()), fault)
        }
        Command::Count => return counts(table),
    };
    Answer { refusal: 0, first, second }
}

/// The answer with this refusal, or 0, and all other numbers zero.
pub fn bare(refusal: u16) -> Answer {
    Answer { refusal, ..Default::default() }
}

/// The number of the first condition that holds, or 0.
pub fn first_refusal(order: &[(u16, bool)]) -> u16 {
    let found = order.iter().find(|(_, holds)| *holds);
    found.map_or(0, |(number, _)| *number)
}

/// The refusal of a command, by its order. Every condition can be read on any table.
pub fn edit_refusal(table: &Table, command: Command, fault: Fault) -> u16 {
    let no_step = |step| (3, !table.has(step));
    let no_exit = |exit| (4, usize::from(exit) >= EXITS);
    let filled = |step, exit| (5, table.target(step, exit) != 0);
    let empty = |step, exit| (6, table.target(step, exit) == 0);
    let mut order = vec![(1, !sound(table))];
    match command {
        Command::Add { holder, exit, kind, content, cabin } => {
            let in_range = match (kind, fault) {
                (CONTACT, Fault::OldRangeAdded) => content <= OLD_HIGHEST_CONTACT,
                (CONTACT, Fault::OneContactMore) => content <= HIGHEST_CONTACT + 1,
                _ => fits(kind, content),
            };
            order.extend([
                (16, usize::from(cabin) >= CABINS),
                no_step(holder),
                no_exit(exit),
                filled(holder, exit),
                (7, !in_range),
                (8, table.size() == table.capacity),
            ]);
            order.extend(charge_order(table, cabin, fault));
            match fault {
                Fault::SwappedRefusals => order.swap(4, 5),
                Fault::CabinAfterHolder => order.swap(1, 2),
                Fault::LimitBeforeFull => order.swap(6, 7),
                _ => {}
            }
        }
        Command::Link { source, source_exit, second, second_exit } => order.extend([
            no_step(source),
            no_exit(source_exit),
            empty(source, source_exit),
            no_step(second),
            no_exit(second_exit),
            filled(second, second_exit),
        ]),
        Command::Clear { step, exit } => {
            order.extend([no_step(step), no_exit(exit), empty(step, exit)]);
        }
        Command::Count => {}
    }
    first_refusal(&order)
}

/// Puts in a new step with bit 0 and a link to it with bit 0, at a place; gives its number.
fn accepted_add(table: &mut Table, exit: usize, kind: u16, content: u16) -> u16 {
    let number = (table.last + 1..table.capacity)
        .chain(1..=table.last)
        .find(|&number| !table.has(number))
        .expect("a table that is not full has a free number");
    let step = usize::from(number);
    table.used[step] = 1;
    table.kinds[step] = kind;
    table.contents[step] = content;
    table.targets[exit] = number;
    table.last = number;
    table.counts = table.counted();
    number
}

/// Copies a link from one place to another; the copy's bit differs from its target's bit.
fn accepted_link(table: &mut Table, from: usize, to: usize, fault: Fault) {
    let target = usize::from(table.targets[from]);
    table.targets[to] = table.targets[from];
    table.bits[to] = match fault {
        Fault::CopyKeepsStrength => table.bits[from],
        _ => 1 - table.own[target],
    };
    table.counts = table.counted();
    if fault == Fault::CounterOffByOne {
        table.counts[target * 2 + usize::from(table.bits[to])] += 1;
    }
}
