//! The calls of a history as values, run on a table, and the comparison with the plain plan.
//! Renders "A history is a list", W2's squeeze in it, W3's trial, W5's cabins and lists, W7's slips,
//! W8's previews, who can be rung, and demand 3's list of what has to agree.

use crate::calls::{clear, edit, fresh_with, read, trial_with, Answer, Command};
use crate::faults::{cut, spoil, Fault, Length, Sort};
use crate::image::{length, load_with, write};
use crate::keys::{decode, key_line_with};
use crate::plan::{Known, Said};
use crate::preview::preview_clear_with;
use crate::rung::rung_with;
use crate::slip::{clear_with_slip_with, take_back_with};
use crate::squeeze::squeeze_with;
use crate::table::{Quotas, Table};

/// A call of a history. A lent trace or buffer stands in it as its length. A count that is no key
/// line, and an image's length, are calls that the interface adds to document 01's.
#[derive(Clone, PartialEq, Eq, Debug)]
pub enum Call {
    Edit(Command),
    ClearWithSlip { step: u16, exit: u16, buffer: usize },
    TakeBack { slip: Vec<u8> },
    PreviewClear { step: u16, exit: u16, buffer: usize },
    Rung { buffer: usize },
    Squeeze { capacity: u16, quotas: Quotas },
    Read { step: u16 },
    Trial { limit: u16, results: Vec<u8>, trace: usize },
    Write { buffer: usize },
    ImageLength,
    KeyLine(Vec<u8>),
}

/// The first call of a history, from which it has its table.
#[derive(Clone, PartialEq, Eq, Debug)]
pub enum Start {
    Fresh { capacity: u16, quotas: Quotas },
    Load { image: Vec<u8> },
}

impl Call {
    /// The command, given as a call, as a clearing with a slip, or as a key line.
    pub fn command(&self) -> Option<Command> {
        match self {
            Call::Edit(command) => Some(*command),
            Call::ClearWithSlip { step, exit, .. } => {
                Some(Command::Clear { step: *step, exit: *exit })
            }
            Call::KeyLine(line) => decode(line),
            _ => None,
        }
    }

    /// What the plan is told of a call with this refusal: whether it got 11 or 18 of W7.
    pub fn told(&self, refusal: u16) -> bool {
        match self {
            Call::ClearWithSlip { .. } => refusal == 11,
            Call::TakeBack { .. } => refusal == 18,
            _ => false,
        }
    }
}

/// All that a caller is given: the refusal, the other numbers, the lent bytes.
#[derive(Clone, PartialEq, Eq, Debug)]
pub struct Outcome {
    pub refusal: u16,
    pub numbers: Vec<usize>,
    pub lent: Vec<u8>,
}

/// What a lent byte holds before a call. No step has this number.
pub const UNTOUCHED: u8 = 0xEE;

/// Runs the first call, with a fault or without.
pub fn begin(start: &Start, fault: Fault) -> (Table, Outcome) {
    let (mut table, answer) = match start {
        Start::Fresh { capacity, quotas } => fresh_with(*capacity, *quotas, fault),
        Start::Load { image } => load_with(&image[..cut(fault, Length::Image, image.len())], fault),
    };
    let mut outcome = plain(answer, Vec::new());
    spoil(fault, Sort::of_start(start), Some(&mut table), &mut outcome);
    (table, outcome)
}

/// Runs a call on a table, with a fault or without.
pub fn run(table: &mut Table, call: &Call, fault: Fault) -> Outcome {
    let mut outcome = match call {
        Call::Edit(command) => plain(edit(table, *command, fault), Vec::new()),
        Call::ClearWithSlip { step, exit, buffer } => with_buffer(*buffer, fault, |buffer| {
            clear_with_slip_with(table, *step, *exit, buffer, fault)
        }),
        Call::TakeBack { slip } => {
            let slip = &slip[..cut(fault, Length::Slip, slip.len())];
            plain(take_back_with(table, slip, fault), Vec::new())
        }
        Call::PreviewClear { step, exit, buffer } => {
            let told = with_buffer(*buffer, fault, |buffer| {
                preview_clear_with(table, *step, *exit, buffer, fault)
            });
            if told.refusal == 0 && fault == Fault::PreviewClears {
                clear(table, *step, *exit);
            }
            told
        }
        Call::Rung { buffer } => {
            let told = with_buffer(*buffer, fault, |buffer| rung_with(table, buffer, fault));
            if told.refusal == 0 && fault == Fault::RungMovesLast {
                table.last = (table.last + 1) % table.capacity;
            }
            told
        }
        Call::Squeeze { capacity, quotas } => {
            plain(squeeze_with(table, *capacity, *quotas, fault), Vec::new())
        }
        Call::KeyLine(line) => {
            let line = &line[..cut(fault, Length::Line, line.len())];
            plain(key_line_with(table, line, fault), Vec::new())
        }
        Call::Write { buffer } => with_buffer(*buffer, fault, |buffer| write(table, buffer)),
        Call::ImageLength => plain(length(table), Vec::new()),
        Call::Trial { limit, results, trace } => {
            let results = &results[..cut(fault, Length::Results, results.len())];
            let mut lent = vec![UNTOUCHED; *trace];
            let trace = &mut lent[..cut(fault, Length::Trace, *trace)];
            let answer = trial_with(table, *limit, results, trace, fault);
            Outcome {
                refusal: answer.refusal,
                numbers: vec![answer.ending as usize, answer.last.into(), answer.moves.into()],
                lent,
            }
        }
        Call::Read { step } => {
            let answer = read(table, *step);
            let single = [answer.kind, answer.content, answer.own];
            let cabin = [answer.cabin];
            let fields = [&single[..], &answer.targets, &answer.bits, &answer.counts, &cabin];
            Outcome {
                refusal: answer.refusal,
                numbers: fields.concat().into_iter().map(usize::from).collect(),
                lent: Vec::new(),
            }
        }
    };
    spoil(fault, Sort::of(call), Some(table), &mut outcome);
    outcome
}

/// Lends a buffer to a call, which is given less of it where a fault cuts its length.
pub fn with_buffer(length: usize, fault: Fault, call: impl FnOnce(&mut [u8]) -> Answer) -> Outcome {
    let mut lent = vec![UNTOUCHED; length];
    let answer = call(&mut lent[..cut(fault, Length::Buffer, length)]);
    plain(answer, lent)
}

/// An outcome with two numbers.
fn plain(answer: Answer, lent: Vec<u8>) -> Outcome {
    Outcome {
        refusal: answer.refusal,
        numbers: vec![answer.first.into(), answer.second.into()],
        lent,
    }
}

/// Whether an outcome is what the plan says: its refusal with nothing else given or written,
/// or no refusal, each number that the plan knows, and the whole buffer where the plan knows it.
pub fn agrees(outcome: &Outcome, said: &Said) -> bool {
    let untouched = |bytes: &[u8]| bytes.iter().all(|&byte| byte == UNTOUCHED);
    match said {
        Err(refusal) => {
            outcome.refusal == *refusal
                && outcome.numbers.iter().all(|&number| number == 0)
                && untouched(&outcome.lent)
        }
        Ok(Known { numbers, listed }) => {
            let mut pairs = numbers.iter().zip(&outcome.numbers);
            let left = |listed: &Vec<u8>| outcome.lent.strip_prefix(&listed[..]);
            outcome.refusal == 0
                && pairs.all(|(known, &number)| known.is_none_or(|n| usize::from(n) == number))
                && listed.as_ref().is_none_or(|listed| left(listed).is_some_and(untouched))
        }
    }
}
