//! The line that sixteen cabins wait for. The cabins that wait stand in a queue, in the order in
//! which they will be served: a cabin that raises its alarm gets its place there, one that
//! withdraws leaves it, and "next" serves the first. Nothing goes round in search of a cabin.
//! Renders W11 of document 02. No history has these calls. `examples` has rows of calls with the
//! numbers written out, `faults` deliberate errors, `laws` what every call and row of calls has to
//! keep; `generate` makes up dispatchers and calls.

pub mod examples;
pub mod faults;
pub mod generate;
pub mod laws;

use std::collections::VecDeque;

use crate::calls::{bare, Answer};

/// Cabins that may wait, 0 to 15.
pub const CABINS: u16 = 16;
/// Where the cabin last served stands among the words.
pub const LAST: usize = CABINS as usize;

/// A dispatcher as it is lent: a word for each cabin, which is not 0 while the cabin waits, and the
/// cabin last served. Any words may stand in it.
pub type Words = [u16; LAST + 1];

/// A call on a dispatcher.
#[derive(Clone, Copy, PartialEq, Eq, Debug)]
pub enum Call {
    Fresh,
    Raise(u16),
    Withdraw(u16),
    Next,
}

/// The cabins that wait, in the order in which they will be served, and the cabin last served.
#[derive(Clone, PartialEq, Eq, Debug)]
pub struct Line {
    pub queue: VecDeque<u16>,
    pub last: u16,
}

impl Line {
    /// Nobody waits, and 15 counts as last served.
    pub fn fresh() -> Line {
        Line { queue: VecDeque::new(), last: CABINS - 1 }
    }

    /// The line of a dispatcher; nothing where its last served is no cabin.
    pub fn of(words: &Words) -> Option<Line> {
        let last = words[LAST];
        let waiting = (0..CABINS).filter(|&cabin| words[usize::from(cabin)] != 0);
        let mut queue: VecDeque<u16> = waiting.collect();
        queue.make_contiguous().sort_by_key(|&cabin| turn(last, cabin));
        (last < CABINS).then_some(Line { queue, last })
    }

    /// Puts a cabin at its place in the queue, unless it waits already.
    pub fn raise(&mut self, cabin: u16) {
        if !self.queue.contains(&cabin) {
            let before = |other: &u16| turn(self.last, *other) < turn(self.last, cabin);
            self.queue.insert(self.queue.partition_point(before), cabin);
        }
    }

    /// Takes a cabin out of the queue, if it waits.
    pub fn withdraw(&mut self, cabin: u16) {
        self.queue.retain(|&other| other != cabin);
    }

    /// Serves the first of the queue. The others stand in the order of their turns as before: they
    /// are all behind it.
    pub fn serve(&mut self) -> Option<u16> {
        self.last = self.queue.pop_front()?;
        Some(self.last)
    }

    /// Writes the line into a dispatcher. The words of cabins that neither came nor went stay.
    fn put(&self, words: &mut Words) {
        for (cabin, word) in (0..CABINS).zip(words.iter_mut()) {
            let waits = self.queue.contains(&cabin);
            if waits != (*word != 0) {
                *word = u16::from(waits);
            }
        }
        words[LAST] = self.last;
    }
}

/// A cabin's turn, to be compared with that of another: the cabins above the one last served come
/// first, then the others, and of both the lower ones.
fn turn(last: u16, cabin: u16) -> (bool, u16) {
    (cabin <= last, cabin)
}

/// Makes a call on a dispatcher.
pub fn run(words: &mut Words, call: Call) -> Answer {
    match call {
        Call::Fresh => fresh(words),
        Call::Raise(cabin) => raise(words, cabin),
        Call::Withdraw(cabin) => withdraw(words, cabin),
        Call::Next => next(words),
    }
}

/// Makes a fresh dispatcher, whatever stood there.
pub fn fresh(words: &mut Words) -> Answer {
    Line::fresh().put(words);
    bare(0)
}

/// Raises the alarm of a cabin.
pub fn raise(words: &mut Words, cabin: u16) -> Answer {
    of_cabin(words, cabin, Line::raise)
}

/// Withdraws the alarm of a cabin.
pub fn withdraw(words: &mut Words, cabin: u16) -> Answer {
    of_cabin(words, cabin, Line::withdraw)
}

/// Serves the first waiting cabin after the one last served; answers it.
pub fn next(words: &mut Words) -> Answer {
    on_line(words, |line| line.serve().ok_or(21))
}

/// Changes the line for a cabin, 0 to 15.
fn of_cabin(words: &mut Words, cabin: u16, change: impl FnOnce(&mut Line, u16)) -> Answer {
    on_line(words, |line| {
        if cabin >= CABINS {
            return Err(20);
        }
        change(line, cabin);
        Ok(0)
    })
}

/// Changes the line of a dispatcher that has one. The change gives the first number answered, or a
/// refusal, after which the dispatcher is as it was.
fn on_line(words: &mut Words, change: impl FnOnce(&mut Line) -> Result<u16, u16>) -> Answer {
    let Some(mut line) = Line::of(words) else {
        return bare(1);
    };
    match change(&mut line) {
        Ok(first) => {
            line.put(words);
            Answer { refusal: 0, first, second: 0 }
        }
        Err(refusal) => bare(refusal),
    }
}
