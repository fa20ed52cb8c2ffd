//! Made-up dispatchers and calls on them, the same for the same seed, and dispatchers in which
//! every set of cabins waits. Serves the tests of W11 of document 02.

use std::array::from_fn;
use std::iter::repeat_with;

use super::{Call, Words, CABINS, LAST};
use crate::generate::Random;

/// Numbers of no cabin: at the end of the range, and such as are a cabin's in fewer bits.
pub const NO_CABIN: [u16; 8] = [16, 17, 31, 32, 255, 256, 32_768, 65_535];

/// Words of a cabin that waits: the one that a raise puts, and others.
const WAITS: [u16; 6] = [1, 2, 255, 256, 32_768, 65_535];

/// Phases of a row of calls: nearly all cabins wait, some do, few do. Each lists raise, withdraw,
/// next and fresh by a letter, as often as it has them, and calls of no cabin by a capital.
const PHASES: [&[u8]; 4] = [b"rrrrrrrrrrrrrrrrn", b"rrrrrrrrnnwRW", b"rrrnnwRW", b"rrnnnnwwRWf"];
const PHASE: usize = 120;

impl Random {
    pub fn line_cabin(&mut self) -> u16 {
        self.below(CABINS.into()) as u16
    }

    /// A dispatcher in which no cabin waits, one, two, all but one, all or any of them do, half the
    /// time by words other than 1. The last served is often the one cabin, and once in five times
    /// none.
    pub fn dispatcher(&mut self) -> Words {
        let any = self.line_cabin();
        let one = self.pick(&[any, any, 0, 15]);
        let (other, last) = (self.line_cabin(), self.line_cabin());
        let none = self.pick(&NO_CABIN);
        let last = self.pick(&[one, one, one, one, last, last, last, last, 16, none]);
        let some = self.number() as u16;
        let waiting = self.pick(&[0, 1 << one, 1 << one | 1 << other, !(1 << one), 65_535, some]);
        let any = [(); 4].map(|()| (self.number() as u16).max(1));
        let waits = self.pick(&[&WAITS[..1], &WAITS[..1], &WAITS, &any]);
        let mut words = with_waiting(waiting, last);
        for word in words[..LAST].iter_mut().filter(|word| **word != 0) {
            *word = self.pick(waits);
        }
        words
    }
}

/// So many made-up dispatchers.
pub fn dispatchers(seed: u64, number: usize) -> impl Iterator<Item = Words> {
    let mut random = Random(seed);
    repeat_with(move || random.dispatcher()).take(number)
}

/// Cabin 0 waits alone, by each of some words, after cabin 0, after cabin 9 and after none.
pub fn cabin_0_alone() -> impl Iterator<Item = Words> {
    let alone = WAITS.into_iter().flat_map(|word| [(word, 0), (word, 9), (word, 16)]);
    alone.map(|(word, last)| {
        let mut words = with_waiting(0, last);
        words[0] = word;
        words
    })
}

/// So many made-up calls, in phases.
pub fn calls(seed: u64, number: usize) -> impl Iterator<Item = Call> {
    let mut random = Random(seed);
    let mut phase = PHASES[0];
    (0..number).map(move |made| {
        if made % PHASE == 0 {
            phase = random.pick(&PHASES);
        }
        match random.pick(phase) {
            b'r' => Call::Raise(random.line_cabin()),
            b'w' => Call::Withdraw(random.line_cabin()),
            b'R' => Call::Raise(random.pick(&NO_CABIN)),
            b'W' => Call::Withdraw(random.pick(&NO_CABIN)),
            b'n' => Call::Next,
            _ => Call::Fresh,
        }
    })
}

/// Each sort of call, those of a cabin with each of the sixteen and with numbers of none.
pub fn every_call() -> impl Iterator<Item = Call> {
    let cabins = (0..CABINS).chain(NO_CABIN);
    let of_cabins = cabins.flat_map(|cabin| [Call::Raise(cabin), Call::Withdraw(cabin)]);
    of_cabins.chain([Call::Next, Call::Fresh])
}

/// The 65,536 dispatchers with this last served and with words 0 and 1.
pub fn every_dispatcher(last: u16) -> impl Iterator<Item = Words> {
    (0..=u16::MAX).map(move |waiting| with_waiting(waiting, last))
}

/// The dispatcher with words 0 and 1 in which cabin c waits where bit c is set.
pub fn with_waiting(waiting: u16, last: u16) -> Words {
    from_fn(|place| if place == LAST { last } else { waiting >> place & 1 })
}
