//! What W11 of document 02 says of each call on a dispatcher, and of rows of calls, each on the
//! dispatcher as the one before left it. It is stated of any program that makes calls, on the
//! words alone, so that it can be asked of this program and of the one it is held to. A law gives
//! how often it met the case that it is about, or the first call that broke a sentence.

use std::iter::once;
use std::ops::Range;

use super::generate::{calls, dispatchers, every_call, every_dispatcher, with_waiting};
use super::{Call, Words, CABINS, LAST};
use crate::calls::Answer;
use crate::generate::Random;

/// Makes a call on a dispatcher.
pub type Program<'a> = &'a dyn Fn(&mut Words, Call) -> Answer;

/// A call, the dispatcher before it, what it answered and the dispatcher after it.
#[derive(Clone, Copy, PartialEq, Eq, Debug)]
pub struct Made {
    pub before: Words,
    pub call: Call,
    pub answer: Answer,
    pub after: Words,
}

impl Made {
    /// Makes a call by a program.
    pub fn by(program: Program, before: &Words, call: Call) -> Made {
        let mut after = *before;
        let answer = program(&mut after, call);
        Made { before: *before, call, answer, after }
    }
}

/// A sentence of W11.
#[derive(Clone, Copy, PartialEq, Eq, PartialOrd, Ord, Debug)]
pub enum Sentence {
    /// "A dispatcher whose last served is above 15 gets 1"; "20 for a cabin above 15, after 1"; "21
    /// for 'next' with nobody waiting, after 1". Nothing else is refused.
    Refusals,
    /// "A refusal leaves it unchanged", and answers no number.
    Unchanged,
    /// "A fresh dispatcher counts 15 as last served", and nobody waits.
    Fresh,
    /// "A cabin raises or withdraws its alarm": its word is 1 or 0, and no other word changes.
    OwnAlarm,
    /// "Doing what is already so changes nothing."
    AlreadySo,
    /// "'Next' serves the first waiting cabin after the one last served, going round."
    FirstAfter,
    /// "And removes it": its word is 0, it is the one last served, and no other word changes.
    Removed,
    /// An accepted call answers the cabin that it serves, and no other number.
    Numbers,
    /// "A waiting cabin that does not withdraw is served within 16 accepted 'next' calls."
    Within16,
}

/// A call that broke a sentence.
#[derive(Clone, Copy, PartialEq, Eq, Debug)]
pub struct Broken {
    pub sentence: Sentence,
    pub made: Made,
}

/// Makes a call, which has to keep every sentence on a single call.
pub fn kept(program: Program, words: &mut Words, call: Call) -> Result<Answer, Broken> {
    let made = Made::by(program, words, call);
    let Made { before, answer, after, .. } = made;
    *words = after;
    let holds = |sentence, holds: bool| holds.then_some(()).ok_or(Broken { sentence, made });
    holds(Sentence::Refusals, answer.refusal == refusal(&before, call))?;
    if answer.refusal != 0 {
        let none = Answer { refusal: answer.refusal, ..Answer::default() };
        holds(Sentence::Unchanged, after == before && answer == none)?;
        return Ok(answer);
    }
    let with = |cabin: u16, word| {
        let mut words = before;
        words[usize::from(cabin)] = word;
        words
    };
    let waits = |cabin: u16| before[usize::from(cabin)] != 0;
    match call {
        Call::Fresh => holds(Sentence::Fresh, after == with_waiting(0, 15))?,
        Call::Raise(cabin) if waits(cabin) => holds(Sentence::AlreadySo, after == before)?,
        Call::Raise(cabin) => holds(Sentence::OwnAlarm, after == with(cabin, 1))?,
        Call::Withdraw(cabin) if !waits(cabin) => holds(Sentence::AlreadySo, after == before)?,
        Call::Withdraw(cabin) => holds(Sentence::OwnAlarm, after == with(cabin, 0))?,
        Call::Next => {
            let first = waiting(&before).min_by_key(|&cabin| ahead(before[LAST], cabin));
            holds(Sentence::FirstAfter, first == Some(answer.first))?;
            let mut removed = with(answer.first, 0);
            removed[LAST] = answer.first;
            holds(Sentence::Removed, after == removed)?;
        }
    }
    holds(Sentence::Numbers, answer.second == 0 && (call == Call::Next || answer.first == 0))?;
    Ok(answer)
}

/// The refusal of a call, or 0.
fn refusal(words: &Words, call: Call) -> u16 {
    match call {
        Call::Fresh => 0,
        _ if words[LAST] > 15 => 1,
        Call::Raise(cabin) | Call::Withdraw(cabin) if cabin > 15 => 20,
        Call::Next if waiting(words).next().is_none() => 21,
        _ => 0,
    }
}

/// The cabins that wait, ascending.
fn waiting(words: &Words) -> impl Iterator<Item = u16> + '_ {
    (0..CABINS).filter(|&cabin| words[usize::from(cabin)] != 0)
}

/// How many cabins stand between the one last served and this one, going round.
fn ahead(last: u16, cabin: u16) -> u16 {
    (cabin + 15 - last) % 16
}

/// How often each refusal, 0 to the highest, came up.
pub type Refusals = [usize; 22];

/// These refusals came up as often as that, and no others did.
#[track_caller]
pub fn came_up(refusals: &Refusals, expected: &[usize], times: usize) {
    for (refusal, &met) in refusals.iter().enumerate() {
        let met = if expected.contains(&refusal) { met >= times } else { met == 0 };
        assert!(met, "refusal {refusal} of {refusals:?}");
    }
}

/// Makes these calls, each on a dispatcher of its own, which have to keep every sentence on a
/// single call.
fn each_kept(
    program: Program,
    calls: impl Iterator<Item = (Words, Call)>,
) -> Result<Refusals, Broken> {
    let mut refusals = Refusals::default();
    for (mut words, call) in calls {
        refusals[usize::from(kept(program, &mut words, call)?.refusal)] += 1;
    }
    Ok(refusals)
}

/// "Next" on every dispatcher with words 0 and 1 and with one of these for its last served.
pub fn every_next(
    program: Program,
    lasts: impl IntoIterator<Item = u16>,
) -> Result<Refusals, Broken> {
    let words = lasts.into_iter().flat_map(every_dispatcher);
    each_kept(program, words.map(|words| (words, Call::Next)))
}

/// Every cabin raises its alarm, and every cabin withdraws it, on every dispatcher with words 0 and
/// 1 and with one of these for its last served.
pub fn every_alarm(
    program: Program,
    lasts: impl IntoIterator<Item = u16>,
) -> Result<Refusals, Broken> {
    let words = lasts.into_iter().flat_map(every_dispatcher);
    let alarms = |words| (0..CABINS).flat_map(of_cabin).map(move |call| (words, call));
    each_kept(program, words.flat_map(alarms))
}

/// Raises and withdrawals of every number there is: nobody waits, all do, some do, and the last
/// served is no cabin.
pub fn every_number(program: Program) -> Result<Refusals, Broken> {
    let words = [(0, 15), (0xFFFF, 0), (0x8001, 15), (0x5A3C, 9), (0, 16), (0xFFFF, 65_535)];
    let words = words.into_iter().map(|(waiting, last)| with_waiting(waiting, last));
    let alarms = |words| (0..=u16::MAX).flat_map(of_cabin).map(move |call| (words, call));
    each_kept(program, words.flat_map(alarms))
}

/// "Next" on a dispatcher in which cabins 2 and 8 wait and 5 was served last, with every word there
/// is at one of these places; and a raise and a withdrawal of the cabin there, or of 15.
pub fn every_word(program: Program, places: &[usize]) -> Result<Refusals, Broken> {
    let words = places.iter().flat_map(|&place| (0..=u16::MAX).map(move |word| (place, word)));
    let made = |(place, word): (usize, u16)| {
        let mut words = with_waiting(1 << 2 | 1 << 8, 5);
        words[place] = word;
        once(Call::Next).chain(of_cabin(place.min(15) as u16)).map(move |call| (words, call))
    };
    each_kept(program, words.flat_map(made))
}

/// Every call on so many made-up dispatchers, in which any words may stand.
pub fn any_words(program: Program, seed: u64, number: usize) -> Result<Refusals, Broken> {
    let made = |words| every_call().map(move |call| (words, call));
    each_kept(program, dispatchers(seed, number).flat_map(made))
}

/// The calls of a cabin.
fn of_cabin(cabin: u16) -> [Call; 2] {
    [Call::Raise(cabin), Call::Withdraw(cabin)]
}

/// Serves all that wait, on every dispatcher with words 0 and 1 and with one of these for its last
/// served: each cabin that waits is served once, in the order in which a round comes to them.
/// Gives how many were served.
pub fn all_served(program: Program, lasts: impl IntoIterator<Item = u16>) -> Result<usize, Broken> {
    let mut number = 0;
    for mut words in lasts.into_iter().flat_map(every_dispatcher) {
        let (last, waits) = (words[LAST], words);
        for cabin in (last + 1..CABINS).chain(0..=last) {
            if waits[usize::from(cabin)] != 0 {
                let answer = kept(program, &mut words, Call::Next)?;
                assert_eq!((answer.refusal, answer.first), (0, cabin), "served of {waits:?}");
                number += 1;
            }
        }
        assert_eq!(kept(program, &mut words, Call::Next)?.refusal, 21, "{waits:?}");
    }
    Ok(number)
}

/// Cabins that raise their alarms in two orders, each once or more often, leave the same
/// dispatcher. Gives how many of them did not wait before.
pub fn raises_in_any_order(program: Program, seed: u64, number: usize) -> Result<usize, Broken> {
    let mut random = Random(!seed);
    let mut raised = 0;
    for start in dispatchers(seed, number) {
        let cabins: Vec<u16> = (0..random.below(12)).map(|_| random.line_cabin()).collect();
        let mut ends = [start; 2];
        for end in &mut ends {
            let again = random.below(cabins.len() + 1);
            let mut row = [&cabins[..], &cabins[..again]].concat();
            random.shuffle(&mut row);
            for cabin in row {
                kept(program, end, Call::Raise(cabin))?;
            }
        }
        assert_eq!(ends[0], ends[1], "{cabins:?} raise their alarms on {start:?}");
        raised += waiting(&ends[0]).count() - waiting(&start).count();
    }
    Ok(raised)
}

/// How long cabins have waited by the account of the calls alone, whatever the words say: for each
/// that waits, the accepted "next" calls that served another. One that withdraws, or whose
/// dispatcher is made fresh, waits no longer.
#[derive(Clone)]
struct Account {
    passed: [Option<usize>; LAST],
}

impl Account {
    fn new(words: &Words) -> Account {
        let mut account = Account { passed: [None; LAST] };
        waiting(words).for_each(|cabin| account.passed[usize::from(cabin)] = Some(0));
        account
    }

    /// What is noted of a cabin; nothing if it is none.
    fn of(&mut self, cabin: u16) -> Option<&mut Option<usize>> {
        self.passed.get_mut(usize::from(cabin))
    }

    /// Notes a call. Where it serves a cabin, gives by which accepted "next" since it waits,
    /// counted from 1.
    fn note(&mut self, made: Made) -> Result<Option<usize>, Broken> {
        let broken = |sentence| Broken { sentence, made };
        match made.call {
            _ if made.answer.refusal != 0 => {}
            Call::Fresh => self.passed = [None; LAST],
            Call::Raise(cabin) => {
                self.of(cabin).map(|passed| passed.get_or_insert(0));
            }
            Call::Withdraw(cabin) => {
                self.of(cabin).map(Option::take);
            }
            Call::Next => {
                let served = self.of(made.answer.first).and_then(Option::take);
                let turn = 1 + served.ok_or(broken(Sentence::FirstAfter))?;
                self.passed.iter_mut().flatten().for_each(|passed| *passed += 1);
                let in_time = self.passed.iter().flatten().all(|&passed| passed < 16);
                return in_time.then_some(Some(turn)).ok_or(broken(Sentence::Within16));
            }
        }
        Ok(None)
    }
}

/// A cabin waits while all others raise their alarms before each "next": it is served when those
/// between it and the cabin last served were. Every number of turns from 1 to 16 comes up, and 16
/// for the cabin last served. Gives how often 16 came up.
pub fn among_all(program: Program) -> Result<usize, Broken> {
    let mut sixteen = 0;
    for (last, cabin) in (0..CABINS).flat_map(|last| (0..CABINS).map(move |cabin| (last, cabin))) {
        let mut words = with_waiting(1 << cabin, last);
        let mut account = Account::new(&words);
        let round = (0..CABINS).map(Call::Raise).chain(once(Call::Next));
        let mut turns = round.cycle().map(|call| {
            let before = words;
            let answer = kept(program, &mut words, call)?;
            Ok((answer.first, account.note(Made { before, call, answer, after: words })?))
        });
        let turn = loop {
            match turns.next().expect("rounds without end")? {
                (served, Some(turn)) if served == cabin => break turn,
                _ => {}
            }
        };
        assert_eq!(turn, 1 + usize::from(ahead(last, cabin)), "{cabin} after {last}");
        sixteen += usize::from(turn == 16 && cabin == last);
    }
    Ok(sixteen)
}

/// Every row of so many of these calls from a dispatcher: each call keeps every sentence, and no
/// cabin waits too long. Gives the calls made.
pub fn short_rows(
    program: Program,
    start: &Words,
    calls: &[Call],
    number: usize,
) -> Result<usize, Broken> {
    fn from(
        program: Program,
        (before, account): (&Words, &Account),
        calls: &[Call],
        number: usize,
    ) -> Result<usize, Broken> {
        let mut made = 0;
        for &call in calls.iter().filter(|_| number > 0) {
            let (mut after, mut account) = (*before, account.clone());
            let answer = kept(program, &mut after, call)?;
            account.note(Made { before: *before, call, answer, after })?;
            made += 1 + from(program, (&after, &account), calls, number - 1)?;
        }
        Ok(made)
    }
    from(program, (start, &Account::new(start)), calls, number)
}

/// What long rows came across: each refusal, and how often a cabin was served by the first accepted
/// "next" since it waited, by the second, and so on.
#[derive(Clone, Copy, PartialEq, Eq, Debug, Default)]
pub struct Met {
    pub refusals: Refusals,
    pub turns: [usize; 17],
}

impl Met {
    /// Each refusal and each number of turns from 1 to 16 came up as often as that.
    #[track_caller]
    pub fn came_up(&self, times: usize) {
        println!("{self:?}");
        came_up(&self.refusals, &[0, 1, 20, 21], times);
        assert!(self.turns[0] == 0 && self.turns[1..].iter().all(|&turns| turns >= times));
    }
}

/// Made-up rows of calls from made-up dispatchers: a cabin that is served waits, and none waits too
/// long. Nothing else is asked of the calls.
pub fn long_rows(program: Program, seeds: Range<u64>, number: usize) -> Result<Met, Broken> {
    let mut met = Met::default();
    for seed in seeds {
        let mut words = Random(!seed).dispatcher();
        let mut account = Account::new(&words);
        for call in calls(seed, number) {
            let made = Made::by(program, &words, call);
            words = made.after;
            met.refusals[usize::from(made.answer.refusal)] += 1;
            if let Some(turn) = account.note(made)? {
                met.turns[turn] += 1;
            }
        }
    }
    Ok(met)
}
