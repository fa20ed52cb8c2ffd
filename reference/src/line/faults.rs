//! Deliberate errors of a dispatcher, so that wrong variants can be run against the right one, and
//! how each of them shows. The right program makes every call: a fault has it overlook words, gives
//! it another call, or spoils what it gave. Serves the tests of W11 of document 02.

use std::collections::BTreeSet;

use super::generate::{cabin_0_alone, dispatchers, every_call};
use super::laws::{Made, Program, Sentence};
use super::{Call, Words, CABINS, LAST};
use crate::calls::{bare, Answer};

/// A deliberate error.
#[derive(Clone, Copy, PartialEq, Eq, Debug)]
pub enum Fault {
    /// No error.
    None,
    /// Next looks at the cabin last served before all others.
    LastLookedAtFirst,
    /// Next never looks at the cabin last served.
    LastNeverLookedAt,
    /// Next stops at cabin 15, and does not go on from cabin 0.
    RoundStopsAtTop,
    /// Next goes round from the higher cabins to the lower ones.
    RoundGoesDown,
    /// Next serves the lowest cabin that waits.
    LowestServed,
    /// A cabin that was served waits on.
    ServedStays,
    /// Next leaves the cabin last served as it was.
    LastNotNoted,
    /// Next answers the cabin that was served before.
    PreviousAnswered,
    /// Next answers how many cabins still wait as its second number.
    WaitingCounted,
    /// A raise puts 1 for a cabin that waits by another word.
    RaisedAgainIsOne,
    /// A cabin that waits and raises its alarm again comes next.
    RaisedAgainIsNext,
    /// A cabin that waits and raises its alarm again withdraws it.
    RaisedAgainWithdraws,
    /// A withdrawal takes away the alarm of the next cabin.
    NeighbourWithdraws,
    /// A cabin that withdraws counts as last served.
    WithdrawnIsLast,
    /// Next asks whether anybody waits before it looks at the cabin last served.
    NobodyBeforeLast,
    /// A raise or a withdrawal looks at its cabin before it looks at the cabin last served.
    CabinBeforeLast,
    /// Cabin 16 is accepted; its word is that of the cabin last served.
    Cabin16Taken,
    /// A cabin above 15 is cut to 4 bits.
    CabinCut,
    /// A last served of 16 is taken for 15.
    Last16Taken,
    /// A last served above 15 is cut to 4 bits.
    LastCut,
    /// A dispatcher whose last served is above 15 cannot be made fresh.
    FreshRefused,
    /// A fresh dispatcher counts 0 as last served.
    FreshFromZero,
    /// A fresh dispatcher keeps the alarms that stood there.
    FreshKeepsAlarms,
    /// A raise that is refused for its cabin raises the alarm of the cabin in its last 4 bits.
    RefusedRaiseKept,
    /// Next with nobody waiting goes on to the next cabin.
    NobodyGoesOn,
    /// A call that is refused for the cabin last served puts 15 for it.
    LastMended,
    /// A cabin whose word is not 1 does not wait.
    OneWaits,
    /// A cabin waits by the last 8 bits of its word.
    LowByteWaits,
    /// One part of what calls of one sort give is wrong, where they are refused or where not.
    Spoiled { sort: Sort, refused: bool, part: Part },
}

/// A sort of call.
#[derive(Clone, Copy, PartialEq, Eq, PartialOrd, Ord, Debug)]
pub enum Sort {
    Fresh,
    Raise,
    Withdraw,
    Next,
}

/// A part of what a call gives: a number answered, or a word of the dispatcher.
#[derive(Clone, Copy, PartialEq, Eq, Debug)]
pub enum Part {
    Refusal,
    First,
    Second,
    Word(usize),
}

/// What of a call's effects differs between two programs.
#[derive(Clone, Copy, PartialEq, Eq, PartialOrd, Ord, Debug)]
pub enum Evidence {
    Refusal,
    First,
    Second,
    Words,
}

/// Sorts of calls that differed, each with all that differed in one call.
pub type Found = BTreeSet<(Sort, Vec<Evidence>)>;

impl Sort {
    pub fn of(call: Call) -> Sort {
        match call {
            Call::Fresh => Sort::Fresh,
            Call::Raise(_) => Sort::Raise,
            Call::Withdraw(_) => Sort::Withdraw,
            Call::Next => Sort::Next,
        }
    }
}

/// Makes a call on a dispatcher, with a fault or without.
pub fn run(words: &mut Words, call: Call, fault: Fault) -> Answer {
    let before = *words;
    let overlooked = |cabin: &usize| overlooks(fault, call, &before, *cabin as u16);
    (0..LAST).filter(overlooked).for_each(|cabin| words[cabin] = 0);
    words[LAST] = match (fault, before[LAST]) {
        (Fault::LastCut, last) => last % CABINS,
        (Fault::Last16Taken, 16) => 15,
        (_, last) => last,
    };
    let mut answer = super::run(words, taken_for(fault, call, &before));
    if answer.refusal != 0 {
        *words = before;
    }
    for cabin in (0..LAST).filter(overlooked) {
        if words[cabin] == 0 {
            words[cabin] = before[cabin];
        }
    }
    spoil(fault, call, &before, words, &mut answer);
    answer
}

/// Whether a call takes the word of a cabin for 0.
fn overlooks(fault: Fault, call: Call, words: &Words, cabin: u16) -> bool {
    let last = words[LAST];
    let some = |waits: &dyn Fn(u16) -> bool| {
        (0..CABINS).any(|cabin| words[usize::from(cabin)] != 0 && waits(cabin))
    };
    let down = |cabin| (last % CABINS + 15 - cabin) % CABINS;
    match (fault, call) {
        (_, Call::Fresh) => false,
        (Fault::OneWaits, _) => words[usize::from(cabin)] != 1,
        (Fault::LowByteWaits, _) => words[usize::from(cabin)] as u8 == 0,
        (Fault::LastLookedAtFirst, Call::Next) => cabin != last && some(&|other| other == last),
        (Fault::LastNeverLookedAt, Call::Next) => cabin == last,
        (Fault::RoundStopsAtTop, Call::Next) => cabin <= last,
        (Fault::RoundGoesDown, Call::Next) => some(&|other| down(other) < down(cabin)),
        (Fault::LowestServed, Call::Next) => some(&|other| other < cabin),
        _ => false,
    }
}

/// The call that is made in place of a call.
fn taken_for(fault: Fault, call: Call, words: &Words) -> Call {
    match (fault, call) {
        (Fault::CabinCut, Call::Raise(cabin)) => Call::Raise(cabin % CABINS),
        (Fault::CabinCut, Call::Withdraw(cabin)) => Call::Withdraw(cabin % CABINS),
        (Fault::RaisedAgainWithdraws, Call::Raise(cabin)) if waits(words, cabin) => {
            Call::Withdraw(cabin)
        }
        (Fault::NeighbourWithdraws, Call::Withdraw(cabin)) if cabin < CABINS => {
            Call::Withdraw((cabin + 1) % CABINS)
        }
        _ => call,
    }
}

/// Spoils what a call gave.
fn spoil(fault: Fault, call: Call, before: &Words, words: &mut Words, answer: &mut Answer) {
    let last = before[LAST];
    match (fault, call, answer.refusal) {
        (Fault::ServedStays, Call::Next, 0) => {
            let served = usize::from(answer.first);
            words[served] = before[served];
        }
        (Fault::LastNotNoted, Call::Next, 0) => words[LAST] = last,
        (Fault::PreviousAnswered, Call::Next, 0) => answer.first = last,
        (Fault::WaitingCounted, Call::Next, 0) => {
            answer.second = (0..CABINS).filter(|&cabin| waits(words, cabin)).count() as u16;
        }
        (Fault::RaisedAgainIsOne, Call::Raise(cabin), 0) => words[usize::from(cabin)] = 1,
        (Fault::RaisedAgainIsNext, Call::Raise(cabin), 0) if waits(before, cabin) => {
            words[LAST] = (cabin + 15) % CABINS;
        }
        (Fault::WithdrawnIsLast, Call::Withdraw(cabin), 0) => words[LAST] = cabin,
        (Fault::NobodyBeforeLast, Call::Next, 1) if before[..LAST] == [0; LAST] => {
            answer.refusal = 21;
        }
        (Fault::CabinBeforeLast, Call::Raise(cabin) | Call::Withdraw(cabin), 1)
            if cabin >= CABINS =>
        {
            answer.refusal = 20;
        }
        (Fault::Cabin16Taken, Call::Raise(16), 20) => {
            answer.refusal = 0;
            words[LAST] = last.max(1);
        }
        (Fault::Cabin16Taken, Call::Withdraw(16), 20) => {
            answer.refusal = 0;
            words[LAST] = 0;
        }
        (Fault::FreshRefused, Call::Fresh, _) if last >= CABINS => {
            (*answer, *words) = (bare(1), *before);
        }
        (Fault::FreshFromZero, Call::Fresh, _) => words[LAST] = 0,
        (Fault::FreshKeepsAlarms, Call::Fresh, _) => {
            words[..LAST].copy_from_slice(&before[..LAST]);
        }
        (Fault::RefusedRaiseKept, Call::Raise(cabin), 20) => {
            super::raise(words, cabin % CABINS);
        }
        (Fault::NobodyGoesOn, Call::Next, 21) => words[LAST] = (last + 1) % CABINS,
        (Fault::LastMended, _, 1) => words[LAST] = CABINS - 1,
        (Fault::Spoiled { sort, refused, part }, _, refusal)
            if sort == Sort::of(call) && refused == (refusal != 0) =>
        {
            match part {
                // 0 and 1, 20 and 21 take each other's place
                Part::Refusal => answer.refusal ^= 1,
                Part::First => answer.first += 1,
                Part::Second => answer.second += 1,
                Part::Word(place) => words[place] ^= 1,
            }
        }
        _ => {}
    }
}

/// Whether a cabin waits, if it is one.
fn waits(words: &Words, cabin: u16) -> bool {
    cabin < CABINS && words[usize::from(cabin)] != 0
}

/// The faults that have a name: each with the calls that show it and the ways in which a call shows
/// it, and with the sentences of W11 that it breaks.
pub fn named() -> Vec<(Fault, Found, BTreeSet<Sentence>)> {
    use Evidence::{First, Refusal, Second, Words};
    use Fault::*;
    use Sort::{Fresh, Next, Raise, Withdraw};
    let alarms = &[Raise, Withdraw];
    let (refusal, words): (&[Evidence], &[Evidence]) = (&[Refusal], &[Words]);
    // made by one program and refused by the other: cabin 0 and a refusal answer the same number
    let (made, served): (&[Evidence], &[Evidence]) = (&[Refusal, Words], &[Refusal, First, Words]);
    // served by both, another cabin
    let other: &[Evidence] = &[First, Words];
    let last_taken = &ways(alarms, &[refusal, made]) | &ways(&[Next], &[refusal, made, served]);
    let word_unread = &ways(alarms, &[words]) | &ways(&[Next], &[other, made, served]);
    let unread: &[Sentence] =
        &[Sentence::Refusals, Sentence::OwnAlarm, Sentence::AlreadySo, Sentence::FirstAfter];
    let own_or_so: &[Sentence] = &[Sentence::OwnAlarm, Sentence::AlreadySo];
    let rows: Vec<(Fault, Found, &[Sentence])> = vec![
        (LastLookedAtFirst, ways(&[Next], &[other]), &[Sentence::FirstAfter]),
        (LastNeverLookedAt, ways(&[Next], &[made, served]), &[Sentence::Refusals]),
        (RoundStopsAtTop, ways(&[Next], &[made, served]), &[Sentence::Refusals]),
        (RoundGoesDown, ways(&[Next], &[other]), &[Sentence::FirstAfter]),
        (LowestServed, ways(&[Next], &[other]), &[Sentence::FirstAfter]),
        (ServedStays, ways(&[Next], &[words]), &[Sentence::Removed]),
        (LastNotNoted, ways(&[Next], &[words]), &[Sentence::Removed]),
        (PreviousAnswered, ways(&[Next], &[&[First]]), &[Sentence::FirstAfter]),
        (WaitingCounted, ways(&[Next], &[&[Second]]), &[Sentence::Numbers]),
        (RaisedAgainIsOne, ways(&[Raise], &[words]), &[Sentence::AlreadySo]),
        (RaisedAgainIsNext, ways(&[Raise], &[words]), &[Sentence::AlreadySo]),
        (RaisedAgainWithdraws, ways(&[Raise], &[words]), &[Sentence::AlreadySo]),
        (NeighbourWithdraws, ways(&[Withdraw], &[words]), own_or_so),
        (WithdrawnIsLast, ways(&[Withdraw], &[words]), own_or_so),
        (NobodyBeforeLast, ways(&[Next], &[refusal]), &[Sentence::Refusals]),
        (CabinBeforeLast, ways(alarms, &[refusal]), &[Sentence::Refusals]),
        (Cabin16Taken, ways(alarms, &[refusal, made]), &[Sentence::Refusals]),
        (CabinCut, ways(alarms, &[refusal, made]), &[Sentence::Refusals]),
        (Last16Taken, last_taken.clone(), &[Sentence::Refusals]),
        (LastCut, last_taken, &[Sentence::Refusals]),
        (FreshRefused, ways(&[Fresh], &[made]), &[Sentence::Refusals]),
        (FreshFromZero, ways(&[Fresh], &[words]), &[Sentence::Fresh]),
        (FreshKeepsAlarms, ways(&[Fresh], &[words]), &[Sentence::Fresh]),
        (RefusedRaiseKept, ways(&[Raise], &[words]), &[Sentence::Unchanged]),
        (NobodyGoesOn, ways(&[Next], &[words]), &[Sentence::Unchanged]),
        (LastMended, ways(&[Raise, Withdraw, Next], &[words]), &[Sentence::Unchanged]),
        (OneWaits, word_unread.clone(), unread),
        (LowByteWaits, word_unread, unread),
    ];
    rows.into_iter()
        .map(|(fault, found, broken)| (fault, found, broken.iter().copied().collect()))
        .collect()
}

/// Calls of these sorts that differ in each of these ways.
fn ways(sorts: &[Sort], ways: &[&[Evidence]]) -> Found {
    sorts.iter().flat_map(|&sort| ways.iter().map(move |way| (sort, way.to_vec()))).collect()
}

/// One fault for each part of what each sort of call gives, accepted and refused, with the way in
/// which it shows. A fresh dispatcher is never refused.
pub fn spoiled() -> Vec<(Fault, Found)> {
    let numbers = [
        (Part::Refusal, Evidence::Refusal),
        (Part::First, Evidence::First),
        (Part::Second, Evidence::Second),
    ];
    let words = (0..=LAST).map(|place| (Part::Word(place), Evidence::Words));
    let parts: Vec<(Part, Evidence)> = numbers.into_iter().chain(words).collect();
    let sorts = [Sort::Fresh, Sort::Raise, Sort::Withdraw, Sort::Next].into_iter();
    let mut faults = Vec::new();
    for (sort, refused) in sorts.flat_map(|sort| [(sort, false), (sort, true)]) {
        if (sort, refused) != (Sort::Fresh, true) {
            faults.extend(parts.iter().map(|&(part, evidence)| {
                (Fault::Spoiled { sort, refused, part }, ways(&[sort], &[&[evidence]]))
            }));
        }
    }
    faults
}

/// What differs between two programs that made the same call.
fn evidence(one: &Made, other: &Made) -> Vec<Evidence> {
    let differ = [
        (Evidence::Refusal, one.answer.refusal != other.answer.refusal),
        (Evidence::First, one.answer.first != other.answer.first),
        (Evidence::Second, one.answer.second != other.answer.second),
        (Evidence::Words, one.after != other.after),
    ];
    differ.into_iter().filter_map(|(evidence, differs)| differs.then_some(evidence)).collect()
}

/// Every call on made-up dispatchers and on those of cabin 0 alone, by a program.
pub fn cases(program: Program) -> Vec<Made> {
    let dispatchers = dispatchers(11, 150).chain(cabin_0_alone());
    let every_call = |words| every_call().map(move |call| Made::by(program, &words, call));
    dispatchers.flat_map(every_call).collect()
}

/// How the variant with a fault differs from the program that made these calls.
fn found(cases: &[Made], fault: Fault) -> Found {
    let wrong = |words: &mut Words, call: Call| run(words, call, fault);
    cases
        .iter()
        .map(|made| (made, evidence(made, &Made::by(&wrong, &made.before, made.call))))
        .filter(|(_, evidence)| !evidence.is_empty())
        .map(|(made, evidence)| (Sort::of(made.call), evidence))
        .collect()
}

/// Runs all wrong variants against a program. Each has to differ from it in the calls and the ways
/// that are written here, and in no other; without a fault nothing may differ. Gives the number of
/// faults.
pub fn all_show(program: Program) -> usize {
    let cases = cases(program);
    let named = named().into_iter().map(|(fault, ways, _)| (fault, ways));
    let faults: Vec<(Fault, Found)> = named.chain(spoiled()).collect();
    assert_eq!(found(&cases, Fault::None), Found::new());
    for (fault, ways) in &faults {
        assert_eq!(found(&cases, *fault), *ways, "{fault:?}");
    }
    faults.len()
}
