//! Sixteen cabins on one line (W11): whose turn it is, every word of a dispatcher after every call, and what is refused, in which order.

use std::collections::BTreeMap;
use telephone::{raw, Line, Refusal, LINE_CABINS};

const CABINS: u16 = LINE_CABINS as u16;
/// Numbers that are no cabin. In 8 bits the fourth is 0, and the fifth 15.
const PAST: [u16; 6] = [16, 17, 255, 256, 256 + 15, 65535];
/// Words of a cabin that waits.
const WORDS: [u16; 4] = [1, 2, 256, 65535];
/// Who waits, a bit for each cabin: nobody, one, every second cabin, or all.
const CROWDS: [u16; 6] = [0, 1, 0x8000, 0x5555, 0xAAAA, 0xFFFF];

/// A dispatcher at which the cabins of these bits wait, each with this word.
fn waiting(bits: u16, word: u16, last: u16) -> raw::Line {
    let waiting = std::array::from_fn(|cabin| if bits >> cabin & 1 == 1 { word } else { 0 });
    raw::Line { waiting, last }
}

/// Dispatchers of many words, with every cabin as last served.
fn dispatchers() -> impl Iterator<Item = raw::Line> {
    let lines = |last| WORDS.map(|word| CROWDS.map(|bits| waiting(bits, word, last)));
    (0..CABINS).flat_map(lines).flatten()
}

/// A call that can be refused.
#[derive(Clone, Copy, PartialEq, Debug)]
enum Call {
    Raise(u16),
    Withdraw(u16),
    Next,
}
use Call::{Next, Raise, Withdraw};

fn make(line: &mut raw::Line, call: Call) -> raw::Reply {
    match call {
        Raise(cabin) => raw::line_raise(line, cabin),
        Withdraw(cabin) => raw::line_withdraw(line, cabin),
        Next => raw::line_next(line),
    }
}

/// The dispatcher after a call, which has to answer this number and to be the same on a safe dispatcher.
#[track_caller]
fn accepted(line: &raw::Line, call: Call, first: u16) -> raw::Line {
    let (mut after, mut safe) = (*line, Line::from_raw(*line).unwrap());
    assert_eq!(make(&mut after, call), raw::Reply { refusal: 0, first, second: 0 }, "{call:?}");
    let answer = match call {
        Raise(cabin) => safe.raise(cabin).map(|()| 0),
        Withdraw(cabin) => safe.withdraw(cabin).map(|()| 0),
        Next => safe.serve_next(),
    };
    assert_eq!((answer, *safe.as_raw()), (Ok(first), after), "{call:?}");
    after
}

/// A call has to be refused so, with no other number, and to leave every word.
#[track_caller]
fn refused(line: &raw::Line, call: Call, refusal: Refusal) {
    let mut lent = *line;
    let reply = raw::Reply { refusal: refusal.number(), first: 0, second: 0 };
    assert_eq!((make(&mut lent, call), &lent), (reply, line), "{call:?}");
    let Ok(mut safe) = Line::from_raw(*line) else { return };
    let answer = match call {
        Raise(cabin) => safe.raise(cabin),
        Withdraw(cabin) => safe.withdraw(cabin),
        Next => safe.serve_next().map(|_| ()),
    };
    assert_eq!((answer, safe.as_raw()), (Err(refusal), line), "{call:?}");
}

#[test]
fn fresh_dispatchers() {
    let fresh = waiting(0, 0, 15);
    for word in [0, 1, 15, 16, 256, 65535] {
        let mut line = raw::Line { waiting: [word; LINE_CABINS], last: word };
        assert_eq!((raw::line_fresh(&mut line), line), (raw::Reply::default(), fresh));
    }
    let line = Line::fresh();
    assert_eq!((line.as_raw(), line.last_served(), &line), (&fresh, 15, &Line::default()));
    assert!((0..=65535).all(|cabin| !line.waits(cabin)));
    // cabin 0 comes first
    let all = waiting(0xFFFF, 1, 15);
    assert_eq!(accepted(&all, Next, 0), waiting(0xFFFE, 1, 0));
}

/// A cabin's own word becomes 1 or 0, and no other word changes. Where it waits already, or does not wait, no word does, whatever it is.
#[test]
fn raises_and_withdrawals() {
    for line in dispatchers() {
        for cabin in 0..CABINS {
            let with = |word| {
                let mut line = line;
                line.waiting[usize::from(cabin)] = word;
                line
            };
            let word = line.waiting[usize::from(cabin)];
            let raised = if word == 0 { with(1) } else { line };
            assert_eq!(accepted(&line, Raise(cabin), 0), raised);
            assert_eq!(accepted(&raised, Raise(cabin), 0), raised);
            assert_eq!(accepted(&line, Withdraw(cabin), 0), with(0));
            assert_eq!(accepted(&with(0), Withdraw(cabin), 0), with(0));
            assert_eq!(accepted(&raised, Withdraw(cabin), 0), with(0));
        }
    }
}

/// 1 before 20, and 1 before 21. A safe dispatcher has a cabin as last served, so 1 is for the calls on any words.
#[test]
fn refusals_in_order() {
    for line in dispatchers() {
        for number in PAST {
            refused(&line, Raise(number), Refusal::NoSuchCabin);
            refused(&line, Withdraw(number), Refusal::NoSuchCabin);
            let out = raw::Line { last: number, ..line };
            refused(&out, Next, Refusal::NotSound);
            for cabin in (0..CABINS).chain(PAST) {
                refused(&out, Raise(cabin), Refusal::NotSound);
                refused(&out, Withdraw(cabin), Refusal::NotSound);
            }
            assert_eq!(Line::from_raw(out), Err(Refusal::NotSound));
        }
        if line.waiting == [0; LINE_CABINS] {
            refused(&line, Next, Refusal::NobodyWaits);
        }
    }
}

/// Whoever waits and whoever was served last: the first waiting cabin after that one, going round, and that one itself as the sixteenth.
#[test]
fn going_round() {
    for (last, bits) in (0..CABINS).flat_map(|last| (1..=65535).map(move |bits| (last, bits))) {
        let mut places = (1..=CABINS).map(|place| (last + place) % CABINS);
        let cabin = places.find(|cabin| bits >> cabin & 1 == 1).unwrap();
        let word = WORDS[usize::from(bits % 4)];
        let mut line = waiting(bits, word, last);
        let reply = raw::line_next(&mut line);
        assert_eq!(reply, raw::Reply { refusal: 0, first: cabin, second: 0 });
        assert_eq!(line, waiting(bits & !(1 << cabin), word, cabin), "{bits:016b} after {last}");
    }
}

/// Cabin 0 and a refusal have the same first number.
#[test]
fn cabin_0_is_no_refusal() {
    let served = accepted(&waiting(1, 65535, 15), Next, 0);
    assert_eq!(served, waiting(0, 0, 0));
    refused(&served, Next, Refusal::NobodyWaits);
    // the one last served, alone
    assert_eq!(accepted(&waiting(1, 1, 0), Next, 0), served);
}

/// All wait, and each cabin served raises its alarm again at once: the cabin k places ahead is the k-th, the one last served the sixteenth and no
/// earlier.
#[test]
fn sixteen_calls_are_reached() {
    for (last, cabin) in (0..CABINS).flat_map(|last| (0..CABINS).map(move |cabin| (last, cabin))) {
        let mut line = Line::from_raw(waiting(0xFFFF, 1, last)).unwrap();
        let mut calls = 0;
        loop {
            calls += 1;
            let served = line.serve_next().unwrap();
            assert_eq!((served, line.waits(served)), ((last + calls) % CABINS, false));
            if served == cabin {
                break;
            }
            line.raise(served).unwrap();
        }
        assert_eq!(calls, (cabin + CABINS - last - 1) % CABINS + 1);
        assert!(calls <= 16 && (calls == 16) == (cabin == last));
    }
}

/// Long histories of calls by all cabins, against a dispatcher kept here: who waits, with the accepted calls of "next" since it does. None waits for a
/// seventeenth, and some for the sixteenth.
#[test]
fn served_within_sixteen_calls() {
    let mut random = 1_u32;
    let mut below = |limit: u32| {
        random = random.wrapping_mul(1_664_525).wrapping_add(1_013_904_223);
        (random >> 16) % limit
    };
    let (mut most, mut met) = (0, [0; 3]);
    for history in 0..200 {
        let (mut line, mut waits, mut last) = (Line::fresh(), BTreeMap::new(), 15);
        for _ in 0..1000 {
            let cabin = below(18) as u16;
            // some histories have many alarms, and some few
            let call = match below(8) {
                choice if choice <= history % 4 => Next,
                7 if history % 4 > 0 => Withdraw(cabin),
                _ => Raise(cabin),
            };
            let expected = match call {
                Raise(16..) | Withdraw(16..) => Err(Refusal::NoSuchCabin),
                Raise(cabin) => {
                    waits.entry(cabin).or_insert(0);
                    Ok(0)
                }
                Withdraw(cabin) => {
                    waits.remove(&cabin);
                    Ok(0)
                }
                Next => {
                    let after = waits.range(last + 1..).next().or(waits.iter().next());
                    after.map(|(&cabin, _)| cabin).ok_or(Refusal::NobodyWaits)
                }
            };
            let given = match call {
                Raise(cabin) => line.raise(cabin).map(|()| 0),
                Withdraw(cabin) => line.withdraw(cabin).map(|()| 0),
                Next => line.serve_next(),
            };
            assert_eq!(given, expected, "{call:?}");
            if let (Next, Ok(served)) = (call, given) {
                waits.values_mut().for_each(|calls| *calls += 1);
                most = most.max(waits.remove(&served).unwrap());
                last = served;
            }
            assert!((0..18).all(|cabin| line.waits(cabin) == waits.contains_key(&cabin)));
            assert!(line.last_served() == last && waits.values().all(|&calls| calls < 16));
            let kind = [Ok(0), Err(Refusal::NoSuchCabin), Err(Refusal::NobodyWaits)];
            met[kind.iter().position(|kind| *kind == given.map(|_| 0)).unwrap()] += 1;
        }
    }
    assert_eq!(most, 16);
    assert!(met.iter().all(|&times| times > 1000), "{met:?}");
}

/// What the caller kept comes back word by word, with words other than 0 and 1; a last served above 15 does not.
#[test]
fn dispatchers_of_the_caller() {
    for kept in dispatchers() {
        let line = Line::from_raw(kept).unwrap();
        assert_eq!((line.as_raw(), line.last_served()), (&kept, kept.last));
        for cabin in (0..CABINS).chain(PAST) {
            let waits = kept.waiting.get(usize::from(cabin)).is_some_and(|&word| word != 0);
            assert_eq!(line.waits(cabin), waits);
        }
        assert_eq!(line.clone(), line);
        assert_eq!(line.into_raw(), kept);
    }
    // all words zero are a dispatcher, and not the fresh one
    let zero = Line::from_raw(raw::Line::default()).unwrap();
    assert!(zero.last_served() == 0 && zero != Line::fresh());
    for last in 0..=65535 {
        let kept = waiting(0x5555, 65535, last);
        let line = Line::from_raw(kept).map(Line::into_raw);
        assert_eq!(line, if last <= 15 { Ok(kept) } else { Err(Refusal::NotSound) });
    }
}
