//! Limits of trials and lengths: small ones each, and those at and past 8 and 16 bits of limits, results, traces, buffers, images, slips and key lines.
//! Both programs run each call; answers, written bytes and untouched ones are also held to what this file works out by itself.

use compare::{both, ring, rounds, Pair};
use reference::calls::{fresh_for_cabin_0, Command, Ending};
use reference::faults::Fault;
use reference::generate::{old_image, Random};
use reference::history::{Call, Outcome, Start, UNTOUCHED};
use reference::image::{encode, records};
use reference::slip::between;
use reference::sound::{CONTACT, MESSAGE, WAIT};
use reference::table::Table;

/// Around 8 and 16 bits, and others.
const RESULTS: [usize; 11] =
    [0, 255, 256, 300, 32_768, 65_533, 65_534, 65_535, 65_536, 70_000, 131_072];
const LIMITS: [u16; 8] = [127, 255, 256, 257, 300, 65_533, 65_534, 65_535];

/// Around 16 bits and past them; 16 bits leave 0, 1 and 29 of three of them.
const LONG: [usize; 6] = [65_535, 65_536, 65_537, 70_000, 131_072 + 29, 1_000_000];

/// Makes a call on a table with both programs, which have to agree, and leave the table.
fn made(table: &Table, call: Call) -> Outcome {
    let mut lent = table.clone();
    let outcome = both(&mut lent, &call);
    assert!(lent == *table, "the call changed the table");
    outcome
}

fn untouched(bytes: &[u8]) -> bool {
    bytes.iter().all(|&byte| byte == UNTOUCHED)
}

/// Makes a trial in a ring of so many steps, which has to be accepted. Its moves go round.
fn tried(table: &Table, steps: usize, call: Call, ending: Ending, moves: usize) {
    let Outcome { refusal, numbers, lent } = made(table, call);
    let entered: Vec<u8> = (1..=steps as u8).cycle().take(moves).collect();
    let last = entered.last().map_or(0, |&step| step.into());
    assert_eq!((refusal, numbers), (0, vec![ending as usize, last, moves]));
    assert!(lent[..moves] == entered && untouched(&lent[moves..]));
}

/// Makes a trial that has to be refused, and write nothing.
fn refused(table: &Table, call: Call, refusal: u16) {
    let outcome = made(table, call);
    assert_eq!((outcome.refusal, outcome.numbers), (refusal, vec![0, 0, 0]));
    assert!(untouched(&outcome.lent));
}

/// The moves after which a trial in a ring of these kinds comes to the contact that asks for this result, counted from 0; none without contacts.
fn asked_for(kinds: &[u16], result: usize) -> Option<usize> {
    let contacts: Vec<usize> = (0..kinds.len()).filter(|&i| kinds[i] == CONTACT).collect();
    let round = result.checked_div(contacts.len())?;
    Some(round * kinds.len() + contacts[result % contacts.len()] + 1)
}

/// Trials in a ring of these kinds with so many results and with this limit: spent, with an empty exit behind the results and more of them, with a
/// wrong result behind them all; traces of these lengths, which are not too short, and of others, which are.
fn trials(kinds: &[u16], results: usize, limit: u16, traces: &[usize]) {
    let (table, steps) = (ring(kinds), kinds.len());
    let good = rounds(kinds, results);
    let end = asked_for(kinds, good.len()).filter(|&moves| moves <= limit.into());
    let moves = end.unwrap_or(limit.into());
    // step i of the ring has exit i % 4, and this is the next one
    let empty = asked_for(kinds, good.len()).map_or(0, |moves| (moves - 1) % steps + 2) % 4;
    let open = [&good[..], &[empty as u8, 0, 0, 0]].concat();
    let wrong = [&open[..], &[4]].concat();
    let call = |results: &Vec<u8>, trace| Call::Trial { limit, results: results.clone(), trace };
    for &trace in traces {
        let ending = |ending| end.map_or(Ending::Stopped, |_| ending);
        tried(&table, steps, call(&good, trace), ending(Ending::Spent), moves);
        tried(&table, steps, call(&open, trace), ending(Ending::Open), moves);
        refused(&table, call(&wrong, trace), 10);
    }
    let room = usize::from(limit);
    for trace in [room.saturating_sub(1), room % 256, 0] {
        if trace < room {
            refused(&table, call(&good, trace), 11);
            refused(&table, call(&wrong, trace), 10);
        }
    }
}

/// Every ring of up to three steps, with each limit and number of results that goes round it twice.
#[test]
fn small_trials() {
    let kinds = [CONTACT, MESSAGE, WAIT];
    let rings = (0..3).flat_map(|i| (0..3).flat_map(move |j| (0..3).map(move |k| [i, j, k])));
    for ring in rings.map(|ring| ring.map(|i| kinds[i])) {
        for kinds in [&ring[..1], &ring[..2], &ring] {
            for (results, limit) in (0..7).flat_map(|results| (0..9).map(move |l| (results, l))) {
                let room = usize::from(limit);
                trials(kinds, results, limit, &[room, room + 1, room + 30]);
            }
        }
    }
}

/// Rings of contacts, of waits and messages, and mixed ones, short and long.
#[test]
fn long_trials() {
    let mixed: Vec<u16> = [WAIT, CONTACT, MESSAGE].into_iter().cycle().take(127).collect();
    let rings = [&[CONTACT; 127][..1], &[CONTACT; 127], &[WAIT], &[WAIT, MESSAGE], &mixed];
    for kinds in rings {
        for results in RESULTS {
            for limit in LIMITS {
                trials(kinds, results, limit, &[limit.into(), usize::from(limit) + 77]);
            }
        }
    }
}

/// Traces that 16 bits cannot measure, with limits from the smallest to the largest.
#[test]
fn long_traces() {
    for trace in LONG {
        for limit in [0, 1, 12, 65_535] {
            trials(&[CONTACT, WAIT], 5, limit, &[trace]);
            trials(&[WAIT], 0, limit, &[trace]);
        }
    }
}

/// Small tables and large ones.
fn tables() -> [Table; 4] {
    [fresh_for_cabin_0(4), ring(&[CONTACT; 5]), ring(&[CONTACT; 127]), Random(3).sound_table()]
}

#[test]
fn long_buffers() {
    for table in tables() {
        let image = encode(&table);
        for buffer in LONG.into_iter().chain([65_536 + image.len() - 1, 65_536 + image.len()]) {
            let Outcome { refusal, numbers, lent } = made(&table, Call::Write { buffer });
            assert_eq!((refusal, numbers), (0, vec![image.len(), 0]), "{buffer}");
            assert!(lent[..image.len()] == image && untouched(&lent[image.len()..]));
            assert_eq!(lent.len(), buffer);
        }
    }
}

/// A load that has to be refused, by both programs; it hands back a fresh table of capacity 1.
fn load_refused(image: Vec<u8>) {
    let (pair, compared) = Pair::begin(&Start::Load { image }, Fault::None);
    let outcome = compared.unwrap();
    assert_eq!((outcome.refusal, outcome.numbers), (12, vec![0, 0]));
    assert!(pair.second == fresh_for_cabin_0(1));
}

/// Bytes that are no image, and accepted images with more behind them, so that what is left of their length in 16 bits is that of the image.
#[test]
fn long_images() {
    for length in LONG {
        for byte in [0, 1, 10, 42, UNTOUCHED] {
            load_refused(vec![byte; length]);
        }
    }
    for image in tables().iter().flat_map(|table| [old_image(table), encode(table)]) {
        let (header, record) = (records(&image)[0].len(), records(&image)[1].len());
        let start = Start::Load { image: image.clone() };
        assert_eq!(Pair::begin(&start, Fault::None).1.unwrap().refusal, 0);
        // whole records, near 16 bits and in as many bytes as leave nothing in them
        let whole = [65_535 / record, 65_535 / record + 1, 65_536 / 2].map(|n| n * record);
        for more in LONG.into_iter().chain([2 * 65_536]).chain(whole) {
            load_refused([&image[..], &vec![0; more]].concat());
            // records again and again, with the count that the header has and with the count that is right in 16 bits
            let records = image[header..].iter().copied().cycle().take(more);
            let mut long: Vec<u8> = image.iter().copied().chain(records).collect();
            load_refused(long.clone());
            let count = ((long.len() - header) / record) as u16;
            long[8..10].copy_from_slice(&count.to_le_bytes());
            load_refused(long);
        }
    }
}

/// Bytes that are no slip, and slips with more behind them, so that what is left of their length in 16 bits is that of the slip. `slip` has more, and
/// long buffers.
#[test]
fn long_slips() {
    for table in tables() {
        for length in LONG {
            for byte in [0, 1, 22, UNTOUCHED] {
                assert_eq!(made(&table, Call::TakeBack { slip: vec![byte; length] }).refusal, 18);
            }
        }
    }
    for table in &tables()[1..] {
        let (step, exit) = (0, (0..4).find(|&exit| table.target(0, exit) != 0).expect("a link"));
        let mut cleared = table.clone();
        both(&mut cleared, &Call::Edit(Command::Clear { step, exit }));
        let slip = between(table, &cleared, step, exit);
        for more in LONG.into_iter().chain([2 * 65_536]) {
            let slip = [&slip[..], &vec![0; more]].concat();
            assert_eq!(made(&cleared, Call::TakeBack { slip }).refusal, 18);
        }
        assert_eq!(both(&mut cleared, &Call::TakeBack { slip }).refusal, 0);
        assert!(cleared == *table);
    }
}

/// Key lines with more behind them or before them, and other bytes.
#[test]
fn long_key_lines() {
    let table = ring(&[CONTACT; 5]);
    let lines: [&[u8]; 6] = [b"H*100131099A", b"H*200000013A", b"H*30000A", b"H*4A", b"H*5A", b""];
    for line in lines {
        for more in LONG {
            for byte in [b'0', b'A', b'H', 0, UNTOUCHED] {
                let rest = vec![byte; more];
                let whole = vec![byte; more - line.len()];
                for long in [[line, &rest], [&rest, line], [line, &whole], [&whole, line]] {
                    let outcome = made(&table, Call::KeyLine(long.concat()));
                    assert_eq!((outcome.refusal, outcome.numbers), (9, vec![0, 0]));
                }
            }
        }
    }
    // the keys of an add, with too many digits
    for more in LONG {
        let digits = vec![b'0'; more];
        let call = Call::KeyLine([b"H*1", &digits[..], b"A"].concat());
        assert_eq!(made(&table, call).refusal, 9);
    }
}
