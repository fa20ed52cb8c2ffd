//! The types of this crate: a table is sound and changed in place, a refusal is an error and changes nothing, and no number makes a panic.

use std::fmt::Debug;
use telephone::{
    check_edition, convert_down, convert_up, raw, sole_quotas, Cleared, Counts, Ending, Exit, Kind,
    Link, Quota, Quotas, Refusal, Rung, Table, CABINS, IMAGE_MAX, PREVIEW_ROOM, SLIP_MAX,
    STEPS_ROOM,
};

#[test]
fn edition_fits() {
    assert_eq!((telephone::EDITION, raw::edition()), (4, 4));
    assert_eq!(check_edition(), Ok(()));
    let wrong = telephone::WrongEdition { library: 3 };
    assert_eq!(wrong.to_string(), "the library has edition 3, and 4 is needed");
}

/// A fresh table that cabin 0 has to itself.
fn fresh(capacity: u16) -> Table {
    Table::fresh(capacity, &sole_quotas(capacity)).unwrap()
}

/// Guarantees and limits from cabin 0 on; the other cabins have none.
fn list(pairs: &[(u16, u16)]) -> Quotas {
    let mut quotas = Quotas::default();
    for (quota, &(guarantee, limit)) in quotas.iter_mut().zip(pairs) {
        *quota = Quota { guarantee, limit };
    }
    quotas
}

/// A list for a table of eight steps in which each cabin but 4 has one: cabin 4 is guaranteed all free steps; all limits differ.
fn listed(capacity: u16) -> Quotas {
    let guarantees = [1, 0, 1, 0, capacity - 8, 0, 1, 1];
    list(&[0, 1, 2, 3, 4, 5, 6, 7].map(|cabin| (guarantees[cabin], 300 + cabin as u16)))
}

/// A table in which the fields of step 2 and the numbers of the table all differ, the bits but for a few. These are the bits of step 2's links, which
/// are all strong.
fn different(bits: [u16; 4]) -> raw::Table {
    numbered(11, 9, bits, [4, 6, 8, 10])
}

/// The same with these numbers for the four steps that step 2 leads to, of this capacity and with this last number.
fn numbered(capacity: u16, last: u16, bits: [u16; 4], targets: [usize; 4]) -> raw::Table {
    let mut table = raw::Table { capacity, last, quotas: listed(capacity), ..raw::Table::ZERO };
    let [a, b, c, d] = targets;
    for (step, kind, content, cabin) in [
        (0, 0, 0, 0),
        (1, 1, 11, 7),
        (2, 3, 600, 2),
        (3, 1, 12, 1),
        (a, 2, 13, 5),
        (b, 3, 14, 0),
        (c, 1, 15, 3),
        (d, 2, 7, 6),
    ] {
        (table.used[step], table.kinds[step], table.contents[step]) = (1, kind, content);
        table.cabins[step] = cabin;
    }
    table.own[2] = 1;
    for (exit, target) in targets.into_iter().enumerate() {
        (table.targets[2 * 4 + exit], table.bits[2 * 4 + exit]) = (target as u16, bits[exit]);
        table.own[target] = bits[exit];
        table.counts[target * 2 + usize::from(bits[exit])] = 1;
    }
    table.targets[..4].copy_from_slice(&[1, 2, 3, 0]);
    table.bits[1] = 1;
    (table.counts[2], table.counts[6]) = (1, 1);
    // seven strong links to step 2, with step 0's, and five weak ones
    table.targets[4..8].fill(2);
    table.bits[4..8].fill(1);
    table.targets[12..14].fill(2);
    table.bits[12..14].fill(1);
    table.targets[a * 4..a * 4 + 4].fill(2);
    table.targets[b * 4] = 2;
    (table.counts[4], table.counts[5]) = (5, 7);
    table
}

/// Every field of every answer, and every argument, with a number of its own, so that no two can be exchanged unseen. Any two exits of step 2 have
/// different bits in one of the tables.
#[test]
fn no_field_is_exchanged() {
    for bits in [[0, 1, 0, 1], [0, 0, 1, 1], [1, 0, 0, 1]] {
        let given = different(bits);
        let mut table = Table::from_raw(given.clone()).unwrap();
        let fields = raw::read(&given, 2);
        let expected = raw::ReadReply {
            refusal: 0,
            kind: 3,
            content: 600,
            own: 1,
            targets: [4, 6, 8, 10],
            bits,
            counts: [5, 7],
            cabin: 2,
        };
        assert_eq!(fields, expected);
        let step = table.read(2).unwrap();
        assert_eq!((step.kind, step.own, step.counts), (Kind::Wait(600), 1, [5, 7]));
        assert_eq!((step.cabin, table.quotas()), (2, listed(11)));
        let link = |exit: usize, target| Some(Link { target, bit: bits[exit] });
        assert_eq!(step.exits, [link(0, 4), link(1, 6), link(2, 8), link(3, 10)]);
        for exit in Exit::ALL {
            assert_eq!(step.exit(exit), step.exits[usize::from(exit.number())]);
        }
        let kinds = [1, 3, 4, 6].map(|step| table.read(step).unwrap().kind);
        let [one, three, four, six] = kinds;
        assert_eq!((one, three), (Kind::Contact(11), Kind::Contact(12)));
        assert_eq!((four, six), (Kind::Message(13), Kind::Wait(14)));
        assert_eq!(table.counts(), Ok(Counts { in_use: 8, free: 3 }));
        assert_eq!(table.key_line(b"H*4A"), Ok((8, 3)));
        let mut trace = [99; 9];
        let reply = raw::trial(&given, 7, &[3; 5], &mut trace);
        assert_eq!(reply, raw::TrialReply { refusal: 0, ending: 2, last: 4, moves: 7 });
        assert_eq!(trace, [1, 2, 4, 2, 4, 2, 4, 99, 99]);
        let image = images_of(&table, bits);
        assert_eq!(Table::load(&image), Ok(table.clone()));
        // past the top, to the first free number
        assert_eq!(table.add(10, Exit::NoReply, Kind::Contact(99), 4), Ok(5));
        assert_eq!(table.read(10).unwrap().exits[2], Some(Link { target: 5, bit: 0 }));
        let new = table.read(5).unwrap();
        assert_eq!((new.kind, new.cabin), (Kind::Contact(99), 4));
        assert_eq!(table.link(2, Exit::LineFault, 8, Exit::Engaged), Ok(()));
        let copy = Link { target: 10, bit: 1 - bits[3] };
        assert_eq!(table.read(8).unwrap().exits, [None, Some(copy), None, None]);
        assert_eq!(table.clear(8, Exit::Engaged), Ok(Cleared { doubtful: 0, freed: 0 }));
        assert_eq!(table.clear(10, Exit::NoReply), Ok(Cleared { doubtful: 1, freed: 1 }));
        let last = raw::Table { last: 5, ..given };
        assert_eq!(*table.as_raw(), last);
    }
}

/// A ring 1 to 2 to 3 to 4 to 1 of a contact, a message, a wait and a contact, which step 0 enters at 1. From 4 a line fault leads to wait 5, and
/// from 1 an answer to contact 6; neither leads on. Message and wait have other exits too.
fn ring() -> Table {
    let mut table = fresh(7);
    for (holder, exit, kind) in [
        (0, Exit::Answered, Kind::Contact(1)),
        (1, Exit::Engaged, Kind::Message(2)),
        (2, Exit::Answered, Kind::Wait(3)),
        (3, Exit::Answered, Kind::Contact(4)),
        (4, Exit::LineFault, Kind::Wait(5)),
        (1, Exit::Answered, Kind::Contact(6)),
    ] {
        table.add(holder, exit, kind, 0).unwrap();
    }
    for (second, into) in [(4, Exit::NoReply), (2, Exit::Engaged), (3, Exit::NoReply)] {
        table.link(0, Exit::Answered, second, into).unwrap();
    }
    table
}

/// A trial has to end so, with this trace; bytes past it have to stay. The trace is as long as the limit, and then longer.
#[track_caller]
fn tried(table: &Table, limit: u16, results: &[u8], ending: Ending, entered: &[u8]) {
    for more in [0, 1, 5] {
        let mut trace = vec![99; usize::from(limit) + more];
        let trial = table.trial(limit, results, &mut trace).unwrap();
        let last = entered.last().map_or(0, |&step| step.into());
        assert_eq!((trial.ending, trial.last), (ending, last));
        assert_eq!(usize::from(trial.moves), entered.len());
        assert!(trace[..entered.len()] == *entered, "the steps entered");
        assert!(trace[entered.len()..].iter().all(|&byte| byte == 99), "bytes past the moves");
    }
}

/// Only contacts use up results, and step 0, a message and a wait take the answered exit. Spent comes before open, and open before stopped.
#[test]
fn trials() {
    let table = ring();
    let round = [1, 2, 3, 4, 1, 2, 3, 4, 5];
    tried(&table, 9, &[1, 2, 1, 3], Ending::Open, &round);
    tried(&table, 20, &[1, 2, 1, 3], Ending::Open, &round);
    tried(&table, 20, &[1, 2, 1, 3, 0, 2], Ending::Open, &round);
    for limit in [8, 9, 20] {
        tried(&table, limit, &[1, 2, 1], Ending::Spent, &round[..8]);
        tried(&table, limit, &[1, 2, 1, 0], Ending::Open, &round[..8]);
    }
    for limit in 0..8 {
        tried(&table, limit, &[1, 2, 1], Ending::Stopped, &round[..usize::from(limit)]);
    }
    tried(&table, 8, &[1, 2, 1, 3], Ending::Stopped, &round[..8]);
    for limit in [2, 3] {
        tried(&table, limit, &[0], Ending::Spent, &[1, 6]);
        tried(&table, limit, &[0, 0], Ending::Open, &[1, 6]);
    }
    tried(&table, 1, &[], Ending::Spent, &[1]);
    tried(&table, 0, &[], Ending::Stopped, &[]);
    let alarm = fresh(4);
    for limit in [0, 1, 65535] {
        tried(&alarm, limit, &[], Ending::Open, &[]);
        tried(&alarm, limit, &[0, 3], Ending::Open, &[]);
    }
    let mut chain = fresh(128);
    let upward = [(); 127].map(|_| {
        let last = chain.counts().unwrap().in_use - 1;
        chain.add(last, Exit::Answered, Kind::Message(0), 0).unwrap() as u8
    });
    tried(&chain, 127, &[3, 3], Ending::Open, &upward);
    tried(&chain, 126, &[3, 3], Ending::Stopped, &upward[..126]);
}

/// 1 before 10 before 11; all other numbers are 0, and no byte is written. Every result is looked at, and the trace is held to the limit alone.
#[test]
fn trials_refused() {
    let table = ring();
    let unsound = raw::Table { last: 7, ..table.as_raw().clone() };
    let refused = |table: &raw::Table, limit, results: &[u8], length, refusal| {
        let mut trace = vec![99; length];
        let reply = raw::trial(table, limit, results, &mut trace);
        assert_eq!(reply, raw::TrialReply { refusal, ..Default::default() });
        assert!(trace.iter().all(|&byte| byte == 99));
    };
    for (limit, results, length) in [(3, &[1][..], 3), (3, &[4], 2)] {
        refused(&unsound, limit, results, length, 1);
    }
    for limit in [0, 1, 2, 20] {
        for length in [0, 1, 20, 65_536] {
            refused(table.as_raw(), limit, &[0, 0, 4], length, 10);
            refused(table.as_raw(), limit, &[255, 0, 0], length, 10);
        }
    }
    for (limit, results, length) in [(1, 0, 0), (20, 1, 19), (20, 300, 19), (65535, 2, 65534)] {
        refused(table.as_raw(), limit, &vec![3; results], length, 11);
    }
    refused(table.as_raw(), 65535, &[], 0, 11);
}

/// Bytes as words of two bytes, the low one first.
fn words(bytes: &[u8]) -> Vec<u16> {
    bytes.chunks(2).map(|two| u16::from_le_bytes([two[0], two[1]])).collect()
}

/// The image of such a table, its header and its record of step 2 by their fields.
fn images_of(table: &Table, bits: [u16; 4]) -> Vec<u8> {
    let mut image = vec![0; 42 + 8 * 22];
    let length = image.len();
    assert_eq!((table.image_length(), table.write_image(&mut image)), (Ok(length), Ok(length)));
    let (header, steps) = image.split_at(42);
    assert_eq!(words(&header[..10]), [42, 3, 11, 9, 8]);
    let quotas = listed(11).map(|quota| [quota.guarantee, quota.limit]);
    assert_eq!(words(&header[10..]), quotas.concat());
    let record = steps.chunks(22).map(words).find(|record| record[2] == 2).unwrap();
    let sum = bits[0] + 2 * bits[1] + 4 * bits[2] + 8 * bits[3] + 16;
    assert_eq!(record, [22, 4, 2, 3, 600, sum, 4, 6, 8, 10, 2]);
    image
}

/// A clearing with three doubtful steps and one freed, by its call and by a key line.
#[test]
fn counts_of_a_clearing() {
    let mut table = fresh(9);
    for (holder, exit) in [(0, Exit::Answered), (1, Exit::Engaged), (2, Exit::LineFault)] {
        table.add(holder, exit, Kind::Message(holder), 0).unwrap();
    }
    table.link(1, Exit::Engaged, 0, Exit::NoReply).unwrap();
    let mut other = table.clone();
    assert_eq!(table.clear(0, Exit::Answered), Ok(Cleared { doubtful: 3, freed: 1 }));
    assert_eq!(other.key_line(b"H*30000A"), Ok((3, 1)));
    assert_eq!(table, other);
    assert_eq!(table.counts(), Ok(Counts { in_use: 3, free: 6 }));
    assert_eq!(table.key_line(b"H*100222042A"), Err(Refusal::BadKind));
    assert_eq!(table.key_line(b"H*100222015A"), Ok((4, 0)));
    assert_eq!(table.read(4).unwrap().kind, Kind::Message(15));
    assert_eq!(table.read(2).unwrap().exit(Exit::NoReply), Some(Link { target: 4, bit: 0 }));
}

/// Clears an exit with a slip: gives the table after it, the counts and the slip. It has to be what `clear` gives, and leave the bytes past the slip.
/// The room is just enough, and then more; one byte less, or none, is refused.
#[track_caller]
fn cleared(table: &Table, step: u16, exit: Exit) -> (Table, Cleared, Vec<u8>) {
    let mut after = table.clone();
    let counts = after.clear(step, exit).unwrap();
    let mut slip = vec![0; 50 + 44 * usize::from(counts.doubtful)];
    let length = slip.len();
    assert_eq!(table.clone().clear_with_slip(step, exit, &mut slip), Ok((counts, length)));
    // the last room is one byte short in 16 bits
    for more in [0, 1, 65_535] {
        let (mut other, mut buffer) = (table.clone(), vec![99; length + more]);
        assert_eq!(other.clear_with_slip(step, exit, &mut buffer), Ok((counts, length)));
        let (written, past) = buffer.split_at(length);
        assert!(other == after && written == slip && past.iter().all(|&byte| byte == 99));
    }
    for room in [0, length - 1] {
        not_cleared(WITH_SLIP, table.as_raw(), (step, exit.number()), room, Refusal::TooShort);
    }
    (after, counts, slip)
}

/// A call has to give this answer, write these steps and leave the bytes past them. The room is just enough, and then more.
#[track_caller]
fn lists_steps<T: PartialEq + Debug>(
    call: impl Fn(&mut [u8]) -> Result<T, Refusal>,
    answer: T,
    steps: &[u8],
) {
    let answer = Ok(answer);
    // the last room has 126 bytes in 16 bits
    for room in [127, 128, 65_535, 65_536, 65_536 + 126] {
        let mut buffer = vec![99; room];
        assert_eq!(call(&mut buffer), answer);
        let (written, past) = buffer.split_at(steps.len());
        assert!(written == steps && past.iter().all(|&byte| byte == 99), "{written:?}");
    }
}

/// A preview has to give this number of doubtful steps, write these steps, which go, and leave the table; 126 bytes, or none, are refused. The clearing,
/// made next, has to give the same counts and free just these steps.
#[track_caller]
fn foretold(table: &Table, step: u16, exit: Exit, doubtful: u16, steps: &[u8]) {
    let counts = Cleared { doubtful, freed: steps.len() as u16 };
    let mut after = table.clone();
    lists_steps(|buffer| after.preview_clear(step, exit, buffer), counts, steps);
    for room in [0, 126] {
        not_cleared(PREVIEW, table.as_raw(), (step, exit.number()), room, Refusal::TooShort);
    }
    assert_eq!(after, *table);
    assert_eq!((after.clear(step, exit), &gone(table, &after)[..]), (Ok(counts), steps));
}

/// The steps that some trial enters have to be these, so many of them contacts, and the table has to stay; 126 bytes, or none, are refused.
#[track_caller]
fn rung(table: &Table, contacts: u16, steps: &[u8]) {
    let (counts, lent) = (Rung { steps: steps.len() as u16, contacts }, table.clone());
    lists_steps(|buffer| lent.rung(buffer), counts, steps);
    for room in [0, 126] {
        not_cleared(RUNG, table.as_raw(), (0, 0), room, Refusal::TooShort);
    }
    assert_eq!(lent, *table);
}

/// The steps that are in use before and not after, ascending.
fn gone(before: &Table, after: &Table) -> Vec<u8> {
    let in_use = |table: &Table, step: u8| table.read(step.into()).is_ok();
    (0..128).filter(|&step| in_use(before, step) && !in_use(after, step)).collect()
}

/// A clearing with a slip, a preview of it, or the steps that some trial enters, which no exit is named for.
type Clearing = fn(&mut raw::Table, u16, u16, &mut [u8]) -> raw::Reply;
const WITH_SLIP: Clearing = raw::clear_with_slip;
const PREVIEW: Clearing = |table, step, exit, buffer| raw::preview_clear(table, step, exit, buffer);
const RUNG: Clearing = |table, _, _, buffer| raw::rung(table, buffer);

/// Such a call has to be refused so, with no other number, and change nothing.
#[track_caller]
fn not_cleared(
    clear: Clearing,
    table: &raw::Table,
    (step, exit): (u16, u16),
    room: usize,
    refusal: Refusal,
) {
    let (mut lent, mut buffer) = (table.clone(), vec![99; room]);
    let reply = clear(&mut lent, step, exit, &mut buffer);
    assert_eq!(reply, raw::Reply { refusal: refusal.number(), first: 0, second: 0 });
    assert!(lent == *table && buffer.iter().all(|&byte| byte == 99));
}

/// A slip has to be refused, and nothing changes.
#[track_caller]
fn not_taken_back(table: &Table, slip: &[u8]) {
    let mut after = table.clone();
    assert_eq!((after.take_back(slip), &after), (Err(Refusal::SlipNotAccepted), table));
}

/// A chain of 127 steps.
fn full() -> Table {
    let mut table = fresh(128);
    for step in 0..127 {
        table.add(step, Exit::Answered, Kind::Contact(0), 0).unwrap();
    }
    table
}

/// Every exit of several tables, cleared and taken back, once, and told beforehand. A slip cut short, or with a byte more, is refused.
#[test]
fn clearings_taken_back() {
    let different = |bits| Table::from_raw(different(bits)).unwrap();
    for table in [ring(), different([0, 1, 0, 1]), different([0, 0, 1, 1]), different([1, 0, 0, 1])]
    {
        let exits = (0..11).flat_map(|step| Exit::ALL.map(|exit| (step, exit)));
        for (step, exit) in exits {
            if let Err(refusal) = table.clone().clear(step, exit) {
                for call in [WITH_SLIP, PREVIEW] {
                    not_cleared(call, table.as_raw(), (step, exit.number()), 50, refusal);
                }
                continue;
            }
            let (mut after, counts, slip) = cleared(&table, step, exit);
            foretold(&table, step, exit, counts.doubtful, &gone(&table, &after));
            for length in 0..slip.len() {
                not_taken_back(&after, &slip[..length]);
            }
            not_taken_back(&after, &[&slip[..], &[0]].concat());
            assert_eq!((after.take_back(&slip), &after), (Ok(counts.freed), &table));
            not_taken_back(&after, &slip);
        }
    }
    let full = full();
    let (mut after, _, slip) = cleared(&full, 0, Exit::Answered);
    assert_eq!(slip.len(), SLIP_MAX);
    not_taken_back(&after, &[&slip[..], &[0; 65_536]].concat());
    assert_eq!((after.take_back(&slip), after), (Ok(127), full));
}

/// A table of three cabins: step 2 stays where exit 0 of step 0 is cleared, and step 1 goes. One free step is kept for cabin 0.
fn three_cabins() -> Table {
    let mut table = Table::fresh(5, &list(&[(1, 1), (0, 2), (0, 0), (0, 2)])).unwrap();
    table.add(0, Exit::Answered, Kind::Contact(7), 3).unwrap();
    table.add(1, Exit::NoReply, Kind::Wait(600), 1).unwrap();
    table.link(1, Exit::NoReply, 0, Exit::LineFault).unwrap();
    table
}

/// The slip by its words: step, exit and the number of changed steps, then the old and the new record of each.
#[test]
fn slips() {
    let (_, counts, slip) = cleared(&three_cabins(), 0, Exit::Answered);
    assert_eq!(counts, Cleared { doubtful: 2, freed: 1 });
    let head = [0, 0, 3];
    let steps = [
        [22, 4, 0, 0, 0, 8, 1, 0, 0, 2, 0, 22, 4, 0, 0, 0, 8, 0, 0, 0, 2, 0],
        [22, 4, 1, 1, 7, 0, 0, 0, 2, 0, 3, 22, 4, 1, 0, 0, 0, 0, 0, 0, 0, 0],
        [22, 4, 2, 3, 600, 0, 0, 0, 0, 0, 1, 22, 4, 2, 3, 600, 16, 0, 0, 0, 0, 1],
    ];
    assert_eq!(words(&slip), [&head[..], &steps.concat()].concat());
    let (_, _, slip) = cleared(&three_cabins(), 0, Exit::LineFault);
    assert_eq!(words(&slip[..6]), [0, 3, 1]);
}

/// Steps that would go, by their numbers: of a ring, of a chain against the order of numbers, and all of them.
#[test]
fn previews() {
    let table = ring();
    foretold(&table, 0, Exit::Answered, 6, &[1, 2, 3, 4, 5, 6]);
    foretold(&table, 2, Exit::Answered, 3, &[3, 4, 5]);
    foretold(&table, 1, Exit::Answered, 1, &[6]);
    // weak links back to step 1
    for (step, exit) in [(4, Exit::NoReply), (2, Exit::Engaged), (3, Exit::NoReply)] {
        foretold(&table, step, exit, 0, &[]);
    }
    // a weak link keeps steps 4 and 5 of four doubtful ones, and then all of them
    let mut table = ring();
    table.link(3, Exit::Answered, 0, Exit::NoReply).unwrap();
    foretold(&table, 1, Exit::Engaged, 4, &[2, 3]);
    table.link(1, Exit::Engaged, 4, Exit::Answered).unwrap();
    foretold(&table, 1, Exit::Engaged, 4, &[]);
    foretold(&table, 0, Exit::NoReply, 0, &[]);
    // step 3 leads to 1, and 2 stays
    let mut table = fresh(4);
    for exit in [Exit::Answered, Exit::Engaged, Exit::NoReply] {
        table.add(0, exit, Kind::Wait(1), 0).unwrap();
    }
    table.link(0, Exit::Answered, 3, Exit::NoReply).unwrap();
    foretold(&table, 0, Exit::Answered, 1, &[]);
    table.clear(0, Exit::Answered).unwrap();
    foretold(&table, 0, Exit::NoReply, 2, &[1, 3]);
    let three = three_cabins();
    foretold(&three, 0, Exit::Answered, 2, &[1]);
    foretold(&three, 0, Exit::LineFault, 0, &[]);
    // a chain of all steps; then one that stays, held from its end
    let mut full = full();
    let all: Vec<u8> = (1..128).collect();
    assert_eq!((all.len(), PREVIEW_ROOM), (STEPS_ROOM, STEPS_ROOM));
    foretold(&full, 0, Exit::Answered, 127, &all);
    foretold(&full, 126, Exit::Answered, 1, &[127]);
    full.link(126, Exit::Answered, 0, Exit::Engaged).unwrap();
    foretold(&full, 0, Exit::Answered, 127, &all[..126]);
    full.link(0, Exit::Answered, 127, Exit::Engaged).unwrap();
    foretold(&full, 0, Exit::Answered, 127, &[]);
}

/// The steps of trials with all results that there are. So many results and moves are enough: a step that some trial enters is entered on a way that
/// meets no step twice.
fn entered(table: &Table) -> Vec<u8> {
    let in_use = table.counts().unwrap().in_use;
    let mut steps = std::collections::BTreeSet::new();
    for results in 0..1u32 << (2 * (in_use - 1)) {
        let results: Vec<u8> = (1..in_use).map(|k| (results >> (2 * (k - 1)) & 3) as u8).collect();
        let mut trace = vec![0; usize::from(in_use)];
        let moves = table.trial(in_use, &results, &mut trace).unwrap().moves;
        steps.extend(&trace[..usize::from(moves)]);
    }
    steps.into_iter().collect()
}

/// The steps that some trial enters, by their numbers: of rings and of tables in which step 2 is a wait, all of them, and as trials enter them.
#[test]
fn steps_entered() {
    rung(&fresh(4), 0, &[]);
    let table = ring();
    rung(&table, 3, &[1, 2, 3, 4, 5, 6]);
    for (step, exit) in (0..7).flat_map(|step| Exit::ALL.map(|exit| (step, exit))) {
        let mut other = table.clone();
        if other.clear(step, exit).is_ok() {
            let steps = entered(&other);
            let contact =
                |&&step: &&u8| matches!(other.read(step.into()).unwrap().kind, Kind::Contact(_));
            rung(&other, steps.iter().filter(contact).count() as u16, &steps);
        }
    }
    let mut table = Table::from_raw(different([0, 1, 0, 1])).unwrap();
    rung(&table, 1, &[1, 2, 4]);
    // what stood behind another exit of the wait stands behind the answered one too
    table.clear(2, Exit::Answered).unwrap();
    table.link(2, Exit::Engaged, 2, Exit::Answered).unwrap();
    rung(&table, 1, &[1, 2, 6]);
    let mut full = full();
    let all: Vec<u8> = (1..128).collect();
    rung(&full, 127, &all);
    full.link(63, Exit::Answered, 0, Exit::Engaged).unwrap();
    full.clear(63, Exit::Answered).unwrap();
    rung(&full, 63, &all[..63]);
}

/// The caretaker's plan: a message, contact 42, and on no reply the primary and nine more. The alarm's engaged exit leads to the primary too, so that all
/// ten stay in use where contact 42's exit for no reply is cleared, and no trial enters them. A squeeze gives the steps entered new numbers.
#[test]
fn the_primary_is_held_and_not_rung() {
    let mut table = fresh(33);
    table.add(0, Exit::Engaged, Kind::Wait(1), 0).unwrap();
    table.add(0, Exit::Answered, Kind::Message(3), 0).unwrap();
    table.clear(0, Exit::Engaged).unwrap();
    table.add(2, Exit::Answered, Kind::Contact(42), 0).unwrap();
    for step in 3..13 {
        table.add(step, Exit::NoReply, Kind::Contact(step - 3), 0).unwrap();
    }
    table.link(3, Exit::NoReply, 0, Exit::Engaged).unwrap();
    let all: Vec<u8> = (2..14).collect();
    rung(&table, 11, &all);
    tried(&table, 12, &[2; 10], Ending::Spent, &all);
    let cleared = table.clear(3, Exit::NoReply).unwrap();
    assert_eq!(cleared, Cleared { doubtful: 10, freed: 0 });
    assert_eq!(table.read(4).unwrap().kind, Kind::Contact(0));
    rung(&table, 1, &[2, 3]);
    for result in 0..4 {
        tried(&table, 12, &[result], Ending::Open, &[2, 3]);
    }
    table.squeeze(13, &sole_quotas(13)).unwrap();
    rung(&table, 1, &[1, 2]);
}

/// 1 before 11, of the steps that some trial enters, and 11 whatever the table.
#[test]
fn steps_entered_refused() {
    let unsound = raw::Table { last: 7, ..ring().into_raw() };
    for room in [0, 1, STEPS_ROOM - 1, STEPS_ROOM] {
        not_cleared(RUNG, &unsound, (0, 0), room, Refusal::NotSound);
    }
    for table in [fresh(1), ring(), full()] {
        for room in [0, 1, STEPS_ROOM - 1] {
            assert_eq!(table.rung(&mut vec![0; room]), Err(Refusal::TooShort));
            not_cleared(RUNG, table.as_raw(), (0, 0), room, Refusal::TooShort);
        }
    }
}

/// 1 before 3 before 4 before 6 before 11, of a clearing with a slip and of a preview. A safe table is sound, so 1 is for the calls on any table.
#[test]
fn clearings_refused() {
    let table = three_cabins();
    let unsound = raw::Table { last: 5, ..table.as_raw().clone() };
    for (call, room) in [
        (WITH_SLIP, 0),
        (WITH_SLIP, SLIP_MAX),
        (PREVIEW, 0),
        (PREVIEW, STEPS_ROOM - 1),
        (PREVIEW, STEPS_ROOM),
    ] {
        for place in [(0, 0), (9, 9)] {
            not_cleared(call, &unsound, place, room, Refusal::NotSound);
        }
        for (place, refusal) in [
            ((3, 4), Refusal::NotInUse),
            ((65535, 0), Refusal::NotInUse),
            ((256, 65535), Refusal::NotInUse),
            ((0, 4), Refusal::BadExit),
            ((1, 256), Refusal::BadExit),
            ((0, 65535), Refusal::BadExit),
            ((0, 1), Refusal::ExitEmpty),
        ] {
            not_cleared(call, table.as_raw(), place, room, refusal);
        }
    }
    // 126 bytes are too few for any table, and even where nothing would go
    for room in [0, 1, STEPS_ROOM - 1] {
        for place in [(0, 0), (0, 3), (1, 2)] {
            not_cleared(PREVIEW, table.as_raw(), place, room, Refusal::TooShort);
        }
    }
}

/// 1 before 18, and what no clearing left.
#[test]
fn slips_refused() {
    let table = three_cabins();
    let (after, _, slip) = cleared(&table, 0, Exit::Answered);
    let unsound = raw::Table { last: 5, ..after.as_raw().clone() };
    for slip in [&slip[..], &[]] {
        let mut lent = unsound.clone();
        let reply = raw::take_back(&mut lent, slip);
        assert_eq!((reply, &lent), (raw::Reply { refusal: 1, first: 0, second: 0 }, &unsound));
    }
    // what no clearing of this table left
    not_taken_back(&table, &slip);
    for other in [vec![], vec![0; 6], vec![0; 138], vec![255; 138]] {
        not_taken_back(&after, &other);
    }
    // the step, the exit, the number of steps; lengths, kinds, numbers and fields of records
    for at in [0, 2, 3, 4, 5, 6, 8, 10, 16, 18, 28, 50, 54, 72, 76, 98, 103, 120, 137] {
        let mut damaged = slip.clone();
        damaged[at] ^= 64;
        not_taken_back(&after, &damaged);
    }
    let (head, steps) = slip.split_at(6);
    let [first, second, third] = [&steps[..44], &steps[44..88], &steps[88..]];
    not_taken_back(&after, &[head, first, third, second].concat());
    not_taken_back(&after, &[&[0, 0, 2, 0, 0, 0], first, second].concat());
    not_taken_back(&after, &[&[0, 0, 0, 0, 4, 0], first, second, third, third].concat());
}

/// What may happen between a clearing and its take-back. The last number given stays.
#[test]
fn changes_before_a_take_back() {
    let before = three_cabins();
    let (after, _, slip) = cleared(&before, 0, Exit::Answered);
    let add = |table: &mut Table, step, exit, cabin| table.add(step, exit, Kind::Wait(1), cabin);
    // calls that change nothing
    let mut table = after.clone();
    assert_eq!(add(&mut table, 9, Exit::Answered, 0), Err(Refusal::NotInUse));
    assert_eq!(table.counts(), Ok(Counts { in_use: 2, free: 3 }));
    assert_eq!((table.take_back(&slip), &table), (Ok(1), &before));
    // a step at the cleared exit, which goes again
    let mut table = after.clone();
    assert_eq!(add(&mut table, 0, Exit::Answered, 0), Ok(3));
    not_taken_back(&table, &slip);
    assert_eq!(table.clear(0, Exit::Answered), Ok(Cleared { doubtful: 1, freed: 1 }));
    assert_eq!(table.take_back(&slip), Ok(1));
    assert_eq!(*table.as_raw(), raw::Table { last: 3, ..before.as_raw().clone() });
    // a step elsewhere, which stays; where cabin 0 did not add it, no step would be left for cabin 0
    let mut before = before;
    before.add(0, Exit::Engaged, Kind::Message(3), 3).unwrap();
    let (after, _, slip) = cleared(&before, 0, Exit::Answered);
    let mut table = after.clone();
    assert_eq!(add(&mut table, 3, Exit::Answered, 0), Ok(4));
    assert_eq!(add(&mut before, 3, Exit::Answered, 0), Ok(4));
    assert_eq!((table.take_back(&slip), &table), (Ok(1), &before));
    for cabin in [1, 3] {
        let mut table = after.clone();
        assert_eq!(add(&mut table, 3, Exit::Answered, cabin), Ok(4));
        not_taken_back(&table, &slip);
    }
    // a number given again
    let mut table = after.clone();
    assert_eq!(add(&mut table, 3, Exit::Answered, 0), Ok(4));
    table.clear(3, Exit::Answered).unwrap();
    assert_eq!(add(&mut table, 3, Exit::Answered, 0), Ok(1));
    not_taken_back(&table, &slip);
}

/// What a table holds but for bits and counters: its numbers, its list, and of each step the kind, the targets and the cabin.
fn plan_of(table: &Table) -> impl PartialEq + Debug {
    let raw = table.as_raw();
    let steps = (0..raw.capacity).map(|number| {
        let step = table.read(number).ok()?;
        Some((step.kind, step.exits.map(|link| link.map(|link| link.target)), step.cabin))
    });
    (raw.capacity, raw.last, raw.quotas, steps.collect::<Vec<_>>())
}

/// The table after clearings, made one after the other, and their answers.
type Made = (Table, Vec<Result<Cleared, Refusal>>);

fn in_order(table: &Table, exits: &[(u16, Exit)]) -> Made {
    let mut after = table.clone();
    let answers = exits.iter().map(|&(step, exit)| after.clear(step, exit)).collect();
    (after, answers)
}

/// What has to be the same in every order: the plan, and the sum of the freed counts.
fn ends(made: &Made) -> (impl PartialEq + Debug, u16) {
    let freed = made.1.iter().flatten().map(|cleared| cleared.freed).sum();
    (plan_of(&made.0), freed)
}

/// The ring, held at its third step too; and all exits of its steps, and of one past them.
fn held_ring() -> (Table, Vec<(u16, Exit)>) {
    let mut table = ring();
    table.link(2, Exit::Answered, 0, Exit::Engaged).unwrap();
    (table, (0..8).flat_map(|step| Exit::ALL.map(|exit| (step, exit))).collect())
}

/// Two clearings in either order (W14). The second gets 3 if the first freed its step, 6 if it is the first again, and else what it gets alone. An exit
/// that can be cleared first gets 3 in one order at most. Some pairs leave two tables of one plan.
#[test]
fn clearings_in_either_order() {
    let (table, exits) = held_ring();
    let (mut refused, mut others) = (0, 0);
    for (a, b) in exits.iter().flat_map(|&a| exits.iter().map(move |&b| (a, b))) {
        let [one, other] = [[a, b], [b, a]].map(|exits| in_order(&table, &exits));
        assert_eq!(ends(&one), ends(&other), "{a:?}, {b:?}");
        let (alone, stays) = (other.1[0], in_order(&table, &[a]).0.read(b.0).is_ok());
        let expected = match alone {
            _ if !stays => Err(Refusal::NotInUse),
            Ok(_) if a == b => Err(Refusal::ExitEmpty),
            _ => alone.map(|_| ()),
        };
        assert_eq!(one.1[1].map(|_| ()), expected, "{a:?}, {b:?}");
        if alone.is_ok() && !stays {
            assert!(other.1[1].is_ok(), "{a:?}, {b:?}");
            refused += 1;
        }
        assert_eq!(one.0 == other.0, image_of(&one.0) == image_of(&other.0));
        others += usize::from(one.0 != other.0);
    }
    assert_eq!((refused, others), (4, 6));
}

/// Three clearings in any order, refused and repeated ones too, end as their exits do, each cleared once and in ascending order.
#[test]
fn clearings_in_any_order() {
    let (table, exits) = held_ring();
    for (i, j, k) in (0..32 * 32 * 32).map(|row| (row / 1024, row / 32 % 32, row % 32)) {
        let row = [i, j, k].map(|at| exits[at]);
        let mut once = row.to_vec();
        once.sort();
        once.dedup();
        assert_eq!(ends(&in_order(&table, &row)), ends(&in_order(&table, &once)), "{row:?}");
    }
}

/// The most moves, by a wait and by a contact, and lengths that 16 bits do not hold.
#[test]
fn long_lengths() {
    let mut table = fresh(4);
    table.add(0, Exit::Answered, Kind::Wait(600), 0).unwrap();
    table.link(0, Exit::Answered, 1, Exit::Answered).unwrap();
    tried(&table, 65535, &[], Ending::Stopped, &[1; 65535]);
    tried(&table, 65535, &[3; 65_536], Ending::Stopped, &[1; 65535]);
    table.reset(4, &sole_quotas(4)).unwrap();
    table.add(0, Exit::Answered, Kind::Contact(0), 0).unwrap();
    table.link(0, Exit::Answered, 1, Exit::Engaged).unwrap();
    for results in [65_535, 65_536, 65_537, 70_000] {
        tried(&table, 65535, &vec![1; results], Ending::Stopped, &[1; 65535]);
        tried(&table, 300, &vec![1; results], Ending::Stopped, &[1; 300]);
    }
    tried(&table, 65535, &[1; 65_534], Ending::Spent, &[1; 65535]);
    tried(&table, 65535, &[1; 65_533], Ending::Spent, &[1; 65534]);
    let mut lent = vec![99; 70_001];
    assert_eq!(table.trial(65535, &[1; 70_000], &mut lent[..65_534]), Err(Refusal::TooShort));
    for length in [65_535, 65_536, 65_537, 70_001] {
        let trial = table.trial(256, &[1; 300], &mut lent[..length]).unwrap();
        assert_eq!((trial.ending, trial.last, trial.moves), (Ending::Stopped, 1, 256));
        assert!(lent[..256].iter().all(|&step| step == 1) && lent[256] == 99);
    }
    assert_eq!(table.write_image(&mut lent[..65_536]), Ok(86));
    assert_eq!(Table::load(&lent[..86]), Ok(table.clone()));
    assert_eq!(Table::load(&lent[..86 + 65_536]), Err(Refusal::NotAccepted));
    assert_eq!(table.key_line(&b"H*4A".repeat(250_000)), Err(Refusal::NotKeyLine));
}

#[test]
fn refused_calls_change_nothing() {
    let mut table = fresh(2);
    assert_eq!(table.add(0, Exit::Answered, Kind::Contact(0), 0), Ok(1));
    let before = table.clone();
    assert_eq!(table.add(2, Exit::Answered, Kind::Contact(0), 0), Err(Refusal::NotInUse));
    assert_eq!(table.add(0, Exit::Answered, Kind::Contact(0), 0), Err(Refusal::ExitFilled));
    for kind in [
        Kind::Alarm,
        Kind::Contact(1000),
        Kind::Message(16),
        Kind::Wait(0),
        Kind::Wait(601),
        Kind::Other(257, 0),
    ] {
        assert_eq!(table.add(0, Exit::Engaged, kind, 0), Err(Refusal::BadKind));
    }
    assert_eq!(table.add(0, Exit::Engaged, Kind::Wait(1), 0), Err(Refusal::Full));
    assert_eq!(table.link(0, Exit::Engaged, 1, Exit::Answered), Err(Refusal::ExitEmpty));
    assert_eq!(table.clear(1, Exit::NoReply), Err(Refusal::ExitEmpty));
    assert_eq!(table.clear(65535, Exit::NoReply), Err(Refusal::NotInUse));
    assert_eq!(table.preview_clear(1, Exit::NoReply, &mut [0; 127]), Err(Refusal::ExitEmpty));
    assert_eq!(table.preview_clear(0, Exit::Answered, &mut [0; 126]), Err(Refusal::TooShort));
    assert_eq!(table.key_line(b"H*5A"), Err(Refusal::NotKeyLine));
    assert_eq!(table.read(2), Err(Refusal::NotInUse));
    assert_eq!(table.trial(1, &[9], &mut [0]), Err(Refusal::BadResult));
    assert_eq!(table.trial(5, &[0; 4], &mut [0; 4]), Err(Refusal::TooShort));
    assert_eq!(table.write_image(&mut [0; 85]), Err(Refusal::TooShort));
    assert_eq!(table, before);
}

#[test]
fn images() {
    let mut table = fresh(4);
    assert_eq!(table.image_length(), Ok(64));
    table.add(0, Exit::LineFault, Kind::Wait(1), 0).unwrap();
    let mut image = [0; IMAGE_MAX];
    assert_eq!((table.image_length(), table.write_image(&mut image)), (Ok(86), Ok(86)));
    assert_eq!(Table::load(&image[..86]), Ok(table.clone()));
    assert_eq!(Table::load(&image), Err(Refusal::NotAccepted));
    let mut other = fresh(128);
    assert_eq!((other.reload(&image[..86]), &other), (Ok(()), &table));
    assert_eq!(other.reload(&image), Err(Refusal::NotAccepted));
    assert_eq!((&other, other.quotas()), (&fresh(1), Quotas::default()));
    let full = full();
    assert_eq!(full.write_image(&mut image), Ok(IMAGE_MAX));
}

#[test]
fn one_table_one_image() {
    let mut table = fresh(4);
    table.add(0, Exit::Answered, Kind::Contact(0), 0).unwrap();
    table.add(1, Exit::Engaged, Kind::Wait(1), 0).unwrap();
    let mut image = [0; 108];
    assert_eq!(table.write_image(&mut image), Ok(108));
    let reversed = [&image[..42], &image[86..], &image[64..86], &image[42..64]].concat();
    let loaded = Table::load(&reversed).unwrap();
    let mut again = [0; 108];
    assert_eq!((&loaded, loaded.write_image(&mut again)), (&table, Ok(108)));
    assert_eq!(again, image);
}

/// The records of a written image in edition 1, without list and cabins.
fn in_edition_1(image: &[u8]) -> Vec<Vec<u8>> {
    let (header, steps) = image.split_at(42);
    let step = |step: &[u8]| [&[20, 0, 2, 0], &step[4..20]].concat();
    [[&[10, 0, 1, 0], &header[4..10]].concat()]
        .into_iter()
        .chain(steps.chunks(22).map(step))
        .collect()
}

/// Example P10 of document 01: a fresh table of capacity 4 in edition 1.
fn p10() -> Vec<u8> {
    [&[10, 0, 1, 0, 4, 0, 0, 0, 1, 0, 20, 0, 2][..], &[0; 17]].concat()
}

/// An image of edition 1 is the table that cabin 0 has to itself, and is written in edition 2. Records of both editions are not one image.
#[test]
fn editions() {
    let table = ring();
    let mut image = [0; 42 + 7 * 22];
    assert_eq!(table.write_image(&mut image), Ok(image.len()));
    let old = in_edition_1(&image);
    let loaded = Table::load(&old.concat()).unwrap();
    assert_eq!((&loaded, loaded.quotas()), (&table, sole_quotas(7)));
    let mut again = image;
    again.fill(0);
    assert_eq!((loaded.write_image(&mut again), again), (Ok(image.len()), image));
    let new: Vec<Vec<u8>> = [image[..42].to_vec()]
        .into_iter()
        .chain(image[42..].chunks(22).map(<[u8]>::to_vec))
        .collect();
    for (ours, theirs) in [(&old, &new), (&new, &old)] {
        for place in 0..ours.len() {
            let mut mixed = ours.clone();
            mixed[place] = theirs[place].clone();
            assert_eq!(Table::load(&mixed.concat()), Err(Refusal::NotAccepted), "record {place}");
        }
    }
    let mut none = old.clone();
    none[0][4] = 0;
    assert_eq!(Table::load(&none.concat()), Err(Refusal::NotAccepted));
    assert_eq!(Table::load(&p10()), Ok(fresh(4)));
}

type Conversion = fn(&[u8], &mut [u8]) -> Result<usize, Refusal>;

/// A conversion has to give this image and leave the bytes past it. The room is just enough, and then more; one byte less, or none, is refused.
#[track_caller]
fn converted(convert: Conversion, given: &[u8], image: &[u8]) {
    // the last room is one byte short in 16 bits
    for more in [0, 1, 65_535] {
        let mut buffer = vec![99; image.len() + more];
        assert_eq!(convert(given, &mut buffer), Ok(image.len()));
        let (written, past) = buffer.split_at(image.len());
        assert!(written == image && past.iter().all(|&byte| byte == 99), "{written:?}");
    }
    for room in [0, image.len() - 1] {
        not_converted(convert, given, room, Refusal::TooShort);
    }
}

/// A conversion has to be refused so, and write nothing.
#[track_caller]
fn not_converted(convert: Conversion, given: &[u8], room: usize, refusal: Refusal) {
    let mut buffer = vec![99; room];
    assert_eq!(convert(given, &mut buffer), Err(refusal));
    assert!(buffer.iter().all(|&byte| byte == 99));
}

/// An image has to be refused by the loader and by the conversion to the other edition, whatever the room.
#[track_caller]
fn not_accepted(image: &[u8], convert: Conversion) {
    assert_eq!(Table::load(image), Err(Refusal::NotAccepted));
    for room in [0, IMAGE_MAX] {
        not_converted(convert, image, room, Refusal::NotAccepted);
    }
}

/// The image of a table.
fn image_of(table: &Table) -> Vec<u8> {
    let mut image = vec![0; table.image_length().unwrap()];
    assert_eq!(table.write_image(&mut image), Ok(image.len()));
    image
}

/// The images of a table in both editions are converted into each other, with their records in either order. One that is of the edition already, is cut
/// short or goes on is refused.
#[test]
fn conversions() {
    let one_cabin = |mut table: raw::Table| {
        (table.cabins, table.quotas) = ([0; 128], sole_quotas(table.capacity));
        table.own[0] = 1;
        Table::from_raw(table).unwrap()
    };
    let mut full = fresh(128);
    for step in 0..127 {
        full.add(step, Exit::ALL[usize::from(step) % 4], Kind::Wait(600), 0).unwrap();
    }
    let patterns = [[0, 1, 0, 1], [0, 0, 1, 1], [1, 0, 0, 1]].map(different).map(one_cabin);
    for table in [fresh(1), fresh(4), fresh(128), ring(), full].iter().chain(&patterns) {
        let image = image_of(table);
        let old = in_edition_1(&image).concat();
        let pairs: [(Conversion, Conversion, _, _, _, _); 2] = [
            (convert_up, convert_down, 10, 20, &old, &image),
            (convert_down, convert_up, 42, 22, &image, &old),
        ];
        for (convert, back, header, step, given, other) in pairs {
            let records = given[header..].chunks(step).rev();
            let turned = [&given[..header]].into_iter().chain(records).collect::<Vec<_>>().concat();
            converted(convert, given, other);
            converted(convert, &turned, other);
            for room in [0, IMAGE_MAX] {
                not_converted(back, &turned, room, Refusal::NotAccepted);
                not_converted(convert, &[], room, Refusal::NotAccepted);
            }
            not_converted(convert, &given[..given.len() - 1], IMAGE_MAX, Refusal::NotAccepted);
            for more in [1, 65_536] {
                let long = [&given[..], &vec![0; more]].concat();
                not_converted(convert, &long, IMAGE_MAX, Refusal::NotAccepted);
            }
        }
    }
    converted(convert_down, &image_of(&fresh(4)), &p10());
    for (length, reply) in [(64, (0, 64)), (63, (11, 0))] {
        let raw::WriteReply { refusal, length } = raw::convert_up(&p10(), &mut vec![0; length]);
        assert_eq!((refusal, length), reply);
    }
    for (length, reply) in [(30, (0, 30)), (29, (11, 0))] {
        let image = image_of(&fresh(4));
        let raw::WriteReply { refusal, length } = raw::convert_down(&image, &mut vec![0; length]);
        assert_eq!((refusal, length), reply);
    }
}

/// What edition 1 cannot say: 17 after 12 and before 11.
#[test]
fn conversions_refused() {
    let mut tables = vec![Table::from_raw(different([0, 1, 0, 1])).unwrap()];
    for pairs in [&[][..], &[(3, 4)], &[(2, 3)], &[(0, 3)], &[(3, 65535)], &[(2, 3), (1, 1)]] {
        tables.push(Table::fresh(4, &list(pairs)).unwrap());
    }
    for cabin in 1..CABINS {
        let mut quotas = sole_quotas(4);
        quotas[cabin].limit = 256;
        tables.push(Table::fresh(4, &quotas).unwrap());
        quotas[0].guarantee = 2;
        let mut table = Table::fresh(4, &quotas).unwrap();
        table.add(0, Exit::Answered, Kind::Contact(0), cabin as u16).unwrap();
        tables.push(table);
    }
    for table in tables {
        let mut image = image_of(&table);
        for room in [0, IMAGE_MAX] {
            not_converted(convert_down, &image, room, Refusal::NeedsEdition2);
            not_converted(convert_up, &image, room, Refusal::NotAccepted);
        }
        let reply = raw::convert_down(&image, &mut []);
        assert_eq!(reply, raw::WriteReply { refusal: 17, length: 0 });
        // step 0 with a cabin
        image[42 + 20] = 1;
        not_converted(convert_down, &image, 0, Refusal::NotAccepted);
    }
    // a step of another cabin under the list of edition 1 passes the limit of that cabin
    let mut image = image_of(&ring());
    image[42 + 22 + 20] = 1;
    not_converted(convert_down, &image, IMAGE_MAX, Refusal::NotAccepted);
}

/// Longer phone books (W9): a content is taken or refused wherever it can be given, in an add, in a key line, in a table of the caller's and in images of
/// both editions, loaded and converted. The range of contacts is another in edition 1.
#[test]
fn contents() {
    let mut given = fresh(4);
    given.add(0, Exit::Answered, Kind::Wait(1), 0).unwrap();
    let given_image = image_of(&given);
    for (number, range, old_range) in
        [(1, 0..=999, 0..=99), (2, 0..=15, 0..=15), (3, 1..=600, 1..=600)]
    {
        for content in (0..1100).chain([32_768 + 50, 65_535]) {
            let kind = Kind::of_numbers(number, content);
            let mut kept = given.as_raw().clone();
            (kept.kinds[1], kept.contents[1]) = (number, content);
            let expected = Table::from_raw(kept);
            assert_eq!(expected.is_ok(), range.contains(&content), "{kind}");
            let mut image = given_image.clone();
            let fields = [number, content].map(u16::to_le_bytes).concat();
            image[42 + 22 + 6..][..4].copy_from_slice(&fields);
            let old = in_edition_1(&image).concat();
            let mut added = fresh(4);
            let wanted = expected.as_ref().map(|_| 1).map_err(|_| Refusal::BadKind);
            assert_eq!(added.add(0, Exit::Answered, kind, 0), wanted, "{kind}");
            if content < 1000 {
                let mut keyed = fresh(4);
                let answer = keyed.key_line(format!("H*10000{number}{content:03}A").as_bytes());
                assert_eq!((answer, &keyed), (wanted.map(|step| (step, 0)), &added));
            }
            let Ok(table) = expected else {
                assert_eq!(added, fresh(4));
                not_accepted(&image, convert_down);
                not_accepted(&old, convert_up);
                continue;
            };
            assert_eq!((&added, Table::load(&image)), (&table, Ok(table.clone())));
            if old_range.contains(&content) {
                assert_eq!(Table::load(&old), Ok(table));
                converted(convert_up, &old, &image);
                converted(convert_down, &image, &old);
            } else {
                not_accepted(&old, convert_up);
                for room in [0, old.len(), IMAGE_MAX] {
                    not_converted(convert_down, &image, room, Refusal::NeedsEdition2);
                }
            }
        }
    }
}

/// Contacts above 99 among others: the first or the last of them is enough for 17, which comes after 12. Squeezed, cleared and taken back they stay what
/// they are, and a slip can bring back contact 999 and not contact 1000.
#[test]
fn larger_contacts() {
    for larger in 0..4 {
        let mut table = fresh(8);
        for (step, content) in [99, 99, 0, 1].into_iter().enumerate() {
            let content = if step == larger { 999 } else { content };
            table.add(step as u16, Exit::Answered, Kind::Contact(content), 0).unwrap();
        }
        let image = image_of(&table);
        not_converted(convert_down, &image, 0, Refusal::NeedsEdition2);
        not_converted(convert_down, &image[..image.len() - 1], 0, Refusal::NotAccepted);
        let mut old = in_edition_1(&image);
        not_accepted(&old.concat(), convert_up);
        old[1..].reverse();
        not_accepted(&old.concat(), convert_up);
        // beside another list
        table.squeeze(8, &list(&[(4, 5), (1, 1)])).unwrap();
        not_converted(convert_down, &image_of(&table), 0, Refusal::NeedsEdition2);
    }
    let mut table = fresh(4);
    table.add(0, Exit::Answered, Kind::Wait(1), 0).unwrap();
    table.add(0, Exit::Engaged, Kind::Contact(999), 0).unwrap();
    table.clear(0, Exit::Answered).unwrap();
    assert_eq!(table.squeeze(2, &sole_quotas(2)), Ok(()));
    assert_eq!(table.read(1).unwrap().kind, Kind::Contact(999));
    let (mut after, _, slip) = cleared(&table, 0, Exit::Engaged);
    let with_content = |content: u16| {
        let mut slip = slip.clone();
        slip[6 + 44 + 8..][..2].copy_from_slice(&content.to_le_bytes());
        slip
    };
    not_taken_back(&after, &with_content(1000));
    assert_eq!((after.take_back(&with_content(999)), &after), (Ok(1), &table));
}

/// Steps are renumbered in their order; links, bits and counters go with them, and nothing is left at the old places. A second squeeze changes
/// nothing.
#[test]
fn squeezes() {
    for bits in [[0, 1, 0, 1], [0, 0, 1, 1], [1, 0, 0, 1]] {
        for capacity in [8, 9, 11, 128] {
            let mut given = different(bits);
            let mut expected = numbered(capacity, 7, bits, [4, 5, 6, 7]);
            // the bit of step 0, and a weak link with bit 1 out of the last step
            for (table, last) in [(&mut given, 10), (&mut expected, 7)] {
                table.own[0] = 1;
                (table.targets[last * 4 + 1], table.bits[last * 4 + 1]) = (3, 1);
                table.counts[3 * 2 + 1] = 1;
            }
            let mut table = Table::from_raw(given.clone()).unwrap();
            let quotas = listed(capacity);
            for _ in 0..2 {
                assert_eq!((table.squeeze(capacity, &quotas), table.as_raw()), (Ok(()), &expected));
            }
            let reply = raw::squeeze(&mut given, capacity, &quotas);
            assert_eq!((reply, given), (raw::Reply::default(), expected));
        }
    }
}

/// The number after the last, where the table has a place left; and the image of the squeezed table.
#[test]
fn squeezed_tables_are_used() {
    let mut given = different([0, 1, 0, 1]);
    // step 2 as a contact, from which results lead on
    (given.kinds[2], given.contents[2]) = Kind::Contact(60).numbers();
    let mut table = Table::from_raw(given).unwrap();
    tried(&table, 4, &[0, 2], Ending::Spent, &[1, 2, 8]);
    tried(&table, 4, &[0, 3], Ending::Open, &[1, 2, 10]);
    assert_eq!(table.squeeze(9, &listed(9)), Ok(()));
    let mut image = [0; 42 + 8 * 22];
    assert_eq!(table.write_image(&mut image), Ok(image.len()));
    let numbers = image[42..].chunks(22).map(|record| record[4]);
    assert!(image[4..10] == [9, 0, 7, 0, 8, 0] && numbers.eq(0..8));
    assert_eq!(Table::load(&image), Ok(table.clone()));
    tried(&table, 4, &[0, 2], Ending::Spent, &[1, 2, 6]);
    tried(&table, 4, &[0, 3], Ending::Open, &[1, 2, 7]);
    assert_eq!(table.add(7, Exit::NoReply, Kind::Contact(99), 0), Err(Refusal::StepsReserved));
    assert_eq!(table.add(7, Exit::NoReply, Kind::Contact(99), 4), Ok(8));
    assert_eq!(table.add(7, Exit::Engaged, Kind::Contact(99), 4), Err(Refusal::Full));
    assert_eq!(table.squeeze(10, &table.quotas()), Ok(()));
    assert_eq!(table.counts(), Ok(Counts { in_use: 9, free: 1 }));
    assert_eq!(table.add(7, Exit::Engaged, Kind::Contact(99), 0), Ok(9));
}

/// 1 before 2 before 16 before 13, and nothing changes. A safe table is sound, so 1 is for the calls on any table.
#[test]
fn squeezes_refused() {
    let given = different([0, 0, 1, 1]);
    let mut table = Table::from_raw(given.clone()).unwrap();
    let bad = list(&[(1, 0)]);
    for capacity in [0, 129, 256, 257, 65535] {
        assert_eq!(table.squeeze(capacity, &bad), Err(Refusal::BadCapacity));
    }
    let past_16_bits = list(&[(32768, 65535), (32768, 65535)]);
    for (capacity, quotas) in [(7, bad), (128, bad), (128, past_16_bits), (8, listed(12))] {
        assert_eq!(table.squeeze(capacity, &quotas), Err(Refusal::BadCabins));
    }
    for capacity in 1..8 {
        assert_eq!(table.squeeze(capacity, &Quotas::default()), Err(Refusal::DoesNotFit));
    }
    // charges above a limit, and guarantees above the free steps
    for (capacity, quotas) in [(8, sole_quotas(8)), (128, sole_quotas(128)), (11, listed(12))] {
        assert_eq!(table.squeeze(capacity, &quotas), Err(Refusal::DoesNotFit));
    }
    assert_eq!(*table.as_raw(), given);
    let unsound = raw::Table { last: 11, ..given };
    for capacity in [0, 1, 8, 129] {
        let mut lent = unsound.clone();
        let reply = raw::squeeze(&mut lent, capacity, &bad);
        assert_eq!((reply, &lent), (raw::Reply { refusal: 1, first: 0, second: 0 }, &unsound));
    }
}

/// The list of one cabin, and the lists that a fresh table refuses. A refused table has no step to give.
#[test]
fn lists() {
    for (capacity, most) in [(0, 0), (1, 0), (2, 1), (128, 127), (65535, 65534)] {
        assert_eq!(sole_quotas(capacity), list(&[(most, most)]));
    }
    let eighths = list(&[(8192, 65535); CABINS]);
    let past_16_bits = list(&[(32768, 65535), (32768, 65535)]);
    for quotas in [list(&[(0, 9), (3, 2)]), list(&[(2, 2), (2, 2)]), eighths, past_16_bits] {
        assert_eq!(Table::fresh(4, &quotas), Err(Refusal::BadCabins));
        assert_eq!(Table::fresh(0, &quotas), Err(Refusal::BadCapacity));
        let mut table = fresh(4);
        assert_eq!(table.reset(4, &quotas), Err(Refusal::BadCabins));
        assert_eq!((&table, table.quotas()), (&fresh(1), Quotas::default()));
    }
    for quotas in [list(&[(0, 65535); CABINS]), list(&[(2, 2), (1, 3)]), Quotas::default()] {
        assert_eq!(Table::fresh(4, &quotas).unwrap().quotas(), quotas);
    }
}

/// 16 before all but 1, 8 before 14 before 15. Cabin 0 is guaranteed a step, cabin 1 two, cabin 2 may have none.
#[test]
fn cabins() {
    let mut table = Table::fresh(5, &list(&[(1, 2), (2, 2), (0, 0), (0, 9)])).unwrap();
    let mut add = |step, cabin| table.add(step, Exit::Answered, Kind::Wait(1), cabin);
    for cabin in [8, 9, 256, 65535] {
        assert_eq!(
            (add(0, cabin), add(9, cabin)),
            (Err(Refusal::BadCabins), Err(Refusal::BadCabins))
        );
    }
    assert_eq!(add(0, 2), Err(Refusal::CabinAtLimit));
    assert_eq!(add(0, 3), Ok(1));
    assert_eq!((add(1, 3), add(1, 2)), (Err(Refusal::StepsReserved), Err(Refusal::CabinAtLimit)));
    assert_eq!((add(0, 3), add(9, 2)), (Err(Refusal::ExitFilled), Err(Refusal::NotInUse)));
    assert_eq!((add(1, 0), add(2, 0)), (Ok(2), Err(Refusal::StepsReserved)));
    assert_eq!((add(2, 1), add(3, 1)), (Ok(3), Ok(4)));
    for cabin in 0..4 {
        assert_eq!(add(4, cabin), Err(Refusal::Full));
    }
    let cabins = [0, 1, 2, 3, 4].map(|step| table.read(step).unwrap().cabin);
    assert_eq!(cabins, [0, 3, 0, 1, 1]);
    assert_eq!(table.clear(3, Exit::Answered), Ok(Cleared { doubtful: 1, freed: 1 }));
    assert_eq!(table.as_raw().cabins[4], 0);
    // what is freed is reserved again
    assert_eq!(table.add(3, Exit::Answered, Kind::Wait(1), 3), Err(Refusal::StepsReserved));
    assert_eq!(table.add(3, Exit::Answered, Kind::Wait(1), 1), Ok(4));
    let mut unsound = table.clone().into_raw();
    unsound.cabins[0] = 1;
    assert_eq!(raw::add(&mut unsound, 9, 9, 9, 9, 9).refusal, 1);
}

/// A key line adds for cabin 0, and is refused as it is.
#[test]
fn key_lines_add_for_cabin_0() {
    let mut table = Table::fresh(4, &list(&[(0, 1), (1, 3)])).unwrap();
    assert_eq!(table.key_line(b"H*100001000A"), Ok((1, 0)));
    assert_eq!(table.read(1).unwrap().cabin, 0);
    assert_eq!(table.key_line(b"H*100011000A"), Err(Refusal::CabinAtLimit));
    table.reset(4, &list(&[(0, 3), (3, 3)])).unwrap();
    assert_eq!(table.key_line(b"H*100001000A"), Err(Refusal::StepsReserved));
}

#[test]
fn tables_of_the_caller() {
    let table = fresh(4);
    assert_eq!(Table::from_raw(table.as_raw().clone()), Ok(table.clone()));
    let mut kept = table.clone().into_raw();
    kept.used[0] = 0;
    assert_eq!(Table::from_raw(kept), Err(Refusal::NotSound));
    assert_eq!(Table::from_raw(raw::Table::ZERO), Err(Refusal::NotSound));
    assert_eq!(Table::fresh(129, &Quotas::default()), Err(Refusal::BadCapacity));
    let mut other = table.clone();
    assert_eq!(other.reset(128, &sole_quotas(128)), Ok(()));
    assert_eq!(other.counts(), Ok(Counts { in_use: 1, free: 127 }));
    assert_eq!(other.reset(0, &sole_quotas(0)), Err(Refusal::BadCapacity));
    assert_eq!(other, fresh(1));
}

#[test]
fn numbers_go_there_and_back() {
    assert_eq!(Refusal::check(0), Ok(()));
    for number in 1..=65535 {
        let refusal = Refusal::check(number).unwrap_err();
        assert_eq!(refusal.number(), number);
        assert_eq!(matches!(refusal, Refusal::Unknown(_)), number == 19 || number > 21);
    }
    assert_eq!(Refusal::Full.to_string(), "steps in use equal the capacity");
    for (number, words) in [
        (13, "capacity below the steps in use, or the charges do not fit the new list"),
        (14, "cabin at its limit"),
        (15, "only steps reserved for other cabins are free"),
        (16, "cabin above 7, or bad list of guarantees and limits"),
        (
            17,
            "image needs edition 2: a cabin, guarantee, limit or contact that edition 1 cannot say",
        ),
        (1, "table not sound, or the dispatcher's last served is above 15"),
        (18, "slip not accepted"),
        (19, "unknown refusal 19"),
        (20, "cabin above 15"),
        (21, "nobody waits for the line"),
        (22, "unknown refusal 22"),
    ] {
        assert_eq!(Refusal::check(number).unwrap_err().to_string(), words);
    }
    for number in 0..=65535 {
        let exit = Exit::try_from(number);
        assert_eq!(exit.is_ok(), number < 4);
        assert_eq!(exit.map_or(number, Exit::number), number);
        for content in [0, 1, 99, 999, 1000, 65535] {
            assert_eq!(Kind::of_numbers(number, content).numbers(), (number, content));
        }
    }
}

/// The deepest calls, on a thread with 64 kB for everything, the table and a slip among it. Built without optimisation, this is what a caller's debug
/// build takes. An overflow ends the test program.
#[test]
fn deepest_calls_in_a_small_thread() {
    let visit = || {
        let mut table = Table::fresh(128, &sole_quotas(128))?;
        for step in 0..127 {
            table.add(step, Exit::Answered, Kind::Contact(0), 0)?;
        }
        let mut slip = [0; SLIP_MAX];
        table.preview_clear(0, Exit::Answered, &mut slip)?;
        table.rung(&mut slip)?;
        let (_, length) = table.clear_with_slip(0, Exit::Answered, &mut slip)?;
        table.take_back(&slip[..length])?;
        table.key_line(b"H*200000001A")?;
        table.key_line(b"H*30000A")
    };
    let thread = std::thread::Builder::new().stack_size(64 * 1024).spawn(visit);
    assert_eq!(thread.unwrap().join().unwrap(), Ok((127, 0)));
}

/// The words of kinds and exits, and the strength of a link: its bit is the own bit of the step that it leads to.
#[test]
fn words_and_strengths() {
    let kinds = [Kind::Alarm, Kind::Contact(0), Kind::Contact(7), Kind::Message(3), Kind::Wait(60)];
    let words = ["alarm", "contact 0, the primary", "contact 7", "message 3", "wait of 60 s"];
    assert_eq!(kinds.map(|kind| kind.to_string()), words);
    assert_eq!(Kind::of_numbers(9, 8).to_string(), "kind 9 with content 8");
    let exits = Exit::ALL.map(|exit| format!("{exit:<9}|"));
    assert_eq!(exits, ["answered |", "engaged  |", "no reply |", "line fault|"]);
    let mut table = fresh(4);
    table.add(0, Exit::Answered, Kind::Contact(0), 0).unwrap();
    table.link(0, Exit::Answered, 0, Exit::Engaged).unwrap();
    let strengths = |table: &Table| {
        let (alarm, target) = (table.read(0).unwrap(), table.read(1).unwrap());
        Exit::ALL.map(|exit| alarm.exit(exit).map(|link| link.is_strong(&target)))
    };
    assert_eq!(strengths(&table), [Some(true), Some(false), None, None]);
    table.clear(0, Exit::Answered).unwrap();
    assert_eq!(table.read(1).unwrap().own, 1);
    assert_eq!(strengths(&table), [None, Some(true), None, None]);
}
