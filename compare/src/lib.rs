//! Runs a call of a history, or a conversion, through the interface and on the second program, and says where they differ.
//! The interface is lent a table and buffers with bytes around them; after each call the answers, the lent bytes, the tables and the bytes around are
//! compared whole.

pub mod process;
pub mod stack;

use reference::cabins::{list, pairs};
use reference::calls::{add, fresh_for_cabin_0, link, Command};
use reference::convert::{self, Conversion, Way};
use reference::faults::Fault;
use reference::generate::{key_text, start, Generator, Random};
use reference::history::{self, agrees, Call, Outcome, Start, UNTOUCHED};
use reference::plan::plan_of;
use reference::sound::{sound, CONTACT};
use reference::table::{Quotas, Table};
use std::fmt::{self, Debug};
use std::ops::Range;
use telephone::raw::{self, Quota};

/// The words of a table.
pub const WORDS: usize = size_of::<raw::Table>() / 2;

/// How often each refusal, 0 to the highest, came up.
pub type Refusals = [usize; 19];

/// Numbers at and past the ends of ranges, and numbers that would wrap.
pub const NUMBERS: [u16; 24] = [
    0, 1, 2, 3, 4, 5, 7, 8, 15, 16, 31, 32, 99, 100, 127, 128, 129, 255, 256, 600, 999, 1000,
    32_768, 65_535,
];

/// The same table for the interface.
pub fn lend(table: &Table) -> raw::Table {
    let Table { capacity, last, used, kinds, contents, own, targets, bits, counts, cabins, quotas } =
        table.clone();
    let quotas = lend_list(&quotas);
    raw::Table { capacity, last, used, kinds, contents, own, targets, bits, counts, cabins, quotas }
}

/// The same table for the second program.
pub fn kept(table: &raw::Table) -> Table {
    let raw::Table {
        capacity,
        last,
        used,
        kinds,
        contents,
        own,
        targets,
        bits,
        counts,
        cabins,
        quotas,
    } = table.clone();
    let quotas = kept_list(&quotas);
    Table { capacity, last, used, kinds, contents, own, targets, bits, counts, cabins, quotas }
}

/// The same list of guarantees and limits for the interface.
pub fn lend_list(quotas: &Quotas) -> raw::Quotas {
    pairs(quotas).map(|[guarantee, limit]| Quota { guarantee, limit })
}

/// The same list for the second program.
pub fn kept_list(quotas: &raw::Quotas) -> Quotas {
    list(&quotas.map(|Quota { guarantee, limit }| [guarantee, limit]))
}

/// Every word of a table, in the order of its memory.
pub fn words(table: &mut Table) -> impl Iterator<Item = &mut u16> {
    let Table { capacity, last, used, kinds, contents, own, targets, bits, counts, cabins, quotas } =
        table;
    let arrays = [&mut used[..], kinds, contents, own, targets, bits, counts, cabins, quotas];
    [capacity, last].into_iter().chain(arrays.into_iter().flatten())
}

/// Bytes on each side of what is lent.
const EDGE: usize = 64;

/// A table, a list or a dispatcher in memory, with bytes on both sides that no call may change.
#[repr(C)]
pub struct Lent<T> {
    before: [u8; EDGE],
    pub lent: T,
    after: [u8; EDGE],
}

impl<T> Lent<T> {
    pub fn new(lent: T) -> Lent<T> {
        Lent { before: [UNTOUCHED; EDGE], lent, after: [UNTOUCHED; EDGE] }
    }

    /// Whether the bytes on both sides are as they were.
    pub fn edges_stand(&self) -> bool {
        self.before == [UNTOUCHED; EDGE] && self.after == [UNTOUCHED; EDGE]
    }
}

impl Lent<raw::Table> {
    /// Memory in which no table stands yet.
    pub fn unmade() -> Lent<raw::Table> {
        let mut table = Table::zero();
        words(&mut table).for_each(|word| *word = u16::from_ne_bytes([UNTOUCHED; 2]));
        Lent::new(lend(&table))
    }
}

/// Lends a buffer of that length to a call, with bytes on both sides that have to stay; gives what the call gives, and the buffer.
fn with_buffer<R>(length: usize, call: impl FnOnce(&mut [u8]) -> R) -> (R, Vec<u8>) {
    let mut bytes = vec![UNTOUCHED; EDGE + length + EDGE];
    let given = call(&mut bytes[EDGE..EDGE + length]);
    let edges = [&bytes[..EDGE], &bytes[EDGE + length..]].concat();
    assert!(edges == [UNTOUCHED; 2 * EDGE], "a byte beside a lent buffer was written");
    (given, bytes[EDGE..EDGE + length].to_vec())
}

/// Lends bytes to be read, with bytes on both sides; none of them may change.
fn with_bytes<R>(bytes: &[u8], call: impl FnOnce(&[u8]) -> R) -> R {
    let edge = [UNTOUCHED; EDGE];
    let lent = [&edge[..], bytes, &edge].concat();
    let given = call(&lent[EDGE..EDGE + bytes.len()]);
    // the bytes are looked at again, whatever the compiler knows of a slice that is only read
    let after = std::hint::black_box(&lent);
    let stand = after[..EDGE] == edge && after[EDGE + bytes.len()..] == edge;
    assert!(stand && after[EDGE..EDGE + bytes.len()] == *bytes, "lent bytes to be read changed");
    given
}

/// Lends a list to be read, with bytes on both sides; none of them may change.
fn with_list<R>(quotas: &Quotas, call: impl FnOnce(&raw::Quotas) -> R) -> R {
    let list = Lent::new(lend_list(quotas));
    let given = call(&list.lent);
    let after = std::hint::black_box(&list);
    assert!(after.edges_stand() && kept_list(&after.lent) == *quotas, "a lent list changed");
    given
}

/// Makes the first call of a history through the interface.
pub fn begin(table: &mut raw::Table, start: &Start) -> Outcome {
    match start {
        Start::Fresh { capacity, quotas } => {
            two(with_list(quotas, |quotas| raw::fresh(table, *capacity, quotas)))
        }
        Start::Load { image } => two(with_bytes(image, |image| raw::load_image(table, image))),
    }
}

/// Makes a call through the interface.
pub fn call(table: &mut raw::Table, call: &Call) -> Outcome {
    match call {
        Call::Edit(Command::Add { holder, exit, kind, content, cabin }) => {
            two(raw::add(table, *holder, *exit, *kind, *content, *cabin))
        }
        Call::Edit(Command::Link { source, source_exit, second, second_exit }) => {
            two(raw::link(table, *source, *source_exit, *second, *second_exit))
        }
        Call::Edit(Command::Clear { step, exit }) => two(raw::clear(table, *step, *exit)),
        Call::Edit(Command::Count) => two(raw::counts(table)),
        Call::ClearWithSlip { step, exit, buffer } => {
            let (reply, lent) =
                with_buffer(*buffer, |buffer| raw::clear_with_slip(table, *step, *exit, buffer));
            Outcome { lent, ..two(reply) }
        }
        Call::TakeBack { slip } => two(with_bytes(slip, |slip| raw::take_back(table, slip))),
        Call::PreviewClear { step, exit, buffer } => {
            let (reply, lent) =
                with_buffer(*buffer, |buffer| raw::preview_clear(table, *step, *exit, buffer));
            Outcome { lent, ..two(reply) }
        }
        Call::Rung { buffer } => {
            let (reply, lent) = with_buffer(*buffer, |buffer| raw::rung(table, buffer));
            Outcome { lent, ..two(reply) }
        }
        Call::Squeeze { capacity, quotas } => {
            two(with_list(quotas, |quotas| raw::squeeze(table, *capacity, quotas)))
        }
        Call::KeyLine(line) => two(with_bytes(line, |line| raw::key_line(table, line))),
        Call::Write { buffer } => {
            let (reply, lent) = with_buffer(*buffer, |bytes| raw::write_image(table, bytes));
            Outcome { lent, ..length(reply) }
        }
        Call::ImageLength => length(raw::image_length(table)),
        Call::Trial { limit, results, trace } => {
            let (reply, lent) = with_buffer(*trace, |trace| {
                with_bytes(results, |results| raw::trial(table, *limit, results, trace))
            });
            let numbers = vec![reply.ending.into(), reply.last.into(), reply.moves.into()];
            Outcome { refusal: reply.refusal, numbers, lent }
        }
        Call::Read { step } => {
            let reply = raw::read(table, *step);
            let (single, cabin) = ([reply.kind, reply.content, reply.own], [reply.cabin]);
            let fields = [&single[..], &reply.targets, &reply.bits, &reply.counts, &cabin];
            let numbers = fields.concat().into_iter().map(usize::from).collect();
            Outcome { refusal: reply.refusal, numbers, lent: Vec::new() }
        }
    }
}

/// Makes a conversion through the interface.
pub fn convert(conversion: &Conversion) -> Outcome {
    let Conversion { way, image, buffer } = conversion;
    let convert = match way {
        Way::Up => raw::convert_up,
        Way::Down => raw::convert_down,
    };
    let (reply, lent) =
        with_buffer(*buffer, |buffer| with_bytes(image, |image| convert(image, buffer)));
    Outcome { lent, ..length(reply) }
}

/// The outcome of a reply with two numbers.
fn two(reply: raw::Reply) -> Outcome {
    let numbers = vec![reply.first.into(), reply.second.into()];
    Outcome { refusal: reply.refusal, numbers, lent: Vec::new() }
}

/// The outcome of a reply with an image's length.
fn length(reply: raw::WriteReply) -> Outcome {
    two(raw::Reply { refusal: reply.refusal, first: reply.length, second: 0 })
}

/// What of a call's effects differs between two programs.
#[derive(Clone, Copy, PartialEq, Eq, PartialOrd, Ord, Debug)]
pub enum Evidence {
    Refusal,
    /// One of the other numbers answered, counted from 0.
    Number(usize),
    /// A byte of a lent trace or buffer.
    Lent,
    /// The table handed back.
    Table,
    /// A byte beside the table.
    Beside,
}

/// All that differs after a call, and in words what was called and what differs.
#[derive(Clone, PartialEq, Eq)]
pub struct Difference {
    pub evidence: Vec<Evidence>,
    words: String,
}

impl Debug for Difference {
    fn fmt(&self, f: &mut fmt::Formatter<'_>) -> fmt::Result {
        f.write_str(&self.words)
    }
}

/// Two tables that start the same, one behind the interface and one in the second program, with a fault in it or none.
pub struct Pair {
    pub proved: Lent<raw::Table>,
    pub second: Table,
    fault: Fault,
}

impl Pair {
    pub fn new(table: &Table, fault: Fault) -> Pair {
        Pair { proved: Lent::new(lend(table)), second: table.clone(), fault }
    }

    /// Makes the first call of a history on both, over memory in which no table stands. Gives the pair, and the outcome or what differs.
    pub fn begin(start: &Start, fault: Fault) -> (Pair, Result<Outcome, Difference>) {
        let mut lent = Lent::unmade();
        let proved = begin(&mut lent.lent, start);
        let (table, second) = history::begin(start, fault);
        let pair = Pair { proved: lent, second: table, fault };
        let compared = pair.compared(start, proved, &second);
        (pair, compared)
    }

    /// Makes a call on both. Gives the outcome, or what differs.
    pub fn call(&mut self, made: &Call) -> Result<Outcome, Difference> {
        let proved = call(&mut self.proved.lent, made);
        let second = history::run(&mut self.second, made, self.fault);
        self.compared(made, proved, &second)
    }

    /// Compares all that a call gave: the answers, the lent bytes, the tables and the bytes beside.
    fn compared(
        &self,
        made: &dyn Debug,
        proved: Outcome,
        second: &Outcome,
    ) -> Result<Outcome, Difference> {
        let mut found = differences(made, &proved, second);
        // the table is looked at again, whatever the compiler knows of one that is only read
        let table = kept(&std::hint::black_box(self).proved.lent);
        if table != self.second {
            found.push((Evidence::Table, difference(&table, &self.second)));
        }
        if !self.proved.edges_stand() {
            found.push((Evidence::Beside, "a byte beside the table was written".to_string()));
        }
        settled(made, proved, found)
    }
}

/// A difference between two programs, and the words for it.
type Found = (Evidence, String);

/// What differs between two outcomes.
fn differences(made: &dyn Debug, proved: &Outcome, second: &Outcome) -> Vec<Found> {
    let mut found = Vec::new();
    if proved.refusal != second.refusal {
        let words = format!("refusal: proved {}, second {}", proved.refusal, second.refusal);
        found.push((Evidence::Refusal, words));
    }
    assert_eq!(proved.numbers.len(), second.numbers.len(), "{made:?}");
    for (i, (a, b)) in proved.numbers.iter().zip(&second.numbers).enumerate() {
        if a != b {
            let words = format!("number {i}: proved {a}, second {b}");
            found.push((Evidence::Number(i), words));
        }
    }
    if proved.lent != second.lent {
        let at = (0..proved.lent.len()).find(|&i| proved.lent.get(i) != second.lent.get(i));
        let [a, b] = [&proved.lent, &second.lent].map(|lent| at.and_then(|i| lent.get(i)));
        found.push((Evidence::Lent, format!("lent byte {at:?}: proved {a:?}, second {b:?}")));
    }
    found
}

/// The outcome, if nothing differs.
fn settled(made: &dyn Debug, proved: Outcome, found: Vec<Found>) -> Result<Outcome, Difference> {
    if found.is_empty() {
        return Ok(proved);
    }
    let start: String = format!("{made:?}").chars().take(200).collect();
    let (evidence, words): (_, Vec<_>) = found.into_iter().unzip();
    Err(Difference { evidence, words: format!("{start}: {}", words.join("; ")) })
}

/// Makes a conversion by both programs, with a fault in the second or none. Gives the outcome, or what differs.
pub fn converted(conversion: &Conversion, fault: Fault) -> Result<Outcome, Difference> {
    let (proved, second) = (convert(conversion), convert::run(conversion, fault));
    let found = differences(conversion, &proved, &second);
    settled(conversion, proved, found)
}

/// A call made by both programs, which have to agree. The table becomes the one that they hand back.
pub fn both(table: &mut Table, call: &Call) -> Outcome {
    let mut pair = Pair::new(table, Fault::None);
    let outcome = pair.call(call).unwrap();
    *table = pair.second;
    outcome
}

/// A call made by the proved library alone: nothing that the second program says comes into it.
pub fn proved(table: &mut Table, made: &Call) -> Outcome {
    let mut lent = Lent::new(lend(table));
    let outcome = call(&mut lent.lent, made);
    assert!(lent.edges_stand());
    *table = kept(&lent.lent);
    outcome
}

/// A call made by both programs, which have to agree. The plain plan is held to it too: what it says of the call is answered, and it becomes that of the
/// table. A table that is not sound gets 1.
pub fn both_and_plan(table: &mut Table, call: &Call) -> Outcome {
    let before = table.clone();
    let outcome = both(table, call);
    if sound(&before) {
        let mut plan = plan_of(&before);
        let said = plan.draw(call, call.told(outcome.refusal));
        assert!(agrees(&outcome, &said), "{call:?}: {outcome:?}, plan: {said:?}");
        assert!(plan_of(table) == plan, "{call:?}: another plan");
    } else {
        assert!(agrees(&outcome, &Err(1)) && *table == before, "{call:?}: {outcome:?}");
    }
    outcome
}

/// Such a call on a copy of a table.
pub fn as_said(table: &Table, call: &Call) -> Outcome {
    both_and_plan(&mut table.clone(), call)
}

/// Calls with any step and exit and with each of these buffers, made by both programs and by the plan: some are accepted, 3, 4, 6 and 11 come up, and no
/// other refusal does.
pub fn any_exit(buffers: &[usize], call: impl Fn(u16, u16, usize) -> Call) {
    let mut seen = Refusals::default();
    for table in [fresh_for_cabin_0(1), ring(&[CONTACT; 5]), Random(5).sound_table()] {
        for (step, exit) in NUMBERS.into_iter().flat_map(|step| NUMBERS.map(|exit| (step, exit))) {
            for &buffer in buffers {
                let outcome = as_said(&table, &call(step, exit, buffer));
                seen[usize::from(outcome.refusal)] += 1;
            }
        }
    }
    for (refusal, &times) in seen.iter().enumerate() {
        assert_eq!(times > 10, matches!(refusal, 0 | 3 | 4 | 6 | 11), "{seen:?}");
    }
}

/// Looks at tables with these seeds, damaged in one field or two, and whether each is sound. Many are not, and many are.
pub fn damaged_tables(seeds: Range<u64>, mut look: impl FnMut(&Table, bool)) {
    let mut random = Random(seeds.start);
    let mut found = [0; 2];
    for seed in seeds {
        let table = Random(seed).sound_table();
        for _ in 0..20 {
            let mut damaged = table.clone();
            for _ in 0..1 + random.below(2) {
                random.damage(&mut damaged);
            }
            let is_sound = sound(&damaged);
            found[usize::from(is_sound)] += 1;
            look(&damaged, is_sound);
        }
    }
    assert!(found[0] > 1000 && found[1] > 100, "{found:?}");
}

/// Each kind from 0 to 4 with each content.
pub fn every_content() -> impl Iterator<Item = (u16, u16)> {
    (0..5).flat_map(|kind| (0..=u16::MAX).map(move |content| (kind, content)))
}

/// A table of capacity 4 with step 1 of this kind and content, which need not fit, at exit 0 of step 0.
pub fn two_steps(kind: u16, content: u16) -> Table {
    let mut table = fresh_for_cabin_0(4);
    (table.last, table.used[1], table.targets[0], table.counts[2]) = (1, 1, 1, 1);
    (table.kinds[1], table.contents[1]) = (kind, content);
    table
}

/// Whether a table has a contact above 99, which no old telephone takes.
pub fn has_larger_contact(table: &Table) -> bool {
    table.kinds.iter().zip(&table.contents).any(|(&kind, &content)| kind == 1 && content > 99)
}

/// A ring of contacts 1 and 2 which step 0 leads to by exit 0. It stands in memory that can only be read: a write to it, even one that is taken back
/// before the call ends, ends the test program.
pub static RING: raw::Table = {
    let mut table = raw::Table::ZERO;
    (table.capacity, table.last) = (3, 2);
    (table.used[0], table.used[1], table.used[2]) = (1, 1, 1);
    (table.kinds[1], table.kinds[2]) = (1, 1);
    // 0 leads to 1 and 1 to 2, both strong, and 2 back to 1, weak
    (table.targets[0], table.targets[4], table.targets[8]) = (1, 2, 1);
    table.bits[8] = 1;
    (table.counts[2], table.counts[3], table.counts[4]) = (1, 1, 1);
    (table.quotas[0].guarantee, table.quotas[0].limit) = (2, 2);
    table
};

/// The first word in which two tables differ.
pub fn difference(proved: &Table, second: &Table) -> String {
    let (mut proved, mut second) = (proved.clone(), second.clone());
    let mut pairs = words(&mut proved).zip(words(&mut second)).enumerate();
    match pairs.find(|(_, (a, b))| a != b) {
        Some((i, (a, b))) => format!("word {i} of the table: proved {a}, second {b}"),
        None => "none".to_string(),
    }
}

/// Makes so many calls of each history by both programs, and looks at the table after the first of every so many.
pub fn tables_of_histories(
    seeds: Range<u64>,
    calls: usize,
    every: usize,
    mut look: impl FnMut(&Table),
) {
    for seed in seeds {
        let (mut pair, begun) = Pair::begin(&start(seed), Fault::None);
        begun.unwrap();
        let mut generator = Generator::new(seed);
        for number in 0..calls {
            pair.call(&generator.call(&pair.second)).unwrap();
            if number % every == 0 {
                look(&pair.second);
            }
        }
    }
}

/// The next line of a visit by key lines: most are edits that suit the table, the rest are malformed or odd. A trial is a made-up line, and other calls
/// that no line makes are passed over, so that the table is filled now and then.
pub fn next_line(generator: &mut Generator, table: &Table) -> Vec<u8> {
    loop {
        match generator.call(table) {
            Call::Edit(command) => return key_text(command),
            Call::KeyLine(line) => return line,
            Call::Trial { .. } => return generator.key_line(&plan_of(table)),
            _ => {}
        }
    }
}

/// A table of capacity 128 with a ring of steps 1 upward that have these kinds, which step 0 leads to. Contact i leads to the next by exit i % 4,
/// every other step by the answered exit.
pub fn ring(kinds: &[u16]) -> Table {
    let mut table = fresh_for_cabin_0(128);
    let exits: Vec<u16> = [0].into_iter().chain(exits(kinds)).collect();
    for (step, &kind) in kinds.iter().enumerate() {
        let content = 1 + step as u16 % 15;
        assert_eq!(add(&mut table, step as u16, exits[step], kind, content, 0).refusal, 0);
    }
    let last = kinds.len();
    assert_eq!(link(&mut table, 0, 0, last as u16, exits[last]).refusal, 0);
    table
}

/// A ring of 127 contacts in which every exit holds a link.
pub fn full_ring() -> Table {
    let mut table = ring(&[CONTACT; 127]);
    let filled = table.filled();
    let exits = (0..128).flat_map(|step| (0..4).map(move |exit| (step, exit)));
    let empty = exits.filter(|exit| !filled.contains(exit));
    for ((step, exit), (source, from)) in empty.zip(filled.iter().cycle().step_by(37)) {
        assert_eq!(link(&mut table, *source, *from, step, exit).refusal, 0);
    }
    table
}

/// So many results that go round in a ring of these kinds; none where it has no contact.
pub fn rounds(kinds: &[u16], results: usize) -> Vec<u8> {
    let round: Vec<(&u16, u16)> = kinds.iter().zip(exits(kinds)).collect();
    let contacts = round.iter().filter(|(&kind, _)| kind == CONTACT);
    contacts.map(|(_, exit)| *exit as u8).cycle().take(results).collect()
}

/// The exits by which the steps of such a ring lead on.
fn exits(kinds: &[u16]) -> impl Iterator<Item = u16> + '_ {
    (1..).zip(kinds).map(|(step, &kind)| if kind == CONTACT { step % 4 } else { 0 })
}
