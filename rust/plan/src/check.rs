//! The first rule of docs/IMAGE.md, "Acceptance", that an image breaks, and the byte where. Whether an image is accepted is for the library to say. It
//! does not say why it refused one; this finds what to look at. Ranges of capacities, kinds and contents, those of old telephones too, and lists of
//! guarantees and limits, are asked of the library's calls.

use crate::view::View;
use crate::words::count;
use std::collections::BTreeSet;
use telephone::{
    convert_down, slip_length, sole_quotas, Exit, Kind, Link, Quota, Quotas, Step, Table, CABINS,
    EXITS, IMAGE_MAX, PLACES,
};

/// An edition of the format: bytes of the header and of a step record, and the kinds of both.
pub struct Edition {
    pub number: u8,
    header: usize,
    header_kind: u16,
    step: usize,
    step_kind: u16,
}

const EDITIONS: [Edition; 2] = [
    Edition { number: 1, header: 10, header_kind: 1, step: 20, step_kind: 2 },
    Edition { number: 2, header: 42, header_kind: 3, step: 22, step_kind: 4 },
];

/// Bytes of the longest image whose length fits some count of steps.
pub const LONGEST: usize = EDITIONS[1].header + EDITIONS[1].step * u16::MAX as usize;

/// Bytes of the length and the kind of a record.
const FRAME: usize = 4;

/// Where the list of guarantees and limits begins in a header, and where the cabin stands in a step record. Records of edition 1 end there.
const LIST: usize = 10;
const CABIN: usize = 20;

/// A content that every kind but the alarm's has.
const SOME_CONTENT: u16 = 1;

/// A rule that is broken, the byte to look at, and what is wrong.
#[derive(Clone, PartialEq, Eq, Debug)]
pub struct Fault {
    pub rule: u8,
    pub byte: usize,
    pub words: String,
}

fn fault<T>(rule: u8, byte: usize, words: String) -> Result<T, Fault> {
    Err(Fault { rule, byte, words })
}

/// The first broken rule; nothing where none is.
pub fn first_fault(image: &[u8]) -> Option<Fault> {
    rules(image).err()
}

fn rules(image: &[u8]) -> Result<(), Fault> {
    let edition = edition(image)?;
    framing(image, edition)?;
    let places = (edition.header..image.len()).step_by(edition.step);
    let records: Vec<Record> = places.map(|at| Record::read(image, at, edition)).collect();
    numbers_and_bits(&records)?;
    let (capacity, last) = (word(image, 4), word(image, 6));
    numbers_below(capacity, last, &records)?;
    kinds(&records, edition)?;
    targets(&records)?;
    let quotas = quotas(image, edition, capacity);
    let steps = records.iter().map(|record| (record.number, record.step())).collect();
    let view = View { capacity, last, quotas, steps };
    strong_links(&records, &view)?;
    list(&view)?;
    cabins(&records)?;
    limits(&records, &view)?;
    reserve(&view)
}

/// What does not fit in a table with these numbers, guarantees, limits and steps: the list, the steps, a charge or what is owed; nothing where all do.
pub fn unfit(view: &View) -> Option<String> {
    let (used, capacity) = (view.steps.len(), view.capacity);
    let full = || {
        let words = format!("{} in use, and the capacity is {capacity}", count(used, "step"));
        (used > capacity.into()).then_some(words)
    };
    let over = |cabin: &usize| view.charged(*cabin).count() > view.quotas[*cabin].limit.into();
    let charge = || (0..CABINS).find(over).map(|cabin| cabin_line(view, cabin));
    let listed = list(view).err().map(|fault| fault.words);
    let owed = || reserve(view).err().map(|fault| fault.words);
    listed.or_else(full).or_else(charge).or_else(owed)
}

/// What a cabin has, is guaranteed and may have.
pub fn cabin_line(view: &View, cabin: usize) -> String {
    let (has, Quota { guarantee, limit }) = (view.charged(cabin).count(), view.quotas[cabin]);
    format!("cabin {cabin} has {}, guarantee {guarantee} and limit {limit}", count(has, "step"))
}

/// The word at a byte; 0 past the end.
fn word(image: &[u8], at: usize) -> u16 {
    match image.get(at..at + 2) {
        Some(&[low, high]) => u16::from_le_bytes([low, high]),
        _ => 0,
    }
}

/// Rule 1: the image begins with a header, whose length and kind are those of an edition.
pub fn edition(image: &[u8]) -> Result<&'static Edition, Fault> {
    let (length, kind) = (word(image, 0), word(image, 2));
    if image.len() < FRAME {
        return fault(1, image.len(), "the image ends within its header".to_string());
    }
    let Some(edition) = EDITIONS.iter().find(|edition| edition.header == usize::from(length))
    else {
        let lengths = EDITIONS.each_ref().map(|edition| edition.header.to_string()).join(" or ");
        return fault(1, 0, format!("a header has length {lengths}, and here is {length}"));
    };
    let wanted = edition.header_kind;
    if kind != wanted {
        let words = format!("a header of length {length} has kind {wanted}, and here is {kind}");
        return fault(1, 2, words);
    }
    if image.len() < edition.header {
        let words = format!("the image ends within its header of {length} bytes");
        return fault(1, image.len(), words);
    }
    Ok(edition)
}

/// Whether bytes begin as an image does, with the length and the kind of a header.
pub fn begins_as_image(bytes: &[u8]) -> bool {
    let begins = (word(bytes, 0).into(), word(bytes, 2));
    EDITIONS.iter().any(|edition| (edition.header, edition.header_kind) == begins)
}

/// Rules 2 and 3: the lengths and kinds of the step records, as far as the image goes, and its length.
fn framing(image: &[u8], edition: &Edition) -> Result<(), Fault> {
    let (length, steps) = (image.len(), usize::from(word(image, 8)));
    let (end, said) = (edition.header + edition.step * steps, count(steps, "step"));
    let places = (edition.header..end).step_by(edition.step);
    places.take_while(|at| at + FRAME <= length).try_for_each(|at| frame(image, at, edition))?;
    if length < end {
        return fault(3, length, format!("the image ends here, and with {said} at byte {end}"));
    }
    if length > end {
        return fault(3, end, format!("the image goes on here, and ends with {said}"));
    }
    Ok(())
}

/// The length and the kind of a step record.
fn frame(image: &[u8], at: usize, edition: &Edition) -> Result<(), Fault> {
    let (length, kind) = (word(image, at), word(image, at + 2));
    let Edition { number, step, step_kind, .. } = *edition;
    let is = |of: &&Edition| (of.step, of.step_kind) == (length.into(), kind);
    let record = format!("a step record of edition {number}");
    match EDITIONS.iter().find(is) {
        Some(of) if of.number == number => Ok(()),
        Some(of) => {
            let words =
                format!("a step record of edition {} in an image of edition {number}", of.number);
            fault(2, at, words)
        }
        None if usize::from(length) != step => {
            fault(2, at, format!("{record} has length {step}, and here is {length}"))
        }
        None => fault(2, at + 2, format!("{record} has kind {step_kind}, and here is {kind}")),
    }
}

/// The guarantees and limits that an image says, or that one of edition 1 is loaded with.
fn quotas(image: &[u8], edition: &Edition, capacity: u16) -> Quotas {
    if edition.header <= LIST {
        return sole_quotas(capacity);
    }
    core::array::from_fn(|cabin| Quota {
        guarantee: word(image, guarantee_byte(cabin)),
        limit: word(image, limit_byte(cabin)),
    })
}

/// The byte of the guarantee of a cabin.
fn guarantee_byte(cabin: usize) -> usize {
    LIST + 4 * cabin
}

/// The byte of the limit of a cabin.
fn limit_byte(cabin: usize) -> usize {
    guarantee_byte(cabin) + 2
}

/// Bytes of a slip before its records: the step, the exit, and the number of pairs of an old and a new record.
const SLIP_HEADER: usize = 6;

/// The step and the exit of the clearing whose slip these bytes could be: they have its length, and step records of edition 2.
pub fn cleared_exit(slip: &[u8]) -> Option<(u16, u16)> {
    let records = slip.get(SLIP_HEADER..).filter(|records| !records.is_empty())?;
    let mut records = records.chunks(EDITIONS[1].step).map(|record| frame(record, 0, &EDITIONS[1]));
    let whole = slip_length(slip) == Some(slip.len()) && records.all(|frame| frame.is_ok());
    whole.then(|| (word(slip, 0), word(slip, 2)))
}

/// The first step of a slip that is not as its new record says, in the table of an image of edition 2, where a step with no record is free.
pub fn changed_since(image: &[u8], slip: &[u8]) -> Option<u16> {
    let Edition { header, step, step_kind, .. } = EDITIONS[1];
    let records = || image.get(header..).unwrap_or_default().chunks(step);
    let free = |number: u16| {
        let fields = [step as u16, step_kind, number].map(u16::to_le_bytes).concat();
        [fields, vec![0; step - 6]].concat()
    };
    let changed = |new: &[u8]| {
        let (number, present) = (word(new, 4), records().find(|of| word(of, 4) == word(new, 4)));
        (present.map_or_else(|| free(number), <[u8]>::to_vec) != new).then_some(number)
    };
    let pairs = slip.get(SLIP_HEADER..).unwrap_or_default().chunks(2 * step);
    pairs.filter_map(|pair| pair.get(step..)).find_map(changed)
}

/// A step record, by the byte where it begins.
struct Record {
    at: usize,
    number: u16,
    kind: u16,
    content: u16,
    bits: u16,
    targets: [u16; EXITS],
    cabin: u16,
}

impl Record {
    fn read(image: &[u8], at: usize, edition: &Edition) -> Record {
        let field = |place: usize| word(image, at + place);
        let targets = core::array::from_fn(|exit| field(12 + 2 * exit));
        let cabin = if edition.step <= CABIN { 0 } else { field(CABIN) };
        let (number, kind, content, bits) = (field(4), field(6), field(8), field(10));
        Record { at, number, kind, content, bits, targets, cabin }
    }

    fn bit(&self, place: usize) -> u16 {
        self.bits >> place & 1
    }

    /// The byte of the target of an exit.
    fn target_byte(&self, exit: usize) -> usize {
        self.at + 12 + 2 * exit
    }

    fn step(&self) -> Step {
        let link = |exit: usize| Link { target: self.targets[exit], bit: self.bit(exit) };
        let exits = core::array::from_fn(|exit| (self.targets[exit] != 0).then(|| link(exit)));
        let kind = Kind::of_numbers(self.kind, self.content);
        Step { kind, own: self.bit(EXITS), exits, counts: [0; 2], cabin: self.cabin }
    }
}

/// Rules 4 and 5: each step once, numbers and bits in their ranges.
fn numbers_and_bits(records: &[Record]) -> Result<(), Fault> {
    let mut seen = BTreeSet::new();
    for record in records {
        let number = record.number;
        if !seen.insert(number) {
            return fault(4, record.at + 4, format!("step {number} has a second record"));
        }
    }
    for record in records {
        let Record { at, number, bits, .. } = *record;
        if usize::from(number) >= PLACES {
            return fault(5, at + 4, format!("step {number} is not below {PLACES}"));
        }
        if bits >> (EXITS + 1) != 0 {
            return fault(
                5,
                at + 10,
                format!("the bits of step {number} are {bits}, which is above 31"),
            );
        }
    }
    Ok(())
}

/// Rule 6: the capacity, and what is below it.
fn numbers_below(capacity: u16, last: u16, records: &[Record]) -> Result<(), Fault> {
    if let Err(refusal) = Table::fresh(capacity, &Quotas::default()) {
        return fault(6, 4, format!("the capacity is {capacity}: {refusal}"));
    }
    if last >= capacity {
        return fault(
            6,
            6,
            format!("the last number given is {last}, and the capacity {capacity}"),
        );
    }
    match records.iter().find(|record| record.number >= capacity) {
        Some(record) => fault(
            6,
            record.at + 4,
            format!("step {} is not below the capacity, {capacity}", record.number),
        ),
        None => Ok(()),
    }
}

/// Rule 7: step 0 is the alarm, and every other step has a kind and a content that the edition takes.
fn kinds(records: &[Record], edition: &Edition) -> Result<(), Fault> {
    if records.iter().all(|record| record.number != 0) {
        return fault(7, edition.header, "step 0 has no record".to_string());
    }
    let fits = |record: &Record, content: u16| match record.number {
        0 => Kind::of_numbers(record.kind, content) == Kind::Alarm,
        _ => takes(edition, record.kind, content),
    };
    let Some(record) = records.iter().find(|record| !fits(record, record.content)) else {
        return Ok(());
    };
    let Record { at, number, kind, content, .. } = *record;
    let some_content = if number == 0 { 0 } else { SOME_CONTENT };
    if !fits(record, some_content) {
        return fault(7, at + 6, format!("step {number} cannot have kind {kind}"));
    }
    let said = format!("content {content} of step {number} is out of range");
    let words = match (edition.number, Kind::of_numbers(kind, content)) {
        (1, Kind::Contact(_)) => {
            format!("{said}: a contact in edition 1 goes up to {}", last_old_contact())
        }
        _ => said,
    };
    fault(7, at + 8, words)
}

/// Whether an image of the edition can have a step of that kind and content: the library adds it, and for edition 1 converts it down.
fn takes(edition: &Edition, kind: u16, content: u16) -> bool {
    let taken = Table::fresh(2, &sole_quotas(2)).and_then(|mut table| {
        table.add(0, Exit::Answered, Kind::of_numbers(kind, content), 0)?;
        if edition.number == 1 {
            let mut image = [0; IMAGE_MAX];
            let length = table.write_image(&mut image)?;
            convert_down(&image[..length], &mut [0; IMAGE_MAX])?;
        }
        Ok(())
    });
    taken.is_ok()
}

/// The largest contact that an image of edition 1, which an old telephone takes, can have.
pub fn last_old_contact() -> u16 {
    let (kind, _) = Kind::Contact(0).numbers();
    (0..=u16::MAX).take_while(|&contact| takes(&EDITIONS[0], kind, contact)).last().unwrap_or(0)
}

/// Rules 8 and 9: every link leads to a step with a record, and an empty exit has bit 0.
fn targets(records: &[Record]) -> Result<(), Fault> {
    let each = || records.iter().flat_map(|record| (0..EXITS).map(move |exit| (record, exit)));
    for (record, exit) in each() {
        let (number, target) = (record.number, record.targets[exit]);
        if target != 0 && records.iter().all(|other| other.number != target) {
            let words =
                format!("exit {exit} of step {number} leads to step {target}, which has no record");
            return fault(8, record.target_byte(exit), words);
        }
    }
    for (record, exit) in each() {
        if record.targets[exit] == 0 && record.bit(exit) != 0 {
            let words = format!("exit {exit} of step {} is empty and has bit 1", record.number);
            return fault(9, record.at + 10, words);
        }
    }
    Ok(())
}

/// Rule 10: strong links form no ring, and lead to every step from step 0.
fn strong_links(records: &[Record], view: &View) -> Result<(), Fault> {
    for record in records {
        for held in view.links_from(record.number).filter(|held| held.strong) {
            let (step, exit, target) = (held.step, held.exit.number(), held.link.target);
            if view.strong_chain(target, step).is_some() {
                let words = format!(
                    "exit {exit} of step {step}, to step {target}, is in a ring of strong links"
                );
                return fault(10, record.target_byte(usize::from(exit)), words);
            }
        }
    }
    match records.iter().find(|record| view.strong_chain(0, record.number).is_none()) {
        Some(record) => fault(
            10,
            record.at + 4,
            format!("no strong links lead from step 0 to step {}", record.number),
        ),
        None => Ok(()),
    }
}

/// Rule 11: no guarantee is above its limit, and all together are below the capacity. The library is asked with more and more of the list.
fn list(view: &View) -> Result<(), Fault> {
    let capacity = view.capacity;
    let mut first = Quotas::default();
    for (cabin, &quota) in view.quotas.iter().enumerate() {
        first[cabin] = quota;
        if Table::fresh(capacity, &first).is_err() {
            let Quota { guarantee, limit } = quota;
            let said = format!("cabin {cabin} is guaranteed {guarantee}");
            return match guarantee > limit {
                true => fault(11, limit_byte(cabin), format!("{said}, and its limit is {limit}")),
                false => {
                    let words =
                        format!("{said}, and all together are not below the capacity, {capacity}");
                    fault(11, guarantee_byte(cabin), words)
                }
            };
        }
    }
    Ok(())
}

/// Rule 12: cabins are 0 to 7, and 0 for step 0.
fn cabins(records: &[Record]) -> Result<(), Fault> {
    for &Record { at, number, cabin, .. } in records {
        let said = format!("the cabin of step {number} is {cabin}");
        if number == 0 && cabin != 0 {
            return fault(12, at + CABIN, format!("{said}, and step 0 is charged to none"));
        }
        if usize::from(cabin) >= CABINS {
            return fault(12, at + CABIN, format!("{said}, which is above 7"));
        }
    }
    Ok(())
}

/// Rule 13: no cabin has more steps than its limit.
fn limits(records: &[Record], view: &View) -> Result<(), Fault> {
    for (cabin, &Quota { limit, .. }) in view.quotas.iter().enumerate() {
        let over: Vec<u16> = view.charged(cabin).skip(limit.into()).collect();
        if let Some(record) = records.iter().find(|record| over.contains(&record.number)) {
            let words =
                format!("step {} passes the limit of cabin {cabin}, {limit}", record.number);
            return fault(13, record.at + CABIN, words);
        }
    }
    Ok(())
}

/// Rule 14: the free steps are enough for what is still owed.
fn reserve(view: &View) -> Result<(), Fault> {
    let mut left = view.free();
    for cabin in 0..CABINS {
        let owed = view.owed(cabin);
        if owed > left {
            let words = format!(
                "cabin {cabin} is still owed {}, and {left} free ones are left for it",
                count(owed, "step")
            );
            return fault(14, guarantee_byte(cabin), words);
        }
        left -= owed;
    }
    Ok(())
}
