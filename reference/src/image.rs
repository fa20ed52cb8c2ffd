//! Writing and loading images. All records but the first have one length, so an image is cut
//! into equal parts and no record's length is followed. An image of edition 1 is put into edition 2
//! before it is read.
//! Renders "Image" of document 01, W1's order of writing, which is ascending, W5's editions, and
//! what W9 asks of edition 1.

use crate::cabins::one_cabin;
use crate::calls::{bare, first_refusal, fresh_for_cabin_0, Answer};
use crate::faults::Fault;
use crate::sound::{sound, CONTACT, OLD_HIGHEST_CONTACT, WAIT};
use crate::table::{members, place, Table, EXITS, PLACES};

/// Bytes of the first record.
pub const HEADER: usize = 42;
/// Bytes of a step record.
pub const RECORD: usize = 22;
/// Bytes of the first record in edition 1.
pub const OLD_HEADER: usize = 10;
/// Bytes of a step record in edition 1.
pub const OLD_RECORD: usize = 20;

/// The length of a table's image.
pub fn length(table: &Table) -> Answer {
    if sound(table) {
        Answer { first: encode(table).len() as u16, ..Default::default() }
    } else {
        bare(1)
    }
}

/// Writes a table's image into a lent buffer; answers its length.
pub fn write(table: &Table, buffer: &mut [u8]) -> Answer {
    let image = encode(table);
    let refusal = first_refusal(&[(1, !sound(table)), (11, buffer.len() < image.len())]);
    if refusal != 0 {
        return bare(refusal);
    }
    buffer[..image.len()].copy_from_slice(&image);
    Answer { first: image.len() as u16, ..Default::default() }
}

/// The table of an image; a fresh one of capacity 1 where the image is refused.
pub fn load(bytes: &[u8]) -> (Table, Answer) {
    load_with(bytes, Fault::None)
}

/// Loads an image, with a fault or without. In edition 1 it has contacts that an old telephone takes.
pub fn load_with(bytes: &[u8], fault: Fault) -> (Table, Answer) {
    let old = match fault {
        Fault::OldRangeUnasked => false,
        Fault::OldRangeInBoth => true,
        _ => is_old(bytes),
    };
    let image = raised(bytes, fault).filter(|image| !old || old_telephone_takes(image, fault));
    match image.and_then(|image| decode(&image)) {
        Some(table) => (table, bare(0)),
        None => (fresh_for_cabin_0(1), bare(12)),
    }
}

/// An image of either edition in edition 2; nothing for some bytes that are not accepted.
pub fn in_edition_2(image: &[u8]) -> Option<Vec<u8>> {
    raised(image, Fault::None)
}

/// Whether an old telephone takes the contacts of an image of edition 2, with a fault or without. It
/// can be read on any bytes that are enough for a header.
pub fn old_telephone_takes(image: &[u8], fault: Fault) -> bool {
    let highest = match fault {
        Fault::OldRangeTo100 => OLD_HIGHEST_CONTACT + 1,
        _ => OLD_HIGHEST_CONTACT,
    };
    image[HEADER..].chunks_exact(RECORD).map(fields).all(|[_, _, _, kind, content]| match kind {
        CONTACT => content <= highest,
        WAIT if fault == Fault::OldRangeOfWaits => content <= highest,
        _ => true,
    })
}

/// An accepted image of either edition in edition 1, without its list and its cabins. With a contact
/// that no old telephone takes it is not accepted any more.
pub fn in_edition_1(image: &[u8]) -> Vec<u8> {
    if is_old(image) {
        return image.to_vec();
    }
    let (header, steps) = image.split_at(HEADER);
    let mut old = [&[OLD_HEADER as u8, 0, 1, 0], &header[4..OLD_HEADER]].concat();
    for step in steps.chunks(RECORD) {
        old.extend([OLD_RECORD as u8, 0, 2, 0].iter().chain(&step[4..OLD_RECORD]));
    }
    old
}

/// Bytes of the header and of a step record, in the edition that an image begins with.
pub fn sizes(image: &[u8]) -> (usize, usize) {
    if is_old(image) {
        (OLD_HEADER, OLD_RECORD)
    } else {
        (HEADER, RECORD)
    }
}

/// The records of an accepted image of either edition, the header first.
pub fn records(image: &[u8]) -> Vec<&[u8]> {
    let (header, record) = sizes(image);
    let (header, steps) = image.split_at(header);
    [header].into_iter().chain(steps.chunks(record)).collect()
}

/// An accepted image of either edition, its step records in ascending step number.
pub fn sorted(image: &[u8]) -> Vec<u8> {
    let mut records = records(image);
    records[1..].sort_by_key(|record| number(record));
    records.concat()
}

/// The two-byte fields at the start of some bytes.
pub fn fields<const N: usize>(bytes: &[u8]) -> [u16; N] {
    std::array::from_fn(|i| u16::from_le_bytes([bytes[2 * i], bytes[2 * i + 1]]))
}

/// Little-endian bytes.
pub fn bytes(fields: impl IntoIterator<Item = u16>) -> Vec<u8> {
    fields.into_iter().flat_map(u16::to_le_bytes).collect()
}

/// The bytes of a table's image. On a table that is not sound they mean nothing.
pub fn encode(table: &Table) -> Vec<u8> {
    let header = [HEADER as u16, 3, table.capacity, table.last, table.size()];
    let mut image = bytes(header.into_iter().chain(table.quotas));
    members(table.in_use()).for_each(|step| image.extend(record(table, step)));
    image
}

/// The record of a step; that of a free one has its number and zeros.
pub fn record(table: &Table, step: usize) -> Vec<u8> {
    let exits = place(step, 0)..place(step, EXITS);
    let bits = table.bits[exits.clone()].iter().chain([&table.own[step]]);
    let sum = bits.enumerate().fold(0, |sum, (i, &bit)| sum | (bit & 1) << i);
    let (kind, content) = (table.kinds[step], table.contents[step]);
    let mut all = vec![RECORD as u16, 4, step as u16, kind, content, sum];
    all.extend(&table.targets[exits]);
    all.push(table.cabins[step]);
    bytes(all)
}

/// The number of the step that a record is of.
pub fn number(record: &[u8]) -> u16 {
    fields::<3>(record)[2]
}

/// Whether bytes begin with the length and the kind of edition 1's first record.
pub fn is_old(image: &[u8]) -> bool {
    image.starts_with(&[OLD_HEADER as u8, 0, 1, 0])
}

/// Bytes that begin as an image of edition 1, put into edition 2 with W5's list and cabin 0;
/// nothing where the capacity is 0 or a step record is not of edition 1. Other bytes stay as they
/// are.
fn raised(image: &[u8], fault: Fault) -> Option<Vec<u8>> {
    let old = is_old(image);
    let (header, steps) = image.split_at_checked(if old { OLD_HEADER } else { HEADER })?;
    let old_steps = match fault {
        Fault::EditionsMixed => steps.starts_with(&[OLD_RECORD as u8, 0, 2, 0]),
        _ => old,
    };
    let mut raised = header.to_vec();
    if old {
        let [_, _, capacity, last, count] = fields(header);
        if capacity == 0 {
            return None;
        }
        let mut list = one_cabin(capacity);
        if fault == Fault::NoGuaranteeLoaded {
            list[0] = 0;
        }
        raised = bytes([HEADER as u16, 3, capacity, last, count].into_iter().chain(list));
    }
    if old_steps {
        for step in steps.chunks(OLD_RECORD) {
            let [20, 0, 2, 0, rest @ ..] = <[u8; OLD_RECORD]>::try_from(step).ok()? else {
                return None;
            };
            raised.extend([RECORD as u8, 0, 4, 0].into_iter().chain(rest).chain([0, 0]));
        }
    } else {
        raised.extend(steps);
    }
    Some(raised)
}

/// The table of an accepted image of edition 2.
fn decode(image: &[u8]) -> Option<Table> {
    let (header, rest) = image.split_at_checked(HEADER)?;
    let [42, 3, capacity, last, count, quotas @ ..] = fields::<21>(header) else {
        return None;
    };
    let records = rest.chunks_exact(RECORD);
    if !records.remainder().is_empty() || records.len() != usize::from(count) {
        return None;
    }
    let mut table = Table::zero();
    (table.capacity, table.last, table.quotas) = (capacity, last, quotas);
    for record in records {
        let [22, 4, number, kind, content, bits, targets @ .., cabin] = fields::<11>(record) else {
            return None;
        };
        let step = usize::from(number);
        if step >= PLACES || table.used[step] == 1 || bits > 31 {
            return None;
        }
        table.used[step] = 1;
        table.kinds[step] = kind;
        table.contents[step] = content;
        table.own[step] = bits >> EXITS;
        table.cabins[step] = cabin;
        for (exit, target) in targets.into_iter().enumerate() {
            table.targets[place(step, exit)] = target;
            table.bits[place(step, exit)] = bits >> exit & 1;
        }
    }
    table.counts = table.counted();
    sound(&table).then_some(table)
}
