//! (d) Conversions of an image to the other edition, in safe Rust written for speed: from bytes to bytes, with no table. One pass over the records,
//! with no branch, gathers what is wrong and counts the links; one search withdraws them; then the records are copied in ascending step number.

#![forbid(unsafe_code)]

use crate::quotas::{fit, Charges};
use crate::tuned::{withdraw, COUNTERS, EXITS, LINKS, PLACES, WEAK};
use reference::image::{HEADER, OLD_HEADER, OLD_RECORD, RECORD};
use telephone::raw::{Quota, Quotas};

/// Four words of one number, which has 16 bits.
const fn four(word: u64) -> u64 {
    word * 0x0001_0001_0001_0001
}

/// The lowest and the highest bit of four words.
const LOW: u64 = four(1);
const HIGH: u64 = four(0x8000);

/// The four bits of a number below 16, multiplied by this, are the lowest bits of four words; other bits are above them.
const SPREAD: u64 = 1 | 1 << 15 | 1 << 30 | 1 << 45;

/// Number, kind, content and bits of a step as four words.
const fn fields(number: u16, kind: u16, content: u16, bits: u16) -> u64 {
    number as u64 | (kind as u64) << 16 | (content as u64) << 32 | (bits as u64) << 48
}

/// The least that these fields may be, by the kind. Only the alarm is step 0.
const LEAST: [u64; 4] = [0, fields(1, 1, 0, 0), fields(1, 2, 0, 0), fields(1, 3, 1, 0)];

/// The highest contact, and the highest that an old telephone takes, which has edition 1.
const HIGHEST_CONTACT: u16 = 999;
const OLD_HIGHEST_CONTACT: u16 = 99;

/// The most that these fields may be, by the kind, where contacts go up to this one.
#[inline(always)]
fn most(capacity: u16, contact: u16) -> [u64; 4] {
    let last = capacity - 1;
    [
        fields(0, 0, 0, 31),
        fields(last, 1, contact, 31),
        fields(last, 2, 15, 31),
        fields(last, 3, 600, 31),
    ]
}

/// The highest bit of each word, where the fields of a step are within their ranges, and other bits. Every field has to be below 2^15.
#[inline(always)]
fn within(all: u64, most: &[u64; 4]) -> u64 {
    let kind = (all >> 16) as usize % 4;
    (most[kind] | HIGH).wrapping_sub(all) & (all | HIGH).wrapping_sub(LEAST[kind])
}

/// The counters that empty exits are withdrawn from, one for each exit, past those of the steps.
const NO_LINK: u64 = four(COUNTERS as u64) + 0x0003_0002_0001_0000;

/// The length and the kind of a record of this length as one number.
const fn frame(length: usize) -> u32 {
    let kind = match length {
        OLD_HEADER => 1,
        OLD_RECORD => 2,
        HEADER => 3,
        _ => 4,
    };
    kind << 16 | length as u32
}

#[inline(always)]
fn word(bytes: &[u8], at: usize) -> u16 {
    u16::from_le_bytes([bytes[at], bytes[at + 1]])
}

#[inline(always)]
fn first_words(bytes: &[u8]) -> u32 {
    u32::from(word(bytes, 0)) | u32::from(word(bytes, 2)) << 16
}

#[inline(always)]
fn four_words(bytes: &[u8], at: usize) -> u64 {
    u64::from_le_bytes(bytes[at..at + 8].try_into().expect("eight bytes"))
}

/// An accepted image.
struct Accepted<'a, const STEP: usize> {
    header: &'a [u8],
    capacity: u16,
    records: &'a [[u8; STEP]],
    /// For each step number, 1 more than the place of its record, or 0.
    places: [u8; PLACES],
    ascending: bool,
    /// Whether edition 1 can say it: all steps are cabin 0's, which has the list of edition 1, and an old telephone takes the contacts.
    sayable: bool,
}

/// Reads an image of the edition whose records have these lengths.
#[inline(always)]
fn read<const FIRST: usize, const STEP: usize>(image: &[u8]) -> Option<Accepted<'_, STEP>> {
    let (header, steps) = image.split_at_checked(FIRST)?;
    let (records, rest) = steps.as_chunks::<STEP>();
    let (capacity, last, count) = (word(header, 4), word(header, 6), word(header, 8));
    if first_words(header) != frame(FIRST)
        || !rest.is_empty()
        || records.len() != usize::from(count)
        || !(1..=PLACES as u16).contains(&capacity)
        || !(1..=capacity).contains(&count)
        || last >= capacity
    {
        return None;
    }

    let mut places = [0u8; PLACES];
    let mut own = [0u16; PLACES];
    let mut counter = [0u16; LINKS];
    let (exits, _) = counter.as_chunks_mut::<EXITS>();
    let mut left = [0u16; 2 * COUNTERS];
    left[COUNTERS..].fill(WEAK);
    let old = most(capacity, OLD_HIGHEST_CONTACT);
    let (mut frames, mut above, mut in_old, mut bad_links, mut any_cabin) = (0, 0, HIGH, 0, 0);
    let (mut ascending, mut before) = (true, -1);
    for (place, record) in records.iter().enumerate() {
        frames |= first_words(record) ^ frame(STEP);
        // A field of 2^15 or more shows in `above`. Any other leaves the highest bit of its word where it is within edition 1's range.
        let all = four_words(record, 4);
        above |= all;
        in_old &= within(all, &old);
        if STEP == RECORD {
            any_cabin |= word(record, OLD_RECORD);
        }
        let number = all as u16;
        ascending &= i32::from(number) > before;
        before = i32::from(number);

        // The counter of each link: two for each target. A target of more than 7 bits shows in `bad_links`.
        let targets = four_words(record, 12);
        let bits = all >> 48;
        let links = (bits & 15).wrapping_mul(SPREAD) & LOW;
        let empty = !targets.wrapping_add(four(0x7FFF)) >> 15 & LOW;
        bad_links |= targets & four(0xFF80) | links & empty;
        let counters = (targets << 1 | links) & four(0x01FF) | (empty * 0xFFFF) & NO_LINK;
        let step = usize::from(number) % PLACES;
        let of_step = [0, 16, 32, 48].map(|shift| (counters >> shift) as u16);
        for counter in of_step {
            left[usize::from(counter) % (2 * COUNTERS)] += 1;
        }
        exits[step] = of_step;
        own[step] = (bits >> EXITS) as u16 & 1;
        places[step] = place as u8 + 1;
    }

    // As many steps as records, and no link to a step that has none. Counters of weak links never come to 0.
    let (mut steps, mut bad) = (0u16, 0);
    for step in 0..PLACES {
        let used = u16::from(places[step] != 0);
        steps += used;
        bad |= (left[2 * step] | left[2 * step + 1]) & used.wrapping_sub(1);
        left[2 * step] |= own[step] << 15;
        left[2 * step + 1] |= (own[step] ^ 1) << 15;
    }
    // Only where a field is out of edition 1's range, all are held to those of edition 2.
    let fits = || {
        let new = most(capacity, HIGHEST_CONTACT);
        let in_new = |bits, record: &[u8; STEP]| bits & within(four_words(record, 4), &new);
        STEP == RECORD && records.iter().fold(HIGH, in_new) == HIGH
    };
    if frames != 0
        || above & HIGH != 0
        || in_old != HIGH && !fits()
        || bad_links != 0
        || bad != 0
        || steps != count
        || places[0] == 0
    {
        return None;
    }
    let sayable =
        STEP == OLD_RECORD || sole(header, capacity, records, any_cabin)? && in_old == HIGH;
    (withdraw(&counter, &mut left) == count).then_some(Accepted {
        header,
        capacity,
        records,
        places,
        ascending,
        sayable,
    })
}

/// Whether the list of an image of edition 2 is that of edition 1, which only steps of cabin 0 fit; nothing where the steps do not fit the list, or
/// have wrong cabins.
#[inline(always)]
fn sole<const STEP: usize>(
    header: &[u8],
    capacity: u16,
    records: &[[u8; STEP]],
    any_cabin: u16,
) -> Option<bool> {
    let quotas: Quotas = std::array::from_fn(|cabin| Quota {
        guarantee: word(header, OLD_HEADER + 4 * cabin),
        limit: word(header, OLD_HEADER + 4 * cabin + 2),
    });
    let mut charges = Charges::default();
    if any_cabin == 0 {
        charges[0] = records.len() as u16 - 1;
    } else {
        for record in records {
            let (number, cabin) = (word(record, 4), word(record, OLD_RECORD));
            if number != 0 {
                *charges.get_mut(usize::from(cabin))? += 1;
            } else if cabin != 0 {
                return None;
            }
        }
    }
    let mut of_edition_1 = Quotas::default();
    of_edition_1[0] = Quota { guarantee: capacity - 1, limit: capacity - 1 };
    fit(capacity, &quotas, &charges).then_some(quotas == of_edition_1)
}

/// Writes the records of an image with so many bytes each, in ascending step number. They have all fields of edition 1, and a cabin is 0.
#[inline(always)]
fn write<const FROM: usize, const TO: usize>(image: &Accepted<FROM>, steps: &mut [u8]) {
    let (steps, _) = steps.as_chunks_mut::<TO>();
    let put = |to: &mut [u8; TO], from: &[u8; FROM]| {
        to[..4].copy_from_slice(&frame(TO).to_le_bytes());
        to[4..OLD_RECORD].copy_from_slice(&from[4..OLD_RECORD]);
        to[OLD_RECORD..].fill(0);
    };
    if image.ascending {
        steps.iter_mut().zip(image.records).for_each(|(to, from)| put(to, from));
    } else {
        let places = image.places.iter().filter(|&&place| place != 0);
        for (to, &place) in steps.iter_mut().zip(places) {
            put(to, &image.records[usize::from(place) - 1]);
        }
    }
}

/// From edition 1 to edition 2. Gives the length, or the refusal.
#[inline(never)]
pub fn up(image: &[u8], buffer: &mut [u8]) -> Result<u16, u16> {
    let image = read::<OLD_HEADER, OLD_RECORD>(image).ok_or(12u16)?;
    let length = HEADER + RECORD * image.records.len();
    let (header, steps) = buffer.get_mut(..length).ok_or(11u16)?.split_at_mut(HEADER);
    let pair = (image.capacity - 1).to_le_bytes();
    header[..4].copy_from_slice(&frame(HEADER).to_le_bytes());
    header[4..OLD_HEADER].copy_from_slice(&image.header[4..]);
    header[OLD_HEADER..].fill(0);
    header[OLD_HEADER..OLD_HEADER + 4].copy_from_slice(&[pair[0], pair[1], pair[0], pair[1]]);
    write::<OLD_RECORD, RECORD>(&image, steps);
    Ok(length as u16)
}

/// From edition 2 to edition 1. Gives the length, or the refusal.
#[inline(never)]
pub fn down(image: &[u8], buffer: &mut [u8]) -> Result<u16, u16> {
    let image = read::<HEADER, RECORD>(image).ok_or(12u16)?;
    if !image.sayable {
        return Err(17);
    }
    let length = OLD_HEADER + OLD_RECORD * image.records.len();
    let (header, steps) = buffer.get_mut(..length).ok_or(11u16)?.split_at_mut(OLD_HEADER);
    header[..4].copy_from_slice(&frame(OLD_HEADER).to_le_bytes());
    header[4..].copy_from_slice(&image.header[4..OLD_HEADER]);
    write::<RECORD, OLD_RECORD>(&image, steps);
    Ok(length as u16)
}
