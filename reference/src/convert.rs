//! Conversions of an image to the other edition: its records are put into that edition one by one,
//! and sorted. A table is made to see whether the image is accepted, and for nothing else.
//! Renders W6 of document 02, and what W9 adds to its 17.

use crate::cabins::{one_cabin, pairs};
use crate::calls::{bare, first_refusal, Answer};
use crate::faults::{cut, put, spoil, Fault, Length, Sort};
use crate::history::{with_buffer, Outcome};
use crate::image::{
    fields, in_edition_1, in_edition_2, is_old, load_with, old_telephone_takes, sizes, sorted,
    HEADER, RECORD,
};

/// Up is from edition 1 to edition 2, down is back.
#[derive(Clone, Copy, PartialEq, Eq, Debug)]
pub enum Way {
    Up,
    Down,
}

/// A conversion. No history has one. The lent buffer stands in it as its length.
#[derive(Clone, PartialEq, Eq, Debug)]
pub struct Conversion {
    pub way: Way,
    pub image: Vec<u8>,
    pub buffer: usize,
}

/// Makes a conversion, with a fault or without.
pub fn run(conversion: &Conversion, fault: Fault) -> Outcome {
    let Conversion { way, image, buffer } = conversion;
    let image = &image[..cut(fault, Length::Image, image.len())];
    let mut outcome =
        with_buffer(*buffer, fault, |buffer| convert_with(*way, image, buffer, fault));
    spoil(fault, Sort::of_way(*way), None, &mut outcome);
    outcome
}

/// Writes an image of the one edition into a lent buffer in the other; answers the length written.
pub fn convert(way: Way, image: &[u8], buffer: &mut [u8]) -> Answer {
    convert_with(way, image, buffer, Fault::None)
}

/// Converts an image, with a fault or without.
fn convert_with(way: Way, image: &[u8], buffer: &mut [u8], fault: Fault) -> Answer {
    // no conversion mixes editions, whatever the fault
    let reading = if fault == Fault::EditionsMixed { Fault::None } else { fault };
    let accepted = load_with(image, reading).1.refusal == 0;
    let other = is_old(image) != (way == Way::Up) && fault != Fault::SameEditionTaken;
    let written = if accepted { converted(way, image, fault) } else { Vec::new() };
    let needed = match fault {
        Fault::RoomForEither => written.len().max(image.len()),
        _ => written.len(),
    };
    // bad or of the other edition; going down, more than edition 1 can say; last, a short buffer
    let mut order = [
        (12, !accepted || other),
        (17, way == Way::Down && !sayable(image, fault)),
        (11, buffer.len() < needed),
    ];
    match fault {
        Fault::CabinsBeforeImage => order.swap(0, 1),
        Fault::BufferBeforeCabins => order.swap(1, 2),
        Fault::BufferBeforeEdition => order.rotate_right(1),
        _ => {}
    }
    let refusal = first_refusal(&order);
    put(refusal, &written, buffer, fault);
    if refusal != 0 {
        return bare(refusal);
    }
    let length = match fault {
        Fault::LengthOfGiven => image.len(),
        _ => written.len(),
    };
    Answer { first: length as u16, ..Default::default() }
}

/// Whether edition 1 can say what an image has: all steps are cabin 0's, the list is W5's for
/// edition 1, and an old telephone takes the contacts. It can be read on any bytes.
fn sayable(image: &[u8], fault: Fault) -> bool {
    in_edition_2(image).is_none_or(|image| {
        let [_, _, capacity, _, _, quotas @ ..] = fields::<21>(&image);
        let for_cabin_0 = image[HEADER..].chunks(RECORD).all(|step| step.ends_with(&[0, 0]));
        let (found, wanted) = (pairs(&quotas), pairs(&one_cabin(capacity)));
        let for_one_cabin = match fault {
            Fault::CabinsDropped => true,
            Fault::ListDropped => for_cabin_0,
            Fault::LimitsDropped => {
                for_cabin_0 && found.map(|[guarantee, _]| guarantee) == wanted.map(|pair| pair[0])
            }
            Fault::OtherPairsDropped => for_cabin_0 && found[0] == wanted[0],
            _ => for_cabin_0 && found == wanted,
        };
        for_one_cabin && (fault == Fault::ContactsUnasked || old_telephone_takes(&image, fault))
    })
}

/// An accepted image in the edition that the way leads to, sorted, with a fault or without.
fn converted(way: Way, image: &[u8], fault: Fault) -> Vec<u8> {
    let mut image = match way {
        Way::Up => in_edition_2(image).expect("an accepted image"),
        Way::Down => in_edition_1(image),
    };
    let (header, record) = sizes(&image);
    let (header, steps) = image.split_at_mut(header);
    let steps = steps.chunks_mut(record);
    match fault {
        Fault::AlarmGuaranteed if way == Way::Up => {
            let capacity = [header[4], header[5]];
            header[10..14].copy_from_slice(&[capacity; 2].concat());
        }
        Fault::LastIsHighest => header[6] = steps.map(|step| step[4]).max().unwrap_or(0),
        Fault::BitsDropped(bits) => steps.for_each(|step| step[10] &= !bits),
        Fault::AlarmBitDropped => {
            steps.filter(|step| step[4] == 0).for_each(|step| step[10] &= !16);
        }
        Fault::OrderKept => return image,
        _ => {}
    }
    sorted(&image)
}
