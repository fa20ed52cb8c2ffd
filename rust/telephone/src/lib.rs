//! The call plan table of a lift telephone, over the proved static library `libtelephone.a`. It needs no standard library and allocates nothing.
//!
//! A [`Table`] is always sound: it is made by [`Table::fresh`], [`Table::load`] or [`Table::from_raw`], and only calls change it, in place. A refused
//! call is an `Err` and changes nothing. [`raw`] has the calls on any table and with any numbers, for callers who keep the memory themselves.
//!
//! Eight cabins share a plan: each step is charged to the cabin that added it, within the guarantees and limits of [`Quotas`].
//!
//! A clearing can be taken back by its slip: [`Table::clear_with_slip`], [`Table::take_back`]. [`Table::preview_clear`] tells beforehand which steps it
//! would free. [`Table::rung`] tells whom a trial can ring: a step can be in use and never entered.
//!
//! Images are written in edition 2 of the format and loaded in both; [`convert_up`] and [`convert_down`] turn an image of one edition into the other.
//!
//! Apart from any plan, sixteen cabins wait for one line, and a [`Line`] says whose turn it is.
//!
//! ```
//! use telephone::{sole_quotas, Exit, Kind, Table};
//!
//! telephone::check_edition()?;
//! let mut table = Table::fresh(128, &sole_quotas(128))?; // cabin 0 has the plan to itself
//! let step = table.add(0, Exit::Answered, Kind::Contact(7), 0)?;
//! table.link(0, Exit::Answered, step, Exit::NoReply)?; // ring again where nobody replies
//! let cleared = table.clear(0, Exit::Answered)?;
//! assert_eq!((step, cleared.freed), (1, 1));
//! # Ok::<(), Box<dyn std::error::Error>>(())
//! ```

#![no_std]
#![warn(missing_docs)]

mod line;
#[allow(missing_docs)]
pub mod raw;

use core::fmt;
pub use line::Line;
pub use raw::{Quota, Quotas};

/// The lines of Rust in the README, which are run as tests.
#[cfg(doctest)]
#[doc = include_str!("../../../README.md")]
struct Readme;

/// The edition of the interface that this crate is written for.
pub const EDITION: u16 = 4;
/// Places for steps; the largest capacity.
pub const PLACES: usize = 128;
/// Exits of a step.
pub const EXITS: usize = 4;
/// Cabins that share a plan.
pub const CABINS: usize = 8;
/// Cabins that wait for one line.
pub const LINE_CABINS: usize = 16;
/// Bytes of the largest image that is written, by a table or by a conversion. The largest of edition 1 has 2,570.
pub const IMAGE_MAX: usize = 2858;
/// Bytes of the largest slip of a clearing.
pub const SLIP_MAX: usize = 5638;
/// Bytes that the buffer of a preview or of [`Table::rung`] must have: one for each step that can be listed, which is any but step 0.
pub const STEPS_ROOM: usize = 127;
/// The same number, by the name that it had when only a preview listed steps.
pub const PREVIEW_ROOM: usize = STEPS_ROOM;
/// Bytes of stack for any call of the library, with the caller's table.
pub const STACK_MAX: usize = 16 * 1024;

/// Whether the library that is linked has the edition of this crate. A host asks once, before any other call.
pub fn check_edition() -> Result<(), WrongEdition> {
    match raw::edition() {
        EDITION => Ok(()),
        library => Err(WrongEdition { library }),
    }
}

/// The library that is linked has another edition.
#[derive(Clone, Copy, PartialEq, Eq, Debug)]
pub struct WrongEdition {
    /// The edition of the library.
    pub library: u16,
}

impl fmt::Display for WrongEdition {
    fn fmt(&self, f: &mut fmt::Formatter<'_>) -> fmt::Result {
        write!(f, "the library has edition {}, and {EDITION} is needed", self.library)
    }
}

impl core::error::Error for WrongEdition {}

/// Why a call was refused.
#[derive(Clone, Copy, PartialEq, Eq, Hash, Debug)]
#[non_exhaustive]
pub enum Refusal {
    /// 1: table not sound, or the dispatcher's last served is above 15.
    NotSound,
    /// 2: capacity not 1 to 128.
    BadCapacity,
    /// 3: step not in use.
    NotInUse,
    /// 4: exit above 3.
    BadExit,
    /// 5: exit to be filled holds a link.
    ExitFilled,
    /// 6: exit to copy or clear is empty.
    ExitEmpty,
    /// 7: kind not 1 to 3, or content out of range.
    BadKind,
    /// 8: steps in use equal the capacity.
    Full,
    /// 9: not a key line.
    NotKeyLine,
    /// 10: some line result above 3.
    BadResult,
    /// 11: lent buffer shorter than needed.
    TooShort,
    /// 12: image not accepted; of a conversion also: image of the other edition.
    NotAccepted,
    /// 13: capacity below the steps in use, or the charges do not fit the new list.
    DoesNotFit,
    /// 14: cabin at its limit.
    CabinAtLimit,
    /// 15: only steps reserved for other cabins are free.
    StepsReserved,
    /// 16: cabin above 7, or bad list of guarantees and limits.
    BadCabins,
    /// 17: image needs edition 2: a cabin, guarantee, limit or contact that edition 1 cannot say.
    NeedsEdition2,
    /// 18: slip not accepted.
    SlipNotAccepted,
    /// 20: cabin above 15, of those that wait for the line.
    NoSuchCabin,
    /// 21: nobody waits for the line.
    NobodyWaits,
    /// A number that this crate does not know. The library of this edition gives none.
    Unknown(u16),
}

impl Refusal {
    /// The number in documents 01 and 02.
    pub const fn number(self) -> u16 {
        match self {
            Refusal::NotSound => 1,
            Refusal::BadCapacity => 2,
            Refusal::NotInUse => 3,
            Refusal::BadExit => 4,
            Refusal::ExitFilled => 5,
            Refusal::ExitEmpty => 6,
            Refusal::BadKind => 7,
            Refusal::Full => 8,
            Refusal::NotKeyLine => 9,
            Refusal::BadResult => 10,
            Refusal::TooShort => 11,
            Refusal::NotAccepted => 12,
            Refusal::DoesNotFit => 13,
            Refusal::CabinAtLimit => 14,
            Refusal::StepsReserved => 15,
            Refusal::BadCabins => 16,
            Refusal::NeedsEdition2 => 17,
            Refusal::SlipNotAccepted => 18,
            Refusal::NoSuchCabin => 20,
            Refusal::NobodyWaits => 21,
            Refusal::Unknown(number) => number,
        }
    }

    /// What the refusal in a reply says: `Ok` for 0. No number is out of range.
    pub const fn check(number: u16) -> Result<(), Refusal> {
        Err(match number {
            0 => return Ok(()),
            1 => Refusal::NotSound,
            2 => Refusal::BadCapacity,
            3 => Refusal::NotInUse,
            4 => Refusal::BadExit,
            5 => Refusal::ExitFilled,
            6 => Refusal::ExitEmpty,
            7 => Refusal::BadKind,
            8 => Refusal::Full,
            9 => Refusal::NotKeyLine,
            10 => Refusal::BadResult,
            11 => Refusal::TooShort,
            12 => Refusal::NotAccepted,
            13 => Refusal::DoesNotFit,
            14 => Refusal::CabinAtLimit,
            15 => Refusal::StepsReserved,
            16 => Refusal::BadCabins,
            17 => Refusal::NeedsEdition2,
            18 => Refusal::SlipNotAccepted,
            20 => Refusal::NoSuchCabin,
            21 => Refusal::NobodyWaits,
            _ => Refusal::Unknown(number),
        })
    }
}

impl fmt::Display for Refusal {
    fn fmt(&self, f: &mut fmt::Formatter<'_>) -> fmt::Result {
        f.write_str(match self {
            Refusal::NotSound => "table not sound, or the dispatcher's last served is above 15",
            Refusal::BadCapacity => "capacity not 1 to 128",
            Refusal::NotInUse => "step not in use",
            Refusal::BadExit => "exit above 3",
            Refusal::ExitFilled => "exit to be filled holds a link",
            Refusal::ExitEmpty => "exit to copy or clear is empty",
            Refusal::BadKind => "kind not 1 to 3, or content out of range",
            Refusal::Full => "steps in use equal the capacity",
            Refusal::NotKeyLine => "not a key line",
            Refusal::BadResult => "some line result above 3",
            Refusal::TooShort => "lent buffer shorter than needed",
            Refusal::NotAccepted => "image not accepted",
            Refusal::DoesNotFit => {
                "capacity below the steps in use, or the charges do not fit the new list"
            }
            Refusal::CabinAtLimit => "cabin at its limit",
            Refusal::StepsReserved => "only steps reserved for other cabins are free",
            Refusal::BadCabins => "cabin above 7, or bad list of guarantees and limits",
            Refusal::NeedsEdition2 => {
                "image needs edition 2: a cabin, guarantee, limit or contact that edition 1 cannot say"
            }
            Refusal::SlipNotAccepted => "slip not accepted",
            Refusal::NoSuchCabin => "cabin above 15",
            Refusal::NobodyWaits => "nobody waits for the line",
            Refusal::Unknown(number) => return write!(f, "unknown refusal {number}"),
        })
    }
}

impl core::error::Error for Refusal {}

/// What a step does, with its content.
#[derive(Clone, Copy, PartialEq, Eq, Hash, Debug)]
pub enum Kind {
    /// Step 0, and no other.
    Alarm,
    /// Rings a phone book entry, 0 to 999; 0 is the primary. In an image of edition 1 it is 0 to 99.
    Contact(u16),
    /// Speaks a message, 0 to 15.
    Message(u16),
    /// Waits for seconds, 1 to 600.
    Wait(u16),
    /// Any other kind and content, as numbers. No step has them, and none can be added with them.
    Other(u16, u16),
}

impl Kind {
    /// The kind and the content as the library has them.
    pub const fn numbers(self) -> (u16, u16) {
        match self {
            Kind::Alarm => (0, 0),
            Kind::Contact(entry) => (1, entry),
            Kind::Message(message) => (2, message),
            Kind::Wait(seconds) => (3, seconds),
            Kind::Other(kind, content) => (kind, content),
        }
    }

    /// The kind that two numbers say.
    pub const fn of_numbers(kind: u16, content: u16) -> Kind {
        match (kind, content) {
            (0, 0) => Kind::Alarm,
            (1, _) => Kind::Contact(content),
            (2, _) => Kind::Message(content),
            (3, _) => Kind::Wait(content),
            _ => Kind::Other(kind, content),
        }
    }
}

impl fmt::Display for Kind {
    fn fmt(&self, f: &mut fmt::Formatter<'_>) -> fmt::Result {
        match self {
            Kind::Alarm => f.write_str("alarm"),
            Kind::Contact(0) => f.write_str("contact 0, the primary"),
            Kind::Contact(entry) => write!(f, "contact {entry}"),
            Kind::Message(message) => write!(f, "message {message}"),
            Kind::Wait(seconds) => write!(f, "wait of {seconds} s"),
            Kind::Other(kind, content) => write!(f, "kind {kind} with content {content}"),
        }
    }
}

/// An exit of a step. Line results have the same numbers.
#[derive(Clone, Copy, PartialEq, Eq, PartialOrd, Ord, Hash, Debug)]
#[repr(u8)]
pub enum Exit {
    /// 0.
    Answered = 0,
    /// 1.
    Engaged = 1,
    /// 2.
    NoReply = 2,
    /// 3.
    LineFault = 3,
}

impl Exit {
    /// All four, in the order of their numbers.
    pub const ALL: [Exit; EXITS] = [Exit::Answered, Exit::Engaged, Exit::NoReply, Exit::LineFault];

    /// The number in document 01.
    pub const fn number(self) -> u16 {
        self as u16
    }
}

impl fmt::Display for Exit {
    fn fmt(&self, f: &mut fmt::Formatter<'_>) -> fmt::Result {
        f.pad(match self {
            Exit::Answered => "answered",
            Exit::Engaged => "engaged",
            Exit::NoReply => "no reply",
            Exit::LineFault => "line fault",
        })
    }
}

impl TryFrom<u16> for Exit {
    type Error = Refusal;

    fn try_from(number: u16) -> Result<Exit, Refusal> {
        Exit::ALL.get(usize::from(number)).copied().ok_or(Refusal::BadExit)
    }
}

/// The two counts of a clearing.
#[derive(Clone, Copy, PartialEq, Eq, Debug)]
pub struct Cleared {
    /// Steps made doubtful.
    pub doubtful: u16,
    /// Steps freed.
    pub freed: u16,
}

/// How many steps some trial enters.
#[derive(Clone, Copy, PartialEq, Eq, Debug)]
pub struct Rung {
    /// All such steps.
    pub steps: u16,
    /// Those of them that are contacts.
    pub contacts: u16,
}

/// Bytes of the slip that a buffer begins with, as its third word says: the number of steps that changed. None where the buffer has no three words.
pub fn slip_length(buffer: &[u8]) -> Option<usize> {
    // three words, and the old and the new record of each changed step
    let third = buffer.get(4..6)?;
    Some(6 + 44 * usize::from(u16::from_le_bytes([third[0], third[1]])))
}

/// The spoken counts of a table. Together they are its capacity.
#[derive(Clone, Copy, PartialEq, Eq, Debug)]
pub struct Counts {
    /// Steps in use.
    pub in_use: u16,
    /// Free steps.
    pub free: u16,
}

/// What an exit holds. It is strong if its bit is the target's own bit, else weak.
#[derive(Clone, Copy, PartialEq, Eq, Debug)]
pub struct Link {
    /// The step that it leads to.
    pub target: u16,
    /// Its bit.
    pub bit: u16,
}

impl Link {
    /// Whether it is strong, given the step that it leads to.
    pub const fn is_strong(self, target: &Step) -> bool {
        self.bit == target.own
    }
}

/// All fields of a step.
#[derive(Clone, Copy, PartialEq, Eq, Debug)]
pub struct Step {
    /// What it does.
    pub kind: Kind,
    /// Its own bit.
    pub own: u16,
    /// What its exits hold, by the numbers of `Exit`.
    pub exits: [Option<Link>; EXITS],
    /// The links to it that have bit 0, and those that have bit 1.
    pub counts: [u16; 2],
    /// The cabin that added it; 0 for step 0, which is charged to none.
    pub cabin: u16,
}

impl Step {
    /// What an exit holds.
    pub fn exit(&self, exit: Exit) -> Option<Link> {
        self.exits[exit as usize]
    }
}

/// How a trial ended.
#[derive(Clone, Copy, PartialEq, Eq, Debug)]
#[non_exhaustive]
pub enum Ending {
    /// At an empty exit.
    Open,
    /// At a contact with no result left.
    Spent,
    /// At the limit of moves.
    Stopped,
    /// A number that this crate does not know. The library of this edition gives none.
    Unknown(u16),
}

/// The answer of a trial. The steps entered are the first `moves` bytes of the trace.
#[derive(Clone, Copy, PartialEq, Eq, Debug)]
pub struct Trial {
    /// How it ended.
    pub ending: Ending,
    /// The step where it ended.
    pub last: u16,
    /// The steps entered, at most the limit.
    pub moves: u16,
}

/// The list of a table that cabin 0 has to itself: its guarantee and its limit are the capacity less 1, or 0 for capacity 0, all others are 0.
pub fn sole_quotas(capacity: u16) -> Quotas {
    let mut quotas = Quotas::default();
    raw::sole_quotas(&mut quotas, capacity);
    quotas
}

/// Converts an image of edition 1 to edition 2 and writes it to the start of a lent buffer, its step records in ascending step number; gives its
/// length. The plan and its strengths stay; all steps are of cabin 0, and the guarantees and limits are those of [`sole_quotas`] for the capacity. An
/// image of edition 2 is refused as [`Refusal::NotAccepted`].
///
/// ```
/// use telephone::{convert_up, sole_quotas, Table, IMAGE_MAX};
///
/// // a table of capacity 4 with the alarm alone: the header, and a record
/// let old = [&[10, 0, 1, 0, 4, 0, 0, 0, 1, 0][..], &[20, 0, 2, 0], &[0; 16]].concat();
/// let mut new = [0; IMAGE_MAX];
/// let length = convert_up(&old, &mut new)?;
/// assert_eq!(length, 64);
/// assert_eq!(Table::load(&new[..length])?, Table::fresh(4, &sole_quotas(4))?);
/// # Ok::<(), telephone::Refusal>(())
/// ```
pub fn convert_up(image: &[u8], buffer: &mut [u8]) -> Result<usize, Refusal> {
    length(raw::convert_up(image, buffer))
}

/// Converts an image of edition 2 to edition 1 and writes it to the start of a lent buffer, as [`convert_up`] does. Edition 1 has no cabins: all steps
/// have to be of cabin 0, and the guarantees and limits those of [`sole_quotas`] for the capacity. Its contacts have to be 0 to 99. An image of edition
/// 1 is refused as [`Refusal::NotAccepted`].
///
/// ```
/// use telephone::{convert_down, sole_quotas, Exit, Kind, Quotas, Refusal, Table};
///
/// let (mut image, mut old) = ([0; 86], [0; 50]);
/// let mut table = Table::fresh(4, &sole_quotas(4))?;
/// let length = table.write_image(&mut image)?;
/// assert_eq!(convert_down(&image[..length], &mut old), Ok(30));
/// let length = Table::fresh(4, &Quotas::default())?.write_image(&mut image)?;
/// // cabin 0 has limit 0, and not 3
/// assert_eq!(convert_down(&image[..length], &mut old), Err(Refusal::NeedsEdition2));
/// table.add(0, Exit::Answered, Kind::Contact(100), 0)?;
/// let length = table.write_image(&mut image)?;
/// // an old telephone takes contacts up to 99
/// assert_eq!(convert_down(&image[..length], &mut old), Err(Refusal::NeedsEdition2));
/// # Ok::<(), telephone::Refusal>(())
/// ```
pub fn convert_down(image: &[u8], buffer: &mut [u8]) -> Result<usize, Refusal> {
    length(raw::convert_down(image, buffer))
}

/// A sound table.
#[derive(Clone, PartialEq, Eq, Debug)]
#[repr(transparent)]
pub struct Table(raw::Table);

impl Table {
    /// A table of that capacity with step 0 alone, and with these guarantees and limits. No guarantee may be above its limit, and all together have to
    /// be below the capacity.
    ///
    /// ```
    /// use telephone::{Exit, Kind, Quota, Quotas, Refusal, Table};
    ///
    /// let mut quotas = Quotas::default();
    /// quotas[0] = Quota { guarantee: 1, limit: 3 };
    /// quotas[5] = Quota { guarantee: 2, limit: 2 };
    /// let mut table = Table::fresh(4, &quotas)?;
    /// table.add(0, Exit::Answered, Kind::Contact(7), 0)?;
    /// // the other two steps are reserved for cabin 5
    /// let refused = table.add(0, Exit::Engaged, Kind::Contact(8), 0);
    /// assert_eq!(refused, Err(Refusal::StepsReserved));
    /// assert_eq!(table.add(0, Exit::Engaged, Kind::Contact(8), 5), Ok(2));
    /// # Ok::<(), telephone::Refusal>(())
    /// ```
    pub fn fresh(capacity: u16, quotas: &Quotas) -> Result<Table, Refusal> {
        let mut table = Table(raw::Table::ZERO);
        table.reset(capacity, quotas)?;
        Ok(table)
    }

    /// The table of an image of edition 1 or 2, whose step records may come in any order. Of an image of edition 1 all steps are charged to cabin 0,
    /// which has the table to itself; with a contact above 99 such an image is refused.
    pub fn load(image: &[u8]) -> Result<Table, Refusal> {
        let mut table = Table(raw::Table::ZERO);
        table.reload(image)?;
        Ok(table)
    }

    /// A table that the caller kept, if it is sound.
    pub fn from_raw(table: raw::Table) -> Result<Table, Refusal> {
        match raw::is_sound(&table) {
            0 => Err(Refusal::NotSound),
            _ => Ok(Table(table)),
        }
    }

    /// The table as it stands in memory.
    pub fn as_raw(&self) -> &raw::Table {
        &self.0
    }

    /// The table as it stands in memory, to be kept.
    pub fn into_raw(self) -> raw::Table {
        self.0
    }

    /// Starts again with step 0 alone, in place. Where it is refused, it becomes a fresh table of capacity 1 whose guarantees and limits are all 0.
    pub fn reset(&mut self, capacity: u16, quotas: &Quotas) -> Result<(), Refusal> {
        two(raw::fresh(&mut self.0, capacity, quotas)).map(|_| ())
    }

    /// Takes the table of an image, in place. Where it is refused, it becomes the same fresh table.
    pub fn reload(&mut self, image: &[u8]) -> Result<(), Refusal> {
        two(raw::load_image(&mut self.0, image)).map(|_| ())
    }

    /// Puts a new step at an empty exit of the holder, and charges it to the cabin; gives its number.
    pub fn add(&mut self, holder: u16, exit: Exit, kind: Kind, cabin: u16) -> Result<u16, Refusal> {
        let (kind, content) = kind.numbers();
        let reply = raw::add(&mut self.0, holder, exit.number(), kind, content, cabin);
        two(reply).map(|(number, _)| number)
    }

    /// Copies the target of the source's exit into an empty exit of the second step.
    pub fn link(
        &mut self,
        source: u16,
        from: Exit,
        second: u16,
        into: Exit,
    ) -> Result<(), Refusal> {
        two(raw::link(&mut self.0, source, from.number(), second, into.number())).map(|_| ())
    }

    /// Empties an exit, and frees the steps that nothing reaches any more.
    ///
    /// From one table, clearings of the same exits leave one plan in whatever order they are made, refused and repeated ones included, and their freed
    /// counts have one sum. Strengths, images and doubtful counts may differ. A clearing whose step another has freed is refused as
    /// [`Refusal::NotInUse`].
    pub fn clear(&mut self, step: u16, exit: Exit) -> Result<Cleared, Refusal> {
        cleared(raw::clear(&mut self.0, step, exit.number()))
    }

    /// Empties an exit as [`Table::clear`] does, and writes a slip of it to the start of a lent buffer, by which [`Table::take_back`] takes it back. Gives
    /// the length of the slip as well, at most [`SLIP_MAX`]. A buffer that is shorter than this slip is refused, and nothing is cleared.
    ///
    /// ```
    /// use telephone::{sole_quotas, Exit, Kind, Table, SLIP_MAX};
    ///
    /// let mut table = Table::fresh(4, &sole_quotas(4))?;
    /// table.add(0, Exit::Answered, Kind::Contact(7), 0)?;
    /// let (before, mut slip) = (table.clone(), [0; SLIP_MAX]);
    /// let (cleared, length) = table.clear_with_slip(0, Exit::Answered, &mut slip)?;
    /// assert_eq!((cleared.doubtful, cleared.freed, length), (1, 1, 94));
    /// assert_eq!(table.take_back(&slip[..length])?, 1); // that was the wrong exit
    /// assert_eq!(table, before);
    /// # Ok::<(), telephone::Refusal>(())
    /// ```
    pub fn clear_with_slip(
        &mut self,
        step: u16,
        exit: Exit,
        buffer: &mut [u8],
    ) -> Result<(Cleared, usize), Refusal> {
        let cleared = cleared(raw::clear_with_slip(&mut self.0, step, exit.number(), buffer))?;
        Ok((cleared, slip_length(buffer).unwrap_or(0)))
    }

    /// Takes back the clearing of a slip, which is exactly these bytes; gives the number of steps brought back into use. The last number given stays.
    ///
    /// It is refused where a step of the slip is no longer as the clearing left it, or where the table would not be sound with its steps of before, as
    /// when a cabin has reached its limit meanwhile. Other steps may have changed. Right after it was taken back the slip is refused.
    pub fn take_back(&mut self, slip: &[u8]) -> Result<u16, Refusal> {
        two(raw::take_back(&mut self.0, slip)).map(|(back, _)| back)
    }

    /// Tells what [`Table::clear`] would do: gives its counts, and writes the numbers of the steps that it would free to the start of a lent buffer,
    /// ascending, a byte each. The same clearing, made next, frees just these and gives these counts. The buffer must have at least [`STEPS_ROOM`]
    /// bytes, even where nothing would go; its bytes past the numbers stay.
    ///
    /// ```
    /// use telephone::{sole_quotas, Cleared, Exit, Kind, Table, STEPS_ROOM};
    ///
    /// let mut table = Table::fresh(4, &sole_quotas(4))?;
    /// table.add(0, Exit::Answered, Kind::Contact(7), 0)?;
    /// table.add(1, Exit::NoReply, Kind::Wait(60), 0)?;
    /// table.link(0, Exit::Answered, 2, Exit::Answered)?; // ring again after a minute
    /// let mut steps = [0; STEPS_ROOM];
    /// let cleared = table.preview_clear(0, Exit::Answered, &mut steps)?;
    /// assert_eq!(cleared, Cleared { doubtful: 2, freed: 2 });
    /// assert_eq!(steps[..2], [1, 2]);
    /// assert_eq!(table.clear(0, Exit::Answered)?, cleared);
    /// # Ok::<(), telephone::Refusal>(())
    /// ```
    pub fn preview_clear(
        &self,
        step: u16,
        exit: Exit,
        steps: &mut [u8],
    ) -> Result<Cleared, Refusal> {
        cleared(raw::preview_clear(&self.0, step, exit.number(), steps))
    }

    /// Tells whom a trial can ring: writes the numbers of the steps that some trial enters to the start of a lent buffer, ascending, a byte each, and
    /// gives how many they are. A step is among them exactly if there are line results and a limit with which [`Table::trial`] enters it.
    ///
    /// A contact can go on by each of its exits, all other steps by the answered exit alone. So a step that stands only behind another exit of the alarm,
    /// of a message or of a wait is in use, and no trial enters it. Every trial starts at step 0, and none enters it. The buffer must have at least
    /// [`STEPS_ROOM`] bytes, even where nobody can be rung; its bytes past the numbers stay.
    ///
    /// ```
    /// use telephone::{sole_quotas, Exit, Kind, Rung, Table, STEPS_ROOM};
    ///
    /// let mut table = Table::fresh(4, &sole_quotas(4))?;
    /// table.add(0, Exit::Answered, Kind::Contact(42), 0)?;
    /// table.add(1, Exit::NoReply, Kind::Contact(0), 0)?; // the primary, where nobody replies
    /// table.link(1, Exit::NoReply, 0, Exit::Engaged)?; // the alarm never takes this exit
    /// let mut steps = [0; STEPS_ROOM];
    /// assert_eq!(table.rung(&mut steps)?, Rung { steps: 2, contacts: 2 });
    /// assert_eq!(steps[..2], [1, 2]);
    /// table.clear(1, Exit::NoReply)?;
    /// assert_eq!(table.rung(&mut steps)?, Rung { steps: 1, contacts: 1 });
    /// assert_eq!(steps[..1], [1]); // the primary is still in use, and is never rung
    /// # Ok::<(), telephone::Refusal>(())
    /// ```
    pub fn rung(&self, steps: &mut [u8]) -> Result<Rung, Refusal> {
        let (steps, contacts) = two(raw::rung(&self.0, steps))?;
        Ok(Rung { steps, contacts })
    }

    /// Squeezes the table into that capacity, which may also be larger, and gives it these guarantees and limits. The steps in use are renumbered from
    /// 0 upward in their order, every target follows, bits, counters and cabins travel with their steps, and the last number given becomes the highest
    /// of them.
    pub fn squeeze(&mut self, capacity: u16, quotas: &Quotas) -> Result<(), Refusal> {
        two(raw::squeeze(&mut self.0, capacity, quotas)).map(|_| ())
    }

    /// Carries out a key line, given without its byte 10; gives the two numbers that `keys` prints. It adds for cabin 0.
    pub fn key_line(&mut self, line: &[u8]) -> Result<(u16, u16), Refusal> {
        two(raw::key_line(&mut self.0, line))
    }

    /// All fields of a step.
    pub fn read(&self, step: u16) -> Result<Step, Refusal> {
        let raw::ReadReply { refusal, kind, content, own, targets, bits, counts, cabin } =
            raw::read(&self.0, step);
        Refusal::check(refusal)?;
        let link = |exit: usize| Link { target: targets[exit], bit: bits[exit] };
        let exits = core::array::from_fn(|exit| (targets[exit] != 0).then(|| link(exit)));
        Ok(Step { kind: Kind::of_numbers(kind, content), own, exits, counts, cabin })
    }

    /// The guarantees and limits.
    pub fn quotas(&self) -> Quotas {
        self.0.quotas
    }

    /// Steps in use and free ones.
    pub fn counts(&self) -> Result<Counts, Refusal> {
        let (in_use, free) = two(raw::counts(&self.0))?;
        Ok(Counts { in_use, free })
    }

    /// Goes through the plan from step 0; writes the steps entered to the start of the trace, and leaves its other bytes.
    ///
    /// A contact uses up the next line result, 0 to 3, and leads on by that exit; all other steps use up none and lead on by the answered exit. At
    /// each step, step 0 too, in this order: a contact with no result left ends the trial spent, an empty exit ends it open, and where the moves made
    /// equal the limit it ends stopped. All results must be 0 to 3, used up or not, and the trace must have at least as many bytes as the limit,
    /// whatever the trial does.
    ///
    /// ```
    /// use telephone::{sole_quotas, Ending, Exit, Kind, Table};
    ///
    /// let mut table = Table::fresh(4, &sole_quotas(4))?;
    /// table.add(0, Exit::Answered, Kind::Wait(60), 0)?;
    /// table.link(0, Exit::Answered, 1, Exit::Answered)?; // wait for ever
    /// let mut trace = [0; 3];
    /// let trial = table.trial(3, &[], &mut trace)?;
    /// assert_eq!((trial.ending, trial.last, trial.moves, trace), (Ending::Stopped, 1, 3, [1, 1, 1]));
    /// # Ok::<(), telephone::Refusal>(())
    /// ```
    pub fn trial(&self, limit: u16, results: &[u8], trace: &mut [u8]) -> Result<Trial, Refusal> {
        let reply = raw::trial(&self.0, limit, results, trace);
        Refusal::check(reply.refusal)?;
        let ending = match reply.ending {
            0 => Ending::Open,
            1 => Ending::Spent,
            2 => Ending::Stopped,
            number => Ending::Unknown(number),
        };
        Ok(Trial { ending, last: reply.last, moves: reply.moves })
    }

    /// The length of the image.
    pub fn image_length(&self) -> Result<usize, Refusal> {
        length(raw::image_length(&self.0))
    }

    /// Writes the image, in edition 2 of the format, to the start of a lent buffer, its step records in ascending step number; gives its length. Two
    /// sound tables are equal exactly when their written images are.
    pub fn write_image(&self, buffer: &mut [u8]) -> Result<usize, Refusal> {
        length(raw::write_image(&self.0, buffer))
    }
}

/// The two numbers of a reply that is not refused.
fn two(reply: raw::Reply) -> Result<(u16, u16), Refusal> {
    Refusal::check(reply.refusal)?;
    Ok((reply.first, reply.second))
}

/// The counts of a clearing in a reply that is not refused.
fn cleared(reply: raw::Reply) -> Result<Cleared, Refusal> {
    two(reply).map(|(doubtful, freed)| Cleared { doubtful, freed })
}

/// The length in a reply that is not refused.
fn length(reply: raw::WriteReply) -> Result<usize, Refusal> {
    Refusal::check(reply.refusal)?;
    Ok(reply.length.into())
}
