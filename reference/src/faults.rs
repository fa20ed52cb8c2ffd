//! Deliberate errors, so that wrong variants can be run against the right one.
//! The first nineteen are other ways to edit and stand in `calls`, `cabins` and `clearing`, the next
//! two are of lists, six of images, of which four are of conversions too, eleven are other ways to
//! squeeze, eight other ways to make a trial, twelve other ways to clear with a slip, twelve other
//! ways to take it back, seven other ways to tell what a clearing would free, fourteen other ways to
//! tell who can be rung, eight other ways to list steps in either of these, and eighteen other ways
//! to convert an image, of which two are of slips and listed steps too. Each of the rest spoils what
//! a right call gives, in one part of it.

use crate::calls::{Command, Ending};
use crate::convert::Way;
use crate::history::{Call, Outcome, Start};
use crate::image::{HEADER, RECORD};
use crate::slip::{SLIP_HEADER, SLIP_PAIR};
use crate::table::Table;

/// A deliberate error.
#[derive(Clone, Copy, PartialEq, Eq, Debug)]
pub enum Fault {
    /// No error.
    None,
    /// A copy takes the bit of its original.
    CopyKeepsStrength,
    /// Clearing empties the exit and does nothing else.
    SkipRepair,
    /// Linking counts the copy twice.
    CounterOffByOne,
    /// Add looks at the kind before the exit to be filled.
    SwappedRefusals,
    /// Clearing takes the highest doubtful step first.
    HighestFirst,
    /// A freed step keeps its bit.
    FreedKeepsBit,
    /// A freed step keeps its cabin.
    FreedKeepsCabin,
    /// Add looks at the holder before the cabin.
    CabinAfterHolder,
    /// A cabin above 7 is cut to 3 bits.
    CabinCut,
    /// An add charges cabin 0, whichever cabin adds.
    CabinForgotten,
    /// Add counts step 0 as a charge of cabin 0.
    AlarmCharged,
    /// A cabin may go one step past its limit.
    LimitPassed,
    /// Add takes a free step that is reserved for other cabins.
    ReservedTaken,
    /// Add looks at the cabin's limit before the room.
    LimitBeforeFull,
    /// Add looks at the reserved steps before the limit.
    ReservedBeforeLimit,
    /// A cabin below its guarantee is refused too, where all free steps are guaranteed to some
    /// cabin.
    GuaranteeRefused,
    /// Add takes the contacts of an old telephone alone.
    OldRangeAdded,
    /// Add takes one contact more, 1000.
    OneContactMore,
    /// A contact added is cut to 8 bits.
    ContactInAByte,
    /// The guarantees of a list are added up in 16 bits.
    SumIn16Bits,
    /// A fresh table or a squeeze looks at the list before the range of the capacity.
    ListBeforeRange,
    /// An image whose header is of one edition and whose step records are of the other is accepted.
    EditionsMixed,
    /// An image of edition 1 is loaded with the limit of cabin 0 and without its guarantee.
    NoGuaranteeLoaded,
    /// An image of edition 1 may have any contact.
    OldRangeUnasked,
    /// An image of edition 2 may only have contacts that an old telephone takes.
    OldRangeInBoth,
    /// An old telephone takes one contact more, 100.
    OldRangeTo100,
    /// An old telephone takes waits up to 99 alone.
    OldRangeOfWaits,
    /// A squeeze looks at the steps in use before the range of the capacity.
    FitBeforeRange,
    /// A squeeze looks at the steps in use before the list.
    FitBeforeList,
    /// A squeeze looks at the steps in use alone, and not at charges and guarantees.
    FitBySize,
    /// A squeeze numbers all steps but step 0 from the highest down.
    OrderReversed,
    /// A squeeze leaves the targets as they were.
    TargetsStay,
    /// A squeeze leaves the steps' own bits at the old numbers.
    OwnBitsStay,
    /// A squeeze leaves the counters at the old numbers.
    CountersStay,
    /// A squeeze leaves the records past the last step.
    RecordsStay,
    /// A squeeze leaves the last number given.
    LastStays,
    /// A squeeze charges all steps to cabin 0.
    CabinsLost,
    /// A squeeze leaves the list of guarantees and limits.
    ListStays,
    /// A step of this kind, which is not a contact, uses up a line result where one is left.
    UsesUp(u16),
    /// A wait takes the exit of the next line result and leaves it to the next contact.
    WaitTakesResult,
    /// A trial looks at the limit before the empty exit.
    StoppedBeforeOpen,
    /// A trial looks at the limit before the results left.
    StoppedBeforeSpent,
    /// A trial says open at a contact with no result left and no link.
    OpenBeforeSpent,
    /// A trial makes one move past the limit, where the trace has room for it.
    OneMoveMore,
    /// The trace must be as long as the results, and not as the limit.
    TraceAsResults,
    /// Only results that a contact uses up are looked at for refusal 10.
    UsedResultsOnly,
    /// A slip leaves out all bits.
    BitsLeftOut,
    /// A slip lists the target of the cleared exit, whether it changed or not.
    TargetListed,
    /// A slip lists the steps whose counters alone changed too.
    CountersListed,
    /// A slip leaves out the freed steps.
    FreedLeftOut,
    /// A slip has its steps in descending order.
    SlipDescending,
    /// A slip has the new record of a step before the old one.
    NewBeforeOld,
    /// A freed step's new record in a slip is without its number.
    FreedUnnumbered,
    /// A slip's number of changed steps is without the holder.
    HolderNotCounted,
    /// A slip begins with the exit, and then has the step.
    ExitFirst,
    /// The buffer of a slip must have room for the largest one.
    RoomForLargest,
    /// A clearing with a slip looks for room for the least slip before it looks at the exit.
    RoomBeforeEmpty,
    /// A clearing with too short a buffer for its slip is made all the same.
    ClearedThoughShort,
    /// Taking back does not look at the present table, but puts the old records into it.
    PresentUnread,
    /// Taking back does not ask whether the limits and guarantees allow the steps.
    ListUnasked,
    /// Taking back does not ask whether the capacity allows the steps.
    CapacityUnasked,
    /// Taking back does not make the clearing once more.
    RetraceSkipped,
    /// Taking back makes the clearing once more, and does not look at its slip.
    SlipUnread,
    /// Taking back accepts a slip with bytes behind it.
    ExtraBytesTaken,
    /// Taking back leaves the counters.
    CountersKept,
    /// Taking back works out the counters of the steps in the slip, and leaves the others.
    CountersOfListed,
    /// Taking back puts the highest step brought back for the last number given.
    LastIsBack,
    /// Taking back leaves out the bits of the old records.
    BitsNotBack,
    /// Taking back charges the steps to cabin 0.
    CabinsNotBack,
    /// Taking back answers the number of steps in the slip.
    ListedSaidBack,
    /// A preview lists the doubtful steps.
    DoubtfulListed,
    /// A preview says that all doubtful steps would be freed.
    DoubtfulSaidToGo,
    /// A preview marks along strong links alone.
    WeakUnmarked,
    /// A preview marks along the exit asked about too.
    ExitLeftIn,
    /// A preview marks along none of the step's exits that lead to the same step.
    CopiesLeftOut,
    /// A preview looks at the buffer before it looks at the exit.
    PreviewRoomBeforeEmpty,
    /// A preview makes the clearing.
    PreviewClears,
    /// Messages and waits are taken to go on by their engaged exit too.
    EngagedTaken,
    /// Every step is taken to go on by every exit.
    EveryExitTaken,
    /// Step 0 is taken to go on by every exit.
    AlarmExitsTaken,
    /// Contacts are taken to go on by their answered exit alone.
    AnsweredAlone,
    /// Steps that a listed one or step 0 holds are listed too, even by exits that are never taken.
    HeldListed,
    /// Step 0 is listed among those who can be rung.
    AlarmListed,
    /// Of those who can be rung, only contacts are listed.
    ContactsAlone,
    /// Of those who can be rung, only the ones whom a trial with no result enters are listed.
    FirstRungAlone,
    /// Of those who can be rung, only the ones whom trials with all results the same enter are
    /// listed.
    SameResultsAlone,
    /// Of those who can be rung, the ones whom a trial can enter twice are left out.
    RingsLeftOut,
    /// Of those who can be rung, all count as contacts.
    StepsSaidContacts,
    /// Of those who can be rung, none counts as a contact.
    NoContactSaid,
    /// Of those who can be rung, one contact more is counted.
    OneContactSaidMore,
    /// Telling who can be rung changes the last number given.
    RungMovesLast,
    /// Steps are listed in descending order.
    StepsDescending,
    /// Steps are listed in two bytes each.
    StepsInWords,
    /// A list of steps has 127 bytes, with zeros behind the numbers.
    StepsPadded,
    /// A call that lists steps looks at the buffer before anything else.
    StepsRoomFirst,
    /// The buffer must hold the steps that are listed, and no more.
    StepsRoomForThese,
    /// The buffer must hold as many steps as the table has places, less step 0's.
    StepsRoomByCapacity,
    /// The buffer must hold a byte for step 0 too.
    StepsRoomForAlarm,
    /// The buffer may be one byte short.
    StepsRoomOneLess,
    /// A conversion down looks at cabins, list and contacts before it asks whether the image is
    /// accepted.
    CabinsBeforeImage,
    /// A conversion down looks at the buffer before cabins, list and contacts.
    BufferBeforeCabins,
    /// A conversion looks at the buffer before the edition of an accepted image.
    BufferBeforeEdition,
    /// A conversion takes an image that is of the edition to be written already.
    SameEditionTaken,
    /// A conversion down drops cabins and list, whatever they are.
    CabinsDropped,
    /// A conversion down looks at the cabins, and drops the list.
    ListDropped,
    /// A conversion down looks at the cabins and at the guarantees, and drops the limits.
    LimitsDropped,
    /// A conversion down looks at the cabins and at the pair of cabin 0, and drops the others.
    OtherPairsDropped,
    /// A conversion down writes any contact.
    ContactsUnasked,
    /// A conversion up guarantees the place of step 0 to cabin 0 too.
    AlarmGuaranteed,
    /// A conversion drops these of the bits of each step, of the sum in its record.
    BitsDropped(u8),
    /// A conversion drops the own bit of step 0, which has no effect.
    AlarmBitDropped,
    /// A conversion puts the highest step's number for the last number given.
    LastIsHighest,
    /// A conversion keeps the order of the step records.
    OrderKept,
    /// The buffer of a conversion must have room for either image.
    RoomForEither,
    /// A conversion, a clearing or a list of steps with too short a buffer writes what fits into it.
    WrittenAsFits,
    /// A conversion, a clearing or a list of steps puts a zero behind what it writes, where the
    /// buffer has room.
    ZeroBehind,
    /// A conversion answers the length of the image given to it.
    LengthOfGiven,
    /// Clearing says that all doubtful steps were freed.
    DoubtfulSaidFreed,
    /// A count gives the free steps first.
    CountsExchanged,
    /// A read gives the two counters exchanged.
    CountersExchanged,
    /// A trial that is spent says open.
    SpentSaidOpen,
    /// A trial that is stopped says spent.
    StoppedSaidSpent,
    /// A trial writes the step that it leaves, not the one that it enters.
    TraceOneBehind,
    /// The step records are written in descending step number.
    WrittenDescending,
    /// The moves of a trial are counted in 8 bits.
    MovesInAByte,
    /// A lent length is cut to 16 bits.
    Cut(Length),
    /// One part of what calls of one sort give is wrong, where they are refused or where not.
    Spoiled { sort: Sort, refused: bool, part: Part },
}

/// A length that a caller lends.
#[derive(Clone, Copy, PartialEq, Eq, Debug)]
pub enum Length {
    Results,
    Trace,
    Buffer,
    Line,
    Image,
    Slip,
}

/// A sort of call.
#[derive(Clone, Copy, PartialEq, Eq, PartialOrd, Ord, Debug)]
pub enum Sort {
    Fresh,
    Load,
    Add,
    Link,
    Clear,
    ClearWithSlip,
    TakeBack,
    PreviewClear,
    Rung,
    Squeeze,
    Count,
    Read,
    Trial,
    Write,
    ImageLength,
    KeyLine,
    ConvertUp,
    ConvertDown,
}

/// A part of what a call gives.
#[derive(Clone, Copy, PartialEq, Eq, Debug)]
pub enum Part {
    Refusal,
    Number(usize),
    /// The last lent byte that is written.
    Written,
    /// The first lent byte that is not.
    Unwritten,
    Table,
}

impl Sort {
    pub const ALL: [Sort; 18] = [
        Sort::Fresh,
        Sort::Load,
        Sort::Add,
        Sort::Link,
        Sort::Clear,
        Sort::ClearWithSlip,
        Sort::TakeBack,
        Sort::PreviewClear,
        Sort::Rung,
        Sort::Squeeze,
        Sort::Count,
        Sort::Read,
        Sort::Trial,
        Sort::Write,
        Sort::ImageLength,
        Sort::KeyLine,
        Sort::ConvertUp,
        Sort::ConvertDown,
    ];

    pub fn of(call: &Call) -> Sort {
        match call {
            Call::Edit(Command::Add { .. }) => Sort::Add,
            Call::Edit(Command::Link { .. }) => Sort::Link,
            Call::Edit(Command::Clear { .. }) => Sort::Clear,
            Call::Edit(Command::Count) => Sort::Count,
            Call::ClearWithSlip { .. } => Sort::ClearWithSlip,
            Call::TakeBack { .. } => Sort::TakeBack,
            Call::PreviewClear { .. } => Sort::PreviewClear,
            Call::Rung { .. } => Sort::Rung,
            Call::Squeeze { .. } => Sort::Squeeze,
            Call::Read { .. } => Sort::Read,
            Call::Trial { .. } => Sort::Trial,
            Call::Write { .. } => Sort::Write,
            Call::ImageLength => Sort::ImageLength,
            Call::KeyLine(_) => Sort::KeyLine,
        }
    }

    pub fn of_start(start: &Start) -> Sort {
        match start {
            Start::Fresh { .. } => Sort::Fresh,
            Start::Load { .. } => Sort::Load,
        }
    }

    pub fn of_way(way: Way) -> Sort {
        match way {
            Way::Up => Sort::ConvertUp,
            Way::Down => Sort::ConvertDown,
        }
    }

    /// Whether calls of this sort convert an image. They have no table, and are in no history.
    pub fn converts(self) -> bool {
        matches!(self, Sort::ConvertUp | Sort::ConvertDown)
    }

    /// How many numbers a call of this sort answers.
    fn numbers(self) -> usize {
        match self {
            Sort::Read => 14,
            Sort::Trial => 3,
            _ => 2,
        }
    }

    /// The parts of what a call of this sort gives.
    fn parts(self, refused: bool) -> Vec<Part> {
        let mut parts = vec![Part::Refusal];
        parts.extend((!self.converts()).then_some(Part::Table));
        parts.extend((0..self.numbers()).map(Part::Number));
        let lent = [Sort::ClearWithSlip, Sort::PreviewClear, Sort::Rung, Sort::Trial, Sort::Write];
        if self.converts() || lent.contains(&self) {
            parts.push(Part::Unwritten);
            parts.extend((!refused).then_some(Part::Written));
        }
        parts
    }
}

impl Fault {
    /// One fault for each part of what each sort of call gives, accepted and refused.
    pub fn spoiled() -> Vec<Fault> {
        let mut faults = Vec::new();
        for sort in Sort::ALL {
            for refused in [false, true] {
                let fault = |part| Fault::Spoiled { sort, refused, part };
                faults.extend(sort.parts(refused).into_iter().map(fault));
            }
        }
        faults
    }
}

/// How many of the bytes lent a call takes: fewer where a fault cuts this length.
pub fn cut(fault: Fault, which: Length, length: usize) -> usize {
    if fault == Fault::Cut(which) {
        length % 65536
    } else {
        length
    }
}

/// Writes into a lent buffer what a call with this refusal writes, with a fault or without.
pub fn put(refusal: u16, written: &[u8], buffer: &mut [u8], fault: Fault) {
    let room = match refusal {
        0 => written.len(),
        11 if fault == Fault::WrittenAsFits => written.len(),
        _ => 0,
    }
    .min(buffer.len());
    buffer[..room].copy_from_slice(&written[..room]);
    if let (0, Fault::ZeroBehind, Some(behind)) = (refusal, fault, buffer.get_mut(room)) {
        *behind = 0;
    }
}

/// Spoils what a right call gave: its outcome, and the table if it has one.
pub fn spoil(fault: Fault, sort: Sort, table: Option<&mut Table>, outcome: &mut Outcome) {
    let accepted = outcome.refusal == 0;
    let ended = |ending| sort == Sort::Trial && outcome.numbers[0] == ending as usize;
    match fault {
        Fault::DoubtfulSaidFreed if sort == Sort::Clear => outcome.numbers[1] = outcome.numbers[0],
        Fault::CountsExchanged if sort == Sort::Count => outcome.numbers.swap(0, 1),
        Fault::CountersExchanged if sort == Sort::Read => outcome.numbers.swap(11, 12),
        Fault::SpentSaidOpen if ended(Ending::Spent) => outcome.numbers[0] = Ending::Open as usize,
        Fault::StoppedSaidSpent if ended(Ending::Stopped) => {
            outcome.numbers[0] = Ending::Spent as usize;
        }
        Fault::TraceOneBehind if sort == Sort::Trial && outcome.numbers[2] > 0 => {
            outcome.lent[..outcome.numbers[2]].rotate_right(1);
            outcome.lent[0] = 0;
        }
        Fault::WrittenDescending if sort == Sort::Write && accepted => {
            let steps = &mut outcome.lent[HEADER..outcome.numbers[0]];
            let descending = steps.chunks(RECORD).rev().collect::<Vec<_>>().concat();
            steps.copy_from_slice(&descending);
        }
        Fault::MovesInAByte if sort == Sort::Trial => outcome.numbers[2] %= 256,
        Fault::Spoiled { sort: of, refused, part } if of == sort && refused != accepted => {
            let written = match sort {
                _ if refused => 0,
                Sort::Trial => outcome.numbers[2],
                Sort::ClearWithSlip => SLIP_HEADER + SLIP_PAIR * (1 + outcome.numbers[0]),
                Sort::PreviewClear => outcome.numbers[1],
                _ => outcome.numbers[0],
            };
            match part {
                Part::Refusal => outcome.refusal = outcome.refusal % 18 + 1,
                Part::Number(i) => outcome.numbers[i] += 1,
                Part::Written if written > 0 => outcome.lent[written - 1] ^= 1,
                Part::Unwritten if written < outcome.lent.len() => outcome.lent[written] ^= 1,
                Part::Written | Part::Unwritten => {}
                Part::Table => table.expect("a sort with a table").own[0] ^= 1,
            }
        }
        _ => {}
    }
}
