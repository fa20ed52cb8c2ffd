//! The calls as `include/telephone.h` has them: any table or dispatcher, any numbers, and the reply as the library gives it.
//! Sizes and offsets are checked when this is compiled.

use core::mem::{align_of, offset_of, size_of};

/// A table as it stands in memory. Every field is a number, so any bytes are a value of it; a call refuses one that is not sound with 1.
#[repr(C)]
#[derive(Clone, PartialEq, Eq, Debug)]
pub struct Table {
    /// 1 to 128 in a sound table.
    pub capacity: u16,
    /// The number last given to a step.
    pub last: u16,
    /// 1 for a step in use, 0 for a free one.
    pub used: [u16; 128],
    pub kinds: [u16; 128],
    pub contents: [u16; 128],
    /// The bit of its own that each step has.
    pub own: [u16; 128],
    /// The target of exit e of step i at i * 4 + e; 0 is an empty exit.
    pub targets: [u16; 512],
    /// The bit of the link in the same exit.
    pub bits: [u16; 512],
    /// Counter b of step i at i * 2 + b.
    pub counts: [u16; 256],
    /// The cabin that added each step; 0 for step 0 and for a free step.
    pub cabins: [u16; 128],
    /// By cabin.
    pub quotas: Quotas,
}

/// What a cabin is guaranteed, and what it may have at most, in steps.
#[repr(C)]
#[derive(Clone, Copy, PartialEq, Eq, Debug, Default)]
pub struct Quota {
    /// At most the limit; all guarantees together are at most the capacity less 1.
    pub guarantee: u16,
    /// 0 to 65535.
    pub limit: u16,
}

/// A guarantee and a limit for each cabin.
pub type Quotas = [Quota; 8];

impl Table {
    /// All fields zero. It is not sound; `fresh` or `load_image` makes a table of it.
    pub const ZERO: Table = Table {
        capacity: 0,
        last: 0,
        used: [0; 128],
        kinds: [0; 128],
        contents: [0; 128],
        own: [0; 128],
        targets: [0; 512],
        bits: [0; 512],
        counts: [0; 256],
        cabins: [0; 128],
        quotas: [Quota { guarantee: 0, limit: 0 }; 8],
    };
}

/// A dispatcher as it stands in memory: which cabins wait for the line, and which was served last. Any bytes are a value of it; a call refuses one
/// whose last served is above 15 with 1. The default is all zero, with cabin 0 as last served; `line_fresh` makes a fresh one.
#[repr(C)]
#[derive(Clone, Copy, PartialEq, Eq, Debug, Default)]
pub struct Line {
    /// By cabin: 0 if it does not wait, any other number if it does.
    pub waiting: [u16; 16],
    /// The cabin last served.
    pub last: u16,
}

/// A refusal, or 0, and two numbers that each call gives a meaning.
#[repr(C)]
#[derive(Clone, Copy, PartialEq, Eq, Debug, Default)]
pub struct Reply {
    pub refusal: u16,
    pub first: u16,
    pub second: u16,
}

/// All fields of one step.
#[repr(C)]
#[derive(Clone, Copy, PartialEq, Eq, Debug, Default)]
pub struct ReadReply {
    pub refusal: u16,
    pub kind: u16,
    pub content: u16,
    pub own: u16,
    pub targets: [u16; 4],
    pub bits: [u16; 4],
    pub counts: [u16; 2],
    pub cabin: u16,
}

/// How a trial ended: 0 open, 1 spent, 2 stopped.
#[repr(C)]
#[derive(Clone, Copy, PartialEq, Eq, Debug, Default)]
pub struct TrialReply {
    pub refusal: u16,
    pub ending: u16,
    pub last: u16,
    pub moves: u16,
}

/// The length of an image.
#[repr(C)]
#[derive(Clone, Copy, PartialEq, Eq, Debug, Default)]
pub struct WriteReply {
    pub refusal: u16,
    pub length: u16,
}

const _: () = {
    assert!(size_of::<Table>() == 3876 && align_of::<Table>() == 2);
    assert!(offset_of!(Table, capacity) == 0);
    assert!(offset_of!(Table, last) == 2);
    assert!(offset_of!(Table, used) == 4);
    assert!(offset_of!(Table, kinds) == 260);
    assert!(offset_of!(Table, contents) == 516);
    assert!(offset_of!(Table, own) == 772);
    assert!(offset_of!(Table, targets) == 1028);
    assert!(offset_of!(Table, bits) == 2052);
    assert!(offset_of!(Table, counts) == 3076);
    assert!(offset_of!(Table, cabins) == 3588);
    assert!(offset_of!(Table, quotas) == 3844);
    assert!(size_of::<Quota>() == 4 && offset_of!(Quota, limit) == 2);
    assert!(size_of::<Line>() == 34 && align_of::<Line>() == 2);
    assert!(offset_of!(Line, waiting) == 0 && offset_of!(Line, last) == 32);
    assert!(size_of::<Reply>() == 6);
    assert!(size_of::<ReadReply>() == 30 && offset_of!(ReadReply, counts) == 24);
    assert!(offset_of!(ReadReply, cabin) == 28);
    assert!(size_of::<TrialReply>() == 8 && offset_of!(TrialReply, moves) == 6);
    assert!(size_of::<WriteReply>() == 4);
};

// SAFETY: the signatures are those of the header; a reference is a pointer that is not null. A call marked safe reads and writes what the references
// lend it, and nothing else.
unsafe extern "C" {
    #[link_name = "plan_edition"]
    pub safe fn edition() -> u16;
    #[link_name = "plan_is_sound"]
    pub safe fn is_sound(t: &Table) -> u16;
    #[link_name = "plan_sole_quotas"]
    pub safe fn sole_quotas(quotas: &mut Quotas, capacity: u16);
    #[link_name = "plan_fresh"]
    pub safe fn fresh(t: &mut Table, capacity: u16, quotas: &Quotas) -> Reply;
    #[link_name = "plan_add"]
    pub safe fn add(
        t: &mut Table,
        holder: u16,
        exit: u16,
        kind: u16,
        content: u16,
        cabin: u16,
    ) -> Reply;
    #[link_name = "plan_link"]
    pub safe fn link(t: &mut Table, source: u16, from: u16, second: u16, into: u16) -> Reply;
    #[link_name = "plan_clear"]
    pub safe fn clear(t: &mut Table, step: u16, exit: u16) -> Reply;
    #[link_name = "plan_squeeze"]
    pub safe fn squeeze(t: &mut Table, capacity: u16, quotas: &Quotas) -> Reply;
    #[link_name = "plan_read"]
    pub safe fn read(t: &Table, step: u16) -> ReadReply;
    #[link_name = "plan_counts"]
    pub safe fn counts(t: &Table) -> Reply;
    #[link_name = "plan_image_length"]
    pub safe fn image_length(t: &Table) -> WriteReply;
    #[link_name = "plan_line_fresh"]
    pub safe fn line_fresh(line: &mut Line) -> Reply;
    #[link_name = "plan_line_raise"]
    pub safe fn line_raise(line: &mut Line, cabin: u16) -> Reply;
    #[link_name = "plan_line_withdraw"]
    pub safe fn line_withdraw(line: &mut Line, cabin: u16) -> Reply;
    #[link_name = "plan_line_next"]
    pub safe fn line_next(line: &mut Line) -> Reply;
    fn plan_clear_with_slip(
        t: &mut Table,
        step: u16,
        exit: u16,
        buffer: *mut u8,
        length: usize,
    ) -> Reply;
    fn plan_take_back(t: &mut Table, slip: *const u8, length: usize) -> Reply;
    fn plan_preview_clear(t: &Table, step: u16, exit: u16, buffer: *mut u8, length: usize)
        -> Reply;
    fn plan_rung(t: &Table, buffer: *mut u8, length: usize) -> Reply;
    fn plan_trial(
        t: &Table,
        limit: u16,
        results: *const u8,
        results_length: usize,
        trace: *mut u8,
        trace_length: usize,
    ) -> TrialReply;
    fn plan_write_image(t: &Table, buffer: *mut u8, length: usize) -> WriteReply;
    fn plan_load_image(t: &mut Table, bytes: *const u8, length: usize) -> Reply;
    fn plan_convert_up(bytes: *const u8, length: usize, buffer: *mut u8, room: usize)
        -> WriteReply;
    fn plan_convert_down(
        bytes: *const u8,
        length: usize,
        buffer: *mut u8,
        room: usize,
    ) -> WriteReply;
    fn plan_key_line(t: &mut Table, line: *const u8, length: usize) -> Reply;
}

/// Empties an exit as `clear` does, and writes a slip of it to the start of a buffer.
pub fn clear_with_slip(t: &mut Table, step: u16, exit: u16, buffer: &mut [u8]) -> Reply {
    // SAFETY: the slice is valid for its length and does not overlap the table, and the call does not keep it.
    unsafe { plan_clear_with_slip(t, step, exit, buffer.as_mut_ptr(), buffer.len()) }
}

/// Takes back the clearing of a slip.
pub fn take_back(t: &mut Table, slip: &[u8]) -> Reply {
    // SAFETY: as above.
    unsafe { plan_take_back(t, slip.as_ptr(), slip.len()) }
}

/// Tells what `clear` would do: writes the numbers of the steps that it would free to the start of a buffer.
pub fn preview_clear(t: &Table, step: u16, exit: u16, buffer: &mut [u8]) -> Reply {
    // SAFETY: as above.
    unsafe { plan_preview_clear(t, step, exit, buffer.as_mut_ptr(), buffer.len()) }
}

/// Tells whom a trial can ring: writes the numbers of the steps that some trial enters to the start of a buffer.
pub fn rung(t: &Table, buffer: &mut [u8]) -> Reply {
    // SAFETY: as above.
    unsafe { plan_rung(t, buffer.as_mut_ptr(), buffer.len()) }
}

/// Goes through the plan from step 0, where each contact uses up a line result, for at most so many moves; writes the steps entered to the start of
/// the trace, which must have at least as many bytes as the limit.
pub fn trial(t: &Table, limit: u16, results: &[u8], trace: &mut [u8]) -> TrialReply {
    let (given, lent) = (results.len(), trace.len());
    // SAFETY: both slices are valid for their lengths and overlap nothing that is lent, and the call keeps neither.
    unsafe { plan_trial(t, limit, results.as_ptr(), given, trace.as_mut_ptr(), lent) }
}

/// Writes the image of a table to the start of a buffer.
pub fn write_image(t: &Table, buffer: &mut [u8]) -> WriteReply {
    // SAFETY: the slice is valid for its length and does not overlap the table, and the call does not keep it.
    unsafe { plan_write_image(t, buffer.as_mut_ptr(), buffer.len()) }
}

/// Makes the table of an image of edition 1 or 2; a fresh one of capacity 1 where it is refused.
pub fn load_image(t: &mut Table, bytes: &[u8]) -> Reply {
    // SAFETY: as above.
    unsafe { plan_load_image(t, bytes.as_ptr(), bytes.len()) }
}

/// Writes an image of edition 1 in edition 2 to the start of a buffer.
pub fn convert_up(bytes: &[u8], buffer: &mut [u8]) -> WriteReply {
    let (given, lent) = (bytes.len(), buffer.len());
    // SAFETY: both slices are valid for their lengths and do not overlap, and the call keeps neither.
    unsafe { plan_convert_up(bytes.as_ptr(), given, buffer.as_mut_ptr(), lent) }
}

/// Writes an image of edition 2 in edition 1 to the start of a buffer.
pub fn convert_down(bytes: &[u8], buffer: &mut [u8]) -> WriteReply {
    let (given, lent) = (bytes.len(), buffer.len());
    // SAFETY: as above.
    unsafe { plan_convert_down(bytes.as_ptr(), given, buffer.as_mut_ptr(), lent) }
}

/// Carries out a key line, given without its byte 10.
pub fn key_line(t: &mut Table, line: &[u8]) -> Reply {
    // SAFETY: as above.
    unsafe { plan_key_line(t, line.as_ptr(), line.len()) }
}
