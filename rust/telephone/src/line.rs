//! The dispatcher: sixteen cabins wait for one line.

use crate::{raw, two, Refusal};

/// A dispatcher: which of sixteen cabins, 0 to 15, wait for the line, and which was served last. That one is always a cabin.
///
/// A cabin that waits and does not withdraw is served within 16 accepted calls of [`Line::serve_next`], whatever other calls come in between, refused
/// ones too. A refused call changes nothing.
///
/// ```
/// use telephone::{Line, Refusal};
///
/// let mut line = Line::fresh();
/// line.raise(12)?;
/// line.raise(3)?;
/// assert_eq!(line.serve_next(), Ok(3));
/// line.raise(3)?; // again: first comes 12, which still waits
/// assert_eq!(line.serve_next(), Ok(12));
/// line.withdraw(3)?;
/// assert_eq!(line.serve_next(), Err(Refusal::NobodyWaits));
/// assert_eq!(line.raise(16), Err(Refusal::NoSuchCabin));
/// # Ok::<(), telephone::Refusal>(())
/// ```
#[derive(Clone, PartialEq, Eq, Debug)]
#[repr(transparent)]
pub struct Line(raw::Line);

impl Line {
    /// A dispatcher at which nobody waits, with cabin 15 as last served, so that cabin 0 is the first in turn.
    pub fn fresh() -> Line {
        let mut line = raw::Line::default();
        // never refused
        raw::line_fresh(&mut line);
        Line(line)
    }

    /// A dispatcher that the caller kept, if its last served is a cabin; else it is refused as [`Refusal::NotSound`]. Its words stay as they are: a
    /// cabin waits if its word is not 0.
    pub fn from_raw(line: raw::Line) -> Result<Line, Refusal> {
        // on a copy, which is dropped: the library refuses this for the last served alone
        let mut copy = line;
        two(raw::line_withdraw(&mut copy, 0)).map(|_| Line(line))
    }

    /// The dispatcher as it stands in memory.
    pub fn as_raw(&self) -> &raw::Line {
        &self.0
    }

    /// The dispatcher as it stands in memory, to be kept.
    pub fn into_raw(self) -> raw::Line {
        self.0
    }

    /// Raises the alarm of a cabin, which then waits for the line. If it waits already, nothing changes.
    pub fn raise(&mut self, cabin: u16) -> Result<(), Refusal> {
        two(raw::line_raise(&mut self.0, cabin)).map(|_| ())
    }

    /// Withdraws the alarm of a cabin. If it does not wait, nothing changes.
    pub fn withdraw(&mut self, cabin: u16) -> Result<(), Refusal> {
        two(raw::line_withdraw(&mut self.0, cabin)).map(|_| ())
    }

    /// Serves the first waiting cabin after the one last served, and gives its number. After 15 comes 0, and the one last served comes last. The cabin
    /// served no longer waits, and is now the one last served. Where nobody waits, the call is refused as [`Refusal::NobodyWaits`].
    pub fn serve_next(&mut self) -> Result<u16, Refusal> {
        two(raw::line_next(&mut self.0)).map(|(cabin, _)| cabin)
    }

    /// Whether a cabin waits. No cabin above 15 does.
    pub fn waits(&self, cabin: u16) -> bool {
        self.0.waiting.get(usize::from(cabin)).is_some_and(|&word| word != 0)
    }

    /// The cabin last served, 0 to 15; of a fresh dispatcher 15.
    pub fn last_served(&self) -> u16 {
        self.0.last
    }
}

impl Default for Line {
    /// A fresh dispatcher.
    fn default() -> Line {
        Line::fresh()
    }
}
