//! Calls on a dispatcher, at which sixteen cabins wait for one line, and what they did in words.

use std::fmt;
use telephone::{Line, Refusal, LINE_CABINS};

/// A call with its cabin.
#[derive(Clone, Copy, PartialEq, Eq, Debug)]
pub enum Call {
    Raise(u16),
    Withdraw(u16),
    Next,
}

impl fmt::Display for Call {
    fn fmt(&self, f: &mut fmt::Formatter<'_>) -> fmt::Result {
        match self {
            Call::Raise(cabin) => write!(f, "raise {cabin}"),
            Call::Withdraw(cabin) => write!(f, "withdraw {cabin}"),
            Call::Next => f.write_str("next"),
        }
    }
}

impl Call {
    /// The dispatcher after the call, and the cabin that raised its alarm, withdrew it or was served; or the refusal.
    pub fn made(self, line: &Line) -> Result<(Line, u16), Refusal> {
        let mut after = line.clone();
        let cabin = match self {
            Call::Raise(cabin) => after.raise(cabin).map(|()| cabin),
            Call::Withdraw(cabin) => after.withdraw(cabin).map(|()| cabin),
            Call::Next => after.serve_next(),
        };
        cabin.map(|cabin| (after, cabin))
    }
}

/// What an accepted call did, and whose turn it is then, in one line; or that the dispatchers before and after it do not show it.
pub fn answered(before: &Line, after: &Line, call: Call, cabin: u16) -> Result<String, String> {
    let (did, waits, last) = match (call, before.waits(cabin)) {
        (Call::Raise(_), true) => ("waits already", true, before.last_served()),
        (Call::Raise(_), false) => ("waits", true, before.last_served()),
        (Call::Withdraw(_), true) => ("withdraws", false, before.last_served()),
        (Call::Withdraw(_), false) => ("does not wait", false, before.last_served()),
        (Call::Next, true) => ("is served", false, cabin),
        (Call::Next, false) => return Err(format!("cabin {cabin} is served and did not wait")),
    };
    if (after.waits(cabin), after.last_served()) != (waits, last) {
        return Err(format!("the dispatcher does not show that cabin {cabin} {did}"));
    }
    Ok(format!("cabin {cabin} {did}; {}", in_turn(after)))
}

/// The cabins that wait, in the order in which they would be served: the library serves them, on a copy.
fn in_turn(line: &Line) -> String {
    let mut copy = line.clone();
    let served = std::iter::from_fn(|| copy.serve_next().ok()).take(LINE_CABINS);
    let turns: Vec<String> = served.map(|cabin| cabin.to_string()).collect();
    match turns.is_empty() {
        true => "nobody waits".to_string(),
        false => format!("next in turn: {}", turns.join(", ")),
    }
}
