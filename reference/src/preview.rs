//! What a clearing would free, told without clearing. The exit is left out of the links, and the
//! steps are marked from step 0: those that no link of either strength leads to would be freed, and
//! those that no strong link leads to would be doubtful. No bit is turned, and nothing is taken
//! back. Renders W8 of document 02.

use crate::calls::{bare, edit_refusal, Answer, Command};
use crate::faults::Fault;
use crate::steps::{list_steps, STEPS_ROOM};
use crate::table::{mark, place, Set, Table, EXITS};

/// Writes the numbers of the steps that clearing an exit would free into a lent buffer; answers the
/// counts that the clearing would give.
pub fn preview_clear(table: &Table, step: u16, exit: u16, buffer: &mut [u8]) -> Answer {
    preview_clear_with(table, step, exit, buffer, Fault::None)
}

/// Tells what a clearing would free, with a fault or without.
pub fn preview_clear_with(
    table: &Table,
    step: u16,
    exit: u16,
    buffer: &mut [u8],
    fault: Fault,
) -> Answer {
    let short = buffer.len() < STEPS_ROOM;
    let refusal = match (edit_refusal(table, Command::Clear { step, exit }, fault), fault) {
        (6, Fault::PreviewRoomBeforeEmpty) if short => 11,
        (_, Fault::StepsRoomFirst) if short => 11,
        (refusal, _) => refusal,
    };
    if refusal != 0 {
        return bare(refusal);
    }
    let (doubtful, freed) = without(table, place(step.into(), exit.into()), fault);
    let listed = if fault == Fault::DoubtfulListed { doubtful } else { freed };
    let refusal = list_steps(table, listed, buffer, fault);
    if refusal != 0 {
        return bare(refusal);
    }
    let said = if fault == Fault::DoubtfulSaidToGo { doubtful } else { freed };
    Answer { refusal: 0, first: doubtful.count_ones() as u16, second: said.count_ones() as u16 }
}

/// The steps that strong links do not reach without the link at a place, and those that no links
/// reach.
fn without(table: &Table, left_out: usize, fault: Fault) -> (Set, Set) {
    let counts = |at: usize| match fault {
        Fault::ExitLeftIn => true,
        Fault::CopiesLeftOut => {
            at / EXITS != left_out / EXITS || table.targets[at] != table.targets[left_out]
        }
        _ => at != left_out,
    };
    let strong = table.links_that(|at, target| counts(at) && table.is_strong(at, target));
    let either = match fault {
        Fault::WeakUnmarked => strong,
        _ => table.links_that(|at, _| counts(at)),
    };
    let unmarked = |links| table.in_use() & !mark(1, links);
    (unmarked(&strong), unmarked(&either))
}
