//! Generated histories: after each call the table is sound and agrees with the plain plan, as
//! demand 3 lists, and each deliberate fault is found by comparing its variant with the right one.

mod common;

use common::image_of;
use reference::calls::Command;
use reference::faults::{Fault, Sort};
use reference::generate::{start, Generator};
use reference::history::{agrees, begin, run, Call, Outcome, Start};
use reference::image::load;
use reference::plan::{plan_of, Plan};
use reference::sound::{sound, ALARM, CONTACT, MESSAGE, WAIT};
use reference::table::{after, place, Table};

/// The steps in use that end no strong chain from step 0 once an exit is emptied. Ends of chains
/// are found by the number of links.
fn without_strong_chain(table: &Table, step: u16, exit: u16) -> u32 {
    let mut emptied = table.clone();
    emptied.targets[place(step.into(), exit.into())] = 0;
    let strong = emptied.strong_links();
    let (mut ends, mut found) = (1, 1);
    for _ in 0..table.size() {
        ends = after(ends, &strong);
        found |= ends;
    }
    (table.in_use() & !found).count_ones()
}

/// What the histories have come across, so that a generator that avoids the hard cases is noticed.
#[derive(Default, Debug)]
struct Seen {
    /// First calls by their refusal, and all other calls.
    begun: [u32; 19],
    refusals: [u32; 19],
    /// Squeezes refused by 16, and by 13 for their list alone.
    bad_lists: u32,
    unfit_lists: u32,
    /// Accepted adds by their cabin, and those of contacts that no old telephone takes.
    adds: [u32; 8],
    larger_contacts: u32,
    /// Adds refused for contact 1000.
    no_contact: u32,
    /// Accepted adds below the guarantee while some other cabin is held back.
    guaranteed: u32,
    all_freed: u32,
    some_freed: u32,
    all_kept: u32,
    full_128: u32,
    squeezed: u32,
    renumbered: u32,
    /// Trials by their ending, and refused ones.
    endings: [u32; 3],
    bad_results: u32,
    short_traces: u32,
    /// Clearings with a slip, accepted and refused by 11.
    slips: u32,
    short_slips: u32,
    /// Take-backs: accepted, those of them that brought steps back, and refused.
    taken_back: u32,
    brought_back: u32,
    not_taken_back: u32,
    /// Previews: accepted, those of them that told of steps, and refused by 11.
    previews: u32,
    told_of_steps: u32,
    short_previews: u32,
    /// Who can be rung: told, those of them that leave steps in use out, and refused by 11.
    rungs: u32,
    silent: u32,
    short_rungs: u32,
}

/// Runs the first call on table and plan and compares all that has to agree.
fn first(start: &Start, seen: &mut Seen) -> (Table, Plan) {
    let (table, outcome) = begin(start, Fault::None);
    let (plan, said) = Plan::begin(start, outcome.refusal == 0);
    assert!(agrees(&outcome, &said), "{start:?}: {outcome:?}, plan: {said:?}");
    assert_eq!(plan_of(&table), plan, "{start:?}");
    assert!(sound(&table), "{start:?}");
    seen.begun[usize::from(outcome.refusal)] += 1;
    (table, plan)
}

/// Runs one call on table and plan and compares all that has to agree.
fn check(table: &mut Table, plan: &mut Plan, call: &Call, seen: &mut Seen) {
    let before = table.clone();
    let outcome = run(table, call, Fault::None);
    let said = plan.draw(call, call.told(outcome.refusal));
    assert!(agrees(&outcome, &said), "{call:?}: {outcome:?}, plan: {said:?}");
    assert_eq!(plan_of(table), *plan, "{call:?}");
    assert!(sound(table), "{call:?}");
    assert_eq!(load(&image_of(table)).0, *table, "{call:?}");
    if said.is_err() {
        assert_eq!(*table, before, "{call:?}");
    } else if let Some(Command::Clear { step, exit }) = call.command() {
        let (doubtful, freed) = (outcome.numbers[0] as u32, outcome.numbers[1] as u32);
        assert_eq!(doubtful, without_strong_chain(&before, step, exit));
        assert_eq!(freed, u32::from(before.size() - table.size()));
        assert_eq!(table.last, before.last);
        seen.all_freed += u32::from(freed > 0 && freed == doubtful);
        seen.some_freed += u32::from(freed > 0 && freed < doubtful);
        seen.all_kept += u32::from(freed == 0 && doubtful > 0);
    } else if let Some(Command::Add { kind, content, cabin, .. }) = call.command() {
        let cabin = usize::from(cabin);
        let held_back = (0..8).any(|other| plan_of(&before).room(other) == Err(15));
        seen.adds[cabin] += 1;
        seen.larger_contacts += u32::from(kind == CONTACT && content > 99);
        seen.guaranteed +=
            u32::from(held_back && before.charges()[cabin] < before.quotas[2 * cabin]);
    } else if matches!(call, Call::Squeeze { .. }) {
        seen.squeezed += 1;
        seen.renumbered += u32::from(table.used != before.used);
    }
    if let Call::Squeeze { capacity, .. } = call {
        seen.bad_lists += u32::from(outcome.refusal == 16);
        seen.unfit_lists += u32::from(outcome.refusal == 13 && *capacity >= before.size());
    }
    match (call, outcome.refusal) {
        (Call::Edit(Command::Add { kind: CONTACT, content: 1000, .. }), 7) => seen.no_contact += 1,
        (Call::Trial { .. }, 0) => seen.endings[outcome.numbers[0]] += 1,
        (Call::Trial { .. }, 10) => seen.bad_results += 1,
        (Call::Trial { .. }, _) => seen.short_traces += 1,
        (Call::ClearWithSlip { .. }, 0) => seen.slips += 1,
        (Call::ClearWithSlip { .. }, 11) => seen.short_slips += 1,
        (Call::TakeBack { .. }, 0) => {
            seen.taken_back += 1;
            seen.brought_back += u32::from(table.size() > before.size());
        }
        (Call::TakeBack { .. }, _) => seen.not_taken_back += 1,
        (Call::PreviewClear { .. }, 0) => {
            assert_eq!(*table, before, "{call:?}");
            seen.previews += 1;
            seen.told_of_steps += u32::from(outcome.numbers[1] > 0);
        }
        (Call::PreviewClear { .. }, 11) => seen.short_previews += 1,
        (Call::Rung { .. }, 0) => {
            assert_eq!(*table, before, "{call:?}");
            seen.rungs += 1;
            seen.silent += u32::from(outcome.numbers[0] + 1 < table.size().into());
        }
        (Call::Rung { .. }, 11) => seen.short_rungs += 1,
        _ => {}
    }
    seen.refusals[usize::from(outcome.refusal)] += 1;
    seen.full_128 += u32::from(table.size() == 128);
}

#[test]
fn histories_agree_with_the_plan() {
    let mut seen = Seen::default();
    for seed in 0..144 {
        let (mut table, mut plan) = first(&start(seed), &mut seen);
        let mut generator = Generator::new(seed);
        for _ in 0..500 {
            let call = generator.call(&table);
            check(&mut table, &mut plan, &call, &mut seen);
        }
    }
    println!("{seen:?}");
    for (refusal, &calls) in seen.refusals.iter().enumerate() {
        let met = if matches!(refusal, 1 | 12 | 17) { calls == 0 } else { calls > 200 };
        assert!(met, "refusal {refusal} came up {calls} times");
        assert_eq!(seen.begun[refusal] > 0, matches!(refusal, 0 | 2 | 12 | 16));
    }
    assert!(seen.bad_lists > 200 && seen.unfit_lists > 200 && seen.guaranteed > 200);
    assert!(seen.adds.iter().all(|&adds| adds > 200));
    assert!(seen.larger_contacts > 1000 && seen.no_contact > 100);
    assert!(seen.all_freed > 100 && seen.some_freed > 100 && seen.all_kept > 100);
    assert!(seen.full_128 > 100 && seen.squeezed > 1000 && seen.renumbered > 500);
    assert!(seen.endings.iter().all(|&ended| ended > 1000));
    assert!(seen.bad_results > 500 && seen.short_traces > 500);
    assert!(seen.slips > 1000 && seen.short_slips > 500);
    assert!(seen.taken_back > 1000 && seen.brought_back > 500 && seen.not_taken_back > 1000);
    assert!(seen.previews > 1000 && seen.told_of_steps > 500 && seen.short_previews > 500);
    assert!(seen.rungs > 1000 && seen.silent > 500 && seen.short_rungs > 500);
}

/// A history, and what the right program gives: the outcome of each call and the table after it.
struct Made {
    start: Start,
    begun: (Table, Outcome),
    calls: Vec<(Call, Outcome, Table)>,
}

/// Histories of 300 calls each.
fn histories() -> Vec<Made> {
    let history = |seed| {
        let start = start(seed);
        let begun = begin(&start, Fault::None);
        let (mut table, mut generator) = (begun.0.clone(), Generator::new(seed));
        let next = || {
            let call = generator.call(&table);
            let outcome = run(&mut table, &call, Fault::None);
            (call, outcome, table.clone())
        };
        let calls = std::iter::repeat_with(next).take(300).collect();
        Made { start, begun, calls }
    };
    (0..54).map(history).collect()
}

/// Whether a variant differs from the right one, in the table or an outcome, after some call.
fn differs(history: &Made, fault: Fault) -> bool {
    let begun = begin(&history.start, fault);
    let mut table = begun.0.clone();
    begun != history.begun
        || history.calls.iter().any(|(call, outcome, after)| {
            run(&mut table, call, fault) != *outcome || table != *after
        })
}

#[test]
fn every_fault_is_found() {
    let faults = [
        Fault::CopyKeepsStrength,
        Fault::SkipRepair,
        Fault::CounterOffByOne,
        Fault::SwappedRefusals,
        Fault::HighestFirst,
        Fault::FreedKeepsBit,
        Fault::FreedKeepsCabin,
        Fault::CabinAfterHolder,
        Fault::CabinCut,
        Fault::CabinForgotten,
        Fault::AlarmCharged,
        Fault::LimitPassed,
        Fault::ReservedTaken,
        Fault::LimitBeforeFull,
        Fault::ReservedBeforeLimit,
        Fault::GuaranteeRefused,
        Fault::OldRangeAdded,
        Fault::OneContactMore,
        Fault::ContactInAByte,
        Fault::SumIn16Bits,
        Fault::ListBeforeRange,
        Fault::EditionsMixed,
        Fault::NoGuaranteeLoaded,
        Fault::OldRangeUnasked,
        Fault::OldRangeInBoth,
        Fault::OldRangeTo100,
        Fault::OldRangeOfWaits,
        Fault::FitBeforeRange,
        Fault::FitBeforeList,
        Fault::FitBySize,
        Fault::OrderReversed,
        Fault::TargetsStay,
        Fault::OwnBitsStay,
        Fault::CountersStay,
        Fault::RecordsStay,
        Fault::LastStays,
        Fault::CabinsLost,
        Fault::ListStays,
        Fault::UsesUp(ALARM),
        Fault::UsesUp(MESSAGE),
        Fault::UsesUp(WAIT),
        Fault::WaitTakesResult,
        Fault::StoppedBeforeOpen,
        Fault::StoppedBeforeSpent,
        Fault::OpenBeforeSpent,
        Fault::OneMoveMore,
        Fault::TraceAsResults,
        Fault::UsedResultsOnly,
        Fault::BitsLeftOut,
        Fault::TargetListed,
        Fault::CountersListed,
        Fault::FreedLeftOut,
        Fault::SlipDescending,
        Fault::NewBeforeOld,
        Fault::FreedUnnumbered,
        Fault::HolderNotCounted,
        Fault::ExitFirst,
        Fault::RoomForLargest,
        Fault::RoomBeforeEmpty,
        Fault::ClearedThoughShort,
        Fault::WrittenAsFits,
        Fault::ZeroBehind,
        Fault::PresentUnread,
        Fault::ListUnasked,
        Fault::CapacityUnasked,
        Fault::RetraceSkipped,
        Fault::SlipUnread,
        Fault::ExtraBytesTaken,
        Fault::CountersKept,
        Fault::CountersOfListed,
        Fault::LastIsBack,
        Fault::BitsNotBack,
        Fault::CabinsNotBack,
        Fault::ListedSaidBack,
        Fault::DoubtfulListed,
        Fault::DoubtfulSaidToGo,
        Fault::WeakUnmarked,
        Fault::ExitLeftIn,
        Fault::CopiesLeftOut,
        Fault::PreviewRoomBeforeEmpty,
        Fault::PreviewClears,
        Fault::EngagedTaken,
        Fault::EveryExitTaken,
        Fault::AlarmExitsTaken,
        Fault::AnsweredAlone,
        Fault::HeldListed,
        Fault::AlarmListed,
        Fault::ContactsAlone,
        Fault::FirstRungAlone,
        Fault::SameResultsAlone,
        Fault::RingsLeftOut,
        Fault::StepsSaidContacts,
        Fault::NoContactSaid,
        Fault::OneContactSaidMore,
        Fault::RungMovesLast,
        Fault::StepsDescending,
        Fault::StepsInWords,
        Fault::StepsPadded,
        Fault::StepsRoomFirst,
        Fault::StepsRoomForThese,
        Fault::StepsRoomByCapacity,
        Fault::StepsRoomForAlarm,
        Fault::StepsRoomOneLess,
        Fault::DoubtfulSaidFreed,
        Fault::CountsExchanged,
        Fault::CountersExchanged,
        Fault::SpentSaidOpen,
        Fault::StoppedSaidSpent,
        Fault::TraceOneBehind,
        Fault::WrittenDescending,
        Fault::MovesInAByte,
    ];
    let histories = histories();
    for fault in faults {
        let found = histories.iter().filter(|history| differs(history, fault)).count();
        println!("{fault:?} is found by {found} histories of 54");
        assert!(found >= 9, "{fault:?} is found by {found} histories of 54");
    }
    assert!(!histories.iter().any(|history| differs(history, Fault::None)));
}

/// What is wrong in one part of one sort of call is found too, but where no history has such a
/// call: a count or an image's length that is refused, and a conversion.
#[test]
fn every_spoiled_part_is_found() {
    let histories = histories();
    for fault in Fault::spoiled() {
        let Fault::Spoiled { sort, refused, .. } = fault else { unreachable!() };
        let met = match sort {
            Sort::Count | Sort::ImageLength => !refused,
            _ => !sort.converts(),
        };
        let found = histories.iter().any(|history| differs(history, fault));
        assert_eq!(found, met, "{fault:?}");
    }
}
