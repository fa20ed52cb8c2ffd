//! Faults planted in the second program. The comparison has to find each, by the evidence that it leaves, in the calls that have it and in no other.

use compare::{converted, ring, rounds, Evidence, Pair};
use reference::cabins::{list, one_cabin};
use reference::calls::{clear, fresh, fresh_for_cabin_0, Command};
use reference::convert::{Conversion, Way};
use reference::faults::{Fault, Length, Part, Sort};
use reference::generate::{key_text, start, Generator, Random};
use reference::history::{run, Call, Start};
use reference::image::{encode, in_edition_1};
use reference::slip::{between, LARGEST_SLIP};
use reference::sound::{ALARM, CONTACT, MESSAGE, WAIT};
use reference::steps::STEPS_ROOM;
use reference::table::Table;
use std::collections::BTreeSet;

/// Sorts of calls that differed, each with all that differed in one call.
type Found = BTreeSet<(Sort, Vec<Evidence>)>;

/// What both programs are run on.
struct Cases {
    starts: Vec<Start>,
    calls: Vec<(Table, Call)>,
    conversions: Vec<Conversion>,
}

impl Cases {
    fn all() -> Cases {
        Cases { starts: starts(), calls: cases(), conversions: conversions() }
    }
}

/// Calls on tables: those of made-up histories, half of them by key lines, each sort on a table that is not sound, a key line with two refusals, an add
/// held back by a guarantee, and some calls with lengths past 8 and 16 bits.
fn cases() -> Vec<(Table, Call)> {
    let mut cases = Vec::new();
    for seed in 0..40 {
        let mut table = match seed % 4 {
            0 => fresh_for_cabin_0(128),
            1 => fresh_for_cabin_0(4),
            _ => Random(seed).sound_table(),
        };
        let mut generator = Generator::new(seed);
        for _ in 0..150 {
            let call = match generator.call(&table) {
                Call::Edit(command) if seed >= 20 => Call::KeyLine(key_text(command)),
                call => call,
            };
            cases.push((table.clone(), call.clone()));
            run(&mut table, &call, Fault::None);
        }
    }
    let kinds = [CONTACT; 5];
    let ring = ring(&kinds);
    let mut cleared = ring.clone();
    assert_eq!(clear(&mut cleared, 0, 0).refusal, 0);
    let slip = between(&ring, &cleared, 0, 0);
    let mut unsound = ring.clone();
    unsound.counts[3] += 1;
    let each = [
        Call::Edit(Command::Add { holder: 0, exit: 3, kind: 1, content: 0, cabin: 0 }),
        Call::Edit(Command::Link { source: 0, source_exit: 0, second: 0, second_exit: 2 }),
        Call::Edit(Command::Clear { step: 0, exit: 0 }),
        Call::Edit(Command::Count),
        Call::ClearWithSlip { step: 0, exit: 0, buffer: LARGEST_SLIP },
        Call::TakeBack { slip: slip.clone() },
        Call::PreviewClear { step: 0, exit: 0, buffer: STEPS_ROOM },
        Call::Rung { buffer: STEPS_ROOM },
        Call::Rung { buffer: STEPS_ROOM - 1 },
        Call::Squeeze { capacity: 128, quotas: one_cabin(128) },
        Call::Read { step: 0 },
        Call::Trial { limit: 4, results: vec![0, 1], trace: 4 },
        Call::Write { buffer: 2858 },
        Call::ImageLength,
        Call::KeyLine(b"H*4A".to_vec()),
    ];
    cases.extend(each.map(|call| (unsound.clone(), call)));
    let refused = Command::Add { holder: 0, exit: 0, kind: 0, content: 0, cabin: 0 };
    cases.push((ring.clone(), Call::KeyLine(key_text(refused))));
    // cabin 0 may have one step, and all places are guaranteed to cabin 1
    let (reserved, _) = fresh(4, list(&[[0, 1], [3, 3]]));
    let held = Command::Add { holder: 0, exit: 0, kind: 1, content: 0, cabin: 0 };
    cases.push((reserved, Call::Edit(held)));
    for (limit, results, trace) in [(300, 300, 300), (65535, 70_000, 65_535), (9, 7, 65_536)] {
        let results = rounds(&kinds, results);
        cases.push((ring.clone(), Call::Trial { limit, results, trace }));
    }
    cases.push((ring.clone(), Call::Write { buffer: 65_536 }));
    cases.push((ring.clone(), Call::ClearWithSlip { step: 0, exit: 0, buffer: 65_536 }));
    for buffer in [65_536, 65_536 + STEPS_ROOM - 1] {
        cases.push((ring.clone(), Call::PreviewClear { step: 0, exit: 0, buffer }));
        cases.push((ring.clone(), Call::Rung { buffer }));
    }
    cases.push((cleared, Call::TakeBack { slip: [&slip[..], &vec![0; 65_536]].concat() }));
    let line = [&b"H*4A"[..], &vec![b'0'; 65_536]].concat();
    cases.push((ring, Call::KeyLine(line)));
    cases
}

/// First calls: fresh and load, accepted and refused, those of made-up histories and some more.
fn starts() -> Vec<Start> {
    let image = encode(&ring(&[CONTACT; 5]));
    let long = [&image[..], &vec![0; 65_536]].concat();
    let loads = [image, Vec::new(), long].map(|image| Start::Load { image });
    let past_16_bits = (128, list(&[[32_768, 65_535]; 2]));
    let fresh = [0, 1, 128, 129].map(|capacity| (capacity, one_cabin(capacity)));
    let fresh = fresh.into_iter().chain([past_16_bits]);
    let fresh = fresh.map(|(capacity, quotas)| Start::Fresh { capacity, quotas });
    (0..72).map(start).chain(fresh).chain(loads).collect()
}

/// Conversions: made-up ones, and some with lengths past 16 bits.
fn conversions() -> Vec<Conversion> {
    let mut random = Random(81);
    let mut cases: Vec<Conversion> = (0..500).map(|_| random.conversion()).collect();
    let new = encode(&ring(&[CONTACT; 5]));
    for (way, image) in [(Way::Up, in_edition_1(&new)), (Way::Down, new)] {
        let long = [&image[..], &vec![0; 65_536]].concat();
        cases.push(Conversion { way, image: long, buffer: 300 });
        cases.push(Conversion { way, image, buffer: 65_536 });
    }
    cases
}

/// What the comparison finds of a fault.
fn found(fault: Fault, cases: &Cases) -> Found {
    let begun =
        cases.starts.iter().map(|start| (Sort::of_start(start), Pair::begin(start, fault).1));
    let called = cases
        .calls
        .iter()
        .map(|(table, call)| (Sort::of(call), Pair::new(table, fault).call(call)));
    let converted =
        cases.conversions.iter().map(|made| (Sort::of_way(made.way), converted(made, fault)));
    begun
        .chain(called)
        .chain(converted)
        .filter_map(|(sort, compared)| Some((sort, compared.err()?.evidence)))
        .collect()
}

/// Calls of these sorts that differ in each of these ways.
fn ways(sorts: &[Sort], ways: &[&[Evidence]]) -> Found {
    sorts.iter().flat_map(|&sort| ways.iter().map(move |way| (sort, way.to_vec()))).collect()
}

/// The faults that have a name: the calls that show it, and each of the ways in which a call shows it.
fn named() -> Vec<(Fault, Found)> {
    use Evidence::*;
    use Fault::*;
    use Sort::{
        Add, Clear, ClearWithSlip, ConvertDown, ConvertUp, Count, Fresh, KeyLine, Link, Load,
        PreviewClear, Read, Rung, Squeeze, TakeBack, Trial, Write,
    };
    let added: &[Evidence] = &[Refusal, Number(0), Table];
    let written: &[Evidence] = &[Refusal, Number(0), Lent];
    let loaded = ways(&[Load], &[&[Refusal, Table]]);
    let convert = &[ConvertUp, ConvertDown];
    let lending = &[ConvertUp, ConvertDown, ClearWithSlip, PreviewClear, Rung];
    // a clearing with a slip made by one program and refused by the other, by what it freed or kept
    let none_doubtful: &[Evidence] = &[Refusal, Lent, Table];
    let all_kept: &[Evidence] = &[Refusal, Number(0), Lent, Table];
    let some_freed: &[Evidence] = &[Refusal, Number(0), Number(1), Lent, Table];
    // the same of a take-back, by what it brings back
    let put_back: &[Evidence] = &[Refusal, Table];
    let brought_back: &[Evidence] = &[Refusal, Number(0), Table];
    // the same of a preview, by what it tells of: nothing, doubtful steps that stay, steps that go
    let told: [&[Evidence]; 3] =
        [&[Refusal], &[Refusal, Number(0)], &[Refusal, Number(0), Number(1), Lent]];
    // the same of who can be rung, by who is listed: nobody, no contact, contacts
    let listed: [&[Evidence]; 3] =
        [&[Refusal], &[Refusal, Number(0), Lent], &[Refusal, Number(0), Number(1), Lent]];
    // other steps listed, with as many contacts or with another number of them
    let others: [&[Evidence]; 2] = [&[Number(0), Lent], &[Number(0), Number(1), Lent]];
    let listing = &[PreviewClear, Rung];
    vec![
        (CopyKeepsStrength, ways(&[Link, KeyLine], &[&[Table]])),
        (CounterOffByOne, ways(&[Link, KeyLine], &[&[Table]])),
        (HighestFirst, ways(&[Clear, KeyLine], &[&[Table]])),
        (FreedKeepsBit, ways(&[Clear, KeyLine], &[&[Table]])),
        (FreedKeepsCabin, ways(&[Clear, KeyLine], &[&[Table]])),
        (
            SkipRepair,
            ways(&[Clear, KeyLine], &[&[Number(0), Table], &[Number(0), Number(1), Table]]),
        ),
        (SwappedRefusals, ways(&[Add, KeyLine], &[&[Refusal]])),
        (CabinAfterHolder, ways(&[Add], &[&[Refusal]])),
        (CabinCut, ways(&[Add], &[&[Refusal], added])),
        (CabinForgotten, ways(&[Add], &[&[Table]])),
        (AlarmCharged, ways(&[Add, KeyLine], &[&[Refusal], added])),
        (LimitPassed, ways(&[Add, KeyLine], &[&[Refusal], added])),
        (ReservedTaken, ways(&[Add, KeyLine], &[added])),
        (LimitBeforeFull, ways(&[Add, KeyLine], &[&[Refusal]])),
        (ReservedBeforeLimit, ways(&[Add, KeyLine], &[&[Refusal]])),
        (GuaranteeRefused, ways(&[Add, KeyLine], &[added])),
        (OldRangeAdded, ways(&[Add, KeyLine], &[&[Refusal], added])),
        // no key line has four digits
        (OneContactMore, ways(&[Add], &[&[Refusal], added])),
        (ContactInAByte, ways(&[Add, KeyLine], &[&[Table]])),
        (SumIn16Bits, &ways(&[Fresh], &[&[Refusal, Table]]) | &ways(&[Squeeze], &[&[Refusal]])),
        (ListBeforeRange, ways(&[Fresh, Squeeze], &[&[Refusal]])),
        (EditionsMixed, loaded.clone()),
        (NoGuaranteeLoaded, ways(&[Load], &[&[Table]])),
        (OldRangeUnasked, &loaded | &ways(&[ConvertUp], &[&[Refusal], written])),
        (OldRangeInBoth, &loaded | &ways(&[ConvertDown], &[&[Refusal]])),
        (OldRangeTo100, &loaded | &ways(convert, &[&[Refusal], written])),
        (OldRangeOfWaits, &loaded | &ways(convert, &[&[Refusal], written])),
        (FitBeforeRange, ways(&[Squeeze], &[&[Refusal]])),
        (FitBeforeList, ways(&[Squeeze], &[&[Refusal]])),
        (FitBySize, ways(&[Squeeze], &[&[Refusal, Table]])),
        (OrderReversed, ways(&[Squeeze], &[&[Table]])),
        (TargetsStay, ways(&[Squeeze], &[&[Table]])),
        (OwnBitsStay, ways(&[Squeeze], &[&[Table]])),
        (CountersStay, ways(&[Squeeze], &[&[Table]])),
        (RecordsStay, ways(&[Squeeze], &[&[Table]])),
        (LastStays, ways(&[Squeeze], &[&[Table]])),
        (CabinsLost, ways(&[Squeeze], &[&[Table]])),
        (ListStays, ways(&[Squeeze], &[&[Table]])),
        (StoppedBeforeOpen, ways(&[Trial], &[&[Number(0)]])),
        (StoppedBeforeSpent, ways(&[Trial], &[&[Number(0)]])),
        (OpenBeforeSpent, ways(&[Trial], &[&[Number(0)]])),
        (BitsLeftOut, ways(&[ClearWithSlip], &[&[Lent]])),
        (TargetListed, ways(&[ClearWithSlip], &[&[Lent], none_doubtful])),
        (CountersListed, ways(&[ClearWithSlip], &[&[Lent], none_doubtful, all_kept, some_freed])),
        (FreedLeftOut, ways(&[ClearWithSlip], &[&[Lent], some_freed])),
        (SlipDescending, ways(&[ClearWithSlip], &[&[Lent]])),
        (NewBeforeOld, ways(&[ClearWithSlip], &[&[Lent]])),
        (FreedUnnumbered, ways(&[ClearWithSlip], &[&[Lent]])),
        (HolderNotCounted, ways(&[ClearWithSlip], &[&[Lent]])),
        (ExitFirst, ways(&[ClearWithSlip], &[&[Lent]])),
        (RoomForLargest, ways(&[ClearWithSlip], &[none_doubtful, all_kept, some_freed])),
        (RoomBeforeEmpty, ways(&[ClearWithSlip], &[&[Refusal]])),
        (ClearedThoughShort, ways(&[ClearWithSlip], &[&[Table]])),
        (PresentUnread, ways(&[TakeBack], &[&[Refusal], put_back, brought_back])),
        (ListUnasked, ways(&[TakeBack], &[brought_back])),
        (CapacityUnasked, ways(&[TakeBack], &[brought_back])),
        (RetraceSkipped, ways(&[TakeBack], &[&[Refusal], put_back, brought_back])),
        (SlipUnread, ways(&[TakeBack], &[put_back, brought_back])),
        (ExtraBytesTaken, ways(&[TakeBack], &[put_back, brought_back])),
        (CountersKept, ways(&[TakeBack], &[&[Table]])),
        (CountersOfListed, ways(&[TakeBack], &[&[Table]])),
        (LastIsBack, ways(&[TakeBack], &[&[Table]])),
        (BitsNotBack, ways(&[TakeBack], &[&[Table]])),
        (CabinsNotBack, ways(&[TakeBack], &[&[Table]])),
        (ListedSaidBack, ways(&[TakeBack], &[&[Number(0)]])),
        (DoubtfulListed, ways(&[PreviewClear], &[&[Lent]])),
        (DoubtfulSaidToGo, ways(&[PreviewClear], &[&[Number(1)]])),
        (WeakUnmarked, ways(&[PreviewClear], &[&[Number(1), Lent]])),
        (ExitLeftIn, ways(&[PreviewClear], &[&[Number(0)], &[Number(0), Number(1), Lent]])),
        (
            CopiesLeftOut,
            ways(
                &[PreviewClear],
                &[&[Number(0)], &[Number(1), Lent], &[Number(0), Number(1), Lent]],
            ),
        ),
        (PreviewRoomBeforeEmpty, ways(&[PreviewClear], &[&[Refusal]])),
        (PreviewClears, ways(&[PreviewClear], &[&[Table]])),
        (EngagedTaken, ways(&[Rung], &others)),
        (EveryExitTaken, ways(&[Rung], &others)),
        (AlarmExitsTaken, ways(&[Rung], &others)),
        (AnsweredAlone, ways(&[Rung], &others)),
        (HeldListed, ways(&[Rung], &others)),
        (AlarmListed, ways(&[Rung], &[others[0]])),
        (ContactsAlone, ways(&[Rung], &[others[0]])),
        (FirstRungAlone, ways(&[Rung], &others)),
        (SameResultsAlone, ways(&[Rung], &others)),
        (RingsLeftOut, ways(&[Rung], &others)),
        (StepsSaidContacts, ways(&[Rung], &[&[Number(1)]])),
        (NoContactSaid, ways(&[Rung], &[&[Number(1)]])),
        (OneContactSaidMore, ways(&[Rung], &[&[Number(1)]])),
        (RungMovesLast, ways(&[Rung], &[&[Table]])),
        (StepsDescending, ways(listing, &[&[Lent]])),
        (StepsInWords, ways(listing, &[&[Lent]])),
        (StepsPadded, ways(listing, &[&[Lent]])),
        (StepsRoomFirst, ways(listing, &[&[Refusal]])),
        (StepsRoomForThese, &ways(&[PreviewClear], &told) | &ways(&[Rung], &listed)),
        (StepsRoomByCapacity, &ways(&[PreviewClear], &told) | &ways(&[Rung], &listed)),
        (StepsRoomForAlarm, &ways(&[PreviewClear], &told) | &ways(&[Rung], &listed)),
        (StepsRoomOneLess, &ways(&[PreviewClear], &told) | &ways(&[Rung], &listed)),
        (CabinsBeforeImage, ways(&[ConvertDown], &[&[Refusal]])),
        (BufferBeforeCabins, ways(&[ConvertDown], &[&[Refusal]])),
        (BufferBeforeEdition, ways(convert, &[&[Refusal]])),
        (SameEditionTaken, ways(convert, &[&[Refusal], written])),
        (CabinsDropped, ways(&[ConvertDown], &[&[Refusal], written])),
        (ListDropped, ways(&[ConvertDown], &[&[Refusal], written])),
        (LimitsDropped, ways(&[ConvertDown], &[&[Refusal], written])),
        (OtherPairsDropped, ways(&[ConvertDown], &[&[Refusal], written])),
        (ContactsUnasked, ways(&[ConvertDown], &[&[Refusal], written])),
        (AlarmGuaranteed, ways(&[ConvertUp], &[&[Lent]])),
        (BitsDropped(31), ways(convert, &[&[Lent]])),
        (BitsDropped(16), ways(convert, &[&[Lent]])),
        (AlarmBitDropped, ways(convert, &[&[Lent]])),
        (LastIsHighest, ways(convert, &[&[Lent]])),
        (OrderKept, ways(convert, &[&[Lent]])),
        (RoomForEither, ways(&[ConvertDown], &[written])),
        (WrittenAsFits, ways(lending, &[&[Lent]])),
        (ZeroBehind, ways(lending, &[&[Lent]])),
        (LengthOfGiven, ways(convert, &[&[Number(0)]])),
        (DoubtfulSaidFreed, ways(&[Clear], &[&[Number(1)]])),
        (CountsExchanged, ways(&[Count], &[&[Number(0), Number(1)]])),
        (CountersExchanged, ways(&[Read], &[&[Number(11), Number(12)]])),
        (SpentSaidOpen, ways(&[Trial], &[&[Number(0)]])),
        (StoppedSaidSpent, ways(&[Trial], &[&[Number(0)]])),
        (TraceOneBehind, ways(&[Trial], &[&[Lent]])),
        (WrittenDescending, ways(&[Write], &[&[Lent]])),
        (MovesInAByte, ways(&[Trial], &[&[Number(2)]])),
    ]
}

#[test]
fn planted_faults_show() {
    let cases = Cases::all();
    assert_eq!(found(Fault::None, &cases), Found::new());
    for (fault, ways) in named() {
        let found = found(fault, &cases);
        println!("{fault:?} is found by {found:?}");
        assert_eq!(found, ways, "{fault:?}");
    }
}

/// Faults that lead a trial another way show in its numbers and its trace, and never in the refusal. Those that refuse by another rule show in the
/// refusal of each such call, and in all that the call gives or withholds.
#[test]
fn faults_of_trials_show() {
    use Evidence::*;
    let cases = Cases::all();
    let numbers = [Number(0), Number(1), Number(2)];
    for (fault, refusal) in [
        (Fault::UsesUp(ALARM), false),
        (Fault::UsesUp(MESSAGE), false),
        (Fault::UsesUp(WAIT), false),
        (Fault::WaitTakesResult, false),
        (Fault::OneMoveMore, false),
        (Fault::TraceAsResults, true),
        (Fault::UsedResultsOnly, true),
    ] {
        let found = found(fault, &cases);
        println!("{fault:?} is found by {found:?}");
        for (sort, way) in &found {
            assert_eq!((*sort, way.contains(&Refusal)), (Sort::Trial, refusal), "{fault:?}");
        }
        let parts: BTreeSet<Evidence> = found.into_iter().flat_map(|(_, way)| way).collect();
        let expected = numbers.into_iter().chain([Lent]).chain(refusal.then_some(Refusal));
        assert_eq!(parts, expected.collect(), "{fault:?}");
    }
}

/// For each sort of call, accepted and refused: a wrong refusal, each number, a lent byte written or not, the table if it has one. Nothing else may
/// differ.
#[test]
fn each_part_of_each_call_is_compared() {
    let cases = Cases::all();
    let faults = Fault::spoiled();
    assert!(faults.len() > 100);
    for fault in faults {
        let Fault::Spoiled { sort, part, .. } = fault else { unreachable!() };
        let evidence = match part {
            Part::Refusal => Evidence::Refusal,
            Part::Number(i) => Evidence::Number(i),
            Part::Written | Part::Unwritten => Evidence::Lent,
            Part::Table => Evidence::Table,
        };
        let found = found(fault, &cases);
        println!("{fault:?} is found by {found:?}");
        assert_eq!(found, Found::from([(sort, vec![evidence])]), "{fault:?}");
    }
}

/// A length cut to 16 bits shows in the calls that are lent it.
#[test]
fn cut_lengths_show() {
    let cases = Cases::all();
    for (length, sorts) in [
        (Length::Results, &[Sort::Trial][..]),
        (Length::Trace, &[Sort::Trial]),
        (
            Length::Buffer,
            &[
                Sort::Write,
                Sort::ClearWithSlip,
                Sort::PreviewClear,
                Sort::Rung,
                Sort::ConvertUp,
                Sort::ConvertDown,
            ],
        ),
        (Length::Line, &[Sort::KeyLine]),
        (Length::Image, &[Sort::Load, Sort::ConvertUp, Sort::ConvertDown]),
        (Length::Slip, &[Sort::TakeBack]),
    ] {
        let found = found(Fault::Cut(length), &cases);
        println!("{length:?} cut is found by {found:?}");
        let found: BTreeSet<Sort> = found.into_iter().map(|(sort, _)| sort).collect();
        assert_eq!(found, sorts.iter().copied().collect(), "{length:?}");
    }
}
