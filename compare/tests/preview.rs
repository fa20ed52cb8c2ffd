//! Previews (W8) through the interface and on the second program, and the clearing made next by both, the plain plan held to them: every exit of small
//! tables with all strengths, of tables with strengths that no history gives, and of the tables of histories; any step and exit; buffers of all lengths;
//! tables that are not sound, and one that nobody can write to; and the laws.

use compare::{
    any_exit, as_said, begin, both, damaged_tables, kept, proved, ring, tables_of_histories, Lent,
    Pair, Refusals, RING,
};
use reference::calls::{add, fresh_for_cabin_0, link, Command};
use reference::faults::Fault;
use reference::generate::{small_tables, Random};
use reference::history::{Call, Outcome, Start, UNTOUCHED};
use reference::image::encode;
use reference::laws::{self, foretold, Beginner, Program};
use reference::sound::CONTACT;
use reference::steps::STEPS_ROOM;
use reference::table::{members, Table, EXITS};
use std::ops::Range;
use telephone::raw;

/// What previews came across: nothing doubtful, doubtful steps that all stay, some that go and some that stay, all of them going, and an empty exit.
#[derive(Default, Debug)]
struct Seen {
    nothing: usize,
    all_kept: usize,
    part_goes: usize,
    all_go: usize,
    empty: usize,
}

impl Seen {
    fn note(&mut self, outcome: &Outcome) {
        let [doubtful, freed] = outcome.numbers[..] else { unreachable!() };
        *match (outcome.refusal, doubtful, freed) {
            (6, ..) => &mut self.empty,
            (_, 0, _) => &mut self.nothing,
            (_, _, 0) => &mut self.all_kept,
            _ if freed < doubtful => &mut self.part_goes,
            _ => &mut self.all_go,
        } += 1;
    }

    /// Each came up as often as that.
    fn met(&self, times: usize) {
        println!("{self:?}, {}", self.nothing + self.all_kept + self.part_goes + self.all_go);
        let Seen { nothing, all_kept, part_goes, all_go, empty } = self;
        assert!([nothing, all_kept, part_goes, all_go, empty].iter().all(|&&n| n >= times));
    }
}

/// Previews each exit of each step in use, by both programs and by the plan, and clears it on a copy.
fn every_exit(table: &Table, seen: &mut Seen) {
    for step in members(table.in_use()) {
        for exit in 0..EXITS as u16 {
            let step = step as u16;
            let told = foretold(&both, table, step, exit, STEPS_ROOM);
            let call = Call::PreviewClear { step, exit, buffer: STEPS_ROOM };
            assert_eq!(as_said(table, &call), told);
            seen.note(&told);
        }
    }
}

/// A chain of 127 steps along an exit, and the same with a weak link from step 0 to step 1.
fn chains(exit: u16) -> [Table; 2] {
    let mut chain = fresh_for_cabin_0(128);
    for step in 0..127 {
        assert_eq!(add(&mut chain, step, exit, CONTACT, 0, 0).refusal, 0);
    }
    let mut held = chain.clone();
    assert_eq!(link(&mut held, 0, exit, 0, (exit + 1) % 4).refusal, 0);
    [chain, held]
}

/// P1 to P6, asked before each clearing: a ring that a weak link keeps, and then lets go.
#[test]
fn examples() {
    let mut table = fresh_for_cabin_0(4);
    assert_eq!(add(&mut table, 0, 0, 1, 0, 0).first, 1);
    assert_eq!(add(&mut table, 1, 2, 1, 1, 0).first, 2);
    assert_eq!(link(&mut table, 0, 0, 2, 2).refusal, 0);
    let tells = |table: &Table, [step, exit]: [u16; 2], numbers: [usize; 2], steps: &[u8]| {
        let told = foretold(&both, table, step, exit, 130);
        assert_eq!((told.refusal, &told.numbers[..]), (0, &numbers[..]));
        assert_eq!(told.lent, [steps, &vec![UNTOUCHED; 130 - steps.len()]].concat());
    };
    tells(&table, [0, 0], [2, 2], &[1, 2]);
    tells(&table, [1, 2], [1, 1], &[2]);
    tells(&table, [2, 2], [0, 0], &[]);
    assert_eq!(link(&mut table, 1, 2, 0, 1).refusal, 0);
    tells(&table, [0, 0], [2, 0], &[]);
    tells(&table, [0, 1], [0, 0], &[]);
    assert_eq!(both(&mut table, &Call::Edit(Command::Clear { step: 0, exit: 0 })).numbers, [2, 0]);
    tells(&table, [0, 1], [2, 2], &[1, 2]);
    let all: Vec<u8> = (1..128).collect();
    for exit in 0..4 {
        let [chain, held] = chains(exit);
        tells(&chain, [0, exit], [127, 127], &all);
        tells(&chain, [60, exit], [67, 67], &all[60..]);
        tells(&held, [0, exit], [127, 0], &[]);
        tells(&held, [1, exit], [126, 126], &all[1..]);
    }
}

/// Every small table, with all the strengths that it may have.
#[test]
fn every_small_table() {
    let (mut tables, mut seen) = (0, Seen::default());
    for table in small_tables() {
        every_exit(&table, &mut seen);
        tables += 1;
    }
    assert_eq!(tables, 5184);
    seen.met(400);
}

/// Tables of all sizes with strengths that no history gives, loaded by both programs from images with such bits.
#[test]
fn any_strengths() {
    let mut seen = Seen::default();
    for seed in 2000..2300 {
        let table = Random(seed).sound_table();
        let image = encode(&Random(!seed).other_strengths(&table));
        let (pair, loaded) = Pair::begin(&Start::Load { image }, Fault::None);
        assert_eq!(loaded.unwrap().refusal, 0);
        every_exit(&kept(&pair.proved.lent), &mut seen);
    }
    seen.met(300);
}

/// The tables of histories, every so many calls.
#[test]
fn every_exit_in_histories() {
    let mut seen = Seen::default();
    tables_of_histories(400..436, 300, 20, |table| every_exit(table, &mut seen));
    seen.met(500);
}

/// Any step and exit, with any buffer: 3, 4 and 6 come before 11.
#[test]
fn any_step_and_exit() {
    any_exit(&[0, 1, 126, 127, 128, 65_536 + 126], |step, exit, buffer| Call::PreviewClear {
        step,
        exit,
        buffer,
    });
}

/// Each length up to some, and those at and past 16 bits, where 16 bits would leave nothing of the length, too little and just enough. Fewer than 127
/// bytes get 11, whatever would go, and of more only the first ones are written.
#[test]
fn buffers() {
    let mut refusals = Refusals::default();
    let [chain, held] = chains(3);
    let mut twice = fresh_for_cabin_0(2);
    assert_eq!(add(&mut twice, 0, 0, 1, 0, 0).refusal, 0);
    assert_eq!(link(&mut twice, 0, 0, 0, 1).refusal, 0);
    let places = [
        (&chain, 0, 3, 127),
        (&chain, 126, 3, 1),
        (&held, 0, 3, 0),
        (&held, 0, 0, 0),
        (&ring(&[CONTACT; 5]), 0, 0, 5),
        (&twice, 0, 0, 0),
        (&twice, 0, 1, 0),
    ];
    let long = [65_535, 65_536, 65_537, 65_536 + 126, 65_536 + 127, 131_072, 1_000_000];
    for (table, step, exit, freed) in places {
        for buffer in (0..300).chain(long) {
            let outcome = as_said(table, &Call::PreviewClear { step, exit, buffer });
            assert_eq!(outcome, foretold(&both, table, step, exit, buffer));
            let Outcome { refusal, numbers, lent } = outcome;
            assert_eq!(refusal, if buffer < 127 { 11 } else { 0 });
            let written = if buffer < 127 { 0 } else { freed };
            assert_eq!(numbers[1], written);
            assert!(lent.len() == buffer && lent[written..].iter().all(|&byte| byte == UNTOUCHED));
            assert!(lent[..written].iter().all(|&byte| (1..128).contains(&byte)));
            refusals[usize::from(refusal)] += 1;
        }
    }
    assert!(refusals[0] > 1000 && refusals[11] > 800, "{refusals:?}");
}

/// Damaged tables, most of which are not sound: 1, whatever the exit and the buffer.
#[test]
fn unsound_tables() {
    damaged_tables(2300..2500, |table, is_sound| {
        for (step, exit) in [(0, 0), (0, 3), (1, 0), (127, 1), (128, 4), (65_535, 65_535)] {
            for buffer in [0, 126, 127] {
                let outcome = as_said(table, &Call::PreviewClear { step, exit, buffer });
                assert_eq!(outcome.refusal == 1, !is_sound);
            }
        }
        if is_sound {
            foretold(&both, table, 0, 0, STEPS_ROOM);
        }
    });
}

#[test]
fn a_table_that_nobody_can_write_to() {
    assert_eq!(raw::is_sound(&RING), 1);
    for (step, exit, reply, steps) in [
        (0, 0, [0, 2, 2], &[1, 2][..]),
        (1, 0, [0, 1, 1], &[2]),
        (2, 0, [0, 0, 0], &[]),
        (0, 1, [6, 0, 0], &[]),
        (0, 4, [4, 0, 0], &[]),
        (3, 0, [3, 0, 0], &[]),
    ] {
        for (room, short) in [(127, false), (126, true)] {
            let mut buffer = vec![UNTOUCHED; room];
            let raw::Reply { refusal, first, second } =
                raw::preview_clear(&RING, step, exit, &mut buffer);
            let refused = short && reply[0] == 0;
            assert_eq!([refusal, first, second], if refused { [11, 0, 0] } else { reply });
            let written = if refused { &[] } else { steps };
            assert_eq!(buffer, [written, &vec![UNTOUCHED; room - written.len()]].concat());
        }
    }
}

/// The laws, on tables with these seeds, with other strengths, and in histories.
fn laws_hold(load: Beginner, program: Program, [tables, turned, histories]: [Range<u64>; 3]) {
    let found = laws::previews_foretell(program, tables);
    let [freed, doubtful] = laws::strengths_do_not_matter(load, program, turned);
    let [told, made] = laws::previews_of_histories(program, histories);
    println!("{found:?}, {freed} {doubtful}, {told} {made}");
    assert!(found.iter().all(|&found| found > 100) && freed > 300 && doubtful > 300);
    assert!(told > 200 && made > 30);
}

/// Each call is made by both programs.
#[test]
fn laws_hold_of_both() {
    let load = |start: &Start| {
        let (pair, outcome) = Pair::begin(start, Fault::None);
        (pair.second, outcome.unwrap())
    };
    laws_hold(&load, &both, [1940..2000, 2500..2560, 126..180]);
}

#[test]
fn laws_hold_of_the_proved_library() {
    let load = |start: &Start| {
        let mut lent = Lent::unmade();
        let outcome = begin(&mut lent.lent, start);
        (kept(&lent.lent), outcome)
    };
    laws_hold(&load, &proved, [2600..2700, 2700..2760, 180..252]);
}
