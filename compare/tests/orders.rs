//! Clearings in two orders (W14) through the interface and on the second program, the plain plan held to each: every two filled exits of small tables
//! with all strengths; exits of tables with strengths that no history gives; any step and exit; tables that are not sound; lists of clearings; and the
//! laws, of clearings by key line and with a slip too.

use compare::{both_and_plan, kept, proved, ring, tables_of_histories, Pair};
use reference::calls::{fresh_for_cabin_0, Command};
use reference::faults::Fault;
use reference::generate::{key_text, Random};
use reference::history::{Call, Start};
use reference::image::encode;
use reference::laws::{self, any_order, either_order, Orders, Program};
use reference::plan::plan_of;
use reference::slip::LARGEST_SLIP;
use reference::sound::{sound, CONTACT};
use reference::table::{place, Table};
use std::ops::Range;

/// Makes a call on a table, which has to answer these numbers.
#[track_caller]
fn answers(table: &mut Table, command: Command, refusal: u16, numbers: [usize; 2]) {
    let outcome = both_and_plan(table, &Call::Edit(command));
    assert_eq!((outcome.refusal, &outcome.numbers[..]), (refusal, &numbers[..]), "{command:?}");
}

/// A table of this capacity with a contact added at each of these exits, and these links copied.
fn built(capacity: u16, adds: &[[u16; 2]], links: &[[u16; 4]]) -> Table {
    let mut table = fresh_for_cabin_0(capacity);
    for (number, &[holder, exit]) in (1..).zip(adds) {
        let add = Command::Add { holder, exit, kind: CONTACT, content: 0, cabin: 0 };
        answers(&mut table, add, 0, [number, 0]);
    }
    for &[source, source_exit, second, second_exit] in links {
        let link = Command::Link { source, source_exit, second, second_exit };
        answers(&mut table, link, 0, [0, 0]);
    }
    table
}

/// The table after two clearings, each given by its step and exit, with its refusal and counts.
#[track_caller]
fn cleared(table: &Table, clearings: [([u16; 2], u16, [usize; 2]); 2]) -> Table {
    let mut table = table.clone();
    for ([step, exit], refusal, counts) in clearings {
        answers(&mut table, Command::Clear { step, exit }, refusal, counts);
    }
    table
}

/// Two exits of step 0: the plan is the same in both orders; the doubtful counts add up to 3 and to 4, and exit 0 of step 2 is weak or strong.
#[test]
fn one_plan_with_other_strengths() {
    let links = [[0, 0, 0, 2], [0, 1, 1, 1], [1, 0, 2, 0]];
    let table = built(4, &[[0, 0], [0, 1], [1, 0]], &links);
    let one = cleared(&table, [([0, 0], 0, [2, 0]), ([0, 1], 0, [1, 0])]);
    let other = cleared(&table, [([0, 1], 0, [1, 0]), ([0, 0], 0, [3, 0])]);
    assert_eq!(plan_of(&one), plan_of(&other));
    let exits = [(0, 2), (1, 0), (1, 1), (2, 0)];
    assert_eq!(exits.map(|(step, exit)| one.target(step, exit)), [1, 3, 2, 3]);
    for (table, own, bits, strong) in
        [(one, [1, 1, 1], [1, 1, 1, 0], &exits[..3]), (other, [1, 0, 1], [1, 1, 0, 1], &exits[..])]
    {
        assert_eq!((table.filled(), table.strong_exits()), (exits.to_vec(), strong.to_vec()));
        assert_eq!(table.own[1..4], own);
        assert_eq!(exits.map(|(step, exit)| table.bits[place(step.into(), exit.into())]), bits);
    }
}

/// A chain: step 1 goes, and with it the second exit and step 2; or that exit is cleared first, and the steps go one by one. Cleared again, it gets 6.
#[test]
fn the_step_of_the_second_exit_is_freed() {
    let chain = built(3, &[[0, 0], [1, 0]], &[]);
    let one = cleared(&chain, [([0, 0], 0, [2, 2]), ([1, 0], 3, [0, 0])]);
    let other = cleared(&chain, [([1, 0], 0, [1, 1]), ([0, 0], 0, [1, 1])]);
    assert_eq!((&one, &one), (&other, &Table { last: 2, ..fresh_for_cabin_0(3) }));
    cleared(&chain, [([1, 0], 0, [1, 1]), ([1, 0], 6, [0, 0])]);
}

#[test]
fn pairs_of_small_tables() {
    let met = laws::pairs_of_small_tables(&both_and_plan);
    println!("{met:?}");
    assert!(met.one_step > 5000 && met.holder_freed > 5000 && met.other_doubtful > 5000);
}

/// Up to so many of a table's filled exits, in any order.
fn some_exits(table: &Table, random: &mut Random, most: usize) -> Vec<(u16, u16)> {
    let mut exits = table.filled();
    random.shuffle(&mut exits);
    exits.truncate(most);
    exits
}

/// Tables of all sizes with strengths that no history gives, loaded by both programs from images with such bits.
#[test]
fn any_strengths() {
    let mut met = Orders::default();
    for seed in 2800..3000 {
        let mut random = Random(!seed);
        let image = encode(&random.other_strengths(&Random(seed).sound_table()));
        let (pair, loaded) = Pair::begin(&Start::Load { image }, Fault::None);
        assert_eq!(loaded.unwrap().refusal, 0);
        let table = kept(&pair.proved.lent);
        let mut exits = some_exits(&table, &mut random, 10);
        exits.push(random.place(&plan_of(&table), false));
        either_order(&both_and_plan, &table, &exits, &mut met);
    }
    met.came_up(100);
}

/// The tables of histories, every so many calls: pairs of clearings, and lists that clear all filled exits.
#[test]
fn in_histories() {
    let (mut met, mut random) = (Orders::default(), Random(14));
    let [mut doubtful, mut holder_freed, mut empty] = [0; 3];
    tables_of_histories(436..454, 300, 15, |table| {
        either_order(&both_and_plan, table, &some_exits(table, &mut random, 10), &mut met);
        let found = any_order(&both_and_plan, table, &table.filled(), &mut random);
        assert_eq!(found[..2], [0, 0], "step 0 alone is left");
        doubtful += found[2];
        holder_freed += found[3];
        empty += found[4];
    });
    println!("{met:?}, {doubtful} {holder_freed} {empty}");
    assert!(met.two_steps > 5000 && met.one_step > 500 && met.holder_freed > 500);
    assert!(met.other_tables > 100 && met.other_strengths > 50 && met.other_doubtful > 500);
    assert!(doubtful > 200 && holder_freed > 10_000 && empty > 1000);
}

/// Any step and exit, at and past the ends of ranges, with any other.
#[test]
fn any_step_and_exit() {
    let steps = [0, 1, 2, 5, 6, 127, 128, 255, 256, 65_535];
    let exits = [0, 1, 2, 3, 4, 255, 256, 65_535];
    let places: Vec<(u16, u16)> =
        steps.into_iter().flat_map(|step| exits.map(|exit| (step, exit))).collect();
    let mut met = Orders::default();
    for table in [fresh_for_cabin_0(1), ring(&[CONTACT; 5]), Random(5).sound_table()] {
        either_order(&both_and_plan, &table, &places, &mut met);
    }
    met.came_up(4);
    assert!(met.refused > 5000);
}

/// Damaged tables, most of which are not sound: all clearings get 1 in any order, and nothing changes.
#[test]
fn unsound_tables() {
    let mut random = Random(97);
    let mut found = [0; 2];
    let places = [(0, 0), (0, 3), (1, 0), (127, 1), (128, 4), (65_535, 65_535)];
    for seed in 3000..3400 {
        let mut table = Random(seed).sound_table();
        for _ in 0..1 + random.below(2) {
            random.damage(&mut table);
        }
        let mut met = Orders::default();
        either_order(&both_and_plan, &table, &places, &mut met);
        let lists = any_order(&both_and_plan, &table, &places, &mut random);
        let is_sound = sound(&table);
        assert!(is_sound || (met.refused, lists) == (21, [0; 5]), "{met:?} {lists:?}");
        found[usize::from(is_sound)] += 1;
    }
    assert!(found[0] > 300 && found[1] > 40, "{found:?}");
}

/// The laws, on tables with these seeds.
fn laws_hold(program: Program, pairs: Range<u64>, lists: Range<u64>) {
    laws::pairs_in_either_order(program, pairs).came_up(50);
    let met = laws::lists_in_any_order(program, lists);
    println!("{met:?}");
    assert!(met.iter().all(|&met| met > 15));
}

/// Each call is made by both programs and by the plan.
#[test]
fn laws_hold_of_both() {
    laws_hold(&both_and_plan, 3400..3500, 3500..3700);
}

#[test]
fn laws_hold_of_the_proved_library() {
    laws_hold(&proved, 3700..3900, 3900..4300);
    laws::pairs_in_histories(&proved, 252..288).came_up(100);
}

/// Two mechanics at the keys, and two who keep slips.
#[test]
fn by_key_line_and_with_a_slip() {
    let by_key_line = |table: &mut Table, call: &Call| {
        let Call::Edit(command) = *call else { unreachable!() };
        both_and_plan(table, &Call::KeyLine(key_text(command)))
    };
    let with_slip = |table: &mut Table, call: &Call| {
        let Call::Edit(Command::Clear { step, exit }) = *call else { unreachable!() };
        both_and_plan(table, &Call::ClearWithSlip { step, exit, buffer: LARGEST_SLIP })
    };
    for program in [&by_key_line as Program, &with_slip] {
        let mut met = Orders::default();
        for seed in 4300..4360 {
            let table = Random(seed).sound_table();
            let exits = some_exits(&table, &mut Random(!seed), 8);
            either_order(program, &table, &exits, &mut met);
        }
        println!("{met:?}");
        assert!(met.two_steps > 1000 && met.one_step > 50 && met.holder_freed > 15);
        assert!(met.other_tables > 30 && met.other_strengths > 20 && met.other_doubtful > 30);
    }
}
