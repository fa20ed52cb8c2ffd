//! Prints the numbers: times as median and best of many passes, all measured in this process but those of the program `keys`, then stack and size.
//! (a) is the proved library through its interface, (b) `counted`, (c) `marked`, (d) `tuned`, `convert` and `slip`. Before anything is timed, (b), (c) and
//! (d) are held to (a) after every edit and in who can be rung, the soundness tests of (b) and (d) on damaged tables, their previews, and the trials,
//! conversions and slips of (d). With the word `edits`, it prints the edits that `versions` reads, and nothing else.

mod clock;
mod convert;
mod counted;
mod keys;
mod marked;
mod quotas;
mod slip;
mod tuned;

use compare::stack::depth;
use compare::{kept, lend, lend_list, ring, rounds, words, WORDS};
use reference::cabins::{list, one_cabin};
use reference::calls::Command;
use reference::convert::Way;
use reference::generate::{caretakers_plan, key_text, Random};
use reference::history::Call;
use reference::image::{encode, in_edition_1, records};
use reference::plan::Plan;
use reference::sound::{CONTACT, WAIT};
use reference::table::Quotas;
use std::fmt::Debug;
use std::hint::black_box;
use telephone::raw::{self, Table};
use telephone::sole_quotas;

const EDITS: usize = 10_000;
const PASSES: usize = 41;

/// Edits that are all accepted, from a fresh table of capacity 128 with this list. A dense plan keeps most exits filled, a sparse one has few links
/// beside those that hold its steps. Without rings, a link that would close one is not made.
fn edits(seed: u64, quotas: Quotas, dense: bool, rings: bool) -> Vec<Command> {
    let mut random = Random(seed);
    let mut plan = Plan::fresh(128, quotas).expect("a good list");
    let goal = if dense { 340 } else { 12 };
    let mut made = Vec::new();
    while made.len() < EDITS {
        let (filled, empty) = places(&plan);
        let extra = filled.len() + 1 - plan.steps.len();
        let command = if plan.steps.len() < 128 && !random.once_in(3) {
            let (holder, exit) = random.pick(&empty);
            let content = 1 + random.below(600) as u16;
            let cabins: Vec<u16> = (0..8).filter(|&cabin| plan.room(cabin).is_ok()).collect();
            let cabin = if let [one] = cabins[..] { one } else { random.pick(&cabins) };
            Command::Add { holder, exit, kind: 3, content, cabin }
        } else if extra < goal && !filled.is_empty() && !empty.is_empty() && !random.once_in(3) {
            let (source, source_exit) = random.pick(&filled);
            let (second, second_exit) = random.pick(&empty);
            let target = plan.steps[&source].targets[usize::from(source_exit)];
            if !rings && reaches(&plan, target, second) {
                continue;
            }
            Command::Link { source, source_exit, second, second_exit }
        } else if !filled.is_empty() {
            let (step, exit) = random.pick(&filled);
            Command::Clear { step, exit }
        } else {
            continue;
        };
        plan.draw(&Call::Edit(command), false).expect("an edit that suits the plan");
        made.push(command);
    }
    made
}

/// Steps and exits.
type Places = Vec<(u16, u16)>;

/// The exits of a plan that hold a link, and those that are empty.
fn places(plan: &Plan) -> (Places, Places) {
    let exits =
        plan.steps.iter().flat_map(|(&number, step)| (0..4).map(move |exit| (number, exit, step)));
    let (filled, empty): (Vec<_>, Vec<_>) =
        exits.partition(|(_, exit, step)| step.targets[usize::from(*exit)] != 0);
    let strip =
        |list: Vec<(u16, u16, _)>| list.into_iter().map(|(step, exit, _)| (step, exit)).collect();
    (strip(filled), strip(empty))
}

/// Whether a chain of targets leads from one step to another.
fn reaches(plan: &Plan, from: u16, to: u16) -> bool {
    let mut seen = [false; 128];
    let mut waiting = vec![from];
    while let Some(step) = waiting.pop() {
        if step == to {
            return true;
        }
        if !std::mem::replace(&mut seen[usize::from(step)], true) {
            waiting.extend(plan.steps[&step].targets.iter().filter(|&&target| target != 0));
        }
    }
    false
}

fn fresh(quotas: &raw::Quotas) -> Table {
    let mut table = Table::ZERO;
    assert_eq!(raw::fresh(&mut table, 128, quotas).refusal, 0);
    table
}

/// A fresh table that cabin 0 has to itself.
fn sole() -> Table {
    fresh(&sole_quotas(128))
}

/// The answer to an edit: the refusal, or two numbers.
type Answer = Result<(u16, u16), u16>;

/// An edit by (a).
fn proved_edit(table: &mut Table, edit: Command) -> Answer {
    let reply = match edit {
        Command::Add { holder, exit, kind, content, cabin } => {
            raw::add(table, holder, exit, kind, content, cabin)
        }
        Command::Link { source, source_exit, second, second_exit } => {
            raw::link(table, source, source_exit, second, second_exit)
        }
        Command::Clear { step, exit } => raw::clear(table, step, exit),
        Command::Count => raw::counts(table),
    };
    answer(reply)
}

/// The answer that a reply says.
fn answer(reply: raw::Reply) -> Answer {
    match reply.refusal {
        0 => Ok((reply.first, reply.second)),
        refusal => Err(refusal),
    }
}

/// An edit by (b).
fn counted_edit(table: &mut Table, edit: Command) -> Answer {
    match edit {
        Command::Add { holder, exit, kind, content, cabin } => {
            counted::add(table, holder, exit, kind, content, cabin).map(|number| (number, 0))
        }
        Command::Link { source, source_exit, second, second_exit } => {
            counted::link(table, source, source_exit, second, second_exit).map(|()| (0, 0))
        }
        Command::Clear { step, exit } => counted::clear(table, step, exit),
        Command::Count => unreachable!(),
    }
}

/// An edit by (c), which gives no doubtful count.
fn marked_edit(plan: &mut marked::Plan, edit: Command) -> Answer {
    match edit {
        Command::Add { holder, exit, kind, content, cabin } => {
            plan.add(holder, exit, kind, content, cabin).map(|number| (number, 0))
        }
        Command::Link { source, source_exit, second, second_exit } => {
            plan.link(source, source_exit, second, second_exit).map(|()| (0, 0))
        }
        Command::Clear { step, exit } => plan.clear(step, exit).map(|freed| (0, freed)),
        Command::Count => unreachable!(),
    }
}

/// An edit by (d).
fn tuned_edit(table: &mut Table, edit: Command) -> Answer {
    match edit {
        Command::Add { holder, exit, kind, content, cabin } => {
            tuned::add(table, holder, exit, kind, content, cabin).map(|number| (number, 0))
        }
        Command::Link { source, source_exit, second, second_exit } => {
            tuned::link(table, source, source_exit, second, second_exit).map(|()| (0, 0))
        }
        Command::Clear { step, exit } => tuned::clear(table, step, exit),
        Command::Count => tuned::counts(table),
    }
}

/// All edits, one after the other; gives a sum of the answers.
#[inline(always)]
fn all<T>(mut table: T, edits: &[Command], edit: impl Fn(&mut T, Command) -> Answer) -> (T, u64) {
    let mut sum = 0;
    for &each in edits {
        let (first, second) = edit(&mut table, each).unwrap();
        sum += u64::from(first) * 1000 + u64::from(second);
    }
    (table, sum)
}

/// A table in (a), (b) and (d), and its plan in (c). Each call is held to (a): its answer, and the table or plan after it.
struct Four {
    a: Table,
    b: Table,
    c: marked::Plan,
    d: Table,
}

impl Four {
    fn new(table: &Table) -> Four {
        let [a, b, d] = [table.clone(), table.clone(), table.clone()];
        Four { a, b, c: marked::Plan::of(table), d }
    }

    /// Makes an edit by all four. Gives the answer of (a).
    fn edit(&mut self, edit: Command) -> Answer {
        let [a, b, d] = [
            proved_edit(&mut self.a, edit),
            counted_edit(&mut self.b, edit),
            tuned_edit(&mut self.d, edit),
        ];
        let plain = a.map(|(first, second)| match edit {
            Command::Clear { .. } => (0, second),
            _ => (first, second),
        });
        assert!(marked_edit(&mut self.c, edit) == plain, "(c) differs: {edit:?}");
        self.agree(&edit, [a, b, d])
    }

    /// Squeezes the table by all four. Gives the answer of (a).
    fn squeeze(&mut self, capacity: u16, quotas: &raw::Quotas) -> Answer {
        let [a, b, d] = [
            answer(raw::squeeze(&mut self.a, capacity, quotas)),
            bare(counted::squeeze(&mut self.b, capacity, quotas)),
            bare(tuned::squeeze(&mut self.d, capacity, quotas)),
        ];
        let made = (capacity, quotas);
        assert!(bare(self.c.squeeze(capacity, quotas)) == a, "(c) differs: {made:?}");
        self.agree(&made, [a, b, d])
    }

    /// Holds the answers of (b) and (d), both tables and the plan to those of (a).
    fn agree(&self, made: &dyn Debug, [a, b, d]: [Answer; 3]) -> Answer {
        assert!(b == a && self.b == self.a, "(b) differs: {made:?}");
        assert!(d == a && self.d == self.a, "(d) differs: {made:?}");
        assert!(self.c.agrees(&marked::Plan::of(&self.a)), "(c) has another plan: {made:?}");
        a
    }
}

/// The answer of a squeeze.
fn bare(squeezed: Result<(), u16>) -> Answer {
    squeezed.map(|()| (0, 0))
}

/// Makes all edits by all four, which have to agree. Gives the table after the last one.
fn agree(mix: &Mix) -> Table {
    let mut four = Four::new(&mix.start());
    for &edit in &mix.edits {
        assert!(four.edit(edit).is_ok(), "refused: {edit:?}");
    }
    four.a
}

/// Holds the soundness tests of (b) and (d) to that of (a) on one table; gives the verdict.
fn verdict(table: &Table) -> bool {
    let sound = raw::is_sound(table) == 1;
    assert!(counted::sound(table) == sound && tuned::sound(table) == sound, "{table:?}");
    sound
}

/// Damaged tables: some fields at odd values; then every word of a table, one at a time, at each of a few. Gives how many were sound and how many
/// were not.
fn verdicts() -> (usize, usize) {
    let (mut random, mut found) = (Random(5), (0, 0));
    let mut note = |table: &Table| *if verdict(table) { &mut found.0 } else { &mut found.1 } += 1;
    for seed in 0..30_000 {
        let mut table = Random(seed).sound_table();
        for _ in 0..seed % 4 {
            random.damage(&mut table);
        }
        note(&lend(&table));
    }
    for seed in 0..3 {
        let sound = Random(seed).sound_table();
        for at in 0..WORDS {
            for value in [0, 1, 2, 3, 7, 8, 127, 128, 255, 256, 999, 1000, 1024, 32768, 65535] {
                let mut table = sound.clone();
                *words(&mut table).nth(at).expect("a word of the table") = value;
                note(&lend(&table));
            }
        }
    }
    found
}

/// Nanoseconds of one run of a function, over so many runs.
fn nanoseconds(runs: usize, mut function: impl FnMut()) -> f64 {
    let start = clock::this_thread();
    for _ in 0..runs {
        function();
    }
    (clock::this_thread() - start) / runs as f64
}

/// The times of a function, one for each pass. Printed are the median and the best.
#[derive(Clone)]
struct Times(Vec<f64>);

impl Times {
    fn median(&self) -> f64 {
        let mut times = self.0.clone();
        times.sort_by(f64::total_cmp);
        times[times.len() / 2]
    }

    fn best(&self) -> f64 {
        self.0.iter().copied().fold(f64::INFINITY, f64::min)
    }

    /// Each of so many.
    fn each(&self, number: usize) -> Times {
        Times(self.0.iter().map(|time| time / number as f64).collect())
    }

    /// The median of the ratios to another function's times in the same passes.
    fn by(&self, other: &Times) -> f64 {
        Times(self.0.iter().zip(&other.0).map(|(time, other)| time / other).collect()).median()
    }
}

impl std::fmt::Display for Times {
    fn fmt(&self, f: &mut std::fmt::Formatter<'_>) -> std::fmt::Result {
        write!(f, "{:5.0} {:5.0}", self.median(), self.best())
    }
}

/// Times of several functions, taken in turn in every pass.
fn passes<const N: usize>(runs: usize, mut functions: [&mut dyn FnMut(); N]) -> [Times; N] {
    let mut times = std::array::from_fn(|_| Times(Vec::new()));
    for _ in 0..PASSES {
        for (list, function) in times.iter_mut().zip(functions.iter_mut()) {
            list.0.push(nanoseconds(runs, &mut **function));
        }
    }
    times
}

/// Prints a row: times, then the ratios of the first to each of the others: the median over the passes, and that of the best times.
fn row(name: &str, times: &[Times]) {
    print!("{name:38}");
    for time in times {
        print!("  {time}");
    }
    for other in &times[1..] {
        print!("  {:6.2} {:6.2}", times[0].by(other), times[0].best() / other.best());
    }
    println!();
}

/// Prints the head of the rows below it.
fn head(name: &str, programs: &[&str]) {
    print!("\n{name:38}");
    for program in programs {
        print!("  {program:>11}");
    }
    for program in &programs[1..] {
        print!("  {:>13}", format!("(a)/{program}"));
    }
    println!();
}

/// The edits by all four.
fn edit_row(mix: &Mix) {
    let (start, edits) = (mix.start(), &mix.edits[..]);
    let plan = marked::Plan::of(&start);
    let times = passes(
        1,
        [
            &mut || {
                black_box(all(start.clone(), black_box(edits), proved_edit));
            },
            &mut || {
                black_box(all(start.clone(), black_box(edits), counted_edit));
            },
            &mut || {
                black_box(all(plan.clone(), black_box(edits), marked_edit));
            },
            &mut || {
                black_box(all(start.clone(), black_box(edits), tuned_edit));
            },
        ],
    );
    row(mix.name, &times.map(|time| time.each(EDITS)));
}

/// The soundness test of one table by (a), (b) and (d). Gives the times of (a).
fn test_row(name: &str, table: &Table) -> Times {
    let times = passes(
        500,
        [
            &mut || {
                black_box(raw::is_sound(black_box(table)));
            },
            &mut || {
                black_box(counted::sound(black_box(table)));
            },
            &mut || {
                black_box(tuned::sound(black_box(table)));
            },
        ],
    );
    row(name, &times);
    times[0].clone()
}

/// A call on a copy that is made first.
#[inline(always)]
fn on_copy<T: Clone>(copy: &mut T, from: &T, mut call: impl FnMut(&mut T) -> Answer) {
    copy.clone_from(black_box(from));
    black_box(call(copy)).unwrap();
}

/// A call on one table by all four, each on a copy that is made first. Gives the times of (a).
fn call_row(
    name: &str,
    table: &Table,
    a_call: impl Fn(&mut Table) -> Answer,
    b_call: impl Fn(&mut Table) -> Answer,
    c_call: impl Fn(&mut marked::Plan) -> Answer,
    d_call: impl Fn(&mut Table) -> Answer,
) -> Times {
    let plan = marked::Plan::of(table);
    let (mut a, mut b, mut c, mut d) = (table.clone(), table.clone(), plan.clone(), table.clone());
    let times = passes(
        500,
        [
            &mut || on_copy(&mut a, table, &a_call),
            &mut || on_copy(&mut b, table, &b_call),
            &mut || on_copy(&mut c, &plan, &c_call),
            &mut || on_copy(&mut d, table, &d_call),
        ],
    );
    assert!(a == b && a == d && c.agrees(&marked::Plan::of(&a)), "{name}");
    row(name, &times);
    times[0].clone()
}

/// Clearing exit 0 of step 0 by all four. It has to give these counts. Gives the times of (a).
fn clear_row(name: &str, table: &Table, counts: (u16, u16)) -> Times {
    let edit = Command::Clear { step: 0, exit: 0 };
    assert_eq!(proved_edit(&mut table.clone(), edit), Ok(counts), "{name}");
    call_row(
        name,
        table,
        |t| proved_edit(t, edit),
        |t| counted_edit(t, edit),
        |plan| marked_edit(plan, edit),
        |t| tuned_edit(t, edit),
    )
}

/// A squeeze of a table of cabin 0 into as many places as there are steps in use, by all four.
fn squeeze_row(name: &str, table: &Table) {
    let capacity = raw::counts(table).first;
    let quotas = sole_quotas(capacity);
    assert_eq!(Four::new(table).squeeze(capacity, &quotas), Ok((0, 0)), "{name}");
    call_row(
        name,
        table,
        |t| answer(raw::squeeze(t, capacity, &quotas)),
        |t| bare(counted::squeeze(t, capacity, &quotas)),
        |plan| bare(plan.squeeze(capacity, &quotas)),
        |t| bare(tuned::squeeze(t, capacity, &quotas)),
    );
}

/// Makes a trial by (a) and (d), and holds the answer and the trace to those of (a). Gives the answer.
fn trial(table: &Table, limit: u16, results: &[u8], room: usize) -> Result<[u16; 3], u16> {
    let (mut a, mut d) = (vec![0; room], vec![0; room]);
    let answer = proved_trial(table, limit, results, &mut a);
    assert_eq!(tuned::trial(table, limit, results, &mut d), answer, "(d) differs: {limit}");
    assert!(a == d, "(d) has another trace: {limit}");
    answer
}

fn proved_trial(
    table: &Table,
    limit: u16,
    results: &[u8],
    trace: &mut [u8],
) -> Result<[u16; 3], u16> {
    match raw::trial(table, limit, results, trace) {
        raw::TrialReply { refusal: 0, ending, last, moves } => Ok([ending, last, moves]),
        reply => Err(reply.refusal),
    }
}

/// A trial of 65535 moves by (a) and (d), in microseconds, round a ring of 127 steps of one kind.
fn trial_row(name: &str, kind: u16) {
    let kinds = [kind; 127];
    let (table, results) = (lend(&ring(&kinds)), rounds(&kinds, 65535));
    let mut trace = vec![0; 65535];
    let answer = trial(&table, 65535, &results, trace.len()).expect("a trial");
    assert_eq!(answer[2], 65535, "{name}");
    let mut other = trace.clone();
    let times = passes(
        10,
        [
            &mut || {
                black_box(proved_trial(black_box(&table), 65535, &results, &mut trace)).unwrap();
            },
            &mut || {
                black_box(tuned::trial(black_box(&table), 65535, &results, &mut other)).unwrap();
            },
        ],
    );
    row(name, &times.map(|time| time.each(1000)));
}

/// Clears an exit with a slip by (a) and (d), and holds the answer, the table and the buffer to those of (a). Gives the answer, the table and the slip.
fn cleared_with_slip(table: &Table, step: u16, exit: u16, room: usize) -> (Answer, Table, Vec<u8>) {
    let (mut a, mut d) = (table.clone(), table.clone());
    let (mut lent, mut other) = (vec![0xEE; room], vec![0xEE; room]);
    let reply = answer(raw::clear_with_slip(&mut a, step, exit, &mut lent));
    assert_eq!(slip::clear(&mut d, step, exit, &mut other), reply, "(d) differs: {step} {exit}");
    assert!(a == d && lent == other, "(d) has another table or other bytes: {step} {exit}");
    let length = reply.map_or(0, |(doubtful, _)| 50 + 44 * usize::from(doubtful));
    lent.truncate(length);
    (reply, a, lent)
}

/// Takes back a slip by (a) and (d), and holds the answer and the table to those of (a). Gives the answer.
fn taken_back(table: &Table, slip: &[u8]) -> Answer {
    let (mut a, mut d) = (table.clone(), table.clone());
    let reply = answer(raw::take_back(&mut a, slip));
    assert_eq!(slip::take_back(&mut d, slip).map(|back| (back, 0)), reply, "(d) differs: {slip:?}");
    assert!(a == d, "(d) has another table: {slip:?}");
    reply
}

/// A call on copies of one table, by (a) and (d). Gives the times of (a).
fn copy_row(
    name: &str,
    table: &Table,
    mut a_call: impl FnMut(&mut Table) -> Answer,
    mut d_call: impl FnMut(&mut Table) -> Answer,
) -> Times {
    let (mut a, mut d) = (table.clone(), table.clone());
    let times = passes(
        500,
        [&mut || on_copy(&mut a, table, &mut a_call), &mut || on_copy(&mut d, table, &mut d_call)],
    );
    row(name, &times);
    times[0].clone()
}

/// Clearing exit 0 of step 0 with a slip, by (a) and (d). Gives the times of (a).
fn slip_row(name: &str, table: &Table) -> Times {
    assert!(cleared_with_slip(table, 0, 0, telephone::SLIP_MAX).0.is_ok(), "{name}");
    let mut buffer = [0; telephone::SLIP_MAX];
    let mut other = buffer;
    copy_row(
        name,
        table,
        |t| answer(raw::clear_with_slip(t, 0, 0, &mut buffer)),
        |t| slip::clear(t, 0, 0, &mut other),
    )
}

/// Taking that back by (a) and (d).
fn back_row(name: &str, table: &Table) {
    let (_, cleared, slip) = cleared_with_slip(table, 0, 0, telephone::SLIP_MAX);
    assert!(taken_back(&cleared, &slip).is_ok(), "{name}");
    copy_row(
        name,
        &cleared,
        |t| answer(raw::take_back(t, black_box(&slip))),
        |t| slip::take_back(t, black_box(&slip)).map(|back| (back, 0)),
    );
}

/// Asks by (a), (b) and (d) what clearing an exit would free, and holds the answer and the buffer to those of (a). Gives the answer.
fn previewed(table: &Table, step: u16, exit: u16, room: usize) -> Answer {
    let mut a = vec![0xEE; room];
    let (mut b, mut d) = (a.clone(), a.clone());
    let reply = answer(raw::preview_clear(table, step, exit, &mut a));
    assert_eq!(counted::preview(table, step, exit, &mut b), reply, "(b) differs");
    assert_eq!(tuned::preview(table, step, exit, &mut d), reply, "(d) differs");
    assert!(a == b && a == d, "(b) or (d) has other bytes: {step} {exit}");
    reply
}

/// Asking what clearing exit 0 of step 0 would free, by (a), (b) and (d). It has to give these counts. Gives the times of (a).
fn preview_row(name: &str, table: &Table, counts: (u16, u16)) -> Times {
    assert_eq!(previewed(table, 0, 0, telephone::STEPS_ROOM), Ok(counts), "{name}");
    let mut a = [0; telephone::STEPS_ROOM];
    let (mut b, mut d) = (a, a);
    let times = passes(
        500,
        [
            &mut || {
                black_box(answer(raw::preview_clear(black_box(table), 0, 0, &mut a))).unwrap();
            },
            &mut || {
                black_box(counted::preview(black_box(table), 0, 0, &mut b)).unwrap();
            },
            &mut || {
                black_box(tuned::preview(black_box(table), 0, 0, &mut d)).unwrap();
            },
        ],
    );
    row(name, &times);
    times[0].clone()
}

/// Asks by all four who can be rung, and holds the answer and the buffer to those of (a). Gives the answer. (c) makes no soundness test, so it is left out
/// where (a) says that the table is not sound.
fn told_rung(table: &Table, room: usize) -> Answer {
    let mut a = vec![0xEE; room];
    let (mut b, mut c, mut d) = (a.clone(), a.clone(), a.clone());
    let reply = answer(raw::rung(table, &mut a));
    assert_eq!(counted::rung(table, &mut b), reply, "(b) differs");
    assert_eq!(tuned::rung(table, &mut d), reply, "(d) differs");
    if reply != Err(1) {
        assert_eq!(marked::Plan::of(table).rung(&mut c), reply, "(c) differs");
    }
    assert!(a == b && a == c && a == d, "(b), (c) or (d) has other bytes");
    reply
}

/// Asking who can be rung, by all four. It has to give these counts.
fn rung_row(name: &str, table: &Table, counts: (u16, u16)) {
    assert_eq!(told_rung(table, telephone::STEPS_ROOM), Ok(counts), "{name}");
    let plan = marked::Plan::of(table);
    let mut a = [0; telephone::STEPS_ROOM];
    let (mut b, mut c, mut d) = (a, a, a);
    let times = passes(
        500,
        [
            &mut || {
                black_box(answer(raw::rung(black_box(table), &mut a))).unwrap();
            },
            &mut || {
                black_box(counted::rung(black_box(table), &mut b)).unwrap();
            },
            &mut || {
                black_box(black_box(&plan).rung(&mut c)).unwrap();
            },
            &mut || {
                black_box(tuned::rung(black_box(table), &mut d)).unwrap();
            },
        ],
    );
    row(name, &times);
}

/// A conversion by (a).
fn proved_conversion(way: Way, image: &[u8], buffer: &mut [u8]) -> Result<u16, u16> {
    let reply = match way {
        Way::Up => raw::convert_up(image, buffer),
        Way::Down => raw::convert_down(image, buffer),
    };
    match reply.refusal {
        0 => Ok(reply.length),
        refusal => Err(refusal),
    }
}

/// A conversion by (d).
fn tuned_conversion(way: Way, image: &[u8], buffer: &mut [u8]) -> Result<u16, u16> {
    match way {
        Way::Up => convert::up(image, buffer),
        Way::Down => convert::down(image, buffer),
    }
}

/// Converts an image by (a) and (d), and holds the answer and the buffer to those of (a). Gives the answer.
fn conversion(way: Way, image: &[u8], room: usize) -> Result<u16, u16> {
    let (mut a, mut d) = (vec![0xEE; room], vec![0xEE; room]);
    let answer = proved_conversion(way, image, &mut a);
    assert_eq!(tuned_conversion(way, image, &mut d), answer, "(d) differs: {way:?} {image:?}");
    assert!(a == d, "(d) has other bytes: {way:?} {image:?}");
    answer
}

/// Converting a table's image, with its records in ascending or descending order, by (a) and (d).
fn conversion_rows(name: &str, table: &Table, descending: bool) {
    for (way, image) in timed_images(table, descending) {
        let mut buffer = [0; telephone::IMAGE_MAX];
        let mut other = buffer;
        assert!(conversion(way, &image, buffer.len()).is_ok(), "{name}");
        let times = passes(
            500,
            [
                &mut || {
                    black_box(proved_conversion(way, black_box(&image), &mut buffer)).unwrap();
                },
                &mut || {
                    black_box(tuned_conversion(way, black_box(&image), &mut other)).unwrap();
                },
            ],
        );
        let way = if way == Way::Up { "up" } else { "down" };
        row(&format!("{way}, {name}"), &times);
    }
}

/// The images of a table that are converted up and down.
fn timed_images(table: &Table, descending: bool) -> [(Way, Vec<u8>); 2] {
    let image = encode(&kept(table));
    [(Way::Up, in_edition_1(&image)), (Way::Down, image)].map(|(way, image)| {
        let mut records = records(&image);
        if descending {
            records[1..].reverse();
        }
        (way, records.concat())
    })
}

/// What holds the first step of a chain beside the link that is cleared, and what stands in the exits that the chain leaves empty.
#[derive(Clone, Copy)]
enum Chain {
    /// Nothing: all steps are freed.
    Free,
    /// A weak link from step 0: all steps are taken back, in the chain's order.
    Held,
    /// The same, and weak links in all other exits of the steps.
    Dense,
}

/// A table whose steps stand in one chain in this order, from exit 0 to exit 0.
fn chain(order: impl IntoIterator<Item = u16>, how: Chain) -> Table {
    let mut table = kept(&sole());
    let mut exit = 0;
    for step in order {
        let place = usize::from(step);
        (table.used[place], table.kinds[place]) = (1, 1);
        table.targets[exit] = step;
        exit = place * 4;
    }
    if !matches!(how, Chain::Free) {
        (table.targets[1], table.bits[1]) = (table.targets[0], 1);
    }
    if matches!(how, Chain::Dense) {
        let used = table.used;
        let steps: Vec<usize> = (1..128).filter(|&step| used[step] == 1).collect();
        for place in (4..512).filter(|place| place % 4 != 0 && used[place / 4] == 1) {
            let target = steps[(place / 4 * 37 + place % 4 * 41) % steps.len()];
            (table.targets[place], table.bits[place]) = (target as u16, 1);
        }
    }
    table.counts = table.counted();
    let table = lend(&table);
    assert!(verdict(&table));
    table
}

/// The order in which the lowest and the highest step left take turns: 1, 127, 2, 126 and so on.
fn zigzag() -> impl Iterator<Item = u16> {
    (0..127).map(|i| if i % 2 == 0 { 1 + i / 2 } else { 127 - i / 2 })
}

/// Bytes of stack that a call on a table takes, without the table.
fn stack(table: &Table, mut call: impl FnMut(&mut Table) -> raw::Reply) -> usize {
    let mut table = table.clone();
    let mut reply = None;
    let bytes = depth(|| reply = Some(call(&mut table)));
    assert_eq!(black_box(reply).expect("a reply").refusal, 0);
    bytes
}

/// Edits that are timed, from a fresh table with this list.
struct Mix {
    name: &'static str,
    quotas: Quotas,
    edits: Vec<Command>,
}

impl Mix {
    fn new(name: &'static str, quotas: Quotas, dense: bool, rings: bool) -> Mix {
        Mix { name, quotas, edits: edits(1, quotas, dense, rings) }
    }

    fn start(&self) -> Table {
        fresh(&lend_list(&self.quotas))
    }
}

/// The mixes of cabin 0, which has the table to itself.
fn sole_mixes() -> [Mix; 4] {
    let mix = |name, dense, rings| Mix::new(name, one_cabin(128), dense, rings);
    [
        mix("dense, with rings", true, true),
        mix("dense, without rings", true, false),
        mix("sparse, with rings", false, true),
        mix("sparse, without rings", false, false),
    ]
}

/// All mixes. Of eight cabins, each is guaranteed 8 steps and may have 24, which together are more than there are; that mix is dense, with rings.
fn mixes() -> Vec<Mix> {
    let eight = Mix::new("eight cabins", list(&[[8, 24]; 8]), true, true);
    sole_mixes().into_iter().chain([eight]).collect()
}

/// Prints the mixes of cabin 0: a name, then the key line of each edit.
fn print_edits() {
    for mix in sole_mixes() {
        println!("{}", mix.name);
        for edit in mix.edits {
            println!("{}", String::from_utf8_lossy(&key_text(edit)));
        }
    }
}

fn main() {
    assert_eq!(telephone::check_edition(), Ok(()));
    match std::env::args().nth(1).as_deref() {
        None => print_numbers(),
        Some("edits") => print_edits(),
        Some(word) => panic!("not a word that this program knows: {word}"),
    }
}

fn print_numbers() {
    let mixes = mixes();
    let tables: Vec<Table> = mixes.iter().map(agree).collect();
    let (sound, unsound) = verdicts();
    println!("(a) the proved library");
    println!("(b) Rust with bits and counters, and a linear soundness test on every call");
    println!("(c) Rust with the plain plan, which marks after each clearing; it has no bits, no counters and no soundness test");
    println!("(d) the job of (b), trials, conversions and slips, in safe Rust written for speed");
    println!("All four agree in each answer, and in the table or plan after each of {} edits; (a), (b) and (d) agree on", mixes.len() * EDITS);
    println!("{sound} tables that are sound and {unsound} that are not. Nanoseconds of processor time, median and best of {PASSES} passes;");
    println!("of ratios, the median over the passes and the ratio of the best.");

    let programs = ["(a)", "(b)", "(c)", "(d)"];
    head(&format!("One edit, of {EDITS} over 128 steps"), &programs);
    for mix in &mixes {
        edit_row(mix);
    }

    let freed = chain(1..128, Chain::Free);
    let taken_back = [
        ("upward", chain(1..128, Chain::Held)),
        ("downward", chain((1..128).rev(), Chain::Held)),
        ("in the worst order", chain(zigzag(), Chain::Held)),
        ("upward, no exit empty", chain(1..128, Chain::Dense)),
        ("downward, no exit empty", chain((1..128).rev(), Chain::Dense)),
    ];
    // exit 1 of step 0 holds the chain, and exit 0 is weak
    let weak = {
        let mut table = kept(&taken_back[0].1);
        table.bits.swap(0, 1);
        lend(&table)
    };
    head("Soundness test of one table", &["(a)", "(b)", "(d)"]);
    test_row("fresh, capacity 128", &sole());
    for (mix, table) in mixes.iter().zip(&tables) {
        test_row(&format!("after the edits, {}", mix.name), table);
    }
    let test = test_row("chain of 127 steps", &freed);
    test_row("chain of 127 steps, no exit empty", &taken_back[3].1);

    head("Copying a table and clearing an exit", &programs);
    let clearing = clear_row("127 steps freed", &freed, (127, 127));
    for (name, table) in &taken_back {
        clear_row(&format!("127 taken back {name}"), table, (127, 0));
    }
    println!("The worst order is 1, 127, 2, 126 and so on. Freeing 127 steps takes (a) {:.2} times its soundness test.", clearing.median() / test.median());

    head("Copying, clearing with a slip", &["(a)", "(d)"]);
    let with_slip = slip_row("127 steps freed", &freed);
    for (name, table) in [&taken_back[0], &taken_back[3]] {
        slip_row(&format!("127 taken back {name}"), table);
    }
    slip_row("a weak link, no step doubtful", &weak);
    head("Copying, taking that back", &["(a)", "(d)"]);
    back_row("127 steps brought back", &freed);
    for (name, table) in [&taken_back[0], &taken_back[3]] {
        back_row(&format!("127 bits, {name}"), table);
    }
    back_row("a weak link", &weak);
    println!(
        "With a slip, freeing 127 steps takes (a) {:.2} times the clearing without.",
        with_slip.median() / clearing.median()
    );

    head("What clearing an exit would free", &["(a)", "(b)", "(d)"]);
    let preview = preview_row("127 steps would be freed", &freed, (127, 127));
    for (name, table) in &taken_back[..4] {
        preview_row(&format!("127 would stay, {name}"), table, (127, 0));
    }
    preview_row("a weak link, no step doubtful", &weak, (0, 0));
    println!(
        "Telling that 127 steps would be freed takes (a) {:.2} times copying the table and clearing.",
        preview.median() / clearing.median()
    );

    head("Who can be rung", &programs);
    rung_row("127 contacts, no exit empty", &taken_back[3].1, (127, 127));
    rung_row("127 contacts in a chain", &freed, (127, 127));
    rung_row("127 waits in a ring", &lend(&ring(&[WAIT; 127])), (127, 0));
    rung_row("the plan of a caretaker, 12 steps", &lend(&caretakers_plan()), (12, 11));

    head("Copying a table and squeezing it", &programs);
    squeeze_row("64 of 128 steps in use, spread", &chain((2..128).step_by(2), Chain::Dense));
    squeeze_row("128 in use, none moved", &taken_back[3].1);

    head("A trial of 65535 moves, microseconds", &["(a)", "(d)"]);
    trial_row("ring of 127 waits", WAIT);
    trial_row("ring of 127 contacts", CONTACT);

    head("Converting an image", &["(a)", "(d)"]);
    conversion_rows("fresh, capacity 128", &sole(), false);
    conversion_rows("chain of 127 steps", &freed, false);
    conversion_rows("chain, no exit empty", &taken_back[3].1, false);
    conversion_rows("the same, records descending", &taken_back[3].1, true);
    println!();

    keys::print();

    let held = &taken_back[0].1;
    let size = size_of::<Table>();
    let clear = stack(&freed, |t| raw::clear(t, 0, 0)).max(stack(held, |t| raw::clear(t, 0, 0)));
    let line = stack(held, |t| raw::key_line(t, b"H*30000A"));
    println!(
        "\nStack of (a) in bytes, with the caller's table of {size}: a clearing {}, by key line {}",
        clear + size,
        line + size
    );
}

#[cfg(test)]
mod tests {
    use super::*;
    use compare::{every_content, has_larger_contact, two_steps, Refusals};
    use reference::calls::fresh_for_cabin_0;
    use reference::convert::Conversion;
    use reference::faults::Fault;
    use reference::generate::{trials, Generator};
    use reference::history::run;
    use reference::image::{in_edition_2, is_old, load};

    #[test]
    fn programs_agree() {
        mixes().iter().for_each(|mix| {
            agree(mix);
        });
    }

    #[test]
    fn verdicts_agree() {
        let (sound, unsound) = verdicts();
        assert!(sound > 10_000 && unsound > 50_000, "{sound} sound, {unsound} not");
    }

    /// Histories of generated edits and squeezes, refused or not, on generated tables with any cabins and lists.
    #[test]
    fn histories_agree() {
        let mut refusals = Refusals::default();
        for seed in 0..120 {
            let mut four = Four::new(&lend(&Random(seed).sound_table()));
            let mut generator = Generator::new(seed);
            for _ in 0..200 {
                let answer = match generator.call(&kept(&four.a)) {
                    Call::Edit(Command::Count) => continue,
                    Call::Edit(edit) => four.edit(edit),
                    Call::Squeeze { capacity, quotas } => {
                        four.squeeze(capacity, &lend_list(&quotas))
                    }
                    _ => continue,
                };
                refusals[usize::from(answer.err().unwrap_or(0))] += 1;
            }
        }
        for refusal in [0, 2, 3, 4, 5, 6, 7, 8, 13, 14, 15, 16] {
            assert!(refusals[refusal] > 50, "{refusals:?}");
        }
    }

    /// Squeezes of generated tables, into every capacity around what they need, with lists that fit and others.
    #[test]
    fn squeezes_agree() {
        let mut refusals = Refusals::default();
        for seed in 0..300 {
            let (mut random, table) = (Random(!seed), Random(seed).sound_table());
            let needed = table.size();
            for capacity in [0, needed - 1, needed, needed + 1, table.capacity, 128, 129, 65535] {
                let quotas = random.list(capacity, &table.charges());
                let answer = Four::new(&lend(&table)).squeeze(capacity, &lend_list(&quotas));
                refusals[usize::from(answer.err().unwrap_or(0))] += 1;
            }
        }
        for refusal in [0, 2, 13, 16] {
            assert!(refusals[refusal] > 100, "{refusals:?}");
        }
    }

    /// Generated trials, with every ending and refusal.
    #[test]
    fn trials_agree() {
        let (mut endings, mut refusals) = ([0; 3], Refusals::default());
        for (table, calls) in trials(0..300) {
            for call in calls {
                let Call::Trial { limit, results, trace: room } = call else { unreachable!() };
                match trial(&lend(&table), limit, &results, room) {
                    Ok([ending, ..]) => endings[usize::from(ending)] += 1,
                    Err(refusal) => refusals[usize::from(refusal)] += 1,
                }
            }
        }
        let many = endings.into_iter().chain([1, 10, 11].map(|refusal: usize| refusals[refusal]));
        assert!(many.into_iter().all(|number| number > 100), "{endings:?} {refusals:?}");
    }

    /// Every image that is timed, with each byte at a few values, and generated conversions, with every refusal. Many get 12 going up for a contact above
    /// 99 alone, and 17 going down.
    #[test]
    fn conversions_agree() {
        let mut found = [Refusals::default(); 2];
        let mut larger = [0; 2];
        let mut note = |way: Way, image: &[u8], room| {
            let refusal = conversion(way, image, room).err().unwrap_or(0);
            found[way as usize][usize::from(refusal)] += 1;
            if (way, refusal) == (Way::Up, 12) && is_old(image) || refusal == 17 {
                let (table, _) = in_edition_2(image).map_or_else(|| load(&[]), |new| load(&new));
                let sole = table.quotas == one_cabin(table.capacity);
                larger[way as usize] += usize::from(sole && has_larger_contact(&table));
            }
        };
        for table in [sole(), chain(1..128, Chain::Free), chain(1..128, Chain::Dense)] {
            for (way, mut image) in [true, false].into_iter().flat_map(|d| timed_images(&table, d))
            {
                for at in 0..image.len() {
                    let was = image[at];
                    for now in [0, 1, was ^ 1, was ^ 16, was.wrapping_add(1), 128, 255] {
                        image[at] = now;
                        note(way, &image, telephone::IMAGE_MAX);
                    }
                    image[at] = was;
                }
                for length in 0..image.len() {
                    note(way, &image[..length], telephone::IMAGE_MAX);
                    note(way, &image, length);
                }
            }
        }
        let mut random = Random(7);
        for _ in 0..20_000 {
            let Conversion { way, image, buffer } = random.conversion();
            note(way, &image, buffer);
        }
        for (found, refusals) in found.iter().zip([&[0, 11, 12][..], &[0, 11, 12, 17]]) {
            assert!(refusals.iter().all(|&refusal: &usize| found[refusal] > 200), "{found:?}");
        }
        assert!(larger.iter().all(|&images| images > 500), "{larger:?}");
    }

    /// Every content of each kind, added by all four, and in an image of each edition, converted by (a) and (d).
    #[test]
    fn contents_agree() {
        let start = lend(&fresh_for_cabin_0(4));
        let mut found = [Refusals::default(); 3];
        for (kind, content) in every_content() {
            let add = Command::Add { holder: 0, exit: 0, kind, content, cabin: 0 };
            let table = two_steps(kind, content);
            let image = encode(&table);
            let added = Four::new(&start).edit(add).map(|_| 0);
            assert_eq!(verdict(&lend(&table)), added.is_ok(), "{kind} {content}");
            let old = in_edition_1(&image);
            let answers = [added, conversion(Way::Up, &old, 86), conversion(Way::Down, &image, 50)];
            for (found, answer) in found.iter_mut().zip(answers) {
                found[usize::from(answer.err().unwrap_or(0))] += 1;
            }
        }
        let [added, up, down] = found;
        let all = 5 * 65536;
        assert_eq!([added[0], added[7]], [1616, all - 1616]);
        assert_eq!([up[0], up[12]], [716, all - 716]);
        assert_eq!([down[0], down[17], down[12]], [716, 900, all - 1616]);
    }

    /// Histories of 200 calls from generated tables: each call with the table before it, and the table at the end.
    fn histories() -> impl Iterator<Item = (Vec<(Table, Call)>, reference::table::Table)> {
        (0..120).map(|seed| {
            let mut table = Random(seed).sound_table();
            let mut generator = Generator::new(seed);
            let mut next = || {
                let call = generator.call(&table);
                let before = lend(&table);
                run(&mut table, &call, Fault::None);
                (before, call)
            };
            let calls = (0..200).map(|_| next()).collect();
            (calls, table)
        })
    }

    /// Slips of generated tables and histories and of the chains that are timed: into all sorts of buffers; taken back, damaged and made up.
    #[test]
    fn slips_agree() {
        let mut found = Refusals::default();
        let mut note = |reply: Answer| found[usize::from(reply.err().unwrap_or(0))] += 1;
        let mut random = Random(8);
        for (calls, mut table) in histories() {
            for (lent, call) in &calls {
                match call {
                    Call::ClearWithSlip { step, exit, buffer } => {
                        note(cleared_with_slip(lent, *step, *exit, *buffer).0);
                    }
                    Call::TakeBack { slip } => note(taken_back(lent, slip)),
                    _ => {}
                }
            }
            let mut slip = random.made_up_slip(&table);
            for _ in 0..20 {
                note(taken_back(&lend(&table), &slip));
                random.damage_slip(&table, &mut slip);
            }
            random.damage(&mut table);
            note(cleared_with_slip(&lend(&table), 0, 0, 5638).0);
            note(taken_back(&lend(&table), &slip));
        }
        for how in [Chain::Free, Chain::Held, Chain::Dense] {
            let (_, cleared, mut slip) = cleared_with_slip(&chain(1..128, how), 0, 0, 5638);
            for at in 0..slip.len() {
                let was = slip[at];
                for now in [was ^ 1, was ^ 16, was.wrapping_add(1), 255] {
                    slip[at] = now;
                    note(taken_back(&cleared, &slip));
                }
                slip[at] = was;
            }
            note(taken_back(&cleared, &slip));
        }
        for refusal in [0, 1, 3, 4, 6, 11, 18] {
            assert!(found[refusal] > 20, "{found:?}");
        }
    }

    /// Previews of generated tables and histories, of damaged tables and of the chains that are timed, into all sorts of buffers.
    #[test]
    fn previews_agree() {
        let mut found = Refusals::default();
        let mut freed = [0; 2];
        let mut note = |reply: Answer| {
            found[usize::from(reply.err().unwrap_or(0))] += 1;
            let (doubtful, lost) = reply.unwrap_or_default();
            freed[0] += usize::from(lost > 0);
            freed[1] += usize::from(doubtful > lost);
        };
        let mut random = Random(9);
        for (calls, mut table) in histories() {
            for (lent, call) in calls {
                if let Call::PreviewClear { step, exit, buffer } = call {
                    note(previewed(&lent, step, exit, buffer));
                }
            }
            for place in 0..512 {
                note(previewed(&lend(&table), place / 4, place % 4, 127 + usize::from(place)));
            }
            random.damage(&mut table);
            note(previewed(&lend(&table), 0, 0, 127));
        }
        for how in [Chain::Free, Chain::Held, Chain::Dense] {
            let table = chain(zigzag(), how);
            for step in 0..128 {
                note(previewed(&table, step, 0, 127));
            }
        }
        for refusal in [0, 1, 3, 4, 6, 11] {
            assert!(found[refusal] > 20, "{found:?}");
        }
        assert!(freed.into_iter().all(|number| number > 1000), "{freed:?}");
    }

    /// Who can be rung in generated tables and histories, in damaged tables and in those that are timed, with all sorts of buffers.
    #[test]
    fn rungs_agree() {
        let mut found = Refusals::default();
        let mut counts = [0; 3];
        let mut note = |table: &Table, room| {
            let reply = told_rung(table, room);
            found[usize::from(reply.err().unwrap_or(0))] += 1;
            let (steps, contacts) = reply.unwrap_or_default();
            counts[0] += usize::from(steps > 0);
            counts[1] += usize::from(contacts < steps);
            counts[2] += usize::from(reply.is_ok() && steps + 1 < table.used.iter().sum());
        };
        let mut random = Random(10);
        for (calls, mut table) in histories() {
            for (lent, call) in calls.iter().step_by(4) {
                let buffer = if let Call::Rung { buffer } = call { *buffer } else { 127 };
                note(lent, buffer);
            }
            random.damage(&mut table);
            for room in [126, 127, 128] {
                note(&lend(&table), room);
            }
        }
        for how in [Chain::Free, Chain::Held, Chain::Dense] {
            note(&chain(zigzag(), how), 127);
        }
        for table in [ring(&[WAIT; 127]), caretakers_plan(), fresh_for_cabin_0(1)] {
            (0..=140).for_each(|room| note(&lend(&table), room));
        }
        for refusal in [0, 1, 11] {
            assert!(found[refusal] > 20, "{found:?}");
        }
        assert!(counts.into_iter().all(|number| number > 1000), "{counts:?}");
    }

    /// Every chain that is timed, cleared once by all four.
    #[test]
    fn chains_agree() {
        let orders: [Vec<u16>; 3] =
            [(1..128).collect(), (1..128).rev().collect(), zigzag().collect()];
        for order in orders {
            for how in [Chain::Free, Chain::Held, Chain::Dense] {
                let mut four = Four::new(&chain(order.iter().copied(), how));
                assert!(four.edit(Command::Clear { step: 0, exit: 0 }).is_ok());
            }
        }
    }
}
