//! The program `keys` on a million mixed key lines: its time, and its answers held to those of (d).

use crate::{clock, sole, tuned_edit, Times};
use reference::calls::Command;
use reference::generate::{key_text, Random};
use reference::keys::decode;
use std::fs::{read, remove_file, write, File};
use std::path::{Path, PathBuf};
use std::process::{id, Command as Program};
use telephone::raw::Table;

const LINES: usize = 1_000_000;
const RUNS: usize = 5;

/// A step in use and an exit of it, filled or empty as asked for; if none is found soon, any step and exit.
fn place(random: &mut Random, table: &Table, filled: bool) -> (u16, u16) {
    let mut any = || (random.below(128) as u16, random.below(4) as u16);
    let suits = |&(step, exit): &(u16, u16)| {
        let place = usize::from(step * 4 + exit);
        table.used[place / 4] == 1 && (table.targets[place] != 0) == filled
    };
    let last = any();
    (0..99).map(|_| any()).find(suits).unwrap_or(last)
}

/// The next line: most are edits that suit the table, some are counts, and some have a wrong byte.
fn line(random: &mut Random, table: &Table) -> Vec<u8> {
    let calls = if table.used == [1; 128] { b"alllcccccn" } else { b"aaaalllccn" };
    let mut text = key_text(match random.pick(calls) {
        b'a' => {
            let (holder, exit) = place(random, table, false);
            Command::Add { holder, exit, kind: 1, content: random.below(1000) as u16, cabin: 0 }
        }
        b'l' => {
            let (source, source_exit) = place(random, table, true);
            let (second, second_exit) = place(random, table, false);
            Command::Link { source, source_exit, second, second_exit }
        }
        b'c' => {
            let (step, exit) = place(random, table, true);
            Command::Clear { step, exit }
        }
        _ => Command::Count,
    });
    if random.once_in(20) {
        let at = random.below(text.len());
        text[at] = random.pick(b"HA*059 x");
    }
    text
}

/// The lines, and the answers that (d) gives.
fn visit() -> (Vec<u8>, String) {
    let (mut random, mut table) = (Random(3), sole());
    let (mut input, mut output) = (Vec::new(), String::new());
    for _ in 0..LINES {
        let text = line(&mut random, &table);
        let answer = decode(&text).ok_or(9).and_then(|edit| tuned_edit(&mut table, edit));
        output += &match answer {
            Ok((first, second)) => format!("0 {first} {second}\n"),
            Err(refusal) => format!("{refusal} 0 0\n"),
        };
        input.extend(text);
        input.push(10);
    }
    (input, output)
}

/// Runs the program from a file and to a file; gives its processor time in nanoseconds.
fn run(program: &Path, lines: &PathBuf, answers: &PathBuf) -> f64 {
    let (from, to) = (File::open(lines).unwrap(), File::create(answers).unwrap());
    let start = clock::children();
    let status = Program::new(program).stdin(from).stdout(to).status();
    let status =
        status.unwrap_or_else(|error| panic!("{}: {error}: run `./keys` first", program.display()));
    assert!(status.success());
    clock::children() - start
}

/// Prints the time of the program, as the gate built it.
pub fn print() {
    let program = Path::new(env!("CARGO_MANIFEST_DIR")).join("../target/bin/keys");
    let file = |name: &str| std::env::temp_dir().join(format!("keys-{}-{name}", id()));
    let (lines, answers) = (file("lines"), file("answers"));
    let (input, expected) = visit();
    write(&lines, input).unwrap();
    let times = Times((0..RUNS).map(|_| run(&program, &lines, &answers)).collect());
    let given = read(&answers).unwrap();
    remove_file(lines).unwrap();
    remove_file(answers).unwrap();
    assert!(given == expected.as_bytes(), "the program `keys` and (d) differ");
    let refused = expected.lines().filter(|line| !line.starts_with("0 ")).count();
    println!("{LINES} mixed key lines through the program `keys`, {refused} of them refused; the answers are those of (d)");
    println!(
        "median {:.2} s, best {:.2} s of processor time in {RUNS} runs: {} ns a line",
        times.median() / 1e9,
        times.best() / 1e9,
        times.each(LINES)
    );
}
