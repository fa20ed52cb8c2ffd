//! The program `keys` on whole inputs, as the gate built it, beside the second program's: visits that fill the table, make rings, clear and refill,
//! malformed lines, blank lines, a last line without its byte 10, and no input at all.

use compare::next_line;
use compare::process::{keys_program, output};
use reference::calls::fresh_for_cabin_0;
use reference::generate::{Generator, Random};
use reference::keys::{answer_lines, key_line};
use std::fs::File;
use std::path::Path;
use std::process::{Command, Output};

/// What the program writes for an input. It ends with status 0 and says nothing on standard error.
fn keys(input: &[u8]) -> Vec<u8> {
    answers(output(&mut Command::new(keys_program()), Some(input)))
}

fn answers(output: Output) -> Vec<u8> {
    assert!(output.status.success(), "{}", output.status);
    assert_eq!(String::from_utf8_lossy(&output.stderr), "");
    output.stdout
}

/// The answers of the second program.
fn second(input: &[u8]) -> Vec<u8> {
    let mut answers = Vec::new();
    answer_lines(input, &mut answers).unwrap();
    answers
}

/// Compares answers line by line.
fn same_lines(proved: &[u8], second: &[u8]) {
    let lines = |answers: &[u8]| {
        let text = String::from_utf8(answers.to_vec()).unwrap();
        text.split('\n').map(str::to_string).collect::<Vec<_>>()
    };
    let (proved, second) = (lines(proved), lines(second));
    for (i, (proved, second)) in proved.iter().zip(&second).enumerate() {
        assert_eq!(proved, second, "line {i}");
    }
    assert_eq!(proved.len(), second.len(), "the number of lines");
}

fn agrees(input: &[u8]) {
    same_lines(&keys(input), &second(input));
}

/// The lines of a visit, each ended by byte 10 but perhaps the last.
fn visit(seed: u64, lines: usize) -> Vec<u8> {
    let mut table = fresh_for_cabin_0(128);
    let mut generator = Generator::new(seed);
    let mut input = Vec::new();
    for _ in 0..lines {
        let line = next_line(&mut generator, &table);
        key_line(&mut table, &line);
        input.extend(line);
        input.push(10);
    }
    if seed % 2 == 1 {
        input.pop();
    }
    input
}

#[test]
fn visits() {
    for seed in 2000..2010 {
        agrees(&visit(seed, 1500));
    }
}

#[test]
fn odd_inputs() {
    let case = b"H*100001000A\nH*200000012A\nH*30000A\nH*4A\nH*30000A\n";
    assert_eq!(keys(case), b"0 1 0\n0 0 0\n0 1 1\n0 1 127\n6 0 0\n");
    let long = vec![b'H'; 1 << 20];
    let all: Vec<u8> = (0..=255).collect();
    let inputs: [&[u8]; 9] = [
        b"",
        b"\n",
        b"\n\n\n",
        b"H*4A",
        b"H*4A\n",
        b"H*4A\n\nH*4A",
        b"H*4A\r\nH*4A\n",
        &long,
        &all,
    ];
    for input in inputs {
        agrees(input);
    }
    agrees(&[&long[..], b"\nH*4A\n", &long, b"\n\nH*4A"].concat());
}

/// An add at every exit in turn: most tables become full, and then adds are refused.
fn fill() -> Vec<u8> {
    let add = |place| format!("H*1{:03}{}2015A\n", place / 4, place % 4).into_bytes();
    (0..512).flat_map(add).collect()
}

/// Over 5 MB of lines: visits one after the other, some that fill the table, and among them blank lines and long ones with any bytes.
fn long_input() -> Vec<u8> {
    let mut visits: Vec<Vec<u8>> = (3000..3012).map(|seed| visit(2 * seed, 1500)).collect();
    visits.push(fill());
    let mut random = Random(3);
    let mut input = Vec::new();
    while input.len() < 5_000_000 {
        input.extend(random.pick(&visits.iter().collect::<Vec<_>>()));
        let long = random.pick(&[0, 13, 4095, 4096, 4097, 9000]);
        input.extend((0..long).map(|_| random.below(256) as u8).filter(|&byte| byte != 10));
        input.extend(b"\n\n");
    }
    input.extend(b"H*4A");
    input
}

/// An input of more than 1,000 blocks of 4,096 bytes, from a pipe and from a file. The part past them has its share of all sorts of answers.
#[test]
fn long_inputs() {
    let input = long_input();
    let expected = second(&input);
    let lines_before = input[..4_096_000].iter().filter(|&&byte| byte == 10).count();
    let late: Vec<&[u8]> = expected.split(|&byte| byte == 10).skip(lines_before).collect();
    for refusal in [0, 3, 4, 5, 6, 7, 8, 9] {
        let start = format!("{refusal} ");
        let count = late.iter().filter(|line| line.starts_with(start.as_bytes())).count();
        assert!(count > 10, "refusal {refusal} came up {count} times past 1,000 blocks");
    }
    let steps: std::collections::BTreeSet<&[u8]> = late.iter().copied().collect();
    assert!(steps.len() > 100, "{} different answers past 1,000 blocks", steps.len());
    same_lines(&keys(&input), &expected);
    let path = Path::new(env!("CARGO_TARGET_TMPDIR")).join("long_input");
    std::fs::write(&path, &input).unwrap();
    let mut command = Command::new(keys_program());
    let given = output(command.stdin(File::open(&path).unwrap()), None);
    std::fs::remove_file(&path).unwrap();
    same_lines(&answers(given), &expected);
}
