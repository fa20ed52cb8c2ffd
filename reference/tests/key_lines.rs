//! Key lines and the program `keys`: document 01's whole case, which lines are key lines, which
//! contents can be keyed, how input is cut into lines, and generated lines against single calls and
//! the plain plan.

mod contents;

use std::io::Write;
use std::process::{Command, Stdio};

use contents::every_content;
use reference::cabins::list;
use reference::calls::{add, fresh, fresh_for_cabin_0, Answer};
use reference::generate::Generator;
use reference::history::Call;
use reference::keys::{answer_lines, decode, key_line};
use reference::plan::{plan_of, Plan};

const WHOLE_CASE: &str = "H*100001000A\nH*200000012A\nH*30000A\nH*4A\nH*30000A\n";
const WHOLE_ANSWER: &str = "0 1 0\n0 0 0\n0 1 1\n0 1 127\n6 0 0\n";

/// The four shapes of key lines; d stands for a digit.
const SHAPES: [&[u8]; 4] = [b"H*1ddddddddA", b"H*2ddddddddA", b"H*3ddddA", b"H*4A"];

fn keys(input: &[u8]) -> String {
    let mut output = Vec::new();
    answer_lines(input, &mut output).unwrap();
    String::from_utf8(output).unwrap()
}

/// The output of the program itself.
fn program(input: &[u8]) -> String {
    let mut child = Command::new(env!("CARGO_BIN_EXE_reference_keys"))
        .stdin(Stdio::piped())
        .stdout(Stdio::piped())
        .spawn()
        .unwrap();
    let mut stdin = child.stdin.take().unwrap();
    let given = input.to_vec();
    let writer = std::thread::spawn(move || stdin.write_all(&given).unwrap());
    let output = child.wait_with_output().unwrap();
    writer.join().unwrap();
    assert!(output.status.success());
    String::from_utf8(output.stdout).unwrap()
}

#[test]
fn the_whole_case() {
    assert_eq!(keys(WHOLE_CASE.as_bytes()), WHOLE_ANSWER);
    assert_eq!(program(WHOLE_CASE.as_bytes()), WHOLE_ANSWER);
    assert_eq!(program(WHOLE_CASE.trim_end().as_bytes()), WHOLE_ANSWER);
}

#[test]
fn input_is_cut_into_lines() {
    assert_eq!(program(b""), "");
    assert_eq!(keys(b"\n"), "9 0 0\n");
    assert_eq!(keys(b"\n\n"), "9 0 0\n9 0 0\n");
    assert_eq!(keys(b"H*4A"), "0 1 127\n");
    assert_eq!(keys(b"\nH*4A"), "9 0 0\n0 1 127\n");
    assert_eq!(keys(b"H*4A\r\nH*4A\n"), "9 0 0\n0 1 127\n");
    assert_eq!(keys(b"H*4AH*4A\n H*4A\nH*4A \n"), "9 0 0\n9 0 0\n9 0 0\n");
}

/// Long lines are answered once, also those whose first or last bytes are a key line.
#[test]
fn lines_of_any_length_and_bytes() {
    let mut input: Vec<u8> = vec![b'9'; 1 << 20];
    input.extend(b"\nH*4A\n");
    input.extend(b"H*100001000A".repeat(1000));
    input.extend(b"\n");
    input.extend((0..=255).filter(|&byte| byte != 10));
    input.extend(b"\nH*4A");
    assert_eq!(program(&input), "9 0 0\n0 1 127\n9 0 0\n9 0 0\n0 1 127\n");
    input.extend(vec![0; 1 << 20]);
    assert_eq!(program(&input), "9 0 0\n0 1 127\n9 0 0\n9 0 0\n9 0 0\n");
}

/// Lines of all lengths up to 16, so that ends of blocks of input fall at any byte of a line.
#[test]
fn lines_over_the_ends_of_blocks() {
    let mut input = Vec::new();
    let mut expected = String::new();
    for round in 0..2000 {
        input.extend(vec![b'0'; round % 17]);
        input.extend(b"\nH*4A\n");
        expected.push_str("9 0 0\n0 1 127\n");
    }
    assert_eq!(keys(&input), expected);
}

/// Each shape with every byte at every place, cut and extended at every place.
#[test]
fn nothing_else_is_a_key_line() {
    let fits = |line: &[u8], shape: &[u8]| {
        line.len() == shape.len()
            && line.iter().zip(shape).all(|(&byte, &wanted)| match wanted {
                b'd' => byte.is_ascii_digit(),
                _ => byte == wanted,
            })
    };
    let check = |line: &[u8]| {
        let is_key_line = SHAPES.iter().any(|shape| fits(line, shape));
        assert_eq!(decode(line).is_some(), is_key_line, "{line:?}");
    };
    for shape in SHAPES {
        let line: Vec<u8> = shape.iter().map(|&b| if b == b'd' { b'7' } else { b }).collect();
        check(&line);
        for at in 0..=line.len() {
            check(&line[..at]);
            check(&line[at..]);
            for byte in 0..=255 {
                let (mut changed, mut longer) = (line.clone(), line.clone());
                longer.insert(at, byte);
                check(&longer);
                if at < line.len() {
                    changed[at] = byte;
                    check(&changed);
                }
            }
        }
    }
}

/// Three digits are enough for every contact. A fourth makes no key line, whatever it says.
#[test]
fn contents_that_are_keyed() {
    assert_eq!(keys(b"H*100001099A\nH*100011100A\nH*100021999A\n"), "0 1 0\n0 2 0\n0 3 0\n");
    assert_eq!(keys(b"H*1000011000A\nH*1000010999A\n"), "9 0 0\n9 0 0\n");
    let mut accepted = [0; 5];
    for (kind, content, fits) in every_content().filter(|(_, content, _)| *content < 1000) {
        let mut table = fresh_for_cabin_0(2);
        let answer = key_line(&mut table, format!("H*10000{kind}{content:03}A").as_bytes());
        if fits {
            assert_eq!(answer, Answer { refusal: 0, first: 1, second: 0 });
            assert_eq!((table.kinds[1], table.contents[1]), (kind, content));
        } else {
            assert_eq!(answer, Answer { refusal: 7, first: 0, second: 0 }, "{kind} {content}");
        }
        accepted[usize::from(kind)] += u32::from(fits);
    }
    assert_eq!(accepted, [0, 1000, 16, 600, 0]);
}

#[test]
fn a_full_telephone() {
    let mut table = fresh_for_cabin_0(128);
    for step in 0..127 {
        let line = format!("H*1{step:03}03600A");
        let answer = key_line(&mut table, line.as_bytes());
        assert_eq!(answer, Answer { refusal: 0, first: step + 1, second: 0 });
    }
    assert_eq!(key_line(&mut table, b"H*112703600A").refusal, 8);
    assert_eq!(key_line(&mut table, b"H*4A"), Answer { refusal: 0, first: 128, second: 0 });
    assert_eq!(key_line(&mut table, b"H*30000A"), Answer { refusal: 0, first: 127, second: 127 });
    assert_eq!(key_line(&mut table, b"H*4A"), Answer { refusal: 0, first: 1, second: 127 });
}

/// A key line adds for cabin 0, on any table. In `keys` 8 comes before 14 and 15; with other lists
/// they show.
#[test]
fn key_lines_add_for_cabin_0() {
    let (mut table, _) = fresh(6, list(&[[0, 2], [3, 3], [0, 9]]));
    let lines: [&[u8]; 3] = [b"H*100001000A", b"H*100011000A", b"H*100021000A"];
    assert_eq!(lines.map(|line| key_line(&mut table, line).refusal), [0, 0, 14]);
    assert_eq!(table.cabins[..3], [0, 0, 0]);
    let (mut table, _) = fresh(6, list(&[[0, 2], [3, 3], [0, 9]]));
    for exit in 0..2 {
        assert_eq!(add(&mut table, 0, exit, 1, 0, 2).refusal, 0);
    }
    assert_eq!(key_line(&mut table, b"H*100021000A").refusal, 15);
    assert_eq!(table.cabins[..4], [0, 2, 2, 0]);
}

#[test]
fn generated_lines() {
    for seed in 0..4 {
        let mut generator = Generator::new(seed);
        let mut table = fresh_for_cabin_0(128);
        let mut plan = Plan::fresh_for_cabin_0(128);
        let (mut input, mut expected) = (Vec::new(), String::new());
        for _ in 0..800 {
            let line = generator.key_line(&plan);
            let answer = key_line(&mut table, &line);
            let said = plan.draw(&Call::KeyLine(line.clone()), false);
            assert_eq!(answer.refusal, said.err().unwrap_or(0));
            expected.push_str(&format!("{} {} {}\n", answer.refusal, answer.first, answer.second));
            input.extend(line);
            input.push(10);
        }
        assert_eq!(plan_of(&table), plan);
        assert_eq!(program(&input), expected);
    }
}
