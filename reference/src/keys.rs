//! Key lines, and the program `keys` over any input and output.
//! Renders "Keys" of document 01; the steps are added for cabin 0, as W5 says.

use std::io::{self, ErrorKind, Read, Write};

use crate::calls::{bare, edit, fresh_for_cabin_0, Answer, Command};
use crate::faults::Fault;
use crate::sound::sound;
use crate::table::Table;

/// Bytes of the longest key line.
const LONGEST: usize = 12;

/// Carries out a key line, given without its byte 10.
pub fn key_line(table: &mut Table, line: &[u8]) -> Answer {
    key_line_with(table, line, Fault::None)
}

/// Carries out a key line, with a fault or without.
pub fn key_line_with(table: &mut Table, line: &[u8], fault: Fault) -> Answer {
    if !sound(table) {
        return bare(1);
    }
    decode(line).map_or(bare(9), |command| edit(table, command, fault))
}

/// The command of a key line; nothing for any other bytes.
pub fn decode(line: &[u8]) -> Option<Command> {
    let (&which, digits) = line.strip_prefix(b"H*")?.strip_suffix(b"A")?.split_first()?;
    Some(match which {
        b'1' => {
            let [holder, exit, kind, content] = numbers(digits, [3, 1, 1, 3])?;
            Command::Add { holder, exit, kind, content, cabin: 0 }
        }
        b'2' => {
            let [source, source_exit, second, second_exit] = numbers(digits, [3, 1, 3, 1])?;
            Command::Link { source, source_exit, second, second_exit }
        }
        b'3' => {
            let [step, exit] = numbers(digits, [3, 1])?;
            Command::Clear { step, exit }
        }
        b'4' => {
            let [] = numbers(digits, [])?;
            Command::Count
        }
        _ => return None,
    })
}

/// Decimal numbers of the given widths that fill the bytes.
fn numbers<const N: usize>(mut digits: &[u8], widths: [usize; N]) -> Option<[u16; N]> {
    if digits.len() != widths.iter().sum::<usize>() || !digits.iter().all(u8::is_ascii_digit) {
        return None;
    }
    Some(widths.map(|width| {
        let (number, rest) = digits.split_at(width);
        digits = rest;
        number.iter().fold(0, |n, &digit| n * 10 + u16::from(digit - b'0'))
    }))
}

/// The program `keys`: answers each line of the input, from a fresh table of capacity 128.
/// Of a line longer than any key line only the start is kept; it gets the same answer, 9 0 0.
pub fn answer_lines(mut input: impl Read, mut output: impl Write) -> io::Result<()> {
    let mut table = fresh_for_cabin_0(128);
    let mut finish = |line: &mut Vec<u8>, output: &mut dyn Write| {
        let answer = key_line(&mut table, line);
        line.clear();
        writeln!(output, "{} {} {}", answer.refusal, answer.first, answer.second)
    };
    let mut line = Vec::new();
    let mut block = [0; 4096];
    loop {
        let length = match input.read(&mut block) {
            Ok(0) => break,
            Ok(length) => length,
            Err(error) if error.kind() == ErrorKind::Interrupted => continue,
            Err(error) => return Err(error),
        };
        for &byte in &block[..length] {
            if byte == 10 {
                finish(&mut line, &mut output)?;
            } else if line.len() <= LONGEST {
                line.push(byte);
            }
        }
        output.flush()?;
    }
    if !line.is_empty() {
        finish(&mut line, &mut output)?;
    }
    output.flush()
}
