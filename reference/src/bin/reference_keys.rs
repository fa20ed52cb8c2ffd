//! The program `keys` of document 01 over the reference library.
//! Reads key lines from standard input and prints an answer for each.

use std::io::{stdin, stdout, BufWriter};

fn main() -> std::io::Result<()> {
    reference::keys::answer_lines(stdin().lock(), BufWriter::new(stdout().lock()))
}
