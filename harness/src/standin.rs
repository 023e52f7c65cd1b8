//! A program that reads and writes as the programs of `target/bin` do, for the
//! examples that stand in for them (`.ci/wrong-programs`).

use crate::plain::TEXT_LIMIT;
use std::env::args_os;
use std::fs::File;
use std::io::{stdin, stdout, Read, Write};

/// How much is read or written at a time: less than the longest output of either
/// program.
const PIECE: usize = 512;

/// Reads the input and writes what a function gives it. Nothing comes of a read
/// that fails.
pub fn answer(output: impl Fn(&[u8]) -> Vec<u8>) {
    if let Some(input) = read_input(stdin().lock()) {
        write_output(&output(&input));
    }
}

/// The same with a file that is read before the input, named by the one argument.
/// Nothing comes of another number of arguments, and of a file that cannot be read.
pub fn answer_with_file(output: impl Fn(&[u8], &[u8]) -> Vec<u8>) {
    let mut arguments = args_os().skip(1);
    let (Some(path), None) = (arguments.next(), arguments.next()) else {
        return;
    };
    if let Some(file) = File::open(path).ok().and_then(read_input) {
        answer(|input| output(&file, input));
    }
}

/// Reads until the input ends or is longer than a text may be. A header of EDF
/// that may be imported is not that long.
fn read_input(mut input: impl Read) -> Option<Vec<u8>> {
    let mut text = Vec::new();
    let mut piece = [0; PIECE];
    while text.len() <= TEXT_LIMIT {
        let read = input.read(&mut piece).ok()?;
        if read == 0 {
            break;
        }
        text.extend_from_slice(&piece[..read]);
    }
    Some(text)
}

/// Writes until the output cannot be written.
fn write_output(output: &[u8]) -> Option<()> {
    for piece in output.chunks(PIECE) {
        stdout().lock().write_all(piece).ok()?;
    }
    stdout().lock().flush().ok()
}
