//! The check program of document 01 by the reference: reads an AEDR file on standard input and prints each record's answer and a total.

#[path = "../tests/reference.rs"]
mod reference;

use reference::{check_piece, AEDR_RECORD};
use std::io::{self, ErrorKind, Read, Write};
use std::process::ExitCode;

/// Pieces of one reading, about 256 KiB.
const PIECES: usize = 213;

fn main() -> ExitCode {
    match run(&mut io::stdin().lock(), &mut io::stdout().lock()) {
        Ok(()) => ExitCode::SUCCESS,
        Err(error) => {
            eprintln!("check: {error}");
            ExitCode::FAILURE
        }
    }
}

/// An error ends the run at once, so nothing more is printed after it.
fn run(input: &mut impl Read, output: &mut impl Write) -> io::Result<()> {
    let mut buffer = vec![0; PIECES * AEDR_RECORD];
    let mut text = Vec::with_capacity(32 * (PIECES + 1));
    let mut records = 0;
    loop {
        let filled = fill(input, &mut buffer)?;
        text.clear();
        for piece in buffer[..filled].chunks(AEDR_RECORD) {
            records += 1;
            push_decimal(&mut text, records);
            text.push(b' ');
            push_decimal(&mut text, u64::from(check_piece(piece)));
            text.push(b'\n');
        }
        let ended = filled < buffer.len();
        if ended {
            text.extend_from_slice(b"records ");
            push_decimal(&mut text, records);
            text.push(b'\n');
        }
        output.write_all(&text)?;
        if ended {
            return output.flush();
        }
    }
}

/// Reads until the buffer is full or the input ends: a pipe may give less than it was asked for.
fn fill(input: &mut impl Read, buffer: &mut [u8]) -> io::Result<usize> {
    let mut filled = 0;
    while filled < buffer.len() {
        match input.read(&mut buffer[filled..]) {
            Ok(0) => break,
            Ok(length) => filled += length,
            Err(error) if error.kind() == ErrorKind::Interrupted => {}
            Err(error) => return Err(error),
        }
    }
    Ok(filled)
}

fn push_decimal(text: &mut Vec<u8>, mut number: u64) {
    let mut digits = [0; 20];
    let mut first = digits.len();
    loop {
        first -= 1;
        digits[first] = b'0' + (number % 10) as u8;
        number /= 10;
        if number == 0 {
            break;
        }
    }
    text.extend_from_slice(&digits[first..]);
}
