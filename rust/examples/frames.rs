// SPDX-License-Identifier: Apache-2.0 OR MIT
//! `frames check|show|normalise < FRAMES` writes what the program `bactool` writes of a frame file on standard input.
//! `frames read < LINES` is the way back from `show`, of lines with or without their numbers: it writes a frame file.
//!
//! The status is 0, 1 if a record or a line is refused, and 2 if the words, the input or the output are at fault.
mod common;

use bactool::{records, write_record, Refusal};
use common::{ended, report, usage, words};
use std::io::{self, BufRead, BufWriter, Write};
use std::process::ExitCode;

fn main() -> ExitCode {
    match words().iter().map(String::as_str).collect::<Vec<_>>()[..] {
        ["check"] => ended(write_lines(|octets| Ok(bactool::check(octets)?.to_string()))),
        ["show"] => ended(write_lines(bactool::show)),
        ["normalise"] => ended(normalise()),
        ["read"] => ended(read()),
        _ => usage("frames check|show|normalise < FRAMES\n       frames read < LINES"),
    }
}

/// Writes a line for each record: its number, and what the function says of it or why it is refused. Returns whether one
/// was refused.
fn write_lines(line: impl Fn(&[u8]) -> Result<String, Refusal>) -> io::Result<bool> {
    let mut output = BufWriter::new(io::stdout().lock());
    let mut is_refused = false;
    for (number, octets) in (1..).zip(records(io::stdin().lock())) {
        match line(&octets?) {
            Ok(text) => writeln!(output, "{number} {text}")?,
            Err(refusal) => {
                is_refused = true;
                writeln!(output, "{number} refused {refusal}")?;
            }
        }
    }
    output.flush()?;
    Ok(is_refused)
}

/// Writes each record in its canonical octets, up to the first one that is refused. Returns whether one was.
fn normalise() -> io::Result<bool> {
    let mut output = BufWriter::new(io::stdout().lock());
    for (number, octets) in (1..).zip(records(io::stdin().lock())) {
        match bactool::normalise(&octets?) {
            Ok(canonical) => write_record(&mut output, &canonical)?,
            Err(refusal) => {
                output.flush()?;
                report(format_args!("frames: record {number}: refused {refusal}"));
                return Ok(true);
            }
        }
    }
    output.flush()?;
    Ok(false)
}

/// Writes a record for each line, up to the first one that is refused. Returns whether one was.
fn read() -> io::Result<bool> {
    let mut output = BufWriter::new(io::stdout().lock());
    for (number, line) in (1..).zip(io::stdin().lock().split(b'\n')) {
        match bactool::read(without_number(&line?)) {
            Ok(octets) => write_record(&mut output, &octets)?,
            Err(refusal) => {
                output.flush()?;
                report(format_args!("frames: line {number}: refused {refusal}"));
                return Ok(true);
            }
        }
    }
    output.flush()?;
    Ok(false)
}

/// Returns the line without the number and the blank with which it may begin.
fn without_number(line: &[u8]) -> &[u8] {
    let digits = line.iter().take_while(|octet| octet.is_ascii_digit()).count();
    match line[digits..].split_first() {
        Some((b' ', text)) if digits > 0 => text,
        _ => line,
    }
}
