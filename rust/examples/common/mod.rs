// SPDX-License-Identifier: Apache-2.0 OR MIT
//! What the examples share: their words, their statuses, and how they report.
use std::env;
use std::fmt::Display;
use std::io::{self, Write};
use std::process::ExitCode;

/// Returns the words of the command line after the program's name. One that is not in UTF-8 is a word of no example.
pub fn words() -> Vec<String> {
    env::args_os().skip(1).map(|word| word.to_string_lossy().into_owned()).collect()
}

/// Returns the status of a run: 0, 1 if a record or a line was refused, and 2 if the input or the output is at fault.
pub fn ended(run: io::Result<bool>) -> ExitCode {
    match run {
        Ok(false) => ExitCode::SUCCESS,
        Ok(true) => ExitCode::FAILURE,
        Err(fault) => {
            report(fault);
            ExitCode::from(2)
        }
    }
}

/// Reports how the program is used, and returns the status of words that it does not take.
pub fn usage(text: &str) -> ExitCode {
    report(format_args!("usage: {text}"));
    ExitCode::from(2)
}

/// Writes a line on standard error, if that takes it.
pub fn report(line: impl Display) {
    let _ = writeln!(io::stderr(), "{line}");
}
