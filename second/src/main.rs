//! The drill program: lines on standard input, answers on standard output.

#![forbid(unsafe_code)]

use std::io::{stdin, stdout, ErrorKind};
use std::process::ExitCode;

fn main() -> ExitCode {
    match second::run(stdin().lock(), stdout().lock()) {
        Ok(()) => ExitCode::SUCCESS,
        // Whoever read the answers has gone; there is nobody to tell.
        Err(error) if error.kind() == ErrorKind::BrokenPipe => ExitCode::SUCCESS,
        Err(_) => ExitCode::FAILURE,
    }
}
