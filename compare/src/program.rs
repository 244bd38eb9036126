//! One run of a program: a script in, its answers out.

use std::io::{self, Read, Write};
use std::process::{ChildStdin, Command, Stdio};
use std::thread;
use std::time::Duration;

use crate::generator::Generator;

/// How the input is handed over.
#[derive(Clone, Copy)]
pub struct Pieces {
    /// The largest piece, in bytes.
    pub largest: usize,
    /// Waits a little after each piece, so that the program meets it alone.
    pub waits: bool,
    pub seed: u64,
}

/// What a run of a program leaves.
#[derive(PartialEq, Eq)]
pub struct Run {
    pub answers: Vec<u8>,
    pub ended_well: bool,
}

/// Runs both programs on the same input at the same time.
pub fn run_both(programs: &[String; 2], input: &[u8], pieces: Pieces) -> io::Result<[Run; 2]> {
    thread::scope(|scope| {
        let first = scope.spawn(|| run(&programs[0], input, pieces));
        let second = run(&programs[1], input, pieces)?;
        let first = first.join().expect("the runs don't panic")?;
        Ok([first, second])
    })
}

fn run(program: &str, input: &[u8], pieces: Pieces) -> io::Result<Run> {
    let mut child = Command::new(program)
        .stdin(Stdio::piped())
        .stdout(Stdio::piped())
        .spawn()
        .map_err(|error| io::Error::new(error.kind(), format!("{program}: {error}")))?;
    let stdin = child.stdin.take().expect("it is piped");
    let mut stdout = child.stdout.take().expect("it is piped");
    let mut answers = Vec::new();
    // Input and answers go at the same time, or full pipes would stop both sides.
    thread::scope(|scope| {
        scope.spawn(|| feed(stdin, input, pieces));
        stdout.read_to_end(&mut answers)
    })?;
    let ended_well = child.wait()?.success();
    Ok(Run {
        answers,
        ended_well,
    })
}

/// Writes the input piece by piece and closes it. A program that ends early is found
/// by its answers, so a failed write only ends the feeding.
fn feed(mut stdin: ChildStdin, input: &[u8], pieces: Pieces) {
    let mut generator = Generator::seeded(pieces.seed, 0);
    let mut rest = input;
    while !rest.is_empty() {
        let length = generator.between(1, pieces.largest as u64) as usize;
        let (piece, after) = rest.split_at(length.min(rest.len()));
        if stdin.write_all(piece).is_err() {
            return;
        }
        if pieces.waits {
            thread::sleep(Duration::from_micros(20));
        }
        rest = after;
    }
}
