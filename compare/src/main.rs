//! Sends random scripts through two programs that read the drill's lines, and compares
//! their answers byte for byte.

#![forbid(unsafe_code)]

mod bytes;
mod command;
mod difference;
mod generator;
mod malformed;
mod program;
mod script;
mod station;
mod style;
mod tally;

use std::env;
use std::fs;
use std::io;
use std::process::ExitCode;

use generator::Generator;
use program::{run_both, Pieces};
use tally::Tally;

const USAGE: &str = "\
compare [--seed NUMBER] --scripts COUNT PROGRAM_A PROGRAM_B
compare [--seed NUMBER] --random-bytes COUNT PROGRAM_A PROGRAM_B
compare [--seed NUMBER] --write-script LINES FILE";

/// After so many differences no more is learnt.
const MOST_DIFFERENCES: u64 = 10;

enum Task {
    Scripts(u64, [String; 2]),
    RandomBytes(usize, [String; 2]),
    WriteScript(usize, String),
}

fn main() -> ExitCode {
    let mut arguments = env::args().skip(1).collect::<Vec<String>>();
    let Some((seed, task)) = wanted(&mut arguments) else {
        eprintln!("{USAGE}");
        return ExitCode::from(2);
    };
    let done = match task {
        Task::Scripts(count, programs) => compare_scripts(seed, count, &programs),
        Task::RandomBytes(count, programs) => compare_bytes(seed, count, &programs),
        Task::WriteScript(lines, file) => {
            fs::write(file, script::long_script(seed, lines)).map(|()| true)
        }
    };
    match done {
        Ok(true) => ExitCode::SUCCESS,
        Ok(false) => ExitCode::FAILURE,
        Err(error) => {
            eprintln!("compare: {error}");
            ExitCode::from(2)
        }
    }
}

/// The seed and what to do; nothing where the arguments can't be read.
fn wanted(arguments: &mut Vec<String>) -> Option<(u64, Task)> {
    let mut seed = 1;
    if let Some(place) = arguments.iter().position(|word| word == "--seed") {
        seed = arguments.get(place + 1)?.parse().ok()?;
        arguments.drain(place..place + 2);
    }
    let words: Vec<&str> = arguments.iter().map(String::as_str).collect();
    let programs = |a: &str, b: &str| [a.to_string(), b.to_string()];
    let task = match words[..] {
        ["--scripts", count, a, b] => Task::Scripts(count.parse().ok()?, programs(a, b)),
        ["--random-bytes", count, a, b] => Task::RandomBytes(count.parse().ok()?, programs(a, b)),
        ["--write-script", lines, file] => Task::WriteScript(lines.parse().ok()?, file.to_string()),
        _ => return None,
    };
    Some((seed, task))
}

fn compare_scripts(seed: u64, count: u64, programs: &[String; 2]) -> io::Result<bool> {
    let mut tally = Tally::default();
    let mut differ = 0;
    let mut compared = 0;
    while compared < count && differ < MOST_DIFFERENCES {
        let input = Input {
            title: format!("seed {seed} script {compared}"),
            bytes: script::script(seed, compared),
            pieces: pieces(seed, compared),
        };
        differ += u64::from(!compare(&input, programs, &mut tally)?);
        compared += 1;
    }
    let missing = tally.missing();
    print!("{tally}");
    for kind in &missing {
        println!("never occurred: {kind}");
    }
    println!("{compared} scripts, {differ} differ");
    Ok(differ == 0 && missing.is_empty())
}

fn compare_bytes(seed: u64, count: usize, programs: &[String; 2]) -> io::Result<bool> {
    let mut tally = Tally::default();
    let input = Input {
        title: format!("seed {seed} random bytes"),
        bytes: bytes::random_bytes(seed, count),
        pieces: Pieces {
            largest: 100_000,
            waits: false,
            seed,
        },
    };
    let same = compare(&input, programs, &mut tally)?;
    print!("{tally}");
    println!(
        "{count} bytes, {}",
        if same { "the same" } else { "differ" }
    );
    Ok(same)
}

/// What both programs are given.
struct Input {
    title: String,
    bytes: Vec<u8>,
    pieces: Pieces,
}

/// Whether both programs answer the input alike, and with one answer for each line.
fn compare(input: &Input, programs: &[String; 2], tally: &mut Tally) -> io::Result<bool> {
    let runs = run_both(programs, &input.bytes, input.pieces)?;
    let fault = if runs[0] != runs[1] {
        Some(difference::describe(&input.bytes, &runs))
    } else if !runs[0].ended_well {
        Some("both programs ended badly".to_string())
    } else {
        tally.count(&input.bytes, &runs[0].answers).err()
    };
    if let Some(fault) = &fault {
        println!("{}: {fault}", input.title);
        difference::save(&input.title, &input.bytes);
    }
    Ok(fault.is_none())
}

/// Half of the scripts arrive whole, the others in pieces.
fn pieces(seed: u64, number: u64) -> Pieces {
    let mut generator = Generator::seeded(seed ^ number, 2);
    let whole = 1 << 20;
    Pieces {
        largest: generator.one_of(&[whole, whole, whole, whole, 7, 50, 400, 5_000]),
        waits: generator.once_in(2),
        seed: number,
    }
}
