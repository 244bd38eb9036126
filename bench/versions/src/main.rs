//! The four versions side by side: how many jobs miss with each of them, on the same
//! boards. `--seed NUMBER` draws other boards; `--write` writes docs/VERSIONS.md and
//! docs/versions.svg below the folder it is started in.

#[path = "../../../include/killaruna.rs"]
mod killaruna;

mod board;
mod generator;
mod global;
mod jobs;
mod page;
mod pinned;
mod planner;
mod plot;
mod referee;
mod results;
mod sliced;
mod table;
mod version;

use std::env;
use std::fs;
use std::io;
use std::process::ExitCode;

use results::{Results, PLANNER, SHORTCUTS, VERSIONS};
use table::Table;

struct Wanted {
    seed: u64,
    write: bool,
}

fn main() -> ExitCode {
    let Some(wanted) = wanted(env::args().skip(1)) else {
        eprintln!("versions [--seed NUMBER] [--write]");
        return ExitCode::from(2);
    };
    let versions = Results::of(&VERSIONS, wanted.seed);
    let by_load = Table::by_load(&versions);
    let by_cores = Table::by_cores(&versions);
    let shortcuts = Table::by_load(&Results::of(&SHORTCUTS, wanted.seed));
    println!("Jobs that miss\n\n{}", by_load.plain());
    println!("{}", by_cores.plain());
    println!("{}", shortcuts.plain());
    if wanted.write {
        let page = page::page(&by_load, &by_cores, &shortcuts, wanted.seed);
        if let Err(error) = write(&page, &plot::plot(&versions)) {
            eprintln!("docs/ cannot be written: {error}");
            return ExitCode::FAILURE;
        }
    }
    let misses = versions.in_all(PLANNER).misses;
    println!("the planner: {misses} misses");
    ExitCode::from(u8::from(misses > 0))
}

/// What the arguments ask for; nothing where they can't be read.
fn wanted(mut arguments: impl Iterator<Item = String>) -> Option<Wanted> {
    let mut wanted = Wanted {
        seed: 1,
        write: false,
    };
    while let Some(argument) = arguments.next() {
        match argument.as_str() {
            "--seed" => wanted.seed = arguments.next()?.parse().ok()?,
            "--write" => wanted.write = true,
            _ => return None,
        }
    }
    Some(wanted)
}

fn write(page: &str, plot: &str) -> io::Result<()> {
    fs::write("docs/VERSIONS.md", page)?;
    fs::write("docs/versions.svg", plot)
}
