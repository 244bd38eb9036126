//! Times the six calls: the planner through the station library, the second library on the same
//! words, and a plain read of 16 KiB. With `--plot` it writes docs/growth.svg instead.

#[path = "../../include/killaruna.rs"]
mod killaruna;

mod boards;
mod calls;
mod plot;
mod timing;

use calls::{Call, CALLS};
use timing::Times;

const ROWS_IN_USE: [u64; 4] = [1, 8, 32, 64];

/// Each median is taken of so many rounds.
const ROUNDS: usize = 10_001;

/// The names of the ratios, in the order of the columns.
const RATIOS: [&str; 3] = ["planner/second", "planner/read", "second/read"];

fn ratios(times: Times) -> [f64; 3] {
    let Times {
        planner,
        second,
        read,
    } = times;
    [planner / second, planner / read, second / read]
}

/// What both libraries answer, which must be the same.
fn answer(call: Call, rows: u64) -> String {
    let board = call.board(rows);
    let planner = call.by_planner(&mut board.clone());
    assert_eq!(planner, call.by_second(&mut board.clone()));
    match planner {
        0 => "done".to_string(),
        number => format!("refused {number}"),
    }
}

/// Prints one line and hands back its ratios.
fn line(call: Call, rows: u64) -> [f64; 3] {
    let times = timing::time(call, &call.board(rows), ROUNDS);
    let ratios = ratios(times);
    println!(
        "{:9}{rows:>5}  {:11}{:>8.0}{:>8.0}{:>8.0}{:>16.2}{:>14.2}{:>13.2}",
        format!("{call:?}").to_lowercase(),
        answer(call, rows),
        times.planner,
        times.second,
        times.read,
        ratios[0],
        ratios[1],
        ratios[2]
    );
    ratios
}

fn table() {
    println!(
        "nanoseconds for one call, medians of {ROUNDS}; a release's rows count the one it adds"
    );
    println!(
        "call      rows  answer      planner  second    read  {}  {}  {}",
        RATIOS[0], RATIOS[1], RATIOS[2]
    );
    let mut worst = [(0.0, Call::Open, 0); 3];
    for (call, rows) in CALLS
        .iter()
        .flat_map(|&call| ROWS_IN_USE.map(|rows| (call, rows)))
    {
        for (worst, ratio) in worst.iter_mut().zip(line(call, rows)) {
            if ratio > worst.0 {
                *worst = (ratio, call, rows);
            }
        }
    }
    for (name, (ratio, call, rows)) in RATIOS.iter().zip(worst) {
        let call = format!("{call:?}").to_lowercase();
        println!("worst {name}: {ratio:.2} ({call}, {rows} rows)");
    }
}

fn main() {
    match std::env::args().nth(1).as_deref() {
        None => table(),
        Some("--plot") => plot::write(),
        Some(_) => {
            eprintln!("options: [--plot]");
            std::process::exit(2);
        }
    }
}
