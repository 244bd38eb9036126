//! Random histories of calls. After every call the table is sound; the record of who
//! held which core in each grain keeps every promise of document 01; and cutting the
//! same history's advances elsewhere gives the same record and the same words.

#[path = "../common/mod.rs"]
mod common;
mod definition;
mod play;
mod record;
mod shadows;
mod style;

use common::Generator;
use play::History;
use style::Style;

const HISTORIES: u64 = 6400;

#[test]
fn random_histories_keep_every_promise() {
    let mut grain_by_grain = 0;
    let mut by_intervals = 0;
    let mut calls = 0;
    let mut refusals = [0_u64; 14];
    let (mut jobs, mut finished) = (0, 0);
    let mut grains = 0;
    for number in 0..HISTORIES {
        let mut generator = Generator::seeded(number);
        let style = Style::chosen(number, &mut generator);
        let history = History::played(style, &mut generator);
        if history.style.long {
            record::check_by_intervals(&history);
            by_intervals += 1;
        } else {
            grains += record::check_grain_by_grain(&history);
            grain_by_grain += 1;
        }
        calls += history.calls;
        jobs += history.jobs.len();
        finished += history
            .jobs
            .iter()
            .filter(|job| job.deadline <= history.lent.clock())
            .count();
        for (sum, count) in refusals.iter_mut().zip(history.refusals) {
            *sum += count;
        }
    }
    println!("histories: {grain_by_grain} grain by grain, {by_intervals} by intervals");
    println!("{calls} calls, {jobs} jobs, {finished} of them until their deadline, {grains} grains of cores");
    println!("refusals by number {refusals:?}");
    assert!(grain_by_grain + by_intervals >= 5000);
    assert!(grain_by_grain >= 5000);
    assert!(
        finished >= 50_000,
        "most jobs are followed until their deadline"
    );
    // Every refusal the calls can give with whole buffers and sound tables was met.
    for number in [2, 3, 4, 5, 6, 7, 8, 10, 11, 12, 13] {
        assert!(refusals[number] > 0, "refusal {number} was never met");
    }
    assert_eq!((refusals[1], refusals[9]), (0, 0), "every table was sound");
}
