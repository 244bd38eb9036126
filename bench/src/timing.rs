//! How long a call takes. The planner's call, the second library's and a plain read take turns,
//! each on words restored just before, so that what else the machine does meets all three alike.

use std::hint::black_box;
use std::time::Instant;

use crate::boards::Words;
use crate::calls::Call;

/// Medians, in nanoseconds.
#[derive(Clone, Copy)]
pub struct Times {
    pub planner: f64,
    pub second: f64,
    pub read: f64,
}

impl Times {
    /// The lower of each of the three.
    pub fn least(self, other: Times) -> Times {
        Times {
            planner: self.planner.min(other.planner),
            second: self.second.min(other.second),
            read: self.read.min(other.read),
        }
    }
}

/// Reads the share table, 16 KiB, and does nothing else with it.
#[inline(never)]
fn plain_read(shares: &[u32]) -> u32 {
    shares
        .iter()
        .fold(0, |sum: u32, &share| sum.wrapping_add(share))
}

/// Nanoseconds that one call takes, the clock's own time included.
fn timed<T>(call: impl FnOnce() -> T) -> f64 {
    let begin = Instant::now();
    black_box(call());
    begin.elapsed().as_nanos() as f64
}

fn median(times: &mut [f64]) -> f64 {
    times.sort_by(f64::total_cmp);
    times[times.len() / 2]
}

/// Times one call on the table that is restored before each round.
pub fn time(call: Call, board: &Words, rounds: usize) -> Times {
    let mut words = board.clone();
    let mut times = [(); 4].map(|()| Vec::with_capacity(rounds));
    for _ in 0..rounds {
        words.restore(board);
        times[0].push(timed(|| call.by_planner(black_box(&mut words))));
        words.restore(board);
        times[1].push(timed(|| call.by_second(black_box(&mut words))));
        words.restore(board);
        times[2].push(timed(|| plain_read(black_box(&words.shares))));
        times[3].push(timed(|| ()));
    }
    let [planner, second, read, nothing] = times.map(|mut times| median(&mut times));
    Times {
        planner: planner - nothing,
        second: second - nothing,
        read: read - nothing,
    }
}
