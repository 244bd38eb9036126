//! Tables to time the calls on.

use crate::killaruna::{SEGMENT_WORDS, SHARE_WORDS, STATE_WORDS};

/// The words that are lent to a call.
#[derive(Clone)]
pub struct Words {
    pub state: Vec<u64>,
    pub shares: Vec<u32>,
    pub segments: Vec<u64>,
}

impl Words {
    /// Puts back what another table holds.
    pub fn restore(&mut self, from: &Words) {
        self.state.copy_from_slice(&from.state);
        self.shares.copy_from_slice(&from.shares);
        self.segments.copy_from_slice(&from.segments);
    }
}

/// The tick at which every board stands, inside slice 0.
pub const CLOCK: u64 = 5;

const CORES: u64 = 16;

/// All 64 tasks together take most of the 16 cores.
const RATE: u64 = 240;

/// Each slot has another period, so that each pending job has a boundary of its own.
fn period(slot: u64) -> u64 {
    40 + 20 * slot
}

/// A board on which the slots from `first` on have jobs pending, `rows` of them, at a clock inside
/// slice 0. Slot 63 has a task only where it is needed, so that a task can be declared.
pub fn board(first: u64, rows: u64) -> Words {
    let mut words = Words {
        state: vec![0; STATE_WORDS],
        shares: vec![0; SHARE_WORDS],
        segments: vec![0; SEGMENT_WORDS],
    };
    let (state, shares) = (&mut words.state, &mut words.shares);
    second::open(state, shares, CORES);
    for slot in 0..(first + rows).max(63) {
        second::declare(state, shares, period(slot), RATE * period(slot));
    }
    // The longest first: each release after it cuts slice 0.
    for slot in (first..first + rows).rev() {
        second::release(state, shares, slot);
    }
    second::advance(state, shares, CLOCK, &mut words.segments);
    words
}
