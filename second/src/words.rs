//! Where each part of the planner's state lies among the lent state words.

use crate::limits::{ROWS, SLOTS};

pub const CORES: usize = 0;
pub const CLOCK: usize = 1;
pub const PLAN_START: usize = 2;
/// "Which are in use is one 64-bit word, one bit for each slot."
pub const SLOTS_IN_USE: usize = 3;
pub const BOUNDARY_COUNT: usize = 4;
/// The boundaries, rising, zero past the last.
pub const BOUNDARIES: usize = 5;
/// Four words for each slot: period, cost, rate, deadline.
pub const TASKS: usize = BOUNDARIES + ROWS;
pub const WORDS_PER_TASK: usize = 4;
pub const STATE_WORDS: usize = TASKS + WORDS_PER_TASK * SLOTS;

/// Where each word of a task lies within its four.
pub const PERIOD: usize = 0;
pub const COST: usize = 1;
pub const RATE: usize = 2;
/// The deadline of the pending job; 0 when no job is pending. No job's deadline
/// is 0, because a deadline is above the clock.
pub const DEADLINE: usize = 3;

/// The place of one word of one slot's task.
#[inline]
pub const fn task_word(slot: usize, word: usize) -> usize {
    TASKS + WORDS_PER_TASK * slot + word
}

/// The slot a caller names, when it is one of the 64 and in use.
pub(crate) fn slot_in_use(state: &[u64], slot: u64) -> Option<usize> {
    let named = usize::try_from(slot).ok().filter(|&named| named < SLOTS)?;
    (state[SLOTS_IN_USE] >> named & 1 == 1).then_some(named)
}

/// The boundaries of a sound state.
pub(crate) fn boundaries(state: &[u64]) -> &[u64] {
    let count = state[BOUNDARY_COUNT] as usize;
    &state[BOUNDARIES..BOUNDARIES + count]
}
