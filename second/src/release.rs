//! Release: a task's next job enters the plan.

use crate::answer::{refusal, Answer};
use crate::cutting::cut;
use crate::limits::{GRAINS_PER_TICK, LAST_TICK, ROWS, SHARE_WORDS, SLOTS};
use crate::soundness::sound;
use crate::words::{
    boundaries, slot_in_use, task_word, BOUNDARIES, BOUNDARY_COUNT, CLOCK, DEADLINE, PERIOD,
    PLAN_START, RATE,
};
use crate::wrap::Wrap;

/// "Release (slot). Value: the deadline."
pub fn release(state: &mut [u64], shares: &mut [u32], slot: u64) -> Answer {
    if !sound(state, shares) {
        return Answer::refused(refusal::NOT_SOUND);
    }
    let Some(slot) = slot_in_use(state, slot) else {
        return Answer::refused(refusal::SLOT);
    };
    if state[task_word(slot, DEADLINE)] != 0 {
        return Answer::refused(refusal::JOB_PENDING);
    }
    let deadline = state[CLOCK] + state[task_word(slot, PERIOD)];
    if deadline > LAST_TICK {
        return Answer::refused(refusal::BEYOND_LAST_TICK);
    }
    let place = boundaries(state).binary_search(&deadline);
    // A sound table never comes here with 64 rows in use: that takes 64 pending
    // jobs, and this slot has none. The rule is kept as it is written.
    if place.is_err() && state[BOUNDARY_COUNT] >= ROWS as u64 {
        return Answer::refused(refusal::ROWS_FULL);
    }
    let shares = &mut shares[..SHARE_WORDS];
    restart_plan(state, shares);
    if let Err(row) = place {
        add_boundary(state, shares, row, deadline);
    }
    // "The new job gets rate times length in each slice that ends at or before d."
    let rate = state[task_word(slot, RATE)];
    let mut begin = state[PLAN_START];
    for (row, &end) in boundaries(state).iter().enumerate() {
        if end > deadline {
            break;
        }
        shares[row * SLOTS + slot] = (rate * (end - begin)) as u32;
        begin = end;
    }
    state[task_word(slot, DEADLINE)] = deadline;
    Answer::accepted(deadline)
}

/// "Each share of slice 0 is lowered by what that task has run since the plan
/// start; the plan start becomes t."
fn restart_plan(state: &mut [u64], shares: &mut [u32]) {
    let (clock, plan_start) = (state[CLOCK], state[PLAN_START]);
    // At the plan start nothing has run yet; with nothing pending the clock is
    // the plan start.
    if clock == plan_start {
        return;
    }
    let now = GRAINS_PER_TICK * clock;
    let mut ran = [0_u32; SLOTS];
    for segment in Wrap::lay(&shares[..SLOTS], plan_start, state[BOUNDARIES]) {
        ran[segment.slot] += segment.after.min(now).saturating_sub(segment.first) as u32;
    }
    for (share, ran) in shares.iter_mut().zip(ran) {
        *share -= ran;
    }
    state[PLAN_START] = clock;
}

/// Makes the deadline boundary number `row`, with a row of its own: "where d falls
/// inside a slice, that slice is cut in two; where d lies beyond the last boundary
/// (or there is none), a new slice is added".
fn add_boundary(state: &mut [u64], shares: &mut [u32], row: usize, deadline: u64) {
    let count = state[BOUNDARY_COUNT] as usize;
    if row < count {
        let begin = if row == 0 {
            state[PLAN_START]
        } else {
            state[BOUNDARIES + row - 1]
        };
        let end = state[BOUNDARIES + row];
        shares.copy_within((row + 1) * SLOTS..count * SLOTS, (row + 2) * SLOTS);
        let (first, second) = shares[row * SLOTS..(row + 2) * SLOTS].split_at_mut(SLOTS);
        cut(first, second, deadline - begin, end - begin);
    }
    // Past the last slice every row is zero already, so an added slice needs none.
    state.copy_within(BOUNDARIES + row..BOUNDARIES + count, BOUNDARIES + row + 1);
    state[BOUNDARIES + row] = deadline;
    state[BOUNDARY_COUNT] += 1;
}
