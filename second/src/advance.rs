//! Advance: the clock moves and the cores are held by the wrap.

use crate::answer::{refusal, Answer};
use crate::limits::{
    GRAINS_PER_TICK, LAST_TICK, SEGMENT_BUFFER_WORDS, SHARE_WORDS, SLOTS, WORDS_PER_SEGMENT,
};
use crate::soundness::sound;
use crate::words::{
    boundaries, task_word, BOUNDARIES, BOUNDARY_COUNT, CLOCK, DEADLINE, PLAN_START,
};
use crate::wrap::Wrap;

/// "Advance (tick, lent segment buffer of 64-bit words). Value: tick reached, and
/// the count of segments."
pub fn advance(state: &mut [u64], shares: &mut [u32], tick: u64, segments: &mut [u64]) -> Answer {
    if !sound(state, shares) {
        return Answer::refused(refusal::NOT_SOUND);
    }
    if tick < state[CLOCK] {
        return Answer::refused(refusal::BEFORE_CLOCK);
    }
    if tick > LAST_TICK {
        return Answer::refused(refusal::BEYOND_LAST_TICK);
    }
    if segments.len() < SEGMENT_BUFFER_WORDS {
        return Answer::refused(refusal::SEGMENT_BUFFER);
    }
    let Some(&boundary) = boundaries(state).first() else {
        // "With no boundary it moves to a, and the plan start with it."
        state[CLOCK] = tick;
        state[PLAN_START] = tick;
        return Answer::accepted(tick);
    };
    // "The clock moves to a or to the first boundary, whichever is earlier."
    let reached = tick.min(boundary);
    let count = write_segments(state, &shares[..SLOTS], reached, segments);
    state[CLOCK] = reached;
    if reached == boundary {
        end_slice(state, &mut shares[..SHARE_WORDS], boundary);
    }
    Answer {
        number: 0,
        value: reached,
        count,
    }
}

/// Writes "the parts of the wrap from the old clock to the tick reached" and counts
/// them. "Words after them keep their contents."
fn write_segments(state: &[u64], row: &[u32], reached: u64, segments: &mut [u64]) -> u64 {
    let from = GRAINS_PER_TICK * state[CLOCK];
    let to = GRAINS_PER_TICK * reached;
    // An advance to the clock itself has nothing to hand back.
    if from == to {
        return 0;
    }
    let mut count = 0;
    let mut places = segments.chunks_exact_mut(WORDS_PER_SEGMENT);
    for segment in Wrap::lay(row, state[PLAN_START], state[BOUNDARIES]) {
        let (first, after) = (segment.first.max(from), segment.after.min(to));
        if first >= after {
            continue;
        }
        // 64 slots cut by at most 15 ends of stretches: "at most 79 exist", and the
        // buffer has room for 80.
        let Some(place) = places.next() else { break };
        place.copy_from_slice(&[segment.core, segment.slot as u64, first, after]);
        count += 1;
    }
    count
}

/// "At a boundary the jobs with that deadline end, row 0 is dropped, the rows move
/// up, the last row becomes zero and the plan start is the boundary."
fn end_slice(state: &mut [u64], shares: &mut [u32], boundary: u64) {
    for slot in 0..SLOTS {
        let deadline = &mut state[task_word(slot, DEADLINE)];
        if *deadline == boundary {
            *deadline = 0;
        }
    }
    // Rows past the last slice are zero, so only the rows in use have to move.
    let count = state[BOUNDARY_COUNT] as usize;
    shares.copy_within(SLOTS..count * SLOTS, 0);
    shares[(count - 1) * SLOTS..count * SLOTS].fill(0);
    state.copy_within(BOUNDARIES + 1..BOUNDARIES + count, BOUNDARIES);
    state[BOUNDARIES + count - 1] = 0;
    state[BOUNDARY_COUNT] -= 1;
    state[PLAN_START] = boundary;
}
