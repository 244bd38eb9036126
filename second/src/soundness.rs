//! The check of document 01's paragraph "A sound table".

use crate::limits::{
    GRAINS_PER_TICK, LAST_TICK, LONGEST_PERIOD, MOST_CORES, ROWS, SHARE_WORDS, SLOTS,
};
use crate::words::{
    BOUNDARIES, BOUNDARY_COUNT, CLOCK, CORES, COST, DEADLINE, PERIOD, PLAN_START, RATE,
    SLOTS_IN_USE, STATE_WORDS, TASKS, WORDS_PER_TASK,
};

/// Whether the lent words are long enough and hold a sound table.
pub fn sound(state: &[u64], shares: &[u32]) -> bool {
    let (Some(state), Some(shares)) = (state.get(..STATE_WORDS), shares.get(..SHARE_WORDS)) else {
        return false;
    };
    let Some(jobs) = sound_tasks(state) else {
        return false;
    };
    sound_boundaries(state, &jobs) && sound_shares(state, shares, &jobs)
}

/// What the later checks need to know of the pending jobs, slot by slot.
struct Jobs {
    /// Ticks from the plan start to the deadline; 0 where no job is pending.
    /// At most one period, so it fits 32 bits.
    ticks_to_deadline: [i32; SLOTS],
    /// The rate where a job is pending, otherwise 0.
    rate: [i32; SLOTS],
}

/// The clauses on cores, clock, plan start, tasks, rates and deadlines.
fn sound_tasks(state: &[u64]) -> Option<Jobs> {
    let (cores, clock, plan_start) = (state[CORES], state[CLOCK], state[PLAN_START]);
    if !(1..=MOST_CORES).contains(&cores) || clock > LAST_TICK || plan_start > clock {
        return None;
    }
    let mut jobs = Jobs {
        ticks_to_deadline: [0; SLOTS],
        rate: [0; SLOTS],
    };
    let mut rates = 0;
    let mut nothing_pending = true;
    for (slot, task) in state[TASKS..].chunks_exact(WORDS_PER_TASK).enumerate() {
        let (period, cost, rate, deadline) = (task[PERIOD], task[COST], task[RATE], task[DEADLINE]);
        if state[SLOTS_IN_USE] >> slot & 1 == 0 {
            // "Slots not in use hold zeros."
            if period | cost | rate | deadline != 0 {
                return None;
            }
            continue;
        }
        if !(1..=LONGEST_PERIOD).contains(&period)
            || !(1..=GRAINS_PER_TICK * period).contains(&cost)
            || !(1..=GRAINS_PER_TICK).contains(&rate)
        {
            return None;
        }
        // "Its rate is cost divided by period, rounded up": the least whole rate with
        // which a period covers the cost. Multiplying is much quicker than dividing.
        if rate * period < cost || (rate - 1) * period >= cost {
            return None;
        }
        rates += rate;
        if deadline != 0 {
            // "In range, above the clock and at most plan start plus period."
            if deadline <= clock || deadline > LAST_TICK || deadline > plan_start + period {
                return None;
            }
            nothing_pending = false;
            jobs.ticks_to_deadline[slot] = (deadline - plan_start) as i32;
            jobs.rate[slot] = rate as i32;
        }
    }
    if rates > GRAINS_PER_TICK * cores {
        return None;
    }
    // "Plan start is at most the clock, and equal to it when nothing is pending."
    if nothing_pending && plan_start != clock {
        return None;
    }
    Some(jobs)
}

/// "The boundaries are the distinct deadlines of pending jobs, rising."
fn sound_boundaries(state: &[u64], jobs: &Jobs) -> bool {
    let count = state[BOUNDARY_COUNT];
    if count > ROWS as u64 {
        return false;
    }
    let (boundaries, past) = state[BOUNDARIES..TASKS].split_at(count as usize);
    if past.iter().any(|&word| word != 0) || boundaries.windows(2).any(|pair| pair[0] >= pair[1]) {
        return false;
    }
    // Each pending deadline must be found, and every boundary must be found by one.
    let mut found = 0_u64;
    for &ticks in jobs.ticks_to_deadline.iter().filter(|&&ticks| ticks != 0) {
        match boundaries.binary_search(&(state[PLAN_START] + ticks as u64)) {
            Ok(row) => found |= 1 << row,
            Err(_) => return false,
        }
    }
    u64::from(found.count_ones()) == count
}

/// The clauses on shares, once the boundaries are known to be as defined.
fn sound_shares(state: &[u64], shares: &[u32], jobs: &Jobs) -> bool {
    let count = state[BOUNDARY_COUNT] as usize;
    let (rows, past) = shares.split_at(count * SLOTS);
    let mut begin = 0;
    for (row, &boundary) in rows.chunks_exact(SLOTS).zip(&state[BOUNDARIES..]) {
        let end = (boundary - state[PLAN_START]) as i32;
        if !sound_row(row, end - begin, end, jobs) {
            return false;
        }
        begin = end;
    }
    // "A share is zero where its row is past the last slice." Every word is folded
    // in without an early end, which lets the compiler take many at once.
    past.iter().fold(0, |all, &share| all | share) == 0
}

/// One slice of `length` ticks, ending `end` ticks after the plan start. At most 60,000
/// ticks long, so a whole slice's grains, and 64 times as many, fit 32 bits.
///
/// This is the one part of the check that meets every word of the rows in use, so it
/// takes no turn that depends on a share and lets the compiler take several at once.
fn sound_row(row: &[u32], length: i32, end: i32, jobs: &Jobs) -> bool {
    let whole = GRAINS_PER_TICK as i32 * length;
    let mut over = 0;
    let mut sum = 0_u32;
    let mut rates = 0;
    for ((&share, &ticks), &rate) in row.iter().zip(&jobs.ticks_to_deadline).zip(&jobs.rate) {
        // "A share is zero ... where its slot has no pending job, and where its
        // slice ends after that job's deadline", otherwise it is "at most 1,000
        // times its slice's length". No pending job counts as deadline 0 here, and
        // every slice ends later than that. All bits are one where the slot runs.
        let runs = -i32::from(ticks >= end);
        let most = whole & runs;
        // Negative when the share is above `most`; a share of 2 to the 31st or more
        // is negative itself.
        over |= share as i32 | most.wrapping_sub(share as i32);
        sum = sum.wrapping_add(share);
        rates += rate & runs;
    }
    // Where no share is over, the sum hasn't wrapped.
    over >= 0 && u64::from(sum) <= length as u64 * rates as u64
}
