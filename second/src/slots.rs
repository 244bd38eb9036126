//! Open, declare and withdraw: the calls that decide which slots are in use.

use crate::answer::{refusal, Answer};
use crate::limits::{GRAINS_PER_TICK, LONGEST_PERIOD, MOST_CORES, SHARE_WORDS, SLOTS};
use crate::soundness::sound;
use crate::words::{
    slot_in_use, task_word, CORES, COST, DEADLINE, PERIOD, RATE, SLOTS_IN_USE, STATE_WORDS,
};

/// "A fresh table, clock 0, all 4,096 words zero. Value: cores."
pub fn open(state: &mut [u64], shares: &mut [u32], cores: u64) -> Answer {
    let (Some(state), Some(shares)) = (state.get_mut(..STATE_WORDS), shares.get_mut(..SHARE_WORDS))
    else {
        return Answer::refused(refusal::NOT_SOUND);
    };
    if !(1..=MOST_CORES).contains(&cores) {
        return Answer::refused(refusal::CORES);
    }
    state.fill(0);
    shares.fill(0);
    state[CORES] = cores;
    Answer::accepted(cores)
}

/// "The lowest free slot. Value: the slot."
pub fn declare(state: &mut [u64], shares: &mut [u32], period: u64, cost: u64) -> Answer {
    if !sound(state, shares) {
        return Answer::refused(refusal::NOT_SOUND);
    }
    if !(1..=LONGEST_PERIOD).contains(&period) {
        return Answer::refused(refusal::PERIOD);
    }
    if !(1..=GRAINS_PER_TICK * period).contains(&cost) {
        return Answer::refused(refusal::COST);
    }
    let slot = state[SLOTS_IN_USE].trailing_ones() as usize;
    if slot == SLOTS {
        return Answer::refused(refusal::SLOTS_FULL);
    }
    // "Its rate is cost divided by period, rounded up."
    let rate = cost.div_ceil(period);
    // Slots not in use hold rate 0, so all 64 may be summed.
    let rates: u64 = (0..SLOTS).map(|each| state[task_word(each, RATE)]).sum();
    if rates + rate > GRAINS_PER_TICK * state[CORES] {
        return Answer::refused(refusal::RATES);
    }
    state[SLOTS_IN_USE] |= 1 << slot;
    state[task_word(slot, PERIOD)] = period;
    state[task_word(slot, COST)] = cost;
    state[task_word(slot, RATE)] = rate;
    Answer::accepted(slot as u64)
}

/// "The slot is free again and may be used again at once. Value 0."
pub fn withdraw(state: &mut [u64], shares: &mut [u32], slot: u64) -> Answer {
    if !sound(state, shares) {
        return Answer::refused(refusal::NOT_SOUND);
    }
    let Some(slot) = slot_in_use(state, slot) else {
        return Answer::refused(refusal::SLOT);
    };
    if state[task_word(slot, DEADLINE)] != 0 {
        return Answer::refused(refusal::JOB_PENDING);
    }
    // No job is pending, so the slot's shares are zero already.
    state[SLOTS_IN_USE] &= !(1 << slot);
    state[task_word(slot, PERIOD)..=task_word(slot, DEADLINE)].fill(0);
    Answer::accepted(0)
}
