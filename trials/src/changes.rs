//! Changes that a fault might make to lent words between two calls. Some leave the table sound:
//! there the planner has to go on by the rules, and not only to refuse.

use second::words::{
    task_word, BOUNDARIES, BOUNDARY_COUNT, CLOCK, CORES, COST, DEADLINE, PERIOD, PLAN_START, RATE,
    STATE_WORDS,
};

use crate::generator::Generator;
use crate::killaruna::{RESULT_WORDS, SEGMENT_WORDS, SHARE_WORDS};
use crate::lent::Lent;

type Change = fn(&mut Lent, &mut Generator);

/// Those of the first list mostly leave a sound table sound, those of the second mostly don't.
const MILD: [(&str, Change); 8] = [
    ("a share lowered", share_lowered),
    ("a share moved to another slot", share_moved),
    ("the clock moved within slice 0 or to its end", clock_moved),
    ("the plan start moved towards the clock", plan_start_moved),
    ("a cost changed within its rate", cost_changed),
    ("more cores", more_cores),
    ("longer areas", longer),
    ("a segment word changed", segment_changed),
];
const HARSH: [(&str, Change); 8] = [
    ("a bit of the state", state_bit),
    ("a bit of a share", share_bit),
    ("a word of the state", state_word),
    ("a share replaced", share_replaced),
    ("a state word one higher or lower", state_one_off),
    ("a share one higher", share_raised),
    ("two state words exchanged", state_exchanged),
    ("a shorter area", shorter),
];

/// Makes one change and names it.
pub fn change(lent: &mut Lent, generator: &mut Generator) -> &'static str {
    let changes = generator.one_of(&[MILD, HARSH]);
    let (name, change) = generator.one_of(&changes);
    change(lent, generator);
    name
}

/// The history's table is sound here, so that its counts and periods can be relied on.
fn rows(lent: &Lent) -> u64 {
    lent.state.words()[BOUNDARY_COUNT]
}

/// A share of a row in use, or any where none is.
fn some_share(lent: &Lent, generator: &mut Generator) -> usize {
    let rows = rows(lent);
    match generator.below(8) {
        0 => generator.below(SHARE_WORDS as u64) as usize,
        _ => (64 * generator.below(rows.max(1)) + generator.below(64)) as usize,
    }
}

/// A share that isn't zero, where a few tries find one.
fn held_share(lent: &Lent, generator: &mut Generator) -> usize {
    let mut share = some_share(lent, generator);
    for _ in 0..50 {
        if lent.shares.words()[share] != 0 {
            break;
        }
        share = some_share(lent, generator);
    }
    share
}

/// A state word, often one of the first or of the first tasks.
fn some_word(generator: &mut Generator) -> usize {
    let word = match generator.below(3) {
        0 => generator.below(12),
        1 => 69 + generator.below(48),
        _ => generator.below(STATE_WORDS as u64),
    };
    word as usize
}

fn share_lowered(lent: &mut Lent, generator: &mut Generator) {
    let share = held_share(lent, generator);
    let word = &mut lent.shares.words_mut()[share];
    let one_less = u64::from(word.saturating_sub(1));
    let some = generator.between(0, one_less);
    *word = generator.one_of(&[one_less, one_less, some]) as u32;
}

fn share_moved(lent: &mut Lent, generator: &mut Generator) {
    let share = held_share(lent, generator);
    let other = 64 * (share / 64) + generator.below(64) as usize;
    let words = lent.shares.words_mut();
    let moved = generator.between(0, u64::from(words[share]).min(500)) as u32;
    words[share] -= moved;
    words[other] = words[other].wrapping_add(moved);
}

fn clock_moved(lent: &mut Lent, generator: &mut Generator) {
    let state = lent.state.words_mut();
    if state[BOUNDARY_COUNT] > 0 {
        state[CLOCK] = generator.between(state[PLAN_START], state[BOUNDARIES]);
    }
}

fn plan_start_moved(lent: &mut Lent, generator: &mut Generator) {
    let state = lent.state.words_mut();
    state[PLAN_START] = generator.between(state[PLAN_START], state[CLOCK]);
}

fn cost_changed(lent: &mut Lent, generator: &mut Generator) {
    let state = lent.state.words_mut();
    let slot = generator.below(64) as usize;
    let (period, rate) = (state[task_word(slot, PERIOD)], state[task_word(slot, RATE)]);
    if period > 0 {
        state[task_word(slot, COST)] = generator.between((rate - 1) * period + 1, rate * period);
    }
}

fn more_cores(lent: &mut Lent, generator: &mut Generator) {
    let state = lent.state.words_mut();
    state[CORES] = generator.between(state[CORES], 16);
}

fn longer(lent: &mut Lent, generator: &mut Generator) {
    let mut more = |least: usize| least + generator.below(9) as usize;
    lent.state.resize(more(STATE_WORDS));
    lent.shares.resize(more(SHARE_WORDS));
    lent.segments.resize(more(SEGMENT_WORDS));
    lent.result.resize(more(RESULT_WORDS));
}

fn segment_changed(lent: &mut Lent, generator: &mut Generator) {
    let word = generator.below(SEGMENT_WORDS as u64) as usize;
    lent.segments.words_mut()[word] = generator.wild();
}

fn state_bit(lent: &mut Lent, generator: &mut Generator) {
    lent.state.words_mut()[some_word(generator)] ^= 1 << generator.below(64);
}

fn share_bit(lent: &mut Lent, generator: &mut Generator) {
    let share = some_share(lent, generator);
    lent.shares.words_mut()[share] ^= 1 << generator.below(32);
}

fn state_word(lent: &mut Lent, generator: &mut Generator) {
    lent.state.words_mut()[some_word(generator)] = generator.wild();
}

fn share_replaced(lent: &mut Lent, generator: &mut Generator) {
    let share = some_share(lent, generator);
    lent.shares.words_mut()[share] = generator.wild() as u32;
}

fn state_one_off(lent: &mut Lent, generator: &mut Generator) {
    let task = task_word(generator.below(64) as usize, 0);
    let some = some_word(generator);
    let word = generator.one_of(&[
        some,
        task + PERIOD,
        task + COST,
        task + RATE,
        task + DEADLINE,
        BOUNDARY_COUNT,
    ]);
    let word = &mut lent.state.words_mut()[word];
    *word = word.wrapping_add(generator.one_of(&[1, u64::MAX]));
}

fn share_raised(lent: &mut Lent, generator: &mut Generator) {
    let share = held_share(lent, generator);
    let word = &mut lent.shares.words_mut()[share];
    *word = word.wrapping_add(1);
}

fn state_exchanged(lent: &mut Lent, generator: &mut Generator) {
    let (one, other) = (some_word(generator), some_word(generator));
    lent.state.words_mut().swap(one, other);
}

fn shorter(lent: &mut Lent, generator: &mut Generator) {
    let area = generator.below(4);
    let mut less = |most: usize| {
        let some = generator.below(most as u64) as usize;
        generator.one_of(&[most - 1, most - 1, some, 0])
    };
    match area {
        0 => lent.state.resize(less(STATE_WORDS)),
        1 => lent.shares.resize(less(SHARE_WORDS)),
        2 => lent.segments.resize(less(SEGMENT_WORDS)),
        _ => lent.result.resize(less(RESULT_WORDS)),
    }
}
