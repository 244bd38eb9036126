//! For each clause of "A sound table", tables that break only this clause, beside
//! tables that just keep it.

mod common;

use common::{accepted, Lent};
use second::limits::LAST_TICK;
use second::words::{
    task_word, BOUNDARIES, BOUNDARY_COUNT, CLOCK, CORES, COST, DEADLINE, PERIOD, PLAN_START, RATE,
    SLOTS_IN_USE,
};
use second::Holding;

/// Two cores; slots 0, 1 and 2 have jobs until 10, 5 and 7; slot 3 has none. The plan
/// starts at 1 and the clock is 3, so the slices are 1 to 5, 5 to 7 and 7 to 10. Rates
/// are 500, 300, 100 and 100.
fn base() -> Lent {
    let mut lent = Lent::opened(2);
    for (slot, (period, cost)) in [(10, 5000), (4, 1200), (7, 700), (5, 500)]
        .into_iter()
        .enumerate()
    {
        assert_eq!(lent.declare(period, cost), accepted(slot as u64));
    }
    lent.release(0);
    lent.release(2);
    lent.advance(1);
    lent.release(1);
    lent.advance(3);
    assert_eq!((lent.clock(), lent.plan_start()), (3, 1));
    assert_eq!(lent.boundaries(), [5, 7, 10]);
    lent
}

/// Two tasks of rate 600 on two cores, one slice of 10 ticks.
fn two_heavy() -> Lent {
    let mut lent = Lent::opened(2);
    for slot in 0..2 {
        assert_eq!(lent.declare(10, 6000), accepted(slot));
        assert_eq!(lent.release(slot), accepted(10));
    }
    lent
}

fn keeps(mut lent: Lent, change: impl FnOnce(&mut Lent)) {
    change(&mut lent);
    assert!(lent.sound(), "the clause is just kept");
    assert_ne!(lent.holder(0), Holding::Refused(1));
    assert_ne!(lent.declare(1, 1).number, 1);
}

fn breaks(mut lent: Lent, change: impl FnOnce(&mut Lent)) {
    assert!(lent.sound(), "the table is sound before the change");
    change(&mut lent);
    assert!(!lent.sound());
    lent.refuses(1, |lent| lent.declare(1, 1));
    lent.refuses(1, |lent| lent.withdraw(3));
    lent.refuses(1, |lent| lent.release(3));
    lent.refuses(1, |lent| lent.advance(LAST_TICK));
    assert_eq!(lent.holder(0), Holding::Refused(1));
    assert_eq!(lent.open(2), accepted(2), "open asks for length only");
}

fn set_task(lent: &mut Lent, slot: usize, period: u64, cost: u64, rate: u64) {
    lent.state[task_word(slot, PERIOD)] = period;
    lent.state[task_word(slot, COST)] = cost;
    lent.state[task_word(slot, RATE)] = rate;
}

fn set_share(lent: &mut Lent, row: usize, slot: usize, share: u32) {
    lent.shares[64 * row + slot] = share;
}

#[test]
fn cores_are_1_to_16() {
    breaks(Lent::opened(1), |lent| lent.state[CORES] = 0);
    keeps(base(), |lent| lent.state[CORES] = 16);
    breaks(base(), |lent| lent.state[CORES] = 17);
    breaks(base(), |lent| lent.state[CORES] = u64::MAX);
}

#[test]
fn clock_is_in_range() {
    keeps(Lent::opened(1), |lent| {
        lent.state[CLOCK..=PLAN_START].fill(LAST_TICK)
    });
    breaks(Lent::opened(1), |lent| {
        lent.state[CLOCK..=PLAN_START].fill(LAST_TICK + 1)
    });
    breaks(Lent::opened(1), |lent| {
        lent.state[CLOCK..=PLAN_START].fill(u64::MAX)
    });
}

#[test]
fn periods_are_lawful() {
    keeps(base(), |lent| set_task(lent, 3, 60_000, 60_000, 1));
    breaks(base(), |lent| set_task(lent, 3, 60_001, 60_001, 1));
    breaks(base(), |lent| set_task(lent, 3, 0, 500, 100));
    breaks(base(), |lent| set_task(lent, 3, 0, 0, 0));
    breaks(base(), |lent| set_task(lent, 3, u64::MAX, u64::MAX, 1));
}

#[test]
fn costs_are_lawful() {
    keeps(base(), |lent| set_task(lent, 3, 5, 1, 1));
    breaks(base(), |lent| set_task(lent, 3, 5, 0, 0));
    keeps(base(), |lent| set_task(lent, 3, 5, 5000, 1000));
    breaks(base(), |lent| set_task(lent, 3, 5, 5001, 1001));
    breaks(base(), |lent| set_task(lent, 3, 5, 5001, 1000));
    breaks(base(), |lent| {
        set_task(lent, 3, 5, u64::MAX, u64::MAX.div_ceil(5))
    });
}

#[test]
fn rates_are_cost_divided_by_period_rounded_up() {
    keeps(base(), |lent| set_task(lent, 3, 5, 501, 101));
    breaks(base(), |lent| set_task(lent, 3, 5, 501, 100));
    breaks(base(), |lent| set_task(lent, 3, 5, 500, 101));
    breaks(base(), |lent| set_task(lent, 3, 5, 500, 99));
    breaks(base(), |lent| set_task(lent, 3, 5, 500, 0));
    breaks(base(), |lent| set_task(lent, 3, 5, 500, u64::MAX));
    // Four rates whose products with the period, and whose sum, are right only when they
    // wrap round 64 bits.
    let four = |lent: &mut Lent, more: u64| {
        for slot in 3..7 {
            lent.state[SLOTS_IN_USE] |= 1 << slot;
            set_task(lent, slot, 4, 4, 1 + more);
        }
    };
    keeps(base(), |lent| four(lent, 0));
    breaks(base(), |lent| four(lent, 1 << 62));
}

#[test]
fn rates_sum_to_at_most_1000_times_the_cores() {
    keeps(base(), |lent| lent.state[CORES] = 1);
    breaks(base(), |lent| {
        lent.state[CORES] = 1;
        set_task(lent, 3, 5, 501, 101);
    });
    breaks(base(), |lent| {
        for slot in 3..64 {
            lent.state[SLOTS_IN_USE] |= 1 << slot;
            set_task(lent, slot, 1, 1000, 1000);
        }
    });
}

#[test]
fn deadlines_are_in_range() {
    let mut lent = Lent::opened(1);
    lent.declare(5, 5);
    lent.advance(LAST_TICK - 1);
    let pending = |lent: &mut Lent, deadline: u64| {
        lent.state[task_word(0, DEADLINE)] = deadline;
        lent.state[BOUNDARIES] = deadline;
        lent.state[BOUNDARY_COUNT] = 1;
    };
    keeps(lent.clone(), |lent| pending(lent, LAST_TICK));
    breaks(lent.clone(), |lent| pending(lent, LAST_TICK + 1));
    breaks(lent.clone(), |lent| pending(lent, LAST_TICK + 4));
    breaks(lent, |lent| pending(lent, u64::MAX));
}

#[test]
fn deadlines_are_above_the_clock() {
    keeps(base(), |lent| lent.state[CLOCK] = 4);
    breaks(base(), |lent| lent.state[CLOCK] = 5);
    breaks(base(), |lent| lent.state[CLOCK] = 20);
}

#[test]
fn deadlines_are_at_most_plan_start_plus_period() {
    keeps(base(), |lent| set_task(lent, 2, 6, 600, 100));
    breaks(base(), |lent| set_task(lent, 2, 5, 500, 100));
}

#[test]
fn plan_start_is_at_most_the_clock() {
    keeps(base(), |lent| lent.state[CLOCK] = 1);
    breaks(base(), |lent| lent.state[CLOCK] = 0);
}

#[test]
fn plan_start_is_the_clock_when_nothing_is_pending() {
    let mut lent = Lent::opened(1);
    lent.advance(5);
    keeps(lent.clone(), |lent| lent.state[PLAN_START] = 5);
    breaks(lent.clone(), |lent| lent.state[PLAN_START] = 4);
    breaks(lent.clone(), |lent| lent.state[PLAN_START] = 0);
    breaks(lent, |lent| lent.state[PLAN_START] = 6);
}

#[test]
fn boundaries_are_the_distinct_pending_deadlines_rising() {
    // One that is no job's deadline: past the last, and in the middle with a zero row.
    breaks(base(), |lent| {
        lent.state[BOUNDARY_COUNT] = 4;
        lent.state[BOUNDARIES + 3] = 12;
    });
    breaks(base(), |lent| lent.state[BOUNDARIES + 1] = 8);
    // A pending deadline that is none of them.
    let mut lent = Lent::opened(2);
    lent.declare(5, 5);
    lent.declare(9, 9);
    lent.release(0);
    breaks(lent, |lent| lent.state[task_word(1, DEADLINE)] = 9);
    breaks(Lent::opened(1), |lent| {
        lent.state[SLOTS_IN_USE] = 1;
        set_task(lent, 0, 5, 5, 1);
        lent.state[task_word(0, DEADLINE)] = 5;
    });
    // Not rising, and twice the same.
    breaks(base(), |lent| lent.state.swap(BOUNDARIES, BOUNDARIES + 1));
    breaks(base(), |lent| {
        lent.state[BOUNDARY_COUNT] = 4;
        lent.state[BOUNDARIES + 3] = 10;
    });
    // A job whose end is forgotten.
    breaks(base(), |lent| lent.state[task_word(1, DEADLINE)] = 0);
}

#[test]
fn the_boundary_count_is_right() {
    for count in [0, 2, 4, 64, 65, 1 << 32, u64::MAX] {
        breaks(base(), |lent| lent.state[BOUNDARY_COUNT] = count);
    }
    breaks(Lent::opened(1), |lent| lent.state[BOUNDARY_COUNT] = 1);
}

#[test]
fn words_past_the_last_boundary_are_zero() {
    breaks(base(), |lent| lent.state[BOUNDARIES + 3] = 11);
    breaks(base(), |lent| lent.state[BOUNDARIES + 63] = 1);
    breaks(Lent::opened(1), |lent| lent.state[BOUNDARIES] = 1);
}

#[test]
fn shares_are_at_most_1000_times_the_length() {
    keeps(two_heavy(), |lent| {
        lent.shares[..2].copy_from_slice(&[10_000, 0])
    });
    breaks(two_heavy(), |lent| {
        lent.shares[..2].copy_from_slice(&[10_001, 0])
    });
    breaks(two_heavy(), |lent| {
        lent.shares[..2].copy_from_slice(&[0, 10_001])
    });
}

#[test]
fn shares_sum_to_at_most_the_length_times_the_rates() {
    keeps(base(), |lent| {
        lent.shares[..3].copy_from_slice(&[3600, 0, 0])
    });
    breaks(base(), |lent| {
        lent.shares[..3].copy_from_slice(&[3600, 0, 1])
    });
    // The slice from 5 to 7 has the rates of slots 0 and 2 only, that from 7 to 10 the
    // rate of slot 0 only.
    keeps(base(), |lent| {
        lent.shares[64..67].copy_from_slice(&[1200, 0, 0])
    });
    breaks(base(), |lent| {
        lent.shares[64..67].copy_from_slice(&[1201, 0, 0])
    });
    keeps(base(), |lent| set_share(lent, 2, 0, 1500));
    breaks(base(), |lent| set_share(lent, 2, 0, 1501));
    keeps(two_heavy(), |lent| {
        lent.shares[..2].copy_from_slice(&[10_000, 2000])
    });
    breaks(two_heavy(), |lent| {
        lent.shares[..2].copy_from_slice(&[10_000, 2001])
    });
    // Sums that wrap round 32 bits.
    breaks(two_heavy(), |lent| {
        lent.shares[..2].copy_from_slice(&[u32::MAX, 1])
    });
    keeps(base(), |lent| lent.shares.fill(0));
}

#[test]
fn shares_are_zero_past_the_last_slice() {
    for place in [3 * 64, 3 * 64 + 2, 20 * 64 + 40, 4095] {
        breaks(base(), |lent| lent.shares[place] = 1);
    }
    breaks(Lent::opened(1), |lent| lent.shares[0] = 1);
}

#[test]
fn shares_are_zero_without_a_pending_job() {
    for slot in [3, 10, 63] {
        breaks(base(), |lent| {
            lent.shares[..3].fill(0);
            set_share(lent, 0, slot, 1);
        });
        breaks(base(), |lent| {
            lent.shares[128] = 0;
            set_share(lent, 2, slot, 1);
        });
    }
}

#[test]
fn shares_are_zero_after_the_deadline() {
    for (row, slot) in [(1, 1), (2, 1), (2, 2)] {
        breaks(base(), |lent| {
            lent.shares[64 * row..64 * row + 3].fill(0);
            set_share(lent, row, slot, 1);
        });
    }
}

#[test]
fn slots_not_in_use_hold_zeros() {
    for slot in [4, 10, 63] {
        for word in [PERIOD, COST, RATE] {
            breaks(base(), |lent| lent.state[task_word(slot, word)] = 1);
        }
        // An existing boundary, so that only this clause is broken.
        breaks(base(), |lent| lent.state[task_word(slot, DEADLINE)] = 7);
    }
    breaks(base(), |lent| lent.state[SLOTS_IN_USE] &= !8);
    // And a slot in use may not hold zeros.
    breaks(base(), |lent| lent.state[SLOTS_IN_USE] |= 16);
}
