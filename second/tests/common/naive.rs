//! "A sound table", written down once more clause by clause, slowly, in wide numbers.

use second::words::*;

pub fn naively_sound(state: &[u64], shares: &[u32]) -> bool {
    if state.len() < STATE_WORDS || shares.len() < 4096 {
        return false;
    }
    let word = |place: usize| u128::from(state[place]);
    let task = |slot: usize, which: usize| word(task_word(slot, which));
    let in_use = |slot: usize| state[SLOTS_IN_USE] & (1 << slot) != 0;
    let last_tick = 1_u128 << 40;
    let (cores, clock, plan_start) = (word(CORES), word(CLOCK), word(PLAN_START));
    let pending: Vec<usize> = (0..64)
        .filter(|&slot| in_use(slot) && task(slot, DEADLINE) != 0)
        .collect();

    let mut clauses = vec![
        (1..=16).contains(&cores),
        clock <= last_tick,
        plan_start <= clock,
        !pending.is_empty() || plan_start == clock,
    ];
    let mut rates = 0;
    for slot in 0..64 {
        let (period, cost, rate) = (task(slot, PERIOD), task(slot, COST), task(slot, RATE));
        if in_use(slot) {
            clauses.push((1..=60_000).contains(&period));
            clauses.push(cost >= 1 && cost <= 1000 * period);
            // Rounded up: the least whole rate with rate times period at least cost.
            clauses.push(rate * period >= cost && rate >= 1 && (rate - 1) * period < cost);
            rates += rate;
        } else {
            clauses.push((0..4).all(|which| task(slot, which) == 0));
        }
    }
    clauses.push(rates <= 1000 * cores);
    for &slot in &pending {
        let deadline = task(slot, DEADLINE);
        clauses.push(deadline <= last_tick);
        clauses.push(deadline > clock);
        clauses.push(deadline <= plan_start + task(slot, PERIOD));
    }
    let mut distinct: Vec<u128> = pending.iter().map(|&slot| task(slot, DEADLINE)).collect();
    distinct.sort();
    distinct.dedup();
    clauses.push(word(BOUNDARY_COUNT) == distinct.len() as u128);
    for row in 0..64 {
        clauses.push(word(BOUNDARIES + row) == distinct.get(row).copied().unwrap_or(0));
    }
    if clauses.contains(&false) {
        return false;
    }
    (0..64).all(|row| {
        let shares = &shares[64 * row..64 * row + 64];
        let Some(&end) = distinct.get(row) else {
            return shares.iter().all(|&share| share == 0);
        };
        let begin = if row == 0 {
            plan_start
        } else {
            distinct[row - 1]
        };
        let runs = |slot: &usize| pending.contains(slot) && task(*slot, DEADLINE) >= end;
        let sum: u128 = shares.iter().map(|&share| u128::from(share)).sum();
        let rates: u128 = (0..64).filter(runs).map(|slot| task(slot, RATE)).sum();
        sum <= (end - begin) * rates
            && (0..64).all(|slot| {
                u128::from(shares[slot]) <= if runs(&slot) { 1000 * (end - begin) } else { 0 }
            })
    })
}
