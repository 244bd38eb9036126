//! The record of a whole history: who held each core in each grain.

use crate::play::History;

/// The record by core and time, with pieces that only an advance's end had parted
/// joined again: two records agree in every grain exactly when these are equal.
pub fn merged(record: &[[u64; 4]]) -> Vec<[u64; 4]> {
    let mut sorted = record.to_vec();
    sorted.sort_unstable_by_key(|&[core, _, first, _]| (core, first));
    let mut joined: Vec<[u64; 4]> = Vec::with_capacity(sorted.len());
    for segment in sorted {
        match joined.last_mut() {
            Some(last) if last[..2] == segment[..2] && last[3] == segment[2] => {
                last[3] = segment[3]
            }
            _ => joined.push(segment),
        }
    }
    joined
}

/// Writes every grain of every core down and counts. Hands back how many were counted.
pub fn check_grain_by_grain(history: &History) -> u64 {
    let (begin, end) = (history.style.start, history.lent.clock());
    let (cores, ticks) = (history.style.cores as usize, (end - begin) as usize);
    let grains = 1000 * ticks;
    // 0 is idle, otherwise one more than the slot.
    let mut held = vec![0_u8; cores * grains];
    for &[core, slot, first, after] in &history.record {
        assert!(core < history.style.cores, "nothing runs beyond the cores");
        assert!(slot < 64 && first < after, "empty segments don't exist");
        assert!(first >= 1000 * begin && after <= 1000 * end);
        for grain in first..after {
            let cell = &mut held[core as usize * grains + (grain - 1000 * begin) as usize];
            assert_eq!(*cell, 0, "no core is held by two tasks in one grain");
            *cell = slot as u8 + 1;
        }
    }
    let mut running = vec![0_u64; grains];
    for line in held.chunks_exact(grains.max(1)) {
        for (mask, &cell) in running.iter_mut().zip(line) {
            if cell != 0 {
                let bit = 1 << (cell - 1);
                assert_eq!(*mask & bit, 0, "no task holds two cores in one grain");
                *mask |= bit;
            }
        }
    }
    // The job of each slot in each tick; releases and deadlines are whole ticks.
    let mut job_at = vec![usize::MAX; 65 * ticks];
    for (number, job) in history.jobs.iter().enumerate() {
        for tick in job.release..job.deadline.min(end) {
            let place = &mut job_at[65 * (tick - begin) as usize + job.slot as usize + 1];
            assert_eq!(*place, usize::MAX, "a task has at most one job pending");
            *place = number;
        }
    }
    let mut ran = vec![0_u64; history.jobs.len()];
    for line in held.chunks_exact(grains.max(1)) {
        for (tick, cells) in line.chunks_exact(1000).enumerate() {
            let mut counts = [0_u64; 65];
            for &cell in cells {
                counts[usize::from(cell)] += 1;
            }
            for (cell, &count) in counts.iter().enumerate().skip(1) {
                if count > 0 {
                    let job = job_at[65 * tick + cell];
                    assert_ne!(job, usize::MAX, "nothing runs without a job");
                    ran[job] += count;
                }
            }
        }
    }
    check_allowances(history, &ran);
    (cores * grains) as u64
}

/// The same for long periods, with whole segments instead of grains.
pub fn check_by_intervals(history: &History) {
    let by_core = merged(&history.record);
    for pair in by_core.windows(2) {
        assert!(
            pair[0][0] < pair[1][0] || pair[0][3] <= pair[1][2],
            "one task for a core at a time"
        );
    }
    assert!(by_core
        .iter()
        .all(|segment| segment[0] < history.style.cores && segment[2] < segment[3]));
    let mut by_slot = by_core;
    by_slot.sort_unstable_by_key(|&[_, slot, first, _]| (slot, first));
    for pair in by_slot.windows(2) {
        assert!(
            pair[0][1] < pair[1][1] || pair[0][3] <= pair[1][2],
            "one core for a task at a time"
        );
    }
    let ran: Vec<u64> = history
        .jobs
        .iter()
        .map(|job| {
            let (release, deadline) = (1000 * job.release, 1000 * job.deadline);
            by_slot
                .iter()
                .filter(|segment| segment[1] == job.slot)
                .map(|segment| {
                    segment[3]
                        .min(deadline)
                        .saturating_sub(segment[2].max(release))
                })
                .sum()
        })
        .collect();
    let all: u64 = by_slot.iter().map(|segment| segment[3] - segment[2]).sum();
    assert_eq!(ran.iter().sum::<u64>(), all, "nothing runs without a job");
    check_allowances(history, &ran);
}

/// "Its allowance is rate times period": a job whose deadline was reached held exactly
/// that, and no other job more.
fn check_allowances(history: &History, ran: &[u64]) {
    for (job, &ran) in history.jobs.iter().zip(ran) {
        if job.deadline <= history.lent.clock() {
            assert_eq!(
                ran, job.allowance,
                "slot {} released at {}",
                job.slot, job.release
            );
        } else {
            assert!(ran <= job.allowance);
        }
    }
}
