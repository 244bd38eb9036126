//! The record of a history: who held each core in each grain.

use crate::killaruna::{Segment, GRAINS_PER_TICK};

/// One release of a task.
pub struct Job {
    pub slot: u64,
    pub release: u64,
    pub deadline: u64,
    /// Rate times period, in grains.
    pub allowance: u64,
}

/// The record by core and time, with neighbouring segments of one slot joined: two records agree in
/// every grain exactly when these are equal.
pub fn merged(record: &[Segment]) -> Vec<Segment> {
    let mut sorted = record.to_vec();
    sorted.sort_unstable_by_key(|part| (part.core, part.first, part.after));
    let mut joined: Vec<Segment> = Vec::with_capacity(sorted.len());
    for part in sorted {
        match joined.last_mut() {
            Some(last)
                if (last.core, last.slot, last.after) == (part.core, part.slot, part.first) =>
            {
                last.after = part.after
            }
            _ => joined.push(part),
        }
    }
    joined
}

/// Counts a merged record: each core held by one task at a time, each task on one core at a time,
/// each finished job exactly its allowance, and nothing without a job. Hands back how many jobs had
/// reached their deadline by the last clock.
pub fn count(record: &[Segment], cores: u64, jobs: &[Job], clock: u64) -> Result<usize, String> {
    if let Some(part) = record
        .iter()
        .find(|part| part.core >= cores || part.first >= part.after)
    {
        return Err(format!("{part:?} is no segment of {cores} cores"));
    }
    if let Some(pair) = overlap(record, |part| part.core) {
        return Err(format!("a core is held by two tasks: {pair:?}"));
    }
    let mut by_slot = record.to_vec();
    by_slot.sort_unstable_by_key(|part| (part.slot, part.first));
    if let Some(pair) = overlap(&by_slot, |part| part.slot) {
        return Err(format!("a task holds two cores: {pair:?}"));
    }
    let mut held_by_jobs = 0;
    let mut finished = 0;
    for job in jobs {
        let held = held_by(job, &by_slot);
        let due = job.deadline <= clock;
        if held > job.allowance || due && held < job.allowance {
            return Err(format!(
                "the job of slot {} released at {} held {held} grains, its allowance is {}",
                job.slot, job.release, job.allowance
            ));
        }
        held_by_jobs += held;
        finished += usize::from(due);
    }
    let all: u64 = record.iter().map(|part| part.after - part.first).sum();
    if all != held_by_jobs {
        return Err(format!(
            "{} grains were held without a job",
            all - held_by_jobs
        ));
    }
    Ok(finished)
}

/// Two neighbours of a sorted record that have the same key and share a grain.
fn overlap(sorted: &[Segment], key: impl Fn(&Segment) -> u64) -> Option<&[Segment]> {
    sorted
        .windows(2)
        .find(|pair| key(&pair[0]) == key(&pair[1]) && pair[0].after > pair[1].first)
}

/// How many grains a job's slot held between its release and its deadline.
fn held_by(job: &Job, by_slot: &[Segment]) -> u64 {
    let (release, deadline) = (
        GRAINS_PER_TICK * job.release,
        GRAINS_PER_TICK * job.deadline,
    );
    let from = by_slot.partition_point(|part| (part.slot, part.after) < (job.slot, release));
    by_slot[from..]
        .iter()
        .take_while(|part| part.slot == job.slot && part.first < deadline)
        .map(|part| {
            part.after
                .min(deadline)
                .saturating_sub(part.first.max(release))
        })
        .sum()
}
