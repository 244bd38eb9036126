//! Plays a board with one version and counts the jobs that miss.

use std::iter::Sum;

use crate::board::Board;
use crate::version::{Segment, Version};

#[derive(Clone, Copy, Default, Debug, PartialEq, Eq)]
pub struct Outcome {
    pub jobs: usize,
    /// Jobs that at their deadline had not held their allowance.
    pub misses: usize,
    /// Jobs of tasks that were taken although there was no room for them.
    pub without_room: usize,
}

impl Sum for Outcome {
    fn sum<I: Iterator<Item = Outcome>>(outcomes: I) -> Outcome {
        outcomes.fold(Outcome::default(), |sum, each| Outcome {
            jobs: sum.jobs + each.jobs,
            misses: sum.misses + each.misses,
            without_room: sum.without_room + each.without_room,
        })
    }
}

/// What the referee notes of a slot's job.
#[derive(Clone, Copy, Default)]
struct Note {
    /// In ticks; 0 when no job is pending.
    deadline: u64,
    /// The grains in which it held a core.
    held: u64,
}

pub fn play<V: Version>(board: &Board) -> Outcome {
    let mut version = V::open(board.cores, &board.tasks);
    let mut notes = vec![Note::default(); board.tasks.len()];
    let mut record = Vec::new();
    let mut to_release = board.jobs.iter().peekable();
    let mut misses = 0;
    for tick in ticks_that_matter(board) {
        record.clear();
        version.advance(tick, &mut record);
        count_held(&mut record, &mut notes);
        misses += end_jobs(board, tick, &mut notes);
        while let Some(job) = to_release.next_if(|job| job.release == tick) {
            version.release(job.slot);
            notes[job.slot].deadline = job.deadline;
        }
    }
    let without_room = version.without_room();
    let jobs = &board.jobs;
    Outcome {
        jobs: jobs.len(),
        misses,
        without_room: jobs
            .iter()
            .filter(|job| without_room.contains(&job.slot))
            .count(),
    }
}

/// Every release and every deadline, rising.
fn ticks_that_matter(board: &Board) -> Vec<u64> {
    let mut ticks: Vec<u64> = board
        .jobs
        .iter()
        .flat_map(|job| [job.release, job.deadline])
        .collect();
    ticks.sort_unstable();
    ticks.dedup();
    ticks
}

/// Adds what each slot has held. A grain in which a slot holds two cores counts once.
fn count_held(record: &mut [Segment], notes: &mut [Note]) {
    record.sort_unstable_by_key(|segment| (segment.core, segment.first));
    assert!(
        record
            .windows(2)
            .all(|pair| pair[0].core != pair[1].core || pair[0].after <= pair[1].first),
        "a core is held by one slot at a time"
    );
    record.sort_unstable_by_key(|segment| (segment.slot, segment.first));
    let mut counted = (0, 0);
    for segment in record {
        let (slot, until) = counted;
        let reached = if slot == segment.slot { until } else { 0 };
        let after = segment.after.max(reached);
        notes[segment.slot].held += after - segment.first.max(reached);
        counted = (segment.slot, after);
    }
}

/// Ends the jobs whose deadline is this tick and counts those that miss.
fn end_jobs(board: &Board, tick: u64, notes: &mut [Note]) -> usize {
    let mut misses = 0;
    for (note, task) in notes.iter_mut().zip(&board.tasks) {
        if note.deadline == tick && tick > 0 {
            misses += usize::from(note.held < task.allowance());
            *note = Note::default();
        }
    }
    misses
}

#[cfg(test)]
mod tests {
    use super::*;
    use crate::board::{Job, Task};
    use crate::global::Global;
    use crate::pinned::Pinned;
    use crate::planner::Planner;
    use crate::sliced::Sliced;

    /// One job of each task, given as period, rate and tick of release.
    fn board(cores: usize, jobs: &[(u64, u64, u64)]) -> Board {
        let job = |(slot, &(period, _, release)): (usize, &(u64, u64, u64))| Job {
            release,
            slot,
            deadline: release + period,
        };
        Board {
            cores,
            tasks: jobs
                .iter()
                .map(|&(period, rate, _)| Task { period, rate })
                .collect(),
            jobs: jobs.iter().enumerate().map(job).collect(),
        }
    }

    /// Two small tasks are due first and hold both cores, so the whole core that the
    /// third one needs is gone.
    #[test]
    fn version_two_starves_a_heavy_task() {
        let board = board(2, &[(10, 200, 0), (10, 200, 0), (11, 1_000, 0)]);
        assert_eq!(play::<Global>(&board).misses, 1);
        assert_eq!(play::<Pinned>(&board).misses, 0);
        assert_eq!(play::<Planner>(&board).misses, 0);
    }

    /// Three tasks of 600 fit two cores together, but no two of them fit one core.
    #[test]
    fn version_one_has_no_room_for_the_third() {
        let board = board(2, &[(10, 600, 0), (10, 600, 0), (10, 600, 0)]);
        let outcome = play::<Pinned>(&board);
        assert_eq!((outcome.misses, outcome.without_room), (1, 1));
        assert_eq!(play::<Planner>(&board).misses, 0);
    }

    /// At tick 5 the whole share of 8,000 is laid once more over 5 ticks and leaves no
    /// place for the job that arrives.
    #[test]
    fn version_three_lays_twice_what_has_run() {
        let board = board(1, &[(10, 800, 0), (5, 200, 5)]);
        assert_eq!(play::<Sliced<false, false>>(&board).misses, 1);
        assert_eq!(play::<Planner>(&board).misses, 0);
    }
}
