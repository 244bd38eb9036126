//! Version one: each task is pinned to a core when it is declared, the first core
//! with room for its rate. Each core runs its own jobs, earliest deadline first.
//!
//! Where no core has room, the task is pinned to the core with the least rates on it
//! all the same. Refusing it would hide what becomes of its jobs.

use crate::board::{Task, WHOLE_CORE};
use crate::jobs::Jobs;
use crate::version::{Segment, Version};

pub struct Pinned {
    jobs: Jobs,
    /// The slots pinned to each core.
    pinned: Vec<Vec<usize>>,
    without_room: Vec<usize>,
}

impl Version for Pinned {
    fn open(cores: usize, tasks: &[Task]) -> Pinned {
        let mut rates = vec![0; cores];
        let mut version = Pinned {
            jobs: Jobs::new(tasks),
            pinned: vec![Vec::new(); cores],
            without_room: Vec::new(),
        };
        for (slot, task) in tasks.iter().enumerate() {
            let room = rates.iter().position(|rate| rate + task.rate <= WHOLE_CORE);
            if room.is_none() {
                version.without_room.push(slot);
            }
            let core = room.unwrap_or_else(|| least(&rates));
            rates[core] += task.rate;
            version.pinned[core].push(slot);
        }
        version
    }

    fn release(&mut self, slot: usize) {
        self.jobs.release(slot);
    }

    fn advance(&mut self, tick: u64, record: &mut Vec<Segment>) {
        for (core, slots) in self.pinned.iter().enumerate() {
            run_core(&mut self.jobs, core, slots, WHOLE_CORE * tick, record);
        }
        self.jobs.move_clock(tick);
    }

    fn without_room(&self) -> &[usize] {
        &self.without_room
    }
}

fn least(rates: &[u64]) -> usize {
    (0..rates.len())
        .min_by_key(|&core| rates[core])
        .expect("a station has a core")
}

/// Runs one core from the clock to grain `end`. Nothing is released on the way, so
/// the jobs follow one another in the order of their deadlines.
fn run_core(jobs: &mut Jobs, core: usize, slots: &[usize], end: u64, record: &mut Vec<Segment>) {
    let mut first = jobs.grain();
    for slot in jobs.by_deadline(slots.iter().copied()) {
        let after = end.min(first + jobs.left(slot));
        if first == after {
            break;
        }
        jobs.run(slot, after - first);
        record.push(Segment {
            core,
            slot,
            first,
            after,
        });
        first = after;
    }
}
