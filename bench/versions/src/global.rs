//! Version two: no task belongs to a core. In each grain the jobs with the earliest
//! deadlines run, one core each, as many as there are cores.

use crate::board::{Task, WHOLE_CORE};
use crate::jobs::Jobs;
use crate::version::{Segment, Version};

pub struct Global {
    cores: usize,
    jobs: Jobs,
}

impl Version for Global {
    fn open(cores: usize, tasks: &[Task]) -> Global {
        Global {
            cores,
            jobs: Jobs::new(tasks),
        }
    }

    fn release(&mut self, slot: usize) {
        self.jobs.release(slot);
    }

    fn advance(&mut self, tick: u64, record: &mut Vec<Segment>) {
        let end = WHOLE_CORE * tick;
        let mut first = self.jobs.grain();
        let mut waiting = self.jobs.by_deadline(0..self.jobs.count());
        while first < end && !waiting.is_empty() {
            let running = &waiting[..self.cores.min(waiting.len())];
            // The choice stands until one of them has its allowance.
            let shortest = running.iter().map(|&slot| self.jobs.left(slot)).min();
            let after = end.min(first + shortest.expect("something is waiting"));
            for (core, &slot) in running.iter().enumerate() {
                self.jobs.run(slot, after - first);
                record.push(Segment {
                    core,
                    slot,
                    first,
                    after,
                });
            }
            waiting.retain(|&slot| self.jobs.left(slot) > 0);
            first = after;
        }
        self.jobs.move_clock(tick);
    }
}
