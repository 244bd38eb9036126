//! The pending jobs of a version that works without shares.

use crate::board::{Task, WHOLE_CORE};

#[derive(Clone, Copy, Default)]
struct Pending {
    /// In ticks.
    deadline: u64,
    /// What is left of the allowance, in grains; 0 when there is nothing to run.
    left: u64,
}

pub struct Jobs {
    tasks: Vec<Task>,
    pending: Vec<Pending>,
    /// In ticks.
    pub clock: u64,
}

impl Jobs {
    pub fn new(tasks: &[Task]) -> Jobs {
        Jobs {
            tasks: tasks.to_vec(),
            pending: vec![Pending::default(); tasks.len()],
            clock: 0,
        }
    }

    pub fn release(&mut self, slot: usize) {
        let task = self.tasks[slot];
        self.pending[slot] = Pending {
            deadline: self.clock + task.period,
            left: task.allowance(),
        };
    }

    /// How many tasks there are.
    pub fn count(&self) -> usize {
        self.tasks.len()
    }

    /// The clock's first grain.
    pub fn grain(&self) -> u64 {
        WHOLE_CORE * self.clock
    }

    /// What a job has left of its allowance.
    pub fn left(&self, slot: usize) -> u64 {
        self.pending[slot].left
    }

    pub fn run(&mut self, slot: usize, grains: u64) {
        self.pending[slot].left -= grains;
    }

    /// Of these slots, those with something left to run: earliest deadline first, and
    /// the lower slot where deadlines are equal.
    pub fn by_deadline(&self, slots: impl Iterator<Item = usize>) -> Vec<usize> {
        let mut waiting: Vec<usize> = slots.filter(|&slot| self.left(slot) > 0).collect();
        waiting.sort_by_key(|&slot| (self.pending[slot].deadline, slot));
        waiting
    }

    /// The clock moves, and the jobs whose deadline it reaches end.
    pub fn move_clock(&mut self, tick: u64) {
        self.clock = tick;
        for pending in &mut self.pending {
            if pending.deadline <= tick {
                pending.left = 0;
            }
        }
    }
}
