//! The planner itself, as stations link it.

use crate::board::Task;
use crate::killaruna::{self, segments, Done, Refusal, SEGMENT_WORDS, SHARE_WORDS, STATE_WORDS};
use crate::version::{Segment, Version};

pub struct Planner {
    state: Vec<u64>,
    shares: Vec<u32>,
    buffer: Vec<u64>,
}

impl Planner {
    fn lent(&mut self) -> killaruna::Planner<'_> {
        killaruna::Planner::lent(&mut self.state, &mut self.shares)
    }
}

impl Version for Planner {
    fn open(cores: usize, tasks: &[Task]) -> Planner {
        let mut planner = Planner {
            state: vec![0; STATE_WORDS],
            shares: vec![0; SHARE_WORDS],
            buffer: vec![0; SEGMENT_WORDS],
        };
        accepted(planner.lent().open(cores as u64));
        for task in tasks {
            accepted(planner.lent().declare(task.period, task.allowance()));
        }
        planner
    }

    fn release(&mut self, slot: usize) {
        accepted(self.lent().release(slot as u64));
    }

    fn advance(&mut self, tick: u64, record: &mut Vec<Segment>) {
        let mut lent = killaruna::Planner::lent(&mut self.state, &mut self.shares);
        let done = accepted(lent.advance(tick, &mut self.buffer));
        assert_eq!(done.value, tick, "no boundary lies on the way");
        for part in segments(&self.buffer, done.count) {
            record.push(Segment {
                core: part.core as usize,
                slot: part.slot as usize,
                first: part.first,
                after: part.after,
            });
        }
    }
}

/// The boards are lawful, so a refusal is a fault of the simulation.
fn accepted(answer: Result<Done, Refusal>) -> Done {
    answer.expect("the planner accepts every call")
}
