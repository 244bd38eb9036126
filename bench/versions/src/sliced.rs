//! Version three: boundaries, slices, shares and the wrap as in document 01, with two
//! of its "roads that look shorter" in place of the rule.
//!
//! - Release at clock t, step 1: the plan start becomes t, but the shares of slice 0
//!   are not lowered by what has run since the old plan start. ("Forgetting the part
//!   already run when a release cuts slice 0"; what has run "is laid once more".)
//! - Release, step 2: a slice of length D cut after d ticks gives each slot
//!   floor(share d / D) in the first part and the rest in the second. ("Rounding
//!   every share down alone.")
//!
//! All else is document 01's: the new job gets rate times length in each slice that
//! ends at or before its deadline, the shares of slice 0 are laid end to end from the
//! plan start, and an advance drops row 0 at its boundary.
//!
//! Such a row may hold more than the cores can. What lies on the line past the last
//! core's stretch is not run. A share longer than the stretch lies on two cores at the
//! same time, and each such grain counts once for its job.
//!
//! The two rules can be kept or left one by one, so that it can be seen which of the
//! two costs how much. With both kept this is the planner again.

use crate::board::{Task, WHOLE_CORE};
use crate::version::{Segment, Version};

struct Slice {
    /// The boundary, in ticks.
    end: u64,
    /// In grains, by slot.
    shares: Vec<u64>,
}

pub struct Sliced<const LOWERS: bool, const SUMS: bool> {
    cores: u64,
    tasks: Vec<Task>,
    /// In ticks, as is the plan start.
    clock: u64,
    plan_start: u64,
    slices: Vec<Slice>,
}

impl<const LOWERS: bool, const SUMS: bool> Version for Sliced<LOWERS, SUMS> {
    fn open(cores: usize, tasks: &[Task]) -> Self {
        Sliced {
            cores: cores as u64,
            tasks: tasks.to_vec(),
            clock: 0,
            plan_start: 0,
            slices: Vec::new(),
        }
    }

    fn release(&mut self, slot: usize) {
        if LOWERS {
            self.lower();
        }
        self.plan_start = self.clock;
        let Task { period, rate } = self.tasks[slot];
        let deadline = self.clock + period;
        let row = self.slices.partition_point(|slice| slice.end < deadline);
        if self.slices.get(row).map(|slice| slice.end) != Some(deadline) {
            self.add_boundary(row, deadline);
        }
        let mut begin = self.plan_start;
        for slice in &mut self.slices[..=row] {
            slice.shares[slot] = rate * (slice.end - begin);
            begin = slice.end;
        }
    }

    fn advance(&mut self, tick: u64, record: &mut Vec<Segment>) {
        record.extend(self.wrap(self.clock, tick));
        self.clock = tick;
        if self.slices.first().is_some_and(|slice| slice.end == tick) {
            self.slices.remove(0);
            self.plan_start = tick;
        }
    }
}

impl<const LOWERS: bool, const SUMS: bool> Sliced<LOWERS, SUMS> {
    /// "Each share of slice 0 is lowered by what that task has run since the plan
    /// start."
    fn lower(&mut self) {
        for segment in self.wrap(self.plan_start, self.clock) {
            self.slices[0].shares[segment.slot] -= segment.after - segment.first;
        }
    }

    /// Makes the deadline boundary number `row`, by a cut or by a new last slice.
    fn add_boundary(&mut self, row: usize, deadline: u64) {
        let begin = match row {
            0 => self.plan_start,
            _ => self.slices[row - 1].end,
        };
        let shares = match self.slices.get_mut(row) {
            Some(slice) => cut::<SUMS>(&mut slice.shares, deadline - begin, slice.end - begin),
            None => vec![0; self.tasks.len()],
        };
        let end = deadline;
        self.slices.insert(row, Slice { end, shares });
    }

    /// The parts of slice 0's wrap between two ticks.
    fn wrap(&self, from: u64, to: u64) -> Vec<Segment> {
        let mut segments = Vec::new();
        let Some(slice) = self.slices.first() else {
            return segments;
        };
        let stretch = WHOLE_CORE * (slice.end - self.plan_start);
        let line_end = self.cores * stretch;
        let mut place = 0;
        for (slot, &share) in slice.shares.iter().enumerate() {
            let end = place + share;
            while place < end.min(line_end) {
                let (core, offset) = (place / stretch, place % stretch);
                let length = (end - place).min(stretch - offset);
                let first = WHOLE_CORE * self.plan_start + offset;
                segments.push(Segment {
                    core: core as usize,
                    slot,
                    first: first.max(WHOLE_CORE * from),
                    after: (first + length).min(WHOLE_CORE * to),
                });
                place += length;
            }
            place = end;
        }
        segments.retain(|segment| segment.first < segment.after);
        segments
    }
}

/// Cuts a slice of `length` ticks after its first `first_ticks`: takes the shares of
/// the first part out of the slice and hands them back. `SUMS` says whether the
/// running sum is rounded, as document 01 has it, or every share alone.
fn cut<const SUMS: bool>(shares: &mut [u64], first_ticks: u64, length: u64) -> Vec<u64> {
    let mut sum = 0;
    let mut first_part = Vec::with_capacity(shares.len());
    for share in shares {
        let before = if SUMS { sum * first_ticks / length } else { 0 };
        sum = if SUMS { sum + *share } else { *share };
        let first = sum * first_ticks / length - before;
        *share -= first;
        first_part.push(first);
    }
    first_part
}

#[cfg(test)]
mod tests {
    use super::cut;

    /// P8 of document 01: "shares 1,100 and 2,800 over 6 ticks cut after 2".
    #[test]
    fn the_cut_of_p8() {
        let mut rest = [1_100, 2_800];
        assert_eq!(cut::<true>(&mut rest, 2, 6), [366, 934]);
        assert_eq!(rest, [734, 1_866]);
        let mut rest = [1_100, 2_800];
        assert_eq!(cut::<false>(&mut rest, 2, 6), [366, 933]);
        assert_eq!(rest, [734, 1_867]);
    }
}
