//! The wrap: slice 0's shares laid end to end and cut into one stretch for
//! each core.

use crate::limits::GRAINS_PER_TICK;

/// A part of the wrap: `slot` holds `core` from grain `first` until just before
/// grain `after`, both counted from the beginning of time.
#[derive(Clone, Copy, Debug, PartialEq, Eq)]
pub(crate) struct Segment {
    pub core: u64,
    pub slot: usize,
    pub first: u64,
    pub after: u64,
}

/// Hands out the segments of the wrap in the order of the line, which is "by core
/// and then by first grain".
pub(crate) struct Wrap<'a> {
    row: &'a [u32],
    /// The slot whose share is being laid, and how much of it is left to lay.
    slot: usize,
    left: u64,
    core: u64,
    /// The place within the core's stretch, in grains from the plan start.
    place: u64,
    /// "Cut the line every T grains."
    stretch: u64,
    first_grain: u64,
}

impl<'a> Wrap<'a> {
    /// Lays row 0 over the slice from the plan start to the first boundary. The
    /// table is sound, so the slice isn't empty and the line fits the cores.
    pub fn lay(row: &'a [u32], plan_start: u64, first_boundary: u64) -> Wrap<'a> {
        Wrap {
            row,
            slot: 0,
            left: row.first().map_or(0, |&share| u64::from(share)),
            core: 0,
            place: 0,
            stretch: GRAINS_PER_TICK * (first_boundary - plan_start),
            first_grain: GRAINS_PER_TICK * plan_start,
        }
    }
}

impl Iterator for Wrap<'_> {
    type Item = Segment;

    fn next(&mut self) -> Option<Segment> {
        // "Empty segments don't exist": slots without a share are passed over.
        while self.left == 0 {
            self.slot += 1;
            self.left = u64::from(*self.row.get(self.slot)?);
        }
        let length = self.left.min(self.stretch - self.place);
        let first = self.first_grain + self.place;
        let segment = Segment {
            core: self.core,
            slot: self.slot,
            first,
            after: first + length,
        };
        self.left -= length;
        self.place += length;
        // "A slot cut by a stretch's end runs at the end of one core and the
        // start of the next."
        if self.place == self.stretch {
            self.core += 1;
            self.place = 0;
        }
        Some(segment)
    }
}
