//! What all four versions have in common.

use crate::board::Task;

/// `slot` holds `core` from grain `first` until just before grain `after`.
#[derive(Clone, Copy, Debug, PartialEq, Eq)]
pub struct Segment {
    pub core: usize,
    pub slot: usize,
    pub first: u64,
    pub after: u64,
}

/// A planner of some kind. The referee moves its clock from one release or deadline
/// to the next, so a version never meets either in the middle of an advance.
pub trait Version {
    /// A station with these tasks declared, in slot order, and the clock at 0.
    fn open(cores: usize, tasks: &[Task]) -> Self
    where
        Self: Sized;

    /// A job of this task is released at the clock.
    fn release(&mut self, slot: usize);

    /// The clock moves to this tick; adds who held the cores meanwhile. A job whose
    /// deadline is reached ends, whatever it has held.
    fn advance(&mut self, tick: u64, record: &mut Vec<Segment>);

    /// The tasks that were taken although there was no room for them.
    fn without_room(&self) -> &[usize] {
        &[]
    }
}
