//! What the writer of a script keeps in mind of the station, so that it can aim at
//! deadlines, full boards and the ends of ranges. It knows nothing of shares, and no
//! answer is compared with it.

use crate::command::Command;

pub const SLOTS: usize = 64;
pub const LAST_TICK: u64 = 1 << 40;
pub const GRAINS_PER_TICK: u64 = 1_000;
pub const LONGEST_PERIOD: u64 = 60_000;
pub const MOST_CORES: u64 = 16;

#[derive(Clone, Copy)]
pub struct Task {
    pub period: u64,
    rate: u64,
    /// Of the pending job.
    pub deadline: Option<u64>,
}

pub struct Station {
    /// 0 before the first accepted `CO`.
    pub cores: u64,
    pub clock: u64,
    pub tasks: [Option<Task>; SLOTS],
}

impl Station {
    pub fn new() -> Station {
        Station {
            cores: 0,
            clock: 0,
            tasks: [None; SLOTS],
        }
    }

    /// The rates that are left for further tasks, in grains per tick.
    pub fn free_rate(&self) -> u64 {
        let used: u64 = self.tasks.iter().flatten().map(|task| task.rate).sum();
        GRAINS_PER_TICK * self.cores - used
    }

    pub fn free_slots(&self) -> u64 {
        self.tasks.iter().filter(|task| task.is_none()).count() as u64
    }

    /// The slots whose task is so.
    pub fn slots(&self, so: impl Fn(&Task) -> bool) -> Vec<u64> {
        (0..SLOTS)
            .filter(|&slot| self.tasks[slot].as_ref().is_some_and(&so))
            .map(|slot| slot as u64)
            .collect()
    }

    pub fn first_boundary(&self) -> Option<u64> {
        self.tasks
            .iter()
            .flatten()
            .filter_map(|task| task.deadline)
            .min()
    }

    /// What the command does where it is accepted.
    pub fn obey(&mut self, command: Command) {
        match command {
            Command::Open { cores } => self.open(cores),
            Command::Declare { period, cost } => self.declare(period, cost),
            Command::Withdraw { slot } => self.withdraw(slot),
            Command::Release { slot } => self.release(slot),
            Command::Advance { tick } => self.advance(tick),
        }
    }

    fn open(&mut self, cores: u64) {
        if (1..=MOST_CORES).contains(&cores) {
            *self = Station::new();
            self.cores = cores;
        }
    }

    fn declare(&mut self, period: u64, cost: u64) {
        let lawful = (1..=LONGEST_PERIOD).contains(&period)
            && (1..=GRAINS_PER_TICK * period).contains(&cost);
        if !lawful || cost.div_ceil(period) > self.free_rate() {
            return;
        }
        if let Some(free) = self.tasks.iter_mut().find(|task| task.is_none()) {
            *free = Some(Task {
                period,
                rate: cost.div_ceil(period),
                deadline: None,
            });
        }
    }

    fn withdraw(&mut self, slot: u64) {
        if let Some(place) = self.tasks.get_mut(slot as usize) {
            place.take_if(|task| task.deadline.is_none());
        }
    }

    fn release(&mut self, slot: u64) {
        if let Some(Some(task)) = self.tasks.get_mut(slot as usize) {
            let deadline = self.clock + task.period;
            if task.deadline.is_none() && deadline <= LAST_TICK {
                task.deadline = Some(deadline);
            }
        }
    }

    fn advance(&mut self, tick: u64) {
        if self.cores == 0 || !(self.clock..=LAST_TICK).contains(&tick) {
            return;
        }
        self.clock = self.first_boundary().unwrap_or(tick).min(tick);
        for task in self.tasks.iter_mut().flatten() {
            task.deadline = task.deadline.filter(|&deadline| deadline > self.clock);
        }
    }
}
