//! Random boards: the tasks of one station, and when their jobs are released. Every
//! version is given the same boards.

use crate::generator::Generator;

/// "A tick has 1,000 grains", so a rate of 1,000 is a whole core.
pub const WHOLE_CORE: u64 = 1_000;

/// Periods are drawn from these ticks: a station's polls, not its yearly checks.
const SHORTEST_PERIOD: u64 = 3;
const LONGEST_PERIOD: u64 = 60;

#[derive(Clone, Copy)]
pub struct Task {
    /// In ticks.
    pub period: u64,
    /// In grains per tick. The cost is rate times period, so nothing is rounded here.
    pub rate: u64,
}

impl Task {
    /// "Its allowance is rate times period", in grains.
    pub fn allowance(self) -> u64 {
        self.rate * self.period
    }
}

/// One release of a task.
#[derive(Clone, Copy)]
pub struct Job {
    pub release: u64,
    pub slot: usize,
    pub deadline: u64,
}

pub struct Board {
    pub cores: usize,
    pub tasks: Vec<Task>,
    /// By tick of release and then by slot.
    pub jobs: Vec<Job>,
}

/// How often a release comes some time after the deadline of the task's former job.
/// All others come at that very deadline.
#[derive(Clone, Copy)]
pub enum Gaps {
    Never,
    /// One release in so many.
    OnceIn(u64),
}

impl Board {
    /// A board whose rates sum to exactly `load` percent of its cores.
    pub fn random(cores: usize, load: u64, jobs: usize, gaps: Gaps, seed: u64) -> Board {
        let mut generator = Generator::seeded(seed);
        let most = 4 * cores as u64;
        let count = generator.between(cores as u64 + 1, most) as usize;
        let tasks: Vec<Task> = rates(&mut generator, count, load * 10 * cores as u64)
            .into_iter()
            .map(|rate| Task {
                period: generator.between(SHORTEST_PERIOD, LONGEST_PERIOD),
                rate,
            })
            .collect();
        let jobs = releases(&mut generator, &tasks, jobs, gaps);
        Board { cores, tasks, jobs }
    }
}

/// Random rates from 1 to 1,000 with this sum: equal ones at first, then many moves
/// of a random part from one to another.
fn rates(generator: &mut Generator, count: usize, sum: u64) -> Vec<u64> {
    let many = count as u64;
    let mut rates: Vec<u64> = (0..many)
        .map(|slot| sum / many + u64::from(slot < sum % many))
        .collect();
    for _ in 0..20 * count {
        let giver = generator.below(many) as usize;
        let taker = generator.below(many) as usize;
        let most = (rates[giver] - 1).min(WHOLE_CORE - rates[taker]);
        let moved = generator.below(most + 1);
        rates[giver] -= moved;
        rates[taker] += moved;
    }
    rates
}

/// The first `count` releases of the board, each task's first one somewhere in its
/// first period.
fn releases(generator: &mut Generator, tasks: &[Task], count: usize, gaps: Gaps) -> Vec<Job> {
    let mut jobs = Vec::new();
    for (slot, task) in tasks.iter().enumerate() {
        let mut release = generator.below(task.period);
        for _ in 0..count {
            let deadline = release + task.period;
            jobs.push(Job {
                release,
                slot,
                deadline,
            });
            release = deadline + gap(generator, task.period, gaps);
        }
    }
    jobs.sort_by_key(|job| (job.release, job.slot));
    jobs.truncate(count);
    jobs
}

/// The ticks from a deadline to the next release: none, or up to half a period.
fn gap(generator: &mut Generator, period: u64, gaps: Gaps) -> u64 {
    match gaps {
        Gaps::OnceIn(many) if generator.below(many) == 0 => generator.between(1, period / 2),
        _ => 0,
    }
}
