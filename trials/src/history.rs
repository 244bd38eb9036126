//! A random history: which task and release calls are made at which ticks. How time is cut between
//! them is left open.

use crate::generator::Generator;
use crate::killaruna::LAST_TICK;

#[derive(Clone, Copy, Debug)]
pub enum Call {
    Open(u64),
    Declare { period: u64, cost: u64 },
    Withdraw(u64),
    Release(u64),
}

/// Calls that are made one after another at one tick.
pub struct Stop {
    pub tick: u64,
    pub calls: Vec<Call>,
}

/// The first stop declares the board's tasks; the last has no calls, and its tick is the last clock.
pub struct History {
    pub cores: u64,
    pub stops: Vec<Stop>,
}

/// What kind of tasks a history has.
struct Style {
    longest_period: u64,
    /// Costs are chosen so that rates are at most this.
    highest_rate: u64,
    tasks: u64,
    /// Release every task at most stops.
    eager: bool,
}

impl History {
    pub fn chosen(generator: &mut Generator) -> History {
        let cores = generator.between(1, 16);
        let tasks = generator.between(1, 64);
        let style = Style {
            longest_period: generator.one_of(&[2, 4, 8, 12, 64, 600, 60_000]),
            highest_rate: generator
                .one_of(&[3, 200, 2000 * cores / tasks, 1000])
                .clamp(1, 1000),
            tasks,
            eager: generator.once_in(2),
        };
        let begin = generator.one_of(&[0, 0, 1 << 38, LAST_TICK - 300_000, LAST_TICK - 20]);
        let mut tick = begin + generator.below(10);
        let mut stops = vec![style.first_stop(tick, generator)];
        for _ in 0..generator.between(4, 30) {
            tick = (tick + style.step(generator)).min(LAST_TICK);
            let calls = style.calls(generator);
            stops.push(Stop { tick, calls });
        }
        // Mostly late enough that every pending job reaches its deadline.
        let rest = generator.one_of(&[0, 1, 2 * style.longest_period, 2 * style.longest_period]);
        stops.push(Stop {
            tick: (tick + rest).min(LAST_TICK),
            calls: Vec::new(),
        });
        History { cores, stops }
    }
}

impl Style {
    fn first_stop(&self, tick: u64, generator: &mut Generator) -> Stop {
        let mut calls: Vec<Call> = (0..self.tasks).map(|_| self.declare(generator)).collect();
        if self.eager {
            calls.extend((0..self.tasks).map(Call::Release));
        }
        Stop { tick, calls }
    }

    fn step(&self, generator: &mut Generator) -> u64 {
        match generator.below(6) {
            0 => generator.below(2),
            1 => generator.between(1, self.longest_period),
            _ => generator.between(1, self.longest_period / 4 + 1),
        }
    }

    fn calls(&self, generator: &mut Generator) -> Vec<Call> {
        if self.eager && !generator.once_in(4) {
            return (0..self.tasks).map(Call::Release).collect();
        }
        (0..generator.below(8))
            .map(|_| self.call(generator))
            .collect()
    }

    fn declare(&self, generator: &mut Generator) -> Call {
        let period = generator.between(1, self.longest_period);
        let most = self.highest_rate * period;
        let cost = generator.between(1, most);
        Call::Declare {
            period,
            cost: generator.one_of(&[most, cost, cost, cost]),
        }
    }

    fn call(&self, generator: &mut Generator) -> Call {
        match generator.below(16) {
            0 | 1 => self.declare(generator),
            2 | 3 => Call::Withdraw(generator.below(self.tasks + 1)),
            4 => Call::Open(generator.one_of(&[0, 17, u64::MAX])),
            5 => {
                let (period, cost) = generator.one_of(&[(0, 1), (60_001, 1), (1, 0), (3, 3001)]);
                Call::Declare { period, cost }
            }
            6 => Call::Release(generator.one_of(&[63, 64, u64::MAX])),
            _ => Call::Release(generator.below(self.tasks)),
        }
    }
}
