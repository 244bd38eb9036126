//! Playing one history, with what is checked at every call.

use crate::common::{accepted, Generator, Lent};
use crate::definition;
use crate::shadows::Shadows;
use crate::style::Style;
use second::limits::LAST_TICK;
use second::words::{task_word, DEADLINE, PERIOD, RATE, SLOTS_IN_USE};
use second::{Answer, Holding};

/// One release of a task.
pub struct Job {
    pub slot: u64,
    pub release: u64,
    pub deadline: u64,
    pub allowance: u64,
}

pub struct History {
    pub style: Style,
    pub lent: Lent,
    /// Every segment handed back, in the order of the calls.
    pub record: Vec<[u64; 4]>,
    pub jobs: Vec<Job>,
    pub calls: u64,
    pub refusals: [u64; 14],
    shadows: Shadows,
}

impl History {
    pub fn played(style: Style, generator: &mut Generator) -> History {
        let lent = Lent::opened(style.cores);
        let shadows = Shadows::of(&lent);
        let mut history = History {
            style,
            lent,
            record: Vec::new(),
            jobs: Vec::new(),
            calls: 1,
            refusals: [0; 14],
            shadows,
        };
        history.advance(style.start, generator);
        history.declare_all(generator);
        if style.eager {
            history.release_all();
        }
        for _ in 0..style.calls {
            if history.lent.clock() - style.start >= style.ticks {
                break;
            }
            history.call(generator);
        }
        // Let every pending job reach its deadline, unless that takes too long.
        while let Some(&boundary) = history.lent.boundaries().first() {
            if boundary - style.start > style.ticks + 8 && !style.long {
                break;
            }
            history.advance(LAST_TICK, generator);
        }
        history.shadows.compare(&history.lent, &history.record);
        history
    }

    /// Whether the answer is a refusal, counted and checked to have changed nothing.
    fn settle(&mut self, answer: Answer, before: &Lent) -> bool {
        self.calls += 1;
        assert!(self.lent.sound());
        if answer.number == 0 {
            return false;
        }
        assert_eq!((answer.value, answer.count), (0, 0));
        assert!(self.lent == *before, "a refusal changes nothing");
        self.refusals[answer.number as usize] += 1;
        true
    }

    fn declare_all(&mut self, generator: &mut Generator) {
        for _ in 0..self.style.tasks {
            self.declare(generator);
        }
        // What is left of every core goes to tasks of the highest rate that still fits.
        while self.style.full && self.lent.state[SLOTS_IN_USE] != u64::MAX {
            let rates: u64 = (0..64)
                .map(|slot| self.lent.state[task_word(slot, RATE)])
                .sum();
            let left = (1000 * self.style.cores - rates).min(1000);
            if left == 0 {
                break;
            }
            let period = generator.between(1, self.style.longest_period);
            self.declare_this(period, left * period);
        }
    }

    fn declare(&mut self, generator: &mut Generator) {
        let period = generator.between(1, self.style.longest_period);
        let most = self.style.highest_rate * period;
        let cost = if generator.once_in(5) {
            most
        } else {
            generator.between(1, most)
        };
        self.declare_this(period, cost);
    }

    fn declare_this(&mut self, period: u64, cost: u64) {
        let before = self.lent.clone();
        let answer = self.lent.declare(period, cost);
        if !self.settle(answer, &before) {
            assert_eq!(
                answer.value,
                u64::from(before.state[SLOTS_IN_USE].trailing_ones())
            );
            self.shadows.settled(&self.lent, |shadow| {
                assert_eq!(shadow.declare(period, cost), answer)
            });
        }
    }

    fn withdraw(&mut self, slot: u64) {
        let before = self.lent.clone();
        let answer = self.lent.withdraw(slot);
        if !self.settle(answer, &before) {
            assert_eq!(answer, accepted(0));
            self.shadows.settled(&self.lent, |shadow| {
                assert_eq!(shadow.withdraw(slot), answer)
            });
        }
    }

    fn release(&mut self, slot: u64) {
        let before = self.lent.clone();
        let answer = self.lent.release(slot);
        if self.settle(answer, &before) {
            return;
        }
        let (period, rate) = (
            before.state[task_word(slot as usize, PERIOD)],
            before.state[task_word(slot as usize, RATE)],
        );
        let release = before.clock();
        assert_eq!(answer, accepted(release + period));
        definition::check_release(&before, &self.lent, slot as usize, &self.record);
        self.jobs.push(Job {
            slot,
            release,
            deadline: release + period,
            allowance: rate * period,
        });
        self.shadows.settled(&self.lent, |shadow| {
            assert_eq!(shadow.release(slot), answer)
        });
    }

    fn release_all(&mut self) {
        for slot in 0..64 {
            if self.lent.state[SLOTS_IN_USE] >> slot & 1 == 1
                && self.lent.state[task_word(slot, DEADLINE)] == 0
            {
                self.release(slot as u64);
            }
        }
    }

    fn advance(&mut self, tick: u64, generator: &mut Generator) {
        let before = self.lent.clone();
        let holdings: Vec<Holding> = (0..self.style.cores)
            .map(|core| before.holder(core))
            .collect();
        let answer = self.lent.advance(tick);
        if self.settle(answer, &before) {
            return;
        }
        let segments = self.lent.written(answer.count);
        definition::check_advance(&before, &self.lent, tick, answer, &segments);
        definition::check_holdings(&before, answer.value, &holdings, &segments);
        if self.style.laid_out && !self.style.long {
            definition::check_against_the_line(&before, answer.value, &holdings, &segments);
        }
        self.record.extend_from_slice(&segments);
        self.shadows
            .advance(&self.lent, tick, self.style.long, generator);
    }

    fn call(&mut self, generator: &mut Generator) {
        let clock = self.lent.clock();
        match generator.below(24) {
            0 => self.declare(generator),
            1 => self.withdraw(generator.below(66)),
            2..=8 => self.release(generator.below(self.style.tasks.min(63) + 1)),
            9..=18 => {
                let step = match generator.below(4) {
                    0 => generator.below(2),
                    1 => generator.below(self.style.longest_period + 2),
                    _ => generator.between(1, 3.max(self.style.longest_period / 3)),
                };
                self.advance(clock.saturating_add(step), generator);
                let slice_ended = self.lent.clock() == self.lent.plan_start();
                if self.style.eager && slice_ended {
                    self.release_all();
                }
            }
            19 => {
                let before = self.lent.clone();
                let cores = [0, 17, u64::MAX][generator.below(3) as usize];
                let answer = self.lent.open(cores);
                assert!(self.settle(answer, &before));
            }
            20 => {
                let (period, cost) = [(0, 1), (60_001, 1), (1, 0), (3, 3001), (1, 1000)]
                    [generator.below(5) as usize];
                self.declare_this(period, cost);
            }
            21 => {
                if clock > 0 {
                    self.advance(generator.below(clock), generator);
                }
                self.advance(LAST_TICK + 1 + generator.below(9), generator);
            }
            22 => {
                let before = self.lent.clone();
                let short = generator.below(320) as usize;
                let answer = second::advance(
                    &mut self.lent.state,
                    &mut self.lent.shares,
                    clock,
                    &mut self.lent.segments[..short],
                );
                assert!(self.settle(answer, &before));
            }
            _ => {
                let core = self.style.cores + generator.below(3);
                assert_eq!(self.lent.holder(core), Holding::Refused(13));
                self.refusals[13] += 1;
            }
        }
    }
}
