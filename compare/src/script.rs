//! Random scripts.

use crate::command::Command;
use crate::generator::Generator;
use crate::malformed::malformed;
use crate::station::{Station, GRAINS_PER_TICK, LAST_TICK, LONGEST_PERIOD, MOST_CORES};
use crate::style::{any_style, Style, LONG};

/// "Numbers have 1 to 13 digits."
const LARGEST_NUMBER: u64 = 9_999_999_999_999;

/// The script with this number, of any style.
pub fn script(seed: u64, number: u64) -> Vec<u8> {
    let mut generator = Generator::seeded(seed, number);
    let style = any_style(&mut generator);
    let steps = generator.between(5, 250);
    let mut writer = Writer::new(generator, style);
    writer.begin();
    for _ in 0..steps {
        writer.step();
    }
    // "A last line without its newline counts."
    if writer.generator.once_in(3) {
        writer.bytes.pop();
    }
    writer.bytes
}

/// A script of exactly this many lines.
pub fn long_script(seed: u64, lines: usize) -> Vec<u8> {
    let mut writer = Writer::new(Generator::seeded(seed, 0), LONG);
    writer.begin();
    while writer.lines < lines {
        writer.step();
    }
    let mut kept = writer.bytes.split_inclusive(|&byte| byte == b'\n');
    kept.by_ref().take(lines).flatten().copied().collect()
}

struct Writer {
    generator: Generator,
    style: Style,
    station: Station,
    bytes: Vec<u8>,
    lines: usize,
}

impl Writer {
    fn new(generator: Generator, style: Style) -> Writer {
        Writer {
            generator,
            style,
            station: Station::new(),
            bytes: Vec::new(),
            lines: 0,
        }
    }

    fn begin(&mut self) {
        if self.style.begins_unopened {
            for _ in 0..self.generator.below(8) {
                self.random_command();
            }
        }
        let cores = self.generator.between(1, MOST_CORES);
        self.command(Command::Open { cores });
        for number in 0..self.style.tasks {
            let period = match self.style.distinct_periods {
                // 37 and 64 have no factor in common, so this takes 64 different values.
                true => 64 + number * 37 % 64 * (self.style.longest_period / 64),
                false => self.generator.between(1, self.style.longest_period),
            };
            let rate = self.fair_rate();
            let cost = self.cost(period, rate);
            self.command(Command::Declare { period, cost });
        }
        if self.style.late {
            let tick = LAST_TICK - self.generator.below(60);
            self.command(Command::Advance { tick });
        }
        for slot in 0..self.style.tasks {
            self.command(Command::Release { slot });
        }
    }

    /// A line or a few.
    fn step(&mut self) {
        if self.generator.once_in(self.style.malformed_once_in) {
            let command = self.any_command();
            let line = malformed(&mut self.generator, command.line());
            self.line(line);
        } else if self.generator.once_in(12) {
            self.around_a_deadline();
        } else {
            self.random_command();
        }
    }

    /// A release one tick before the deadline of the former job, and one at it.
    fn around_a_deadline(&mut self) {
        let Some(deadline) = self.station.first_boundary() else {
            return self.random_command();
        };
        let due = self.station.slots(|task| task.deadline == Some(deadline));
        let slot = self.generator.one_of(&due);
        self.command(Command::Advance { tick: deadline - 1 });
        self.command(Command::Release { slot });
        self.command(Command::Advance { tick: deadline });
        self.command(Command::Release { slot });
    }

    fn random_command(&mut self) {
        let command = self.any_command();
        self.command(command);
    }

    fn any_command(&mut self) -> Command {
        if self.generator.once_in(self.style.open_once_in) {
            let cores = self.generator.between(1, MOST_CORES);
            let cores = self
                .generator
                .one_of(&[cores, cores, 0, 1, 16, 17, LARGEST_NUMBER]);
            return Command::Open { cores };
        }
        match self.generator.below(16) {
            0..3 => self.declare(),
            3 => Command::Withdraw {
                slot: self.slot(false),
            },
            4..10 => Command::Release {
                slot: self.slot(true),
            },
            _ => self.advance(),
        }
    }

    fn declare(&mut self) -> Command {
        let generator = &mut self.generator;
        let usual = generator.between(1, self.style.longest_period);
        let period = match generator.below(24) {
            0 => generator.one_of(&[0, LONGEST_PERIOD, LONGEST_PERIOD + 1, LARGEST_NUMBER]),
            _ => usual,
        };
        let most = GRAINS_PER_TICK * period.min(LONGEST_PERIOD);
        let rate = self.any_rate();
        let cost = match self.generator.below(16) {
            0 => self
                .generator
                .one_of(&[0, 1, most, most + 1, LARGEST_NUMBER]),
            1 => self.generator.between(1, most.max(1)),
            _ => self.cost(period, rate),
        };
        Command::Declare { period, cost }
    }

    /// A random rate that fits and leaves something for each other free slot.
    fn fair_rate(&mut self) -> u64 {
        let (free, slots) = (self.station.free_rate(), self.station.free_slots());
        let others = slots.saturating_sub(1);
        let fair = (2 * free / slots.max(1)).min(free.saturating_sub(others));
        self.generator.between(1, fair.clamp(1, GRAINS_PER_TICK))
    }

    /// A rate that commonly fits, at times to the last grain and at times with one
    /// grain too many.
    fn any_rate(&mut self) -> u64 {
        let (free, fair) = (self.station.free_rate(), self.fair_rate());
        match self.generator.below(30) {
            0 => free.clamp(1, GRAINS_PER_TICK),
            1 => (free + 1).min(GRAINS_PER_TICK),
            _ => fair,
        }
    }

    /// A cost of this rate; most are no multiple of the period.
    fn cost(&mut self, period: u64, rate: u64) -> u64 {
        (rate * period).saturating_sub(self.generator.below(period.max(1)))
    }

    /// Commonly a slot in use, without a pending job where `idle` asks for it.
    fn slot(&mut self, idle: bool) -> u64 {
        let slots = match self.generator.below(10) {
            0 => vec![self.generator.below(70)],
            1 => vec![63, 64, LARGEST_NUMBER],
            2 => self.station.slots(|_| true),
            _ => self.station.slots(|task| !idle || task.deadline.is_none()),
        };
        match slots.is_empty() {
            true => self.generator.below(8),
            false => self.generator.one_of(&slots),
        }
    }

    fn advance(&mut self) -> Command {
        let clock = self.station.clock;
        let few = self.generator.between(1, 6);
        let boundary = self.station.first_boundary().unwrap_or(clock + few);
        let within = self.generator.between(clock, boundary);
        let late = LAST_TICK - self.generator.below(40);
        let tick = match self.generator.below(24) {
            0 => clock,
            1 => clock.saturating_sub(few),
            2 => self.generator.one_of(&[LAST_TICK + 1, LARGEST_NUMBER]),
            3 if self.style.late => self.generator.one_of(&[late, LAST_TICK]),
            4..8 => boundary,
            8 => boundary + few,
            9..16 => within,
            _ => clock + few,
        };
        Command::Advance { tick }
    }

    fn command(&mut self, command: Command) {
        self.station.obey(command);
        self.line(command.line());
    }

    fn line(&mut self, line: Vec<u8>) {
        self.bytes.extend(line);
        self.bytes.push(b'\n');
        self.lines += 1;
    }
}

#[cfg(test)]
mod tests {
    use super::*;
    use crate::style::{FULL_BOARD, MANY_BOUNDARIES};

    fn begun(style: Style, seed: u64) -> Writer {
        let mut writer = Writer::new(Generator::seeded(seed, 0), style);
        writer.begin();
        writer
    }

    #[test]
    fn boards_are_full_and_boundaries_are_64() {
        for seed in 0..50 {
            assert_eq!(begun(FULL_BOARD, seed).station.free_slots(), 0);
            let tasks = begun(MANY_BOUNDARIES, seed).station.tasks;
            let mut deadlines: Vec<u64> = tasks
                .iter()
                .flatten()
                .filter_map(|task| task.deadline)
                .collect();
            deadlines.sort_unstable();
            deadlines.dedup();
            assert_eq!(deadlines.len(), 64);
        }
    }

    #[test]
    fn a_long_script_has_its_lines() {
        for lines in [1, 3, 100, 1_000] {
            let script = long_script(1, lines);
            assert_eq!(script.iter().filter(|&&byte| byte == b'\n').count(), lines);
        }
    }
}
