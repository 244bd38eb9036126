//! What kind of history is played.

use crate::common::Generator;
use second::limits::LAST_TICK;

#[derive(Clone, Copy)]
pub struct Style {
    pub cores: u64,
    pub longest_period: u64,
    /// Costs are chosen so that rates are at most this.
    pub highest_rate: u64,
    /// How many tasks are declared at the beginning.
    pub tasks: u64,
    pub calls: u64,
    /// The history ends when the clock has moved this far.
    pub ticks: u64,
    pub start: u64,
    /// A board is full when the last task takes every grain that is left.
    pub full: bool,
    /// Release every task that can be, at the beginning and whenever a slice ends.
    pub eager: bool,
    /// Long periods: counted by intervals, not grain by grain.
    pub long: bool,
    /// Compare every advance with the line laid out grain by grain.
    pub laid_out: bool,
}

impl Style {
    pub fn chosen(number: u64, generator: &mut Generator) -> Style {
        let plain = Style {
            cores: generator.between(1, 4),
            longest_period: generator.between(1, 8),
            highest_rate: 1000,
            tasks: generator.between(1, 8),
            calls: generator.between(10, 60),
            ticks: 30,
            start: 0,
            full: false,
            eager: false,
            long: false,
            laid_out: number % 16 < 8 && (number / 16).is_multiple_of(3),
        };
        let cores = generator.between(1, 16);
        match number % 8 {
            0 => plain,
            // Many small tasks.
            1 => Style {
                cores,
                longest_period: 12,
                highest_rate: 300,
                tasks: generator.between(10, 50),
                calls: 80,
                ..plain
            },
            // Full boards.
            2 => Style {
                cores,
                full: true,
                eager: true,
                tasks: 3 * cores,
                longest_period: 10,
                ..plain
            },
            // Starts near the last tick.
            3 => Style {
                cores,
                start: LAST_TICK - generator.between(0, 30),
                full: generator.once_in(2),
                ..plain
            },
            4 => Style {
                cores,
                longest_period: 60_000,
                ticks: 300_000,
                tasks: generator.between(1, 30),
                full: generator.once_in(2),
                eager: generator.once_in(2),
                start: if generator.once_in(4) {
                    LAST_TICK - 100_000
                } else {
                    generator.below(1 << 39)
                },
                long: true,
                ..plain
            },
            // Rates of 1 and thereabouts: shares of few grains, cut often.
            5 => Style {
                highest_rate: 3,
                longest_period: 20,
                tasks: 20,
                calls: 70,
                ..plain
            },
            // 64 tasks at once.
            6 => Style {
                cores: generator.between(8, 16),
                longest_period: 64,
                highest_rate: 240,
                tasks: 66,
                calls: 60,
                ticks: 12,
                eager: generator.once_in(2),
                ..plain
            },
            // Full boards of whole and nearly whole cores, released one after another.
            _ => Style {
                full: true,
                tasks: 6,
                longest_period: 6,
                start: generator.below(1 << 38),
                ..plain
            },
        }
    }
}
