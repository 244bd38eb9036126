//! The kinds of scripts: each one seeks out other places of the planner.

use crate::generator::Generator;

/// How a script goes about it.
#[derive(Clone, Copy)]
pub struct Style {
    /// One line in so many is malformed.
    pub malformed_once_in: u64,
    /// One command in so many is a `CO`.
    pub open_once_in: u64,
    /// Commands come before the first `CO`.
    pub begins_unopened: bool,
    /// Tasks that are declared and released before all else.
    pub tasks: u64,
    /// Those tasks have distinct periods, so that each release makes a boundary.
    pub distinct_periods: bool,
    /// The longest period that is commonly declared.
    pub longest_period: u64,
    /// The clock is first moved to shortly before the last tick.
    pub late: bool,
}

const ORDINARY: Style = Style {
    malformed_once_in: 40,
    open_once_in: 200,
    begins_unopened: false,
    tasks: 3,
    distinct_periods: false,
    longest_period: 20,
    late: false,
};

const LONG_PERIODS: Style = Style {
    tasks: 10,
    longest_period: 60_000,
    ..ORDINARY
};

pub const FULL_BOARD: Style = Style {
    open_once_in: 2_000,
    tasks: 66,
    longest_period: 40,
    ..ORDINARY
};

pub const MANY_BOUNDARIES: Style = Style {
    open_once_in: 2_000,
    tasks: 64,
    distinct_periods: true,
    longest_period: 300,
    ..ORDINARY
};

const LATE: Style = Style {
    tasks: 6,
    longest_period: 12,
    late: true,
    ..ORDINARY
};

const MALFORMED: Style = Style {
    malformed_once_in: 2,
    begins_unopened: true,
    ..ORDINARY
};

const OPENINGS: Style = Style {
    open_once_in: 6,
    begins_unopened: true,
    ..ORDINARY
};

/// A long script for measuring speed: few openings, so that the table stays busy.
pub const LONG: Style = Style {
    malformed_once_in: 100,
    open_once_in: 100_000,
    tasks: 40,
    longest_period: 200,
    ..ORDINARY
};

pub fn any_style(generator: &mut Generator) -> Style {
    generator.one_of(&[
        ORDINARY,
        LONG_PERIODS,
        FULL_BOARD,
        MANY_BOUNDARIES,
        LATE,
        MALFORMED,
        OPENINGS,
    ])
}
