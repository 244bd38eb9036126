//! The six calls, each as the planner and as the second library have it.

use second::Holding;

use crate::boards::{board, Words};
use crate::killaruna::{words, LAST_TICK, RESULT_WORDS};

#[derive(Clone, Copy, Debug, PartialEq, Eq)]
pub enum Call {
    Open,
    Declare,
    Withdraw,
    Release,
    Advance,
    Holder,
}

pub const CALLS: [Call; 6] = [
    Call::Open,
    Call::Declare,
    Call::Withdraw,
    Call::Release,
    Call::Advance,
    Call::Holder,
];

/// A slot whose job is pending only where all 64 are.
const LAST_IDLE: u64 = 62;

/// The last core: on a full board holder goes along the whole line for it.
const LAST_CORE: u64 = 15;

impl Call {
    /// The table that the call is timed on, with so many rows in use. For a release the row that it
    /// adds is counted: with 64 rows in use every task has a job pending, and none can be released.
    pub fn board(self, rows: u64) -> Words {
        match self {
            Call::Release => board(1, rows.saturating_sub(1)),
            _ => board(0, rows),
        }
    }

    /// Through the station library. Hands back the refusal's number.
    pub fn by_planner(self, lent: &mut Words) -> u64 {
        let (state, shares) = (&mut lent.state, &mut lent.shares);
        let result = &mut [0; RESULT_WORDS];
        match self {
            Call::Open => words::open(state, shares, 16, result),
            Call::Declare => words::declare(state, shares, 50, 100, result),
            Call::Withdraw => words::withdraw(state, shares, LAST_IDLE, result),
            Call::Release => words::release(state, shares, 0, result),
            Call::Advance => words::advance(state, shares, LAST_TICK, &mut lent.segments, result),
            Call::Holder => words::holder(state, shares, LAST_CORE, result),
        }
    }

    /// Through the second library.
    pub fn by_second(self, lent: &mut Words) -> u64 {
        let (state, shares) = (&mut lent.state, &mut lent.shares);
        let answer = match self {
            Call::Open => second::open(state, shares, 16),
            Call::Declare => second::declare(state, shares, 50, 100),
            Call::Withdraw => second::withdraw(state, shares, LAST_IDLE),
            Call::Release => second::release(state, shares, 0),
            Call::Advance => second::advance(state, shares, LAST_TICK, &mut lent.segments),
            Call::Holder => match second::holder(state, shares, LAST_CORE) {
                Holding::Refused(number) => return number,
                _ => return 0,
            },
        };
        answer.number
    }
}
