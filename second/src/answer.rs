//! What the calls hand back.

/// The refusal numbers of document 01's table.
pub mod refusal {
    pub const NOT_SOUND: u64 = 1;
    pub const CORES: u64 = 2;
    pub const PERIOD: u64 = 3;
    pub const COST: u64 = 4;
    pub const SLOTS_FULL: u64 = 5;
    pub const RATES: u64 = 6;
    pub const SLOT: u64 = 7;
    pub const JOB_PENDING: u64 = 8;
    pub const ROWS_FULL: u64 = 9;
    pub const BEYOND_LAST_TICK: u64 = 10;
    pub const BEFORE_CLOCK: u64 = 11;
    pub const SEGMENT_BUFFER: u64 = 12;
    pub const CORE: u64 = 13;
    pub const MALFORMED_LINE: u64 = 14;
}

/// The answer of every call but holder. `number` is 0 when the call is accepted;
/// "every refusal hands back its number with value 0 and count 0".
#[derive(Clone, Copy, Debug, PartialEq, Eq)]
pub struct Answer {
    pub number: u64,
    pub value: u64,
    pub count: u64,
}

impl Answer {
    pub const fn accepted(value: u64) -> Answer {
        Answer {
            number: 0,
            value,
            count: 0,
        }
    }

    pub const fn refused(number: u64) -> Answer {
        Answer {
            number,
            value: 0,
            count: 0,
        }
    }
}

/// The answer of holder.
#[derive(Clone, Copy, Debug, PartialEq, Eq)]
pub enum Holding {
    /// "The slot holding it at the first grain of the clock's tick, with the
    /// grain at which that segment ends."
    Held { slot: u64, until: u64 },
    /// "Idle, with the grain at which slice 0 ends."
    IdleUntil(u64),
    /// "Idle without a limit when nothing is pending."
    Idle,
    /// The number of the refusal.
    Refused(u64),
}
