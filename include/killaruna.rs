//! Killaruna: a core planner over lent words, for Rust.
//!
//! A safe way to the six calls of `libstation.a`; `killaruna.h` has the layout of the words, the
//! units and what is promised. It owns nothing and copies nothing: a `Planner` borrows the state and
//! the share table while it is used, so the borrow checker sees to the caller's part, that no two
//! areas overlap and that nobody else writes them.
//!
//! ```ignore
//! let (mut state, mut shares) = ([0; STATE_WORDS], [0; SHARE_WORDS]);
//! let mut planner = Planner::lent(&mut state, &mut shares);
//! planner.open(2)?;
//! let slot = planner.declare(3, 1998)?.value;
//! ```

// A user of the module need not use all of it.
#![allow(dead_code)]

#[path = "killaruna_words.rs"]
pub mod words;

/// How many words each area needs.
pub const STATE_WORDS: usize = 325;
pub const SHARE_WORDS: usize = 4096;
pub const SEGMENT_WORDS: usize = 320;
pub const RESULT_WORDS: usize = 3;

pub const GRAINS_PER_TICK: u64 = 1000;
pub const LAST_TICK: u64 = 1 << 40;

/// Holder's word for a core that nobody holds.
const IDLE: u64 = 64;

/// An accepted call: its value, and the count of segments (0 but for advance).
#[derive(Clone, Copy, Debug, PartialEq, Eq)]
pub struct Done {
    pub value: u64,
    pub count: usize,
}

/// Why a call was refused; `as u64` gives the number. A refused call changed nothing it was lent.
#[derive(Clone, Copy, Debug, PartialEq, Eq)]
pub enum Refusal {
    NotSound = 1,
    Cores = 2,
    Period = 3,
    Cost = 4,
    SlotsFull = 5,
    RatesFull = 6,
    Slot = 7,
    JobPending = 8,
    RowsFull = 9,
    BeyondLastTick = 10,
    BeforeClock = 11,
    SegmentsShort = 12,
    Core = 13,
}

/// Each refusal with its reason, by number from 1 on.
#[rustfmt::skip]
const REASONS: [(Refusal, &str); 13] = [
    (Refusal::NotSound, "an area is too short, or the table is not sound"),
    (Refusal::Cores, "cores not 1 to 16"),
    (Refusal::Period, "period not 1 to 60,000"),
    (Refusal::Cost, "cost 0, or above 1,000 times the period"),
    (Refusal::SlotsFull, "all 64 slots in use"),
    (Refusal::RatesFull, "rates would sum to more than 1,000 times the cores"),
    (Refusal::Slot, "slot above 63 or not in use"),
    (Refusal::JobPending, "a job of this task is pending"),
    (Refusal::RowsFull, "a new boundary is needed and 64 rows are in use"),
    (Refusal::BeyondLastTick, "deadline or tick beyond 2 to the 40th"),
    (Refusal::BeforeClock, "tick before the clock"),
    (Refusal::SegmentsShort, "segment buffer under 320 words"),
    (Refusal::Core, "core not below the count"),
];

impl Refusal {
    fn numbered(number: u64) -> Refusal {
        REASONS[number as usize - 1].0
    }
}

impl std::fmt::Display for Refusal {
    fn fmt(&self, f: &mut std::fmt::Formatter) -> std::fmt::Result {
        let number = *self as usize;
        write!(f, "refused {number}: {}", REASONS[number - 1].1)
    }
}

impl std::error::Error for Refusal {}

/// Who has a core at the first grain of the clock's tick.
#[derive(Clone, Copy, Debug, PartialEq, Eq)]
pub enum Holder {
    /// The slot holding it, with the grain at which that segment ends.
    Held { slot: u64, until: u64 },
    /// Nobody, until the grain at which slice 0 ends.
    IdleUntil(u64),
    /// Nobody, without a limit: nothing is pending.
    Idle,
}

/// `slot` holds `core` from grain `first` until just before grain `after`.
#[derive(Clone, Copy, Debug, PartialEq, Eq)]
pub struct Segment {
    pub core: u64,
    pub slot: u64,
    pub first: u64,
    pub after: u64,
}

/// The segments that an advance has written: the first `count` of the buffer.
pub fn segments(buffer: &[u64], count: usize) -> impl Iterator<Item = Segment> + '_ {
    let segment = |words: &[u64]| Segment {
        core: words[0],
        slot: words[1],
        first: words[2],
        after: words[3],
    };
    buffer.chunks_exact(4).take(count).map(segment)
}

/// The state and the share table, lent for a while. Any words may be lent: each call checks them
/// itself.
pub struct Planner<'a> {
    state: &'a mut [u64],
    shares: &'a mut [u32],
}

impl<'a> Planner<'a> {
    pub fn lent(state: &'a mut [u64], shares: &'a mut [u32]) -> Planner<'a> {
        Planner { state, shares }
    }

    /// A fresh table at clock 0. Value: cores.
    pub fn open(&mut self, cores: u64) -> Result<Done, Refusal> {
        answer(|result| words::open(self.state, self.shares, cores, result))
    }

    /// A task of this period (ticks) and cost (grains). Value: the slot, the lowest free one.
    pub fn declare(&mut self, period: u64, cost: u64) -> Result<Done, Refusal> {
        answer(|result| words::declare(self.state, self.shares, period, cost, result))
    }

    /// The slot is free again. Value 0.
    pub fn withdraw(&mut self, slot: u64) -> Result<Done, Refusal> {
        answer(|result| words::withdraw(self.state, self.shares, slot, result))
    }

    /// A job of this slot's task begins at the clock. Value: its deadline.
    pub fn release(&mut self, slot: u64) -> Result<Done, Refusal> {
        answer(|result| words::release(self.state, self.shares, slot, result))
    }

    /// The clock moves to this tick or to the first boundary, whichever is earlier. Value: the tick
    /// reached; count: how many segments stand in the buffer, for `segments` to read.
    pub fn advance(&mut self, tick: u64, segments: &mut [u64]) -> Result<Done, Refusal> {
        answer(|result| words::advance(self.state, self.shares, tick, segments, result))
    }

    /// Who holds this core now.
    pub fn holder(&self, core: u64) -> Result<Holder, Refusal> {
        let mut result = [0; RESULT_WORDS];
        let number = words::holder(self.state, self.shares, core, &mut result);
        match (number, result) {
            (0, [_, IDLE, 0]) => Ok(Holder::Idle),
            (0, [_, IDLE, until]) => Ok(Holder::IdleUntil(until)),
            (0, [_, slot, until]) => Ok(Holder::Held { slot, until }),
            (number, _) => Err(Refusal::numbered(number)),
        }
    }
}

/// Makes a call with a result area and takes the answer apart.
fn answer(call: impl FnOnce(&mut [u64]) -> u64) -> Result<Done, Refusal> {
    let mut result = [0; RESULT_WORDS];
    match (call(&mut result), result) {
        (0, [_, value, count]) => Ok(Done {
            value,
            count: count as usize,
        }),
        (number, _) => Err(Refusal::numbered(number)),
    }
}
