//! One run of a history through the compiled planner, with its own way of cutting time.

use crate::generator::Generator;
use crate::history::Call;
use crate::killaruna::{
    segments, Done, Planner, Refusal, Segment, LAST_TICK, SEGMENT_WORDS, SHARE_WORDS, STATE_WORDS,
};

/// Where the words lie that a run reads itself.
const CLOCK: usize = 1;
const BOUNDARY_COUNT: usize = 4;
const FIRST_BOUNDARY: usize = 5;

/// How the time between two stops is cut into advances.
#[derive(Clone, Copy, Debug, PartialEq, Eq)]
pub enum Way {
    /// The next stop is asked for, again where a boundary comes first.
    AsFewAsPossible,
    /// One tick at a time; over long distances at most 60 equal steps.
    TickByTick,
    /// Random ticks in between, the clock itself too, with questions and refused calls.
    ExtraStops,
    /// The last tick of all is asked for while a boundary keeps the clock from passing the stop.
    FarBeyond,
}

pub const WAYS: [Way; 4] = [
    Way::AsFewAsPossible,
    Way::TickByTick,
    Way::ExtraStops,
    Way::FarBeyond,
];

pub struct Run {
    pub way: Way,
    pub state: Vec<u64>,
    pub shares: Vec<u32>,
    /// Every segment handed back, in the order of the advances.
    pub record: Vec<Segment>,
    pub advances: u64,
    buffer: Vec<u64>,
}

impl Run {
    pub fn opened(way: Way, cores: u64) -> Result<Run, String> {
        let mut run = Run {
            way,
            state: vec![u64::MAX; STATE_WORDS],
            shares: vec![u32::MAX; SHARE_WORDS],
            record: Vec::new(),
            advances: 0,
            buffer: vec![u64::MAX; SEGMENT_WORDS],
        };
        match run.call(Call::Open(cores)) {
            Ok(Done { value, count: 0 }) if value == cores => Ok(run),
            other => Err(format!("open {cores} answered {other:?}")),
        }
    }

    fn planner(&mut self) -> Planner<'_> {
        Planner::lent(&mut self.state, &mut self.shares)
    }

    pub fn clock(&self) -> u64 {
        self.state[CLOCK]
    }

    fn first_boundary(&self) -> u64 {
        match self.state[BOUNDARY_COUNT] {
            0 => u64::MAX,
            _ => self.state[FIRST_BOUNDARY],
        }
    }

    pub fn call(&mut self, call: Call) -> Result<Done, Refusal> {
        match call {
            Call::Open(cores) => self.planner().open(cores),
            Call::Declare { period, cost } => self.planner().declare(period, cost),
            Call::Withdraw(slot) => self.planner().withdraw(slot),
            Call::Release(slot) => self.planner().release(slot),
        }
    }

    /// Moves the clock to this tick, in this run's way.
    pub fn go_to(&mut self, tick: u64, generator: &mut Generator) -> Result<(), String> {
        let step = (tick - self.clock()) / 60 + 1;
        while self.clock() < tick {
            let asked = match self.way {
                Way::AsFewAsPossible => tick,
                Way::TickByTick => tick.min(self.clock() + step),
                Way::ExtraStops => self.extra_stop(tick, generator)?,
                Way::FarBeyond if self.first_boundary() <= tick => LAST_TICK,
                Way::FarBeyond => tick,
            };
            self.advance(asked)?;
        }
        Ok(())
    }

    /// A random tick on the way. What is asked and refused before it must leave no trace.
    fn extra_stop(&mut self, tick: u64, generator: &mut Generator) -> Result<u64, String> {
        let (clock, short) = (self.clock(), SEGMENT_WORDS - 1);
        let Run {
            state,
            shares,
            buffer,
            ..
        } = self;
        let mut planner = Planner::lent(state, shares);
        let beyond = planner.advance(LAST_TICK + 1, buffer);
        let too_short = planner.advance(tick, &mut buffer[..short]);
        if (beyond, too_short) != (Err(Refusal::BeyondLastTick), Err(Refusal::SegmentsShort)) {
            return Err(format!(
                "advances to be refused answered {beyond:?}, {too_short:?}"
            ));
        }
        planner
            .holder(0)
            .map_err(|refusal| format!("holder 0 was {refusal}"))?;
        Ok(match generator.below(4) {
            0 => tick,
            1 => clock + generator.below(2),
            _ => generator.between(clock, tick),
        })
    }

    fn advance(&mut self, asked: u64) -> Result<(), String> {
        let expected = asked.min(self.first_boundary());
        let Run {
            state,
            shares,
            buffer,
            ..
        } = self;
        let done = Planner::lent(state, shares)
            .advance(asked, buffer)
            .map_err(|refusal| format!("advance to {asked} was {refusal}"))?;
        self.record.extend(segments(&self.buffer, done.count));
        self.advances += 1;
        if (done.value, self.clock()) != (expected, expected) {
            return Err(format!(
                "advance to {asked} reached {} and not {expected}",
                done.value
            ));
        }
        Ok(())
    }
}
