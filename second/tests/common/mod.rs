//! What several test files share: lent words in one place, and a small generator.
#![allow(dead_code)]

use second::limits::{LAST_TICK, SEGMENT_BUFFER_WORDS, SHARE_WORDS};
use second::words::{BOUNDARIES, BOUNDARY_COUNT, CLOCK, PLAN_START, STATE_WORDS};
use second::{Answer, Drill, Holding};

/// All the words lent to the calls, so that "changes nothing it was lent" is one
/// comparison.
#[derive(Clone, PartialEq, Eq, Debug)]
pub struct Lent {
    pub state: Vec<u64>,
    pub shares: Vec<u32>,
    pub segments: Vec<u64>,
}

/// What lent words hold before anybody writes them.
pub const STALE: u64 = 0xdead_beef_dead_beef;

impl Lent {
    pub fn fresh() -> Lent {
        Lent {
            state: vec![STALE; STATE_WORDS],
            shares: vec![STALE as u32; SHARE_WORDS],
            segments: vec![STALE; SEGMENT_BUFFER_WORDS],
        }
    }

    pub fn opened(cores: u64) -> Lent {
        let mut lent = Lent::fresh();
        assert_eq!(lent.open(cores), accepted(cores));
        lent
    }

    pub fn open(&mut self, cores: u64) -> Answer {
        second::open(&mut self.state, &mut self.shares, cores)
    }

    pub fn declare(&mut self, period: u64, cost: u64) -> Answer {
        second::declare(&mut self.state, &mut self.shares, period, cost)
    }

    pub fn withdraw(&mut self, slot: u64) -> Answer {
        second::withdraw(&mut self.state, &mut self.shares, slot)
    }

    pub fn release(&mut self, slot: u64) -> Answer {
        second::release(&mut self.state, &mut self.shares, slot)
    }

    pub fn advance(&mut self, tick: u64) -> Answer {
        second::advance(&mut self.state, &mut self.shares, tick, &mut self.segments)
    }

    pub fn holder(&self, core: u64) -> Holding {
        second::holder(&self.state, &self.shares, core)
    }

    pub fn sound(&self) -> bool {
        second::sound(&self.state, &self.shares)
    }

    pub fn clock(&self) -> u64 {
        self.state[CLOCK]
    }

    pub fn plan_start(&self) -> u64 {
        self.state[PLAN_START]
    }

    pub fn boundaries(&self) -> &[u64] {
        &self.state[BOUNDARIES..BOUNDARIES + self.state[BOUNDARY_COUNT] as usize]
    }

    /// The first `count` segments of the buffer.
    pub fn written(&self, count: u64) -> Vec<[u64; 4]> {
        self.segments
            .chunks_exact(4)
            .take(count as usize)
            .map(|words| [words[0], words[1], words[2], words[3]])
            .collect()
    }

    /// An accepted advance: the tick reached and the segments.
    pub fn advanced(&mut self, tick: u64) -> (u64, Vec<[u64; 4]>) {
        let answer = self.advance(tick);
        assert_eq!(answer.number, 0, "advance to {tick} is accepted");
        (answer.value, self.written(answer.count))
    }

    /// Asserts that a call is refused with this number and changes nothing lent.
    pub fn refuses(&mut self, number: u64, call: impl FnOnce(&mut Lent) -> Answer) {
        let before = self.clone();
        assert_eq!(call(self), refused(number));
        assert!(*self == before, "refusal {number} changed what it was lent");
    }
}

pub fn accepted(value: u64) -> Answer {
    Answer {
        number: 0,
        value,
        count: 0,
    }
}

pub fn refused(number: u64) -> Answer {
    Answer {
        number,
        value: 0,
        count: 0,
    }
}

/// A table of one core whose only task has this period, with the clock moved.
pub fn one_task_at(tick: u64, period: u64) -> Lent {
    assert!(tick <= LAST_TICK);
    let mut lent = Lent::opened(1);
    assert_eq!(lent.declare(period, 1), accepted(0));
    assert_eq!(lent.advance(tick), accepted(tick));
    lent
}

/// What the drill answers to a whole text of lines.
pub fn drilled(text: &str) -> String {
    let mut drill = Drill::new();
    let mut output = Vec::new();
    for line in text.lines() {
        drill.answer_line(line.as_bytes(), line.len() > 64, &mut output);
    }
    String::from_utf8(output).expect("answers are plain text")
}

/// What the whole program answers to these bytes.
pub fn program(input: &[u8]) -> Vec<u8> {
    let mut output = Vec::new();
    second::run(input, &mut output).expect("memory takes every write");
    output
}

/// A xorshift generator with a fixed seed: the same histories on every run.
pub struct Generator(u64);

impl Generator {
    pub fn seeded(seed: u64) -> Generator {
        // Spread close seeds apart; the state must not be zero.
        let mut generator =
            Generator((seed ^ 0x9e37_79b9_7f4a_7c15).wrapping_mul(0xbf58_476d_1ce4_e5b9) | 1);
        for _ in 0..8 {
            generator.word();
        }
        generator
    }

    pub fn word(&mut self) -> u64 {
        self.0 ^= self.0 << 13;
        self.0 ^= self.0 >> 7;
        self.0 ^= self.0 << 17;
        self.0.wrapping_mul(0x2545_f491_4f6c_dd1d)
    }

    pub fn below(&mut self, limit: u64) -> u64 {
        (self.word() >> 11) % limit
    }

    pub fn between(&mut self, least: u64, most: u64) -> u64 {
        least + self.below(most - least + 1)
    }

    /// True once in `many` times.
    pub fn once_in(&mut self, many: u64) -> bool {
        self.below(many) == 0
    }
}
