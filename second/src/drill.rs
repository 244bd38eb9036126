//! The drill: a planner with words of its own, told what to do by lines.

use crate::advance::advance;
use crate::answer::{refusal, Answer};
use crate::command::{read_command, Command};
use crate::limits::{SEGMENT_BUFFER_WORDS, SHARE_WORDS, WORDS_PER_SEGMENT};
use crate::release::release;
use crate::slots::{declare, open, withdraw};
use crate::words::STATE_WORDS;

pub struct Drill {
    state: Vec<u64>,
    shares: Vec<u32>,
    segments: Vec<u64>,
}

impl Default for Drill {
    fn default() -> Drill {
        Drill::new()
    }
}

impl Drill {
    /// Nothing is open yet. "Before the first accepted `CO`, other well-formed
    /// commands answer 1": words that are all zero name 0 cores and aren't sound.
    pub fn new() -> Drill {
        Drill {
            state: vec![0; STATE_WORDS],
            shares: vec![0; SHARE_WORDS],
            segments: vec![0; SEGMENT_BUFFER_WORDS],
        }
    }

    /// The state words, for whoever wants to compare them.
    pub fn state(&self) -> &[u64] {
        &self.state
    }

    /// The share table, for whoever wants to compare it.
    pub fn shares(&self) -> &[u32] {
        &self.shares
    }

    /// Answers one line, given without its newline. `over_long` says that bytes of
    /// it were left out because it is over 64 bytes.
    pub fn answer_line(&mut self, line: &[u8], over_long: bool, output: &mut Vec<u8>) {
        let command = if over_long { None } else { read_command(line) };
        // "It answers 14, before any other reason, and has no effect."
        let answer = match command {
            Some(command) => self.obey(command),
            None => Answer::refused(refusal::MALFORMED_LINE),
        };
        if answer.number != 0 {
            write_line(output, b"NO", &[answer.number]);
            return;
        }
        write_line(output, b"OK", &[answer.value]);
        let count = answer.count as usize;
        for segment in self.segments.chunks_exact(WORDS_PER_SEGMENT).take(count) {
            write_line(output, b"SG", segment);
        }
    }

    fn obey(&mut self, command: Command) -> Answer {
        let (state, shares) = (&mut self.state[..], &mut self.shares[..]);
        match command {
            Command::Open { cores } => open(state, shares, cores),
            Command::Declare { period, cost } => declare(state, shares, period, cost),
            Command::Withdraw { slot } => withdraw(state, shares, slot),
            Command::Release { slot } => release(state, shares, slot),
            Command::Advance { tick } => advance(state, shares, tick, &mut self.segments),
        }
    }
}

/// A mark, then one space and a decimal number for each field, then the newline.
fn write_line(output: &mut Vec<u8>, mark: &[u8], fields: &[u64]) {
    output.extend_from_slice(mark);
    for &field in fields {
        output.push(b' ');
        write_number(output, field);
    }
    output.push(b'\n');
}

fn write_number(output: &mut Vec<u8>, number: u64) {
    // The largest number of 64 bits has 20 digits.
    let mut digits = [0_u8; 20];
    let mut first = digits.len();
    let mut left = number;
    loop {
        first -= 1;
        digits[first] = b'0' + (left % 10) as u8;
        left /= 10;
        if left == 0 {
            break;
        }
    }
    output.extend_from_slice(&digits[first..]);
}
