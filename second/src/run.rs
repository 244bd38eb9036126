//! Cutting a stream of bytes into the drill's lines, in flat memory.

use std::io::{ErrorKind, Read, Result, Write};

use crate::command::LONGEST_LINE;
use crate::drill::Drill;

const PIECE_BYTES: usize = 1 << 16;

/// The line being gathered. Of a line over 64 bytes only the first 64 are held, with
/// the fact that it is over long: it is malformed whatever the rest may say.
struct HeldLine {
    bytes: [u8; LONGEST_LINE],
    length: usize,
    over_long: bool,
}

impl HeldLine {
    fn extend(&mut self, more: &[u8]) {
        let room = LONGEST_LINE - self.length;
        self.over_long |= more.len() > room;
        let taken = more.len().min(room);
        self.bytes[self.length..self.length + taken].copy_from_slice(&more[..taken]);
        self.length += taken;
    }

    fn answer(&mut self, drill: &mut Drill, answers: &mut Vec<u8>) {
        drill.answer_line(&self.bytes[..self.length], self.over_long, answers);
        self.length = 0;
        self.over_long = false;
    }
}

/// Reads lines until the input ends and writes the answers. Answers are handed on
/// before each read, so that whoever waits for them before writing more is served.
pub fn run(mut input: impl Read, mut output: impl Write) -> Result<()> {
    let mut drill = Drill::new();
    let mut held = HeldLine {
        bytes: [0; LONGEST_LINE],
        length: 0,
        over_long: false,
    };
    let mut piece = vec![0; PIECE_BYTES];
    let mut answers = Vec::with_capacity(2 * PIECE_BYTES);
    loop {
        let length = match input.read(&mut piece) {
            Ok(0) => break,
            Ok(length) => length,
            Err(error) if error.kind() == ErrorKind::Interrupted => continue,
            Err(error) => return Err(error),
        };
        let mut rest = &piece[..length];
        while let Some(end) = rest.iter().position(|&byte| byte == b'\n') {
            held.extend(&rest[..end]);
            held.answer(&mut drill, &mut answers);
            rest = &rest[end + 1..];
            // One line answers at most 79 segments, so this bounds the memory.
            if answers.len() >= PIECE_BYTES {
                output.write_all(&answers)?;
                answers.clear();
            }
        }
        held.extend(rest);
        output.write_all(&answers)?;
        output.flush()?;
        answers.clear();
    }
    // "A last line without its newline counts."
    if held.length > 0 {
        held.answer(&mut drill, &mut answers);
        output.write_all(&answers)?;
    }
    output.flush()
}
