//! How many lines of each kind were answered.

use std::fmt::{self, Display, Formatter};

use crate::command::MARKS;

/// Every refusal the drill can give. 9 can't happen from a sound table; 12 and 13 are
/// of a buffer and a call that a script can't reach.
const REFUSALS: [usize; 11] = [1, 2, 3, 4, 5, 6, 7, 8, 10, 11, 14];

#[derive(Default)]
pub struct Tally {
    lines: u64,
    /// Accepted commands, in the order of `MARKS`.
    accepted: [u64; 5],
    /// Refusals by number.
    refused: [u64; 15],
    segments: u64,
}

/// The lines of a text. A last one without its newline counts if it isn't empty.
pub fn lines(text: &[u8]) -> impl Iterator<Item = &[u8]> {
    text.split_inclusive(|&byte| byte == b'\n')
        .map(|line| line.strip_suffix(b"\n").unwrap_or(line))
}

impl Tally {
    /// Counts the answers to a script; says what is wrong where they aren't one for
    /// each line.
    pub fn count(&mut self, script: &[u8], answers: &[u8]) -> Result<(), String> {
        let mut asked = lines(script);
        for answer in lines(answers) {
            if answer.starts_with(b"SG ") {
                self.segments += 1;
                continue;
            }
            let line = asked.next().ok_or("more answers than lines")?;
            self.count_one(line, answer)
                .ok_or_else(|| format!("an unknown answer: {}", answer.escape_ascii()))?;
        }
        match asked.next() {
            None => Ok(()),
            Some(_) => Err("fewer answers than lines".to_string()),
        }
    }

    fn count_one(&mut self, line: &[u8], answer: &[u8]) -> Option<()> {
        let (mark, number) = std::str::from_utf8(answer).ok()?.split_once(' ')?;
        let number: usize = number.parse().ok()?;
        match mark {
            "OK" => {
                let kind = |mark: &&str| line.starts_with(mark.as_bytes());
                self.accepted[MARKS.iter().position(kind)?] += 1;
            }
            "NO" => *self.refused.get_mut(number)? += 1,
            _ => return None,
        }
        self.lines += 1;
        Some(())
    }

    /// The kinds of answers that never occurred though a script can bring them about.
    pub fn missing(&self) -> Vec<String> {
        let accepted = (0..MARKS.len())
            .filter(|&kind| self.accepted[kind] == 0)
            .map(|kind| format!("OK to {}", MARKS[kind]));
        let refused = REFUSALS
            .iter()
            .filter(|&&number| self.refused[number] == 0)
            .map(|number| format!("NO {number}"));
        let segments = (self.segments == 0).then(|| "SG".to_string());
        accepted.chain(refused).chain(segments).collect()
    }
}

impl Display for Tally {
    fn fmt(&self, out: &mut Formatter) -> fmt::Result {
        writeln!(out, "{} lines answered", self.lines)?;
        for (mark, count) in MARKS.iter().zip(self.accepted) {
            writeln!(out, "  OK to {mark} {count:>10}")?;
        }
        for (number, count) in self.refused.iter().enumerate().skip(1) {
            writeln!(out, "  NO {number:<5} {count:>10}")?;
        }
        writeln!(out, "  SG       {:>10}", self.segments)
    }
}
