//! Showing where two programs differ.

use std::env;
use std::fs;

use crate::program::Run;
use crate::tally::lines;

/// What there is to say of two runs that differ: the first answer that isn't the same
/// and the line it belongs to, or how the programs ended.
pub fn describe(script: &[u8], runs: &[Run; 2]) -> String {
    let (mut first, mut second) = (lines(&runs[0].answers), lines(&runs[1].answers));
    let mut number = 0;
    let mut asked = 0;
    loop {
        let pair = (first.next(), second.next());
        if pair == (None, None) {
            break;
        }
        number += 1;
        let answers_a_line = |answer: &[u8]| !answer.starts_with(b"SG ");
        // A segment belongs to the line of the answer before it.
        asked += u64::from(pair.0.or(pair.1).is_some_and(answers_a_line));
        if pair.0 != pair.1 {
            let (a, b) = (shown(pair.0), shown(pair.1));
            let line = shown(lines(script).nth(asked.saturating_sub(1) as usize));
            return format!(
                "answer {number} differs, to line {asked}: {line}\n  first program:  {a}\n  second program: {b}"
            );
        }
    }
    let ends = runs.each_ref().map(|run| match run.ended_well {
        true => "well",
        false => "badly",
    });
    format!(
        "the same lines; the first program ended {}, the second {}; or a newline is missing at the end",
        ends[0], ends[1]
    )
}

/// A line as it can be printed, cut where it is long.
fn shown(line: Option<&[u8]>) -> String {
    match line {
        None => "nothing".to_string(),
        Some(line) => line.escape_ascii().to_string().chars().take(100).collect(),
    }
}

/// Keeps the input in the temporary folder for a second look, and says where.
pub fn save(title: &str, input: &[u8]) {
    let name = format!("compare-{}.in", title.replace(' ', "-"));
    let path = env::temp_dir().join(name);
    match fs::write(&path, input) {
        Ok(()) => println!("  saved in {}", path.display()),
        Err(error) => println!("  {} cannot be written: {error}", path.display()),
    }
}
