//! Fault injection: random histories in which lent words or lengths are changed between calls.
//! After each change a call of each kind is made on the compiled planner and on the second library,
//! which must agree word for word. Options: --changes, --seed, --guards (words behind each area).

use std::process::ExitCode;

use trials::call::{Call, KINDS};
use trials::changes::change;
use trials::generator::Generator;
use trials::killaruna::{LAST_TICK, RESULT_WORDS, SEGMENT_WORDS};
use trials::lent::Lent;
use trials::options;

/// So many changes are made in one history.
const CHANGES_PER_HISTORY: u64 = 40;

/// Where the clock lies in the state.
const CLOCK: usize = 1;

/// What was done, for the last line.
#[derive(Default)]
struct Tally {
    sound: u64,
    not_sound: u64,
    /// How often each number was answered after a change.
    answers: [u64; 14],
}

/// A board with tasks, some of them released. Every call is made on both libraries.
fn board(guards: usize, generator: &mut Generator) -> Result<Lent, String> {
    let mut lent = Lent::stale(guards);
    let mut calls = vec![Call::Open(generator.between(1, 16))];
    if generator.once_in(4) {
        calls.push(Call::Advance(LAST_TICK - generator.below(40)));
    }
    let longest = generator.one_of(&[4, 12, 64, 60_000]);
    let highest = generator.one_of(&[30, 200, 1000]);
    for slot in 0..generator.between(1, 64) {
        let period = generator.between(1, longest);
        calls.push(Call::Declare(
            period,
            generator.between(1, highest * period),
        ));
        if !generator.once_in(4) {
            calls.push(Call::Release(slot));
        }
    }
    for call in calls {
        lent = call.on_both(&lent)?.1;
    }
    Ok(lent)
}

/// The history goes on by a few calls: advances and releases for the most part.
fn go_on(mut lent: Lent, generator: &mut Generator) -> Result<Lent, String> {
    for _ in 0..generator.below(4) {
        let clock = lent.state.words()[CLOCK];
        let kind = generator.one_of(&[1, 2, 3, 3, 3, 4, 4]);
        lent = Call::chosen(kind, clock, generator).on_both(&lent)?.1;
    }
    Ok(lent)
}

/// Puts a call of each kind to both libraries, on copies of the changed words.
fn try_every_kind(lent: &Lent, generator: &mut Generator, tally: &mut Tally) -> Result<(), String> {
    let clock = lent.state.words().get(CLOCK).copied().unwrap_or(0);
    for kind in 0..KINDS {
        let (number, _) = Call::chosen(kind, clock, generator).on_both(lent)?;
        tally.answers[number as usize] += 1;
    }
    Ok(())
}

fn history(
    changes: u64,
    guards: usize,
    generator: &mut Generator,
    tally: &mut Tally,
) -> Result<(), String> {
    let mut lent = board(guards, generator)?;
    for _ in 0..changes {
        lent = go_on(lent, generator)?;
        let mut changed = lent.clone();
        let name = change(&mut changed, generator);
        try_every_kind(&changed, generator, tally).map_err(|what| format!("{name}: {what}"))?;
        if !changed.sound() {
            tally.not_sound += 1;
            continue;
        }
        tally.sound += 1;
        // The history may go on from what the fault left, as long as calls can be accepted there.
        if generator.once_in(2) {
            changed.segments.resize(SEGMENT_WORDS);
            changed.result.resize(RESULT_WORDS);
            lent = changed;
        }
    }
    Ok(())
}

fn main() -> ExitCode {
    let [changes, seed, guards] =
        options::read([("--changes", 100_000), ("--seed", 1), ("--guards", 8)]);
    let mut generator = Generator::seeded(seed);
    let mut tally = Tally::default();
    let mut left = changes;
    while left > 0 {
        let some = left.min(CHANGES_PER_HISTORY);
        if let Err(what) = history(some, guards as usize, &mut generator, &mut tally) {
            println!(
                "faults: with --seed {seed} after {} changes: {what}",
                tally.sound + tally.not_sound
            );
            return ExitCode::FAILURE;
        }
        left -= some;
    }
    let [accepted, ones, others @ ..] = tally.answers;
    println!(
        "faults: {changes} changes, {} left the table sound and {} did not; {} calls after them \
         agree on both libraries in every word: {accepted} accepted, {ones} refused with 1, {} \
         with another number",
        tally.sound,
        tally.not_sound,
        tally.answers.iter().sum::<u64>(),
        others.iter().sum::<u64>()
    );
    ExitCode::SUCCESS
}
