//! Plays random histories through the compiled planner, each with four ways of cutting time, and
//! compares the tables and the records. Options: --histories, --seed.

use std::process::ExitCode;

use trials::generator::Generator;
use trials::history::{Call, History, Stop};
use trials::killaruna::{Done, Segment};
use trials::options;
use trials::record::{count, merged, Job};
use trials::run::{Run, WAYS};

/// What was done, for the last line.
#[derive(Default)]
struct Tally {
    advances: u64,
    calls: u64,
    refused: u64,
    jobs: usize,
    finished: usize,
    segments: usize,
}

impl Tally {
    fn add(&mut self, other: Tally) {
        self.advances += other.advances;
        self.calls += other.calls;
        self.refused += other.refused;
        self.jobs += other.jobs;
        self.finished += other.finished;
        self.segments += other.segments;
    }
}

/// The jobs of a history, counted from the accepted calls.
struct Jobs {
    /// Period and rate of each slot's task.
    tasks: [(u64, u64); 64],
    released: Vec<Job>,
}

impl Jobs {
    fn note(&mut self, clock: u64, call: Call, done: Done) -> Result<(), String> {
        match call {
            Call::Declare { period, cost } => {
                self.tasks[done.value as usize] = (period, cost.div_ceil(period));
            }
            Call::Release(slot) => {
                let (period, rate) = self.tasks[slot as usize];
                if done.value != clock + period {
                    return Err(format!("{call:?} answers {done:?}"));
                }
                self.released.push(Job {
                    slot,
                    release: clock,
                    deadline: done.value,
                    allowance: rate * period,
                });
            }
            Call::Open(_) | Call::Withdraw(_) => {}
        }
        Ok(())
    }
}

/// Says where two tables differ, if they do.
fn same_table(first: &Run, other: &Run) -> Result<(), String> {
    let mut state = first.state.iter().zip(&other.state);
    let mut shares = first.shares.iter().zip(&other.shares);
    if let Some(word) = state.position(|(one, two)| one != two) {
        return Err(format!("word {word} of the state differs"));
    }
    match shares.position(|(one, two)| one != two) {
        Some(word) => Err(format!("word {word} of the shares differs")),
        None => Ok(()),
    }
}

/// Says where two merged records differ, if they do.
fn same_record(first: &[Segment], other: &[Segment]) -> Result<(), String> {
    if let Some((one, two)) = first.iter().zip(other).find(|(one, two)| one != two) {
        return Err(format!("the record has {two:?} and not {one:?}"));
    }
    match first.len() == other.len() {
        true => Ok(()),
        false => Err(format!("{} segments and not {}", other.len(), first.len())),
    }
}

/// One history, carried out by several runs side by side.
struct Play {
    runs: Vec<Run>,
    jobs: Jobs,
    tally: Tally,
}

impl Play {
    fn opened(cores: u64) -> Result<Play, String> {
        let runs = WAYS.iter().map(|&way| Run::opened(way, cores));
        Ok(Play {
            runs: runs.collect::<Result<_, _>>()?,
            jobs: Jobs {
                tasks: [(0, 0); 64],
                released: Vec::new(),
            },
            tally: Tally::default(),
        })
    }

    /// Every run goes to the stop in its own way and makes the stop's calls.
    fn stop(&mut self, stop: &Stop, generator: &mut Generator) -> Result<(), String> {
        for run in &mut self.runs {
            let way = run.way;
            run.go_to(stop.tick, generator)
                .map_err(|what| format!("{way:?}: {what}"))?;
        }
        for &call in &stop.calls {
            self.call(call, stop.tick)?;
        }
        self.compare(same_table)
    }

    /// The same call in every run must have the same answer.
    fn call(&mut self, call: Call, clock: u64) -> Result<(), String> {
        let answers: Vec<_> = self.runs.iter_mut().map(|run| run.call(call)).collect();
        if answers.iter().any(|answer| *answer != answers[0]) {
            return Err(format!("{call:?} answers {answers:?}"));
        }
        self.tally.calls += 1;
        match answers[0] {
            Ok(done) => self.jobs.note(clock, call, done)?,
            Err(_) => self.tally.refused += 1,
        }
        Ok(())
    }

    /// Compares every other run with the first.
    fn compare(&self, same: impl Fn(&Run, &Run) -> Result<(), String>) -> Result<(), String> {
        let (first, others) = (&self.runs[0], &self.runs[1..]);
        others.iter().try_for_each(|run| {
            let named = |what| format!("{:?} at tick {}: {what}", run.way, first.clock());
            same(first, run).map_err(named)
        })
    }

    /// At the last clock: the records are equal, and the first is counted.
    fn end(mut self, cores: u64) -> Result<Tally, String> {
        let record = merged(&self.runs[0].record);
        self.compare(|_, run| same_record(&record, &merged(&run.record)))?;
        let jobs = &self.jobs.released;
        self.tally.finished = count(&record, cores, jobs, self.runs[0].clock())?;
        self.tally.jobs = jobs.len();
        self.tally.segments = record.len();
        self.tally.advances = self.runs.iter().map(|run| run.advances).sum();
        Ok(self.tally)
    }
}

fn play(generator: &mut Generator) -> Result<Tally, String> {
    let history = History::chosen(generator);
    let mut play = Play::opened(history.cores)?;
    for stop in &history.stops {
        play.stop(stop, generator)
            .map_err(|what| format!("at the stop of tick {}: {what}", stop.tick))?;
    }
    play.end(history.cores)
}

fn main() -> ExitCode {
    let [histories, seed] = options::read([("--histories", 1000), ("--seed", 1)]);
    let mut all = Tally::default();
    for number in seed..seed + histories {
        match play(&mut Generator::seeded(number)) {
            Ok(tally) => all.add(tally),
            Err(what) => {
                println!("recut: history with --seed {number}: {what}");
                return ExitCode::FAILURE;
            }
        }
    }
    println!(
        "recut: {histories} histories, each with {} ways of cutting time: {} advances, {} calls at \
         the same ticks ({} refused); tables and records ({} segments) are equal; {} of {} jobs \
         reached their deadline, each with exactly its allowance",
        WAYS.len(),
        all.advances,
        all.calls,
        all.refused,
        all.segments,
        all.finished,
        all.jobs
    );
    ExitCode::SUCCESS
}
