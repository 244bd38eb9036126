//! Plays all boards with all versions and keeps the outcomes.

use crate::board::{Board, Gaps};
use crate::global::Global;
use crate::pinned::Pinned;
use crate::planner::Planner;
use crate::referee::{play, Outcome};
use crate::sliced::Sliced;

/// In percent of the cores.
pub const LOADS: [u64; 6] = [50, 60, 70, 80, 90, 100];
pub const CORES: [usize; 4] = [2, 4, 8, 16];

/// 50 boards of 500 jobs for each load and number of cores: 100,000 jobs a load.
const BOARDS: usize = 50;
const JOBS: usize = 500;

/// The boards of one load and number of cores take these in turn.
const GAPS: [Gaps; 5] = [
    Gaps::Never,
    Gaps::OnceIn(20),
    Gaps::OnceIn(5),
    Gaps::OnceIn(2),
    Gaps::OnceIn(1),
];

/// A way to play a board, and its name.
type Player = (&'static str, fn(&Board) -> Outcome);

pub const VERSIONS: [Player; 4] = [
    ("version one", play::<Pinned>),
    ("version two", play::<Global>),
    ("version three", play::<Sliced<false, false>>),
    ("the planner", play::<Planner>),
];
pub const ONE: usize = 0;
pub const PLANNER: usize = 3;

/// Version three again, with each of its two rules left or kept.
pub const SHORTCUTS: [Player; 4] = [
    (
        "neither rule kept (version three)",
        play::<Sliced<false, false>>,
    ),
    ("only the cut kept", play::<Sliced<false, true>>),
    ("only the lowering kept", play::<Sliced<true, false>>),
    ("both rules kept", play::<Sliced<true, true>>),
];

/// The outcomes of some players over the same boards.
pub struct Results {
    pub players: Vec<&'static str>,
    /// By load, number of cores and player.
    outcomes: Vec<Vec<Vec<Outcome>>>,
}

impl Results {
    pub fn of(players: &[Player], seed: u64) -> Results {
        let at_load = |&load: &u64| {
            let at_cores = |&cores: &usize| outcomes(players, load, cores, seed);
            CORES.iter().map(at_cores).collect()
        };
        Results {
            players: players.iter().map(|&(name, _)| name).collect(),
            outcomes: LOADS.iter().map(at_load).collect(),
        }
    }

    pub fn at(&self, load: usize, cores: usize, player: usize) -> Outcome {
        self.outcomes[load][cores][player]
    }

    /// All numbers of cores together.
    pub fn at_load(&self, load: usize, player: usize) -> Outcome {
        (0..CORES.len())
            .map(|cores| self.at(load, cores, player))
            .sum()
    }

    pub fn in_all(&self, player: usize) -> Outcome {
        (0..LOADS.len())
            .map(|load| self.at_load(load, player))
            .sum()
    }
}

/// What each player makes of the boards of one load and number of cores.
fn outcomes(players: &[Player], load: u64, cores: usize, seed: u64) -> Vec<Outcome> {
    let boards: Vec<Board> = (0..BOARDS)
        .map(|number| {
            let place = (load * 100 + cores as u64) * 1_000 + number as u64;
            let gaps = GAPS[number % GAPS.len()];
            Board::random(cores, load, JOBS, gaps, (seed << 32) + place)
        })
        .collect();
    players
        .iter()
        .map(|(_, play)| boards.iter().map(play).sum())
        .collect()
}

#[cfg(test)]
mod tests {
    use super::*;

    /// The tables in between keep the same rules as the planner, so they hand out
    /// the same misses: none.
    #[test]
    fn nothing_misses_where_the_rules_are_kept() {
        for play in [VERSIONS[PLANNER].1, SHORTCUTS[3].1] {
            for load in LOADS {
                let board = Board::random(4, load, JOBS, Gaps::OnceIn(2), load);
                assert_eq!(play(&board).misses, 0);
                assert_eq!(play(&board).jobs, JOBS);
            }
        }
    }
}
