//! The page docs/VERSIONS.md.

use crate::table::Table;

const OPENING: &str = "\
# The four versions side by side

Every version is given the same random boards and the same releases. A job misses where at its deadline it has not held its
allowance, rate times period grains. 100,000 jobs for each load; how many of them miss:

";

const VERSIONS: &str = "
![Jobs that miss, by load and version](versions.svg)

The lines across the plot are ten times apart; 0 is at the foot.

## What each version does

- **Version one** pins each task to a core when it is declared, the first core with room for its rate. Each core then runs its own
  jobs, earliest deadline first.
- **Version two** pins nothing. In each grain the jobs with the earliest deadlines run, one core each.
- **Version three** has the slices, shares and wrap of the planner, with two of the roads that look shorter: a release does not lower
  the shares of slice 0 by what has run, and a cut rounds every share down alone. What then lies on the line past the last core is not run.
- **The planner** follows the rules: shares are lowered at every release, and a cut rounds the running sum. It misses nothing.

In every version a job ends at its deadline, whatever it has held.

## By load and number of cores

Version one has no room for some tasks, though the station as a whole has. It pins them to the core with the least rates all the
same, so that their misses show here. The last column counts the jobs of those tasks, whether they miss or not.

";

const SHORTCUTS: &str = "
## Which of version three's shortcuts costs what

The same tables of shares over the same boards, with each of the two rules kept or left:

";

const BOARDS: &str = "
A forgotten lowering is costly at every load, because what has run is laid once more and pushes others off the line. Rounding alone
shows on boards that are full: the grain too many in the second part has no place there.

## The boards

A board has from one task more than cores to four times as many. Its rates are random, from 1 to 1,000, and sum to exactly the load.
Periods are 3 to 60 ticks. A fifth of the boards release every job at the very deadline of the former one. On the others one release
in 20, in 5, in 2, or every one comes after a gap of up to half a period. 50 boards of 500 jobs for each load and number of cores.

";

pub fn page(by_load: &Table, by_cores: &Table, shortcuts: &Table, seed: u64) -> String {
    let command = format!(
        "Written from the repository's folder by\n\n    cargo run --release --offline \
         --manifest-path bench/versions/Cargo.toml -- --seed {seed} --write\n"
    );
    [
        OPENING,
        &by_load.markdown(),
        VERSIONS,
        &by_cores.markdown(),
        SHORTCUTS,
        &shortcuts.markdown(),
        BOARDS,
        &command,
    ]
    .concat()
}
