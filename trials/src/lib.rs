//! What the trials of the compiled planner are made of. `recut` plays histories: a `history` is
//! carried out by several `run`s, each with its own way of cutting time, and the `record` is
//! counted. `faults` makes `changes` to `lent` words and puts each `call` to both libraries.

#[path = "../../include/killaruna.rs"]
pub mod killaruna;

pub mod call;
pub mod changes;
pub mod generator;
pub mod history;
pub mod lent;
pub mod options;
pub mod record;
pub mod run;
