//! A core planner over lent words, after document 01: slices, shares and
//! the wrap, six calls, and the drill that reads commands as lines.
//!
//! Every call is lent the state words and the share table, decides for itself
//! whether they are sound, and on a refusal "changes nothing it was lent or
//! given".

#![forbid(unsafe_code)]

mod advance;
mod answer;
mod command;
mod cutting;
mod drill;
mod holder;
mod release;
mod run;
mod slots;
mod soundness;
mod wrap;

pub mod limits;
pub mod words;

pub use advance::advance;
pub use answer::{refusal, Answer, Holding};
pub use drill::Drill;
pub use holder::holder;
pub use release::release;
pub use run::run;
pub use slots::{declare, open, withdraw};
pub use soundness::sound;
pub use words::STATE_WORDS;
