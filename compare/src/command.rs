//! The drill's commands.

#[derive(Clone, Copy)]
pub enum Command {
    Open { cores: u64 },
    Declare { period: u64, cost: u64 },
    Withdraw { slot: u64 },
    Release { slot: u64 },
    Advance { tick: u64 },
}

/// The marks of the commands, in the order of the tally.
pub const MARKS: [&str; 5] = ["CO", "TK", "WD", "RL", "AD"];

impl Command {
    /// The line, without its newline.
    pub fn line(self) -> Vec<u8> {
        let line = match self {
            Command::Open { cores } => format!("CO {cores}"),
            Command::Declare { period, cost } => format!("TK {period} {cost}"),
            Command::Withdraw { slot } => format!("WD {slot}"),
            Command::Release { slot } => format!("RL {slot}"),
            Command::Advance { tick } => format!("AD {tick}"),
        };
        line.into_bytes()
    }
}
