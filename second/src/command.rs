//! Reading one line of the drill.

/// "Numbers have 1 to 13 digits."
const MOST_DIGITS: usize = 13;

/// "A line over 64 bytes is malformed."
pub(crate) const LONGEST_LINE: usize = 64;

#[derive(Clone, Copy, Debug, PartialEq, Eq)]
pub(crate) enum Command {
    Open { cores: u64 },
    Declare { period: u64, cost: u64 },
    Withdraw { slot: u64 },
    Release { slot: u64 },
    Advance { tick: u64 },
}

/// The command of a line, without its newline; nothing when it is malformed.
pub(crate) fn read_command(line: &[u8]) -> Option<Command> {
    if line.len() > LONGEST_LINE {
        return None;
    }
    // "A line opens with a two-byte mark, then has one space and a decimal number
    // for each field."
    let (mark, rest) = line.split_at_checked(2)?;
    let (first, rest) = read_field(rest)?;
    let (command, rest) = match mark {
        b"CO" => (Command::Open { cores: first }, rest),
        b"TK" => {
            let (cost, rest) = read_field(rest)?;
            (
                Command::Declare {
                    period: first,
                    cost,
                },
                rest,
            )
        }
        b"WD" => (Command::Withdraw { slot: first }, rest),
        b"RL" => (Command::Release { slot: first }, rest),
        b"AD" => (Command::Advance { tick: first }, rest),
        _ => return None,
    };
    rest.is_empty().then_some(command)
}

/// One space and one number from the front of the line, and what follows them.
fn read_field(line: &[u8]) -> Option<(u64, &[u8])> {
    let (b' ', line) = line.split_first()? else {
        return None;
    };
    let digits = line.iter().take_while(|byte| byte.is_ascii_digit()).count();
    if digits == 0 || digits > MOST_DIGITS {
        return None;
    }
    let (number, rest) = line.split_at(digits);
    // "No leading zero (0 itself is `0`)."
    if number[0] == b'0' && digits > 1 {
        return None;
    }
    // 13 digits stay far below 2 to the 64th.
    let value = number
        .iter()
        .fold(0, |value, &digit| 10 * value + u64::from(digit - b'0'));
    Some((value, rest))
}
