//! One call, put to the compiled planner and to the second library on copies of the same words.

use second::Holding;

use crate::generator::Generator;
use crate::killaruna::{words, RESULT_WORDS};
use crate::lent::Lent;

#[derive(Clone, Copy, Debug)]
pub enum Call {
    Open(u64),
    Declare(u64, u64),
    Withdraw(u64),
    Release(u64),
    Advance(u64),
    Holder(u64),
}

pub const KINDS: u64 = 6;

impl Call {
    /// A call of one of the six kinds. One number in six has nothing to do with the table.
    pub fn chosen(kind: u64, clock: u64, generator: &mut Generator) -> Call {
        let wild = generator.wild();
        let mut number = |usual: u64| if generator.once_in(6) { wild } else { usual };
        match kind {
            0 => Call::Open(number(wild % 18)),
            1 => {
                let period = number(1 + wild % 60);
                Call::Declare(period, number(1 + wild % 300 * period.min(60_000)))
            }
            2 => Call::Withdraw(number(wild % 65)),
            3 => Call::Release(number(wild % 65)),
            4 => Call::Advance(number(clock.wrapping_add(wild % 9))),
            _ => Call::Holder(number(wild % 17)),
        }
    }

    fn by_planner(self, lent: &mut Lent) -> u64 {
        let (state, shares) = (lent.state.words_mut(), lent.shares.words_mut());
        let (segments, result) = (lent.segments.words_mut(), lent.result.words_mut());
        match self {
            Call::Open(cores) => words::open(state, shares, cores, result),
            Call::Declare(period, cost) => words::declare(state, shares, period, cost, result),
            Call::Withdraw(slot) => words::withdraw(state, shares, slot, result),
            Call::Release(slot) => words::release(state, shares, slot, result),
            Call::Advance(tick) => words::advance(state, shares, tick, segments, result),
            Call::Holder(core) => words::holder(state, shares, core, result),
        }
    }

    /// The second library knows no result area. One that is too short is refused before anything is
    /// looked at, and nothing is written.
    fn by_second(self, lent: &mut Lent) -> u64 {
        if lent.result.words().len() < RESULT_WORDS {
            return second::refusal::NOT_SOUND;
        }
        let (state, shares) = (lent.state.words_mut(), lent.shares.words_mut());
        let answer = match self {
            Call::Open(cores) => second::open(state, shares, cores),
            Call::Declare(period, cost) => second::declare(state, shares, period, cost),
            Call::Withdraw(slot) => second::withdraw(state, shares, slot),
            Call::Release(slot) => second::release(state, shares, slot),
            Call::Advance(tick) => second::advance(state, shares, tick, lent.segments.words_mut()),
            Call::Holder(core) => told(second::holder(state, shares, core)),
        };
        let result = [answer.number, answer.value, answer.count];
        lent.result.words_mut()[..RESULT_WORDS].copy_from_slice(&result);
        answer.number
    }

    /// Makes the call on both libraries. They must agree in the number and in every word; a refusal
    /// must have changed nothing but the result; and 1 is answered exactly where it has to be.
    /// Hands back the number and the words after the call.
    pub fn on_both(self, before: &Lent) -> Result<(u64, Lent), String> {
        let (mut one, mut two) = (before.clone(), before.clone());
        let (number, expected) = (self.by_planner(&mut one), self.by_second(&mut two));
        if number != expected {
            return Err(format!(
                "{self:?} answered {number}, the second library {expected}"
            ));
        }
        if let Some(area) = one.difference(&two) {
            return Err(format!(
                "{self:?} answered {number} and left another {area}"
            ));
        }
        let result = one.result.clone();
        let unchanged = Lent {
            result,
            ..before.clone()
        };
        if number != 0 && one != unchanged {
            return Err(format!(
                "{self:?} was refused with {number} and changed what it was lent"
            ));
        }
        let whole = before.result.words().len() >= RESULT_WORDS;
        if !matches!(self, Call::Open(_)) && (number == 1) == (whole && before.sound()) {
            return Err(format!(
                "{self:?} answered {number} where the table's soundness says otherwise"
            ));
        }
        Ok((number, one))
    }
}

/// Holder's answer as result words: slot (64 is idle) and grain (0 is without a limit).
fn told(holding: Holding) -> second::Answer {
    let (number, value, count) = match holding {
        Holding::Held { slot, until } => (0, slot, until),
        Holding::IdleUntil(grain) => (0, 64, grain),
        Holding::Idle => (0, 64, 0),
        Holding::Refused(number) => (number, 0, 0),
    };
    second::Answer {
        number,
        value,
        count,
    }
}
