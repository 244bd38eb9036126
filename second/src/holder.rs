//! Holder: who has a core now.

use crate::answer::{refusal, Holding};
use crate::limits::{GRAINS_PER_TICK, SLOTS};
use crate::soundness::sound;
use crate::words::{boundaries, CLOCK, CORES, PLAN_START};
use crate::wrap::Wrap;

/// "The slot holding it at the first grain of the clock's tick, with the grain at
/// which that segment ends; or idle, with the grain at which slice 0 ends; or idle
/// without a limit when nothing is pending."
pub fn holder(state: &[u64], shares: &[u32], core: u64) -> Holding {
    if !sound(state, shares) {
        return Holding::Refused(refusal::NOT_SOUND);
    }
    if core >= state[CORES] {
        return Holding::Refused(refusal::CORE);
    }
    let Some(&boundary) = boundaries(state).first() else {
        return Holding::Idle;
    };
    let now = GRAINS_PER_TICK * state[CLOCK];
    // The first segment of this core that isn't over yet has begun too: "on each
    // core the wrap leaves idle time only at the end".
    Wrap::lay(&shares[..SLOTS], state[PLAN_START], boundary)
        .take_while(|segment| segment.core <= core)
        .find(|segment| segment.core == core && segment.after > now)
        .map_or(Holding::IdleUntil(GRAINS_PER_TICK * boundary), |segment| {
            Holding::Held {
                slot: segment.slot as u64,
                until: segment.after,
            }
        })
}
