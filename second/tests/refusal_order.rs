//! Each refusal of each call, each pair of neighbouring reasons where both can hold
//! at once, and that a refusal changes nothing.

mod common;

use common::{accepted, one_task_at, refused, Lent};
use second::limits::LAST_TICK;
use second::words::{CLOCK, CORES};
use second::Holding;

/// A table that isn't sound in one word only.
fn unsound() -> Lent {
    let mut lent = Lent::opened(1);
    lent.declare(4, 4000);
    lent.state[CORES] = 17;
    lent
}

/// One core, 64 tasks whose rates sum to exactly 1,000.
fn full_slots_full_rates() -> Lent {
    let mut lent = Lent::opened(1);
    for slot in 0..63 {
        assert_eq!(lent.declare(1, 15), accepted(slot));
    }
    assert_eq!(lent.declare(1, 55), accepted(63));
    lent
}

#[test]
fn open_answers_1_then_2() {
    let mut lent = Lent::fresh();
    lent.shares.pop();
    lent.refuses(1, |lent| lent.open(1));
    lent.refuses(1, |lent| lent.open(0));
    lent.refuses(1, |lent| lent.open(17));
    let mut lent = Lent::fresh();
    lent.state.pop();
    lent.refuses(1, |lent| lent.open(1));
    lent.refuses(1, |lent| lent.open(17));
    let mut lent = Lent::fresh();
    lent.refuses(2, |lent| lent.open(0));
    lent.refuses(2, |lent| lent.open(17));
    lent.refuses(2, |lent| lent.open(u64::MAX));
    assert_eq!(lent.open(1), accepted(1));
    assert_eq!(lent.open(16), accepted(16));
}

#[test]
fn open_asks_for_length_only() {
    let mut lent = unsound();
    assert_eq!(lent.open(3), accepted(3));
    let mut expected = Lent::fresh();
    expected.state.fill(0);
    expected.state[CORES] = 3;
    expected.shares.fill(0);
    assert_eq!(lent, expected);
}

#[test]
fn declare_answers_1_3_4_5_6() {
    unsound().refuses(1, |lent| lent.declare(0, 1));
    unsound().refuses(1, |lent| lent.declare(1, 1));
    let mut lent = full_slots_full_rates();
    lent.refuses(3, |lent| lent.declare(0, 0));
    lent.refuses(3, |lent| lent.declare(60_001, 60_001_000));
    lent.refuses(3, |lent| lent.declare(u64::MAX, u64::MAX));
    lent.refuses(4, |lent| lent.declare(1, 0));
    lent.refuses(4, |lent| lent.declare(1, 1001));
    lent.refuses(4, |lent| lent.declare(60_000, 60_000_001));
    lent.refuses(4, |lent| lent.declare(60_000, u64::MAX));
    lent.refuses(5, |lent| lent.declare(1, 1));
    lent.refuses(5, |lent| lent.declare(60_000, 60_000_000));
    assert_eq!(lent.withdraw(62), accepted(0));
    lent.refuses(4, |lent| lent.declare(1, 1001));
    lent.refuses(6, |lent| lent.declare(1, 16));
    assert_eq!(lent.declare(1, 15), accepted(62));
}

/// Reasons 7 and 8 never hold together: in a sound table a slot not in use has no job.
#[test]
fn withdraw_answers_1_7_8() {
    unsound().refuses(1, |lent| lent.withdraw(64));
    unsound().refuses(1, |lent| lent.withdraw(0));
    let mut lent = Lent::opened(1);
    lent.declare(4, 4000);
    for slot in [1, 63, 64, 65, 127, 1 << 32, u64::MAX] {
        lent.refuses(7, |lent| lent.withdraw(slot));
    }
    lent.release(0);
    lent.refuses(8, |lent| lent.withdraw(0));
    lent.refuses(7, |lent| lent.withdraw(64));
}

#[test]
fn release_answers_1_7_8_10() {
    unsound().refuses(1, |lent| lent.release(64));
    unsound().refuses(1, |lent| lent.release(0));
    let mut lent = one_task_at(LAST_TICK - 2, 2);
    for slot in [1, 63, 64, 65, 127, 1 << 32, u64::MAX] {
        lent.refuses(7, |lent| lent.release(slot));
    }
    assert_eq!(lent.release(0), accepted(LAST_TICK));
    lent.refuses(8, |lent| lent.release(0));
    // Here reason 10 holds as well: the deadline would be one tick beyond the last.
    lent.advance(LAST_TICK - 1);
    lent.refuses(8, |lent| lent.release(0));
    lent.advance(LAST_TICK);
    lent.refuses(10, |lent| lent.release(0));
    lent.refuses(7, |lent| lent.release(1));
}

/// Reason 9 takes 64 boundaries, so 64 pending jobs, and a task without one; a sound
/// table has no 65th slot. All 64 rows can be filled, and then every release is refused 8.
#[test]
fn release_fills_64_rows_and_never_answers_9() {
    let mut lent = Lent::opened(16);
    for slot in 0..64 {
        assert_eq!(lent.declare(100 - slot, 10), accepted(slot));
    }
    for slot in 0..64 {
        assert_eq!(lent.release(slot), accepted(100 - slot));
        assert!(lent.sound());
    }
    assert_eq!(lent.boundaries().len(), 64);
    for slot in 0..64 {
        lent.refuses(8, |lent| lent.release(slot));
    }
    let mut soundless = lent.clone();
    // With 64 rows in use but one job taken out, the table is no longer sound.
    soundless.state[second::words::task_word(5, second::words::DEADLINE)] = 0;
    soundless.refuses(1, |lent| lent.release(5));
}

#[test]
fn advance_answers_1_11_10_12() {
    let mut lent = unsound();
    lent.state[CLOCK] = 5;
    lent.refuses(1, |lent| lent.advance(4));
    lent.refuses(1, |lent| lent.advance(5));
    let mut lent = one_task_at(5, 4);
    lent.segments.truncate(319);
    lent.refuses(11, |lent| lent.advance(4));
    lent.refuses(10, |lent| lent.advance(LAST_TICK + 1));
    lent.refuses(10, |lent| lent.advance(u64::MAX));
    lent.refuses(12, |lent| lent.advance(5));
    lent.refuses(12, |lent| lent.advance(LAST_TICK));
    lent.segments.clear();
    lent.refuses(12, |lent| lent.advance(6));
    lent.segments.resize(320, 7);
    lent.refuses(11, |lent| lent.advance(4));
    lent.refuses(10, |lent| lent.advance(LAST_TICK + 1));
    assert_eq!(lent.advance(5), accepted(5));
}

#[test]
fn holder_answers_1_13() {
    let lent = unsound();
    assert_eq!(lent.holder(17), Holding::Refused(1));
    assert_eq!(lent.holder(0), Holding::Refused(1));
    let lent = Lent::opened(3);
    assert_eq!(lent.holder(2), Holding::Idle);
    for core in [3, 16, 64, u64::MAX] {
        assert_eq!(lent.holder(core), Holding::Refused(13));
    }
}

#[test]
fn short_state_and_short_shares_are_refused_1_by_every_call() {
    let mut sound = Lent::opened(2);
    sound.declare(4, 4000);
    let mut cases = Vec::new();
    for length in [0, 1, 4, 69, 324] {
        let mut lent = sound.clone();
        lent.state.truncate(length);
        cases.push(lent);
    }
    for length in [0, 1, 64, 4095] {
        let mut lent = sound.clone();
        lent.shares.truncate(length);
        cases.push(lent);
    }
    for mut lent in cases {
        assert!(!lent.sound());
        lent.refuses(1, |lent| lent.open(1));
        lent.refuses(1, |lent| lent.declare(1, 1));
        lent.refuses(1, |lent| lent.withdraw(0));
        lent.refuses(1, |lent| lent.release(0));
        lent.refuses(1, |lent| lent.advance(0));
        assert_eq!(lent.holder(0), Holding::Refused(1));
    }
    assert_eq!(sound.release(64), refused(7));
}
