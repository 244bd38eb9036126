//! The limits of ticks, lengths and words past what is lent.

mod common;

use common::{accepted, one_task_at, Generator, Lent, STALE};
use second::limits::{LAST_TICK, SHARE_WORDS};
use second::words::STATE_WORDS;
use second::Holding;

/// A few accepted calls of every kind, for comparing tables of several lengths.
fn play(lent: &mut Lent) {
    lent.open(2);
    lent.declare(10, 5000);
    lent.declare(4, 1200);
    lent.declare(7, 7000);
    lent.release(0);
    lent.release(2);
    lent.advance(1);
    lent.release(1);
    lent.advance(6);
    lent.advance(6);
    lent.withdraw(1);
    lent.release(1);
    lent.declare(9, 9);
}

#[test]
fn words_past_the_table_are_never_touched() {
    let mut exact = Lent::fresh();
    play(&mut exact);
    assert!(exact.sound());
    for extra in [1, 7, 904, 5000] {
        let mut longer = Lent::fresh();
        longer.state.resize(STATE_WORDS + extra, STALE);
        longer.shares.resize(SHARE_WORDS + extra, STALE as u32);
        longer.segments.resize(320 + extra, STALE);
        play(&mut longer);
        assert_eq!(longer.state[..STATE_WORDS], exact.state);
        assert_eq!(longer.shares[..SHARE_WORDS], exact.shares);
        assert_eq!(longer.segments[..320], exact.segments);
        assert!(longer.state[STATE_WORDS..]
            .iter()
            .all(|&word| word == STALE));
        assert!(longer.shares[SHARE_WORDS..]
            .iter()
            .all(|&word| word == STALE as u32));
        assert!(longer.segments[320..].iter().all(|&word| word == STALE));
    }
}

#[test]
fn share_slices_of_0_4095_4096_and_5000_words() {
    for length in [0, 4095] {
        let mut lent = Lent::fresh();
        lent.shares.truncate(length);
        lent.refuses(1, |lent| lent.open(1));
    }
    for length in [4096, 5000] {
        let mut lent = Lent::fresh();
        lent.shares.resize(length, STALE as u32);
        assert_eq!(lent.open(1), accepted(1));
        assert!(lent.shares[..4096].iter().all(|&share| share == 0));
        assert!(lent.shares[4096..]
            .iter()
            .all(|&share| share == STALE as u32));
    }
}

/// "Words after them keep their contents."
#[test]
fn words_after_the_segments_keep_their_contents() {
    for length in [320, 321, 400] {
        let mut lent = Lent::opened(2);
        for slot in 0..3 {
            lent.declare(3, 1998);
            lent.release(slot);
        }
        lent.segments = (0..length).map(|word| STALE ^ word).collect();
        let before = lent.segments.clone();
        let (_, segments) = lent.advanced(3);
        assert_eq!(segments.len(), 4);
        assert_eq!(lent.segments[16..], before[16..]);
    }
    let mut lent = Lent::opened(1);
    lent.declare(5, 5);
    let before = lent.segments.clone();
    lent.advance(3);
    lent.release(0);
    lent.advance(3);
    assert_eq!(lent.segments, before, "no segments, no words");
}

/// "At most 79 exist": 64 slots and 15 ends of stretches inside a share.
#[test]
fn the_most_segments_are_79() {
    let mut lent = Lent::opened(16);
    for slot in 0..64 {
        // 63 rates of 253 and one of 61 sum to exactly 16,000, and no running sum before
        // the last is a whole multiple of 1,000.
        let cost = if slot == 63 { 61 } else { 253 };
        assert_eq!(lent.declare(1, cost), accepted(slot));
        assert_eq!(lent.release(slot), accepted(1));
    }
    let (_, segments) = lent.advanced(1);
    assert_eq!(segments.len(), 79);
    assert!(lent.segments[316..].iter().all(|&word| word == STALE));
    assert!(segments
        .windows(2)
        .all(|pair| (pair[0][0], pair[0][2]) < (pair[1][0], pair[1][2])));
    let held: u64 = segments.iter().map(|segment| segment[3] - segment[2]).sum();
    assert_eq!(held, 16_000);
}

#[test]
fn releases_near_the_last_tick() {
    let mut lent = one_task_at(LAST_TICK - 60_000, 60_000);
    assert_eq!(lent.release(0), accepted(LAST_TICK));
    assert_eq!(
        lent.holder(0),
        Holding::Held {
            slot: 0,
            until: 1000 * (LAST_TICK - 60_000) + 60_000
        }
    );
    let mut lent = one_task_at(LAST_TICK - 59_999, 60_000);
    lent.refuses(10, |lent| lent.release(0));
}

#[test]
fn advances_at_the_last_tick() {
    let mut lent = one_task_at(LAST_TICK, 1);
    assert_eq!(lent.advance(LAST_TICK), accepted(LAST_TICK));
    lent.refuses(11, |lent| lent.advance(LAST_TICK - 1));
    lent.refuses(10, |lent| lent.advance(LAST_TICK + 1));
    assert!(lent.sound());
    assert_eq!(lent.holder(0), Holding::Idle);
    assert_eq!(lent.withdraw(0), accepted(0));
    assert_eq!(lent.declare(60_000, 1), accepted(0));
}

/// The largest share, the fullest row and the longest slice.
#[test]
fn the_largest_shares() {
    let mut lent = Lent::opened(16);
    for slot in 0..16 {
        assert_eq!(lent.declare(60_000, 60_000_000), accepted(slot));
        assert_eq!(lent.release(slot), accepted(60_000));
    }
    assert!(lent.shares[..16].iter().all(|&share| share == 60_000_000));
    lent.refuses(6, |lent| lent.declare(60_000, 1));
    assert!(lent.sound());
    let (reached, segments) = lent.advanced(59_999);
    assert_eq!((reached, segments.len()), (59_999, 16));
    assert_eq!(
        lent.holder(15),
        Holding::Held {
            slot: 15,
            until: 60_000_000
        }
    );
    let (_, segments) = lent.advanced(LAST_TICK);
    assert_eq!(segments[15], [15, 15, 59_999_000, 60_000_000]);
}

/// 64 declares and 65, in any order of withdrawing: the lowest free slot is taken.
#[test]
fn the_lowest_free_slot() {
    let mut generator = Generator::seeded(5);
    let mut lent = Lent::opened(1);
    let mut in_use = [false; 64];
    for _ in 0..2000 {
        if generator.once_in(3) {
            let slot = generator.below(70);
            let number = if slot < 64 && in_use[slot as usize] {
                0
            } else {
                7
            };
            assert_eq!(lent.withdraw(slot).number, number);
            if number == 0 {
                in_use[slot as usize] = false;
            }
        } else {
            match in_use.iter().position(|&used| !used) {
                Some(free) => {
                    assert_eq!(lent.declare(1, 1), accepted(free as u64));
                    in_use[free] = true;
                }
                None => lent.refuses(5, |lent| lent.declare(1, 1)),
            }
        }
    }
}
