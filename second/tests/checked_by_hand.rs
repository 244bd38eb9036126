//! Document 01's list "Checked by hand", and its listing.

mod common;

use common::{accepted, drilled, one_task_at, refused, Lent};
use second::limits::LAST_TICK;
use second::words::{task_word, RATE};
use second::{Answer, Holding};

#[test]
fn p1_whole_core_is_accepted() {
    let mut lent = Lent::opened(1);
    assert_eq!(lent.declare(1, 1000), accepted(0));
    assert_eq!(lent.state[task_word(0, RATE)], 1000);
}

#[test]
fn p2_more_than_the_period_holds_is_refused() {
    Lent::opened(1).refuses(4, |lent| lent.declare(1, 1001));
}

#[test]
fn p3_least_rate_is_one() {
    let mut lent = Lent::opened(1);
    assert_eq!(lent.declare(60_000, 1), accepted(0));
    assert_eq!(lent.state[task_word(0, RATE)], 1);
}

#[test]
fn p4_periods_out_of_range_are_refused() {
    let mut lent = Lent::opened(1);
    lent.refuses(3, |lent| lent.declare(60_001, 1));
    lent.refuses(3, |lent| lent.declare(0, 1));
}

#[test]
fn p5_rates_are_rounded_up_before_they_are_summed() {
    let mut lent = Lent::opened(2);
    assert_eq!(lent.declare(3, 2000), accepted(0));
    assert_eq!(lent.declare(3, 2000), accepted(1));
    assert_eq!(lent.state[task_word(0, RATE)], 667);
    assert_eq!(lent.state[task_word(1, RATE)], 667);
    lent.refuses(6, |lent| lent.declare(3, 2000));
}

#[test]
fn p6_three_tasks_wrap_over_two_cores() {
    let mut lent = Lent::opened(2);
    for slot in 0..3 {
        assert_eq!(lent.declare(3, 1998), accepted(slot));
    }
    for slot in 0..3 {
        assert_eq!(lent.release(slot), accepted(3));
    }
    assert_eq!(
        lent.holder(0),
        Holding::Held {
            slot: 0,
            until: 1998
        }
    );
    assert_eq!(
        lent.holder(1),
        Holding::Held {
            slot: 1,
            until: 996
        }
    );
    let (reached, segments) = lent.advanced(3);
    assert_eq!(reached, 3);
    assert_eq!(
        segments,
        [
            [0, 0, 0, 1998],
            [0, 1, 1998, 3000],
            [1, 1, 0, 996],
            [1, 2, 996, 2994]
        ]
    );
}

#[test]
fn p7_the_listing_cuts_slice_0() {
    let mut lent = Lent::opened(1);
    lent.declare(10, 5000);
    lent.declare(4, 1200);
    lent.release(0);
    lent.advance(1);
    assert_eq!(lent.release(1), accepted(5));
    assert_eq!(lent.boundaries(), [5, 10]);
    assert_eq!(lent.plan_start(), 1);
    assert_eq!(lent.shares[..2], [1777, 1200]);
    assert_eq!(lent.shares[64..66], [2223, 0]);
}

/// Shares 1,100 and 2,800 over 6 ticks, cut after 2: two tasks of period 7 of which the
/// first has run 1,000, and a third task of period 2 released at 1.
#[test]
fn p8_the_cut_rounds_running_sums() {
    let mut lent = Lent::opened(1);
    lent.declare(7, 2100);
    lent.declare(7, 2800);
    lent.declare(2, 2);
    lent.release(0);
    lent.release(1);
    lent.advance(1);
    assert_eq!(lent.release(2), accepted(3));
    assert_eq!(lent.boundaries(), [3, 7]);
    assert_eq!(lent.shares[..3], [366, 934, 2]);
    assert_eq!(lent.shares[64..67], [734, 1866, 0]);
}

#[test]
fn p9_release_at_the_very_deadline() {
    let mut lent = Lent::opened(1);
    lent.declare(4, 4000);
    assert_eq!(lent.release(0), accepted(4));
    lent.advance(3);
    lent.refuses(8, |lent| lent.release(0));
    lent.advance(4);
    assert_eq!(lent.release(0), accepted(8));
}

#[test]
fn p10_advance_to_the_clock_itself() {
    let mut lent = Lent::opened(1);
    lent.declare(4, 4000);
    assert_eq!(lent.advance(0), accepted(0));
    lent.release(0);
    assert_eq!(lent.advance(0), accepted(0));
    lent.advance(2);
    let before = lent.clone();
    assert_eq!(lent.advance(2), accepted(2));
    assert_eq!(lent, before);
}

#[test]
fn the_last_tick() {
    let mut lent = one_task_at(0, 1);
    lent.refuses(10, |lent| lent.advance(LAST_TICK + 1));
    assert_eq!(lent.advance(LAST_TICK), accepted(LAST_TICK));
    lent.refuses(10, |lent| lent.advance(LAST_TICK + 1));
    lent.refuses(10, |lent| lent.release(0));

    let mut earlier = one_task_at(LAST_TICK - 1, 1);
    assert_eq!(earlier.release(0), accepted(LAST_TICK));
    let (reached, segments) = earlier.advanced(LAST_TICK);
    assert_eq!(reached, LAST_TICK);
    let first = 1000 * (LAST_TICK - 1);
    assert_eq!(segments, [[0, 0, first, first + 1]]);
    assert!(earlier.sound());
}

#[test]
fn the_64th_and_the_65th_task() {
    let mut lent = Lent::opened(1);
    for slot in 0..64 {
        assert_eq!(lent.declare(1, 1), accepted(slot));
    }
    lent.refuses(5, |lent| lent.declare(1, 1));
}

#[test]
fn segment_buffers_of_319_and_320_words() {
    let mut lent = Lent::opened(1);
    lent.segments.truncate(319);
    lent.refuses(12, |lent| lent.advance(1));
    lent.segments.push(0);
    assert_eq!(lent.advance(1), accepted(1));
}

#[test]
fn the_listing() {
    let input = "CO 1\nTK 10 5000\nTK 4 1200\nRL 0\nAD 1\nRL 1\nAD 10\nAD 10\n";
    let output = "OK 1\nOK 0\nOK 1\nOK 10\nOK 1\nSG 0 0 0 1000\nOK 5\nOK 5\nSG 0 0 1000 2777\n\
                  SG 0 1 2777 3977\nOK 10\nSG 0 0 5000 7223\n";
    assert_eq!(drilled(input), output);
}

#[test]
fn values_and_counts_of_the_calls() {
    let mut lent = Lent::opened(16);
    assert_eq!(lent.holder(15), Holding::Idle);
    assert_eq!(lent.declare(5, 5000), accepted(0));
    assert_eq!(lent.declare(5, 2500), accepted(1));
    assert_eq!(lent.withdraw(0), accepted(0));
    assert_eq!(
        lent.declare(7, 1),
        accepted(0),
        "a freed slot is used again at once"
    );
    assert_eq!(lent.release(1), accepted(5));
    assert_eq!(
        lent.advance(9),
        Answer {
            number: 0,
            value: 5,
            count: 1
        }
    );
    assert_eq!(lent.withdraw(1), accepted(0));
    assert_eq!(lent.release(1), refused(7));
}

#[test]
fn holder_in_the_middle_of_a_slice() {
    let mut lent = Lent::opened(2);
    lent.declare(10, 5000);
    lent.declare(10, 7000);
    lent.release(0);
    lent.release(1);
    // One line of 12,000 grains: slot 1 from 5,000 to 10,000 on core 0 and from 0 to
    // 2,000 on core 1.
    assert_eq!(
        lent.holder(0),
        Holding::Held {
            slot: 0,
            until: 5000
        }
    );
    assert_eq!(
        lent.holder(1),
        Holding::Held {
            slot: 1,
            until: 2000
        }
    );
    lent.advance(2);
    assert_eq!(
        lent.holder(0),
        Holding::Held {
            slot: 0,
            until: 5000
        }
    );
    assert_eq!(lent.holder(1), Holding::IdleUntil(10_000));
    lent.advance(5);
    assert_eq!(
        lent.holder(0),
        Holding::Held {
            slot: 1,
            until: 10_000
        }
    );
    lent.advance(10);
    assert_eq!(lent.holder(0), Holding::Idle);
    assert_eq!(lent.holder(1), Holding::Idle);
}
