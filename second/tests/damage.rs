//! Damaged tables and random words: no call panics, refusals change nothing, and the
//! check of soundness agrees with a slow one written clause by clause.

mod common;
#[path = "common/naive.rs"]
mod naive;

use common::{Generator, Lent};
use naive::naively_sound;
use second::words::{BOUNDARY_COUNT, CLOCK, STATE_WORDS};
use second::{Answer, Holding};

/// A number that is often near something that matters.
fn number(generator: &mut Generator) -> u64 {
    match generator.below(8) {
        0 => generator.word(),
        1 => generator.word() >> generator.below(64),
        2 => (1 << 40) + generator.below(5) - 2,
        3 => u64::MAX - generator.below(3),
        4 => generator.below(60_100),
        5 => 1 << generator.below(64),
        _ => generator.below(70),
    }
}

/// A table some random accepted calls lead to.
fn reachable(generator: &mut Generator) -> Lent {
    let mut lent = Lent::opened(generator.between(1, 16));
    if generator.once_in(4) {
        lent.advance((1 << 40) - generator.below(30));
    }
    let longest = [4, 12, 64, 60_000][generator.below(4) as usize];
    for _ in 0..generator.below(60) {
        match generator.below(5) {
            0 | 1 => {
                let period = generator.between(1, longest);
                lent.declare(period, generator.between(1, 300 * period));
            }
            2 | 3 => {
                lent.release(generator.below(12));
            }
            _ => {
                lent.advance(lent.clock() + generator.below(longest.min(8)));
            }
        }
    }
    lent
}

fn damage(generator: &mut Generator, lent: &mut Lent) {
    let rows = lent
        .state
        .get(BOUNDARY_COUNT)
        .map_or(1, |&count| count.clamp(1, 64));
    // Where something is likely to be: the first slots and the rows in use.
    let word = match generator.below(3) {
        0 => generator.below(12),
        1 => 69 + generator.below(48),
        _ => generator.below(STATE_WORDS as u64),
    } as usize;
    let share = match generator.below(4) {
        0 => generator.below(4096),
        _ => 64 * generator.below(rows) + generator.below(10),
    } as usize;
    if word >= lent.state.len() || share >= lent.shares.len() {
        return;
    }
    match generator.below(14) {
        0 => lent.state[word] ^= 1 << generator.below(64),
        1 => lent.state[word] = lent.state[word].wrapping_add(1),
        2 => lent.state[word] = lent.state[word].wrapping_sub(1),
        3 => lent.state[word] = number(generator),
        4 => {
            let other = generator.below(STATE_WORDS as u64) as usize;
            lent.state[word] = lent.state.get(other).copied().unwrap_or(0);
        }
        5 => lent.shares[share] ^= 1 << generator.below(32),
        6 => lent.shares[share] = lent.shares[share].wrapping_add(1),
        7 => lent.shares[share] = lent.shares[share].saturating_sub(1),
        8 => lent.shares[share] = number(generator) as u32,
        9 => lent.shares[share] = (u64::from(lent.shares[share]) * generator.below(11) / 10) as u32,
        10 => lent.state[CLOCK] = lent.state[CLOCK].wrapping_add(generator.below(4)),
        11 => {
            let other = 64 * (share / 64) + generator.below(10) as usize;
            lent.shares.swap(share, other);
        }
        12 if generator.once_in(4) => lent.state.truncate(generator.below(330) as usize),
        13 if generator.once_in(4) => lent.shares.truncate(generator.below(4200) as usize),
        _ => {}
    }
}

/// Makes one call of each kind on a copy and checks what every call must keep.
/// Hands back how many were accepted.
fn call_everything(generator: &mut Generator, lent: &Lent) -> u64 {
    let sound = lent.sound();
    assert_eq!(sound, naively_sound(&lent.state, &lent.shares));
    let mut tried = 0;
    for call in 0..6 {
        let mut copy = lent.clone();
        let (first, second) = (number(generator), number(generator));
        let answer = match call {
            0 => copy.open(first),
            1 => copy.declare(first, second),
            2 => copy.withdraw(first),
            3 => copy.release(generator.below(12)),
            4 => copy.advance(first),
            _ => copy.advance(
                lent.state
                    .get(CLOCK)
                    .map_or(0, |&clock| clock.wrapping_add(second % 9)),
            ),
        };
        if answer.number == 0 {
            assert!(copy.sound(), "an accepted call leaves a sound table");
            tried += 1;
        } else {
            assert_eq!(
                answer,
                Answer {
                    number: answer.number,
                    value: 0,
                    count: 0
                }
            );
            assert!(copy == *lent, "a refusal changes nothing");
        }
        if call != 0 {
            assert_eq!(answer.number == 1, !sound);
        }
    }
    for core in [0, 1, 15, 16, number(generator)] {
        assert_eq!(lent.holder(core) == Holding::Refused(1), !sound);
    }
    tried
}

#[test]
fn damaged_tables_never_panic_and_refusals_change_nothing() {
    let mut generator = Generator::seeded(77);
    let (mut sound, mut unsound, mut accepted) = (0, 0, 0);
    for _ in 0..3000 {
        let whole = reachable(&mut generator);
        for _ in 0..6 {
            let mut lent = whole.clone();
            for _ in 0..generator.between(1, 3) {
                damage(&mut generator, &mut lent);
            }
            lent.segments
                .truncate([0, 4, 316, 319, 320, 320, 320, 320][generator.below(8) as usize]);
            if lent.sound() {
                sound += 1;
            } else {
                unsound += 1;
            }
            accepted += call_everything(&mut generator, &lent);
        }
    }
    println!("damaged tables: {sound} still sound, {unsound} not; {accepted} calls accepted");
    assert!(sound > 2000 && unsound > 2000 && accepted > 2000);
}

#[test]
fn random_words_everywhere_never_panic() {
    let mut generator = Generator::seeded(78);
    for _ in 0..4000 {
        let mut lent = Lent::fresh();
        let small = generator.once_in(2);
        for word in &mut lent.state {
            *word = if small {
                generator.below(70)
            } else {
                number(&mut generator)
            };
        }
        // A table that is zero but for some words comes further into the checks.
        let kept = generator.below(4);
        if kept > 0 {
            for word in &mut lent.state[3..] {
                if generator.below(4) < kept {
                    *word = 0;
                }
            }
            lent.state[0] = generator.below(20);
        }
        for share in &mut lent.shares {
            *share = if generator.once_in(5) {
                number(&mut generator) as u32
            } else {
                0
            };
        }
        if generator.once_in(3) {
            lent.shares.fill(0);
        }
        call_everything(&mut generator, &lent);
    }
}
