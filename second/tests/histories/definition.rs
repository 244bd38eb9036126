//! Release, advance, the wrap and holder recounted from the words of document 01,
//! in the slowest and plainest way.

use crate::common::Lent;
use second::words::{
    task_word, BOUNDARIES, BOUNDARY_COUNT, CLOCK, DEADLINE, PERIOD, PLAN_START, RATE, STATE_WORDS,
};
use second::{Answer, Holding};

/// A slice with its shares.
struct Slice {
    begin: u64,
    end: u64,
    shares: Vec<u64>,
}

fn slices(lent: &Lent) -> Vec<Slice> {
    let mut begin = lent.plan_start();
    let mut slices = Vec::new();
    for (row, &end) in lent.boundaries().iter().enumerate() {
        let shares = lent.shares[64 * row..64 * row + 64]
            .iter()
            .map(|&share| u64::from(share))
            .collect();
        slices.push(Slice { begin, end, shares });
        begin = end;
    }
    slices
}

/// Writes slices back as words.
fn write(slices: &[Slice], state: &mut [u64], shares: &mut [u32]) {
    state[BOUNDARY_COUNT] = slices.len() as u64;
    state[BOUNDARIES..BOUNDARIES + 64].fill(0);
    shares.fill(0);
    for (row, slice) in slices.iter().enumerate() {
        state[BOUNDARIES + row] = slice.end;
        for (slot, &share) in slice.shares.iter().enumerate() {
            shares[64 * row + slot] = share as u32;
        }
    }
}

/// "Slot i gets floor(E(i) d / D) - floor(E(i-1) d / D) in the first part and the rest
/// of its share in the second."
fn cut(slice: &Slice, deadline: u64) -> (Slice, Slice) {
    let (first, length) = (deadline - slice.begin, slice.end - slice.begin);
    let sum_to = |slot: usize| -> u64 { slice.shares[..slot].iter().sum() };
    let shares: Vec<u64> = (0..64)
        .map(|slot| sum_to(slot + 1) * first / length - sum_to(slot) * first / length)
        .collect();
    let rest = (0..64)
        .map(|slot| slice.shares[slot] - shares[slot])
        .collect();
    (
        Slice {
            begin: slice.begin,
            end: deadline,
            shares,
        },
        Slice {
            begin: deadline,
            end: slice.end,
            shares: rest,
        },
    )
}

/// What each task has run since the plan start is counted from the record, not the wrap.
pub fn check_release(before: &Lent, after: &Lent, slot: usize, record: &[[u64; 4]]) {
    let clock = before.clock();
    let deadline = clock + before.state[task_word(slot, PERIOD)];
    let mut slices = slices(before);
    if let Some(slice) = slices.first_mut() {
        // The record is in the order of the calls, so the last entries are the latest.
        for segment in record
            .iter()
            .rev()
            .take_while(|segment| segment[3] > 1000 * before.plan_start())
        {
            if segment[2] >= 1000 * before.plan_start() {
                slice.shares[segment[1] as usize] -= segment[3] - segment[2];
            }
        }
        slice.begin = clock;
    }
    if slices.iter().all(|slice| slice.end != deadline) {
        match slices
            .iter()
            .position(|slice| slice.begin < deadline && deadline < slice.end)
        {
            Some(row) => {
                let (first, second) = cut(&slices[row], deadline);
                slices[row] = first;
                slices.insert(row + 1, second);
            }
            None => {
                let begin = slices.last().map_or(clock, |slice| slice.end);
                slices.push(Slice {
                    begin,
                    end: deadline,
                    shares: vec![0; 64],
                });
            }
        }
    }
    for slice in slices.iter_mut().filter(|slice| slice.end <= deadline) {
        slice.shares[slot] = before.state[task_word(slot, RATE)] * (slice.end - slice.begin);
    }
    let (mut state, mut shares) = (before.state.clone(), before.shares.clone());
    write(&slices, &mut state, &mut shares);
    state[PLAN_START] = clock;
    state[task_word(slot, DEADLINE)] = deadline;
    assert!(
        state == after.state && shares == after.shares,
        "release is as defined"
    );
}

pub fn check_advance(
    before: &Lent,
    after: &Lent,
    tick: u64,
    answer: Answer,
    segments: &[[u64; 4]],
) {
    let mut slices = slices(before);
    let (mut state, mut shares) = (before.state.clone(), before.shares.clone());
    let reached = before
        .boundaries()
        .first()
        .map_or(tick, |&boundary| boundary.min(tick));
    state[CLOCK] = reached;
    if slices.is_empty() {
        state[PLAN_START] = reached;
    } else if slices[0].end == reached {
        slices.remove(0);
        write(&slices, &mut state, &mut shares);
        state[PLAN_START] = reached;
        for slot in 0..64 {
            if state[task_word(slot, DEADLINE)] == reached {
                state[task_word(slot, DEADLINE)] = 0;
            }
        }
    }
    assert_eq!(state.len(), STATE_WORDS);
    assert!(
        state == after.state && shares == after.shares,
        "advance is as defined"
    );
    assert_eq!(
        (answer.value, answer.count),
        (reached, segments.len() as u64)
    );
    assert!(segments.len() <= 79);
    assert!(after.segments[4 * segments.len()..] == before.segments[4 * segments.len()..]);
    let (from, to) = (1000 * before.clock(), 1000 * reached);
    for &[_, _, first, after] in segments {
        assert!(from <= first && first < after && after <= to);
    }
    for pair in segments.windows(2) {
        assert!(
            (pair[0][0], pair[0][2]) < (pair[1][0], pair[1][2]),
            "by core and then by first grain"
        );
        assert!(
            pair[0][..2] != pair[1][..2],
            "a segment isn't handed back in two pieces"
        );
    }
}

/// Holder asked before an advance agrees with what that advance hands back.
pub fn check_holdings(before: &Lent, reached: u64, holdings: &[Holding], segments: &[[u64; 4]]) {
    let (now, to) = (1000 * before.clock(), 1000 * reached);
    for (core, holding) in holdings.iter().enumerate() {
        let on_core = || {
            segments
                .iter()
                .filter(move |segment| segment[0] == core as u64)
        };
        match *holding {
            Holding::Held { slot, until } => {
                assert!(until > now && until <= 1000 * before.boundaries()[0]);
                if to > now {
                    let first = on_core().next().expect("the core is held");
                    assert_eq!(first[1..], [slot, now, until.min(to)]);
                }
            }
            Holding::IdleUntil(grain) => {
                assert_eq!(grain, 1000 * before.boundaries()[0]);
                assert_eq!(on_core().count(), 0);
            }
            Holding::Idle => {
                assert!(before.boundaries().is_empty());
                assert_eq!(segments.len(), 0);
            }
            Holding::Refused(number) => panic!("holder refused {number}"),
        }
    }
}

/// "Lay the shares end to end in slot order along one line from 0. Cut the line every
/// T grains; stretch q belongs to core q." Every grain of the line is written down.
pub fn check_against_the_line(
    before: &Lent,
    reached: u64,
    holdings: &[Holding],
    segments: &[[u64; 4]],
) {
    let Some(&boundary) = before.boundaries().first() else {
        return;
    };
    let stretch = 1000 * (boundary - before.plan_start()) as usize;
    let mut line = Vec::new();
    for (slot, &share) in before.shares[..64].iter().enumerate() {
        line.resize(line.len() + share as usize, slot as u64);
    }
    assert!(
        line.len() <= stretch * holdings.len(),
        "nothing is laid beyond the cores"
    );
    let from = 1000 * (before.clock() - before.plan_start()) as usize;
    let to = 1000 * (reached - before.plan_start()) as usize;
    let mut expected = Vec::new();
    for (core, held) in holdings.iter().enumerate() {
        let begin = (core * stretch).min(line.len());
        let part = &line[begin..(begin + stretch).min(line.len())];
        let mut moment = from;
        while moment < to.min(part.len()) {
            let slot = part[moment];
            let mut after = moment;
            while after < to.min(part.len()) && part[after] == slot {
                after += 1;
            }
            let base = 1000 * before.plan_start();
            expected.push([core as u64, slot, base + moment as u64, base + after as u64]);
            moment = after;
        }
        let holding = match part.get(from) {
            Some(&slot) => {
                let after = (from..part.len())
                    .find(|&moment| part[moment] != slot)
                    .unwrap_or(part.len());
                Holding::Held {
                    slot,
                    until: 1000 * before.plan_start() + after as u64,
                }
            }
            None => Holding::IdleUntil(1000 * boundary),
        };
        assert_eq!(*held, holding);
    }
    assert_eq!(segments, expected);
}
