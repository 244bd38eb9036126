//! The same history with its advances cut elsewhere, played beside the first.

use crate::common::{Generator, Lent};
use crate::record::merged;

/// A second table under the same calls, with its own record.
struct Shadow {
    lent: Lent,
    record: Vec<[u64; 4]>,
}

impl Shadow {
    fn step(&mut self, tick: u64) {
        let (_, segments) = self.lent.advanced(tick);
        self.record.extend(segments);
    }

    fn same(&self, lent: &Lent) {
        assert!(self.lent.state == lent.state, "the same state words");
        assert!(self.lent.shares == lent.shares, "the same share words");
    }
}

pub struct Shadows {
    /// Advances split at random ticks, some of them asked for twice.
    split: Shadow,
    /// One tick at a time; with long periods several steps of equal length.
    small: Shadow,
    /// Advances that follow one another made into one, as late as it can be.
    late: Shadow,
}

impl Shadows {
    pub fn of(lent: &Lent) -> Shadows {
        let shadow = || Shadow {
            lent: lent.clone(),
            record: Vec::new(),
        };
        Shadows {
            split: shadow(),
            small: shadow(),
            late: shadow(),
        }
    }

    /// The first table has just advanced, having been asked for `tick`.
    pub fn advance(&mut self, first: &Lent, tick: u64, long: bool, generator: &mut Generator) {
        let reached = first.clock();
        for _ in 0..generator.below(5) {
            let stop = generator.between(self.split.lent.clock(), reached);
            self.split.step(stop);
            // Asking who holds a core, or for what is refused, leaves no trace.
            self.split.lent.holder(0);
            self.split.lent.refuses(10, |lent| lent.advance(u64::MAX));
        }
        // Where the first table reached a boundary, the stops may have been there already.
        self.split.step(if self.split.lent.clock() == reached {
            reached
        } else {
            tick
        });
        self.split.same(first);

        let distance = reached - self.small.lent.clock();
        let step = if long || distance > 1000 {
            distance / 7 + 1
        } else {
            1
        };
        while self.small.lent.clock() < reached {
            let stop = (self.small.lent.clock() + step).min(reached);
            self.small.step(stop);
        }
        self.small.same(first);
    }

    /// Another call was accepted: the shadows make it too.
    pub fn settled(&mut self, first: &Lent, call: impl Fn(&mut Lent)) {
        self.catch_up(first.clock());
        for shadow in [&mut self.split, &mut self.small, &mut self.late] {
            call(&mut shadow.lent);
            shadow.same(first);
        }
    }

    fn catch_up(&mut self, clock: u64) {
        while self.late.lent.clock() < clock {
            self.late.step(clock);
        }
    }

    /// At the end: the same words, and the same holder of each core in each grain.
    pub fn compare(&mut self, first: &Lent, record: &[[u64; 4]]) {
        self.catch_up(first.clock());
        let record = merged(record);
        for shadow in [&self.split, &self.small, &self.late] {
            shadow.same(first);
            assert!(merged(&shadow.record) == record, "the same record");
        }
    }
}
