//! The areas that are lent to a call, with guard words behind each that no call may touch.

use crate::killaruna::{RESULT_WORDS, SEGMENT_WORDS, SHARE_WORDS, STATE_WORDS};

/// What words hold that nobody has written.
const STALE: u32 = 0xdead_beef;

/// Words of which the first `lent` are lent. With no guard words an area's memory ends where its
/// length says, so that valgrind sees a read past its end.
#[derive(Clone, PartialEq, Eq)]
pub struct Area<T> {
    words: Vec<T>,
    lent: usize,
}

impl<T: Copy + From<u32>> Area<T> {
    fn stale(lent: usize, guards: usize) -> Area<T> {
        let words = vec![T::from(STALE); lent + guards];
        Area { words, lent }
    }

    pub fn words(&self) -> &[T] {
        &self.words[..self.lent]
    }

    pub fn words_mut(&mut self) -> &mut [T] {
        &mut self.words[..self.lent]
    }

    /// Lends so many words from now on. Words that are no longer lent become guard words and keep
    /// their contents: a call that reads past the end finds what would make sense there.
    pub fn resize(&mut self, lent: usize) {
        let guards = self.words.len() - self.lent;
        self.words.resize(lent + guards, T::from(STALE));
        self.lent = lent;
    }
}

#[derive(Clone, PartialEq, Eq)]
pub struct Lent {
    pub state: Area<u64>,
    pub shares: Area<u32>,
    pub segments: Area<u64>,
    pub result: Area<u64>,
}

impl Lent {
    pub fn stale(guards: usize) -> Lent {
        Lent {
            state: Area::stale(STATE_WORDS, guards),
            shares: Area::stale(SHARE_WORDS, guards),
            segments: Area::stale(SEGMENT_WORDS, guards),
            result: Area::stale(RESULT_WORDS, guards),
        }
    }

    /// Whether the table is sound, by the second library.
    pub fn sound(&self) -> bool {
        second::sound(self.state.words(), self.shares.words())
    }

    /// Names the first area in which two differ.
    pub fn difference(&self, other: &Lent) -> Option<&'static str> {
        [
            (self.state != other.state, "state"),
            (self.shares != other.shares, "shares"),
            (self.segments != other.segments, "segments"),
            (self.result != other.result, "result"),
        ]
        .iter()
        .find_map(|&(differs, name)| differs.then_some(name))
    }
}
