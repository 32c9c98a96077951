//! A set of threads.

use std::fmt;

/// Bit t mod 64 of word t div 64 is set exactly where thread t is in the set.
#[derive(Clone, Copy, PartialEq, Eq)]
pub struct Set {
    words: [u64; 4],
}

impl Set {
    pub const EMPTY: Set = Set { words: [0; 4] };

    pub fn contains(&self, t: u8) -> bool {
        self.words[t as usize / 64] >> (t % 64) & 1 == 1
    }

    pub fn insert(&mut self, t: u8) {
        self.words[t as usize / 64] |= 1 << (t % 64);
    }

    pub fn remove(&mut self, t: u8) {
        self.words[t as usize / 64] &= !(1 << (t % 64));
    }

    pub fn is_empty(&self) -> bool {
        self.words == [0; 4]
    }

    pub fn count(&self) -> u32 {
        self.words.iter().map(|word| word.count_ones()).sum()
    }

    /// The threads, ascending.
    pub fn threads(self) -> Threads {
        Threads { left: self.words, word: 0 }
    }
}

/// What is left of a set, from one of its words on.
pub struct Threads {
    left: [u64; 4],
    word: usize,
}

impl Iterator for Threads {
    type Item = u8;

    fn next(&mut self) -> Option<u8> {
        while *self.left.get(self.word)? == 0 {
            self.word += 1;
        }
        let left = &mut self.left[self.word];
        let bit = left.trailing_zeros();
        *left &= *left - 1;
        Some((64 * self.word as u32 + bit) as u8)
    }
}

impl FromIterator<u8> for Set {
    fn from_iter<I: IntoIterator<Item = u8>>(threads: I) -> Set {
        let mut set = Set::EMPTY;
        threads.into_iter().for_each(|t| set.insert(t));
        set
    }
}

impl fmt::Debug for Set {
    fn fmt(&self, f: &mut fmt::Formatter) -> fmt::Result {
        f.debug_set().entries(self.threads()).finish()
    }
}
