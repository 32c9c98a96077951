//! The core's side of a comparison: each entry made, and what it leaves.

use crate::subject::{Core, Memory};
use second::{grant_name, read, word_name, write, Call};
use std::fmt::Debug;

/// What the two sides disagree on.
#[derive(Clone, Debug, PartialEq, Eq)]
pub struct Difference {
    pub what: String,
    pub core: String,
    pub second: String,
}

pub type Same = Result<(), Difference>;

pub fn same<T: PartialEq + Debug>(what: &str, core: T, second: T) -> Same {
    if core == second {
        return Ok(());
    }
    let (core, second) = (format!("{core:?}"), format!("{second:?}"));
    Err(Difference { what: String::from(what), core, second })
}

/// The first word that is not the same is said by its name.
fn same_words(core: &[u32], second: &[u32], name: fn(usize) -> String, when: &str) -> Same {
    if core == second {
        return Ok(());
    }
    same("number of words lent", core.len(), second.len())?;
    let at = (0..core.len()).find(|&at| core[at] != second[at]).unwrap_or(0);
    same(&format!("{}, word {at}, {when}", name(at)), core[at], second[at])
}

/// The core, with junk for its scratch: what that holds must not matter.
pub struct Side<C> {
    pub core: C,
    junk: u32,
}

impl<C: Core> Side<C> {
    pub fn new(core: C) -> Side<C> {
        Side { core, junk: 1 }
    }

    /// A call is answered so.
    pub fn call(&mut self, call: &Call, answer: [u32; 4]) -> Same {
        self.spoil_scratch();
        same("answer", self.core.call(call), answer)?;
        self.zero_scratch("scratch after the call")
    }

    /// The check answers so and leaves tables and grants as they are.
    pub fn check(&mut self, memory: Memory, code: u32) -> Same {
        self.spoil_scratch();
        same("check", self.core.check(), code)?;
        self.zero_scratch("scratch after the check")?;
        self.memory(memory, "after the check")
    }

    /// Tables and grants are these words.
    pub fn memory(&self, memory: Memory, when: &str) -> Same {
        let own = self.core.memory();
        same_words(own.tables, memory.tables, word_name, when)?;
        same_words(own.grants, memory.grants, grant_name, when)
    }

    fn spoil_scratch(&mut self) {
        self.junk = self.junk.wrapping_mul(0x9E37_79B9) | 1;
        self.core.scratch().fill(self.junk);
    }

    fn zero_scratch(&mut self, what: &str) -> Same {
        let zero = self.core.scratch().iter().all(|&word| word == 0);
        same(what, if zero { "all zero" } else { "not all zero" }, "all zero")
    }

    /// A call is written so, and read so from its words: whole, cut short, and
    /// with one bit changed.
    pub fn journal(&self, call: &Call) -> Same {
        let written = write(call);
        same("journal words", self.core.write(call), written)?;
        let mut words = written.words;
        self.reading(&words[..written.len])?;
        self.reading(&words[..written.len.saturating_sub(1)])?;
        let bit = self.junk as usize >> 8;
        words[bit / 32 % 3] ^= 1 << (bit % 32);
        self.reading(&words)
    }

    fn reading(&self, words: &[u32]) -> Same {
        let (core, second) = (self.core.read(words, 0), read(words, 0));
        if core == second {
            return Ok(());
        }
        same(&format!("reading of {words:08X?}"), core, second)
    }
}
