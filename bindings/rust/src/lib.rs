//! Nazsombet, the kernel core of the realtime box, from Rust: the entries of include/nazsombet.h over memory that a
//! [`Core`] owns. What each entry answers and leaves, for all lengths and contents, is proved of the library's source;
//! that these declarations fit it is tested. The library is built by `./build.sh core_c`.
//!
//! ```
//! use nazsombet::{codes, outcomes, rights, Call, Core};
//!
//! let mut core = Core::new();
//! core.call(Call::CreateThread { thread: 3, priority: 100 });
//! core.call(Call::CreateEndpoint { endpoint: 0 });
//! core.call(Call::Grant { thread: 3, endpoint: 0, rights: rights::RECEIVE, badge: 0 });
//! assert_eq!(core.running(), Some(3));
//! assert_eq!(core.call(Call::Receive { endpoint: 0 }).code, codes::BLOCKED);
//! assert_eq!(core.running(), None);
//! assert_eq!(core.woken(3).outcome, outcomes::NO_OUTCOME);
//! ```

mod call;
pub mod codes;
mod entries;
pub mod outcomes;
pub mod rights;
#[cfg(feature = "tools")]
mod sentence;
#[cfg(feature = "tools")]
mod ticks;

pub use call::{Call, Numbers};
#[cfg(feature = "tools")]
pub use sentence::sentence;
#[cfg(feature = "tools")]
pub use ticks::{count_ticks, COUNTS, IDLE};

/// The release that this binding is of, NAZSOMBET_RELEASE of the header. Stored tables and grants are of one release.
pub const RELEASE: &str = "7.6";

/// The version of this package: the release, and a third number of the binding's own.
pub const VERSION: &str = env!("CARGO_PKG_VERSION");

/// The words of the tables, of the grants and of the scratch.
pub const TABLES: usize = 4096;
pub const GRANTS: usize = 16_384;
pub const SCRATCH: usize = 256;

const ENDED: u32 = 255;
const NOBODY: u32 = 256;

/// An answer. A refusal is its number and three zeros.
#[repr(C)]
#[derive(Clone, Copy, Debug, Default, PartialEq, Eq)]
pub struct Answer {
    /// One of [`codes`].
    pub code: u32,
    /// Delete, abort: the waiters removed or looked at; else 0.
    pub count: u32,
    /// Badge and message that a receive answered 0 took; else 0.
    pub badge: u32,
    pub message: u32,
}

/// How a thread's last waiting ended.
#[derive(Clone, Copy, Debug, Default, PartialEq, Eq)]
pub struct Waking {
    /// One of [`outcomes`].
    pub outcome: u32,
    /// Badge and message with outcome 2; else 0.
    pub badge: u32,
    pub message: u32,
}

/// What the words at a place of a journal read as.
#[derive(Clone, Copy, Debug, PartialEq, Eq)]
pub enum Read {
    /// A call, and the first word not yet read.
    Found {
        call: Numbers,
        next: usize,
    },
    /// 18 or 19, and the place.
    Refused {
        code: u32,
        at: usize,
    },
    Ended,
}

/// A call as words: 0, how many, and the words with zeros behind them; or 18 or 19 and zeros.
#[derive(Clone, Copy, Debug, PartialEq, Eq)]
pub struct Written {
    pub code: u32,
    pub count: usize,
    pub words: [u32; 3],
}

/// The memory lent to the core. It may be read, stored and replaced, by words of any content and any length: other
/// lengths are refused by 16, tables or grants that are not sound by 17.
#[derive(Clone, Debug, PartialEq, Eq)]
pub struct Core {
    pub tables: Vec<u32>,
    pub grants: Vec<u32>,
    pub scratch: Vec<u32>,
}

impl Core {
    /// Fresh tables and grants, and a scratch that holds something.
    pub fn new() -> Core {
        let [tables, grants, scratch] =
            [TABLES, GRANTS, SCRATCH].map(|length| vec![0xDEAD_BEEF; length]);
        let mut core = Core { tables, grants, scratch };
        assert_eq!(core.fresh(), codes::DONE);
        core
    }

    /// Makes tables and grants fresh: no thread, no endpoint, no pending line, no grant. 0 or 16.
    pub fn fresh(&mut self) -> u32 {
        // SAFETY: the pointers and lengths are those of two slices apart, lent for the call.
        unsafe {
            entries::nazsombet_fresh(
                self.tables.as_mut_ptr(),
                self.tables.len(),
                self.grants.as_mut_ptr(),
                self.grants.len(),
            )
        }
    }

    /// Whether tables and grants are sound: 0, 16 or 17.
    #[inline]
    pub fn check(&mut self) -> u32 {
        // SAFETY: the pointers and lengths are those of three slices apart.
        unsafe {
            entries::nazsombet_check(
                self.tables.as_ptr(),
                self.tables.len(),
                self.grants.as_ptr(),
                self.grants.len(),
                self.scratch.as_mut_ptr(),
                self.scratch.len(),
            )
        }
    }

    /// Takes a call. Tables and grants are checked first, every time.
    #[inline]
    pub fn call(&mut self, call: impl Into<Numbers>) -> Answer {
        self.call_numbers(&call.into())
    }

    /// The same of numbers that are at hand, whether they name a call or not; they are not copied.
    #[inline]
    pub fn call_numbers(&mut self, call: &Numbers) -> Answer {
        let mut answer = Answer::default();
        // SAFETY: the slices, the call and the answer are apart, and `repr(C)` gives six words and four.
        let code = unsafe {
            entries::nazsombet_call(
                self.tables.as_mut_ptr(),
                self.tables.len(),
                self.grants.as_mut_ptr(),
                self.grants.len(),
                self.scratch.as_mut_ptr(),
                self.scratch.len(),
                call,
                &mut answer,
            )
        };
        assert_eq!(code, answer.code);
        answer
    }

    /// The thread that runs; of unsound tables some thread, or nobody.
    pub fn running(&self) -> Option<u32> {
        // SAFETY: the pointer and length are a slice's.
        let thread = unsafe { entries::nazsombet_running(self.tables.as_ptr(), self.tables.len()) };
        (thread != NOBODY).then_some(thread)
    }

    /// How the last waiting of a thread ended: what to tell it when it runs again after a call that was answered 1. Of
    /// unsound tables any words, of a number above 255 zeros.
    pub fn woken(&self, thread: u32) -> Waking {
        let mut words = [0; 3];
        // SAFETY: the pointer and length are a slice's, and the three words are apart from it.
        unsafe {
            entries::nazsombet_woken(self.tables.as_ptr(), self.tables.len(), thread, &mut words)
        };
        let [outcome, badge, message] = words;
        Waking { outcome, badge, message }
    }

    /// Reads the call that begins at a word of a journal.
    pub fn read(journal: &[u32], at: usize) -> Read {
        let mut next = at;
        let mut call = Numbers::default();
        // SAFETY: the slice, the place and the call are apart, and `repr(C)` gives six words.
        let code = unsafe {
            entries::nazsombet_read(journal.as_ptr(), journal.len(), &mut next, &mut call)
        };
        match code {
            0 => Read::Found { call, next },
            ENDED => Read::Ended,
            _ => Read::Refused { code, at: next },
        }
    }

    /// Writes a call as its journal words.
    pub fn write(call: impl Into<Numbers>) -> Written {
        let call = call.into();
        let mut words = [0; 3];
        let mut count = 0;
        // SAFETY: the call, the words and the count are apart, and `repr(C)` gives six words.
        let code = unsafe { entries::nazsombet_write(&call, &mut words, &mut count) };
        Written { code, count, words }
    }
}

impl Default for Core {
    fn default() -> Core {
        Core::new()
    }
}
