//! The lists of calls: what each goes for, and how long it is.

use crate::changes::Changes;
use crate::subject::Memory;
use second::{Call, Machine, Profile, Rng, Steer};

/// A profile, how many of all lists have it, and a length's least and range.
const KINDS: [(Profile, usize, usize, usize); 5] = [
    (Profile::Few, 30, 30, 500),
    (Profile::Edges, 8, 30, 500),
    (Profile::Many, 2, 500, 1500),
    (Profile::Full, 1, 1000, 2000),
    (Profile::Crowd, 1, 1500, 1500),
];

/// One call in so many is made on changed tables or grants too.
const CHANGED: usize = 32;

/// Steered lists, the same from the same seed.
pub struct Lists {
    rng: Rng,
    steer: Steer,
}

impl Lists {
    pub fn new(seed: u64) -> Lists {
        Lists { rng: Rng::new(!seed), steer: Steer::new(seed) }
    }

    /// Begins a list and gives its length.
    pub fn begin(&mut self) -> usize {
        let kind = self.rng.weighted(&KINDS.map(|(_, weight, _, _)| weight));
        let (profile, _, least, range) = KINDS[kind];
        self.steer.new_list_of(profile);
        least + self.rng.below(range)
    }

    /// Now and then, words to put into tables or grants before the next call.
    pub fn changes(&mut self, memory: Memory) -> Option<Changes> {
        self.rng.one_in(CHANGED).then(|| Changes::by_chance(&mut self.rng, memory))
    }

    /// The list's next call, by the state that the machine has come to.
    pub fn next(&mut self, machine: &Machine) -> Call {
        self.steer.next(machine)
    }
}
