//! Changes of the words of the tables or the grants, most of which make them
//! unsound.

use crate::subject::Memory;
use second::{aborting_at, owes_at, Rng};

/// An address and the word put there.
pub type Change = (usize, u32);

/// Which memory is changed, and the words put into it.
#[derive(Clone, Debug)]
pub enum Changes {
    Tables(Vec<Change>),
    /// A thread is put into a set, or has a note put there.
    Bond(Vec<Change>),
    Grants(Vec<Change>),
}

impl Changes {
    /// One or two words to put into the tables or the grants.
    pub fn by_chance(rng: &mut Rng, memory: Memory) -> Changes {
        match rng.below(6) {
            0 | 1 => Changes::Grants(few(rng, memory.grants)),
            2 => Changes::Bond(bond(rng, memory.tables)),
            _ => Changes::Tables(few(rng, memory.tables)),
        }
    }

    /// Tables and grants with the changes.
    pub fn made(&self, memory: Memory) -> (Vec<u32>, Vec<u32>) {
        let (mut tables, mut grants) = (memory.tables.to_vec(), memory.grants.to_vec());
        let (words, changes) = match self {
            Changes::Tables(changes) | Changes::Bond(changes) => (&mut tables, changes),
            Changes::Grants(changes) => (&mut grants, changes),
        };
        for &(at, word) in changes {
            words[at] = word;
        }
        (tables, grants)
    }
}

fn few(rng: &mut Rng, words: &[u32]) -> Vec<Change> {
    let count = if rng.one_in(3) { 2 } else { 1 };
    (0..count).map(|_| change(rng, words)).collect()
}

/// Any thread's tie to an abort, more likely where one stands.
fn bond(rng: &mut Rng, tables: &[u32]) -> Vec<Change> {
    let (at, e) = (owes_at(rng.below(256) as u8), rng.below(64) as u8);
    let mut from = (e..64).chain(0..e);
    let standing = from.find(|&e| tables[aborting_at(e)] != 0).filter(|_| !rng.one_in(4));
    let endpoint = u32::from(standing.unwrap_or(e));
    match rng.below(6) {
        0 => vec![(at, 65 + endpoint), (at + 1, rng.below(9) as u32)],
        _ => vec![(at, 1 + endpoint), (at + 1, 0)],
    }
}

/// A word near the one that stands there, one from elsewhere, or any.
fn change(rng: &mut Rng, words: &[u32]) -> Change {
    let at = if rng.one_in(3) { rng.below(words.len()) } else { used(rng, words) };
    let old = words[at];
    let word = match rng.below(6) {
        0 => 0,
        1 => old.wrapping_add(1),
        2 => old.wrapping_sub(1),
        3 => words[used(rng, words)],
        4 => rng.below(260) as u32,
        _ => rng.draw() as u32,
    };
    (at, word)
}

/// The address of a word that is not 0, if there is any.
fn used(rng: &mut Rng, words: &[u32]) -> usize {
    let from = rng.below(words.len());
    let around = (from..words.len()).chain(0..from);
    around.into_iter().find(|&at| words[at] != 0).unwrap_or(from)
}
