//! The bill of a journal: who ran at its ticks, and what that costs.

use crate::call::Call;
use crate::journal::{read, words_in, Read};
use crate::machine::Machine;
use std::collections::BTreeMap;

const MOST_WORDS: usize = 16_000;
/// Cents for 1,000 ticks.
const HIGHEST_RATE: u64 = 10_000;

const NO_CALL: u32 = 18;
const LIMITS: u32 = 30;

/// What is printed for a rate's four bytes and a journal's: the bill, or the
/// number of a refusal alone.
pub fn bill(input: &[u8]) -> String {
    billed(input).unwrap_or_else(|number| format!("{number}\n"))
}

fn billed(input: &[u8]) -> Result<String, u32> {
    let (rate, journal) = input.split_first_chunk::<4>().ok_or(NO_CALL)?;
    let rate = u64::from(u32::from_le_bytes(*rate));
    let words = words_in(journal);
    if words.len() > MOST_WORDS || rate > HIGHEST_RATE {
        return Err(LIMITS);
    }
    let ticks = Ticks::of(&words)?;
    if journal.len() % 4 != 0 {
        return Err(NO_CALL);
    }
    Ok(ticks.text(rate))
}

/// The ticks of those that have any, and the ticks at which nobody ran.
#[derive(Default)]
struct Ticks {
    threads: BTreeMap<u8, u64>,
    idle: u64,
}

impl Ticks {
    /// The journal's calls are made from fresh tables; a tick is for whoever
    /// runs when it comes. The reader's number where a word is no call.
    fn of(words: &[u32]) -> Result<Ticks, u32> {
        let mut ticks = Ticks::default();
        let mut machine = Machine::fresh();
        let mut at = 0;
        loop {
            match read(words, at) {
                Read::Call { call, next } => {
                    let before = machine.running();
                    let answer = machine.call(&call);
                    if call == Call::Tick && answer.code == 0 {
                        *ticks.count_of(before) += 1;
                    }
                    at = next;
                }
                Read::Refused(number) => return Err(number),
                Read::Ended => return Ok(ticks),
            }
        }
    }

    fn count_of(&mut self, running: Option<u8>) -> &mut u64 {
        match running {
            Some(thread) => self.threads.entry(thread).or_default(),
            None => &mut self.idle,
        }
    }

    fn text(&self, rate: u64) -> String {
        let line = |(thread, ticks)| format!("{thread} {ticks} {}\n", rounded(ticks * rate));
        self.threads.iter().map(line).collect::<String>() + &format!("idle {}\n", self.idle)
    }
}

/// Thousandths of a cent as whole cents: to the nearest, the half upward.
fn rounded(thousandths: u64) -> u64 {
    let (cents, rest) = (thousandths / 1000, thousandths % 1000);
    match rest {
        0..=499 => cents,
        _ => cents + 1,
    }
}
