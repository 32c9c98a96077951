//! A journal run from fresh tables, call by call.

use crate::call::{Answer, Call};
use crate::journal::{read, words_in, Read};
use crate::machine::Machine;

/// A call that was made, or a word that is none; with the thread that runs then.
pub enum Turn {
    Made { call: Call, answer: Answer, running: Option<u8> },
    Stopped { code: u32, running: Option<u8> },
}

/// The turns of a journal's bytes, up to the first that stops it.
pub fn turns(bytes: &[u8]) -> Vec<Turn> {
    let words = words_in(bytes);
    let mut machine = Machine::fresh();
    let mut turns = Vec::new();
    let mut at = 0;
    loop {
        match read(&words, at) {
            Read::Call { call, next } => {
                let answer = machine.call(&call);
                turns.push(Turn::Made { call, answer, running: machine.running() });
                at = next;
            }
            Read::Refused(code) => {
                turns.push(Turn::Stopped { code, running: machine.running() });
                return turns;
            }
            Read::Ended => break,
        }
    }
    if bytes.len() % 4 != 0 {
        turns.push(Turn::Stopped { code: 18, running: machine.running() });
    }
    turns
}
