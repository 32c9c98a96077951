//! The listing of a journal as text.

use crate::call::Answer;
use crate::turns::{turns, Turn};

pub const HEADER: &str = "n call code count badge message running\n";

/// Runs the journal's calls from fresh tables and lists them.
pub fn listing(bytes: &[u8]) -> String {
    let lines = turns(bytes).into_iter().enumerate().map(|(index, turn)| match turn {
        Turn::Made { call, answer, running } => line(index, call.number(), &answer, running),
        Turn::Stopped { code, running } => line(index, 0, &Answer::code(code), running),
    });
    std::iter::once(String::from(HEADER)).chain(lines).collect()
}

fn line(index: usize, call: u32, answer: &Answer, running: Option<u8>) -> String {
    let Answer { code, count, badge, message } = *answer;
    let running = running.map_or(String::from("-"), |t| t.to_string());
    format!("{index} {call} {code} {count} {badge} {message} {running}\n")
}
