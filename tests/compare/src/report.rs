//! What is said of a difference, and numbers to be read.

use crate::run::Failure;
use second::{write, Answer, Call, Machine};

/// The calls' journal words; a call out of range has none.
pub fn journal(calls: &[Call]) -> Vec<u32> {
    let written = calls.iter().map(write);
    written.flat_map(|w| w.words.into_iter().take(w.len)).collect()
}

/// The difference and the calls that lead to it, listed as the second machine
/// answers them.
pub fn report(failure: &Failure) -> String {
    let Failure { at, calls, difference } = failure;
    let mut text = format!("call {at} differs: {}\n", difference.what);
    text += &format!("  core           {}\n", difference.core);
    text += &format!("  second machine {}\n", difference.second);
    text += &format!("{} calls from fresh tables lead to it:\n", calls.len());
    let mut machine = Machine::fresh();
    for (n, call) in calls.iter().enumerate() {
        let answer = machine.call(call);
        text += &line(n, call, &answer, machine.running());
    }
    let words: Vec<String> = journal(calls).iter().map(|word| format!("{word:08X}")).collect();
    text += &format!("their journal: {}\n", words.join(" "));
    text
}

fn line(n: usize, call: &Call, answer: &Answer, running: Option<u8>) -> String {
    let Answer { code, count, badge, message } = *answer;
    let running = running.map_or(String::from("-"), |t| t.to_string());
    format!("  {n} {} {code} {count} {badge} {message} {running}  {call:?}\n", call.number())
}

/// A number with a comma before every three digits.
pub fn grouped(number: u64) -> String {
    match number {
        0..=999 => number.to_string(),
        _ => format!("{},{:03}", grouped(number / 1000), number % 1000),
    }
}
