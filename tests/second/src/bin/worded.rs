//! Reads cases from standard input, a line each: the six numbers of a call and
//! the four of an answer, a tab and their sentence. Says how many sentences are
//! worded otherwise here.

use second::{call_of, sentence, Answer};
use std::io::{self, BufRead};
use std::process::ExitCode;

fn main() -> io::Result<ExitCode> {
    let mut judged = 0;
    let mut wrong = 0;
    for line in io::stdin().lock().lines() {
        let line = line?;
        let own = line.split_once('\t').and_then(|(numbers, _)| worded(numbers));
        judged += 1;
        if own.as_deref() != line.split_once('\t').map(|(_, text)| text) {
            wrong += 1;
            println!("failed: {line}, worded {own:?} here");
        }
    }
    println!("{judged} judged, {wrong} wrong");
    let passed = judged > 0 && wrong == 0;
    println!("worded: {} passed, {} failed", u8::from(passed), u8::from(!passed));
    Ok(if passed { ExitCode::SUCCESS } else { ExitCode::FAILURE })
}

/// The sentence of ten numbers, without its newline.
fn worded(numbers: &str) -> Option<String> {
    let numbers: Vec<u32> = numbers.split(' ').map(|n| n.parse().ok()).collect::<Option<_>>()?;
    let &[number, subject, argument, badge, message, rights, ref answer @ ..] = numbers.as_slice()
    else {
        return None;
    };
    let call = call_of(number, subject, argument, badge, message, rights)?;
    let &[code, count, badge, message] = answer else {
        return None;
    };
    let answer = Answer { code, count, badge, message };
    Some(String::from(sentence(&call, &answer).trim_end_matches('\n')))
}
