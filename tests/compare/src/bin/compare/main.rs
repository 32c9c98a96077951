//! compare [--calls N] [--seed S] [--journal FILE]: steered calls on the
//! compiled core and on the second machine. The first difference is printed
//! with the calls that lead to it, their journal written to the file, and the
//! exit status is 1; so it is where a situation has not come up. On a terminal
//! a line shows how far it has come.

mod progress;

use comparison::{compare_watched, journal, report, Compared, Compiled, Failure};
use progress::Progress;
use std::process::ExitCode;
use std::time::{SystemTime, UNIX_EPOCH};

struct Options {
    calls: u64,
    seed: u64,
    journal: Option<String>,
}

fn options(mut args: impl Iterator<Item = String>) -> Option<Options> {
    let mut options = Options { calls: 2_000_000, seed: clock(), journal: None };
    while let Some(name) = args.next() {
        let value = args.next()?;
        match name.as_str() {
            "--calls" => options.calls = value.parse().ok()?,
            "--seed" => options.seed = value.parse().ok()?,
            "--journal" => options.journal = Some(value),
            _ => return None,
        }
    }
    Some(options)
}

/// A seed that is another one each time.
fn clock() -> u64 {
    let now = SystemTime::now().duration_since(UNIX_EPOCH);
    now.map_or(0, |time| time.as_nanos() as u64)
}

fn main() -> ExitCode {
    let Some(options) = options(std::env::args().skip(1)) else {
        eprintln!("usage: compare [--calls N] [--seed S] [--journal FILE]");
        return ExitCode::from(2);
    };
    println!("seed {}", options.seed);
    let mut progress = Progress::new(options.calls);
    let mut watch = |calls| progress.reached(calls);
    let compared = compare_watched(Compiled::default(), options.seed, options.calls, &mut watch);
    progress.clear();
    let same = match compared {
        Ok(compared) => all_came_up(&compared),
        Err(failure) => {
            print_failure(&failure, &options);
            false
        }
    };
    ExitCode::from(!same as u8)
}

/// Prints what was compared; whether all came up that can.
fn all_came_up(compared: &Compared) -> bool {
    let Compared { tally, .. } = compared;
    print!("{tally}");
    for (count, text) in compared.changed() {
        println!("{count:>9}  {text}");
    }
    println!("{} calls in {} lists compared, no difference", tally.calls(), tally.lists());
    let missing = compared.missing();
    for text in &missing {
        println!("never came up: {text}");
    }
    missing.is_empty()
}

fn print_failure(failure: &Failure, options: &Options) {
    print!("{}", report(failure));
    println!("once more: compare --seed {} --calls {}", options.seed, failure.at + 1);
    let Some(file) = &options.journal else {
        return;
    };
    let words = journal(&failure.calls);
    let bytes: Vec<u8> = words.iter().flat_map(|word| word.to_le_bytes()).collect();
    if let Err(error) = std::fs::write(file, bytes) {
        eprintln!("{file}: {error}");
    }
}
