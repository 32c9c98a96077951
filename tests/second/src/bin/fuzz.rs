//! fuzz SEED CALLS: runs steered random calls, checks tables and grants after
//! each, and prints how often each call, code and situation came up.

use second::{read, write, Answer, Bond, Call, Machine, Read, Rng, Steer, Step, Tally};

fn main() {
    let mut args = std::env::args().skip(1).map(|a| a.parse::<u64>().expect("a number"));
    let seed = args.next().unwrap_or(1);
    let calls = args.next().unwrap_or(1_000_000);
    let mut tally = Tally::default();
    let mut lengths = Rng::new(!seed);
    let mut steer = Steer::new(seed);
    while tally.calls() < calls {
        let made = tally.calls();
        let length = (30 + lengths.below(500) as u64).min(calls - made);
        steer.new_list();
        if let Err(wrong) = run_list(&mut steer, length, &mut tally) {
            println!("seed {seed}, list after {made} calls: {wrong}");
            std::process::exit(1);
        }
    }
    println!(
        "seed {seed}, {calls} calls in {} lists, tables and grants sound after each",
        tally.lists()
    );
    print!("{tally}");
}

/// One list of calls from fresh tables.
fn run_list(steer: &mut Steer, length: u64, tally: &mut Tally) -> Result<(), String> {
    let mut machine = Machine::fresh();
    tally.new_list();
    for n in 0..length {
        let call = steer.next(&machine);
        let before = machine.clone();
        let answer = machine.call(&call);
        check(&before, &call, &answer, &machine)
            .map_err(|wrong| format!("call {n}, {call:?}, {answer:?}: {wrong}"))?;
        tally.add(&Step { before: &before, call: &call, answer: &answer, after: &machine });
    }
    Ok(())
}

fn check(before: &Machine, call: &Call, answer: &Answer, after: &Machine) -> Result<(), String> {
    after.sound()?;
    if !answer.accepted() && before != after {
        return Err(String::from("a refusal changed the tables"));
    }
    if before.grants() != after.grants() && !matches!(call.number(), 1 | 4 | 13) {
        return Err(String::from("grants changed by a call that leaves them"));
    }
    let counted = matches!(call.number(), 11 | 12);
    if !counted && answer.count != 0 {
        return Err(String::from("count of a call that has none"));
    }
    if call.number() == 12 && answer.count as usize != after.log().looks.len() {
        return Err(String::from("count is not the looks"));
    }
    for t in 0..=255 {
        let thread = after.thread(t);
        if thread.blocked() && thread.bond != Bond::None {
            return Err(format!("blocked thread {t} has a bond"));
        }
    }
    let written = write(call);
    if written.code != 0 {
        return match (answer.code, written.words, written.len) {
            (19, [0, 0, 0], 0) => Ok(()),
            _ => Err(String::from("written out of range")),
        };
    }
    match read(&written.words[..written.len], 0) {
        Read::Call { call: again, next } if again == *call && next == written.len => Ok(()),
        other => Err(format!("reads back as {other:?}")),
    }
}
