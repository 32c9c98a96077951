//! vectors SEED LISTS LENGTH: prints call lists with their expected results.
//! A line `list` starts a list from fresh tables. Other lines: call number,
//! the call's own numbers, `->`, code, count, badge, message, running thread
//! or -1. Call 12 adds the threads looked at: r removed, k kept.

use second::{Answer, Call, Machine, Steer};
use std::io::{self, BufWriter, Write};

fn main() -> io::Result<()> {
    let args: Vec<u64> = std::env::args().skip(1).map(|a| a.parse().expect("a number")).collect();
    let [seed, lists, length] = args[..] else {
        eprintln!("usage: vectors SEED LISTS LENGTH");
        std::process::exit(2);
    };
    let mut out = BufWriter::new(io::stdout().lock());
    let mut steer = Steer::new(seed);
    for _ in 0..lists {
        writeln!(out, "list")?;
        let mut machine = Machine::fresh();
        for _ in 0..length {
            let call = steer.next(&machine);
            let answer = machine.call(&call);
            writeln!(out, "{}", line(&call, &answer, &machine))?;
        }
        steer.new_list();
    }
    out.flush()
}

fn line(call: &Call, answer: &Answer, machine: &Machine) -> String {
    let mut text = call.number().to_string();
    for n in call.numbers() {
        text += &format!(" {n}");
    }
    let Answer { code, count, badge, message } = *answer;
    let running = machine.running().map_or(-1, i32::from);
    text += &format!(" -> {code} {count} {badge} {message} {running}");
    if call.number() == 12 {
        let looks: Vec<String> = machine
            .log()
            .looks
            .iter()
            .map(|l| format!("{}:{}", l.thread, if l.removed { 'r' } else { 'k' }))
            .collect();
        text += &format!(" looks={}", looks.join(","));
    }
    text
}
