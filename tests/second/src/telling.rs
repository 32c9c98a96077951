//! A journal told in sentences, as docs/SENTENCES.md words them.

use crate::call::{Answer, Call};
use crate::turns::{turns, Turn};

/// Runs the journal's calls from fresh tables and tells them.
pub fn telling(bytes: &[u8]) -> String {
    turns(bytes)
        .into_iter()
        .map(|turn| match turn {
            Turn::Made { call, answer, .. } => sentence(&call, &answer),
            Turn::Stopped { code, .. } => stop_line(code),
        })
        .collect()
}

/// The same with each call's index, who makes it and who runs then.
pub fn numbered_telling(bytes: &[u8]) -> String {
    let mut text = String::new();
    let mut ran = None;
    for (index, turn) in turns(bytes).into_iter().enumerate() {
        let (heading, line, running) = match turn {
            Turn::Made { call, answer, running } => {
                (format!("{index}, {}", caller(&call, ran)), sentence(&call, &answer), running)
            }
            Turn::Stopped { code, running } => (index.to_string(), stop_line(code), running),
        };
        let clause = line.trim_end_matches(".\n");
        text += &format!("{heading}: {clause}; {} runs.\n", named(running));
        ran = running;
    }
    text
}

/// Who makes a call: its caller if it is a thread's, which ran before it, else the host.
fn caller(call: &Call, ran: Option<u8>) -> String {
    match call {
        Call::Send { .. }
        | Call::Receive { .. }
        | Call::Yield
        | Call::Wait { .. }
        | Call::Delete { .. }
        | Call::Abort { .. } => named(ran),
        _ => String::from("host"),
    }
}

fn named(thread: Option<u8>) -> String {
    thread.map_or(String::from("nobody"), |thread| format!("thread {thread}"))
}

fn stop_line(code: u32) -> String {
    format!("The journal does not go on: {}.\n", outcome(code))
}

/// The line of a call and its answer, whatever their numbers.
pub fn sentence(call: &Call, answer: &Answer) -> String {
    let Answer { code, count, badge, message } = *answer;
    let counts = matches!(call, Call::Delete { .. } | Call::Abort { .. }) && [0, 2].contains(&code);
    let receives = matches!(call, Call::Receive { .. }) && code == 0;
    let told =
        [(counts, "count", count), (receives, "badge", badge), (receives, "message", message)];
    let mut line = format!("{}: {}", request(call), outcome(code));
    for (always, name, number) in told {
        if always || number != 0 {
            line += &format!(", {name} {number}");
        }
    }
    line + ".\n"
}

fn request(call: &Call) -> String {
    match call {
        Call::CreateThread { thread, priority } => {
            format!("Create thread {thread} with priority {priority}")
        }
        Call::DestroyThread { thread } => format!("Destroy thread {thread}"),
        Call::SetPriority { thread, priority } => {
            format!("Set thread {thread} to priority {priority}")
        }
        Call::CreateEndpoint { endpoint } => format!("Create endpoint {endpoint}"),
        Call::Interrupt { line } => format!("Interrupt on line {line}"),
        Call::Tick => String::from("Tick"),
        Call::Send { endpoint, badge, message } => {
            format!("Send message {message} under badge {badge} to endpoint {endpoint}")
        }
        Call::Receive { endpoint } => format!("Receive at endpoint {endpoint}"),
        Call::Yield => String::from("Yield"),
        Call::Wait { line } => format!("Wait on line {line}"),
        Call::Delete { endpoint, allowance } => {
            format!("Delete endpoint {endpoint} with allowance {allowance}")
        }
        Call::Abort { endpoint, allowance, badge } => {
            format!("Abort badge {badge} at endpoint {endpoint} with allowance {allowance}")
        }
        Call::Grant { thread, endpoint, rights, badge } => format!(
            "Grant thread {thread} rights {rights} at endpoint {endpoint} under badge {badge}"
        ),
    }
}

fn outcome(code: u32) -> String {
    let cause = match code {
        0 => return String::from("done"),
        1 => return String::from("blocked"),
        2 => return String::from("broken off"),
        16 => "wrong memory length",
        17 => "memory is not sound",
        18 => "this is no call",
        19 => "number out of range",
        20 => "no thread runs",
        21 => "no such thread",
        22 => "the thread exists",
        23 => "no such endpoint",
        24 => "the endpoint exists",
        25 => "endpoint is closing",
        26 => "badge is under abort",
        27 => "the line has a waiter",
        28 => "buffer too short",
        29 => "lacks right or badge",
        30 => "too much to bill",
        _ => return format!("refused by {code}"),
    };
    format!("refused by {code}, {cause}")
}
