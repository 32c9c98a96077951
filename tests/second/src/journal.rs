//! Journal words: reading calls from them and writing calls to them.

use crate::call::Call;

/// Words taken by a call, over the top byte of its first word.
pub const WORDS: [u8; 256] = words();

const fn words() -> [u8; 256] {
    let mut table = [0; 256];
    let mut n = 1;
    while n <= 13 {
        table[0x10 + n] = match n {
            7 => 3,
            12 | 13 => 2,
            _ => 1,
        };
        n += 1;
    }
    table
}

const LOW: u32 = (1 << 28) - 1;

/// The whole words of a journal's bytes.
pub fn words_in(bytes: &[u8]) -> Vec<u32> {
    bytes.chunks_exact(4).map(|b| u32::from_le_bytes([b[0], b[1], b[2], b[3]])).collect()
}

/// What the reader gives.
#[derive(Clone, Copy, Debug, PartialEq, Eq)]
pub enum Read {
    /// A call and the word after it.
    Call { call: Call, next: usize },
    /// 18 or 19; the reader stays where the call began.
    Refused(u32),
    /// No word stands at this place.
    Ended,
}

/// Reads the call that begins at word `at`.
pub fn read(words: &[u32], at: usize) -> Read {
    let Some(&first) = words.get(at) else {
        return Read::Ended;
    };
    let taken = WORDS[(first >> 24) as usize] as usize;
    if taken == 0 || words.len() - at < taken {
        return Read::Refused(18);
    }
    let Some(call) = decode(&words[at..at + taken]) else {
        return Read::Refused(18);
    };
    if !call.in_range() {
        return Read::Refused(19);
    }
    Read::Call { call, next: at + taken }
}

/// Takes the words of one call apart; none for a wrong kind or a stray part.
fn decode(words: &[u32]) -> Option<Call> {
    let number = words[0] >> 24 & 15;
    let subject = words[0] >> 16 & 255;
    let argument = words[0] & 0xFFFF;
    let has_subject = !matches!(number, 6 | 9);
    let has_argument = matches!(number, 1 | 3 | 11..=13);
    let (argument, rights) = if number == 13 { at_endpoint(argument)? } else { (argument, 0) };
    if !has_subject && subject != 0 || !has_argument && argument != 0 {
        return None;
    }
    let badge = part(words, 1, 2)?;
    let message = part(words, 2, 3)?;
    call_of(number, subject, argument, badge, message, rights)
}

/// A grant's argument: endpoint and rights; none for a bit of neither.
fn at_endpoint(argument: u32) -> Option<(u32, u32)> {
    (argument & 0xF0C0 == 0).then_some((argument & 63, argument >> 8))
}

/// The call of six plain numbers; none if there is no call of that number. A
/// grant has the thread for its subject and the endpoint for its argument.
pub fn call_of(
    number: u32,
    subject: u32,
    argument: u32,
    badge: u32,
    message: u32,
    rights: u32,
) -> Option<Call> {
    Some(match number {
        1 => Call::CreateThread { thread: subject, priority: argument },
        2 => Call::DestroyThread { thread: subject },
        3 => Call::SetPriority { thread: subject, priority: argument },
        4 => Call::CreateEndpoint { endpoint: subject },
        5 => Call::Interrupt { line: subject },
        6 => Call::Tick,
        7 => Call::Send { endpoint: subject, badge, message },
        8 => Call::Receive { endpoint: subject },
        9 => Call::Yield,
        10 => Call::Wait { line: subject },
        11 => Call::Delete { endpoint: subject, allowance: argument },
        12 => Call::Abort { endpoint: subject, allowance: argument, badge },
        13 => Call::Grant { thread: subject, endpoint: argument, rights, badge },
        _ => return None,
    })
}

/// The number below the top bits of a word after; 0 if the call has none.
fn part(words: &[u32], at: usize, kind: u32) -> Option<u32> {
    match words.get(at) {
        None => Some(0),
        Some(word) => (word >> 28 == kind).then_some(word & LOW),
    }
}

/// A written call: code 0 or 19, the words, and how many count.
#[derive(Clone, Copy, Debug, PartialEq, Eq)]
pub struct Written {
    pub code: u32,
    pub words: [u32; 3],
    pub len: usize,
}

/// Writes a call; spare words are 0.
pub fn write(call: &Call) -> Written {
    if !call.in_range() {
        return Written { code: 19, words: [0; 3], len: 0 };
    }
    let (subject, argument, badge, message) = match *call {
        Call::CreateThread { thread, priority } => (thread, priority, 0, 0),
        Call::DestroyThread { thread } => (thread, 0, 0, 0),
        Call::SetPriority { thread, priority } => (thread, priority, 0, 0),
        Call::CreateEndpoint { endpoint } => (endpoint, 0, 0, 0),
        Call::Interrupt { line } => (line, 0, 0, 0),
        Call::Tick | Call::Yield => (0, 0, 0, 0),
        Call::Send { endpoint, badge, message } => (endpoint, 0, badge, message),
        Call::Receive { endpoint } => (endpoint, 0, 0, 0),
        Call::Wait { line } => (line, 0, 0, 0),
        Call::Delete { endpoint, allowance } => (endpoint, allowance, 0, 0),
        Call::Abort { endpoint, allowance, badge } => (endpoint, allowance, badge, 0),
        Call::Grant { thread, endpoint, rights, badge } => {
            (thread, rights << 8 | endpoint, badge, 0)
        }
    };
    let top = 0x10 + call.number();
    let len = WORDS[top as usize] as usize;
    let mut words = [top << 24 | subject << 16 | argument, 0, 0];
    if len > 1 {
        words[1] = 0x2000_0000 | badge;
    }
    if len > 2 {
        words[2] = 0x3000_0000 | message;
    }
    Written { code: 0, words, len }
}
