//! The tables and grants that calls are measured on, built by calls.

use second::{aborting_at, memory, owes_at, shown, write, Call, Machine};
use std::ops::RangeInclusive;

/// Tables and a call on them.
pub struct Scene {
    pub machine: Machine,
    pub words: Vec<u32>,
    pub call: Call,
    /// The call's words; zeros, which begin no call, where it is out of range.
    pub journal: [u32; 3],
}

/// How many threads there are; a quarter as many endpoints, an eighth lines.
pub const FILLS: [(&str, u32); 3] = [("empty", 0), ("half-full", 128), ("full", 256)];

/// What the calls' own threads and endpoint are called in the scenes.
const ACTOR: u32 = 0;
const ENDPOINT: u32 = 0;
const LINE: u32 = 0;
const BADGE: u32 = 7;
const OTHER: u32 = 9;

/// A level above all others, at which a thread runs as soon as it is created.
const TOP: u32 = 255;

struct Stage(Machine);

impl Stage {
    fn make(&mut self, call: Call) {
        let answer = self.0.call(&call);
        assert!(answer.accepted(), "{call:?} is answered {answer:?}");
    }

    fn thread(&mut self, thread: u32, priority: u32) {
        self.make(Call::CreateThread { thread, priority });
    }

    fn endpoint(&mut self, endpoint: u32) {
        self.make(Call::CreateEndpoint { endpoint });
    }

    /// All rights at an endpoint.
    fn grant(&mut self, thread: u32, endpoint: u32, badge: u32) {
        self.make(Call::Grant { thread, endpoint, rights: 15, badge });
    }

    /// A thread that makes a call at once, and is of a lower level then.
    fn caller(&mut self, thread: u32, priority: u32, call: Call) {
        self.thread(thread, TOP);
        let own = call.named();
        if let Some(endpoint) = own.endpoint {
            self.grant(thread, endpoint, own.badge.unwrap_or(0));
        }
        self.make(call);
        self.make(Call::SetPriority { thread, priority });
    }

    fn sender(&mut self, thread: u32, endpoint: u32, badge: u32) {
        self.caller(thread, 150, Call::Send { endpoint, badge, message: thread });
    }

    fn receiver(&mut self, thread: u32, endpoint: u32) {
        self.caller(thread, 150, Call::Receive { endpoint });
    }

    fn waiter(&mut self, thread: u32, line: u32, priority: u32) {
        self.caller(thread, priority, Call::Wait { line });
    }

    /// Ready threads, where there are none yet.
    fn bystanders(&mut self, threads: RangeInclusive<u32>) {
        for t in threads {
            if !self.0.thread(t as u8).present() {
                self.thread(t, 10);
            }
        }
    }

    fn scene(self, call: Call) -> Scene {
        let journal = write(&call).words;
        Scene { words: memory(&self.0), machine: self.0, call, journal }
    }
}

/// All but the calls' own threads 0 to 3, endpoint 0 and line 0: waiters on
/// the lines, senders and receivers at the endpoints, some under an abort, and
/// ready threads.
fn crowd(threads: u32) -> Stage {
    let mut stage = Stage(Machine::fresh());
    let (endpoints, lines) = (threads / 4, threads / 8);
    for e in 1..endpoints {
        stage.endpoint(e);
    }
    for t in 4..threads {
        let e = 1 + t % (endpoints - 1);
        match t {
            _ if t - 3 < lines => stage.waiter(t, t - 3, 150),
            _ if t % 2 == 0 && e % 4 != 0 => stage.sender(t, e, t % 3),
            _ if t % 2 == 0 => stage.receiver(t, e),
            _ if t % 8 == 1 && e % 4 != 0 => {
                let abort = Call::Abort { endpoint: e, allowance: 1, badge: 5 };
                stage.caller(t, t % 100, abort);
            }
            _ => stage.caller(t, t % 100, Call::Yield),
        }
    }
    stage
}

/// What is called: the thirteen calls, and one that is refused. A create clears
/// 64 grants in a run, or 256 that stand 256 bytes apart.
pub const CALLS: [&str; 14] = [
    "create thread, its row cleared",
    "destroy thread",
    "set priority",
    "create endpoint, its column cleared",
    "interrupt",
    "tick",
    "send",
    "receive",
    "yield",
    "wait",
    "delete",
    "abort",
    "grant",
    "wait, refused by 19",
];

/// The call that is measured, by its number in `CALLS` from 1.
fn call(number: u32) -> Call {
    let (endpoint, line, badge) = (ENDPOINT, LINE, BADGE);
    match number {
        1 => Call::CreateThread { thread: 3, priority: 50 },
        2 => Call::DestroyThread { thread: 2 },
        3 => Call::SetPriority { thread: 1, priority: 160 },
        4 => Call::CreateEndpoint { endpoint },
        5 => Call::Interrupt { line },
        6 => Call::Tick,
        7 => Call::Send { endpoint, badge, message: 1 },
        8 => Call::Receive { endpoint },
        9 => Call::Yield,
        10 => Call::Wait { line },
        11 => Call::Delete { endpoint, allowance: 1 },
        12 => Call::Abort { endpoint, allowance: 1, badge },
        13 => Call::Grant { thread: 1, endpoint, rights: 15, badge },
        _ => Call::Wait { line: 32 },
    }
}

/// The tables with so many threads on which a call is measured.
pub fn scene(number: u32, threads: u32) -> Scene {
    let mut s = crowd(threads);
    let (endpoint, line, badge) = (ENDPOINT, LINE, BADGE);
    if number != 4 {
        s.endpoint(endpoint);
    }
    match number {
        2 | 8 | 11 | 12 => (1..=3).for_each(|t| s.sender(t, endpoint, badge)),
        5 => s.waiter(1, line, 220),
        _ => s.thread(1, 150),
    }
    if threads > 0 {
        s.bystanders(if number == 1 { 2..=2 } else { 2..=3 });
    }
    s.thread(ACTOR, 200);
    if number != 4 {
        s.grant(ACTOR, endpoint, badge);
    }
    match number {
        2 => s.make(Call::Abort { endpoint, allowance: 1, badge: OTHER }),
        6 => {
            s.make(Call::SetPriority { thread: 1, priority: 200 });
            (1..5).for_each(|_| s.make(Call::Tick));
        }
        9 => s.make(Call::SetPriority { thread: 1, priority: 200 }),
        _ => (),
    }
    s.scene(call(number))
}

/// What one call does at a queue of senders.
pub const AT_QUEUE: [&str; 8] = [
    "abort: one look, kept",
    "abort: one look, removed",
    "delete: one removal",
    "receive",
    "destroy the middle one",
    "abort: each further look, kept",
    "abort: each further look, removed",
    "delete: each further removal",
];

/// From this one on, all senders are gone through in one call.
pub const ALL: usize = 5;

/// How many senders there are.
pub const SENDERS: [u32; 9] = [1, 2, 4, 8, 16, 32, 64, 128, 255];

/// A call at an endpoint with so many senders.
pub fn queue(senders: u32, what: usize) -> Scene {
    let mut s = Stage(Machine::fresh());
    let (endpoint, badge) = (ENDPOINT, BADGE);
    s.endpoint(endpoint);
    (1..=senders).for_each(|t| s.sender(t, endpoint, badge));
    s.thread(ACTOR, 200);
    s.grant(ACTOR, endpoint, badge);
    let allowance = if what < ALL { 1 } else { 65_535 };
    s.scene(match what {
        0 | 5 => Call::Abort { endpoint, allowance, badge: OTHER },
        1 | 6 => Call::Abort { endpoint, allowance, badge },
        2 | 7 => Call::Delete { endpoint, allowance },
        3 => Call::Receive { endpoint },
        _ => Call::DestroyThread { thread: senders.div_ceil(2) },
    })
}

/// The calls that end an abort: its last look, the same for another badge, whose
/// own abort is not yet begun, and a delete.
pub const ENDINGS: [&str; 3] =
    ["abort: last look", "abort of another badge: last look", "delete: one removal"];

/// How many members the abort has beside the caller; before them, no abort
/// stands.
pub const MEMBERS: [Option<u32>; 7] =
    [None, Some(0), Some(1), Some(2), Some(16), Some(128), Some(254)];

/// A call that ends an abort, with one sender left. Each member has removed one,
/// and then made room for it.
pub fn ending(members: Option<u32>, what: usize) -> Scene {
    let mut s = Stage(Machine::fresh());
    let (endpoint, badge) = (ENDPOINT, BADGE);
    let workers = members.map_or(0, |members| members.max(1));
    s.endpoint(endpoint);
    (1..=workers + 1).for_each(|t| s.sender(t, endpoint, badge));
    s.thread(ACTOR, 200);
    s.grant(ACTOR, endpoint, badge);
    for thread in ACTOR..workers {
        s.make(Call::Abort { endpoint, allowance: 1, badge });
        if members == Some(0) {
            s.make(Call::Yield);
        }
        s.make(Call::SetPriority { thread, priority: 10 });
    }
    s.scene(match what {
        0 => Call::Abort { endpoint, allowance: 1, badge },
        1 => Call::Abort { endpoint, allowance: 1, badge: OTHER },
        _ => Call::Delete { endpoint, allowance: 1 },
    })
}

/// What the check goes through.
pub const CHECKED: [&str; 6] = [
    "no thread",
    "one thread, running at level 255",
    "one thread, running at level 0",
    "255 more, ready at level 0",
    "255 more, sending at one endpoint",
    "the same, under an abort that has looked at one",
];

/// Tables that the check is measured on, under a tick.
pub fn checked(what: usize) -> Scene {
    let mut s = Stage(Machine::fresh());
    let (endpoint, badge) = (ENDPOINT, BADGE);
    s.endpoint(endpoint);
    match what {
        0 | 1 | 2 => (),
        3 => (1..=255).for_each(|t| s.thread(t, 0)),
        _ => (1..=255).for_each(|t| s.sender(t, endpoint, badge)),
    }
    if what > 0 {
        s.thread(ACTOR, TOP);
        s.grant(ACTOR, endpoint, badge);
    }
    if what == 5 {
        s.make(Call::Abort { endpoint, allowance: 1, badge: OTHER });
    }
    if what > 1 && what != 3 {
        s.make(Call::SetPriority { thread: ACTOR, priority: 0 });
    }
    s.scene(Call::Tick)
}

/// The calls with the most work: all of a queue of 255 removed, all looked at
/// for another badge and then for its own, and one look more of that, with 255
/// members to note, on memory that no calls lead to.
pub const DEAREST: [&str; 4] = [
    "delete, 255 removals",
    "abort, 255 looks",
    "abort after another badge's, 509 looks",
    "the same with 510 looks and 255 notes, on memory that no calls lead to",
];

/// A call with the most work, by a thread below all other levels.
pub fn dearest(what: usize) -> Scene {
    let (endpoint, badge, allowance) = (ENDPOINT, BADGE, 65_535);
    let under_abort = what > 1;
    let Scene { machine, words, .. } = checked(if under_abort { 5 } else { 4 });
    let call = match what {
        0 => Call::Delete { endpoint, allowance },
        _ => Call::Abort { endpoint, allowance, badge },
    };
    let scene = Stage(machine).scene(call);
    if what == 3 {
        unreached(scene, words)
    } else {
        scene
    }
}

/// The abort at the scene's endpoint is made to begin anew, with all that send
/// there in its set.
fn unreached(scene: Scene, mut words: Vec<u32>) -> Scene {
    let (cursor, first) = (aborting_at(ENDPOINT as u8) + 2, 1);
    words[cursor] = first + 1;
    (1..=255).for_each(|t| words[owes_at(t)] = 1 + ENDPOINT);
    let machine = shown(&words).expect("words with a meaning").with_grants(scene.machine.grants());
    Scene { machine, words, ..scene }
}

/// All that is measured: the calls for each fill, then what is done at
/// queues of each length, then how aborts end, what the check goes through and
/// the calls with the most work.
pub fn scenes() -> Vec<Scene> {
    let numbers = 1..=CALLS.len() as u32;
    let filled = |&(_, threads)| numbers.clone().map(move |n| scene(n, threads));
    let calls = FILLS.iter().flat_map(filled);
    let queues = SENDERS.iter().flat_map(|&n| (0..AT_QUEUE.len()).map(move |what| queue(n, what)));
    let endings = MEMBERS.iter().flat_map(|&n| (0..ENDINGS.len()).map(move |what| ending(n, what)));
    let checks = (0..CHECKED.len()).map(checked);
    let most = (0..DEAREST.len()).map(dearest);
    calls.chain(queues).chain(endings).chain(checks).chain(most).collect()
}
