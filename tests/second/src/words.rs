//! The 4,096 words of the tables, after docs/LAYOUT.md: the memory of a
//! machine, and the machine that a memory shows. Grants stand beside them.

use crate::machine::Machine;
use crate::queue::Queue;
use crate::set::Set;
use crate::tables::{Abort, Bond, Line, Phase, Place, Thread};

/// How many words the tables are.
pub const TABLE: usize = 4096;

const QUEUES: usize = 2560;
const ENDPOINTS: usize = 3200;
const LINES: usize = 3520;
const SUMMARY: usize = 3552;
const TOP: usize = 3560;
const RUNNING: usize = 3561;

/// Whether the words are the memory of a sound machine: they show one, and
/// it has no other memory.
pub fn sound_words(words: &[u32]) -> bool {
    let Some(machine) = shown(words) else {
        return false;
    };
    machine.sound().is_ok() && memory(&machine) == words
}

/// Parts of a memory by address.
fn level_at(p: usize) -> usize {
    QUEUES + 2 * p
}

fn waiters_at(e: usize) -> usize {
    QUEUES + 2 * (256 + e)
}

fn endpoint_at(e: usize) -> usize {
    ENDPOINTS + 5 * e
}

/// The word that is 1 where an abort stands at an endpoint.
pub fn aborting_at(e: u8) -> usize {
    endpoint_at(e as usize) + 1
}

/// The word that ties a thread to an abort: 1 + e in the set of endpoint e,
/// 65 + e a note of it.
pub fn owes_at(t: u8) -> usize {
    10 * t as usize + 8
}

/// None is 0 and thread t is t + 1.
fn link(thread: Option<u8>) -> u32 {
    thread.map_or(0, |t| t as u32 + 1)
}

/// What a link's word names, where it names anything or none.
fn named(word: u32) -> Option<Option<u8>> {
    match word {
        0 => Some(None),
        _ => Some(Some(u8::try_from(word - 1).ok()?)),
    }
}

/// The memory of a machine.
pub fn memory(machine: &Machine) -> Vec<u32> {
    let mut words = vec![0; TABLE];
    write_memory(machine, &mut words);
    words
}

/// Writes every word of a machine's memory but the unused ones, which stay.
pub fn write_memory(machine: &Machine, words: &mut [u32]) {
    for t in 0..=255 {
        words[10 * t as usize..][..10].copy_from_slice(&thread_words(machine, t));
    }
    for (p, queue) in machine.levels.iter().enumerate() {
        words[level_at(p)..][..2].copy_from_slice(&queue_words(queue));
    }
    for (e, endpoint) in machine.endpoints.iter().enumerate() {
        words[waiters_at(e)..][..2].copy_from_slice(&queue_words(&endpoint.queue));
        let block = endpoint_words(endpoint.phase, &endpoint.abort);
        words[endpoint_at(e)..][..5].copy_from_slice(&block);
        for t in endpoint.abort.iter().flat_map(|abort| abort.members.threads()) {
            words[owes_at(t)] = 1 + e as u32;
        }
    }
    for (l, line) in machine.lines.iter().enumerate() {
        words[LINES + l] = line.waiter.map_or(line.pending as u32, |t| 2 + t as u32);
    }
    words[SUMMARY..][..8].copy_from_slice(&machine.summary.words);
    words[TOP] = machine.summary.top;
    words[RUNNING] = link(machine.running);
}

const THREAD_WORDS: [&str; 10] =
    ["place", "priority", "ticks", "outcome", "badge", "message", "next", "prev", "owes", "note"];
const QUEUE_WORDS: [&str; 2] = ["head", "tail"];
const ENDPOINT_WORDS: [&str; 5] = ["status", "aborting", "aborted", "cursor", "end"];

/// What the word at an address is.
pub fn word_name(at: usize) -> String {
    let row = |kind: &str, from: usize, parts: &[&str]| {
        format!("{kind} {} {}", (at - from) / parts.len(), parts[(at - from) % parts.len()])
    };
    match at {
        _ if at < QUEUES => row("thread", 0, &THREAD_WORDS),
        _ if at < waiters_at(0) => row("level", QUEUES, &QUEUE_WORDS),
        _ if at < ENDPOINTS => row("endpoint", waiters_at(0), &QUEUE_WORDS),
        _ if at < LINES => row("endpoint", ENDPOINTS, &ENDPOINT_WORDS),
        _ if at < SUMMARY => format!("line {}", at - LINES),
        _ if at < TOP => format!("summary word {}", at - SUMMARY),
        TOP => String::from("summary top word"),
        RUNNING => String::from("running thread"),
        _ => format!("unused word {at}"),
    }
}

/// A thread's words, but for the set that it is in: that stands at the abort.
fn thread_words(machine: &Machine, t: u8) -> [u32; 10] {
    let block = machine.thread(t);
    let place = match block.place {
        Place::Absent => 0,
        Place::Running | Place::Ready => 1,
        Place::Sending(e) => 2 + e as u32,
        Place::Receiving(e) => 66 + e as u32,
        Place::OnLine(l) => 130 + l as u32,
    };
    let (owes, note) = match block.bond {
        Bond::None | Bond::Member { .. } => (0, 0),
        Bond::Note { endpoint, badge } => (65 + endpoint as u32, badge),
    };
    [
        place,
        block.priority as u32,
        block.ticks as u32,
        block.outcome as u32,
        block.badge,
        block.message,
        link(machine.next(t)),
        link(machine.prev(t)),
        owes,
        note,
    ]
}

fn queue_words(queue: &Queue) -> [u32; 2] {
    [link(queue.head), link(queue.tail)]
}

fn endpoint_words(phase: Phase, abort: &Option<Abort>) -> [u32; 5] {
    let status = match phase {
        Phase::Absent => 0,
        Phase::Open => 1,
        Phase::Closing => 2,
    };
    let Some(abort) = abort else {
        return [status, 0, 0, 0, 0];
    };
    let (cursor, end) = match abort.span {
        Some((cursor, end)) => (Some(cursor), Some(end)),
        None => (None, None),
    };
    [status, 1, abort.badge, link(cursor), link(end)]
}

/// The machine that the words show, if each word that is read has a meaning;
/// it has no grants.
/// Words that the others leave without one are not read.
pub fn shown(words: &[u32]) -> Option<Machine> {
    if words.len() != TABLE {
        return None;
    }
    let mut machine = Machine::fresh();
    machine.running = named(words[RUNNING])?;
    machine.summary.top = words[TOP];
    machine.summary.words.copy_from_slice(&words[SUMMARY..][..8]);
    for t in 0..=255u8 {
        let block = &words[10 * t as usize..][..10];
        machine.links.next[t as usize] = named(block[6])?;
        machine.links.prev[t as usize] = named(block[7])?;
        machine.threads[t as usize] = thread_shown(words, block, machine.running == Some(t))?;
    }
    for p in 0..256 {
        machine.levels[p] = queue_shown(&words[level_at(p)..])?;
    }
    for (e, endpoint) in machine.endpoints.iter_mut().enumerate() {
        let block = &words[endpoint_at(e)..][..5];
        endpoint.queue = queue_shown(&words[waiters_at(e)..])?;
        endpoint.phase = *[Phase::Absent, Phase::Open, Phase::Closing].get(block[0] as usize)?;
        let members = |t: &u8| words[owes_at(*t)] == 1 + e as u32;
        endpoint.abort = abort_shown(block, || (0..=255).filter(members).collect())?;
    }
    for (l, line) in machine.lines.iter_mut().enumerate() {
        *line = line_shown(words[LINES + l])?;
    }
    Some(machine)
}

fn thread_shown(words: &[u32], block: &[u32], runs: bool) -> Option<Thread> {
    let place = match block[0] {
        0 => Place::Absent,
        1 if runs => Place::Running,
        1 => Place::Ready,
        at @ 2..=65 => Place::Sending((at - 2) as u8),
        at @ 66..=129 => Place::Receiving((at - 66) as u8),
        at @ 130..=161 => Place::OnLine((at - 130) as u8),
        _ => return None,
    };
    let bond = match block[8] {
        0 => Bond::None,
        owes @ 1..=64 => {
            let endpoint = (owes - 1) as u8;
            Bond::Member { endpoint, badge: words[endpoint_at(endpoint as usize) + 2] }
        }
        owes @ 65..=128 => Bond::Note { endpoint: (owes - 65) as u8, badge: block[9] },
        _ => return None,
    };
    Some(Thread {
        place,
        priority: u8::try_from(block[1]).ok()?,
        ticks: u8::try_from(block[2]).ok()?,
        outcome: u8::try_from(block[3]).ok()?,
        badge: block[4],
        message: block[5],
        bond,
    })
}

fn queue_shown(words: &[u32]) -> Option<Queue> {
    Some(Queue { head: named(words[0])?, tail: named(words[1])? })
}

/// The abort, or none, where the endpoint's words show either.
fn abort_shown(block: &[u32], members: impl Fn() -> Set) -> Option<Option<Abort>> {
    match block[1] {
        0 => Some(None),
        1 => {
            let span = match (named(block[3])?, named(block[4])?) {
                (Some(cursor), Some(end)) => Some((cursor, end)),
                (None, None) => None,
                _ => return None,
            };
            Some(Some(Abort { badge: block[2], span, members: members() }))
        }
        _ => None,
    }
}

fn line_shown(word: u32) -> Option<Line> {
    match word {
        0 => Some(Line::QUIET),
        1 => Some(Line { pending: true, waiter: None }),
        _ => Some(Line { pending: false, waiter: Some(u8::try_from(word - 2).ok()?) }),
    }
}
