//! How often each call, code and situation came up in lists of calls.

use crate::call::{Answer, Call, Numbers};
use crate::machine::Machine;
use crate::set::Set;
use crate::situation::{Situation, SITUATIONS};
use crate::stories::{Stories, STORIES};
use crate::tables::{Bond, Phase};
use std::fmt;

/// One call, with the machine before and after it.
#[derive(Clone, Copy)]
pub struct Step<'a> {
    pub before: &'a Machine,
    pub call: &'a Call,
    pub answer: &'a Answer,
    pub after: &'a Machine,
}

/// The codes that each call can be answered with.
const CODES: [&[u32]; 13] = [
    &[0, 19, 22],
    &[0, 19, 21],
    &[0, 19, 21],
    &[0, 19, 24],
    &[0, 19],
    &[0],
    &[0, 1, 19, 20, 23, 25, 26, 29],
    &[0, 1, 19, 20, 23, 25, 29],
    &[0, 20],
    &[0, 1, 19, 20, 27],
    &[0, 2, 19, 20, 23, 29],
    &[0, 2, 19, 20, 23, 25, 29],
    &[0, 19, 21, 23],
];

/// The largest code and the largest call number, and one more.
const CODE_LIMIT: usize = 30;
const CALL_LIMIT: usize = 14;

type Edge = fn(&Numbers, &Step) -> bool;

/// Numbers at the edge of their range, tables that are full, grants that go by
/// creation, and notes.
const EDGES: [(&str, Edge); 30] = [
    ("thread 255 accepted", |n, s| n.thread == Some(255) && s.answer.accepted()),
    ("thread 256 refused", |n, s| n.thread == Some(256) && s.answer.code == 19),
    ("priority 255 accepted", |n, s| n.priority == Some(255) && s.answer.accepted()),
    ("priority 256 refused", |n, s| n.priority == Some(256) && s.answer.code == 19),
    ("endpoint 63 accepted", |n, s| n.endpoint == Some(63) && s.answer.accepted()),
    ("endpoint 64 refused", |n, s| n.endpoint == Some(64) && s.answer.code == 19),
    ("line 31 accepted", |n, s| n.line == Some(31) && s.answer.accepted()),
    ("line 32 refused", |n, s| n.line == Some(32) && s.answer.code == 19),
    ("allowance 0 refused", |n, s| n.allowance == Some(0) && s.answer.code == 19),
    ("allowance 1 accepted", |n, s| n.allowance == Some(1) && s.answer.accepted()),
    ("allowance 65,535 accepted", |n, s| n.allowance == Some(65_535) && s.answer.accepted()),
    ("allowance 65,536 refused", |n, s| n.allowance == Some(65_536) && s.answer.code == 19),
    ("badge 0 accepted", |n, s| n.badge == Some(0) && s.answer.accepted()),
    ("badge 2^28 - 1 accepted", |n, s| n.badge == Some((1 << 28) - 1) && s.answer.accepted()),
    ("badge 2^28 refused", |n, s| n.badge == Some(1 << 28) && s.answer.code == 19),
    ("message 2^28 - 1 accepted", |n, s| n.message == Some((1 << 28) - 1) && s.answer.accepted()),
    ("message 2^28 refused", |n, s| n.message == Some(1 << 28) && s.answer.code == 19),
    ("rights 15 accepted", |n, s| n.rights == Some(15) && s.answer.accepted()),
    ("rights 16 refused", |n, s| n.rights == Some(16) && s.answer.code == 19),
    ("thread created that had grants", |_, s| done(s, 1) && fewer_grants(s)),
    ("endpoint created that had grants", |_, s| done(s, 4) && fewer_grants(s)),
    ("all 256 threads present", |_, s| done(s, 1) && all_threads(s.after)),
    ("all 64 endpoints present", |_, s| done(s, 4) && all_endpoints(s.after)),
    ("all 32 lines awaited", |_, s| s.call.number() == 10 && all_lines(s.after)),
    ("100 or more removed by one delete", |_, s| s.call.number() == 11 && s.answer.count >= 100),
    ("100 or more looked at by one abort", |_, s| s.call.number() == 12 && s.answer.count >= 100),
    ("thread 0 noted", |_, s| noted(s).contains(0)),
    ("thread 255 noted", |_, s| noted(s).contains(255)),
    ("100 or more noted by one delete", |_, s| s.call.number() == 11 && noted(s).count() >= 100),
    ("100 or more noted by one abort", |_, s| s.call.number() == 12 && noted(s).count() >= 100),
];

fn done(step: &Step, number: u32) -> bool {
    step.call.number() == number && step.answer.code == 0
}

/// Who is noted by the call.
fn noted(step: &Step) -> Set {
    let Step { before, call, after, .. } = *step;
    let endpoint = call.named().endpoint.filter(|_| (11..=12).contains(&call.number()));
    let abort = endpoint.filter(|&e| e < 64).and_then(|e| before.endpoint(e as u8).abort);
    let members = abort.into_iter().flat_map(|abort| abort.members.threads());
    members.filter(|&t| matches!(after.thread(t).bond, Bond::Note { .. })).collect()
}

fn fewer_grants(step: &Step) -> bool {
    step.before.grants() != step.after.grants()
}

fn all_threads(m: &Machine) -> bool {
    (0..=255).all(|t| m.thread(t).present())
}

fn all_endpoints(m: &Machine) -> bool {
    (0..64).all(|e| m.endpoint(e).phase != Phase::Absent)
}

fn all_lines(m: &Machine) -> bool {
    (0..32).all(|l| m.line(l).waiter.is_some())
}

/// `Tally::add` has a bit for each situation.
const _: () = assert!(SITUATIONS.len() <= 128);

/// The counts.
pub struct Tally {
    lists: u64,
    calls: u64,
    codes: [[u64; CODE_LIMIT]; CALL_LIMIT],
    seen: [u64; SITUATIONS.len()],
    edges: [u64; EDGES.len()],
    stories: Stories,
}

impl Default for Tally {
    fn default() -> Tally {
        Tally {
            lists: 0,
            calls: 0,
            codes: [[0; CODE_LIMIT]; CALL_LIMIT],
            seen: [0; SITUATIONS.len()],
            edges: [0; EDGES.len()],
            stories: Stories::default(),
        }
    }
}

impl Tally {
    /// A new list begins, from fresh tables.
    pub fn new_list(&mut self) {
        self.lists += 1;
        self.stories.new_list();
    }

    pub fn add(&mut self, step: &Step) {
        self.calls += 1;
        self.codes[step.call.number() as usize][step.answer.code as usize] += 1;
        let mut once = 0u128;
        for &situation in &step.after.log().seen {
            let bit = 1 << situation as u32;
            self.seen[situation as usize] += (once & bit == 0) as u64;
            once |= bit;
        }
        let numbers = step.call.named();
        for (count, (_, holds)) in self.edges.iter_mut().zip(EDGES) {
            *count += holds(&numbers, step) as u64;
        }
        self.stories.follow(step);
    }

    pub fn lists(&self) -> u64 {
        self.lists
    }

    pub fn calls(&self) -> u64 {
        self.calls
    }

    /// What has not come up, of all that can.
    pub fn missing(&self) -> Vec<String> {
        let mut missing = Vec::new();
        for (number, codes) in (1..).zip(CODES) {
            let never = codes.iter().filter(|&&code| self.codes[number][code as usize] == 0);
            missing.extend(never.map(|code| format!("call {number} answered {code}")));
        }
        let never = self.situations().filter(|(count, _)| *count == 0);
        missing.extend(never.map(|(_, text)| String::from(text)));
        missing
    }

    /// Each situation that can come up, with how often it has.
    fn situations(&self) -> impl Iterator<Item = (u64, &'static str)> + '_ {
        let can = SITUATIONS.iter().filter(|(situation, _)| *situation != Situation::EndTaken);
        let seen = can.map(|&(situation, text)| (self.seen[situation as usize], text));
        let stories = self.stories.counts.iter().copied().zip(STORIES);
        let edges = self.edges.iter().copied().zip(EDGES.map(|(text, _)| text));
        seen.chain(stories).chain(edges)
    }
}

/// A table of the calls by code, then a line for each situation.
impl fmt::Display for Tally {
    fn fmt(&self, f: &mut fmt::Formatter) -> fmt::Result {
        let codes: Vec<usize> = [0, 1, 2].into_iter().chain(19..28).chain([29]).collect();
        write!(f, "{:>5}", "call")?;
        for code in &codes {
            write!(f, "{code:>9}")?;
        }
        writeln!(f)?;
        for (number, row) in self.codes.iter().enumerate().skip(1) {
            write!(f, "{number:>5}")?;
            for &code in &codes {
                write!(f, "{:>9}", row[code])?;
            }
            writeln!(f)?;
        }
        for (count, text) in self.situations() {
            writeln!(f, "{count:>9}  {text}")?;
        }
        Ok(())
    }
}
