//! Random calls, steered by the machine's state towards deep states.

use crate::call::Call;
use crate::grants::right_for;
use crate::machine::Machine;
use crate::set::Set;
use crate::tables::{Abort, Bond, Phase, Place};

const LOW: u32 = (1 << 28) - 1;
const ALL_RIGHTS: u32 = 15;

/// A small generator (splitmix), the same from the same seed.
#[derive(Clone)]
pub struct Rng(u64);

impl Rng {
    pub fn new(seed: u64) -> Rng {
        Rng(seed)
    }

    pub fn draw(&mut self) -> u64 {
        self.0 = self.0.wrapping_add(0x9E37_79B9_7F4A_7C15);
        let mut z = self.0;
        z = (z ^ (z >> 30)).wrapping_mul(0xBF58_476D_1CE4_E5B9);
        z = (z ^ (z >> 27)).wrapping_mul(0x94D0_49BB_1331_11EB);
        z ^ (z >> 31)
    }

    /// 0 to n - 1.
    pub fn below(&mut self, n: usize) -> usize {
        (self.draw() % n as u64) as usize
    }

    pub fn one_in(&mut self, n: usize) -> bool {
        self.below(n) == 0
    }

    pub fn pick<T: Copy>(&mut self, from: &[T]) -> T {
        from[self.below(from.len())]
    }

    /// An index, by weight.
    pub fn weighted(&mut self, weights: &[usize]) -> usize {
        let mut at = self.below(weights.iter().sum());
        for (i, &w) in weights.iter().enumerate() {
            if at < w {
                return i;
            }
            at -= w;
        }
        unreachable!("below the sum")
    }
}

/// What a list of calls goes for.
#[derive(Clone, Copy, Debug, PartialEq, Eq)]
pub enum Profile {
    /// Few threads, few badges: marks and members meet often.
    Few,
    /// Few, and every third call near the edges of the ranges.
    Edges,
    /// Many threads.
    Many,
    /// All threads, endpoints and lines, and a long queue, before all else.
    Full,
    /// All threads, most of them members of one abort, before all else.
    Crowd,
}

/// The numbers that one list of calls draws on.
pub struct Steer {
    rng: Rng,
    threads: Vec<u8>,
    levels: Vec<u8>,
    endpoints: Vec<u8>,
    lines: Vec<u8>,
    badges: Vec<u32>,
    message: u32,
    ticks: u32,
    /// One call in so many is near an edge.
    edges: usize,
    /// How many are still to wait before all else; none if all else goes on.
    fill: Option<usize>,
    /// How many are to work on one abort before all else; the same.
    crowd: Option<u32>,
    /// The call that a grant was given for.
    wanted: Option<Call>,
}

impl Steer {
    pub fn new(seed: u64) -> Steer {
        let mut steer = Steer {
            rng: Rng::new(seed),
            threads: Vec::new(),
            levels: Vec::new(),
            endpoints: Vec::new(),
            lines: Vec::new(),
            badges: Vec::new(),
            message: 0,
            ticks: 0,
            edges: 0,
            fill: None,
            crowd: None,
            wanted: None,
        };
        steer.new_list();
        steer
    }

    /// Draws anew the few numbers to use; now and then many.
    pub fn new_list(&mut self) {
        let wide = self.rng.one_in(24);
        self.new_list_of(if wide { Profile::Many } else { Profile::Few });
    }

    /// Draws anew the numbers to use.
    pub fn new_list_of(&mut self, profile: Profile) {
        let rng = &mut self.rng;
        let (t, l, e, b, lines) = match profile {
            Profile::Few | Profile::Edges => {
                (3 + rng.below(8), 1 + rng.below(3), 1 + rng.below(2), 2 + rng.below(2), 2)
            }
            Profile::Many => (40 + rng.below(217), 12, 8, 6, 2),
            Profile::Full => (256, 12, 1 + rng.below(4), 3, 32),
            Profile::Crowd => (256, 12, 1 + rng.below(2), 2, 2),
        };
        self.threads = self.some(t, 255);
        self.levels = self.some(l, 255);
        self.endpoints = self.some(e, 63);
        self.lines = self.some(lines, 31);
        self.ticks = 0;
        self.wanted = None;
        self.edges = if profile == Profile::Edges { 3 } else { 14 };
        self.fill = (profile == Profile::Full).then(|| 40 + self.rng.below(210));
        self.crowd = (profile == Profile::Crowd).then(|| 100 + self.rng.below(155) as u32);
        let badges = [0, 1, 7, 8, LOW - 1, LOW];
        let from = self.rng.below(badges.len());
        self.badges = (0..b).map(|i| badges[(from + i) % badges.len()]).collect();
    }

    /// Some different numbers up to a top, which is often among them.
    fn some(&mut self, count: usize, top: u8) -> Vec<u8> {
        let mut out: Vec<u8> = Vec::new();
        while out.len() < count {
            let n = match self.rng.below(4) {
                0 => top,
                1 => 0,
                2 => (out.len() % (top as usize + 1)) as u8,
                _ => self.rng.below(top as usize + 1) as u8,
            };
            if !out.contains(&n) {
                out.push(n);
            }
        }
        out
    }

    /// The next call of the list. One that its caller lacks a right for is most
    /// times granted first.
    pub fn next(&mut self, m: &Machine) -> Call {
        if let Some(call) = self.wanted.take() {
            return call;
        }
        let call = self.steered(m);
        self.permitted(m, call)
    }

    /// What comes before all else, as long as there is any.
    fn prepared(&mut self, m: &Machine) -> Option<Call> {
        let mut call = self.fill.and_then(|waiting| self.fill(m, waiting));
        if call.is_none() {
            self.fill = None;
            call = self.crowd.and_then(|members| self.crowd(m, members));
        }
        if call.is_none() {
            self.crowd = None;
        }
        call
    }

    fn steered(&mut self, m: &Machine) -> Call {
        if let Some(call) = self.prepared(m) {
            return call;
        }
        if self.ticks > 0 {
            self.ticks -= 1;
            return Call::Tick;
        }
        if self.rng.one_in(self.edges) {
            return self.edge();
        }
        if self.rng.one_in(16) {
            return self.regrant(m);
        }
        if m.running().is_none() && !self.rng.one_in(16) {
            return self.idle(m);
        }
        let follow = match self.noted(m).count() {
            0 => self.rng.one_in(6),
            1 => self.rng.one_in(2),
            _ => !self.rng.one_in(4),
        };
        if let Some(call) = follow.then(|| self.bonded(m)).flatten() {
            return call;
        }
        let e = self.focus(m);
        let block = m.endpoint(e);
        match (block.phase, block.abort) {
            (Phase::Absent, _) => self.at_absent(m, e),
            (Phase::Closing, _) => self.at_closing(m, e),
            (Phase::Open, Some(abort)) => self.at_abort(m, e, &abort),
            (Phase::Open, None) => self.at_open(m, e),
        }
    }
}

/// What to do in each state.
impl Steer {
    /// An endpoint, more likely one with much going on.
    fn focus(&mut self, m: &Machine) -> u8 {
        let weights: Vec<usize> = self
            .endpoints
            .iter()
            .map(|&e| {
                let block = m.endpoint(e);
                let busy = block.abort.is_some() || block.phase == Phase::Closing;
                1 + 4 * busy as usize + 2 * !block.queue.is_empty() as usize
            })
            .collect();
        self.endpoints[self.rng.weighted(&weights)]
    }

    /// Nobody runs: the host has to bring someone.
    fn idle(&mut self, m: &Machine) -> Call {
        match self.rng.weighted(&[6, 3, 3, 1, 1]) {
            0 => self.create_absent(m),
            1 => {
                let l = self.rng.pick(&self.lines);
                Call::Interrupt { line: l as u32 }
            }
            2 => self.destroy(m),
            3 => Call::Tick,
            _ => self.priority(),
        }
    }

    /// All threads, all endpoints, a waiter on each line, then a queue.
    fn fill(&mut self, m: &Machine, waiting: usize) -> Option<Call> {
        if let Some(t) = (0..=255).find(|&t| !m.thread(t).present()) {
            let priority = self.rng.pick(&self.levels) as u32;
            return Some(Call::CreateThread { thread: t as u32, priority });
        }
        if let Some(e) = (0..64).find(|&e| m.endpoint(e).phase == Phase::Absent) {
            return Some(Call::CreateEndpoint { endpoint: e as u32 });
        }
        if waiting == 0 {
            return None;
        }
        m.running()?;
        self.fill = Some(waiting - 1);
        if let Some(l) = (0..32).find(|&l| m.line(l).waiter.is_none()) {
            return Some(Call::Wait { line: l as u32 });
        }
        let endpoint = self.endpoints[0] as u32;
        Some(self.send(endpoint, None))
    }

    /// All threads but one queue under one badge. Whoever runs then works on its
    /// abort, removes one, and makes room for the one removed.
    fn crowd(&mut self, m: &Machine, members: u32) -> Option<Call> {
        let (e, badge) = (self.endpoints[0], self.badges[0]);
        let endpoint = e as u32;
        if m.endpoint(e).phase == Phase::Absent {
            return Some(Call::CreateEndpoint { endpoint });
        }
        if let Some(t) = (0..=255).find(|&t| !m.thread(t).present()) {
            return Some(Call::CreateThread { thread: t as u32, priority: 1 });
        }
        let t = m.running()?;
        let works = m.endpoint(e).abort.map(|abort| abort.members);
        let all = works.is_some_and(|set| set.count() >= members) || m.left(e) == 1;
        Some(match works {
            None if m.summary().top != 0 => self.send(endpoint, Some(badge)),
            Some(set) if set.contains(t) && !(all && self.rng.one_in(2)) => {
                Call::SetPriority { thread: t as u32, priority: 0 }
            }
            Some(_) if all => {
                self.crowd = None;
                self.ending(endpoint, badge)
            }
            _ => Call::Abort { endpoint, allowance: 1, badge },
        })
    }

    /// A call that ends the abort of a badge.
    fn ending(&mut self, endpoint: u32, badge: u32) -> Call {
        match self.rng.below(4) {
            0 => Call::Abort { endpoint, allowance: 65_535, badge },
            1 => {
                let badge = self.other_badge(badge);
                Call::Abort { endpoint, allowance: 65_535, badge }
            }
            2 => Call::Delete { endpoint, allowance: 65_535 },
            _ => Call::Delete { endpoint, allowance: 1 },
        }
    }

    fn at_absent(&mut self, m: &Machine, e: u8) -> Call {
        match self.rng.weighted(&[10, 3, 1]) {
            0 => Call::CreateEndpoint { endpoint: e as u32 },
            1 => self.create_absent(m),
            _ => self.at_endpoint(m, e),
        }
    }

    fn at_closing(&mut self, m: &Machine, e: u8) -> Call {
        let endpoint = e as u32;
        let waiters = m.waiters(e);
        match self.rng.weighted(&[5, 6, 1, 2, 3, 2]) {
            0 => Call::Delete { endpoint, allowance: self.small(waiters.len()) },
            1 if !waiters.is_empty() => {
                let thread = self.rng.pick(&waiters) as u32;
                Call::DestroyThread { thread }
            }
            2 => Call::CreateEndpoint { endpoint },
            3 => self.at_endpoint(m, e),
            4 => self.create_absent(m),
            _ => self.bustle(m),
        }
    }

    fn at_open(&mut self, m: &Machine, e: u8) -> Call {
        let endpoint = e as u32;
        let waiters = m.waiters(e).len();
        let senders = if m.first_sender(e).is_some() { waiters } else { 0 };
        let lone = m.summary().top == 0 && !self.rng.one_in(6);
        let begin = [1, 1, 2, 4, 8][senders.min(4)];
        let send = if lone { 0 } else { 10 };
        let receive = if lone { 0 } else { 1 + (waiters > 0) as usize };
        let delete = if waiters > 2 { 2 } else { 1 };
        let create = if lone { 12 } else { 4 };
        match self.rng.weighted(&[begin, send, receive, delete, create, 3]) {
            0 => {
                let allowance = self.small(waiters);
                Call::Abort { endpoint, allowance, badge: self.rng.pick(&self.badges) }
            }
            1 => self.send(endpoint, None),
            2 => Call::Receive { endpoint },
            3 => Call::Delete { endpoint, allowance: self.small(waiters) },
            4 => self.create_absent(m),
            _ => self.bustle(m),
        }
    }

    fn at_abort(&mut self, m: &Machine, e: u8, abort: &Abort) -> Call {
        let member = m.running().is_some_and(|t| abort.members.contains(t));
        let (members, left) = (abort.members.count() as usize, m.left(e));
        if member && m.summary().top != 0 && !self.rng.one_in(3) {
            return self.bring(m);
        }
        if !member && members > 0 && left > 1 && self.rng.one_in(2) {
            return Call::Abort { endpoint: e as u32, allowance: 1, badge: abort.badge };
        }
        match self.rng.weighted(&[8, 5, 11, 1 + 2 * members.min(3), 4, 5, 1]) {
            0 => self.go_on(m, e, abort),
            1 => self.remove_mark(m, abort),
            2 => self.queue_under(m, e, abort),
            3 => Call::Delete { endpoint: e as u32, allowance: self.small(m.waiters(e).len()) },
            4 => self.bring(m),
            5 => self.create_absent(m),
            _ => self.bustle(m),
        }
    }

    /// An abort call of the same or another badge.
    fn go_on(&mut self, m: &Machine, e: u8, abort: &Abort) -> Call {
        let endpoint = e as u32;
        let left = m.left(e);
        if self.rng.one_in(2) {
            return Call::Abort { endpoint, allowance: self.small(left), badge: abort.badge };
        }
        let allowance = self.near(left, m.waiters(e).len());
        Call::Abort { endpoint, allowance, badge: self.other_badge(abort.badge) }
    }

    /// Destroys the waiter at a mark, or a member.
    fn remove_mark(&mut self, m: &Machine, abort: &Abort) -> Call {
        let thread = match (self.rng.below(5), abort.span, self.one_of(abort.members)) {
            (0 | 1, Some((cursor, _)), _) => cursor,
            (2 | 3, Some((_, end)), _) => end,
            (4, _, Some(member)) => member,
            _ => return self.bring(m),
        };
        Call::DestroyThread { thread: thread as u32 }
    }

    /// A send or receive at an endpoint under abort.
    fn queue_under(&mut self, m: &Machine, e: u8, abort: &Abort) -> Call {
        let endpoint = e as u32;
        let receive = if m.endpoint(e).queue.is_empty() { 6 } else { 2 };
        let send = if m.first_receiver(e).is_some() { 1 } else { 7 };
        match self.rng.weighted(&[receive, send, 2]) {
            0 => Call::Receive { endpoint },
            1 => {
                let badge = self.other_badge(abort.badge);
                self.send(endpoint, Some(badge))
            }
            _ => self.send(endpoint, Some(abort.badge)),
        }
    }

    /// One of the set, if it is not empty.
    fn one_of(&mut self, set: Set) -> Option<u8> {
        let threads: Vec<u8> = set.threads().collect();
        (!threads.is_empty()).then(|| self.rng.pick(&threads))
    }

    /// The threads that have a note.
    fn noted(&self, m: &Machine) -> Set {
        let noted = |t: &u8| matches!(m.thread(*t).bond, Bond::Note { .. });
        self.threads.iter().copied().filter(noted).collect()
    }

    /// A thread has a note or works on an abort: let it run, answer or be lost.
    fn bonded(&mut self, m: &Machine) -> Option<Call> {
        let bound = |t: &u8| m.thread(*t).bond != Bond::None;
        let bound = self.threads.iter().copied().filter(bound).collect();
        let noted = if self.rng.one_in(4) { Set::EMPTY } else { self.noted(m) };
        let t = self.one_of(noted).or_else(|| self.one_of(bound))?;
        let (Bond::Member { endpoint, badge } | Bond::Note { endpoint, badge }) = m.thread(t).bond
        else {
            return None;
        };
        if m.running() != Some(t) {
            return Some(self.around(m, t, endpoint, badge));
        }
        let e = endpoint as u32;
        Some(match self.rng.weighted(&[6, 1, 2, 1]) {
            0 => Call::Abort { endpoint: e, allowance: self.small(2), badge },
            1 => Call::Abort { endpoint: e, allowance: 0, badge },
            2 => self.at_endpoint(m, endpoint),
            _ => self.bustle(m),
        })
    }

    /// Others' calls while a thread is a member or has a note.
    fn around(&mut self, m: &Machine, t: u8, e: u8, badge: u32) -> Call {
        let endpoint = e as u32;
        let lift = if matches!(m.thread(t).bond, Bond::Note { .. }) { 10 } else { 5 };
        match self.rng.weighted(&[lift, 4, 1, 2, 2, 1, 4]) {
            0 => self.lift(m, t),
            1 => Call::Abort { endpoint, allowance: 1, badge },
            2 => Call::DestroyThread { thread: t as u32 },
            3 => Call::Delete { endpoint, allowance: self.small(1) },
            4 => Call::CreateEndpoint { endpoint },
            5 => self.at_endpoint(m, e),
            _ => self.send(endpoint, Some(badge)),
        }
    }
}

/// Single calls.
impl Steer {
    /// One or two at most times, else up to a little more than there are.
    fn small(&mut self, there: usize) -> u32 {
        match self.rng.below(8) {
            0..=3 => 1,
            4 => 2,
            5 => there.max(1) as u32,
            6 => 1 + self.rng.below(there + 2) as u32,
            _ => self.rng.pick(&[1, 2, 65_535]),
        }
    }

    /// About as many as are left, or as are left and queued then.
    fn near(&mut self, left: usize, waiters: usize) -> u32 {
        let n = match self.rng.below(7) {
            0 => 1,
            6 => 1 + self.rng.below(left.max(1)),
            1 | 2 => left,
            3 => left + 1,
            4 => left + self.rng.below(waiters + 1),
            _ => left + waiters,
        };
        n.max(1) as u32
    }

    fn other_badge(&mut self, badge: u32) -> u32 {
        let others: Vec<u32> = self.badges.iter().copied().filter(|&b| b != badge).collect();
        if others.is_empty() {
            return badge;
        }
        self.rng.pick(&others)
    }

    fn send(&mut self, endpoint: u32, badge: Option<u32>) -> Call {
        let badge = badge.unwrap_or_else(|| self.rng.pick(&self.badges));
        self.message = (self.message + 1) & LOW;
        let message = match self.rng.below(30) {
            0 => 0,
            1 => LOW,
            _ => self.message,
        };
        Call::Send { endpoint, badge, message }
    }

    /// Any call at an endpoint.
    fn at_endpoint(&mut self, m: &Machine, e: u8) -> Call {
        let endpoint = e as u32;
        let waiters = m.waiters(e).len();
        match self.rng.below(4) {
            0 => self.send(endpoint, None),
            1 => Call::Receive { endpoint },
            2 => Call::Delete { endpoint, allowance: self.small(waiters) },
            _ => {
                let allowance = self.small(waiters);
                Call::Abort { endpoint, allowance, badge: self.rng.pick(&self.badges) }
            }
        }
    }

    fn create_absent(&mut self, m: &Machine) -> Call {
        let absent: Vec<u8> =
            self.threads.iter().copied().filter(|&t| !m.thread(t).present()).collect();
        if absent.is_empty() {
            return self.bustle(m);
        }
        let (thread, priority) = (self.rng.pick(&absent), self.rng.pick(&self.levels));
        Call::CreateThread { thread: thread as u32, priority: priority as u32 }
    }

    fn destroy(&mut self, m: &Machine) -> Call {
        let there: Vec<u8> =
            self.threads.iter().copied().filter(|&t| m.thread(t).present()).collect();
        let thread = if there.is_empty() { 0 } else { self.rng.pick(&there) };
        Call::DestroyThread { thread: thread as u32 }
    }

    fn priority(&mut self) -> Call {
        let (thread, priority) = (self.rng.pick(&self.threads), self.rng.pick(&self.levels));
        Call::SetPriority { thread: thread as u32, priority: priority as u32 }
    }

    /// Lets some ready thread run without a call of the running one.
    fn bring(&mut self, m: &Machine) -> Call {
        let ready: Vec<u8> =
            self.threads.iter().copied().filter(|&t| m.thread(t).place == Place::Ready).collect();
        if ready.is_empty() || self.rng.one_in(3) {
            return Call::Tick;
        }
        let t = self.rng.pick(&ready);
        self.lift(m, t)
    }

    /// Sets a thread above the running one, or lowers the running one.
    fn lift(&mut self, m: &Machine, t: u8) -> Call {
        let own = m.running().map_or(0, |r| m.thread(r).priority);
        match m.running() {
            Some(r) if own == 255 || own > 0 && self.rng.one_in(2) => {
                let priority = m.thread(t).priority.min(own) as u32;
                Call::SetPriority { thread: r as u32, priority: priority.saturating_sub(1) }
            }
            _ => Call::SetPriority { thread: t as u32, priority: own.saturating_add(1) as u32 },
        }
    }

    /// Ticks, yields, lines, priorities.
    fn bustle(&mut self, m: &Machine) -> Call {
        let line = self.rng.pick(&self.lines) as u32;
        match self.rng.weighted(&[4, 3, 2, 2, 3, 1]) {
            0 => {
                self.ticks = self.rng.pick(&[0, 0, 0, 1, 4]);
                Call::Tick
            }
            1 => Call::Yield,
            2 => Call::Interrupt { line },
            3 => Call::Wait { line },
            4 => self.priority(),
            _ => self.destroy(m),
        }
    }
}

/// Grants.
impl Steer {
    /// The call, or the grant that it needs, which it then follows.
    fn permitted(&mut self, m: &Machine, call: Call) -> Call {
        let right = right_for(&call);
        let (Some(t), Some(endpoint), true) = (m.running(), call.named().endpoint, call.in_range())
        else {
            return call;
        };
        let held = m.granted(t, endpoint as u8);
        let closing = m.endpoint(endpoint as u8).phase == Phase::Closing;
        let under_way = closing || m.thread(t).bond != Bond::None;
        if !held.lacks(&call) || self.rng.one_in(if under_way { 3 } else { 10 }) {
            return call;
        }
        self.wanted = Some(call);
        let rights = if self.rng.one_in(4) { held.rights | right } else { ALL_RIGHTS };
        let badge = match call {
            Call::Send { badge, .. } => badge,
            _ if held.rights != 0 => held.badge,
            _ => self.rng.pick(&self.badges),
        };
        Call::Grant { thread: t as u32, endpoint, rights, badge }
    }

    /// Takes rights away or gives others, more likely where that tells.
    fn regrant(&mut self, m: &Machine) -> Call {
        let e = self.focus(m);
        let waiters = m.waiters(e);
        let member = m.endpoint(e).abort.and_then(|a| self.one_of(a.members));
        let noted =
            |&&t: &&u8| matches!(m.thread(t).bond, Bond::Note { endpoint, .. } if endpoint == e);
        let noted = self.threads.iter().find(noted).copied();
        let waiter = (!waiters.is_empty()).then(|| self.rng.pick(&waiters));
        let told = [m.running(), member, noted, waiter][self.rng.below(4)];
        let thread = match told.or(noted) {
            Some(t) if !self.rng.one_in(4) => t,
            _ => self.rng.pick(&self.threads),
        };
        let rights = match self.rng.below(4) {
            0 => 0,
            1 => ALL_RIGHTS,
            2 => ALL_RIGHTS ^ 1 << self.rng.below(4),
            _ => self.rng.below(16) as u32,
        };
        let badge = self.rng.pick(&self.badges);
        Call::Grant { thread: thread as u32, endpoint: e as u32, rights, badge }
    }
}

/// Range edges.
impl Steer {
    fn edge_of(&mut self, own: &[u8], edges: &[u32]) -> u32 {
        match self.rng.below(3) {
            0 => self.rng.pick(edges),
            _ => self.rng.pick(own) as u32,
        }
    }

    fn edge_badge(&mut self) -> u32 {
        match self.rng.below(3) {
            0 => self.rng.pick(&[0, LOW, LOW + 1, u32::MAX]),
            _ => self.rng.pick(&self.badges),
        }
    }

    fn edge(&mut self) -> Call {
        let (threads, levels) = (self.threads.clone(), self.levels.clone());
        let thread = self.edge_of(&threads, &[0, 255, 256, u32::MAX]);
        let priority = self.edge_of(&levels, &[0, 31, 32, 255, 256, 65_536]);
        let (endpoints, lines) = (self.endpoints.clone(), self.lines.clone());
        let endpoint = self.edge_of(&endpoints, &[0, 63, 64, 256]);
        let line = self.edge_of(&lines, &[0, 31, 32, 256]);
        let (badge, message) = (self.edge_badge(), self.edge_badge());
        let allowance = self.rng.pick(&[0, 1, 1, 2, 2, 3, 65_535, 65_536, u32::MAX]);
        let rights = self.rng.pick(&[0, 1, 15, 16, u32::MAX]);
        match self.rng.below(13) {
            0 => Call::CreateThread { thread, priority },
            1 => Call::DestroyThread { thread },
            2 => Call::SetPriority { thread, priority },
            3 => Call::CreateEndpoint { endpoint },
            4 => Call::Interrupt { line },
            5 => Call::Tick,
            6 => Call::Send { endpoint, badge, message },
            7 => Call::Receive { endpoint },
            8 => Call::Yield,
            9 => Call::Wait { line },
            10 => Call::Delete { endpoint, allowance },
            11 => Call::Abort { endpoint, allowance, badge },
            _ => Call::Grant { thread, endpoint, rights, badge },
        }
    }
}
