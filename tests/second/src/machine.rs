//! The core: tables, refusals, the ready queues, and calls 1 to 10.

use crate::call::{Answer, Call};
use crate::grants::{Grant, Grants, RECEIVE};
use crate::queue::{Links, Queue, Summary};
use crate::situation::{Log, Situation};
use crate::tables::{Abort, Bond, Endpoint, Line, Phase, Place, Thread};

pub const TICKS: u8 = 5;
pub const TAKEN: u8 = 1;
pub const RECEIVED: u8 = 2;
pub const ABORTED: u8 = 3;
pub const GONE: u8 = 4;
pub const FIRED: u8 = 5;

#[derive(Clone)]
pub struct Machine {
    pub(crate) threads: [Thread; 256],
    pub(crate) endpoints: [Endpoint; 64],
    pub(crate) lines: [Line; 32],
    pub(crate) levels: [Queue; 256],
    pub(crate) links: Links,
    pub(crate) summary: Summary,
    pub(crate) running: Option<u8>,
    pub(crate) grants: Grants,
    pub(crate) log: Log,
}

/// Two machines are the same when their tables and grants are; the log is
/// beside them.
impl PartialEq for Machine {
    fn eq(&self, other: &Machine) -> bool {
        self.threads == other.threads
            && self.endpoints == other.endpoints
            && self.lines == other.lines
            && self.levels == other.levels
            && self.links == other.links
            && self.summary == other.summary
            && self.running == other.running
            && self.grants == other.grants
    }
}

/// State, read only.
impl Machine {
    /// No thread, endpoint, pending line or grant.
    pub fn fresh() -> Machine {
        Machine {
            threads: [Thread::ABSENT; 256],
            endpoints: [Endpoint::ABSENT; 64],
            lines: [Line::QUIET; 32],
            levels: [Queue::EMPTY; 256],
            links: Links::new(),
            summary: Summary::EMPTY,
            running: None,
            grants: Grants::none(),
            log: Log::default(),
        }
    }

    /// Takes over another machine's tables and grants; the log is cleared.
    pub fn copy_tables(&mut self, other: &Machine) {
        self.threads = other.threads;
        self.endpoints = other.endpoints;
        self.lines = other.lines;
        self.levels = other.levels;
        self.links.clone_from(&other.links);
        self.summary = other.summary;
        self.running = other.running;
        self.grants.words.copy_from_slice(&other.grants.words);
        self.log.clear();
    }

    /// The same tables beside the grants of this memory.
    pub fn with_grants(mut self, words: &[u32]) -> Machine {
        self.grants.words.copy_from_slice(words);
        self
    }

    /// The memory of the grants.
    pub fn grants(&self) -> &[u32] {
        &self.grants.words
    }

    /// What a thread holds at an endpoint.
    pub fn granted(&self, t: u8, e: u8) -> Grant {
        self.grants.at(t, e)
    }

    pub fn running(&self) -> Option<u8> {
        self.running
    }

    pub fn thread(&self, t: u8) -> &Thread {
        &self.threads[t as usize]
    }

    pub fn endpoint(&self, e: u8) -> &Endpoint {
        &self.endpoints[e as usize]
    }

    pub fn line(&self, l: u8) -> &Line {
        &self.lines[l as usize]
    }

    /// Threads ready at a level, from the head.
    pub fn ready(&self, level: u8) -> Vec<u8> {
        self.links.list(&self.levels[level as usize])
    }

    /// Waiters at an endpoint, from the head.
    pub fn waiters(&self, e: u8) -> Vec<u8> {
        self.links.list(&self.endpoints[e as usize].queue)
    }

    pub fn summary(&self) -> &Summary {
        &self.summary
    }

    pub fn next(&self, t: u8) -> Option<u8> {
        self.links.next[t as usize]
    }

    pub fn prev(&self, t: u8) -> Option<u8> {
        self.links.prev[t as usize]
    }

    /// Looks and situations of the last call.
    pub fn log(&self) -> &Log {
        &self.log
    }

    /// How many waiters the endpoint's abort has still to look at.
    pub fn left(&self, e: u8) -> usize {
        let Some((mut at, end)) = self.endpoint(e).abort.and_then(|a| a.span) else {
            return 0;
        };
        let mut n = 1;
        while at != end {
            at = self.next(at).expect("the end mark is behind");
            n += 1;
        }
        n
    }

    /// The first waiter, if the waiters are senders.
    pub(crate) fn first_sender(&self, e: u8) -> Option<u8> {
        let head = self.endpoint(e).queue.head?;
        (self.thread(head).place == Place::Sending(e)).then_some(head)
    }

    /// The first waiter, if the waiters are receivers.
    pub(crate) fn first_receiver(&self, e: u8) -> Option<u8> {
        let head = self.endpoint(e).queue.head?;
        (self.thread(head).place == Place::Receiving(e)).then_some(head)
    }
}

/// Taking a call.
impl Machine {
    pub fn call(&mut self, call: &Call) -> Answer {
        self.log.clear();
        if !call.in_range() {
            return Answer::code(19);
        }
        if call.by_thread() && self.running.is_none() {
            return Answer::code(20);
        }
        if self.barred(call) {
            return Answer::code(29);
        }
        if self.use_note(call) {
            return Answer::DONE;
        }
        if let Some(code) = self.refusal(call) {
            let member = call.by_thread() && self.works(self.caller());
            self.log.saw_if(member, Situation::MemberRefused);
            return Answer::code(code);
        }
        self.drop_bond_for(call);
        let answer = self.perform(call);
        self.choose();
        answer
    }

    /// Causes 21 to 27, in order.
    fn refusal(&mut self, call: &Call) -> Option<u32> {
        match *call {
            Call::CreateThread { thread, .. } => {
                self.threads[thread as usize].present().then_some(22)
            }
            Call::DestroyThread { thread } | Call::SetPriority { thread, .. } => {
                (!self.threads[thread as usize].present()).then_some(21)
            }
            Call::CreateEndpoint { endpoint } => self.refusal_present(endpoint as u8),
            Call::Grant { thread, .. } if !self.threads[thread as usize].present() => Some(21),
            Call::Delete { endpoint, .. } | Call::Grant { endpoint, .. } => {
                (self.endpoints[endpoint as usize].phase == Phase::Absent).then_some(23)
            }
            Call::Receive { endpoint } | Call::Abort { endpoint, .. } => {
                self.refusal_shut(endpoint as u8)
            }
            Call::Send { endpoint, badge, .. } => self
                .refusal_shut(endpoint as u8)
                .or_else(|| self.refusal_aborted(endpoint as u8, badge)),
            Call::Wait { line } => self.lines[line as usize].waiter.is_some().then_some(27),
            Call::Interrupt { .. } | Call::Tick | Call::Yield => None,
        }
    }

    fn refusal_present(&mut self, e: u8) -> Option<u32> {
        let Endpoint { phase, queue, .. } = *self.endpoint(e);
        self.log.saw_if(phase == Phase::Closing && queue.is_empty(), Situation::ClosingEmptyKept);
        (phase != Phase::Absent).then_some(24)
    }

    fn refusal_shut(&self, e: u8) -> Option<u32> {
        match self.endpoint(e).phase {
            Phase::Absent => Some(23),
            Phase::Closing => Some(25),
            Phase::Open => None,
        }
    }

    /// 26 holds as long as the abort stands.
    fn refusal_aborted(&mut self, e: u8, badge: u32) -> Option<u32> {
        let (caller, receivers) = (self.caller(), self.first_receiver(e).is_some());
        let abort = self.endpoints[e as usize].abort.as_ref().filter(|a| a.badge == badge)?;
        let member = abort.members.contains(caller);
        self.log.saw_if(member, Situation::RefusedMember);
        self.log.saw_if(abort.span.is_none(), Situation::RefusedNothing);
        self.log.saw_if(abort.members.is_empty(), Situation::RefusedEmpty);
        self.log.saw_if(receivers, Situation::RefusedReceivers);
        Some(26)
    }

    fn perform(&mut self, call: &Call) -> Answer {
        match *call {
            Call::CreateThread { thread, priority } => self.create(thread as u8, priority as u8),
            Call::DestroyThread { thread } => self.destroy(thread as u8),
            Call::SetPriority { thread, priority } => {
                self.set_priority(thread as u8, priority as u8)
            }
            Call::CreateEndpoint { endpoint } => {
                self.endpoints[endpoint as usize].phase = Phase::Open;
                self.grants.clear_endpoint(endpoint as u8);
                Answer::DONE
            }
            Call::Interrupt { line } => self.interrupt(line as u8),
            Call::Tick => self.tick(),
            Call::Send { endpoint, badge, message } => self.send(endpoint as u8, badge, message),
            Call::Receive { endpoint } => self.receive(endpoint as u8),
            Call::Yield => {
                let caller = self.caller();
                self.running = None;
                self.make_ready(caller);
                Answer::DONE
            }
            Call::Wait { line } => self.wait(line as u8),
            Call::Delete { endpoint, allowance } => self.delete(endpoint as u8, allowance),
            Call::Abort { endpoint, allowance, badge } => {
                self.abort(endpoint as u8, allowance, badge)
            }
            Call::Grant { thread, endpoint, rights, badge } => {
                self.grant(thread as u8, endpoint as u8, Grant { rights, badge })
            }
        }
    }
}

/// The chooser and the ready queues.
impl Machine {
    pub(crate) fn caller(&self) -> u8 {
        self.running.expect("a thread runs")
    }

    /// Joins the tail of its level.
    pub(crate) fn make_ready(&mut self, t: u8) {
        self.join_level(t, Links::push);
    }

    /// Joins its level at one of its ends.
    fn join_level(&mut self, t: u8, push: fn(&mut Links, &mut Queue, u8)) {
        let level = self.thread(t).priority;
        push(&mut self.links, &mut self.levels[level as usize], t);
        self.summary = self.summary.occupied(level);
        self.threads[t as usize].place = Place::Ready;
    }

    fn leave_ready(&mut self, t: u8) {
        let level = self.thread(t).priority;
        let queue = &mut self.levels[level as usize];
        self.links.unlink(queue, t);
        if queue.is_empty() {
            self.summary = self.summary.emptied(level);
        }
    }

    /// Wakes a blocked thread that has left its queue or line.
    pub(crate) fn wake(&mut self, t: u8, outcome: u8, badge: u32, message: u32) {
        let block = &mut self.threads[t as usize];
        block.outcome = outcome;
        block.badge = badge;
        block.message = message;
        self.log.woken.push(t);
        self.make_ready(t);
    }

    /// Blocks the caller at a place; only a sender stores badge and message.
    fn block(&mut self, place: Place, badge: u32, message: u32) -> Answer {
        let caller = self.caller();
        self.running = None;
        let block = &mut self.threads[caller as usize];
        block.place = place;
        block.outcome = 0;
        block.badge = badge;
        block.message = message;
        if let Place::Sending(e) | Place::Receiving(e) = place {
            self.links.push(&mut self.endpoints[e as usize].queue, caller);
        }
        Answer::BLOCKED
    }

    /// After each accepted call: the head of the highest queue runs if nobody
    /// does or if its level is above the running thread's, which then goes to
    /// the head of its own.
    fn choose(&mut self) {
        let Some(level) = self.summary.highest() else {
            return;
        };
        if let Some(t) = self.running {
            let own = self.thread(t).priority;
            if own >= level {
                return;
            }
            let last = self.levels[own as usize].tail;
            let woken = last.is_some_and(|l| self.log.woken.contains(&l));
            self.log.saw_if(woken, Situation::DisplacedBefore);
            self.log.saw(Situation::Displaced);
            self.log.saw_if(self.works(t), Situation::MemberDisplaced);
            self.join_level(t, Links::push_first);
        }
        let head = self.levels[level as usize].head.expect("level is occupied");
        self.leave_ready(head);
        self.threads[head as usize].place = Place::Running;
        self.running = Some(head);
    }
}

/// Members and notes.
impl Machine {
    /// The thread works on an abort.
    fn works(&self, t: u8) -> bool {
        matches!(self.thread(t).bond, Bond::Member { .. })
    }

    /// Answers an abort call from the caller's note, if it has that note.
    fn use_note(&mut self, call: &Call) -> bool {
        let Call::Abort { endpoint, badge, .. } = *call else {
            return false;
        };
        let endpoint = endpoint as u8;
        let caller = self.caller() as usize;
        if self.threads[caller].bond != (Bond::Note { endpoint, badge }) {
            return false;
        }
        self.threads[caller].bond = Bond::None;
        self.saw_note(endpoint, badge);
        true
    }

    fn saw_note(&mut self, e: u8, badge: u32) {
        let Endpoint { phase, abort, .. } = *self.endpoint(e);
        self.log.saw(Situation::NoteAnswered);
        self.log.saw_if(phase == Phase::Absent, Situation::NoteAbsent);
        self.log.saw_if(phase == Phase::Closing, Situation::NoteClosing);
        if let Some(abort) = abort {
            let same = abort.badge == badge;
            self.log.saw(if same { Situation::NoteStanding } else { Situation::NoteOther });
        }
        let mut senders = self.first_sender(e);
        while senders.is_some_and(|t| self.thread(t).badge != badge) {
            senders = senders.and_then(|t| self.next(t));
        }
        self.log.saw_if(senders.is_some(), Situation::NoteQueued);
    }

    /// By an accepted call of its own a thread leaves its set or loses its note,
    /// unless it is the abort call of that endpoint and badge.
    fn drop_bond_for(&mut self, call: &Call) {
        if !call.by_thread() {
            return;
        }
        let caller = self.caller();
        let bond = self.thread(caller).bond;
        if bond == Bond::None {
            return;
        }
        if let Bond::Member { endpoint, badge } = bond {
            let e = endpoint as u32;
            match *call {
                Call::Abort { endpoint, badge: b, .. } if endpoint == e => {
                    if b == badge {
                        return;
                    }
                    self.log.saw(Situation::MemberAbortsOther);
                }
                Call::Delete { endpoint, .. } if endpoint == e => {
                    self.log.saw(Situation::DeleteByMember);
                }
                _ => (),
            }
        }
        self.drop_bond(caller, Situation::MemberLeaves, Situation::NoteDropped);
    }

    fn drop_bond(&mut self, t: u8, member: Situation, note: Situation) {
        match self.thread(t).bond {
            Bond::None => return,
            Bond::Member { endpoint, .. } => {
                let abort = self.endpoints[endpoint as usize].abort.as_mut();
                let members = &mut abort.expect("a member's abort stands").members;
                members.remove(t);
                let empty = members.is_empty();
                self.log.saw(member);
                self.log.saw(if empty { Situation::LastLeaves } else { Situation::OthersStay });
            }
            Bond::Note { .. } => self.log.saw(note),
        }
        self.threads[t as usize].bond = Bond::None;
    }
}

/// Calls 1 to 3, 5 and 6.
impl Machine {
    fn create(&mut self, t: u8, priority: u8) -> Answer {
        self.threads[t as usize] = Thread { priority, ticks: TICKS, ..Thread::ABSENT };
        self.grants.clear_thread(t);
        self.make_ready(t);
        Answer::DONE
    }

    fn destroy(&mut self, t: u8) -> Answer {
        self.drop_bond(t, Situation::MemberKilled, Situation::NoteKilled);
        match self.thread(t).place {
            Place::Absent => unreachable!("refused with 21"),
            Place::Running => {
                self.log.saw(Situation::RunningKilled);
                self.running = None;
            }
            Place::Ready => {
                self.log.saw(Situation::ReadyKilled);
                self.leave_ready(t);
            }
            Place::Sending(e) | Place::Receiving(e) => {
                self.leave_otherwise(e, t, false);
                let Endpoint { phase, queue, .. } = *self.endpoint(e);
                let emptied = phase == Phase::Closing && queue.is_empty();
                self.log.saw_if(emptied, Situation::ClosingEmptied);
            }
            Place::OnLine(l) => {
                self.log.saw(Situation::LineKilled);
                self.lines[l as usize].waiter = None;
            }
        }
        self.threads[t as usize] = Thread::ABSENT;
        Answer::DONE
    }

    fn set_priority(&mut self, t: u8, priority: u8) -> Answer {
        let Thread { place, priority: old, .. } = *self.thread(t);
        if priority == old {
            self.log.saw(Situation::SamePriority);
            return Answer::DONE;
        }
        self.log.saw_if(self.works(t), Situation::MemberPriority);
        if place == Place::Ready {
            self.log.saw(Situation::ReadyMoved);
            self.leave_ready(t);
            self.threads[t as usize].priority = priority;
            self.make_ready(t);
        } else {
            let over = self.summary.highest().is_some_and(|level| level > priority);
            self.log.saw_if(place == Place::Running && over, Situation::RunningLowered);
            self.log.saw_if(self.thread(t).blocked(), Situation::BlockedPriority);
            self.threads[t as usize].priority = priority;
        }
        Answer::DONE
    }

    fn interrupt(&mut self, l: u8) -> Answer {
        match self.lines[l as usize].waiter.take() {
            Some(t) => {
                self.log.saw(Situation::LineFired);
                self.wake(t, FIRED, 0, 0);
            }
            None => {
                self.log.saw_if(self.lines[l as usize].pending, Situation::PendingAgain);
                self.lines[l as usize].pending = true;
            }
        }
        Answer::DONE
    }

    fn tick(&mut self) -> Answer {
        let Some(t) = self.running else {
            self.log.saw(Situation::IdleTick);
            return Answer::DONE;
        };
        self.log.saw_if(self.works(t), Situation::MemberTicked);
        let block = &mut self.threads[t as usize];
        block.ticks -= 1;
        if block.ticks == 0 {
            block.ticks = TICKS;
            self.log.saw(Situation::TicksSpent);
            self.running = None;
            self.make_ready(t);
        }
        Answer::DONE
    }
}

/// Calls 7, 8 and 10.
impl Machine {
    fn send(&mut self, e: u8, badge: u32, message: u32) -> Answer {
        if let Some(receiver) = self.first_receiver(e) {
            self.links.unlink(&mut self.endpoints[e as usize].queue, receiver);
            self.wake(receiver, RECEIVED, badge, message);
            self.log.saw_if(!self.granted(receiver, e).has(RECEIVE), Situation::HandedUngranted);
            return Answer::DONE;
        }
        if let Some(Abort { span, .. }) = self.endpoint(e).abort {
            self.log.saw(match span {
                Some(_) => Situation::SentBehind,
                None => Situation::SentNothing,
            });
        }
        self.block(Place::Sending(e), badge, message)
    }

    fn receive(&mut self, e: u8) -> Answer {
        let Some(sender) = self.first_sender(e) else {
            self.log.saw_if(self.endpoint(e).abort.is_some(), Situation::ReceiverUnder);
            return self.block(Place::Receiving(e), 0, 0);
        };
        let Thread { badge, message, .. } = *self.thread(sender);
        let under = self.endpoint(e).abort.is_some_and(|a| a.badge == badge);
        self.log.saw_if(under, Situation::AbortedTaken);
        let sent = Call::Send { endpoint: e as u32, badge, message };
        self.log.saw_if(self.granted(sender, e).lacks(&sent), Situation::TakenUngranted);
        self.leave_otherwise(e, sender, true);
        self.wake(sender, TAKEN, 0, 0);
        Answer { code: 0, count: 0, badge, message }
    }

    fn wait(&mut self, l: u8) -> Answer {
        let caller = self.caller();
        let line = &mut self.lines[l as usize];
        if line.pending {
            line.pending = false;
            self.log.saw(Situation::PendingTaken);
            return Answer::DONE;
        }
        line.waiter = Some(caller);
        self.block(Place::OnLine(l), 0, 0)
    }
}
