//! What stretches over several calls of a list, counted.

use crate::call::Call;
use crate::grants::Grant;
use crate::set::Set;
use crate::situation::Situation;
use crate::tables::{Bond, Phase};
use crate::tally::Step;

/// What is counted, in order.
pub const STORIES: [&str; 12] = [
    "a mark's thread gone and queued there again under the same abort",
    "two members noted by one call, both answered from their notes",
    "abort broken off with three or more still to look at",
    "abort stands over three or more calls that looked",
    "call that looks for another badge and begins its own",
    "note answered after a 29, its right granted again",
    "delete broken off, its right revoked, 29 when it goes on",
    "29 for a thread created anew that had the right",
    "29 at an endpoint created anew where the caller had the right",
    "two members noted by one call, both answered while senders queue under the badge",
    "note answered under a new abort of its badge, which the next call joins",
    "set left empty, joined again, the joiner noted by another's call",
];

/// How often each story came up.
pub struct Stories {
    pub counts: [u64; STORIES.len()],
    watch: Vec<Watch>,
    lost: Vec<Lost>,
}

/// A grant that went as its thread or its endpoint was created anew.
struct Lost {
    story: usize,
    thread: u8,
    endpoint: u8,
    grant: Grant,
}

/// What is remembered of an endpoint.
#[derive(Clone, Default)]
struct Watch {
    gone: Vec<u8>,
    ended: Vec<Ended>,
    passed: Vec<u8>,
    rejoined: Option<u8>,
    calls: u32,
    noted: Vec<u8>,
    deleters: Vec<u8>,
}

/// An abort that another's call ended: its badge, who is noted still, and how
/// many were answered from their notes, in all and with the badge queued.
#[derive(Clone)]
struct Ended {
    badge: u32,
    noted: Set,
    answered: u32,
    queued: u32,
}

impl Default for Stories {
    fn default() -> Stories {
        Stories { counts: [0; STORIES.len()], watch: vec![Watch::default(); 64], lost: Vec::new() }
    }
}

impl Stories {
    /// A new list begins, from fresh tables.
    pub fn new_list(&mut self) {
        self.watch.fill(Watch::default());
        self.lost.clear();
    }

    /// Follows the aborts and the grants over a call.
    pub fn follow(&mut self, step: &Step) {
        let at = step.call.named().endpoint;
        self.follow_lost(step);
        if let (Some(e @ 0..=63), true) = (at, step.call.by_thread()) {
            self.follow_kept(e as u8, step);
        }
        for e in 0..64 {
            if at == Some(e as u32) || step.before.endpoint(e).abort.is_some() {
                self.follow_at(e, step);
            }
            if !self.watch[e as usize].idle() || step.before.endpoint(e).abort.is_some() {
                self.follow_members(e, step);
            }
        }
    }

    fn follow_at(&mut self, e: u8, step: &Step) {
        let Step { before, call, answer, after } = *step;
        let here = call.named().endpoint == Some(e as u32);
        let was = before.endpoint(e).abort;
        let caller = before.running().unwrap_or(0);
        if matches!(*call, Call::Abort { .. }) && here && answer.accepted() {
            self.follow_abort(e, step);
        }
        let watch = &mut self.watch[e as usize];
        let stands = was.map(|a| a.badge) == after.endpoint(e).abort.map(|a| a.badge);
        let Some(was) = was.filter(|_| stands) else {
            watch.gone.clear();
            watch.calls = 0;
            return;
        };
        if let (2, 0, Some((cursor, end))) = (call.number(), answer.code, was.span) {
            let marks = [cursor, end];
            watch.gone.extend(marks.iter().filter(|&&t| !after.thread(t).present()));
        }
        let sends = here && matches!(*call, Call::Send { .. });
        let again = sends && answer.code == 1 && watch.gone.contains(&caller);
        self.counts[0] += again as u64;
    }

    fn follow_abort(&mut self, e: u8, step: &Step) {
        let Step { answer, after, .. } = *step;
        let watch = &mut self.watch[e as usize];
        let saw = |s: Situation| after.log().seen.contains(&s);
        let worked = saw(Situation::OtherDone) && !saw(Situation::OtherNothing);
        self.counts[4] += (saw(Situation::AbortBegun) && worked) as u64;
        watch.calls += (answer.count > 0) as u32;
        self.counts[3] += (watch.calls >= 3) as u64;
        self.counts[2] += (after.left(e) >= 3) as u64;
    }
}

/// Members and their notes.
impl Watch {
    fn idle(&self) -> bool {
        self.ended.is_empty() && self.passed.is_empty()
    }
}

impl Stories {
    fn follow_members(&mut self, e: u8, step: &Step) {
        let Step { before, call, answer, after } = *step;
        let here = call.named().endpoint == Some(e as u32) && call.by_thread();
        if let (true, true, Some(caller)) = (here, answer.accepted(), before.running()) {
            self.follow_noted(e, caller, step);
            self.follow_note(e, caller, step);
        }
        let watch = &mut self.watch[e as usize];
        let works = |t: &u8| after.endpoint(e).abort.is_some_and(|a| a.members.contains(*t));
        watch.rejoined = watch.rejoined.filter(works);
        let calls = before.running().filter(|_| call.by_thread() && answer.accepted());
        let stood = after.log().seen.contains(&Situation::NoteStanding);
        watch.passed.retain(|&t| after.thread(t).present() && (calls != Some(t) || here && stood));
        for ended in &mut watch.ended {
            let note = Bond::Note { endpoint: e, badge: ended.badge };
            let noted = ended.noted.threads().filter(|&t| after.thread(t).bond == note);
            ended.noted = noted.collect();
        }
        watch.ended.retain(|ended| !ended.noted.is_empty());
    }

    /// Members who are noted by the call, and one who joins an empty set.
    fn follow_noted(&mut self, e: u8, caller: u8, step: &Step) {
        let Step { before, after, .. } = *step;
        let watch = &mut self.watch[e as usize];
        let saw = |s: Situation| after.log().seen.contains(&s);
        if let Some(was) = before.endpoint(e).abort {
            let (badge, members) = (was.badge, was.members);
            let note = Bond::Note { endpoint: e, badge };
            let noted: Set = members.threads().filter(|&t| after.thread(t).bond == note).collect();
            self.counts[11] += watch.rejoined.is_some_and(|t| noted.contains(t)) as u64;
            watch.ended.push(Ended { badge, noted, answered: 0, queued: 0 });
        }
        if saw(Situation::JoinEmpty) && saw(Situation::AbortBroken) {
            watch.rejoined = Some(caller);
        }
    }

    /// A note that is answered, and what its thread calls next.
    fn follow_note(&mut self, e: u8, caller: u8, step: &Step) {
        let Step { call, after, .. } = *step;
        let watch = &mut self.watch[e as usize];
        let saw = |s: Situation| after.log().seen.contains(&s);
        let joins = saw(Situation::JoinMembers) || saw(Situation::JoinEmpty);
        self.counts[10] += (joins && watch.passed.contains(&caller)) as u64;
        if !saw(Situation::NoteAnswered) {
            return;
        }
        let own = |ended: &&mut Ended| {
            call.named().badge == Some(ended.badge) && ended.noted.contains(caller)
        };
        for ended in watch.ended.iter_mut().filter(own) {
            ended.answered += 1;
            ended.queued += saw(Situation::NoteQueued) as u32;
            self.counts[1] += (ended.answered == 2) as u64;
            self.counts[9] += (ended.queued == 2) as u64;
        }
        if saw(Situation::NoteStanding) {
            watch.passed.push(caller);
        }
    }
}

/// Grants.
impl Stories {
    /// Follows what creation takes away, until it is granted again.
    fn follow_lost(&mut self, step: &Step) {
        let Step { before, call, answer, .. } = *step;
        match (*call, answer.code) {
            (Call::CreateThread { thread, .. }, 0) => {
                (0..64).for_each(|e| self.lose(7, thread as u8, e, step));
            }
            (Call::CreateEndpoint { endpoint }, 0) => {
                (0..=255).for_each(|t| self.lose(8, t, endpoint as u8, step));
            }
            (Call::DestroyThread { thread }, 0) => {
                let gone = |t: &u8| *t as u32 == thread;
                self.watch.iter_mut().for_each(|w| w.deleters.retain(|t| !gone(t)));
            }
            (Call::Grant { thread, endpoint, .. }, 0) => {
                self.lost.retain(|l| (l.thread as u32, l.endpoint as u32) != (thread, endpoint));
            }
            (_, 29) => {
                let who = (before.running(), call.named().endpoint);
                let had = |l: &&Lost| {
                    (Some(l.thread), Some(l.endpoint as u32)) == who && !l.grant.lacks(call)
                };
                self.lost.iter().filter(had).for_each(|l| self.counts[l.story] += 1);
            }
            _ => (),
        }
    }

    fn lose(&mut self, story: usize, thread: u8, endpoint: u8, step: &Step) {
        let grant = step.before.granted(thread, endpoint);
        if grant.rights != 0 {
            self.lost.push(Lost { story, thread, endpoint, grant });
        }
    }

    /// Follows notes and deletions that are left to go on.
    fn follow_kept(&mut self, e: u8, step: &Step) {
        let Step { before, call, answer, after } = *step;
        let Some(caller) = before.running() else {
            return;
        };
        let watch = &mut self.watch[e as usize];
        let saw = |s: Situation| after.log().seen.contains(&s);
        self.counts[5] += (saw(Situation::NoteAnswered) && watch.noted.contains(&caller)) as u64;
        let noted_here =
            |t: u8| matches!(after.thread(t).bond, Bond::Note { endpoint, .. } if endpoint == e);
        watch.noted.retain(|&t| noted_here(t));
        if saw(Situation::LacksNoted) {
            watch.noted.push(caller);
        }
        if after.endpoint(e).phase != Phase::Closing {
            watch.deleters.clear();
        }
        if let Call::Delete { .. } = call {
            self.counts[6] += (answer.code == 29 && watch.deleters.contains(&caller)) as u64;
            watch.deleters.extend((answer.code == 2).then_some(caller));
        }
    }
}
