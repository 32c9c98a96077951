//! Calls 11 and 12: deletion and abort that can be broken off.

use crate::call::Answer;
use crate::machine::{Machine, ABORTED, GONE};
use crate::set::Set;
use crate::situation::{Look, Situation};
use crate::tables::{Abort, Bond, Phase};

/// Cursor and end mark.
impl Machine {
    /// A waiter leaves its queue other than by a look: a cursor passes to the
    /// next, an end mark to the one before, both at once leave nothing.
    pub(crate) fn leave_otherwise(&mut self, e: u8, t: u8, taken: bool) {
        let (before, after) = (self.prev(t), self.next(t));
        let mut seen = None;
        if let Some(abort) = &mut self.endpoints[e as usize].abort {
            if let Some((cursor, end)) = abort.span {
                if t == cursor && t == end {
                    abort.span = None;
                    seen = Some((Situation::BothTaken, Situation::BothKilled));
                } else if t == cursor {
                    abort.span = Some((after.expect("the end mark is behind"), end));
                    seen = Some((Situation::CursorTaken, Situation::CursorKilled));
                } else if t == end {
                    abort.span = Some((cursor, before.expect("the cursor is before")));
                    seen = Some((Situation::EndTaken, Situation::EndKilled));
                }
            }
        }
        if let Some((by_receive, by_destroy)) = seen {
            self.log.saw(if taken { by_receive } else { by_destroy });
        }
        self.links.unlink(&mut self.endpoints[e as usize].queue, t);
    }

    /// Looks at the cursor's waiter. The endpoint has an abort with a span.
    fn look(&mut self, e: u8) {
        let after = &self.links.next;
        let abort = self.endpoints[e as usize].abort.as_mut().expect("an abort stands");
        let (cursor, end) = abort.span.expect("a waiter is left");
        abort.span = if cursor == end {
            None
        } else {
            Some((after[cursor as usize].expect("the end mark is behind"), end))
        };
        let removed = self.threads[cursor as usize].badge == abort.badge;
        self.log.looks.push(Look { thread: cursor, removed });
        if removed {
            self.links.unlink(&mut self.endpoints[e as usize].queue, cursor);
            self.wake(cursor, ABORTED, 0, 0);
        }
    }

    /// Looks until nothing is left or the allowance is used; gives the looks.
    fn work(&mut self, e: u8, allowance: u32) -> u32 {
        let mut count = 0;
        while count < allowance && self.unlooked(e) {
            self.look(e);
            count += 1;
        }
        count
    }

    fn unlooked(&self, e: u8) -> bool {
        self.endpoint(e).abort.as_ref().is_some_and(|a| a.span.is_some())
    }
}

/// Beginning, joining and ending an abort.
impl Machine {
    fn begin(&mut self, e: u8, badge: u32) {
        let first = self.first_sender(e);
        let span = first.map(|f| (f, self.endpoint(e).queue.tail.expect("not empty")));
        self.log.saw(Situation::AbortBegun);
        self.log.saw_if(self.endpoint(e).queue.is_empty(), Situation::AbortNoSender);
        self.log.saw_if(self.first_receiver(e).is_some(), Situation::AbortReceivers);
        self.endpoints[e as usize].abort = Some(Abort { badge, span, members: Set::EMPTY });
        self.enter(e);
    }

    /// The caller is in the set of those who work on the abort.
    fn enter(&mut self, e: u8) {
        let caller = self.caller();
        let abort = self.endpoints[e as usize].abort.as_mut().expect("an abort stands");
        abort.members.insert(caller);
        self.threads[caller as usize].bond = Bond::Member { endpoint: e, badge: abort.badge };
    }

    fn join(&mut self, e: u8) {
        let caller = self.caller();
        let abort = self.endpoints[e as usize].abort.as_ref().expect("an abort stands");
        self.log.saw_if(abort.span.is_none(), Situation::JoinNothing);
        self.log.saw(if abort.members.contains(caller) {
            Situation::MemberGoesOn
        } else if abort.members.is_empty() {
            Situation::JoinEmpty
        } else {
            Situation::JoinMembers
        });
        self.enter(e);
    }

    /// Ends the abort, if one stands; each member but the caller gets a note.
    /// Gives those who do.
    fn end_abort(&mut self, e: u8) -> Set {
        let Some(Abort { badge, members, .. }) = self.endpoints[e as usize].abort.take() else {
            return Set::EMPTY;
        };
        let caller = self.caller();
        let mut noted = members;
        if members.contains(caller) {
            noted.remove(caller);
            self.threads[caller as usize].bond = Bond::None;
        }
        for t in noted.threads() {
            self.threads[t as usize].bond = Bond::Note { endpoint: e, badge };
        }
        self.log.saw_if(members.is_empty(), Situation::EndEmpty);
        self.log.saw_if(members != noted && noted.is_empty(), Situation::EndAlone);
        noted
    }

    /// These were noted by a call of one kind; the situations of one and of more.
    fn saw_noted(&mut self, noted: Set, one: Situation, more: Situation) {
        if noted.is_empty() {
            return;
        }
        let left = [Situation::MemberAbortsOther, Situation::DeleteByMember];
        let leaver = self.log.seen.iter().any(|seen| left.contains(seen));
        self.log.saw(one);
        self.log.saw_if(noted.threads().nth(1).is_some(), more);
        self.log.saw_if(leaver, Situation::LeaverNotes);
    }
}

/// Delete.
impl Machine {
    pub(crate) fn delete(&mut self, e: u8, allowance: u32) -> Answer {
        let phase = self.endpoint(e).phase;
        self.log.saw_if(self.endpoint(e).abort.is_some(), Situation::DeleteEndsAbort);
        self.log.saw_if(phase == Phase::Closing, Situation::DeleteGoesOn);
        self.log.saw_if(self.first_receiver(e).is_some(), Situation::DeleteReceivers);
        self.endpoints[e as usize].phase = Phase::Closing;
        let noted = self.end_abort(e);
        let mut count = 0;
        while let Some(t) = self.endpoint(e).queue.head {
            if count == allowance {
                self.log.saw(Situation::DeleteBroken);
                self.saw_noted(noted, Situation::NotedByBroken, Situation::ManyByBroken);
                return Answer::counted(2, count);
            }
            self.links.unlink(&mut self.endpoints[e as usize].queue, t);
            self.wake(t, GONE, 0, 0);
            count += 1;
        }
        self.endpoints[e as usize].phase = Phase::Absent;
        self.saw_noted(noted, Situation::NotedByDelete, Situation::ManyByDelete);
        self.log.saw_if(count == allowance, Situation::DeleteExact);
        if count == 0 {
            self.log.saw(match phase {
                Phase::Closing => Situation::ClosingEmptyGone,
                _ => Situation::DeleteEmpty,
            });
        }
        Answer::counted(0, count)
    }
}

/// Abort.
impl Machine {
    pub(crate) fn abort(&mut self, e: u8, allowance: u32, badge: u32) -> Answer {
        let mut count = 0;
        if self.endpoint(e).abort.as_ref().is_some_and(|a| a.badge != badge) {
            count = self.finish_other(e, allowance);
            if count == allowance {
                return Answer::counted(2, count);
            }
        }
        if self.endpoint(e).abort.is_none() {
            self.begin(e, badge);
        } else {
            self.join(e);
        }
        count += self.work(e, allowance - count);
        self.saw_double_looks();
        if self.unlooked(e) {
            self.saw_broken(e);
            return Answer::counted(2, count);
        }
        self.log.saw_if(count == allowance, Situation::AbortExact);
        let noted = self.end_abort(e);
        self.saw_noted(noted, Situation::NotedByOwn, Situation::ManyByOwn);
        Answer::counted(0, count)
    }

    /// Works on another badge's abort, and ends it if nothing is left of it. Who
    /// does so is no member of it.
    fn finish_other(&mut self, e: u8, allowance: u32) -> u32 {
        let other = self.endpoints[e as usize].abort.as_ref().expect("an abort stands");
        self.log.saw_if(other.span.is_none(), Situation::OtherNothing);
        self.log.saw_if(other.members.is_empty(), Situation::OtherEmpty);
        let count = self.work(e, allowance);
        if self.unlooked(e) {
            self.log.saw(Situation::OtherBroken);
            return count;
        }
        let noted = self.end_abort(e);
        self.saw_noted(noted, Situation::NotedByOther, Situation::ManyByOther);
        if count == allowance {
            self.log.saw(Situation::OtherExact);
            self.log.saw_if(self.first_sender(e).is_none(), Situation::OtherExactEmpty);
        } else {
            self.log.saw(Situation::OtherDone);
        }
        count
    }

    fn saw_broken(&mut self, e: u8) {
        let mut others = self.endpoint(e).abort.map_or(Set::EMPTY, |a| a.members);
        others.remove(self.caller());
        let seen = |of: Situation| self.log.seen.contains(&of);
        let (member, note) = (seen(Situation::MemberLeaves), seen(Situation::NoteDropped));
        self.log.saw(Situation::AbortBroken);
        if !others.is_empty() {
            self.log.saw(Situation::BrokenWithOthers);
            self.log.saw_if(others.threads().nth(1).is_some(), Situation::BrokenOfThree);
        }
        self.log.saw_if(member, Situation::MemberMoves);
        self.log.saw_if(note, Situation::NoteMoves);
    }

    fn saw_double_looks(&mut self) {
        let looks = &self.log.looks;
        let twice = (1..looks.len())
            .any(|i| looks[..i].iter().any(|earlier| earlier.thread == looks[i].thread));
        self.log.saw_if(twice, Situation::LookedTwice);
    }
}
