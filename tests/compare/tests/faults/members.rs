//! Faults of the sets: who is in one, and who is noted when its abort ends.

use crate::faulty::Fault;
use second::{aborting_at, owes_at, Answer, Call, Situation};

/// A call, its answer, the thread that ran, what the call came to, and the
/// tables before it.
pub struct Made<'a> {
    pub call: &'a Call,
    pub answer: &'a Answer,
    pub ran: Option<u8>,
    pub seen: &'a [Situation],
    pub before: &'a [u32],
}

/// What a word `owes` says: the set that the thread is in, or its note.
fn set(owes: u32) -> Option<u8> {
    (1..=64).contains(&owes).then(|| owes as u8 - 1)
}

impl Made<'_> {
    fn saw(&self, situation: Situation) -> bool {
        self.seen.contains(&situation)
    }

    /// Whose set the thread was in before the call.
    fn member(&self, t: u8) -> Option<u8> {
        set(self.before[owes_at(t)])
    }

    /// The call's endpoint, if it is in range.
    fn endpoint(&self) -> Option<u8> {
        self.call.named().endpoint.filter(|&e| e < 64).map(|e| e as u8)
    }

    /// The badge under abort at an endpoint before the call.
    fn aborted(&self, e: u8) -> u32 {
        self.before[aborting_at(e) + 1]
    }

    /// The members that the call has noted.
    fn noted(&self, tables: &[u32]) -> Vec<u8> {
        let noted = |t: &u8| self.member(*t).is_some() && tables[owes_at(*t)] > 64;
        (0..=255).filter(noted).collect()
    }

    /// What the fault makes of the tables that the call has left.
    pub fn spoil(&self, fault: Fault, tables: &mut [u32]) {
        self.spoil_notes(fault, tables);
        let Some(t) = self.ran else {
            return;
        };
        if let Some(bond) = self.bond_instead(fault, t, tables) {
            tables[owes_at(t)..][..2].copy_from_slice(&bond);
        }
        if fault == Fault::EmptySetEnds && self.saw(Situation::LastLeaves) {
            let left = self.member(t).filter(|&e| tables[aborting_at(e)] == 1);
            left.into_iter().for_each(|e| tables[aborting_at(e)..][..4].fill(0));
        }
    }

    /// Faults of those whom the call has noted.
    fn spoil_notes(&self, fault: Fault, tables: &mut [u32]) {
        let noted = self.noted(tables);
        let broken_off = matches!(self.call, Call::Delete { .. }) && self.answer.code == 2;
        let lost = match fault {
            Fault::OneMemberNoted => noted.get(1..),
            Fault::LastMemberNotNoted => noted.last().map(std::slice::from_ref),
            Fault::BrokenDeleteNotesNobody if broken_off => Some(&noted[..]),
            _ => None,
        };
        for &t in lost.unwrap_or_default() {
            tables[owes_at(t)..][..2].fill(0);
        }
        match fault {
            Fault::LastThreadNotNoted if noted.contains(&255) => {
                let kept = owes_at(255)..owes_at(255) + 2;
                tables[kept.clone()].copy_from_slice(&self.before[kept]);
            }
            Fault::NotedUnderTheCallsBadge => {
                let badge = self.call.named().badge;
                let notes = noted.iter().map(|&t| owes_at(t) + 1);
                badge.into_iter().for_each(|b| notes.clone().for_each(|at| tables[at] = b));
            }
            Fault::AllSetsNoted if !noted.is_empty() => self.note_all(tables),
            _ => (),
        }
    }

    /// Notes the members of every set.
    fn note_all(&self, tables: &mut [u32]) {
        for t in 0..=255 {
            if let Some(e) = set(tables[owes_at(t)]) {
                tables[owes_at(t)..][..2].copy_from_slice(&[65 + e as u32, self.aborted(e)]);
            }
        }
    }

    /// The words `owes` and `note` that the fault leaves the caller with.
    fn bond_instead(&self, fault: Fault, t: u8, tables: &[u32]) -> Option<[u32; 2]> {
        let (member, code) = (self.member(t), self.answer.code);
        let here = self.endpoint();
        let works = member.is_some() && member == here;
        let in_set = |e: u8| Some([1 + e as u32, 0]);
        let note = |e: u8| Some([65 + e as u32, self.aborted(e)]);
        let others = |e: u8| (0..=255).any(|o| o != t && self.member(o) == Some(e));
        match (fault, *self.call) {
            (Fault::JoinerKeepsNothing, Call::Abort { .. }) if code == 2 => {
                let joined = set(tables[owes_at(t)]).filter(|_| member != here);
                joined.filter(|&e| others(e)).map(|_| [0, 0])
            }
            (Fault::CallerNotedToo, Call::Abort { .. }) if works && code == 0 => note(here?),
            (Fault::LeaverNoted, Call::Delete { .. }) if works && code != 29 => note(here?),
            (Fault::OtherWorkerJoins, _) if self.saw(Situation::OtherBroken) => in_set(here?),
            (Fault::NoteHolderJoins, _) if self.saw(Situation::NoteStanding) => in_set(here?),
            (Fault::MemberStays, Call::Yield) => in_set(member?),
            (Fault::RefusalLeaves, _) if self.saw(Situation::MemberRefused) => Some([0, 0]),
            (Fault::TickLeaves, Call::Tick) => member.map(|_| [0, 0]),
            (Fault::DisplacedLeaves, _) if self.saw(Situation::MemberDisplaced) => Some([0, 0]),
            _ => None,
        }
    }
}
