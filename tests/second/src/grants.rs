//! The grants, beside the tables: what each thread may do at each endpoint;
//! refusal 29, and call 13.

use crate::call::{Answer, Call, BADGE_LIMIT};
use crate::machine::Machine;
use crate::situation::Situation;
use crate::tables::{Bond, Phase, Place};

/// How many words the grants are: word 64 x thread + endpoint, its top four
/// bits the rights and the low 28 the badge; 0 is no grant.
pub const GRANTS: usize = 256 * 64;

pub const SEND: u32 = 1;
pub const RECEIVE: u32 = 2;
pub const DELETE: u32 = 4;
pub const ABORT: u32 = 8;

/// What a thread holds at an endpoint.
#[derive(Clone, Copy, Debug, PartialEq, Eq)]
pub struct Grant {
    pub rights: u32,
    pub badge: u32,
}

impl Grant {
    pub fn has(&self, right: u32) -> bool {
        self.rights & right != 0
    }

    /// The call of its holder needs a right or a badge that is not granted.
    pub fn lacks(&self, call: &Call) -> bool {
        let right = right_for(call);
        let other = matches!(*call, Call::Send { badge, .. } if badge != self.badge);
        right != 0 && (!self.has(right) || other)
    }
}

/// The right that a call needs at its endpoint; 0 if it needs none.
pub fn right_for(call: &Call) -> u32 {
    match call {
        Call::Send { .. } => SEND,
        Call::Receive { .. } => RECEIVE,
        Call::Delete { .. } => DELETE,
        Call::Abort { .. } => ABORT,
        _ => 0,
    }
}

#[derive(Clone, PartialEq, Eq)]
pub struct Grants {
    pub words: Vec<u32>,
}

impl Grants {
    pub fn none() -> Grants {
        Grants { words: vec![0; GRANTS] }
    }

    pub fn at(&self, t: u8, e: u8) -> Grant {
        let word = self.words[place(t, e)];
        Grant { rights: word / BADGE_LIMIT, badge: word % BADGE_LIMIT }
    }

    /// Replaces what the thread holds there; without a right that is nothing.
    pub fn store(&mut self, t: u8, e: u8, grant: Grant) {
        let Grant { rights, badge } = grant;
        self.words[place(t, e)] = if rights == 0 { 0 } else { rights * BADGE_LIMIT + badge };
    }

    pub fn clear_thread(&mut self, t: u8) {
        self.words[place(t, 0)..][..64].fill(0);
    }

    pub fn clear_endpoint(&mut self, e: u8) {
        for t in 0..=255 {
            self.words[place(t, e)] = 0;
        }
    }
}

fn place(t: u8, e: u8) -> usize {
    64 * t as usize + e as usize
}

/// What the word at an address of the grants is.
pub fn grant_name(at: usize) -> String {
    format!("grant of thread {} at endpoint {}", at / 64, at % 64)
}

/// As many words as there must be, and none has a badge without any right.
pub fn sound_grants(words: &[u32]) -> bool {
    words.len() == GRANTS && words.iter().all(|&word| word == 0 || word >= BADGE_LIMIT)
}

impl Machine {
    /// Cause 29: the caller lacks what its call needs. Nothing but its own grant
    /// is looked at.
    pub(crate) fn barred(&mut self, call: &Call) -> bool {
        let (Call::Send { endpoint, .. }
        | Call::Receive { endpoint }
        | Call::Delete { endpoint, .. }
        | Call::Abort { endpoint, .. }) = *call
        else {
            return false;
        };
        let lacks = self.granted(self.caller(), endpoint as u8).lacks(call);
        if lacks {
            self.saw_barred(call, endpoint as u8);
        }
        lacks
    }

    fn saw_barred(&mut self, call: &Call, e: u8) {
        let caller = self.caller();
        let (phase, under) = (self.endpoint(e).phase, self.endpoint(e).abort.is_some());
        if let Call::Send { .. } = call {
            let right = self.granted(caller, e).has(SEND);
            self.log.saw(if right { Situation::LacksBadge } else { Situation::LacksSend });
        }
        self.log.saw_if(phase == Phase::Absent, Situation::LacksAbsent);
        self.log.saw_if(phase == Phase::Closing, Situation::LacksClosing);
        self.log.saw_if(under, Situation::LacksUnder);
        if let Call::Abort { badge, .. } = *call {
            let bond = self.thread(caller).bond;
            self.log.saw_if(bond == Bond::Member { endpoint: e, badge }, Situation::LacksMember);
            self.log.saw_if(bond == Bond::Note { endpoint: e, badge }, Situation::LacksNoted);
        }
    }

    /// Call 13, the host's: nobody is woken, blocked or noted by it.
    pub(crate) fn grant(&mut self, t: u8, e: u8, grant: Grant) -> Answer {
        self.saw_grant(t, e, grant);
        self.grants.store(t, e, grant);
        Answer::DONE
    }

    fn saw_grant(&mut self, t: u8, e: u8, grant: Grant) {
        let held = self.granted(t, e);
        let (place, bond) = (self.thread(t).place, self.thread(t).bond);
        let revoked = held.rights & !grant.rights;
        let lost = |right: u32| revoked & right != 0;
        let (idle, phase) = (self.running.is_none(), self.endpoint(e).phase);
        let replaced = held.rights != 0 && grant.rights != 0 && held != grant;
        let works = matches!(bond, Bond::Member { endpoint, .. } if endpoint == e);
        let notes = matches!(bond, Bond::Note { endpoint, .. } if endpoint == e);
        let seen = [
            (grant.rights == 0 && grant.badge != 0, Situation::GrantNothing),
            (held.rights != 0 && grant.rights == 0, Situation::GrantRevoked),
            (replaced, Situation::GrantReplaced),
            (idle, Situation::GrantIdle),
            (phase == Phase::Closing, Situation::GrantClosing),
            (lost(SEND) && place == Place::Sending(e), Situation::RevokedSender),
            (lost(RECEIVE) && place == Place::Receiving(e), Situation::RevokedReceiver),
            (lost(ABORT) && works, Situation::RevokedMember),
            (lost(ABORT) && notes, Situation::RevokedNoted),
            (lost(DELETE) && phase == Phase::Closing, Situation::RevokedClosing),
        ];
        for (holds, situation) in seen {
            self.log.saw_if(holds, situation);
        }
    }
}
