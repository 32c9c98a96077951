//! A core made of the second machine, with one fault.

use crate::members::Made;
use comparison::{Core, Memory};
use second::{
    aborting_at, memory, owes_at, read, shown, sound_grants, sound_words, word_name, write, Answer,
    Bond, Call, Machine, Phase, Read, Situation, Written,
};

macro_rules! faults {
    ($($name:ident,)*) => {
        /// A fault, made on the words, the answer or the scratch after a call, or
        /// on the grants that the call is made under.
        #[derive(Clone, Copy, Debug, PartialEq, Eq)]
        pub enum Fault { Nothing, $($name,)* }
        /// Every fault that a core may have.
        pub const FAULTS: &[Fault] = &[$(Fault::$name,)*];
    };
}

faults! {
    CursorKept,
    EndMarkKept,
    MemberKept,
    JoinerKeepsNothing,
    OneMemberNoted,
    LastMemberNotNoted,
    LastThreadNotNoted,
    BrokenDeleteNotesNobody,
    NotedUnderTheCallsBadge,
    AllSetsNoted,
    CallerNotedToo,
    LeaverNoted,
    OtherWorkerJoins,
    MemberStays,
    RefusalLeaves,
    TickLeaves,
    DisplacedLeaves,
    NoteHolderJoins,
    EmptySetEnds,
    EmptySetUnsound,
    BlockedMemberUnsound,
    LooseMemberTaken,
    NoteLost,
    NoteKept,
    TicksNotRefilled,
    SummaryBitKept,
    TopBitKept,
    UnusedWord,
    CountOfTheAllowance,
    BadgeNotAnswered,
    RunningKept,
    DisplacedToTheTail,
    ScratchLeft,
    ScratchReadByTheCheck,
    CheckWrites,
    SoundRefused,
    UnsoundTaken,
    FreshLeaves,
    LastBitOfTheMessage,
    UnusedPartRead,
    SendUnderAnyBadge,
    AbortBadgeCompared,
    NoteBeforeRight,
    EndpointBeforeRight,
    BondDroppedByNoRight,
    RightsAdded,
    BadgeWithoutRight,
    RefusalGrants,
    RefusalClears,
    RowKept,
    ColumnKept,
    DestroyClears,
    BadgeZeroUnsound,
    UnsoundGrantsTaken,
    FreshLeavesGrants,
    RightsRefusedByRange,
    NobodyWoken,
    SendersBadgeTold,
    NeighbourWoken,
    Thread256Woken,
}

pub struct Faulty {
    fault: Fault,
    machine: Machine,
    tables: Vec<u32>,
    grants: Vec<u32>,
    scratch: Vec<u32>,
    sound: bool,
}

impl Faulty {
    pub fn new(fault: Fault) -> Faulty {
        let machine = Machine::fresh();
        let (tables, grants) = (memory(&machine), machine.grants().to_vec());
        Faulty { fault, machine, tables, grants, scratch: vec![0; 256], sound: true }
    }

    /// What the fault makes of a word that a call changes.
    fn word(&self, call: &Call, at: usize, old: u32, new: u32) -> u32 {
        let name = word_name(at);
        let part = name.split(' ').next_back().unwrap_or_default();
        let destroys = call.number() == 2;
        let kept = match (self.fault, part) {
            (Fault::CursorKept, "cursor") | (Fault::EndMarkKept, "end") => destroys,
            (Fault::MemberKept, "owes") => destroys && old <= 64,
            (Fault::NoteKept, "owes") => old > 64 && new == 0,
            (Fault::NoteLost, "owes") if new > 64 => return 0,
            (Fault::NoteLost, "note") => return 0,
            (Fault::TicksNotRefilled, "ticks") if old == 1 && new == 5 => return 0,
            (Fault::SummaryBitKept, _) if name.starts_with("summary word") => return old | new,
            (Fault::TopBitKept, _) if name == "summary top word" => return old | new,
            _ => false,
        };
        if kept {
            old
        } else {
            new
        }
    }

    /// The displaced thread, which ran before the call, loses its turn: its
    /// priority is changed and changed back.
    fn lose_turn(&mut self, ran: Option<u8>) {
        let displaced = self.machine.log().seen.contains(&Situation::Displaced);
        let Some(t) = ran.filter(|_| displaced) else {
            return;
        };
        let own = u32::from(self.machine.thread(t).priority);
        for priority in [own + 1, own] {
            self.machine.call(&Call::SetPriority { thread: t.into(), priority });
        }
    }

    /// The tables after a call that this thread may have made.
    fn tables_left(&self, call: &Call, answer: &Answer, ran: Option<u8>) -> Vec<u32> {
        let mut tables = memory(&self.machine);
        for (at, word) in tables.iter_mut().enumerate() {
            if self.tables[at] != *word {
                *word = self.word(call, at, self.tables[at], *word);
            }
        }
        match (self.fault, answer.code, ran) {
            (Fault::UnusedWord, 2, _) => tables[4000] = 1,
            (Fault::BondDroppedByNoRight, 29, Some(t)) => {
                tables[10 * t as usize + 8..][..2].fill(0)
            }
            _ => (),
        }
        let seen = &self.machine.log().seen;
        let made = Made { call, answer, ran, seen, before: &self.tables };
        made.spoil(self.fault, &mut tables);
        tables
    }

    /// The check's answer, as the fault gives it on these tables.
    fn passes(&self, tables: &[u32]) -> bool {
        let member = |t: u8| (1..=64).contains(&tables[owes_at(t)]);
        let aborting = |e: u8| tables[aborting_at(e)] == 1;
        let works = |t: u8, e: u8| tables[owes_at(t)] == 1 + e as u32;
        let sound = sound_words(tables);
        match self.fault {
            Fault::EmptySetUnsound => {
                sound && (0..64).all(|e| !aborting(e) || (0..=255).any(|t| works(t, e)))
            }
            Fault::BlockedMemberUnsound => {
                sound && (0..=255).all(|t| !member(t) || tables[10 * t as usize] == 1)
            }
            Fault::LooseMemberTaken => {
                let mut without = tables.to_vec();
                let loose = |t: &u8| member(*t) && !(0..64).any(|e| works(*t, e) && aborting(e));
                (0..=255).filter(loose).for_each(|t| without[owes_at(t)] = 0);
                sound_words(&without)
            }
            Fault::UnsoundTaken => true,
            _ => sound,
        }
    }

    fn answer(&self, call: &Call, answer: &Answer) -> [u32; 4] {
        let Answer { code, mut count, mut badge, message } = *answer;
        if let (Fault::CountOfTheAllowance, 0, Some(allowance)) =
            (self.fault, code, call.named().allowance)
        {
            count = allowance;
        }
        if self.fault == Fault::BadgeNotAnswered {
            badge = 0;
        }
        [code, count, badge, message]
    }
}

/// Faults of rights.
impl Faulty {
    /// The caller's word of the grants, as the fault has the machine see it.
    fn seen_instead(&self, call: &Call) -> Option<(usize, u32)> {
        let (t, e) = (self.machine.running()?, call.named().endpoint? as u8);
        if !call.in_range() {
            return None;
        }
        let held = self.machine.granted(t, e);
        let noted = |badge| self.machine.thread(t).bond == Bond::Note { endpoint: e, badge };
        let absent = self.machine.endpoint(e).phase == Phase::Absent;
        let word = match (self.fault, *call) {
            (Fault::SendUnderAnyBadge, Call::Send { badge, .. }) => held.rights << 28 | badge,
            (Fault::AbortBadgeCompared, Call::Abort { badge, .. }) if held.badge != badge => 0,
            (Fault::NoteBeforeRight, Call::Abort { badge, .. }) if noted(badge) => 8 << 28,
            (Fault::EndpointBeforeRight, Call::Receive { .. }) if absent => 2 << 28,
            _ => return None,
        };
        Some((64 * t as usize + e as usize, word))
    }

    /// Makes the call on the machine, with the caller's word as the fault has it.
    fn make(&mut self, call: &Call) -> Answer {
        let Some((at, word)) = self.seen_instead(call) else {
            return self.machine.call(call);
        };
        let kept = self.machine.grants().to_vec();
        let mut seen = kept.clone();
        seen[at] = word;
        self.machine = self.machine.clone().with_grants(&seen);
        let answer = self.machine.call(call);
        self.machine = self.machine.clone().with_grants(&kept);
        answer
    }

    /// The grants after a call: the machine's, but for the fault.
    fn grants_left(&self, call: &Call, answer: &Answer) -> Vec<u32> {
        let own = call.named();
        let row = 64 * own.thread.unwrap_or(0) as usize;
        let at = row + own.endpoint.unwrap_or(0) as usize;
        let refused = (19..).contains(&answer.code) && call.in_range();
        let mut left = self.machine.grants().to_vec();
        match (self.fault, *call) {
            (Fault::RowKept, Call::CreateThread { .. }) => left.copy_from_slice(&self.grants),
            (Fault::ColumnKept, Call::CreateEndpoint { .. }) => left.copy_from_slice(&self.grants),
            (Fault::RefusalClears, Call::CreateThread { .. }) if refused => {
                left[row..][..64].fill(0)
            }
            (Fault::DestroyClears, Call::DestroyThread { .. }) if !refused => {
                left[row..][..64].fill(0);
            }
            (Fault::RightsAdded, Call::Grant { .. }) if answer.accepted() => {
                left[at] |= self.grants[at] >> 28 << 28;
            }
            (Fault::BadgeWithoutRight, Call::Grant { rights: 0, badge, .. })
                if answer.accepted() =>
            {
                left[at] = badge;
            }
            (Fault::RefusalGrants, Call::Grant { rights, badge, .. }) if refused => {
                left[at] = rights << 28 | badge;
            }
            _ => (),
        }
        left
    }
}

impl Core for Faulty {
    fn fresh(&mut self) -> u32 {
        self.machine = Machine::fresh();
        self.sound = true;
        let kept = if self.fault == Fault::FreshLeaves { 1 } else { 0 };
        self.tables[kept..].fill(0);
        if self.fault != Fault::FreshLeavesGrants {
            self.grants.fill(0);
        }
        0
    }

    fn check(&mut self) -> u32 {
        let spoilt = self.scratch[0] != 0;
        self.scratch.fill(0);
        if self.fault == Fault::CheckWrites {
            self.tables[4095] ^= 1;
        }
        let sound = match self.fault {
            Fault::ScratchReadByTheCheck => self.sound && !spoilt,
            Fault::SoundRefused => self.sound && self.machine.left(63) < 4,
            Fault::EmptySetUnsound => self.sound && self.passes(&self.tables),
            Fault::BadgeZeroUnsound => self.sound && !self.grants.contains(&(1 << 28)),
            _ => self.sound,
        };
        if sound {
            0
        } else {
            17
        }
    }

    fn call(&mut self, call: &Call) -> [u32; 4] {
        self.scratch.fill(0);
        if !self.sound {
            return [17, 0, 0, 0];
        }
        let ran = self.machine.running();
        let answer = self.make(call);
        if self.fault == Fault::DisplacedToTheTail {
            self.lose_turn(ran);
        }
        self.tables = self.tables_left(call, &answer, ran);
        self.grants = self.grants_left(call, &answer);
        if self.fault == Fault::ScratchLeft && call.number() == 11 && answer.code == 2 {
            self.scratch[255] = 1;
        }
        self.answer(call, &answer)
    }

    fn running(&self) -> Option<u32> {
        let kept = (self.fault == Fault::RunningKept).then_some(0);
        self.machine.running().map(u32::from).or(kept)
    }

    fn woken(&self, thread: u32) -> [u32; 3] {
        let t = match (self.fault, u8::try_from(thread)) {
            (Fault::NeighbourWoken, Ok(t)) => t ^ 1,
            (_, Ok(t)) => t,
            (Fault::Thread256Woken, Err(_)) => 0,
            (_, Err(_)) => return [0; 3],
        };
        let block = self.machine.thread(t);
        match (self.fault, block.outcome) {
            (Fault::NobodyWoken, _) => [0; 3],
            (Fault::SendersBadgeTold, outcome) => [outcome.into(), block.badge, block.message],
            (_, 2) => [2, block.badge, block.message],
            (_, outcome) => [outcome.into(), 0, 0],
        }
    }

    fn memory(&self) -> Memory<'_> {
        Memory { tables: &self.tables, grants: &self.grants }
    }

    fn load(&mut self, memory: Memory) {
        self.tables.copy_from_slice(memory.tables);
        self.grants.copy_from_slice(memory.grants);
        self.sound = self.passes(memory.tables)
            && (sound_grants(memory.grants) || self.fault == Fault::UnsoundGrantsTaken);
        if let Some(machine) = shown(memory.tables) {
            self.machine = machine.with_grants(memory.grants);
        }
    }

    fn scratch(&mut self) -> &mut [u32] {
        &mut self.scratch
    }

    fn write(&self, call: &Call) -> Written {
        let mut written = write(call);
        if self.fault == Fault::LastBitOfTheMessage {
            written.words[2] &= !(1 << 27);
        }
        written
    }

    fn read(&self, journal: &[u32], at: usize) -> Read {
        let word = journal.get(at).copied().unwrap_or(0);
        match (self.fault, word >> 24) {
            (Fault::UnusedPartRead, 0x16) if word == 0x1600_0001 => read(&[0x1600_0000], 0),
            (Fault::RightsRefusedByRange, 0x1D) if word & 0xF000 != 0 => Read::Refused(19),
            _ => read(journal, at),
        }
    }
}
