//! A log of the last call, beside the tables: looks and notable situations.

/// A look of an abort: the waiter's thread, and whether it was removed.
#[derive(Clone, Copy, Debug, PartialEq, Eq)]
pub struct Look {
    pub thread: u8,
    pub removed: bool,
}

macro_rules! situations {
    ($($name:ident = $text:expr,)*) => {
        #[derive(Clone, Copy, Debug, PartialEq, Eq)]
        pub enum Situation { $($name,)* }
        /// Every situation with its description, in order.
        pub const SITUATIONS: &[(Situation, &str)] = &[$((Situation::$name, $text),)*];
    };
}

situations! {
    AbortBegun = "abort begun",
    AbortNoSender = "abort begun with nobody queued",
    AbortReceivers = "abort begun with receivers queued",
    AbortExact = "own abort finished exactly at the allowance",
    AbortBroken = "abort broken off in the own abort",
    OtherBroken = "abort broken off in another badge's",
    OtherDone = "other badge's abort finished on the way, own begun",
    OtherExact = "allowance used up exactly as the other finishes",
    OtherExactEmpty = "same, with no sender left",
    OtherNothing = "other badge's abort had nothing left",
    OtherEmpty = "worked on another badge's abort whose set is empty",
    LookedTwice = "one waiter looked at twice in one call",
    MemberGoesOn = "member goes on with its abort",
    JoinMembers = "joined an abort that has members",
    JoinEmpty = "joined an abort whose set is empty",
    JoinNothing = "joined with nothing left",
    BrokenWithOthers = "abort broken off with two or more in the set",
    BrokenOfThree = "abort broken off with three or more in the set",
    NotedByOwn = "member noted by an abort call of the badge",
    NotedByOther = "member noted by another badge's abort call",
    NotedByDelete = "member noted by a delete that is done",
    NotedByBroken = "member noted by a delete that is broken off",
    ManyByOwn = "two or more noted by an abort call of the badge",
    ManyByOther = "two or more noted by another badge's abort call",
    ManyByDelete = "two or more noted by a delete that is done",
    ManyByBroken = "two or more noted by a delete that is broken off",
    LeaverNotes = "member's delete or abort of another badge there: the others noted, not itself",
    EndAlone = "abort ended by its only member",
    EndEmpty = "abort ended whose set is empty",
    NoteAnswered = "note answered",
    NoteAbsent = "note answered, endpoint absent",
    NoteClosing = "note answered, endpoint closing",
    NoteStanding = "note answered, same badge under a new abort",
    NoteOther = "note answered, another badge under abort",
    NoteQueued = "note answered, senders queued under its badge",
    NoteDropped = "note dropped by an other call",
    NoteMoves = "note dropped by a call that is then broken off in its own abort",
    NoteKilled = "note dropped by destruction",
    MemberLeaves = "member leaves by an other call",
    MemberMoves = "member leaves by a call that is then broken off in its own abort",
    MemberKilled = "member leaves by destruction",
    LastLeaves = "last member leaves, the abort stands",
    OthersStay = "member leaves, others stay in the set",
    MemberAbortsOther = "member aborts another badge at the same endpoint",
    MemberRefused = "member's call refused by 23 to 27, it stays in the set",
    MemberTicked = "tick while a member runs",
    MemberDisplaced = "member displaced",
    MemberPriority = "member's priority changed",
    CursorTaken = "cursor waiter left by a receive",
    CursorKilled = "cursor waiter left by destruction",
    EndTaken = "end mark alone left by a receive (cannot be: the head is then the cursor too)",
    EndKilled = "end mark waiter left by destruction",
    BothTaken = "cursor and end mark at once left by a receive",
    BothKilled = "cursor and end mark at once left by destruction",
    AbortedTaken = "sender under the aborted badge taken by a receive",
    SentBehind = "sender queues behind a standing end mark",
    SentNothing = "sender queues under an abort with nothing left",
    ReceiverUnder = "receiver queues under a standing abort",
    RefusedMember = "26 for a member",
    RefusedNothing = "26 with nothing left",
    RefusedEmpty = "26 where the set is empty",
    RefusedReceivers = "26 with receivers queued",
    DeleteEmpty = "delete of an empty open endpoint",
    DeleteExact = "delete finished exactly at the allowance",
    DeleteBroken = "delete broken off",
    DeleteReceivers = "delete removes receivers",
    DeleteGoesOn = "delete continues a closing endpoint",
    DeleteEndsAbort = "delete ends an abort",
    DeleteByMember = "delete by a member of the abort there",
    ClosingEmptied = "closing endpoint emptied by destruction",
    ClosingEmptyGone = "closing and empty endpoint deleted",
    ClosingEmptyKept = "24 at a closing and empty endpoint",
    LacksSend = "29 for a send without its right",
    LacksBadge = "29 for a send under another badge than the granted one",
    LacksAbsent = "29 at an absent endpoint",
    LacksClosing = "29 at a closing endpoint",
    LacksUnder = "29 at an endpoint under abort",
    LacksMember = "29 for a member of the abort",
    LacksNoted = "29 where a note would answer",
    HandedUngranted = "handed to a receiver that has no right any more",
    TakenUngranted = "taken from a sender that has no right or badge any more",
    GrantNothing = "rights 0 granted with a badge",
    GrantRevoked = "grant revoked",
    GrantReplaced = "grant replaced by another",
    GrantIdle = "grant with nobody running",
    GrantClosing = "grant at a closing endpoint",
    RevokedSender = "send right revoked while its holder waits",
    RevokedReceiver = "receive right revoked while its holder waits",
    RevokedMember = "abort right revoked while its holder is a member there",
    RevokedNoted = "abort right revoked while its holder has a note",
    RevokedClosing = "delete right revoked at a closing endpoint",
    Displaced = "running thread displaced",
    DisplacedBefore = "caller displaced before threads it woke at its level",
    TicksSpent = "ticks spent",
    IdleTick = "tick with nobody running",
    SamePriority = "same priority set",
    ReadyMoved = "ready thread moved to another level",
    RunningLowered = "running thread lowered and displaced",
    BlockedPriority = "blocked thread's priority changed",
    RunningKilled = "running thread destroyed",
    ReadyKilled = "ready thread destroyed",
    LineKilled = "waiter on a line destroyed",
    LineFired = "waiter on a line woken",
    PendingAgain = "interrupt on a pending line",
    PendingTaken = "wait takes a pending line",
}

/// What the last call did, for printing and counting only.
#[derive(Clone, Default)]
pub struct Log {
    pub looks: Vec<Look>,
    pub seen: Vec<Situation>,
    pub woken: Vec<u8>,
}

impl Log {
    pub fn clear(&mut self) {
        self.looks.clear();
        self.seen.clear();
        self.woken.clear();
    }

    pub fn saw(&mut self, situation: Situation) {
        self.seen.push(situation);
    }

    pub fn saw_if(&mut self, holds: bool, situation: Situation) {
        if holds {
            self.seen.push(situation);
        }
    }
}
