//! The blocks of threads, endpoints and lines.

use crate::queue::Queue;
use crate::set::Set;

/// Where a thread stands.
#[derive(Clone, Copy, Debug, PartialEq, Eq)]
pub enum Place {
    Absent,
    Running,
    Ready,
    Sending(u8),
    Receiving(u8),
    OnLine(u8),
}

/// What ties a thread to an abort: it is one of those who work on it, or has a
/// note that it ended.
#[derive(Clone, Copy, Debug, PartialEq, Eq)]
pub enum Bond {
    None,
    Member { endpoint: u8, badge: u32 },
    Note { endpoint: u8, badge: u32 },
}

#[derive(Clone, Copy, Debug, PartialEq, Eq)]
pub struct Thread {
    pub place: Place,
    pub priority: u8,
    pub ticks: u8,
    pub outcome: u8,
    pub badge: u32,
    pub message: u32,
    pub bond: Bond,
}

impl Thread {
    pub const ABSENT: Thread = Thread {
        place: Place::Absent,
        priority: 0,
        ticks: 0,
        outcome: 0,
        badge: 0,
        message: 0,
        bond: Bond::None,
    };

    pub fn present(&self) -> bool {
        self.place != Place::Absent
    }

    pub fn blocked(&self) -> bool {
        matches!(self.place, Place::Sending(_) | Place::Receiving(_) | Place::OnLine(_))
    }
}

#[derive(Clone, Copy, Debug, PartialEq, Eq)]
pub enum Phase {
    Absent,
    Open,
    Closing,
}

/// A standing abort. The span is cursor and end mark, or nothing left; the
/// members are the threads that work on it.
#[derive(Clone, Copy, Debug, PartialEq, Eq)]
pub struct Abort {
    pub badge: u32,
    pub span: Option<(u8, u8)>,
    pub members: Set,
}

#[derive(Clone, Copy, Debug, PartialEq, Eq)]
pub struct Endpoint {
    pub phase: Phase,
    pub queue: Queue,
    pub abort: Option<Abort>,
}

impl Endpoint {
    pub const ABSENT: Endpoint =
        Endpoint { phase: Phase::Absent, queue: Queue::EMPTY, abort: None };
}

#[derive(Clone, Copy, Debug, PartialEq, Eq)]
pub struct Line {
    pub pending: bool,
    pub waiter: Option<u8>,
}

impl Line {
    pub const QUIET: Line = Line { pending: false, waiter: None };
}
