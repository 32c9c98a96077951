//! The thirteen calls and the answer.

pub const BADGE_LIMIT: u32 = 1 << 28;

/// The numbers that calls have, each where the call has it.
#[derive(Clone, Copy, Debug, Default, PartialEq, Eq)]
pub struct Numbers {
    pub thread: Option<u32>,
    pub priority: Option<u32>,
    pub endpoint: Option<u32>,
    pub line: Option<u32>,
    pub badge: Option<u32>,
    pub message: Option<u32>,
    pub allowance: Option<u32>,
    pub rights: Option<u32>,
}

/// A call with its own numbers, any of which may be out of range.
#[derive(Clone, Copy, Debug, PartialEq, Eq)]
pub enum Call {
    CreateThread { thread: u32, priority: u32 },
    DestroyThread { thread: u32 },
    SetPriority { thread: u32, priority: u32 },
    CreateEndpoint { endpoint: u32 },
    Interrupt { line: u32 },
    Tick,
    Send { endpoint: u32, badge: u32, message: u32 },
    Receive { endpoint: u32 },
    Yield,
    Wait { line: u32 },
    Delete { endpoint: u32, allowance: u32 },
    Abort { endpoint: u32, allowance: u32, badge: u32 },
    Grant { thread: u32, endpoint: u32, rights: u32, badge: u32 },
}

impl Call {
    /// The call number, 1 to 13.
    pub fn number(&self) -> u32 {
        match self {
            Call::CreateThread { .. } => 1,
            Call::DestroyThread { .. } => 2,
            Call::SetPriority { .. } => 3,
            Call::CreateEndpoint { .. } => 4,
            Call::Interrupt { .. } => 5,
            Call::Tick => 6,
            Call::Send { .. } => 7,
            Call::Receive { .. } => 8,
            Call::Yield => 9,
            Call::Wait { .. } => 10,
            Call::Delete { .. } => 11,
            Call::Abort { .. } => 12,
            Call::Grant { .. } => 13,
        }
    }

    /// The call's own numbers by name.
    pub fn named(&self) -> Numbers {
        let none = Numbers::default();
        let at = |endpoint: u32| Numbers { endpoint: Some(endpoint), ..none };
        let on = |line: u32| Numbers { line: Some(line), ..none };
        match *self {
            Call::CreateThread { thread, priority } | Call::SetPriority { thread, priority } => {
                Numbers { thread: Some(thread), priority: Some(priority), ..none }
            }
            Call::DestroyThread { thread } => Numbers { thread: Some(thread), ..none },
            Call::CreateEndpoint { endpoint } | Call::Receive { endpoint } => at(endpoint),
            Call::Interrupt { line } | Call::Wait { line } => on(line),
            Call::Tick | Call::Yield => none,
            Call::Send { endpoint, badge, message } => {
                Numbers { badge: Some(badge), message: Some(message), ..at(endpoint) }
            }
            Call::Delete { endpoint, allowance } => {
                Numbers { allowance: Some(allowance), ..at(endpoint) }
            }
            Call::Abort { endpoint, allowance, badge } => {
                Numbers { allowance: Some(allowance), badge: Some(badge), ..at(endpoint) }
            }
            Call::Grant { thread, endpoint, rights, badge } => Numbers {
                thread: Some(thread),
                rights: Some(rights),
                badge: Some(badge),
                ..at(endpoint)
            },
        }
    }

    /// The call's own numbers: subject, argument, words after. A grant has the
    /// endpoint and the rights in its argument.
    pub fn numbers(&self) -> Vec<u32> {
        let own = self.named();
        let subject = [own.thread, own.endpoint, own.line];
        let argument = [own.priority, own.allowance, own.rights];
        let after = [own.badge, own.message];
        subject.into_iter().chain(argument).chain(after).flatten().collect()
    }

    /// Made by the running thread rather than the host.
    pub fn by_thread(&self) -> bool {
        (7..=12).contains(&self.number())
    }

    /// False is the cause of 19.
    pub fn in_range(&self) -> bool {
        match *self {
            Call::CreateThread { thread, priority } | Call::SetPriority { thread, priority } => {
                thread < 256 && priority < 256
            }
            Call::DestroyThread { thread } => thread < 256,
            Call::CreateEndpoint { endpoint } | Call::Receive { endpoint } => endpoint < 64,
            Call::Interrupt { line } | Call::Wait { line } => line < 32,
            Call::Tick | Call::Yield => true,
            Call::Send { endpoint, badge, message } => {
                endpoint < 64 && badge < BADGE_LIMIT && message < BADGE_LIMIT
            }
            Call::Delete { endpoint, allowance } => endpoint < 64 && allowed(allowance),
            Call::Abort { endpoint, allowance, badge } => {
                endpoint < 64 && allowed(allowance) && badge < BADGE_LIMIT
            }
            Call::Grant { thread, endpoint, rights, badge } => {
                thread < 256 && endpoint < 64 && rights < 16 && badge < BADGE_LIMIT
            }
        }
    }
}

fn allowed(allowance: u32) -> bool {
    (1..=65_535).contains(&allowance)
}

/// What a call gives back.
#[derive(Clone, Copy, Debug, PartialEq, Eq)]
pub struct Answer {
    pub code: u32,
    pub count: u32,
    pub badge: u32,
    pub message: u32,
}

impl Answer {
    pub const DONE: Answer = Answer::code(0);
    pub const BLOCKED: Answer = Answer::code(1);

    /// A code and three zeros.
    pub const fn code(code: u32) -> Answer {
        Answer { code, count: 0, badge: 0, message: 0 }
    }

    /// A code with the waiters looked at or removed.
    pub const fn counted(code: u32, count: u32) -> Answer {
        Answer { code, count, badge: 0, message: 0 }
    }

    /// Codes 0, 1 and 2.
    pub fn accepted(&self) -> bool {
        self.code <= 2
    }
}
