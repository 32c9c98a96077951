//! Calls: by the names of their numbers, and as the library takes them.

/// One of the thirteen calls. The host makes 1 to 6 and 13; 7 to 12 are those of the thread that runs. The numbers may
/// be any: the core refuses those that are out of range.
#[derive(Clone, Copy, Debug, PartialEq, Eq)]
pub enum Call {
    CreateThread { thread: u32, priority: u32 },
    DestroyThread { thread: u32 },
    SetPriority { thread: u32, priority: u32 },
    CreateEndpoint { endpoint: u32 },
    Interrupt { line: u32 },
    Tick,
    Send { endpoint: u32, badge: u32, message: u32 },
    Receive { endpoint: u32 },
    Yield,
    Wait { line: u32 },
    Delete { endpoint: u32, allowance: u32 },
    Abort { endpoint: u32, allowance: u32, badge: u32 },
    Grant { thread: u32, endpoint: u32, rights: u32, badge: u32 },
}

/// A call as plain numbers; those that it does not have are 0. Any six may be passed: those that name no call are
/// refused.
#[repr(C)]
#[derive(Clone, Copy, Debug, Default, PartialEq, Eq)]
pub struct Numbers {
    pub number: u32,
    pub subject: u32,
    pub argument: u32,
    pub badge: u32,
    pub message: u32,
    pub rights: u32,
}

impl From<&Numbers> for Numbers {
    fn from(numbers: &Numbers) -> Numbers {
        *numbers
    }
}

/// Number, subject and argument; the others are 0.
fn short(number: u32, subject: u32, argument: u32) -> Numbers {
    Numbers { number, subject, argument, ..Numbers::default() }
}

impl From<Call> for Numbers {
    fn from(call: Call) -> Numbers {
        match call {
            Call::CreateThread { thread, priority } => short(1, thread, priority),
            Call::DestroyThread { thread } => short(2, thread, 0),
            Call::SetPriority { thread, priority } => short(3, thread, priority),
            Call::CreateEndpoint { endpoint } => short(4, endpoint, 0),
            Call::Interrupt { line } => short(5, line, 0),
            Call::Tick => short(6, 0, 0),
            Call::Send { endpoint, badge, message } => {
                Numbers { badge, message, ..short(7, endpoint, 0) }
            }
            Call::Receive { endpoint } => short(8, endpoint, 0),
            Call::Yield => short(9, 0, 0),
            Call::Wait { line } => short(10, line, 0),
            Call::Delete { endpoint, allowance } => short(11, endpoint, allowance),
            Call::Abort { endpoint, allowance, badge } => {
                Numbers { badge, ..short(12, endpoint, allowance) }
            }
            Call::Grant { thread, endpoint, rights, badge } => {
                Numbers { badge, rights, ..short(13, thread, endpoint) }
            }
        }
    }
}
