//! What is answered, as include/nazsombet.h has it.

pub const DONE: u32 = 0;
/// The thread that called waits now.
pub const BLOCKED: u32 = 1;
/// Delete, abort: the allowance is used up and work is left; call again.
pub const BROKEN_OFF: u32 = 2;
/// Not 4,096 words of tables, 16,384 of grants, 256 of scratch.
pub const LENGTH: u32 = 16;
/// Tables or grants are not sound.
pub const UNSOUND: u32 = 17;
/// Numbers or words that are no call.
pub const NO_CALL: u32 = 18;
/// A number of the call is out of its range.
pub const RANGE: u32 = 19;
/// A thread's call, 7 to 12, and none runs.
pub const NOBODY_RUNS: u32 = 20;
pub const THREAD_ABSENT: u32 = 21;
pub const THREAD_PRESENT: u32 = 22;
pub const ENDPOINT_ABSENT: u32 = 23;
/// Also where it is being deleted.
pub const ENDPOINT_PRESENT: u32 = 24;
pub const ENDPOINT_CLOSING: u32 = 25;
/// Send: that badge is under abort there.
pub const BADGE_ABORTED: u32 = 26;
/// Wait: the line has a waiter.
pub const LINE_TAKEN: u32 = 27;
/// Send, receive, delete, abort: the thread lacks the right, or a send's badge.
pub const NO_RIGHT: u32 = 29;
/// Of the tools: journal, rate or counts beyond what is billed.
pub const LIMITS: u32 = 30;
