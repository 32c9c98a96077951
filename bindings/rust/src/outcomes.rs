//! How a thread's last waiting ended. An outcome stays until the thread blocks again, or is destroyed.

/// The thread has not waited since it was created, it waits now, or it is absent.
pub const NO_OUTCOME: u32 = 0;
/// Send: a receiver took the message.
pub const MESSAGE_TAKEN: u32 = 1;
/// Receive: a sender came; its badge and message are told too.
pub const MESSAGE_RECEIVED: u32 = 2;
/// Send: an abort removed the message.
pub const MESSAGE_ABORTED: u32 = 3;
/// Send, receive: a delete of the endpoint removed the thread from it.
pub const ENDPOINT_GONE: u32 = 4;
/// Wait: the line fired.
pub const LINE_FIRED: u32 = 5;
