//! Rights, to be added up. A send needs its right and the badge that was granted, the other three their right alone.

pub const SEND: u32 = 1;
pub const RECEIVE: u32 = 2;
pub const DELETE: u32 = 4;
/// Of any badge there.
pub const ABORT: u32 = 8;
