//! What is compared with the second machine.

use second::{Call, Read, Written};

/// The tables and the grants, each word for word.
#[derive(Clone, Copy)]
pub struct Memory<'a> {
    pub tables: &'a [u32],
    pub grants: &'a [u32],
}

/// A core with its tables, its grants and its scratch.
pub trait Core {
    fn fresh(&mut self) -> u32;
    fn check(&mut self) -> u32;
    fn call(&mut self, call: &Call) -> [u32; 4];

    fn running(&self) -> Option<u32>;

    /// How a thread was woken: outcome, badge, message.
    fn woken(&self, thread: u32) -> [u32; 3];

    fn memory(&self) -> Memory<'_>;

    /// Puts other words in the place of tables and grants.
    fn load(&mut self, memory: Memory);

    fn scratch(&mut self) -> &mut [u32];
    fn write(&self, call: &Call) -> Written;
    fn read(&self, journal: &[u32], at: usize) -> Read;
}
