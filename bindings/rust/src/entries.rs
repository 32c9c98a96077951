//! The declarations of include/nazsombet.h and nazsombet_tools.h. Nothing checks them against the libraries but the
//! tests, so they stand beside the header's.

use crate::{Answer, Numbers};

extern "C" {
    pub fn nazsombet_fresh(
        tables: *mut u32,
        tables_length: usize,
        grants: *mut u32,
        grants_length: usize,
    ) -> u32;
    pub fn nazsombet_check(
        tables: *const u32,
        tables_length: usize,
        grants: *const u32,
        grants_length: usize,
        scratch: *mut u32,
        scratch_length: usize,
    ) -> u32;
    pub fn nazsombet_call(
        tables: *mut u32,
        tables_length: usize,
        grants: *mut u32,
        grants_length: usize,
        scratch: *mut u32,
        scratch_length: usize,
        call: *const Numbers,
        answer: *mut Answer,
    ) -> u32;
    pub fn nazsombet_read(
        journal: *const u32,
        journal_length: usize,
        at: *mut usize,
        call: *mut Numbers,
    ) -> u32;
    pub fn nazsombet_write(call: *const Numbers, words: *mut [u32; 3], count: *mut usize) -> u32;
    pub fn nazsombet_running(tables: *const u32, tables_length: usize) -> u32;
    pub fn nazsombet_woken(
        tables: *const u32,
        tables_length: usize,
        thread: u32,
        woken: *mut [u32; 3],
    );
}

#[cfg(feature = "tools")]
extern "C" {
    pub fn nazsombet_sentence(
        call: *const Numbers,
        answer: *const Answer,
        out: *mut u8,
        out_length: usize,
        used: *mut usize,
    ) -> u32;
    pub fn nazsombet_count_ticks(
        journal: *const u32,
        journal_length: usize,
        rate: u32,
        counts: *mut u32,
        counts_length: usize,
    ) -> u32;
}
