//! The ticks of a journal, by the library of tools.

use crate::entries;

/// How many counts there are: one for each thread, and the idle ticks last.
pub const COUNTS: usize = 257;

/// The place of the ticks that found nobody running.
pub const IDLE: usize = 256;

/// For each thread number the ticks at which it was running just before, and the idle ones last, of a journal whose
/// calls are made on fresh tables and grants; or 30, where the journal has over 16,000 words or the rate is above
/// 10,000, or else the reader's 18 or 19. It takes some 83 KiB of stack.
///
/// ```
/// use nazsombet::{codes, count_ticks, IDLE};
///
/// let journal = [0x1600_0000, 0x1103_0064, 0x1600_0000, 0x1600_0000];
/// let counts = count_ticks(&journal, 500).unwrap();
/// assert_eq!((counts[3], counts[IDLE]), (2, 1));
/// assert_eq!(count_ticks(&[0], 500), Err(codes::NO_CALL));
/// assert_eq!(count_ticks(&[0], 10_001), Err(codes::LIMITS));
/// ```
pub fn count_ticks(journal: &[u32], rate: u32) -> Result<[u32; COUNTS], u32> {
    let mut counts = [0; COUNTS];
    // SAFETY: the journal and the counts are apart, and their lengths are their own.
    let code = unsafe {
        let (words, length) = (journal.as_ptr(), journal.len());
        entries::nazsombet_count_ticks(words, length, rate, counts.as_mut_ptr(), COUNTS)
    };
    match code {
        0 => Ok(counts),
        _ => Err(code),
    }
}
