//! A line that says how far the comparison has come, where somebody looks on.

use comparison::grouped;
use std::io::{stderr, IsTerminal, Write};
use std::time::{Duration, Instant};

const PAUSE: Duration = Duration::from_millis(500);

/// The line on standard error, if that is a terminal; else nothing.
pub struct Progress {
    of: u64,
    terminal: bool,
    written: Instant,
}

impl Progress {
    pub fn new(of: u64) -> Progress {
        Progress { of, terminal: stderr().is_terminal(), written: Instant::now() }
    }

    /// So many calls are compared: writes it over the line, twice a second.
    pub fn reached(&mut self, calls: u64) {
        if self.terminal && self.written.elapsed() >= PAUSE {
            self.written = Instant::now();
            put(&line(calls, self.of));
        }
    }

    pub fn clear(&self) {
        if self.terminal {
            put("");
        }
    }
}

/// Puts a text in place of the line that the cursor is in. A terminal that
/// takes none is no reason to stop.
fn put(text: &str) {
    let mut out = stderr();
    let _ = write!(out, "\r\x1b[K{text}").and_then(|()| out.flush());
}

fn line(calls: u64, of: u64) -> String {
    format!("compare: {} of {} calls", grouped(calls), grouped(of))
}

#[cfg(test)]
mod tests {
    use super::line;

    #[test]
    fn numbers_in_groups_of_three() {
        assert_eq!(line(0, 999), "compare: 0 of 999 calls");
        assert_eq!(line(1_000, 20_000), "compare: 1,000 of 20,000 calls");
        assert_eq!(line(1_200_000, 2_000_000), "compare: 1,200,000 of 2,000,000 calls");
    }
}
