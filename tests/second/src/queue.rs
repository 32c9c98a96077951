//! Queues over one pair of links for each thread, and the two-level bitmap.

/// A thread stands in one queue at most, so one pair of links will do.
#[derive(Clone, PartialEq, Eq)]
pub struct Links {
    pub next: [Option<u8>; 256],
    pub prev: [Option<u8>; 256],
}

#[derive(Clone, Copy, Debug, PartialEq, Eq)]
pub struct Queue {
    pub head: Option<u8>,
    pub tail: Option<u8>,
}

impl Queue {
    pub const EMPTY: Queue = Queue { head: None, tail: None };

    pub fn is_empty(&self) -> bool {
        self.head.is_none()
    }
}

impl Links {
    pub fn new() -> Links {
        Links { next: [None; 256], prev: [None; 256] }
    }

    /// Joins the tail.
    pub fn push(&mut self, queue: &mut Queue, t: u8) {
        self.next[t as usize] = None;
        self.prev[t as usize] = queue.tail;
        match queue.tail {
            Some(last) => self.next[last as usize] = Some(t),
            None => queue.head = Some(t),
        }
        queue.tail = Some(t);
    }

    /// Joins the head.
    pub fn push_first(&mut self, queue: &mut Queue, t: u8) {
        self.prev[t as usize] = None;
        self.next[t as usize] = queue.head;
        match queue.head {
            Some(first) => self.prev[first as usize] = Some(t),
            None => queue.tail = Some(t),
        }
        queue.head = Some(t);
    }

    /// Leaves the queue from anywhere in it.
    pub fn unlink(&mut self, queue: &mut Queue, t: u8) {
        let before = self.prev[t as usize].take();
        let after = self.next[t as usize].take();
        match before {
            Some(b) => self.next[b as usize] = after,
            None => queue.head = after,
        }
        match after {
            Some(a) => self.prev[a as usize] = before,
            None => queue.tail = before,
        }
    }

    /// The queue's threads from head to tail.
    pub fn list(&self, queue: &Queue) -> Vec<u8> {
        let mut out = Vec::new();
        let mut at = queue.head;
        while let Some(t) = at {
            out.push(t);
            assert!(out.len() <= 256, "queue runs in a circle");
            at = self.next[t as usize];
        }
        out
    }
}

/// Which levels are occupied: a bit for each, and a bit for each word.
#[derive(Clone, Copy, Debug, PartialEq, Eq)]
pub struct Summary {
    pub top: u32,
    pub words: [u32; 8],
}

impl Summary {
    pub const EMPTY: Summary = Summary { top: 0, words: [0; 8] };

    pub fn occupied(mut self, level: u8) -> Summary {
        let w = level as usize / 32;
        self.words[w] |= 1 << (level % 32);
        self.top |= 1 << w;
        self
    }

    pub fn emptied(mut self, level: u8) -> Summary {
        let w = level as usize / 32;
        self.words[w] &= !(1 << (level % 32));
        if self.words[w] == 0 {
            self.top &= !(1 << w);
        }
        self
    }

    pub fn highest(&self) -> Option<u8> {
        if self.top == 0 {
            return None;
        }
        let w = 31 - self.top.leading_zeros();
        let bit = 31 - self.words[w as usize].leading_zeros();
        Some((32 * w + bit) as u8)
    }
}
