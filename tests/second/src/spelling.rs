//! Calls spelled out as journal words; their numbers may be out of range.

/// A call's words, or several calls'.
pub type Words = Vec<u32>;

pub fn one(number: u32, subject: u32, argument: u32) -> Words {
    vec![(0x10 + number) << 24 | subject << 16 | argument]
}

pub fn create(thread: u32, priority: u32) -> Words {
    one(1, thread, priority)
}

pub fn destroy(thread: u32) -> Words {
    one(2, thread, 0)
}

pub fn priority(thread: u32, priority: u32) -> Words {
    one(3, thread, priority)
}

pub fn endpoint(endpoint: u32) -> Words {
    one(4, endpoint, 0)
}

pub fn interrupt(line: u32) -> Words {
    one(5, line, 0)
}

pub fn ticks(count: usize) -> Words {
    one(6, 0, 0).repeat(count)
}

pub fn send(endpoint: u32, badge: u32, message: u32) -> Words {
    [one(7, endpoint, 0), vec![0x2000_0000 + badge, 0x3000_0000 + message]].concat()
}

pub fn receive(endpoint: u32) -> Words {
    one(8, endpoint, 0)
}

pub fn yields() -> Words {
    one(9, 0, 0)
}

pub fn wait(line: u32) -> Words {
    one(10, line, 0)
}

pub fn delete(endpoint: u32, allowance: u32) -> Words {
    one(11, endpoint, allowance)
}

pub fn abort(endpoint: u32, allowance: u32, badge: u32) -> Words {
    [one(12, endpoint, allowance), vec![0x2000_0000 + badge]].concat()
}

pub fn grant(thread: u32, endpoint: u32, rights: u32, badge: u32) -> Words {
    [one(13, thread, rights << 8 | endpoint), vec![0x2000_0000 + badge]].concat()
}
