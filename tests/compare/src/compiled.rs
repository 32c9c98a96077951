//! The compiled core as the comparison sees it.

use crate::subject::{Core, Memory};
use nazsombet::{Answer, Numbers, Waking};
use second::{Call, Read, Written};

/// The compiled core, with the memory lent to it.
#[derive(Default)]
pub struct Compiled(nazsombet::Core);

/// A call as the core takes it.
pub fn numbers(call: &Call) -> Numbers {
    let own = call.named();
    let subject = own.thread.or(own.endpoint).or(own.line);
    let argument = own.priority.or(own.allowance).or(own.thread.and(own.endpoint));
    Numbers {
        number: call.number(),
        subject: subject.unwrap_or(0),
        argument: argument.unwrap_or(0),
        badge: own.badge.unwrap_or(0),
        message: own.message.unwrap_or(0),
        rights: own.rights.unwrap_or(0),
    }
}

/// A call as the core has read it; back to numbers it is what was read, so the way there hides nothing.
fn call_of(read: &Numbers) -> Call {
    let Numbers { number, subject, argument, badge, message, rights } = *read;
    let Some(call) = second::call_of(number, subject, argument, badge, message, rights) else {
        panic!("the core has read what is no call: {read:?}");
    };
    assert_eq!(numbers(&call), *read, "the numbers of the call read");
    call
}

impl Core for Compiled {
    fn fresh(&mut self) -> u32 {
        self.0.fresh()
    }

    fn check(&mut self) -> u32 {
        self.0.check()
    }

    fn call(&mut self, call: &Call) -> [u32; 4] {
        let Answer { code, count, badge, message } = self.0.call(numbers(call));
        [code, count, badge, message]
    }

    fn running(&self) -> Option<u32> {
        self.0.running()
    }

    fn woken(&self, thread: u32) -> [u32; 3] {
        let Waking { outcome, badge, message } = self.0.woken(thread);
        [outcome, badge, message]
    }

    fn memory(&self) -> Memory<'_> {
        Memory { tables: &self.0.tables, grants: &self.0.grants }
    }

    fn load(&mut self, memory: Memory) {
        self.0.tables.copy_from_slice(memory.tables);
        self.0.grants.copy_from_slice(memory.grants);
    }

    fn scratch(&mut self) -> &mut [u32] {
        &mut self.0.scratch
    }

    fn write(&self, call: &Call) -> Written {
        let nazsombet::Written { code, count, words } = nazsombet::Core::write(numbers(call));
        Written { code, words, len: count }
    }

    fn read(&self, journal: &[u32], at: usize) -> Read {
        match nazsombet::Core::read(journal, at) {
            nazsombet::Read::Found { call, next } => Read::Call { call: call_of(&call), next },
            nazsombet::Read::Refused { code, at: stays } => {
                assert_eq!(stays, at, "the reader stays where the call began");
                Read::Refused(code)
            }
            nazsombet::Read::Ended => Read::Ended,
        }
    }
}
