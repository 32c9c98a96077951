//! One call on both sides.

use crate::changes::Changes;
use crate::side::{same, Difference, Same, Side};
use crate::subject::{Core, Memory};
use second::{shown, sound_grants, sound_words, write_memory, Answer, Call, Machine, Step, TABLE};
use std::mem::replace;

fn memory_of<'a>(tables: &'a [u32], machine: &'a Machine) -> Memory<'a> {
    Memory { tables, grants: machine.grants() }
}

/// Outcome, badge and message as a host is to hear them; there is no thread 256.
fn waking(machine: &Machine, thread: u32) -> [u32; 3] {
    let Ok(thread) = u8::try_from(thread) else {
        return [0; 3];
    };
    let block = machine.thread(thread);
    match block.outcome {
        2 => [2, block.badge, block.message],
        outcome => [outcome.into(), 0, 0],
    }
}

/// The core and the second machine, after the same calls.
pub struct Pair<C> {
    side: Side<C>,
    /// A number from 0 to 256, another one with each call.
    turn: u32,
    before: Machine,
    machine: Machine,
    /// The machine's tables as words; its grants are words themselves.
    image: Vec<u32>,
}

impl<C: Core> Pair<C> {
    pub fn new(core: C) -> Pair<C> {
        let (before, machine) = (Machine::fresh(), Machine::fresh());
        Pair { side: Side::new(core), turn: 0, before, machine, image: vec![0; TABLE] }
    }

    pub fn machine(&self) -> &Machine {
        &self.machine
    }

    pub fn memory(&self) -> Memory<'_> {
        self.side.core.memory()
    }

    /// The last call, with its answer.
    pub fn step<'a>(&'a self, call: &'a Call, answer: &'a Answer) -> Step<'a> {
        Step { before: &self.before, call, answer, after: &self.machine }
    }

    /// Fresh tables on both sides.
    pub fn fresh(&mut self) -> Same {
        self.machine = Machine::fresh();
        same("fresh", self.side.core.fresh(), 0)?;
        self.same_state("after fresh")
    }

    /// Makes a call on both sides and compares all that can be seen.
    pub fn call(&mut self, call: &Call) -> Result<Answer, Difference> {
        self.side.journal(call)?;
        self.before.copy_tables(&self.machine);
        let answer = self.machine.call(call);
        let Answer { code, count, badge, message } = answer;
        self.side.call(call, [code, count, badge, message])?;
        self.same_state("after the call")?;
        self.same_wakings()?;
        self.side.check(memory_of(&self.image, &self.machine), 0)?;
        Ok(answer)
    }

    /// Who runs, and tables and grants: they are the memory of the machine.
    fn same_state(&mut self, when: &str) -> Same {
        same("running thread", self.side.core.running(), self.machine.running().map(u32::from))?;
        write_memory(&self.machine, &mut self.image);
        self.side.memory(memory_of(&self.image, &self.machine), when)
    }

    /// How threads were woken: who made the call, who runs, all that the call woke, and one number more in its turn.
    fn same_wakings(&mut self) -> Same {
        self.turn = (self.turn + 1) % 257;
        let ran = [self.before.running(), self.machine.running()].into_iter().flatten();
        let woken = self.machine.log().woken.iter().copied();
        for thread in ran.chain(woken).map(u32::from).chain([self.turn]) {
            let (core, second) = (self.side.core.woken(thread), waking(&self.machine, thread));
            if core != second {
                return same(&format!("how thread {thread} was woken"), core, second);
            }
        }
        Ok(())
    }
}

/// Tables and grants that no call has left so.
impl<C: Core> Pair<C> {
    /// Makes a call where some words of tables or grants are changed, and takes
    /// the changes back. Such words are refused, or show another state that is
    /// sound: true.
    pub fn call_changed(&mut self, changes: &Changes, call: &Call) -> Result<bool, Difference> {
        let (tables, grants) = changes.made(memory_of(&self.image, &self.machine));
        let memory = Memory { tables: &tables, grants: &grants };
        self.side.core.load(memory);
        let sound = sound_words(&tables) && sound_grants(&grants);
        let same = if sound { self.call_shown(memory, call) } else { self.refused(memory, call) };
        same.map_err(|difference| {
            let what = format!("with {changes:?} put there, {call:?}: {}", difference.what);
            Difference { what, ..difference }
        })?;
        write_memory(&self.machine, &mut self.image);
        self.side.core.load(memory_of(&self.image, &self.machine));
        Ok(sound)
    }

    /// A call on the machine that the words show.
    fn call_shown(&mut self, memory: Memory, call: &Call) -> Same {
        let machine = shown(memory.tables).expect("sound words show a machine");
        let kept = replace(&mut self.machine, machine.with_grants(memory.grants));
        self.side.check(memory, 0)?;
        self.call(call)?;
        self.machine = kept;
        Ok(())
    }

    /// A call on words that are not sound.
    fn refused(&mut self, memory: Memory, call: &Call) -> Same {
        self.side.check(memory, 17)?;
        self.side.call(call, [17, 0, 0, 0])?;
        self.side.memory(memory, "after the call")
    }
}
