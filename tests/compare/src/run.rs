//! Lists of calls on both sides, up to the first difference.

use crate::changes::Changes;
use crate::lists::Lists;
use crate::pair::Pair;
use crate::side::Difference;
use crate::subject::Core;
use second::{Call, Tally};

/// The first difference, and the calls from fresh tables that led to it.
#[derive(Debug)]
pub struct Failure {
    /// The number of the call that differs, from 0, over all lists.
    pub at: u64,
    pub calls: Vec<Call>,
    pub difference: Difference,
}

/// What was compared.
#[derive(Default)]
pub struct Compared {
    pub tally: Tally,
    on_tables: OnChanged,
    on_bonds: OnChanged,
    on_grants: OnChanged,
}

/// Calls on a changed memory: refused ones, and ones where it was still sound.
#[derive(Default)]
struct OnChanged {
    unsound: u64,
    sound: u64,
}

/// Compares so many calls.
pub fn compare<C: Core>(core: C, seed: u64, calls: u64) -> Result<Compared, Failure> {
    compare_watched(core, seed, calls, &mut |_| ())
}

/// The same; before each list the watcher is told how many calls were compared.
pub fn compare_watched<C: Core>(
    core: C,
    seed: u64,
    calls: u64,
    watcher: &mut dyn FnMut(u64),
) -> Result<Compared, Failure> {
    let mut pair = Pair::new(core);
    let mut lists = Lists::new(seed);
    let mut compared = Compared::default();
    while compared.tally.calls() < calls {
        let at = compared.tally.calls();
        watcher(at);
        let length = (lists.begin() as u64).min(calls - at);
        let mut made = Vec::new();
        if let Err(difference) = compared.list(&mut pair, &mut lists, length, &mut made) {
            let at = compared.tally.calls();
            let (calls, difference) = shorten(&mut pair, made, difference);
            return Err(Failure { at, calls, difference });
        }
    }
    Ok(compared)
}

impl Compared {
    /// One list from fresh tables; the calls made are kept.
    fn list<C: Core>(
        &mut self,
        pair: &mut Pair<C>,
        lists: &mut Lists,
        length: u64,
        made: &mut Vec<Call>,
    ) -> Result<(), Difference> {
        pair.fresh()?;
        self.tally.new_list();
        for _ in 0..length {
            let call = lists.next(pair.machine());
            if let Some(changes) = lists.changes(pair.memory()) {
                let sound = pair.call_changed(&changes, &call)?;
                self.count(&changes, sound);
            }
            made.push(call);
            let answer = pair.call(&call)?;
            self.tally.add(&pair.step(&call, &answer));
        }
        Ok(())
    }

    fn count(&mut self, changes: &Changes, sound: bool) {
        let on = match changes {
            Changes::Tables(_) => &mut self.on_tables,
            Changes::Bond(_) => &mut self.on_bonds,
            Changes::Grants(_) => &mut self.on_grants,
        };
        on.sound += sound as u64;
        on.unsound += !sound as u64;
    }

    /// What has not come up, of all that can.
    pub fn missing(&self) -> Vec<String> {
        let mut missing = self.tally.missing();
        for (count, text) in self.changed() {
            if count == 0 {
                missing.push(String::from(text));
            }
        }
        missing
    }

    /// Calls on changed tables and grants, by what they were.
    pub fn changed(&self) -> [(u64, &'static str); 6] {
        [
            (self.on_tables.unsound, "call on changed tables, refused by 17"),
            (self.on_tables.sound, "call on changed tables that are sound"),
            (self.on_bonds.unsound, "call where a member or a note is put, refused by 17"),
            (self.on_bonds.sound, "call where a member or a note is put that is sound"),
            (self.on_grants.unsound, "call on changed grants, refused by 17"),
            (self.on_grants.sound, "call on changed grants that are sound"),
        ]
    }
}

/// How many of the calls are made up to the first difference, and what it is.
fn first<C: Core>(pair: &mut Pair<C>, calls: &[Call]) -> Option<(usize, Difference)> {
    if let Err(difference) = pair.fresh() {
        return Some((0, difference));
    }
    let differs = |(n, call)| Some((n + 1, pair.call(call).err()?));
    calls.iter().enumerate().find_map(differs)
}

/// Leaves out calls, ever fewer at a time, as long as the rest still comes to
/// a difference; all stay where it comes by changed tables.
fn shorten<C: Core>(
    pair: &mut Pair<C>,
    mut calls: Vec<Call>,
    mut difference: Difference,
) -> (Vec<Call>, Difference) {
    if first(pair, &calls).is_none() {
        return (calls, difference);
    }
    let mut size = calls.len();
    while size > 0 {
        let length = calls.len();
        let mut at = 0;
        while at < calls.len() {
            let mut fewer = calls.clone();
            fewer.drain(at..(at + size).min(calls.len()));
            match first(pair, &fewer) {
                Some((made, found)) => {
                    fewer.truncate(made);
                    (calls, difference) = (fewer, found);
                }
                None => at += size,
            }
        }
        if size > 1 || calls.len() == length {
            size /= 2;
        }
    }
    (calls, difference)
}
