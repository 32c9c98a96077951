//! What is measured: by the clock, and where callgrind counts it.

use crate::scenes::Scene;
use comparison::numbers;
use nazsombet::{Core, Numbers, Read, GRANTS, TABLES};
use second::Machine;
use std::hint::black_box;
use std::time::Instant;

/// What is done once.
#[derive(Clone, Copy, Debug, PartialEq, Eq)]
pub enum Work {
    /// Only what measuring costs by itself.
    Nothing,
    /// Every word of tables and grants compared with a constant, in turn.
    Pass,
    /// The sum of all these words, several at a time if the compiler sees to it.
    Sum,
    /// The sum of the grants' words alone.
    GrantsSum,
    Fresh,
    Check,
    /// The check where the last word of the tables makes them unsound.
    TablesRefused,
    /// The check where the last word of the grants makes them unsound.
    GrantsRefused,
    /// The core's call, the check in it.
    Call,
    /// The second machine's check.
    SecondCheck,
    /// The second machine's call, after its check.
    SecondCall,
    /// The second machine's call alone.
    SecondStep,
    /// The call read from its words.
    Read,
    /// The second machine's reading.
    SecondRead,
}

pub const WORKS: [Work; 14] = [
    Work::Nothing,
    Work::Pass,
    Work::Sum,
    Work::GrantsSum,
    Work::Fresh,
    Work::Check,
    Work::TablesRefused,
    Work::GrantsRefused,
    Work::Call,
    Work::SecondCheck,
    Work::SecondCall,
    Work::SecondStep,
    Work::Read,
    Work::SecondRead,
];

/// Both sides, with the tables and grants of a scene.
pub struct Bench {
    core: Core,
    machine: Machine,
    numbers: Numbers,
}

impl Default for Bench {
    fn default() -> Bench {
        Bench { core: Core::new(), machine: Machine::fresh(), numbers: Numbers::default() }
    }
}

impl Bench {
    /// What the work begins with; the side that it does not need stays, and with
    /// it more of the cache.
    fn load(&mut self, scene: &Scene, work: Work) {
        self.numbers = numbers(&scene.call);
        if let Work::SecondCheck | Work::SecondCall | Work::SecondStep = work {
            self.machine.copy_tables(&scene.machine);
            return;
        }
        self.core.grants.copy_from_slice(scene.machine.grants());
        self.core.tables.copy_from_slice(&scene.words);
        match work {
            Work::TablesRefused => self.core.tables[TABLES - 1] = 1,
            Work::GrantsRefused => self.core.grants[GRANTS - 1] = 1,
            _ => (),
        }
    }

    fn run(&mut self, scene: &Scene, work: Work) {
        let (tables, grants) = (&self.core.tables, &self.core.grants);
        match work {
            Work::Nothing => (),
            Work::Pass => seen([tables, grants].into_iter().all(|words| passes(words))),
            Work::Sum => seen([tables, grants].map(|words| sum(words))),
            Work::GrantsSum => seen(sum(grants)),
            Work::Fresh => seen(self.core.fresh()),
            Work::Check | Work::TablesRefused | Work::GrantsRefused => seen(self.core.check()),
            Work::Call => seen(self.core.call_numbers(black_box(&self.numbers))),
            Work::SecondCheck => seen(self.machine.sound()),
            Work::SecondCall => {
                seen(self.machine.sound());
                seen(self.machine.call(black_box(&scene.call)));
            }
            Work::SecondStep => seen(self.machine.call(black_box(&scene.call))),
            Work::Read => seen(Core::read(black_box(&scene.journal), 0)),
            Work::SecondRead => seen(second::read(black_box(&scene.journal), 0)),
        }
    }

    /// Both sides answer the scene's call, and as the scene wants it; the core
    /// reads it.
    pub fn agree(&mut self, scene: &Scene) {
        for work in [Work::TablesRefused, Work::GrantsRefused] {
            self.load(scene, work);
            assert_eq!(self.core.check(), 17, "{work:?}");
        }
        self.load(scene, Work::Call);
        self.load(scene, Work::SecondCall);
        let (core, second) = (self.core.call(&self.numbers), self.machine.call(&scene.call));
        assert_eq!((core.code, core.count), (second.code, second.count), "{:?}", scene.call);
        assert_eq!(second.accepted(), scene.call.in_range(), "{:?}: {second:?}", scene.call);
        let read = matches!(Core::read(&scene.journal, 0), Read::Found { .. });
        assert_eq!(read, scene.call.in_range(), "{:08X?}", scene.journal);
    }

    /// The time of the work, in nanoseconds: the least of many runs.
    pub fn time(&mut self, scene: &Scene, work: Work, runs: u32) -> f64 {
        let run = |_| {
            self.load(scene, work);
            self.once(scene, work)
        };
        (0..runs).map(run).fold(f64::MAX, f64::min)
    }

    /// What a call takes longer than a check right before it, in many runs,
    /// each after a check that is not timed.
    pub fn steps(&mut self, scene: &Scene, check: Work, call: Work, runs: u32) -> Vec<f64> {
        let run = |_| {
            self.load(scene, check);
            self.run(scene, check);
            let checked = self.once(scene, check);
            self.once(scene, call) - checked
        };
        (0..runs).map(run).collect()
    }

    fn once(&mut self, scene: &Scene, work: Work) -> f64 {
        let start = Instant::now();
        measured(self, scene, work);
        start.elapsed().as_nanos() as f64
    }

    /// Does the work where callgrind counts it, once it has been done before.
    pub fn count(&mut self, scene: &Scene, work: Work) {
        self.load(scene, work);
        self.run(scene, work);
        self.load(scene, work);
        measured(self, scene, work);
    }
}

/// The pass stops at a word that no scene has.
fn passes(words: &[u32]) -> bool {
    words.iter().all(|&word| word != u32::MAX)
}

fn sum(words: &[u32]) -> u32 {
    words.iter().fold(0, |sum, &word| sum.wrapping_add(word))
}

/// Takes a result, which must then be there.
fn seen<T>(result: T) {
    black_box(result);
}

/// The function that callgrind counts.
pub const COUNTED: &str = "bench::measure::measured";

#[inline(never)]
fn measured(bench: &mut Bench, scene: &Scene, work: Work) {
    bench.run(scene, work);
}
