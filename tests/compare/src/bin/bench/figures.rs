//! The figures of every scene.

use crate::measure::{Bench, Work, COUNTED, WORKS};
use crate::scenes::Scene;
use std::path::Path;
use std::process::{Command, Stdio};

const ROUNDS: u32 = 40;
const RUNS: u32 = 100;

/// What was measured on one scene. Times of whole entries are the least of all
/// runs. The clock alone takes as long as a step, so a step's time is the
/// median of what a call takes longer than its check, on both sides.
#[derive(Clone)]
pub struct Figures {
    time: [f64; WORKS.len()],
    step: f64,
    second_step: f64,
    count: Option<[f64; WORKS.len()]>,
}

/// Whose step: a call without its check.
#[derive(Clone, Copy, Debug, PartialEq, Eq)]
pub enum Step {
    Core,
    Second,
}

impl Step {
    /// The check and the call.
    fn works(self) -> (Work, Work) {
        match self {
            Step::Core => (Work::Check, Work::Call),
            Step::Second => (Work::SecondCheck, Work::SecondCall),
        }
    }
}

impl Figures {
    fn new() -> Figures {
        Figures { time: [f64::MAX; WORKS.len()], step: 0.0, second_step: 0.0, count: None }
    }

    /// Nanoseconds, without those of measuring.
    pub fn time(&self, work: Work) -> f64 {
        self.time[work as usize] - self.time[Work::Nothing as usize]
    }

    /// Nanoseconds of a step.
    pub fn step_time(&self, step: Step) -> f64 {
        match step {
            Step::Core => self.step,
            Step::Second => self.second_step,
        }
    }

    /// Instructions, without those of measuring; none if nobody counted.
    pub fn count(&self, work: Work) -> Option<f64> {
        let counts = self.count?;
        Some(counts[work as usize] - counts[Work::Nothing as usize])
    }

    /// Of the check's figures, by this measure, the part of the grants. The check
    /// stops after the memory that it finds unsound, so that the other is left
    /// out where it comes later.
    pub fn grants_part(&self, measure: impl Fn(Work) -> Option<f64>) -> Option<f64> {
        let [check, tables, grants] =
            [Work::Check, Work::TablesRefused, Work::GrantsRefused].map(measure);
        let after_tables = check? - tables?;
        if after_tables > check? / 8.0 {
            Some(after_tables)
        } else {
            grants
        }
    }

    /// Instructions of a step.
    pub fn step_count(&self, step: Step) -> Option<f64> {
        match step {
            Step::Core => Some(self.count(Work::Call)? - self.count(Work::Check)?),
            Step::Second => self.count(Work::SecondStep),
        }
    }
}

/// Times every scene, in rounds, so that a slow moment spoils no figure.
pub fn time(scenes: &[Scene]) -> Vec<Figures> {
    let mut bench = Bench::default();
    let mut figures = vec![Figures::new(); scenes.len()];
    let mut steps = vec![[Vec::new(), Vec::new()]; scenes.len()];
    for _ in 0..ROUNDS {
        for (n, scene) in scenes.iter().enumerate() {
            bench.agree(scene);
            for work in WORKS {
                let least = &mut figures[n].time[work as usize];
                *least = least.min(bench.time(scene, work, RUNS));
            }
            for step in [Step::Core, Step::Second] {
                let (check, call) = step.works();
                steps[n][step as usize].extend(bench.steps(scene, check, call, RUNS));
            }
        }
    }
    for (figures, [core, second]) in figures.iter_mut().zip(steps) {
        figures.step = median(core);
        figures.second_step = median(second);
    }
    figures
}

fn median(mut numbers: Vec<f64>) -> f64 {
    numbers.sort_by(f64::total_cmp);
    numbers[numbers.len() / 2]
}

/// Does all work of every scene once: what `count` runs under callgrind.
pub fn run_counted(scenes: &[Scene]) {
    let mut bench = Bench::default();
    for scene in scenes {
        for work in WORKS {
            bench.count(scene, work);
        }
    }
}

/// Counts the instructions, by running this program with an option under
/// callgrind; true if that could be done.
pub fn count(figures: &mut [Figures], option: &str) -> bool {
    let folder = std::env::temp_dir().join(format!("bench-{}", std::process::id()));
    let counted = std::fs::create_dir_all(&folder).is_ok()
        && callgrind(&folder, option)
        && read_counts(&folder, figures).is_some();
    let _ = std::fs::remove_dir_all(&folder);
    counted
}

/// Callgrind writes a file each time that the counted function is left.
fn callgrind(folder: &Path, option: &str) -> bool {
    let Ok(program) = std::env::current_exe() else {
        return false;
    };
    let status = Command::new("valgrind")
        .args(["--tool=callgrind", "--collect-atstart=no"])
        .arg(format!("--toggle-collect={COUNTED}"))
        .arg(format!("--dump-after={COUNTED}"))
        .arg(format!("--callgrind-out-file={}", folder.join("out").display()))
        .arg(program)
        .arg(option)
        .stderr(Stdio::null())
        .status();
    status.is_ok_and(|status| status.success())
}

fn read_counts(folder: &Path, figures: &mut [Figures]) -> Option<()> {
    let mut files = 1..;
    for figures in figures {
        let mut counts = [0.0; WORKS.len()];
        for count in &mut counts {
            let file = folder.join(format!("out.{}", files.next()?));
            let text = std::fs::read_to_string(file).ok()?;
            let totals = text.lines().find_map(|line| line.strip_prefix("totals: "))?;
            *count = totals.trim().parse().ok()?;
        }
        figures.count = Some(counts);
    }
    Some(())
}
