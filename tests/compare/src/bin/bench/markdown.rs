//! The figures as tables.

use crate::figures::{Figures, Step};
use crate::measure::Work;
use crate::scenes::{ALL, AT_QUEUE, CALLS, CHECKED, DEAREST, ENDINGS, FILLS, MEMBERS, SENDERS};
use nazsombet::GRANTS;
use std::iter::once;

/// The number of the call with the most instructions.
const ABORT: usize = 12;

/// The figures, in the order of the scenes.
pub struct Report<'a>(pub &'a [Figures]);

fn row(cells: impl Iterator<Item = String>) -> String {
    format!("| {} |\n", cells.collect::<Vec<String>>().join(" | "))
}

fn head(cells: &[&str]) -> String {
    let texts = row(cells.iter().map(|&text| String::from(text)));
    let rules = cells.iter().enumerate().map(|(n, _)| if n == 0 { "---" } else { "--:" });
    texts + &format!("|{}|\n", rules.collect::<Vec<&str>>().join("|"))
}

fn whole(number: Option<f64>) -> String {
    number.map_or(String::from("-"), |n| format!("{n:.0}"))
}

/// None where there is next to nothing to compare with.
fn ratio(over: Option<f64>, under: Option<f64>) -> String {
    let under = under.filter(|&under| under >= 1.0);
    over.zip(under).map_or(String::from("-"), |(over, under)| format!("{:.2}", over / under))
}

/// One way to measure: its name, a work's figure and a step's.
#[derive(Clone, Copy)]
struct Unit {
    name: &'static str,
    work: fn(&Figures, Work) -> Option<f64>,
    step: fn(&Figures, Step) -> Option<f64>,
}

const UNITS: [Unit; 2] = [
    Unit {
        name: "nanoseconds",
        work: |figures, work| Some(figures.time(work)),
        step: |figures, step| Some(figures.step_time(step)),
    },
    Unit { name: "instructions", work: Figures::count, step: Figures::step_count },
];

impl Report<'_> {
    fn call(&self, fill: usize, number: usize) -> &Figures {
        &self.0[CALLS.len() * fill + number - 1]
    }

    /// What is done at the queue of each length.
    pub fn queue(&self, length: usize, what: usize) -> &Figures {
        &self.0[CALLS.len() * FILLS.len() + AT_QUEUE.len() * length + what]
    }

    /// How an abort with so many members ends.
    fn ending(&self, members: usize, what: usize) -> &Figures {
        let queues = CALLS.len() * FILLS.len() + AT_QUEUE.len() * SENDERS.len();
        &self.0[queues + ENDINGS.len() * members + what]
    }

    /// The check of each kind of tables.
    fn checked(&self, what: usize) -> &Figures {
        &self.0[self.0.len() - DEAREST.len() - CHECKED.len() + what]
    }

    /// A call with the most work.
    fn dearest(&self, what: usize) -> &Figures {
        &self.0[self.0.len() - DEAREST.len() + what]
    }

    /// The calls on tables of one fill.
    fn calls(&self, fill: usize, unit: Unit) -> String {
        let mut text = head(&[
            "Call",
            "core: call",
            "its check",
            "its step",
            "second machine: call",
            "its check",
            "its step",
            "core : second, call",
            "core : second, step",
        ]);
        for (number, name) in (1..).zip(CALLS) {
            let f = self.call(fill, number);
            let (call, second) = ((unit.work)(f, Work::Call), (unit.work)(f, Work::SecondCall));
            let [step, second_step] = [Step::Core, Step::Second].map(|whose| (unit.step)(f, whose));
            let check = (unit.work)(f, Work::Check);
            let second_check = (unit.work)(f, Work::SecondCheck);
            let cells = [call, check, step, second, second_check, second_step].map(whole);
            let ratios = [ratio(call, second), ratio(step, second_step)];
            text += &row(once(String::from(name)).chain(cells).chain(ratios));
        }
        text
    }

    /// The check, and the dearest call, beside passes over what is lent.
    fn passes(&self, unit: Unit) -> String {
        let mut text = head(&[
            "Tables",
            "pass",
            "sum",
            "make fresh",
            "check",
            "second machine's check",
            "abort",
            "check : pass",
            "abort : pass",
            "abort : sum",
        ]);
        for (fill, (name, _)) in FILLS.iter().enumerate() {
            let own = |work| (unit.work)(self.call(fill, ABORT), work);
            let works = [Work::Pass, Work::Sum, Work::Fresh, Work::Check, Work::SecondCheck];
            let cells = works.into_iter().chain(once(Work::Call)).map(|work| whole(own(work)));
            let ratios = [
                ratio(own(Work::Check), own(Work::Pass)),
                ratio(own(Work::Call), own(Work::Pass)),
                ratio(own(Work::Call), own(Work::Sum)),
            ];
            text += &row(once(String::from(*name)).chain(cells).chain(ratios));
        }
        text
    }

    /// What the grants take of the check, beside the sum of their words.
    fn grants(&self, unit: Unit) -> String {
        let mut text =
            head(&["Tables", "check", "the grants' part", "a word", "sum", "part : sum"]);
        for (fill, (name, _)) in FILLS.iter().enumerate() {
            let figures = self.call(fill, ABORT);
            let own = |work| (unit.work)(figures, work);
            let part = figures.grants_part(own);
            let sum = own(Work::GrantsSum);
            let cells = [
                whole(own(Work::Check)),
                whole(part),
                ratio(part, Some(GRANTS as f64)),
                whole(sum),
                ratio(part, sum),
            ];
            text += &row(once(String::from(*name)).chain(cells));
        }
        text
    }

    /// Instructions of reading the calls from their words, and words that begin
    /// none: too few for the clock.
    fn readings(&self) -> String {
        let mut text = head(&["Call", "core", "second machine", "core : second"]);
        for (number, name) in (1..).zip(CALLS) {
            let name = match number {
                _ if number == CALLS.len() => "no call, refused by 18",
                _ => name.split(',').next().unwrap_or(name),
            };
            let works = [Work::Read, Work::SecondRead];
            let [core, second] = works.map(|work| self.call(0, number).count(work));
            let cells = [whole(core), whole(second), ratio(core, second)];
            text += &row(once(String::from(name)).chain(cells));
        }
        text
    }

    /// Steps at a queue, by its length.
    fn queues(&self, unit: Unit) -> String {
        let mut text = head(&[&["Senders", "check"], &AT_QUEUE[..]].concat());
        for (length, senders) in SENDERS.iter().enumerate() {
            let cell = |what| {
                let one = (unit.step)(self.queue(0, what), Step::Core);
                let here = (unit.step)(self.queue(length, what), Step::Core);
                match (what < ALL, length) {
                    (true, _) => whole(here),
                    (false, 0) => String::from("-"),
                    (false, _) => ratio(here.zip(one).map(|(h, o)| h - o), further(*senders)),
                }
            };
            let check = whole((unit.work)(self.queue(length, 0), Work::Check));
            let cells = [senders.to_string(), check].into_iter();
            text += &row(cells.chain((0..AT_QUEUE.len()).map(cell)));
        }
        text
    }

    /// Steps that end an abort, by its members, beside the second machine's.
    fn endings(&self, unit: Unit) -> String {
        let names = ENDINGS.map(|name| [name, "second machine"]).concat();
        let mut text = head(&[&["Members noted", "check"], &names[..]].concat());
        for (n, members) in MEMBERS.iter().enumerate() {
            let name = members.map_or(String::from("no abort stands"), |m| m.to_string());
            let check = whole((unit.work)(self.ending(n, 0), Work::Check));
            let steps = (0..ENDINGS.len()).flat_map(|what| {
                [Step::Core, Step::Second].map(|whose| (unit.step)(self.ending(n, what), whose))
            });
            text += &row([name, check].into_iter().chain(steps.map(whole)));
        }
        text
    }

    /// What the check goes through.
    fn checks(&self, unit: Unit) -> String {
        let mut text = head(&["Tables", "check"]);
        for (what, name) in CHECKED.iter().enumerate() {
            let check = whole((unit.work)(self.checked(what), Work::Check));
            text += &row([String::from(*name), check].into_iter());
        }
        text
    }

    /// The calls with the most work, beside a pass over what is lent.
    fn most(&self, unit: Unit) -> String {
        let mut text = head(&["Call", "check", "step", "call", "pass", "call : pass"]);
        for (what, name) in DEAREST.iter().enumerate() {
            let figures = self.dearest(what);
            let [check, call, pass] =
                [Work::Check, Work::Call, Work::Pass].map(|work| (unit.work)(figures, work));
            let cells = [check, (unit.step)(figures, Step::Core), call, pass].map(whole);
            let over = ratio(call, pass);
            text += &row(once(String::from(*name)).chain(cells).chain(once(over)));
        }
        text
    }

    /// All tables, each under a line that says what it shows.
    pub fn text(&self, counted: bool) -> String {
        let units = &UNITS[..1 + counted as usize];
        let mut text = String::new();
        for &unit in units {
            text += &format!("\n## The check and plain passes, {}\n\n", unit.name);
            text += &self.passes(unit);
        }
        for &unit in units {
            text += &format!("\n## The grants in the check, {}\n\n", unit.name);
            text += &self.grants(unit);
        }
        for (fill, (name, _)) in FILLS.iter().enumerate() {
            for &unit in units {
                text += &format!("\n## The calls on {name} tables, {}\n\n", unit.name);
                text += &self.calls(fill, unit);
            }
        }
        for &unit in units {
            text += &format!("\n## Steps at a queue of senders, {}\n\n", unit.name);
            text += &self.queues(unit);
        }
        for &unit in units {
            text += &format!("\n## Steps that end an abort, {}\n\n", unit.name);
            text += &self.endings(unit);
        }
        for &unit in units {
            text += &format!("\n## What the check goes through, {}\n\n", unit.name);
            text += &self.checks(unit);
        }
        for &unit in units {
            text += &format!("\n## The dearest calls, {}\n\n", unit.name);
            text += &self.most(unit);
        }
        if counted {
            text += "\n## Reading a call, instructions\n\n";
            text += &self.readings();
        }
        text
    }
}

fn further(senders: u32) -> Option<f64> {
    Some(senders as f64 - 1.0)
}
