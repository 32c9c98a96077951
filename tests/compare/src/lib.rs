//! The compiled core beside the second machine: the same calls on both, and
//! everything that can be seen of them compared after each.

mod changes;
mod compiled;
mod lists;
mod pair;
mod report;
mod run;
mod side;
mod subject;

pub use compiled::{numbers, Compiled};
pub use report::{grouped, journal, report};
pub use run::{compare, compare_watched, Compared, Failure};
pub use side::Difference;
pub use subject::{Core, Memory};
