//! A second kernel core for comparison: 256 threads, 64 endpoints,
//! 256 priorities, 32 interrupt lines, thirteen calls, rights at endpoints,
//! the journal, its listing, its telling in sentences and its bill.

mod abort;
mod bill;
mod call;
mod grants;
mod journal;
mod listing;
mod machine;
mod queue;
mod set;
mod situation;
mod sound;
pub mod spelling;
mod steer;
mod stories;
mod sweep;
mod tables;
mod tally;
mod telling;
mod turns;
mod words;

pub use bill::bill;
pub use call::{Answer, Call, Numbers};
pub use grants::{grant_name, sound_grants, Grant, ABORT, DELETE, GRANTS, RECEIVE, SEND};
pub use journal::{call_of, read, write, Read, Written, WORDS};
pub use listing::{listing, HEADER};
pub use machine::Machine;
pub use queue::{Queue, Summary};
pub use set::Set;
pub use situation::{Log, Look, Situation, SITUATIONS};
pub use steer::{Profile, Rng, Steer};
pub use sweep::{read_tables, report_lengths, report_tables, sum, sweep, Counts, CHANGES, TABLES};
pub use tables::{Abort, Bond, Endpoint, Line, Phase, Place, Thread};
pub use tally::{Step, Tally};
pub use telling::{numbered_telling, sentence, telling};
pub use words::{aborting_at, memory, owes_at, shown, sound_words, word_name, write_memory, TABLE};
