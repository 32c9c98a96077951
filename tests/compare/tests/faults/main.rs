//! The comparison finds faults: a core made of the second machine, with one
//! fault at a time.

mod faulty;
mod members;

use comparison::{compare, report};
use faulty::{Fault, Faulty, FAULTS};

/// The number of calls by which all is to be found; the gate makes more.
const CALLS: u64 = 300_000;

#[test]
fn no_fault_no_difference() {
    let compared = compare(Faulty::new(Fault::Nothing), 1, CALLS);
    let compared = compared.map_err(|failure| report(&failure)).expect("no difference");
    assert_eq!(compared.tally.calls(), CALLS);
    assert_eq!(compared.missing(), Vec::<String>::new());
}

#[test]
fn every_fault_is_found() {
    for (seed, &fault) in (1..).zip(FAULTS) {
        let Err(failure) = compare(Faulty::new(fault), seed, CALLS) else {
            panic!("{fault:?} is not found");
        };
        println!("{fault:?}: {}", report(&failure));
    }
}

/// What is left of a list is hardly more than leads to the difference.
#[test]
fn lists_are_shortened() {
    for fault in [Fault::CursorKept, Fault::EndMarkKept, Fault::NoteLost, Fault::NoteKept] {
        let failure = compare(Faulty::new(fault), 1, CALLS).err().expect("a difference");
        assert!(failure.calls.len() <= 40, "{fault:?}: {}", report(&failure));
    }
}
