//! The check of the tables' words: sound ones, and ones with one fault.

use second::{
    memory, read_tables, report_lengths, report_tables, shown, sound_words, sweep, Counts, Machine,
    Steer, CHANGES, TABLE, TABLES,
};

/// The words of a table, from 1, with some set anew.
fn with(table: usize, words: &[(usize, u32)]) -> Vec<u32> {
    let mut memory = read_tables(TABLES)[table - 1].clone();
    for &(at, word) in words {
        memory[at] = word;
    }
    memory
}

#[test]
fn fresh() {
    let words = memory(&Machine::fresh());
    assert_eq!(words, [0; TABLE]);
    assert!(sound_words(&words));
    assert!(!sound_words(&words[1..]));
    assert!(!sound_words(&[0; TABLE + 1]));
    assert!(!sound_words(&[]));
}

#[test]
fn written_out() {
    let tables = read_tables(TABLES);
    assert_eq!(tables.len(), 10);
    for (n, words) in tables.iter().enumerate() {
        assert_eq!(sound_words(words), n < 7, "table {}", n + 1);
    }
}

/// Every machine that calls reach has a memory, which shows it.
#[test]
fn reached() {
    for seed in 1..6 {
        let mut steer = Steer::new(seed);
        let mut machine = Machine::fresh();
        for _ in 0..200 {
            let call = steer.next(&machine);
            machine.call(&call);
            let words = memory(&machine);
            assert!(sound_words(&words));
            let shown = shown(&words).map(|m| m.with_grants(machine.grants()));
            assert!(shown == Some(machine.clone()));
        }
    }
}

/// Counted by hand. To 0: the outcomes. To one more: 64 endpoints become
/// live, 32 lines pending; four ticks, five outcomes.
#[test]
fn counted_1() {
    let words = with(1, &[]);
    let zero = Counts { same: TABLE as u32 - 36, sound: 4, unsound: 32 };
    let more = Counts { same: 0, sound: 64 + 32 + 4 + 5, unsound: 3991 };
    let ones = Counts { same: 0, sound: 0, unsound: TABLE as u32 };
    let counts = CHANGES.map(|(_, change)| sweep(&words, change));
    assert_eq!(counts, [zero, more, ones]);
}

/// Counted by hand. To 0: four priorities of blocked threads, five badges, four
/// messages, the aborted badge, each of the two members. To one more: 63
/// endpoints, 32 lines; three ticks, the two members' outcomes, five
/// priorities, five badges, four messages, the end mark; each of the five
/// senders becomes a member.
#[test]
fn counted_2() {
    let words = with(2, &[]);
    let zero = Counts { same: TABLE as u32 - 51, sound: 4 + 5 + 4 + 1 + 2, unsound: 35 };
    let more = Counts { same: 0, sound: 63 + 32 + 3 + 2 + 5 + 5 + 4 + 1 + 5, unsound: 3976 };
    let ones = Counts { same: 0, sound: 0, unsound: TABLE as u32 };
    let counts = CHANGES.map(|(_, change)| sweep(&words, change));
    assert_eq!(counts, [zero, more, ones]);
}

#[test]
fn still_sound() {
    let kept: [(usize, &[(usize, u32)]); 16] = [
        (1, &[(3561, 2), (3070, 1), (3071, 1)]), // threads 0 and 1 change their parts
        (1, &[(2622, 4), (2623, 3), (26, 0), (27, 4), (36, 3), (37, 0)]), // level 31 the other way
        (2, &[(98, 0)]),                         // one member has left
        (2, &[(88, 0), (98, 0)]),                // both: the set is empty
        (2, &[(98, 65), (99, 7)]),               // a note of this abort's badge though it stands
        (2, &[(18, 1), (48, 1)]),                // senders, the end mark among them, are members
        (2, &[(3205, 1), (3206, 1), (98, 2)]),   // a member of another endpoint's abort
        (2, &[(3203, 2), (3204, 6)]),            // the marks at head and tail
        (2, &[(24, 1), (44, 1), (3203, 0), (3204, 0)]), // nothing left
        (2, &[(24, 1), (3203, 5)]),              // cursor and end mark on one
        (3, &[(3511, 0), (3512, 0), (8, 0), (128, 0)]), // the abort among receivers is none
        (3, &[(8, 64)]),                         // another abort's member, whose set was empty
        (5, &[(128, 0)]),                        // a blocked member fewer
        (5, &[(2, 1), (8, 2)]),                  // one more
        (6, &[(49, 0)]),                         // another note
        (6, &[(38, 0), (58, 0), (78, 0)]),       // three members fewer
    ];
    for (table, words) in kept {
        assert!(sound_words(&with(table, words)), "table {table}, {words:?}");
    }
}

/// Tables with one fault: of which table, and the words set anew.
const FAULTS: [(usize, &[(usize, u32)]); 47] = [
    (1, &[(3562, 1)]),                   // an unused word
    (1, &[(4095, 1)]),                   // the last one
    (1, &[(52, 5)]),                     // an absent thread's ticks
    (1, &[(56, 6), (57, 6)]),            // an absent thread, linked to itself
    (1, &[(50, 1), (52, 5)]),            // ready in no queue
    (1, &[(3561, 0)]),                   // ready, and nobody runs
    (1, &[(3561, 2)]),                   // the running thread queued
    (1, &[(1, 254)]),                    // a level above the running thread's
    (1, &[(26, 3), (27, 3), (2623, 3)]), // a queue that runs in a circle
    (1, &[(37, 0)]),                     // not linked back
    (1, &[(2623, 3)]),                   // the tail is not the last
    (1, &[(3552, 2147483648)]),          // a summary bit is missing
    (1, &[(3552, 2147483651)]),          // one too many
    (1, &[(3560, 3)]),                   // a top bit is missing
    (1, &[(3560, 135)]),                 // one too many
    (1, &[(21, 30)]),                    // queued at another level
    (1, &[(22, 0)]),                     // no tick
    (1, &[(32, 6)]),                     // six
    (1, &[(2, 257)]),                    // ticks that would be 1 in a byte
    (1, &[(4, 1)]),                      // a badge without outcome 2
    (1, &[(8, 1)]),                      // a member at an endpoint that is missing
    (1, &[(3200, 1), (8, 1)]),           // at a live one without an abort
    (1, &[(3200, 2), (8, 1)]),           // at one that is closing
    (2, &[(13, 1)]),                     // a blocked thread's outcome
    (2, &[(14, 1 << 28)]),               // a badge too large
    (2, &[(3203, 5), (3204, 3)]),        // cursor behind the end mark
    (2, &[(3203, 0)]),                   // an end mark alone
    (2, &[(3204, 10), (3203, 10)]),      // marks on a thread elsewhere
    (2, &[(54, 7)]),                     // the aborted badge behind the end mark
    (2, &[(14, 7)]),                     // and before the cursor
    (2, &[(98, 2)]),                     // a member where no abort stands
    (2, &[(108, 1)]),                    // an absent thread among the members
    (2, &[(89, 7)]),                     // a member with a note's badge
    (2, &[(88, 65), (89, 1 << 28)]),     // a note in its place, its badge too large
    (2, &[(3200, 2)]),                   // closing with an abort
    (2, &[(3201, 0)]),                   // an abort's words without one
    // A closing endpoint's abort is gone, its members are not.
    (2, &[(3200, 2), (3201, 0), (3202, 0), (3203, 0), (3204, 0)]),
    (2, &[(30, 66)]),                     // a receiver among senders
    (3, &[(3505, 3)]),                    // no such status
    (3, &[(3513, 11), (3514, 11)]),       // marks on a receiver
    (3, &[(3511, 0), (3512, 0), (8, 0)]), // the abort is none, a blocked member is left
    (4, &[(3225, 0)]),                    // waiters at a missing endpoint
    (4, &[(309, 1 << 28)]),               // a note's badge too large
    (4, &[(318, 129)]),                   // no such note
    (4, &[(308, 7), (309, 0)]),           // a member at a closing endpoint
    (5, &[(3521, 1)]),                    // a waiter on a line that is pending
    (5, &[(3523, 2)]),                    // waited on twice
];

#[test]
fn broken() {
    for (table, words) in FAULTS {
        assert!(!sound_words(&with(table, words)), "table {table}, {words:?}");
    }
}

/// All 256 threads ready but the first, which runs; endpoint 0 is live, and
/// nobody waits there. Badge 7 is under abort, or none is.
fn full(aborting: u32) -> Vec<u32> {
    let mut words = vec![0; TABLE];
    for t in 0..256 {
        let (next, prev) = (t as u32 + 2, t as u32);
        let links = [if t == 255 { 0 } else { next }, if t == 1 { 0 } else { prev }];
        words[10 * t] = 1;
        words[10 * t + 2] = 5;
        words[10 * t + 6..][..2].copy_from_slice(if t == 0 { &[0, 0] } else { &links });
    }
    words[2560..][..2].copy_from_slice(&[2, 256]);
    words[3200..][..3].copy_from_slice(&[1, aborting, 7 * aborting]);
    words[3552] = 1;
    words[3560] = 1;
    words[3561] = 1;
    words
}

/// Any number of threads may work on one abort; on none that does not stand.
#[test]
fn sets_of_every_size() {
    assert!(sound_words(&full(0)) && sound_words(&full(1)));
    for members in [1, 2, 64, 254, 255, 256] {
        for from in [0, 256 - members] {
            for aborting in [0, 1] {
                let mut words = full(aborting);
                (from..from + members).for_each(|t| words[10 * t + 8] = 1);
                assert_eq!(sound_words(&words), aborting == 1, "{members} members from {from}");
                let shown = shown(&words).expect("each word has a meaning");
                let set = shown.endpoint(0).abort.map_or(0, |abort| abort.members.count());
                assert_eq!(set, aborting * members as u32);
            }
        }
    }
}

/// The program `lent_tables_edges` reads these tables, and is held to what this
/// machine says of them.
#[test]
fn edges() {
    let stdin = include_str!("../../../crates/lent_tables_edges/stdin");
    let stdout = include_str!("../../../crates/lent_tables_edges/stdout");
    assert_eq!(stdin, TABLES);
    assert_eq!(stdout, report_lengths() + &report_tables(&read_tables(stdin)));
}
