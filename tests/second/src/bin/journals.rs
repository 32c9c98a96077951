//! journals FOLDER: writes the test journals, NAME.words, and of each the
//! listing, NAME.txt, the telling, NAME.told, and the numbered telling,
//! NAME.numbered. What each is for stands in the folder's README.

use second::spelling::{
    abort, create, delete, destroy, endpoint, grant, interrupt, priority, receive, send, ticks,
    wait, yields, Words,
};
use second::{listing, numbered_telling, telling, write};
use second::{Machine, Steer, ABORT, DELETE, RECEIVE, SEND};
use std::{env, fs, io, path::Path};

/// A new thread with rights at an endpoint.
fn holder(thread: u32, priority: u32, endpoint: u32, rights: u32, badge: u32) -> Words {
    [create(thread, priority), grant(thread, endpoint, rights, badge)].concat()
}

/// A new thread at level 10 that sends and is left queued.
fn sender(thread: u32, endpoint: u32, badge: u32) -> Words {
    [holder(thread, 10, endpoint, SEND, badge), send(endpoint, badge, 100 + thread)].concat()
}

/// A new endpoint with senders 2, 3 and so on of these badges queued.
fn queued(at: u32, badges: &[u32]) -> Words {
    let senders = (2..).zip(badges).flat_map(|(thread, &badge)| sender(thread, at, badge));
    endpoint(at).into_iter().chain(senders).collect()
}

/// The largest badge, message and allowance.
const TOP: u32 = (1 << 28) - 1;
const ALL: u32 = 65_535;
/// All four rights.
const ANY: u32 = SEND | RECEIVE | DELETE | ABORT;

fn example() -> Words {
    [
        create(1, 10),
        create(2, 10),
        create(3, 20),
        endpoint(0),
        grant(1, 0, SEND, 8),
        grant(2, 0, ABORT, 0),
        grant(3, 0, SEND | RECEIVE | ABORT, 7),
        send(0, 7, 100),
        send(0, 8, 200),
        abort(0, 1, 7),
        send(0, 7, 101),
        receive(0),
        abort(0, 5, 7),
        destroy(3),
        abort(0, 1, 7),
    ]
    .concat()
}

fn incident() -> Words {
    [
        create(2, 5),
        endpoint(0),
        grant(2, 0, SEND, 7),
        send(0, 7, 100),
        holder(3, 5, 0, SEND, 8),
        send(0, 8, 200),
        holder(4, 5, 0, SEND, 7),
        send(0, 7, 101),
        holder(1, 10, 0, RECEIVE | ABORT, 0),
        abort(0, 1, 7),
        destroy(3),
        holder(5, 11, 0, SEND, 7),
        send(0, 7, 300),
        wait(0),
        abort(0, 5, 7),
        interrupt(0),
        send(0, 7, 300),
        receive(0),
    ]
    .concat()
}

/// T-05's further case: 1, 2 and 3 hold badge 7, then 4; 11 begins its abort, 12
/// and 13 join.
fn joiners() -> Words {
    let old = |thread| [holder(thread, 5, 0, SEND, 7), send(0, 7, thread)].concat();
    [
        endpoint(0),
        old(1),
        old(2),
        old(3),
        create(11, 10),
        create(12, 5),
        create(13, 5),
        grant(11, 0, ABORT, 0),
        grant(12, 0, RECEIVE | ABORT, 0),
        grant(13, 0, ABORT, 0),
        abort(0, 1, 7), // removes 1, broken off
        priority(12, 11),
        abort(0, 1, 7), // removes 2, broken off
        priority(13, 12),
        abort(0, 1, 7), // removes 3: 11 and 12 have a note
        create(4, 20),
        grant(1, 0, 0, 0),
        grant(4, 0, SEND, 7), // the badge has a new holder
        send(0, 7, 500),
        priority(11, 13),
        abort(0, 5, 7), // from the note
        priority(12, 14),
        abort(0, 5, 7), // from the note
        receive(0),     // the new holder's message
    ]
    .concat()
}

/// Server 1 has received lookup 100 of badge 7 and waits for its page; the
/// badge's holder 2 is gone, and page store 9 has aborted the badge. Answers go
/// to endpoint 7, where the old holder's line out, 4, waits.
fn unanswered() -> Words {
    [
        endpoint(0),
        endpoint(7),
        holder(1, 10, 0, RECEIVE, 0),
        grant(1, 7, SEND, 7),
        receive(0),
        holder(4, 6, 7, RECEIVE, 0),
        receive(7),
        holder(2, 5, 0, SEND, 7),
        send(0, 7, 100), // handed to 1
        wait(0),
        grant(2, 0, 0, 0),
        destroy(2),
        holder(9, 8, 0, SEND | ABORT, 9),
        abort(0, 5, 7), // nothing is queued
    ]
    .concat()
}

/// The old holder's line out goes; 5 is the new holder's, 3 the new holder.
fn plugged_in() -> Words {
    [destroy(4), holder(5, 6, 7, RECEIVE, 0), holder(3, 9, 0, SEND, 7)].concat()
}

fn moved_early() -> Words {
    [
        unanswered(),
        plugged_in(),
        send(0, 7, 300),  // queued: 1 waits for its page
        interrupt(0),     // the page is there
        send(7, 7, 1100), // the answer to lookup 100
        wait(1),
        receive(7), // 5 has it
        receive(0), // lookup 300 is received only now
    ]
    .concat()
}

fn moved() -> Words {
    [
        unanswered(),
        send(0, 9, 0), // 9 waits until this is taken
        interrupt(0),
        send(7, 7, 1100), // handed to 4
        receive(0),       // the message of 9, which is woken
        receive(0),
        plugged_in(),
        send(0, 7, 300),  // handed to 1
        send(7, 7, 1300), // its answer
        wait(1),
        wait(2),
        receive(7), // 5 has it
    ]
    .concat()
}

fn endpoints() -> Words {
    [
        create(1, 10),
        create(2, 5),
        endpoint(62),
        grant(1, 62, SEND | DELETE, 1),
        delete(62, 1),
        endpoint(63),
        grant(1, 63, RECEIVE | DELETE, 0),
        grant(2, 63, SEND, 1),
        receive(63),
        send(63, 1, 2),
        send(62, 1, 2), // gone: its right is left
        delete(63, 1),
        receive(63),
        endpoint(64),
    ]
    .concat()
}

fn lines() -> Words {
    [
        create(1, 10),
        create(2, 9),
        interrupt(31),
        interrupt(31),
        wait(31), // pending: done
        wait(31), // thread 1 blocks
        wait(31), // thread 2 is refused
        interrupt(31),
        interrupt(0),
        wait(0),
        wait(0),
        wait(32),
    ]
    .concat()
}

fn priorities() -> Words {
    [
        create(1, 0),
        create(2, 255), // displaces 1
        create(3, 255), // waits for its turn
        yields(),
        yields(),
        priority(2, 254), // 3 runs
        priority(3, 254), // and goes on
        create(4, 255),   // displaces 3, which stays before 2
        destroy(4),
        create(5, 254),
        priority(2, 254), // the same: 2 keeps its place before 5
        yields(),
        priority(3, 31), // ready, to its new level's tail
        create(6, 32),
        destroy(5),
        destroy(2),
        destroy(6),
        destroy(3),
        destroy(1),
        create(7, 256),
    ]
    .concat()
}

/// Writers 1 and 2 are equals, 3 and 4 stand below them, and 9 is the line-out thread.
fn displaced() -> Words {
    [
        create(9, 30),
        wait(0),
        create(1, 10),
        create(2, 10),
        ticks(2),
        interrupt(0), // displaces 1, with three ticks left
        wait(0),      // 1 keeps its turn
        ticks(3),     // spent: 1 goes behind 2
        interrupt(0),
        wait(0),  // 2 keeps its turn too
        yields(), // 2 goes behind 1
        create(3, 5),
        create(4, 5),
        priority(1, 5), // lowered and displaced by 2: before 3 and 4
        wait(1),        // 2 blocks, 1 runs
        create(8, 20),  // displaces 1
        priority(1, 6), // ready, so to its new tail
        priority(1, 5), // and behind 3 and 4
        endpoint(0),
        grant(8, 0, SEND, 7),
        send(0, 7, 1), // 8 blocks, 3 runs
        holder(6, 20, 0, SEND, 7),
        send(0, 7, 2),
        priority(6, 5), // blocked at level 5
        grant(3, 0, DELETE, 0),
        delete(0, ALL), // 3 wakes 8, which displaces it, and 6, which joins the tail behind 4 and 1
        wait(2),        // 3 runs
        yields(),
        yields(),
        yields(),
        yields(),
    ]
    .concat()
}

fn allowances() -> Words {
    [
        queued(0, &[7, 7, 8, 7, 7]),
        holder(1, 20, 0, ABORT | DELETE, 0),
        abort(0, 1, 7), // removes 2, broken off
        abort(0, 1, 7), // removes 3
        holder(9, 21, 0, ABORT, 0),
        abort(0, 1, 7),   // 9 joins, keeps 4
        abort(0, ALL, 7), // 9 finishes, so 1 gets a note
        destroy(9),
        abort(0, 1, 7),   // from the note
        abort(0, 1, 7),   // a new one: 4 is looked at, nothing is left
        abort(0, ALL, 8), // removes 4
        abort(0, ALL, 8), // no sender
        delete(0, ALL),
        abort(0, 0, 7),
    ]
    .concat()
}

fn badges() -> Words {
    [
        queued(0, &[0, TOP, 0]),
        holder(1, 20, 0, RECEIVE | ABORT, 0),
        abort(0, 1, 0), // removes 2, broken off
        holder(5, 30, 0, SEND | ABORT, 0),
        abort(0, 2, TOP), // finishes that of badge 0, its own not yet begun
        send(0, 0, 1),    // 5 blocks: badge 0 is free again
        abort(0, 1, 0),   // 1 has a note
        abort(0, 1, 8),   // keeps 3, broken off
        holder(6, 40, 0, RECEIVE | ABORT, 0),
        abort(0, 3, TOP), // keeps 5 for badge 8; for its own, removes 3 and keeps 5
        receive(0),       // 5's message
        receive(0),       // 6 blocks
        grant(5, 0, SEND, TOP),
        send(0, TOP, TOP),
        wait(0),
        send(0, TOP, TOP), // 5 blocks
        receive(0),
        vec![0x1700_0000, 0x3000_0000, 0x3000_0000], // badge 2^28 has no badge word
    ]
    .concat()
}

fn ticking() -> Words {
    [
        ticks(1), // nobody runs
        create(1, 5),
        create(2, 5),
        create(3, 5),
        ticks(5), // 1 goes to its tail
        ticks(2),
        yields(), // 2 has three left
        ticks(5),
        ticks(5),
        ticks(2),
        wait(0), // 2 has one left, blocked and woken too
        interrupt(0),
        ticks(10),
        ticks(1),
        destroy(1),
        destroy(3),
        ticks(6), // alone, it is chosen again
    ]
    .concat()
}

fn destroyed() -> Words {
    [
        endpoint(0),
        endpoint(1),
        sender(2, 0, 7),
        sender(3, 0, 7),
        sender(4, 0, 7),
        sender(5, 0, 7),
        holder(1, 20, 0, SEND | ABORT, 7),
        abort(0, 1, 7), // removes 2; cursor at 3, end mark at 5
        destroy(3),     // the cursor passes to 4
        destroy(5),     // so does the end mark
        holder(5, 30, 0, SEND, 8),
        send(0, 8, 205), // 5 is queued again, behind the end mark
        send(0, 7, 1),   // refused: the abort stands
        destroy(1),      // its only member
        grant(2, 0, ABORT, 0),
        abort(0, 1, 7), // 2 joins: removes 4, and nothing is left
        abort(0, 1, 8), // removes 5
        wait(2),
        destroyed_at_both(),
        destroy(5), // the waiter on line 2
        interrupt(2),
        wait(2), // so it was pending
        destroy(2),
        destroy(6),
        destroy(6),
        endpoint(1),
    ]
    .concat()
}

/// At a new endpoint 2, 3 and 5 are queued under badge 7, 4 under 8. 11 begins
/// the abort of 7, 12 joins; 13 runs, and has these rights.
fn at_work(at: u32, rights: u32) -> Words {
    [
        queued(at, &[7, 7, 8, 7]),
        holder(11, 20, at, ANY, 7),
        abort(at, 1, 7), // removes 2
        holder(12, 21, at, ANY, 7),
        abort(at, 1, 7), // removes 3
        holder(13, 22, at, rights, 8),
    ]
    .concat()
}

/// 12 and 11 call again, and 11 once more; then all threads are gone.
fn called_again(at: u32) -> Words {
    [
        destroy(13),
        abort(at, ALL, 7), // 12, from its note
        destroy(12),
        abort(at, ALL, 7), // 11, from its note
        abort(at, ALL, 7),
        [2, 3, 4, 5, 11].map(destroy).concat(),
    ]
    .concat()
}

/// An abort of two joiners is ended by each call that can end it.
fn ended() -> Words {
    let new_holder = |at| [holder(6, 30, at, SEND, 7), send(at, 7, 106)].concat();
    [
        at_work(0, ABORT),
        abort(0, ALL, 7), // 13 joins and ends it: keeps 4, removes 5
        new_holder(0),
        called_again(0), // the last one removes 6
        destroy(6),
        at_work(1, ABORT),
        abort(1, 2, 8), // 13 ends it: keeps 4, removes 5, its own not begun
        new_holder(1),
        called_again(1), // the last one keeps 4 and removes 6
        destroy(6),
        at_work(2, ABORT),
        abort(2, ALL, 8), // 13 ends it, then its own: removes 4
        called_again(2),
        at_work(3, DELETE),
        delete(3, ALL), // 13 removes 4 and 5: the endpoint is gone
        called_again(3),
        at_work(4, DELETE),
        delete(4, 1), // 13 removes 4, broken off
        called_again(4),
        at_work(5, ABORT),
        abort(5, 1, 7), // 13 joins: keeps 4
        wait(0),        // and leaves: no note
        abort(5, 1, 7), // 12 goes on and ends it: removes 5
        interrupt(0),
        abort(5, 1, 7), // 13 begins anew: keeps 4
        destroy(13),
        destroy(12),
        abort(5, 1, 7), // 11, from its note
    ]
    .concat()
}

fn leaving() -> Words {
    [left(), left_by_all(), kept(), ended_by_leavers()].concat()
}

/// Of three members 11 yields and 12 aborts elsewhere, then 13 is destroyed.
fn left() -> Words {
    [
        queued(0, &[7, 7, 7, 7, 7, 7, 7]),
        endpoint(1),
        holder(11, 20, 0, ANY, 7),
        abort(0, 1, 7), // removes 2
        holder(12, 21, 0, ANY, 7),
        grant(12, 1, ABORT, 0),
        abort(0, 1, 7), // removes 3
        holder(13, 22, 0, ANY, 7),
        abort(0, 1, 7), // removes 4
        priority(11, 23),
        yields(), // 11 leaves
        priority(12, 24),
        abort(1, 1, 7), // 12 leaves: nobody is queued there
        destroy(13),
    ]
    .concat()
}

/// Nobody is left in the set, and the abort stands. 14 joins, then 11; 12 ends
/// it by another badge's abort.
fn left_by_all() -> Words {
    [
        send(0, 7, 1), // 12 is refused
        holder(14, 25, 0, ANY, 0),
        abort(0, 1, 7), // 14 is the only member: removes 5
        priority(11, 26),
        abort(0, 1, 7), // 11 joins again: removes 6
        priority(12, 27),
        abort(0, 2, 9), // removes 7 and 8: 14 and 11 have a note
        wait(3),
        abort(0, 1, 7), // 11, from its note
        destroy(11),
        abort(0, 1, 7), // 14, from its note
        interrupt(3),
        [14, 12, 2, 3, 4, 5, 6, 7, 8].map(destroy).concat(),
    ]
    .concat()
}

/// What does not lead out of the set: refusals, ticks, displacement, calls of the
/// host.
fn kept() -> Words {
    [
        at_work(2, ABORT),
        wait(4),          // 13 blocks, 12 runs
        send(2, 7, 1),    // 26
        send(2, 8, 1),    // 29
        receive(3),       // 29
        wait(4),          // 27
        ticks(5),         // its ticks are spent
        priority(11, 22), // 12 is displaced
        grant(11, 2, 0, 0),
        abort(2, 1, 7), // 11 is refused by 29
        grant(11, 2, ANY, 7),
        interrupt(4),
        priority(13, 30),
        abort(2, 2, 7), // 13 keeps 4, removes 5 and ends it: both have a note
        priority(12, 23),
        called_again(2),
    ]
    .concat()
}

/// A member's own other call ends the abort: it has no note, the other has.
fn ended_by_leavers() -> Words {
    [
        at_work(3, SEND),
        wait(5),
        abort(3, 2, 8), // 12 keeps 4, removes 5
        abort(3, 1, 7), // 12 begins anew: keeps 4
        destroy(12),
        abort(3, 1, 7), // 11, from its note
        [13, 11, 2, 3, 4, 5].map(destroy).concat(),
        at_work(4, SEND),
        wait(5),
        delete(4, 1),   // 12 removes 4, broken off
        abort(4, 1, 7), // 12 is refused by 25
        destroy(12),
        abort(4, 1, 7), // 11, from its note
    ]
    .concat()
}

/// A note is answered although a new abort of its badge stands.
fn renewed() -> Words {
    [
        at_work(0, ABORT),
        abort(0, ALL, 7), // 11 and 12 have a note
        holder(6, 30, 0, SEND, 7),
        send(0, 7, 106),
        holder(7, 30, 0, SEND, 7),
        send(0, 7, 107),
        holder(8, 30, 0, SEND, 7),
        send(0, 7, 108),
        abort(0, 2, 7), // 13 begins anew: keeps 4, removes 6, which runs
        send(0, 7, 1),  // refused: it stands
        priority(12, 40),
        abort(0, ALL, 7), // 12, from its note: it does not join
        abort(0, 1, 7),   // now it joins: removes 7
        priority(11, 41),
        send(0, 7, 1),    // 11 is refused, and keeps its note
        abort(0, ALL, 7), // from its note
        priority(13, 42),
        abort(0, ALL, 7), // 13 ends it: removes 8, and 12 has a note
        priority(11, 43),
        abort(0, ALL, 7), // 11 has none: a new one, which looks at 4
        priority(12, 44),
        abort(0, 1, 7), // from its note
    ]
    .concat()
}

/// Threads 2 and 4 queue at endpoint 1; 2 is left to run.
fn destroyed_at_both() -> Words {
    [
        grant(2, 1, SEND, 9),
        grant(4, 1, SEND, 9),
        send(1, 9, 1),
        send(1, 9, 2),
        holder(6, 10, 1, SEND | ABORT, 9),
        abort(1, 1, 9), // removes 2; cursor and end mark at 4
        destroy(4),     // nothing is left
        send(1, 9, 3),  // refused all the same
        abort(1, 1, 9), // ends it
        send(1, 9, 4),
    ]
    .concat()
}

fn deletes() -> Words {
    [
        queued(0, &[7, 7, 8, 7]),
        holder(1, 20, 0, DELETE | ABORT, 0),
        abort(0, 1, 7), // removes 2
        holder(6, 30, 0, ANY, 8),
        delete(0, 1), // ends the abort, removes 3, broken off: 1 gets a note
        send(0, 8, 1),
        receive(0),
        abort(0, 1, 7),
        endpoint(0),
        wait(0),
        abort(0, 1, 7), // from the note, though the endpoint is closing
        abort(0, 1, 7),
        delete(0, 1),   // 1 goes on: removes 4
        delete(0, ALL), // removes 5
        delete(0, 1),
        deletes_receivers(),
        endpoint(3),
        grant(3, 3, SEND, 1),
        grant(4, 3, SEND, 1),
        grant(5, 3, DELETE, 0),
        send(3, 1, 1),
        send(3, 1, 2),
        create(7, 10),
        delete(3, 1),
        destroy(4),
        destroy(5),
        endpoint(3), // closing and empty
        grant(2, 3, DELETE, 0),
        delete(3, 1),
        endpoint(3),
    ]
    .concat()
}

/// Endpoint 0 is made anew: threads 1 and 2 receive there.
fn deletes_receivers() -> Words {
    [
        endpoint(0),
        grant(1, 0, RECEIVE, 0),
        grant(2, 0, RECEIVE, 0),
        grant(3, 0, DELETE, 0),
        grant(6, 0, DELETE, 0),
        receive(0), // 1 blocks
        receive(0),
        interrupt(0),
        delete(0, 1), // 6 removes the receiver 1
        destroy(1),
        destroy(6),
        delete(0, ALL), // 3 goes on: removes the receiver 2
    ]
    .concat()
}

fn refusals() -> Words {
    [
        yields(), // 20, and so the next five
        send(0, 0, 0),
        receive(0),
        wait(0),
        delete(0, 1),
        abort(0, 1, 0),
        destroy(1), // 21, and so the next two
        priority(1, 1),
        grant(1, 0, ANY, 0),
        create(1, 10),
        create(1, 11),       // 22
        grant(1, 0, ANY, 0), // 23
        refused_at_nothing(),
        endpoint(0),
        endpoint(0), // 24
        create(2, 10),
        create(3, 10),
        create(4, 10),
        send(0, 0, 0), // 29: nobody has a right at the new endpoint
        grant(1, 0, ANY, 7),
        grant(2, 0, SEND, 7),
        grant(3, 0, SEND | ABORT, 7),
        send(0, 7, 1),
        send(0, 7, 2),
        abort(0, 1, 7),
        send(0, 7, 3), // 26
        send(0, 8, 3), // 29: not the badge of 3
        grant(3, 0, SEND, 8),
        send(0, 8, 3),
        wait(1),
        wait(1), // 27
        refused_at_closing(),
    ]
    .concat()
}

/// Endpoint 0 is absent, before it is made and when it is gone.
fn refused_at_nothing() -> Words {
    [
        send(0, 0, 0), // 29, and so the next three
        receive(0),
        delete(0, 1),
        abort(0, 1, 0),
        endpoint(0),
        grant(1, 0, ANY, 0),
        delete(0, 1),
        send(0, 0, 0), // 23, and so the next three
        receive(0),
        delete(0, 1),
        abort(0, 1, 0),
    ]
    .concat()
}

fn refused_at_closing() -> Words {
    [
        delete(0, 1),
        send(0, 8, 3), // 29: not the badge of 1
        send(0, 7, 3), // 25, and so the next two
        receive(0),
        abort(0, 1, 7),
        endpoint(0), // 24
    ]
    .concat()
}

fn grants() -> Words {
    let stray = vec![0x1D01_0140, 0x2000_0007]; // bit 6 is neither endpoint nor rights
    [granted(), granted_again(), granted_anew(), granted_closing(), stray].concat()
}

/// Rights are given and missing; 1 sends, 2 receives.
fn granted() -> Words {
    [
        endpoint(0),
        grant(1, 0, SEND, 7), // no such thread
        create(1, 10),
        grant(1, 1, SEND, 7), // no such endpoint
        send(0, 7, 1),        // refused: nothing is granted
        send(1, 7, 1),        // so it is where there is no endpoint
        wait(0),
        grant(1, 0, SEND, 7), // nobody runs
        interrupt(0),
        send(0, 8, 1), // another badge
        receive(0),    // other rights
        delete(0, 1),
        abort(0, 1, 7),
        holder(2, 20, 0, RECEIVE, 0),
        receive(0),        // 2 blocks
        grant(2, 0, 0, 9), // no right any more, whatever the badge
        send(0, 7, 5),     // handed over to 2 all the same
        receive(0),
    ]
    .concat()
}

/// The right of 2 is taken away while its abort is broken off, and given back
/// when it has a note.
fn granted_again() -> Words {
    [
        grant(2, 0, ABORT, 0),
        holder(3, 30, 0, SEND, 7),
        send(0, 7, 103),
        holder(4, 30, 0, SEND, 7),
        send(0, 7, 104),
        abort(0, 1, 7), // removes 3, which runs; broken off
        grant(2, 0, 0, 0),
        grant(3, 0, ABORT, 0),
        abort(0, 1, 7), // 3 removes 4: 2 has a note
        destroy(3),
        send(0, 7, 204), // 4 is queued again
        abort(0, 1, 7),  // 2 is refused, and keeps its note
        grant(2, 0, ABORT, 0),
        abort(0, 1, 7), // from the note
        abort(0, 1, 7), // a new one: removes 4
    ]
    .concat()
}

/// Thread 4 is created anew, then endpoint 0.
fn granted_anew() -> Words {
    [
        destroy(4),
        create(4, 30),
        send(0, 7, 1), // refused: its grants are gone
        grant(4, 0, DELETE, 0),
        delete(0, 1),
        endpoint(0),
        delete(0, 1), // refused: so are those at the endpoint
        wait(1),
        abort(0, 1, 7), // also the one of 2
    ]
    .concat()
}

/// Thread 2 has 5 and 6 queued at endpoint 0 and deletes it.
fn granted_closing() -> Words {
    [
        grant(2, 0, DELETE, 0),
        holder(5, 30, 0, SEND, 5),
        send(0, 5, 105),
        holder(6, 30, 0, SEND, 6),
        send(0, 6, 106),
        delete(0, 1),  // removes 5, which runs; broken off
        send(0, 5, 1), // refused: the endpoint is closing
        send(0, 6, 1), // refused before that: another badge
        grant(2, 0, 0, 0),
        grant(5, 0, DELETE, 0),
        priority(5, 5), // 2 runs
        delete(0, 1),   // refused: its right is gone
        destroy(2),
        destroy(1),
        delete(0, 1), // 5 goes on: removes 6
        destroy(6),
        delete(0, 1),           // no such endpoint
        receive(0),             // refused before that
        grant(5, 0, DELETE, 0), // no such endpoint
    ]
    .concat()
}

/// Steered calls, many times longer than a buffer of words.
fn long() -> Words {
    let (mut steer, mut machine, mut words) = (Steer::new(6), Machine::fresh(), Vec::new());
    for made in 0..6000 {
        let call = steer.next(&machine);
        let written = write(&call);
        if written.code == 0 {
            machine.call(&call);
            words.extend(&written.words[..written.len]);
        }
        if made % 600 == 599 {
            steer.new_list();
        }
    }
    words
}

/// The journals: name, words, and the odd bytes behind them.
fn journals() -> Vec<(&'static str, Words, &'static [u8])> {
    let cut = |words: Words, left: usize| words[..left].to_vec();
    vec![
        ("example", example(), &[]),
        ("incident", incident(), &[]),
        ("joiners", joiners(), &[]),
        ("moved_early", moved_early(), &[]),
        ("moved", moved(), &[]),
        ("endpoints", endpoints(), &[]),
        ("lines", lines(), &[]),
        ("priorities", priorities(), &[]),
        ("displaced", displaced(), &[]),
        ("allowances", allowances(), &[]),
        ("badges", badges(), &[]),
        ("ticks", ticking(), &[]),
        ("destroyed", destroyed(), &[]),
        ("deletes", deletes(), &[]),
        ("ended", ended(), &[]),
        ("leaving", leaving(), &[]),
        ("renewed", renewed(), &[]),
        ("refusals", refusals(), &[]),
        ("grants", grants(), &[]),
        ("empty", vec![], &[]),
        ("one", vec![], &[0x11]),
        ("two", vec![], &[0, 0]),
        ("three", vec![], &[0x0A, 0, 1]),
        ("odd", example(), &[0x0A, 0, 1]),
        ("cut", cut(example(), 26), &[]),
        ("cut_word", cut(example(), 26), &[7, 0, 0]),
        ("wrong", [create(1, 10), vec![0x2000_0007], create(2, 20)].concat(), &[]),
        ("range", [create(1, 10), endpoint(0), delete(0, 0), create(2, 20)].concat(), &[1]),
        ("long", long(), &[]),
    ]
}

fn main() -> io::Result<()> {
    let folder = env::args().nth(1).expect("usage: journals FOLDER");
    for (name, words, odd) in journals() {
        let mut bytes: Vec<u8> = words.iter().flat_map(|w| w.to_le_bytes()).collect();
        bytes.extend(odd);
        let path = Path::new(&folder).join(name);
        fs::write(path.with_extension("words"), &bytes)?;
        fs::write(path.with_extension("txt"), listing(&bytes))?;
        fs::write(path.with_extension("told"), telling(&bytes))?;
        fs::write(path.with_extension("numbered"), numbered_telling(&bytes))?;
    }
    Ok(())
}
