//! Rights at endpoints: the words that calls leave, 29 and what it leaves alone.

use second::{sound_grants, Answer, Bond, Call, Machine, Steer, GRANTS};

const SEND: u32 = 1;
const RECEIVE: u32 = 2;
const DELETE: u32 = 4;
const ABORT: u32 = 8;

fn create(thread: u32, priority: u32) -> Call {
    Call::CreateThread { thread, priority }
}

fn grant(thread: u32, endpoint: u32, rights: u32, badge: u32) -> Call {
    Call::Grant { thread, endpoint, rights, badge }
}

fn send(endpoint: u32, badge: u32) -> Call {
    Call::Send { endpoint, badge, message: 1 }
}

fn abort(endpoint: u32, badge: u32) -> Call {
    Call::Abort { endpoint, allowance: 1, badge }
}

fn delete(endpoint: u32) -> Call {
    Call::Delete { endpoint, allowance: 1 }
}

/// Thread 3 alone, and endpoint 5.
fn alone() -> Machine {
    let mut m = Machine::fresh();
    m.call(&create(3, 10));
    m.call(&Call::CreateEndpoint { endpoint: 5 });
    m
}

/// The words that are not 0.
fn words(m: &Machine) -> Vec<(usize, u32)> {
    m.grants().iter().copied().enumerate().filter(|&(_, word)| word != 0).collect()
}

#[test]
fn stored() {
    let mut m = alone();
    assert_eq!(words(&m), []);
    assert_eq!(m.call(&grant(3, 5, 9, 7)), Answer::DONE);
    assert_eq!(words(&m), [(197, 0x9000_0007)]);
    m.call(&grant(3, 5, SEND, 0));
    assert_eq!(words(&m), [(197, 0x1000_0000)]);
    m.call(&grant(3, 5, 15, (1 << 28) - 1));
    assert_eq!(words(&m), [(197, u32::MAX)]);
    m.call(&grant(3, 5, 0, 7));
    assert_eq!(words(&m), []);
}

#[test]
fn refused() {
    let mut m = alone();
    m.call(&grant(3, 5, SEND, 7));
    let kept = m.clone();
    let cases = [
        (grant(256, 5, 1, 0), 19),
        (grant(3, 64, 1, 0), 19),
        (grant(3, 5, 16, 0), 19),
        (grant(3, 5, 0, 1 << 28), 19),
        (grant(4, 5, 1, 0), 21),
        (grant(4, 6, 1, 0), 21),
        (grant(3, 6, 1, 0), 23),
        (send(64, 7), 19),
        (send(5, 8), 29),
        (send(6, 7), 29),
        (Call::Receive { endpoint: 5 }, 29),
        (delete(5), 29),
        (abort(5, 7), 29),
        (create(3, 10), 22),
        (Call::CreateEndpoint { endpoint: 5 }, 24),
    ];
    for (call, code) in cases {
        assert_eq!(m.call(&call), Answer::code(code), "{call:?}");
        assert!(m == kept, "{call:?}");
    }
}

/// Each call needs its own right; a send alone needs the badge too.
#[test]
fn needed() {
    let calls = [
        (send(5, 7), SEND),
        (Call::Receive { endpoint: 5 }, RECEIVE),
        (delete(5), DELETE),
        (abort(5, 7), ABORT),
    ];
    for (call, right) in calls {
        for rights in 0..16 {
            for badge in [0, 7] {
                let mut m = alone();
                m.call(&grant(3, 5, rights, badge));
                let lacks = rights & right == 0 || right == SEND && badge != 7;
                assert_eq!(m.call(&call).code == 29, lacks, "{call:?} with {rights}, {badge}");
            }
        }
    }
}

/// Nobody runs: 20 comes before 29, and a grant is taken.
#[test]
fn idle() {
    let mut m = alone();
    m.call(&Call::Wait { line: 0 });
    assert_eq!(m.running(), None);
    assert_eq!(m.call(&send(5, 7)), Answer::code(20));
    assert_eq!(m.call(&grant(3, 5, SEND, 7)), Answer::DONE);
    assert_eq!(words(&m), [(197, 0x1000_0007)]);
    assert_eq!(m.running(), None);
}

#[test]
fn row_and_column() {
    let mut m = alone();
    for t in [0, 2, 4, 255] {
        m.call(&create(t, 5));
    }
    for e in [4, 6] {
        m.call(&Call::CreateEndpoint { endpoint: e });
    }
    for (t, e) in [(3, 4), (3, 5), (3, 6), (2, 5), (4, 5), (0, 5), (255, 5), (255, 6)] {
        assert_eq!(m.call(&grant(t, e, 15, 0)), Answer::DONE);
    }
    let row = [196, 197, 198];
    let others = [5, 133, 261, 16_325, 16_326];
    let held = |m: &Machine| words(m).into_iter().map(|(at, _)| at).collect::<Vec<_>>();
    assert_eq!(held(&m), [&others[..2], &row, &others[2..]].concat());
    m.call(&Call::DestroyThread { thread: 3 });
    assert_eq!(held(&m), [&others[..2], &row, &others[2..]].concat());
    m.call(&create(3, 20));
    assert_eq!(held(&m), others);
    m.call(&Call::DestroyThread { thread: 3 });
    assert_eq!(m.call(&delete(5)), Answer::DONE);
    assert_eq!(m.call(&delete(5)), Answer::code(23));
    assert_eq!(held(&m), others);
    m.call(&Call::CreateEndpoint { endpoint: 5 });
    assert_eq!(held(&m), [16_326]);
    assert_eq!(m.call(&delete(5)), Answer::code(29));
}

/// Thread 1 has a note; its right is taken away, and given back.
#[test]
fn note_kept() {
    let mut m = Machine::fresh();
    let calls = [
        (Call::CreateEndpoint { endpoint: 0 }, 0),
        (create(4, 20), 0),
        (grant(4, 0, SEND, 7), 0),
        (send(0, 7), 1),
        (create(5, 20), 0),
        (grant(5, 0, SEND, 7), 0),
        (send(0, 7), 1),
        (create(1, 10), 0),
        (grant(1, 0, ABORT, 0), 0),
        (abort(0, 7), 2), // removes 4, which runs
        (grant(4, 0, ABORT, 0), 0),
        (abort(0, 7), 0), // removes 5
        (Call::DestroyThread { thread: 4 }, 0),
        (Call::DestroyThread { thread: 5 }, 0),
    ];
    for (call, code) in calls {
        assert_eq!(m.call(&call).code, code, "{call:?}");
    }
    let note = Bond::Note { endpoint: 0, badge: 7 };
    let calls = [
        (grant(1, 0, SEND | RECEIVE | DELETE, 7), 0, note),
        (abort(0, 7), 29, note),
        (send(0, 8), 29, note),
        (grant(1, 0, ABORT, 0), 0, note),
        (delete(0), 29, note),
        (abort(0, 7), 0, Bond::None),
    ];
    for (call, code, bond) in calls {
        assert_eq!((m.call(&call).code, m.thread(1).bond), (code, bond), "{call:?}");
    }
}

/// The grants that an accepted call leaves.
fn regrant(grants: &mut [u32], call: &Call) {
    let at = |t: u32, e: u32| (64 * t + e) as usize;
    match *call {
        Call::CreateThread { thread, .. } => (0..64).for_each(|e| grants[at(thread, e)] = 0),
        Call::CreateEndpoint { endpoint } => (0..256).for_each(|t| grants[at(t, endpoint)] = 0),
        Call::Grant { thread, endpoint, rights: 0, .. } => grants[at(thread, endpoint)] = 0,
        Call::Grant { thread, endpoint, rights, badge } => {
            grants[at(thread, endpoint)] = rights << 28 | badge;
        }
        _ => (),
    }
}

#[test]
fn steered_calls_stay_sound() {
    let mut steer = Steer::new(11);
    for _ in 0..40 {
        let mut m = Machine::fresh();
        let mut grants = vec![0; GRANTS];
        steer.new_list();
        for _ in 0..400 {
            let call = steer.next(&m);
            if m.call(&call).accepted() {
                regrant(&mut grants, &call);
            }
            assert_eq!(m.sound(), Ok(()));
            assert!(m.grants() == grants, "{call:?}");
        }
    }
}

#[test]
fn sound() {
    let with = |at: usize, word: u32| {
        let mut words = vec![0; GRANTS];
        words[at] = word;
        sound_grants(&words)
    };
    for at in [0, 1, 63, 64, 8191, 16_383] {
        for word in [0, 0x1000_0000, 0x1000_0001, 0x8FFF_FFFF, u32::MAX] {
            assert!(with(at, word), "{word:08X} at {at}");
        }
        for word in [1, 7, 0x0800_0000, 0x0FFF_FFFF] {
            assert!(!with(at, word), "{word:08X} at {at}");
        }
    }
    for length in [0, 1, 4096, GRANTS - 1, GRANTS + 1] {
        assert!(!sound_grants(&vec![0; length]), "{length} words");
    }
}
