//! Who works on an abort and who hears its end: the nine readings of T-05, each
//! by calls whose answers and tables are worked out by hand.

use second::{listing, memory, sound_words, Bond, Call, Machine, Phase, Situation, Steer};
use std::collections::HashMap;

const NONE: Bond = Bond::None;
const MEMBER: Bond = Bond::Member { endpoint: 0, badge: 7 };
const NOTE: Bond = Bond::Note { endpoint: 0, badge: 7 };

fn send(endpoint: u32, badge: u32) -> Call {
    Call::Send { endpoint, badge, message: 100 }
}

fn abort(allowance: u32, badge: u32) -> Call {
    Call::Abort { endpoint: 0, allowance, badge }
}

fn delete(allowance: u32) -> Call {
    Call::Delete { endpoint: 0, allowance }
}

fn grant(thread: u32, endpoint: u32, rights: u32, badge: u32) -> Call {
    Call::Grant { thread, endpoint, rights, badge }
}

/// Endpoints, and calls that must be accepted.
struct Stage(Machine);

impl Stage {
    /// Endpoints 0 and 1. Senders 1, 2 and so on wait at endpoint 0 under these
    /// badges, at level 5. The workers, at level 10, have all rights at both.
    fn new(badges: &[u32], workers: &[u32]) -> Stage {
        let mut stage = Stage(Machine::fresh());
        stage.makes(&[Call::CreateEndpoint { endpoint: 0 }, Call::CreateEndpoint { endpoint: 1 }]);
        for (thread, &badge) in (1..).zip(badges) {
            stage.sender(thread, badge);
        }
        for &thread in workers {
            stage.makes(&[Call::CreateThread { thread, priority: 10 }]);
            stage.makes(&[grant(thread, 0, 15, 8), grant(thread, 1, 15, 8)]);
        }
        stage
    }

    fn makes(&mut self, calls: &[Call]) {
        for call in calls {
            let answer = self.0.call(call);
            assert!(answer.accepted(), "{call:?} is answered {answer:?}");
            assert_eq!(self.0.sound(), Ok(()));
        }
    }

    /// A new thread that waits at endpoint 0 then.
    fn sender(&mut self, thread: u32, badge: u32) {
        self.makes(&[Call::CreateThread { thread, priority: 255 }, grant(thread, 0, 1, badge)]);
        self.makes(&[send(0, badge), Call::SetPriority { thread, priority: 5 }]);
    }

    /// Lets the thread run, by the host's calls alone; its call is answered with
    /// this code and count.
    fn calls(&mut self, t: u8, call: Call, code: u32, count: u32) {
        if let Some(other) = self.0.running().filter(|&other| other != t) {
            self.makes(&[Call::SetPriority { thread: other.into(), priority: 10 }]);
            self.makes(&[Call::SetPriority { thread: t.into(), priority: 100 }]);
        }
        assert_eq!(self.0.running(), Some(t), "{t} is to run");
        let answer = self.0.call(&call);
        assert_eq!((answer.code, answer.count), (code, count), "{t}: {call:?}");
        assert_eq!(self.0.sound(), Ok(()));
        if answer.code == 1 {
            self.makes(&[Call::SetPriority { thread: t.into(), priority: 10 }]);
        }
    }

    /// The badge under abort at endpoint 0 and the members, if an abort stands.
    fn stands(&self) -> Option<(u32, Vec<u8>)> {
        self.0.endpoint(0).abort.map(|abort| (abort.badge, abort.members.threads().collect()))
    }

    fn bonds<const N: usize>(&self, threads: [u8; N]) -> [Bond; N] {
        threads.map(|t| self.0.thread(t).bond)
    }

    /// The words `owes` and `note` of a thread.
    fn words(&self, t: usize) -> [u32; 2] {
        let words = memory(&self.0);
        [words[10 * t + 8], words[10 * t + 9]]
    }
}

/// Badge 7 is under abort at endpoint 0, where of its senders the last two are
/// left; 11 has begun it, 12 has joined, and both are broken off.
fn two_at_work() -> Stage {
    let mut stage = Stage::new(&[7, 7, 7, 7], &[11, 12, 13]);
    stage.calls(11, abort(1, 7), 2, 1);
    stage.calls(12, abort(1, 7), 2, 1);
    assert_eq!(stage.stands(), Some((7, vec![11, 12])));
    stage
}

/// 1: whoever began the abort or joined it is in its set, from that call on; one
/// whose call ends it is in nothing.
#[test]
fn the_set() {
    let mut stage = Stage::new(&[7, 7, 7], &[11, 12, 13]);
    assert_eq!(stage.stands(), None);
    stage.calls(11, abort(1, 7), 2, 1);
    assert_eq!(stage.stands(), Some((7, vec![11])));
    stage.calls(12, abort(1, 7), 2, 1);
    assert_eq!(stage.stands(), Some((7, vec![11, 12])));
    assert_eq!([11, 12, 13].map(|t| stage.words(t)), [[1, 0], [1, 0], [0, 0]]);
    assert_eq!(memory(&stage.0)[3200..3205], [1, 1, 7, 4, 4]);
    stage.calls(13, abort(1, 7), 0, 1);
    assert_eq!(stage.stands(), None);
    assert_eq!([11, 12, 13].map(|t| stage.words(t)), [[65, 7], [65, 7], [0, 0]]);
    assert_eq!(memory(&stage.0)[3200..3205], [1, 0, 0, 0, 0]);
}

/// 2: who works on another badge's abort is not in its set, broken off or not,
/// even where that is empty.
#[test]
fn on_the_way_to_its_own() {
    let mut stage = Stage::new(&[7, 7, 8, 8, 8], &[11, 12]);
    stage.calls(11, abort(1, 7), 2, 1);
    stage.calls(12, abort(1, 8), 2, 1); // removes 2
    assert_eq!(stage.stands(), Some((7, vec![11])));
    assert_eq!(stage.bonds([11, 12]), [MEMBER, NONE]);
    stage.calls(11, Call::Yield, 0, 0);
    assert_eq!(stage.stands(), Some((7, vec![])));
    stage.calls(12, abort(1, 8), 2, 1); // keeps 3
    assert_eq!(stage.stands(), Some((7, vec![])));
    assert_eq!(stage.bonds([11, 12]), [NONE, NONE]);
    stage.calls(12, abort(3, 8), 2, 3); // keeps 4 and 5 for badge 7; removes 3
    assert_eq!(stage.stands(), Some((8, vec![12])));
    assert_eq!(stage.bonds([11, 12]), [NONE, Bond::Member { endpoint: 0, badge: 8 }]);
}

/// 3: whatever call ends the abort, every member but the caller has a note.
#[test]
fn all_hear_its_end() {
    let ends = [
        (abort(2, 7), 0, 2, Phase::Open),
        (abort(2, 8), 2, 2, Phase::Open), // its own is not yet begun
        (abort(3, 8), 0, 2, Phase::Open),
        (delete(2), 0, 2, Phase::Absent),
        (delete(1), 2, 1, Phase::Closing),
    ];
    for (call, code, count, phase) in ends {
        let mut stage = two_at_work();
        stage.calls(13, call, code, count);
        assert_eq!((stage.stands(), stage.0.endpoint(0).phase), (None, phase));
        assert_eq!(stage.bonds([11, 12, 13]), [NOTE, NOTE, NONE], "{call:?}");
        let again = [stage.words(11), stage.words(12), stage.words(13)];
        assert_eq!(again, [[65, 7], [65, 7], [0, 0]]);
        for t in [12, 11] {
            stage.calls(t, abort(1, 7), 0, 0);
        }
        assert_eq!(stage.bonds([11, 12, 13]), [NONE, NONE, NONE]);
    }
    let mut stage = two_at_work();
    stage.calls(12, abort(9, 7), 0, 2);
    assert_eq!(stage.bonds([11, 12]), [NOTE, NONE]);
}

/// The first thread and the last are threads as any other.
#[test]
fn the_first_and_the_last() {
    for caller in [0, 100, 255] {
        let mut stage = Stage::new(&[7, 7, 7, 7, 7], &[0, 100, 255]);
        for t in [255, 0, 100] {
            stage.calls(t, abort(1, 7), 2, 1);
        }
        assert_eq!(stage.stands(), Some((7, vec![0, 100, 255])));
        stage.calls(caller, abort(9, 7), 0, 2);
        let noted = [0, 100, 255].map(|t| if t == caller { NONE } else { NOTE });
        assert_eq!(stage.bonds([0, 100, 255]), noted);
    }
}

/// 4: a member leaves by every accepted call of its own but that of its abort,
/// before the call's effect.
#[test]
fn leaving() {
    let calls = [
        (send(1, 8), 1),
        (Call::Receive { endpoint: 0 }, 0),
        (Call::Receive { endpoint: 1 }, 1),
        (Call::Yield, 0),
        (Call::Wait { line: 3 }, 0), // pending
        (Call::Wait { line: 4 }, 1),
        (Call::Delete { endpoint: 1, allowance: 1 }, 0),
        (Call::Abort { endpoint: 1, allowance: 1, badge: 7 }, 0),
        (abort(1, 8), 2),
    ];
    for (call, code) in calls {
        let mut stage = two_at_work();
        stage.makes(&[Call::Interrupt { line: 3 }]);
        let count = u32::from(call == abort(1, 8)); // it removes 3
        stage.calls(11, call, code, count);
        assert_eq!(stage.stands(), Some((7, vec![12])), "{call:?}");
        assert_eq!(stage.bonds([11, 12]), [NONE, MEMBER], "{call:?}");
    }
    for (call, code, count) in [(abort(9, 8), 0, 2), (delete(9), 0, 2), (delete(1), 2, 1)] {
        let mut stage = two_at_work();
        stage.calls(11, call, code, count);
        assert_eq!(stage.stands(), None);
        assert_eq!(stage.bonds([11, 12]), [NONE, NOTE], "{call:?}");
    }
    let mut stage = two_at_work();
    stage.makes(&[Call::DestroyThread { thread: 11 }]);
    assert_eq!(stage.stands(), Some((7, vec![12])));
    stage.makes(&[Call::CreateThread { thread: 11, priority: 100 }]);
    assert_eq!(stage.words(11), [0, 0]);
}

/// 4: by nothing else: not by a refusal, a tick, displacement, or calls of the
/// host but its destruction.
#[test]
fn staying() {
    let mut stage = two_at_work();
    stage.calls(13, Call::Wait { line: 4 }, 1, 0);
    let refused = [
        (abort(0, 7), 19),
        (send(0, 1 << 28), 19),
        (send(0, 9), 29), // another badge than the granted one
        (Call::Receive { endpoint: 2 }, 29),
        (Call::Wait { line: 4 }, 27),
    ];
    for (call, code) in refused {
        stage.calls(12, call, code, 0);
        assert_eq!(stage.stands(), Some((7, vec![11, 12])), "{call:?}");
    }
    stage.makes(&[grant(12, 0, 7, 7)]);
    stage.calls(12, abort(1, 7), 29, 0);
    stage.calls(12, send(0, 7), 26, 0);
    stage.makes(&[Call::Tick; 6]); // its ticks are spent
    stage.makes(&[grant(12, 0, 0, 0), grant(11, 1, 0, 0), Call::CreateEndpoint { endpoint: 2 }]);
    stage.makes(&[Call::SetPriority { thread: 11, priority: 0 }, Call::Interrupt { line: 4 }]);
    stage.makes(&[Call::CreateThread { thread: 20, priority: 255 }]); // displaces
    stage.makes(&[Call::DestroyThread { thread: 20 }, Call::DestroyThread { thread: 4 }]);
    assert_eq!(stage.stands(), Some((7, vec![11, 12])));
    assert_eq!(stage.bonds([11, 12]), [MEMBER, MEMBER]);
}

/// 4: refusals by 23 and 25 leave a member in its set too.
#[test]
fn staying_elsewhere() {
    let mut stage = two_at_work();
    stage.calls(13, send(1, 8), 1, 0);
    stage.makes(&[Call::CreateThread { thread: 14, priority: 10 }, grant(14, 1, 15, 9)]);
    stage.calls(14, send(1, 9), 1, 0);
    stage.makes(&[Call::CreateThread { thread: 15, priority: 10 }, grant(15, 1, 4, 0)]);
    stage.calls(15, Call::Delete { endpoint: 1, allowance: 1 }, 2, 1);
    stage.calls(11, Call::Receive { endpoint: 1 }, 25, 0);
    stage.calls(15, Call::Delete { endpoint: 1, allowance: 1 }, 0, 1);
    stage.calls(11, Call::Abort { endpoint: 1, allowance: 1, badge: 7 }, 23, 0);
    assert_eq!(stage.stands(), Some((7, vec![11, 12])));
}

/// 5: a set may be empty: 26 is in force, the next joiner is its only member,
/// and where it ends so nobody is noted.
#[test]
fn nobody_at_work() {
    for (call, code, count) in [(abort(2, 8), 2, 2), (delete(1), 2, 1), (abort(2, 7), 0, 2)] {
        let mut stage = two_at_work();
        stage.makes(&[Call::DestroyThread { thread: 11 }]);
        stage.calls(12, Call::Yield, 0, 0);
        assert_eq!(stage.stands(), Some((7, vec![])));
        assert_eq!(memory(&stage.0)[3200..3205], [1, 1, 7, 4, 5]);
        stage.makes(&[grant(12, 0, 15, 7)]);
        stage.calls(12, send(0, 7), 26, 0);
        let mut joined = Stage(stage.0.clone());
        stage.calls(13, call, code, count);
        assert_eq!(stage.bonds([12, 13]), [NONE, NONE], "{call:?}");
        assert_eq!(stage.stands(), None);
        joined.calls(13, abort(1, 7), 2, 1);
        assert_eq!(joined.stands(), Some((7, vec![13])));
        joined.calls(12, call, 0, 1);
        assert_eq!(joined.bonds([12, 13]), [NONE, NOTE], "{call:?}");
    }
}

/// 6: a note answers although a new abort of the badge stands, and its holder
/// does not join; the call after that does.
#[test]
fn note_before_the_new_one() {
    let mut stage = two_at_work();
    stage.calls(13, abort(2, 7), 0, 2);
    [21, 22, 23].into_iter().for_each(|thread| stage.sender(thread, 7));
    stage.calls(13, abort(1, 7), 2, 1); // a new one: removes 21
    assert_eq!(stage.stands(), Some((7, vec![13])));
    stage.calls(11, abort(9, 7), 0, 0);
    assert_eq!(stage.stands(), Some((7, vec![13])));
    assert_eq!(stage.0.waiters(0), [22, 23]);
    assert_eq!(stage.bonds([11, 12, 13]), [NONE, NOTE, MEMBER]);
    stage.calls(11, abort(1, 7), 2, 1);
    assert_eq!(stage.stands(), Some((7, vec![11, 13])));
    stage.calls(13, abort(1, 7), 0, 1);
    assert_eq!(stage.bonds([11, 12, 13]), [NOTE, NOTE, NONE]);
    stage.calls(12, abort(1, 7), 0, 0);
    stage.calls(12, abort(1, 7), 0, 0); // begun and ended: nobody is queued
    assert!(stage.0.log().seen.contains(&Situation::AbortBegun));
}

/// 7: one set, or one note, or neither: who begins or joins elsewhere loses its
/// set or its note first.
#[test]
fn one_or_none() {
    let elsewhere = Call::Abort { endpoint: 1, allowance: 1, badge: 5 };
    let there = Bond::Member { endpoint: 1, badge: 5 };
    let mut stage = Stage::new(&[7, 7, 7, 7], &[11, 12, 13, 14, 15, 16]);
    for t in [14, 15, 16] {
        stage.makes(&[grant(t.into(), 1, 1, 5)]);
        stage.calls(t, send(1, 5), 1, 0);
    }
    stage.calls(11, abort(1, 7), 2, 1);
    stage.calls(12, abort(1, 7), 2, 1);
    stage.calls(12, elsewhere, 2, 1); // begins it
    assert_eq!(stage.stands(), Some((7, vec![11])));
    stage.calls(13, abort(9, 7), 0, 2);
    assert_eq!(stage.bonds([11, 12, 13]), [NOTE, there, NONE]);
    stage.calls(11, elsewhere, 2, 1); // joins it: its note goes
    assert_eq!(stage.bonds([11, 12, 13]), [there, there, NONE]);
    assert_eq!([11, 12].map(|t| stage.words(t)), [[2, 0], [2, 0]]);
    stage.calls(11, abort(1, 7), 0, 0); // a new one, begun and ended
    assert_eq!(stage.bonds([11, 12]), [NONE, there]);
}

/// 7: sound tables ask a member neither to run nor to be ready, and a set not to
/// have any.
#[test]
fn sound_sets() {
    let mut words = memory(&two_at_work().0);
    assert!(sound_words(&words));
    words[10 * 3 + 8] = 1; // 3 waits to send, and is a member
    assert!(sound_words(&words));
    words[10 * 11 + 8] = 0;
    words[10 * 12 + 8] = 0;
    words[10 * 3 + 8] = 0;
    assert!(sound_words(&words));
    words[10 * 4 + 8..][..2].copy_from_slice(&[65, 7]); // so does a note's holder
    assert!(sound_words(&words));
    for owes in [2, 3, 64] {
        words[10 * 11 + 8] = owes; // no abort stands there
        assert!(!sound_words(&words), "{owes}");
    }
}

/// 8: 11 begins, 12 and 13 join; 11 and 12 are broken off, and 13 ends it. The
/// badge goes from 1 to 4, who sends; 11 and 12 call again.
const STORY: [u32; 51] = [
    0x14000000, 0x11010005, 0x1D010100, 0x20000007, 0x17000000, 0x20000007, 0x30000001, 0x11020005,
    0x1D020100, 0x20000007, 0x17000000, 0x20000007, 0x30000002, 0x11030005, 0x1D030100, 0x20000007,
    0x17000000, 0x20000007, 0x30000003, 0x110B000A, 0x110C0005, 0x110D0005, 0x1D0B0800, 0x20000000,
    0x1D0C0A00, 0x20000000, 0x1D0D0800, 0x20000000, 0x1C000001, 0x20000007, 0x130C000B, 0x1C000001,
    0x20000007, 0x130D000C, 0x1C000001, 0x20000007, 0x11040014, 0x1D010000, 0x20000000, 0x1D040100,
    0x20000007, 0x17000000, 0x20000007, 0x300001F4, 0x130B000D, 0x1C000005, 0x20000007, 0x130C000E,
    0x1C000005, 0x20000007, 0x18000000,
];

const STORY_LINES: &str = "\
n call code count badge message running
0 4 0 0 0 0 -
1 1 0 0 0 0 1
2 13 0 0 0 0 1
3 7 1 0 0 0 -
4 1 0 0 0 0 2
5 13 0 0 0 0 2
6 7 1 0 0 0 -
7 1 0 0 0 0 3
8 13 0 0 0 0 3
9 7 1 0 0 0 -
10 1 0 0 0 0 11
11 1 0 0 0 0 11
12 1 0 0 0 0 11
13 13 0 0 0 0 11
14 13 0 0 0 0 11
15 13 0 0 0 0 11
16 12 2 1 0 0 11
17 3 0 0 0 0 12
18 12 2 1 0 0 12
19 3 0 0 0 0 13
20 12 0 1 0 0 13
21 1 0 0 0 0 4
22 13 0 0 0 0 4
23 13 0 0 0 0 4
24 7 1 0 0 0 13
25 3 0 0 0 0 11
26 12 0 0 0 0 11
27 3 0 0 0 0 12
28 12 0 0 0 0 12
29 8 0 0 7 500 4
";

#[test]
fn the_further_case() {
    let bytes: Vec<u8> = STORY.iter().flat_map(|word| word.to_le_bytes()).collect();
    assert_eq!(listing(&bytes), STORY_LINES);
    assert_eq!(include_bytes!("../../journals/joiners.words")[..], bytes);
    assert_eq!(include_str!("../../journals/joiners.txt"), STORY_LINES);
}

/// The same, with the tables after the calls that matter.
#[test]
fn the_further_case_told() {
    let mut stage = Stage::new(&[7, 7, 7], &[11, 12, 13]);
    stage.calls(11, abort(1, 7), 2, 1);
    stage.calls(12, abort(1, 7), 2, 1);
    stage.calls(13, abort(1, 7), 0, 1);
    assert_eq!((stage.stands(), stage.0.waiters(0)), (None, vec![]));
    assert_eq!([11, 12, 13].map(|t| stage.words(t)), [[65, 7], [65, 7], [0, 0]]);
    stage.makes(&[grant(1, 0, 0, 0)]);
    stage.sender(4, 7);
    for t in [11, 12] {
        stage.calls(t, abort(5, 7), 0, 0);
        assert_eq!(stage.0.log().looks, []);
        assert_eq!((stage.stands(), stage.0.waiters(0)), (None, vec![4]));
    }
    assert_eq!([11, 12, 13].map(|t| stage.words(t)), [[0, 0]; 3]);
}

/// 9: no joiner has to find the set empty, and one that was broken off begins
/// no new abort when it calls again: it has a note as all members have.
#[test]
fn sentences_that_went() {
    let mut stage = two_at_work();
    assert_eq!(stage.bonds([11, 12]), [MEMBER, MEMBER]);
    stage.calls(11, abort(9, 7), 0, 2); // the one who began it ends it
    stage.sender(20, 7);
    stage.calls(12, abort(9, 7), 0, 0);
    assert!(!stage.0.log().seen.contains(&Situation::AbortBegun));
    assert_eq!(stage.0.waiters(0), [20]);
    let mut stage = two_at_work();
    stage.makes(&[Call::DestroyThread { thread: 11 }]); // and here it is destroyed
    stage.calls(13, abort(9, 7), 0, 2);
    stage.sender(20, 7);
    stage.calls(12, abort(9, 7), 0, 0);
    assert_eq!(stage.0.waiters(0), [20]);
}

/// Aborts by number, in the order in which they begin.
#[derive(Default)]
struct Begun {
    next: u32,
    standing: HashMap<u32, u32>,
    /// Who was broken off in which abort of which endpoint and badge, with no
    /// accepted call of its own since.
    broken: HashMap<u8, (u32, u32, u32)>,
}

impl Begun {
    /// Follows an accepted call of a thread; whether it was a second call.
    fn follow(&mut self, t: u8, call: &Call, code: u32, after: &Machine) -> bool {
        let saw = |situation| after.log().seen.contains(&situation);
        let earlier = self.broken.remove(&t);
        let Call::Abort { endpoint, badge, .. } = *call else {
            return false;
        };
        if saw(Situation::AbortBegun) {
            self.next += 1;
            self.standing.insert(endpoint, self.next);
        }
        let standing = self.standing.get(&endpoint).copied().unwrap_or(0);
        let again = earlier.filter(|&(e, b, _)| (e, b) == (endpoint, badge));
        if let Some((_, _, abort)) = again {
            let noted = saw(Situation::NoteAnswered);
            assert!(!saw(Situation::AbortBegun), "{t} begins anew: {call:?}");
            assert!(noted || standing == abort, "{t} works on another abort: {call:?}");
            assert!(!noted || after.log().looks.is_empty());
        }
        if code == 2 && saw(Situation::AbortBroken) {
            self.broken.insert(t, (endpoint, badge, standing));
        }
        again.is_some()
    }
}

/// Whoever is broken off in its own abort and calls again, with no other
/// accepted call of its own between, goes on with the same abort or has a note.
#[test]
fn never_a_new_one() {
    let mut steer = Steer::new(5);
    let mut again = 0;
    for _ in 0..300 {
        let (mut m, mut begun) = (Machine::fresh(), Begun::default());
        steer.new_list();
        for _ in 0..400 {
            let (call, runs) = (steer.next(&m), m.running());
            let answer = m.call(&call);
            match (runs, call) {
                (Some(t), _) if call.by_thread() && answer.accepted() => {
                    again += begun.follow(t, &call, answer.code, &m) as u32;
                }
                (_, Call::DestroyThread { thread }) if answer.accepted() => {
                    begun.broken.remove(&(thread as u8));
                }
                _ => (),
            }
        }
    }
    assert!(again > 500, "{again} second calls");
}
