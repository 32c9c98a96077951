//! How a thread was woken: on tables that calls have led to, on any words, and on tables of any length.

use nazsombet::{codes, outcomes, rights, Answer, Call, Core, Waking, TABLES};

const NOT_WOKEN: Waking = Waking { outcome: outcomes::NO_OUTCOME, badge: 0, message: 0 };

fn only(outcome: u32) -> Waking {
    Waking { outcome, badge: 0, message: 0 }
}

/// The call is answered so, count, badge and message apart.
fn made(core: &mut Core, call: Call, code: u32) {
    let Answer { code: answered, .. } = core.call(call);
    assert_eq!(answered, code, "{call:?}");
}

/// Threads of these priorities, 1 and on, with all rights and badge 7 at endpoint 0.
fn crowd(priorities: &[u32]) -> Core {
    let mut core = Core::new();
    made(&mut core, Call::CreateEndpoint { endpoint: 0 }, codes::DONE);
    for (thread, &priority) in (1..).zip(priorities) {
        made(&mut core, Call::CreateThread { thread, priority }, codes::DONE);
        let rights = rights::SEND | rights::RECEIVE | rights::DELETE | rights::ABORT;
        made(&mut core, Call::Grant { thread, endpoint: 0, rights, badge: 7 }, codes::DONE);
    }
    core
}

const SEND: Call = Call::Send { endpoint: 0, badge: 7, message: 100 };
const RECEIVE: Call = Call::Receive { endpoint: 0 };

#[test]
fn taken() {
    let mut core = crowd(&[20, 10]);
    made(&mut core, SEND, codes::BLOCKED);
    // A blocked sender keeps badge and message in its words, and they are not told.
    assert_eq!(core.woken(1), NOT_WOKEN);
    let answer = core.call(RECEIVE);
    assert_eq!(answer, Answer { code: 0, count: 0, badge: 7, message: 100 });
    assert_eq!(core.running(), Some(1));
    assert_eq!(core.woken(1), only(outcomes::MESSAGE_TAKEN));
    // A receive that is done at once was no waiting.
    assert_eq!(core.woken(2), NOT_WOKEN);
}

#[test]
fn received_until_it_blocks_again() {
    let mut core = crowd(&[20, 10]);
    made(&mut core, RECEIVE, codes::BLOCKED);
    assert_eq!(core.woken(1), NOT_WOKEN);
    made(&mut core, SEND, codes::DONE);
    let received = Waking { outcome: outcomes::MESSAGE_RECEIVED, badge: 7, message: 100 };
    assert_eq!(core.woken(1), received);
    made(&mut core, Call::Yield, codes::DONE);
    made(&mut core, Call::Interrupt { line: 9 }, codes::DONE);
    made(&mut core, Call::Wait { line: 9 }, codes::DONE);
    assert_eq!(core.woken(1), received);
    made(&mut core, Call::Wait { line: 9 }, codes::BLOCKED);
    assert_eq!(core.woken(1), NOT_WOKEN);
    made(&mut core, Call::Interrupt { line: 9 }, codes::DONE);
    assert_eq!(core.woken(1), only(outcomes::LINE_FIRED));
    made(&mut core, Call::DestroyThread { thread: 1 }, codes::DONE);
    assert_eq!(core.woken(1), NOT_WOKEN);
}

#[test]
fn aborted_and_deleted() {
    let mut core = crowd(&[20, 20, 10]);
    made(&mut core, SEND, codes::BLOCKED);
    made(&mut core, SEND, codes::BLOCKED);
    made(&mut core, Call::Abort { endpoint: 0, allowance: 1, badge: 7 }, codes::BROKEN_OFF);
    assert_eq!(core.woken(1), only(outcomes::MESSAGE_ABORTED));
    assert_eq!(core.woken(2), NOT_WOKEN);
    made(&mut core, Call::Delete { endpoint: 0, allowance: 1 }, codes::DONE);
    assert_eq!(core.woken(2), only(outcomes::ENDPOINT_GONE));
    assert_eq!(core.woken(3), NOT_WOKEN);
}

/// Chance, the same in every run (splitmix64).
fn chance(state: &mut u64) -> u32 {
    *state = state.wrapping_add(0x9E37_79B9_7F4A_7C15);
    let mut z = *state;
    z = (z ^ z >> 30).wrapping_mul(0xBF58_476D_1CE4_E5B9);
    z = (z ^ z >> 27).wrapping_mul(0x94D0_49BB_1331_11EB);
    (z >> 32) as u32
}

/// Any words, with every outcome in turn and ones that there are not: what stands there is told, by docs/LAYOUT.md.
#[test]
fn any_words() {
    let mut core = Core::new();
    let mut state = 0;
    for round in 0..16 {
        core.tables.iter_mut().for_each(|word| *word = chance(&mut state));
        for thread in 0..=255 {
            let block = 10 * thread as usize;
            if round > 0 {
                core.tables[block + 3] = (thread + round) % 8;
            }
            let [outcome, badge, message] = [3, 4, 5].map(|word| core.tables[block + word]);
            let told = Waking { outcome, badge, message };
            assert_eq!(core.woken(thread), if outcome == 2 { told } else { only(outcome) });
        }
        // Beyond the last thread stand words of others.
        for thread in [256, 257, 409, 410, 1 << 16, 1 << 31, u32::MAX] {
            assert_eq!(core.woken(thread), NOT_WOKEN, "{thread}");
        }
    }
}

#[test]
fn any_length() {
    for length in [0, 1, 10, TABLES - 1, TABLES, TABLES + 1, 2 * TABLES] {
        let core = Core { tables: vec![2; length], grants: Vec::new(), scratch: Vec::new() };
        let told = Waking { outcome: 2, badge: 2, message: 2 };
        for thread in 0..=256 {
            let expected = if length == TABLES && thread < 256 { told } else { NOT_WOKEN };
            assert_eq!(core.woken(thread), expected, "{length} words, thread {thread}");
        }
    }
}
