//! Lines of docs/SENTENCES.md, letter by letter, and the longest line.

use second::{numbered_telling, sentence, telling, Answer, Call};

const SEND: Call = Call::Send { endpoint: 0, badge: 7, message: 101 };
const GRANT: Call = Call::Grant { thread: 255, endpoint: 63, rights: 15, badge: (1 << 28) - 1 };
const LARGEST: Answer = Answer { code: 27, count: u32::MAX, badge: u32::MAX, message: u32::MAX };

#[test]
fn known_lines() {
    let receive = Call::Receive { endpoint: 0 };
    let abort = Call::Abort { endpoint: 0, allowance: 1, badge: 7 };
    let odd = Answer { code: 77, count: 5, badge: u32::MAX, message: 0 };
    let cases = [
        (SEND, Answer::BLOCKED, "Send message 101 under badge 7 to endpoint 0: blocked.\n"),
        (
            SEND,
            Answer::code(26),
            "Send message 101 under badge 7 to endpoint 0: refused by 26, badge is under abort.\n",
        ),
        (receive, Answer::DONE, "Receive at endpoint 0: done, badge 0, message 0.\n"),
        (receive, Answer::BLOCKED, "Receive at endpoint 0: blocked.\n"),
        (
            abort,
            Answer::counted(2, 1),
            "Abort badge 7 at endpoint 0 with allowance 1: broken off, count 1.\n",
        ),
        (abort, Answer::DONE, "Abort badge 7 at endpoint 0 with allowance 1: done, count 0.\n"),
        (
            GRANT,
            Answer::DONE,
            "Grant thread 255 rights 15 at endpoint 63 under badge 268435455: done.\n",
        ),
        (
            SEND,
            Answer::code(29),
            "Send message 101 under badge 7 to endpoint 0: refused by 29, lacks right or badge.\n",
        ),
        (Call::Tick, odd, "Tick: refused by 77, count 5, badge 4294967295.\n"),
    ];
    for (call, answer, line) in cases {
        assert_eq!(sentence(&call, &answer), line);
    }
}

#[test]
fn longest_line() {
    let send = Call::Send { endpoint: 63, badge: (1 << 28) - 1, message: (1 << 28) - 1 };
    assert_eq!(sentence(&send, &LARGEST).len(), 155);
    assert_eq!(sentence(&GRANT, &LARGEST).len(), 159);
}

#[test]
fn journals_that_stop() {
    assert_eq!(telling(&[]), "");
    assert_eq!(telling(&[1]), "The journal does not go on: refused by 18, this is no call.\n");
    assert_eq!(
        telling(&0x1440_0000_u32.to_le_bytes()),
        "The journal does not go on: refused by 19, number out of range.\n"
    );
}

#[test]
fn numbered_lines() {
    let words = [0x1900_0000_u32, 0x1103_0064, 0x1104_0032, 0x1800_0000, 0x1600_0000, 0x1440_0000];
    let bytes: Vec<u8> = words.iter().flat_map(|word| word.to_le_bytes()).collect();
    assert_eq!(
        numbered_telling(&bytes),
        "0, nobody: Yield: refused by 20, no thread runs; nobody runs.\n\
         1, host: Create thread 3 with priority 100: done; thread 3 runs.\n\
         2, host: Create thread 4 with priority 50: done; thread 3 runs.\n\
         3, thread 3: Receive at endpoint 0: refused by 29, lacks right or badge; thread 3 runs.\n\
         4, host: Tick: done; thread 3 runs.\n\
         5: The journal does not go on: refused by 19, number out of range; thread 3 runs.\n"
    );
    assert_eq!(numbered_telling(&[]), "");
}
