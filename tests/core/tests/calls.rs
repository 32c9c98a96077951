//! A call by name is the call of that number: its numbers are those that its journal words read as, written by hand.

use nazsombet::{Call, Core, Numbers, Read};

/// Every number of a call is another one, so that two exchanged ones are seen.
const CALLS: [(Call, &[u32]); 13] = [
    (Call::CreateThread { thread: 3, priority: 100 }, &[0x1103_0064]),
    (Call::DestroyThread { thread: 3 }, &[0x1203_0000]),
    (Call::SetPriority { thread: 3, priority: 100 }, &[0x1303_0064]),
    (Call::CreateEndpoint { endpoint: 5 }, &[0x1405_0000]),
    (Call::Interrupt { line: 9 }, &[0x1509_0000]),
    (Call::Tick, &[0x1600_0000]),
    (Call::Send { endpoint: 5, badge: 7, message: 100 }, &[0x1705_0000, 0x2000_0007, 0x3000_0064]),
    (Call::Receive { endpoint: 5 }, &[0x1805_0000]),
    (Call::Yield, &[0x1900_0000]),
    (Call::Wait { line: 9 }, &[0x1A09_0000]),
    (Call::Delete { endpoint: 5, allowance: 1000 }, &[0x1B05_03E8]),
    (Call::Abort { endpoint: 5, allowance: 1000, badge: 7 }, &[0x1C05_03E8, 0x2000_0007]),
    (Call::Grant { thread: 3, endpoint: 5, rights: 11, badge: 7 }, &[0x1D03_0B05, 0x2000_0007]),
];

#[test]
fn thirteen_calls() {
    for (index, (call, words)) in (1..).zip(CALLS) {
        let numbers = Numbers::from(call);
        assert_eq!(numbers.number, index);
        let written = Core::write(call);
        assert_eq!((written.code, &written.words[..written.count]), (0, words), "{call:?}");
        assert_eq!(Core::read(words, 0), Read::Found { call: numbers, next: words.len() });
    }
}
