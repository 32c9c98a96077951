//! The listing of the paper, the journal's edges, and short scenes.

use second::{
    listing, read, write, Bond, Call, Machine, Phase, Place, Read, Set, Written, HEADER, WORDS,
};

const INPUT: [u32; 27] = [
    0x1101000A, 0x1102000A, 0x11030014, 0x14000000, 0x1D010100, 0x20000008, 0x1D020800, 0x20000000,
    0x1D030B00, 0x20000007, 0x17000000, 0x20000007, 0x30000064, 0x17000000, 0x20000008, 0x300000C8,
    0x1C000001, 0x20000007, 0x17000000, 0x20000007, 0x30000065, 0x18000000, 0x1C000005, 0x20000007,
    0x12030000, 0x1C000001, 0x20000007,
];

const OUTPUT: &str = "\
n call code count badge message running
0 1 0 0 0 0 1
1 1 0 0 0 0 1
2 1 0 0 0 0 3
3 4 0 0 0 0 3
4 13 0 0 0 0 3
5 13 0 0 0 0 3
6 13 0 0 0 0 3
7 7 1 0 0 0 1
8 7 1 0 0 0 2
9 12 2 1 0 0 3
10 7 26 0 0 0 3
11 8 0 0 8 200 3
12 12 0 0 0 0 3
13 2 0 0 0 0 2
14 12 0 0 0 0 2
";

fn bytes(words: &[u32]) -> Vec<u8> {
    words.iter().flat_map(|w| w.to_le_bytes()).collect()
}

#[test]
fn fifteen_lines() {
    assert_eq!(listing(&bytes(&INPUT)), OUTPUT);
    assert_eq!(include_bytes!("../../journals/example.words")[..], bytes(&INPUT));
    assert_eq!(include_str!("../../journals/example.txt"), OUTPUT);
}

/// Each grant has the rights that its calls need and no other.
#[test]
fn no_right_to_spare() {
    for (at, rights) in [(4, vec![1]), (6, vec![8]), (8, vec![1, 2, 8])] {
        assert_eq!(INPUT[at] >> 8 & 15, rights.iter().sum());
        for right in rights {
            let mut fewer = INPUT;
            fewer[at] ^= right << 8;
            let lines = listing(&bytes(&fewer));
            assert!(lines.lines().any(|line| line.split(' ').nth(2) == Some("29")), "{right}");
        }
    }
}

#[test]
fn stops() {
    assert_eq!(listing(&[]), HEADER);
    for odd in 1..4 {
        assert_eq!(listing(&vec![0; odd]), format!("{HEADER}0 0 18 0 0 0 -\n"));
        let mut input = bytes(&INPUT);
        input.extend(vec![9; odd]);
        assert_eq!(listing(&input), format!("{OUTPUT}15 0 18 0 0 0 2\n"));
    }
    let mut input = bytes(&INPUT);
    input.extend(bytes(&[0x11000100, 0x14000000]));
    input.push(1);
    assert_eq!(listing(&input), format!("{OUTPUT}15 0 19 0 0 0 2\n"));
    assert_eq!(
        listing(&bytes(&[0x16000000, 0x17000000])[..7],),
        format!("{HEADER}0 6 0 0 0 0 -\n1 0 18 0 0 0 -\n")
    );
}

/// 0 for a call, 1 for the journal's end.
fn code(words: &[u32]) -> u32 {
    match read(words, 0) {
        Read::Refused(code) => code,
        Read::Call { .. } => 0,
        Read::Ended => 1,
    }
}

#[test]
fn reader_refusals() {
    assert_eq!(code(&[]), 1);
    assert_eq!(read(&INPUT, 27), Read::Ended);
    assert_eq!(read(&INPUT, 99), Read::Ended);
    for word in [0, 0x10000000, 0x1E000000, 0x1F000000, 0x20000000, 0xFFFFFFFF] {
        assert_eq!(code(&[word, 0x20000000, 0x30000000]), 18);
    }
    assert_eq!(code(&[0x16010000]), 18);
    assert_eq!(code(&[0x19000001]), 18);
    assert_eq!(code(&[0x12000001]), 18);
    assert_eq!(code(&[0x15200000]), 19);
    assert_eq!(code(&[0x151F0000]), 0);
    assert_eq!(code(&[0x15200001]), 18);
    assert_eq!(code(&[0x14400000]), 19);
    assert_eq!(code(&[0x143F0000]), 0);
    assert_eq!(code(&[0x110000FF]), 0);
    assert_eq!(code(&[0x11000100]), 19);
    assert_eq!(code(&[0x1B000000]), 19);
    assert_eq!(code(&[0x1B00FFFF]), 0);
    assert_eq!(code(&[0x17400000, 0x20000000]), 18);
    assert_eq!(code(&[0x17400000, 0x20000000, 0x20000000]), 18);
    assert_eq!(code(&[0x17400000, 0x20000000, 0x30000000]), 19);
    assert_eq!(code(&[0x1C000000, 0x30000000]), 18);
    assert_eq!(code(&[0x1C000000, 0x20000000]), 19);
    assert_eq!(code(&[0x1C000001, 0x2FFFFFFF]), 0);
    assert_eq!(WORDS.iter().map(|&n| n as u32).sum::<u32>(), 17);
}

/// Every part of a grant is as wide as its range: the reader never gives 19.
#[test]
fn grants_read() {
    for argument in 0..=0xFFFF {
        let stray = argument >> 12 != 0 || argument >> 6 & 3 != 0;
        let want = if stray { 18 } else { 0 };
        assert_eq!(code(&[0x1DFF0000 + argument, 0x2FFFFFFF]), want, "{argument:04X}");
    }
    assert_eq!(code(&[0x1D000000]), 18);
    assert_eq!(code(&[0x1D000000, 0x30000000]), 18);
    let call = Call::Grant { thread: 5, endpoint: 63, rights: 9, badge: 7 };
    assert_eq!(read(&[0x1D05093F, 0x20000007], 0), Read::Call { call, next: 2 });
}

#[test]
fn writing() {
    let send = Call::Send { endpoint: 63, badge: 1, message: (1 << 28) - 1 };
    let want = Written { code: 0, words: [0x173F0000, 0x20000001, 0x3FFFFFFF], len: 3 };
    assert_eq!(write(&send), want);
    let grant = Call::Grant { thread: 255, endpoint: 63, rights: 15, badge: (1 << 28) - 1 };
    let want = Written { code: 0, words: [0x1DFF0F3F, 0x2FFFFFFF, 0], len: 2 };
    assert_eq!(write(&grant), want);
    let nothing = Call::Grant { thread: 1, endpoint: 2, rights: 0, badge: 7 };
    assert_eq!(write(&nothing).words, [0x1D010002, 0x20000007, 0]);
    let abort = Call::Abort { endpoint: 0, allowance: 1, badge: 1 << 28 };
    let refused = Written { code: 19, words: [0; 3], len: 0 };
    assert_eq!(write(&abort), refused);
    for (thread, endpoint, rights, badge) in
        [(256, 0, 1, 0), (0, 64, 1, 0), (0, 0, 16, 0), (0, 0, 0, 1 << 28)]
    {
        assert_eq!(write(&Call::Grant { thread, endpoint, rights, badge }), refused);
    }
}

fn codes(m: &mut Machine, calls: &[Call]) -> Vec<(u32, u32)> {
    calls
        .iter()
        .map(|call| {
            let answer = m.call(call);
            assert_eq!(m.sound(), Ok(()));
            (answer.code, answer.count)
        })
        .collect()
}

/// Threads 1, 2 and so on at levels 10, 9, .. and endpoint 0, where they have
/// all rights and these badges.
fn scene(badges: &[u32]) -> Machine {
    let mut m = Machine::fresh();
    m.call(&Call::CreateEndpoint { endpoint: 0 });
    for (thread, &badge) in (1..).zip(badges) {
        m.call(&Call::CreateThread { thread, priority: 11 - thread });
        m.call(&grant(thread, 15, badge));
    }
    m
}

fn grant(thread: u32, rights: u32, badge: u32) -> Call {
    Call::Grant { thread, endpoint: 0, rights, badge }
}

fn send(badge: u32) -> Call {
    Call::Send { endpoint: 0, badge, message: badge }
}

fn abort(allowance: u32, badge: u32) -> Call {
    Call::Abort { endpoint: 0, allowance, badge }
}

#[test]
fn other_badge_exactly() {
    let mut m = scene(&[7, 7, 8, 0, 0]);
    let run = codes(&mut m, &[send(7), send(7), send(8), abort(1, 7)]);
    assert_eq!(run, [(1, 0), (1, 0), (1, 0), (2, 1)]);
    assert_eq!(m.running(), Some(1));
    assert_eq!(m.endpoint(0).abort.map(|a| a.members), Some(Set::from_iter([4])));
    assert_eq!(codes(&mut m, &[abort(2, 8)]), [(2, 2)]);
    assert!(m.endpoint(0).abort.is_none());
    assert_eq!(m.thread(4).bond, Bond::Note { endpoint: 0, badge: 7 });
    assert_eq!(codes(&mut m, &[abort(1, 8)]), [(0, 1)]);
    assert_eq!(m.thread(3).outcome, 3);
}

#[test]
fn delete_gives_a_note() {
    let mut m = scene(&[7, 7, 0, 0]);
    codes(&mut m, &[send(7), send(7), abort(1, 7)]);
    assert_eq!(m.running(), Some(1));
    assert_eq!(codes(&mut m, &[Call::Delete { endpoint: 0, allowance: 1 }]), [(0, 1)]);
    assert_eq!(m.endpoint(0).phase, Phase::Absent);
    codes(&mut m, &[Call::DestroyThread { thread: 1 }, Call::DestroyThread { thread: 2 }]);
    assert_eq!(m.running(), Some(3));
    assert_eq!(codes(&mut m, &[abort(0, 7), abort(9, 7), abort(9, 7)]), [(19, 0), (0, 0), (23, 0)]);
}

#[test]
fn end_mark_queues_again() {
    let mut m = scene(&[8, 8, 8, 0, 0]);
    codes(&mut m, &[send(8), send(8), send(8), abort(1, 7)]);
    codes(&mut m, &[Call::DestroyThread { thread: 3 }]);
    let again = [Call::CreateThread { thread: 3, priority: 200 }, grant(3, 1, 8), send(8)];
    assert_eq!(codes(&mut m, &again), [(0, 0), (0, 0), (1, 0)]);
    assert_eq!(m.thread(3).place, Place::Sending(0));
    assert_eq!(m.endpoint(0).abort.and_then(|a| a.span), Some((2, 2)));
    assert_eq!(codes(&mut m, &[abort(9, 7)]), [(0, 1)]);
    assert_eq!(m.waiters(0), [1, 2, 3]);
}
