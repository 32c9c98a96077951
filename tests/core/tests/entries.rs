//! The entry points, on document 01's example and at the edges of what they are lent.

use nazsombet::{Answer, Core, Numbers, Read, Written, GRANTS, SCRATCH, TABLES};

const JOURNAL: [u32; 27] = [
    0x1101000A, 0x1102000A, 0x11030014, 0x14000000, 0x1D010100, 0x20000008, 0x1D020800, 0x20000000,
    0x1D030B00, 0x20000007, 0x17000000, 0x20000007, 0x30000064, 0x17000000, 0x20000008, 0x300000C8,
    0x1C000001, 0x20000007, 0x17000000, 0x20000007, 0x30000065, 0x18000000, 0x1C000005, 0x20000007,
    0x12030000, 0x1C000001, 0x20000007,
];

/// Call, code, count, badge, message, running.
const LINES: [[u32; 6]; 15] = [
    [1, 0, 0, 0, 0, 1],
    [1, 0, 0, 0, 0, 1],
    [1, 0, 0, 0, 0, 3],
    [4, 0, 0, 0, 0, 3],
    [13, 0, 0, 0, 0, 3],
    [13, 0, 0, 0, 0, 3],
    [13, 0, 0, 0, 0, 3],
    [7, 1, 0, 0, 0, 1],
    [7, 1, 0, 0, 0, 2],
    [12, 2, 1, 0, 0, 3],
    [7, 26, 0, 0, 0, 3],
    [8, 0, 0, 8, 200, 3],
    [12, 0, 0, 0, 0, 3],
    [2, 0, 0, 0, 0, 2],
    [12, 0, 0, 0, 0, 2],
];

/// The grants behind the example: word and content.
const GRANTED: [(usize, u32); 3] = [(64, 0x1000_0008), (128, 0x8000_0000), (192, 0xB000_0007)];

fn numbers([number, subject, argument, badge, message, rights]: [u32; 6]) -> Numbers {
    Numbers { number, subject, argument, badge, message, rights }
}

/// A call that has no numbers, or none that is not 0.
fn bare(number: u32) -> Numbers {
    Numbers { number, ..Numbers::default() }
}

fn create_thread(thread: u32, priority: u32) -> Numbers {
    numbers([1, thread, priority, 0, 0, 0])
}

fn create_endpoint(endpoint: u32) -> Numbers {
    numbers([4, endpoint, 0, 0, 0, 0])
}

fn grant(thread: u32, endpoint: u32, rights: u32, badge: u32) -> Numbers {
    numbers([13, thread, endpoint, badge, 0, rights])
}

fn refused(code: u32) -> Answer {
    Answer { code, ..Answer::default() }
}

/// A core that has taken these calls, all of them answered 0.
fn after(calls: &[Numbers]) -> Core {
    let mut core = Core::new();
    for call in calls {
        assert_eq!(core.call(call), refused(0), "{call:?}");
    }
    core
}

#[test]
fn fifteen_lines() {
    let mut core = Core::new();
    let mut at = 0;
    for line in LINES {
        let Read::Found { call, next } = Core::read(&JOURNAL, at) else {
            panic!("word {at} does not read");
        };
        let written = Core::write(call);
        assert_eq!((written.code, written.count), (0, next - at));
        assert_eq!(written.words[..written.count], JOURNAL[at..next]);
        let answer = core.call(&call);
        let running = core.running().expect("nobody runs");
        assert_eq!(
            line,
            [call.number, answer.code, answer.count, answer.badge, answer.message, running]
        );
        assert!(core.scratch.iter().all(|&w| w == 0));
        assert_eq!(core.check(), 0);
        at = next;
    }
    assert_eq!(Core::read(&JOURNAL, at), Read::Ended);
    let granted = core.grants.iter().copied().enumerate().filter(|&(_, word)| word != 0);
    assert_eq!(granted.collect::<Vec<_>>(), GRANTED);
}

/// How many of the journal's calls are refused by 29.
fn barred(journal: &[u32]) -> usize {
    let mut core = Core::new();
    let mut at = 0;
    let mut barred = 0;
    while let Read::Found { call, next } = Core::read(journal, at) {
        barred += usize::from(core.call(&call) == refused(29));
        at = next;
    }
    assert_eq!(at, journal.len());
    barred
}

/// Each of the example's rights is missed when it is not granted, and each badge of a send when another is.
#[test]
fn no_right_too_many() {
    assert_eq!(barred(&JOURNAL), 0);
    for (at, rights) in [(4, 0x1), (6, 0x8), (8, 0xB)] {
        for right in [1, 2, 4, 8].into_iter().filter(|right| rights & right != 0) {
            let mut journal = JOURNAL;
            journal[at] ^= right << 8;
            assert!(barred(&journal) > 0, "word {at} without right {right}");
        }
    }
    for (at, sends) in [(5, true), (7, false), (9, true)] {
        let mut journal = JOURNAL;
        journal[at] += 1;
        assert_eq!(barred(&journal) > 0, sends, "word {at}");
    }
}

/// The word of the running thread, with any number in it.
#[test]
fn any_word_runs_a_thread_or_nobody() {
    let mut core = Core::new();
    for word in (0..600).chain([5000, u32::MAX - 1, u32::MAX]) {
        core.tables[3561] = word;
        let thread = if (1..=256).contains(&word) { Some(word - 1) } else { None };
        assert_eq!(core.running(), thread);
    }
}

fn around(length: usize) -> [usize; 5] {
    [0, 1, length - 1, length, length + 1]
}

#[test]
fn lengths() {
    for tables in around(TABLES) {
        for grants in around(GRANTS) {
            for scratch in around(SCRATCH) {
                lent([tables, grants, scratch]);
            }
        }
    }
}

/// Memories of three lengths, lent to every entry.
fn lent(lengths: [usize; 3]) {
    let [tables, grants, scratch] = lengths.map(|length| vec![7; length]);
    let lent = Core { tables, grants, scratch };
    let fresh = lengths[..2] == [TABLES, GRANTS];
    let fits = lengths == [TABLES, GRANTS, SCRATCH];
    let mut core = lent.clone();
    if !fits {
        for call in [bare(6), bare(14), create_thread(256, 0)] {
            assert_eq!(core.call(&call), refused(16));
        }
        assert_eq!(core.check(), 16);
        assert_eq!(core, lent);
    }
    assert_eq!(core.fresh(), if fresh { 0 } else { 16 });
    if fresh {
        assert!(core.tables.iter().chain(&core.grants).all(|&word| word == 0));
        assert_eq!(core.scratch, lent.scratch);
    } else {
        assert_eq!(core, lent);
    }
    assert_eq!(core.check(), if fits { 0 } else { 16 });
    assert_eq!(core.running(), if lengths[0] == TABLES && !fresh { Some(6) } else { None });
}

/// The call is refused so; tables and grants stay, and the scratch is zeroed.
fn refuses(core: &mut Core, call: &Numbers, code: u32) {
    core.scratch.fill(7);
    let kept = Core { scratch: vec![0; SCRATCH], ..core.clone() };
    assert_eq!(core.call(call), refused(code), "{call:?}");
    assert_eq!(*core, kept);
}

#[test]
fn refusals_in_their_order() {
    let calls =
        [(bare(14), 18), (create_thread(256, 0), 19), (grant(0, 0, 16, 0), 19), (bare(9), 20)];
    let mut core = Core::new();
    for (call, code) in calls {
        refuses(&mut core, &call, code);
    }
    let mut unsound_tables = core.clone();
    unsound_tables.tables[TABLES - 1] = 1;
    let mut unsound_grants = core.clone();
    unsound_grants.grants[GRANTS - 1] = 1;
    for (call, _) in calls {
        refuses(&mut unsound_tables, &call, 17);
        refuses(&mut unsound_grants, &call, 17);
    }
}

/// 29 comes after 20 and before all that is said of an endpoint; a grant can be refused by 21, then 23.
#[test]
fn rights_in_their_order() {
    let [send, receive] = [7, 8].map(|number| numbers([number, 5, 0, 0, 0, 0]));
    let [delete, abort] = [11, 12].map(|number| numbers([number, 5, 1, 0, 0, 0]));
    let mut core = Core::new();
    for call in [send, receive, delete, abort] {
        refuses(&mut core, &call, 20);
    }
    refuses(&mut core, &grant(3, 5, 15, 0), 21);
    core.call(&create_thread(3, 10));
    refuses(&mut core, &grant(3, 5, 15, 0), 23);
    for (right, call) in [(1, send), (2, receive), (4, delete), (8, abort)] {
        core.grants[64 * 3 + 5] = (15 - right) << 28;
        refuses(&mut core, &call, 29);
        core.grants[64 * 3 + 5] = right << 28;
        refuses(&mut core, &call, 23);
        core.grants[64 * 3 + 5] = right << 28 | 1;
        refuses(&mut core, &call, if right == 1 { 29 } else { 23 });
    }
}

/// Every content of a word of the grants; the word itself is one of the first, the last or any between.
#[test]
fn sound_grants() {
    let mut core = after(&[create_thread(3, 10)]);
    let sound = [0, 1 << 28, 1 << 28 | 1, 0x8000_0000, u32::MAX];
    let unsound = [1, 2, 1 << 27, (1 << 28) - 1];
    for at in (0..GRANTS).step_by(61).chain([GRANTS - 1]) {
        for (words, code) in [(&sound[..], 0), (&unsound, 17)] {
            for &word in words {
                core.grants[at] = word;
                let kept = Core { scratch: vec![0; SCRATCH], ..core.clone() };
                assert_eq!(core.check(), code, "{word:08X} in word {at}");
                assert_eq!(core, kept);
                assert_eq!(core.call(&bare(6)), refused(code));
                assert_eq!(core.grants, kept.grants);
            }
        }
        core.grants[at] = 0;
    }
}

/// What a call changes where thread 3, which runs, and endpoint 63 are there and every word of the grants lets its
/// thread send under badge 7 and delete: the addresses, and the words that it puts there.
fn changed(call: &Numbers) -> Vec<(usize, u32)> {
    const WORD: u32 = 0x5000_0007;
    let mut core = after(&[create_thread(3, 10), create_endpoint(63)]);
    core.grants.fill(WORD);
    assert_eq!(core.call(call), refused(0), "{call:?}");
    core.grants.into_iter().enumerate().filter(|&(_, word)| word != WORD).collect()
}

#[test]
fn grants_that_calls_change() {
    for (call, word) in [
        (grant(3, 63, 15, (1 << 28) - 1), u32::MAX),
        (grant(3, 63, 1, 0), 1 << 28),
        (grant(3, 63, 2, 7), 0x2000_0007),
        (grant(3, 63, 0, 0), 0),
        (grant(3, 63, 0, 9), 0),
    ] {
        assert_eq!(changed(&call), [(64 * 3 + 63, word)]);
    }
    let row: Vec<(usize, u32)> = (64 * 255..64 * 256).map(|at| (at, 0)).collect();
    assert_eq!(changed(&create_thread(255, 10)), row);
    let column: Vec<(usize, u32)> = (0..256).map(|thread| (64 * thread + 5, 0)).collect();
    assert_eq!(changed(&create_endpoint(5)), column);
    let destroy = numbers([2, 3, 0, 0, 0, 0]);
    let delete = numbers([11, 63, 1, 0, 0, 0]);
    for call in [destroy, delete, bare(6), bare(9)] {
        assert_eq!(changed(&call), []);
    }
}

/// For each call the numbers that it has not are 0, or no call is named.
#[test]
fn unused_numbers() {
    let used = [
        [true, true, false, false, false],
        [true, false, false, false, false],
        [true, true, false, false, false],
        [true, false, false, false, false],
        [true, false, false, false, false],
        [false, false, false, false, false],
        [true, false, true, true, false],
        [true, false, false, false, false],
        [false, false, false, false, false],
        [true, false, false, false, false],
        [true, true, false, false, false],
        [true, true, true, false, false],
        [true, true, true, false, true],
    ];
    let mut core = Core::new();
    for (i, used) in used.into_iter().enumerate() {
        for part in 0..5 {
            let mut n = [i as u32 + 1, 0, 0, 0, 0, 0];
            n[part + 1] = u32::MAX;
            let call = numbers(n);
            let code = if used[part] { 19 } else { 18 };
            assert_eq!(core.call(&call), refused(code), "{call:?}");
            assert_eq!(Core::write(call), Written { code, count: 0, words: [0; 3] });
        }
    }
    for number in [0, 14, 16, u32::MAX] {
        assert_eq!(core.call(&bare(number)), refused(18));
        assert_eq!(Core::write(bare(number)).code, 18);
    }
}

#[test]
fn reading_stays_where_it_refuses() {
    assert_eq!(Core::read(&[], 0), Read::Ended);
    assert_eq!(Core::read(&JOURNAL, usize::MAX), Read::Ended);
    assert_eq!(Core::read(&JOURNAL, 5), Read::Refused { code: 18, at: 5 });
    assert_eq!(Core::read(&[0x16000000, 0x1B000000], 1), Read::Refused { code: 19, at: 1 });
    assert_eq!(Core::read(&[0x1C000001], 0), Read::Refused { code: 18, at: 0 });
}

/// How many words a call takes, by the top byte of its first: 0x11 to 0x1D, in
/// their order; no call begins with another.
#[test]
fn every_top_byte_takes_its_words() {
    const TAKEN: [usize; 13] = [1, 1, 1, 1, 1, 1, 3, 1, 1, 1, 1, 2, 2];
    for top in 0..=255u32 {
        let taken = top.checked_sub(0x11).and_then(|n| TAKEN.get(n as usize).copied());
        let allowance = u32::from(top == 0x1B || top == 0x1C);
        let words = [top << 24 | allowance, 0x20000000, 0x30000000];
        for present in 1..=3 {
            let next = match Core::read(&words[..present], 0) {
                Read::Found { next, .. } => Some(next),
                read => {
                    assert_eq!(read, Read::Refused { code: 18, at: 0 });
                    None
                }
            };
            assert_eq!(next, taken.filter(|&taken| taken <= present), "{top:02X}");
        }
    }
}

/// Every argument of a grant's first word: it reads, or bits that must be 0 are not.
#[test]
fn every_grant_reads_or_is_no_call() {
    for argument in 0..=0xFFFF {
        let read = Core::read(&[0x1DFF_0000 | argument, 0x2FFF_FFFF], 0);
        let call = grant(255, argument & 63, argument >> 8 & 15, 0x0FFF_FFFF);
        let unused = argument & 0xF0C0;
        let expected = match unused {
            0 => Read::Found { call, next: 2 },
            _ => Read::Refused { code: 18, at: 0 },
        };
        assert_eq!(read, expected, "{argument:04X}");
    }
    assert_eq!(Core::read(&[0x1D00_0000, 0x3000_0000], 0), Read::Refused { code: 18, at: 0 });
}
