//! Bills worked out by hand, the rounding at its edges, and every refusal in
//! its order.

use second::bill;

const TICK: u32 = 0x1600_0000;
const OUT_OF_RANGE: u32 = 0x1100_0100;

fn input(rate: u32, journal: &[u32], odd: &[u8]) -> Vec<u8> {
    let words = std::iter::once(&rate).chain(journal);
    words.flat_map(|word| word.to_le_bytes()).chain(odd.iter().copied()).collect()
}

fn billed(rate: u32, journal: &[u32]) -> String {
    bill(&input(rate, journal, &[]))
}

/// Threads 0 and 1 at one level: an idle tick, five for 0, which spend its
/// turn, one for 1; 1 is destroyed and made anew behind 0, which yields to it
/// and is destroyed after a tick; a refused destroy; an idle tick at the end.
#[test]
fn two_threads() {
    let journal = [
        &[TICK, 0x1100_0005, 0x1101_0005][..],
        &[TICK; 6],
        &[0x1201_0000, 0x1101_0005, 0x1900_0000, TICK, 0x1207_0000, 0x1200_0000, 0x1201_0000, TICK],
    ]
    .concat();
    assert_eq!(billed(500, &journal), "0 5 3\n1 2 1\nidle 2\n");
    assert_eq!(billed(0, &journal), "0 5 0\n1 2 0\nidle 2\n");
    assert_eq!(billed(10_000, &journal), "0 5 50\n1 2 20\nidle 2\n");
}

/// So many ticks of thread 7, alone.
fn alone(ticks: usize) -> Vec<u32> {
    let mut journal = vec![0x1107_0000];
    journal.resize(1 + ticks, TICK);
    journal
}

#[test]
fn nearest_cents() {
    for (rate, ticks, cents) in [
        (1, 499, 0),
        (1, 500, 1),
        (1, 501, 1),
        (1, 1_499, 1),
        (1, 1_500, 2),
        (1, 2_500, 3),
        (1, 15_999, 16),
        (500, 1, 1),
        (499, 1, 0),
        (1_500, 1, 2),
        (9_999, 1, 10),
        (10_000, 15_999, 159_990),
    ] {
        assert_eq!(billed(rate, &alone(ticks)), format!("7 {ticks} {cents}\nidle 0\n"));
    }
}

/// A thread that waits, stands ready or is displaced has none of a tick.
#[test]
fn who_runs_when_it_comes() {
    // 3 waits on line 0 after a tick; nobody runs; line 0 fires; 9 displaces 3.
    let waits = [0x1103_000A, TICK, 0x1A00_0000, TICK, TICK, 0x1500_0000, TICK];
    assert_eq!(billed(1_000, &waits), "3 2 2\nidle 2\n");
    let displaced = [&waits[..], &[0x1109_000B, TICK, TICK, TICK]].concat();
    assert_eq!(billed(1_000, &displaced), "3 2 2\n9 3 3\nidle 2\n");
    // 4 receives without a right, then with it: it blocks, and nobody runs.
    let receives = [0x1104_0000, 0x1400_0000, 0x1800_0000, TICK, 0x1D04_0200, 0x2000_0000];
    let receives = [&receives[..], &[0x1800_0000, TICK, TICK]].concat();
    assert_eq!(billed(1_000, &receives), "4 1 1\nidle 2\n");
}

#[test]
fn without_ticks() {
    assert_eq!(billed(0, &[]), "idle 0\n");
    assert_eq!(billed(10_000, &[0x1107_0000]), "idle 0\n");
    assert_eq!(billed(10_000, &[TICK]), "idle 1\n");
}

#[test]
fn refusals_in_their_order() {
    for length in 0..4 {
        assert_eq!(bill(&vec![0xFF; length]), "18\n", "there is no rate");
    }
    for (rate, journal, odd, number) in [
        (10_001, vec![], 0, 30),
        (u32::MAX, vec![], 0, 30),
        (10_001, vec![0], 3, 30),
        (0, vec![0; 16_001], 0, 30),
        (0, vec![TICK; 16_001], 1, 30),
        (0, vec![OUT_OF_RANGE; 16_001], 0, 30),
        (10_000, vec![0; 16_000], 0, 18),
        (10_000, vec![TICK, OUT_OF_RANGE], 1, 19),
        (10_000, vec![TICK, OUT_OF_RANGE, 0], 0, 19),
        (10_000, vec![TICK, 0x1700_0000, 0x2000_0000], 0, 18),
        (10_000, vec![TICK], 1, 18),
        (10_000, vec![TICK; 16_000], 3, 18),
        (10_000, vec![], 2, 18),
    ] {
        assert_eq!(bill(&input(rate, &journal, &vec![0x16; odd])), format!("{number}\n"));
    }
    assert_eq!(billed(10_000, &[TICK; 16_000]), "idle 16000\n");
}
