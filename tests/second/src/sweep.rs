//! Memories written out by hand, and what becomes of them when one word is
//! changed.

use crate::words::{sound_words, TABLE};

/// Tables as lists of addresses and words; all other words are 0.
pub const TABLES: &str = include_str!("../../tables.txt");

/// The kinds of change, each made to every word in turn.
pub const CHANGES: [(&str, fn(u32) -> u32); 3] =
    [("zero", |_| 0), ("more", |word| word.wrapping_add(1)), ("ones", |_| u32::MAX)];

/// What came of the changes of one kind.
#[derive(Clone, Copy, Debug, Default, PartialEq, Eq)]
pub struct Counts {
    pub same: u32,
    pub sound: u32,
    pub unsound: u32,
}

/// Reads the tables: a line that begins with # starts one; then pairs of an
/// address and a word, up to a semicolon.
pub fn read_tables(text: &str) -> Vec<Vec<u32>> {
    let mut tables: Vec<Vec<u32>> = Vec::new();
    for line in text.lines() {
        if line.starts_with('#') {
            tables.push(vec![0; TABLE]);
            continue;
        }
        let pairs = line.split(';').next().unwrap_or_default();
        let numbers: Vec<u32> =
            pairs.split_whitespace().map(|n| n.parse().expect("a number")).collect();
        for pair in numbers.chunks(2) {
            let &[at, word] = pair else { panic!("an address without a word: {line}") };
            let words = tables.last_mut().expect("a table has begun");
            assert!(words[at as usize] == 0 && word != 0, "address {at} twice, or 0: {line}");
            words[at as usize] = word;
        }
    }
    tables
}

/// Makes a change to every word in turn.
pub fn sweep(words: &[u32], change: fn(u32) -> u32) -> Counts {
    let mut counts = Counts::default();
    let mut changed = words.to_vec();
    for (at, &word) in words.iter().enumerate() {
        changed[at] = change(word);
        if changed[at] == word {
            counts.same += 1;
        } else if sound_words(&changed) {
            counts.sound += 1;
        } else {
            counts.unsound += 1;
        }
        changed[at] = word;
    }
    counts
}

/// A number by which two programs can see that they have the same words.
pub fn sum(words: &[u32]) -> u64 {
    words.iter().fold(0, |sum, &word| (31 * sum + word as u64) % 4_294_967_291)
}

/// Words none of which is 0.
fn junk(length: u32) -> Vec<u32> {
    (1..=length).map(|n| n.wrapping_mul(0x9E37_79B9)).collect()
}

/// The words with the first n set to 0.
fn cleared(words: &[u32], n: usize) -> Vec<u32> {
    words.iter().enumerate().map(|(at, &word)| if at < n { 0 } else { word }).collect()
}

/// Tables of n words made fresh, at the front of 4,097 words.
fn report_fresh(n: usize) -> String {
    let words = junk(4097);
    let (answer, then) = if n == TABLE { (0, cleared(&words, n)) } else { (16, words.clone()) };
    format!("fresh {n} answer {answer} sum {} then {}\n", sum(&words), sum(&then))
}

/// Tables of n words checked with a scratch of k, at the front of 4,097 and
/// of 257 words, the scratch full of junk.
fn report_check(words: &[u32], n: usize, k: usize) -> String {
    let scratch = junk(257);
    let (answer, then) = match (n, k) {
        (TABLE, 256) if sound_words(&words[..n]) => (0, cleared(&scratch, k)),
        (TABLE, 256) => (17, cleared(&scratch, k)),
        _ => (16, scratch.clone()),
    };
    let (words, before, then) = (sum(words), sum(&scratch), sum(&then));
    format!(
        "check {n} scratch {k} answer {answer} sum {words} then {words} sum {before} then {then}\n"
    )
}

/// The lengths, on words full of junk and on fresh ones.
pub fn report_lengths() -> String {
    let words = junk(4097);
    let lengths = [
        (0, 256),
        (4095, 256),
        (4097, 256),
        (4096, 256),
        (4096, 0),
        (4096, 255),
        (4096, 257),
        (4095, 255),
    ];
    let mut text = String::new();
    text.extend(lengths.map(|(n, k)| report_check(&words, n, k)));
    text.extend([0, 4095, 4097, 4096].map(report_fresh));
    text.extend(lengths.map(|(n, k)| report_check(&cleared(&words, TABLE), n, k)));
    text
}

/// A line for each table, and one for each kind of change. A check that
/// leaves tables and scratch as it must has nothing wrong.
pub fn report_tables(tables: &[Vec<u32>]) -> String {
    let mut text = String::new();
    for (n, words) in tables.iter().enumerate() {
        let answer = if sound_words(words) { 0 } else { 17 };
        text += &format!("table {} sum {} answer {answer} wrong 0\n", n + 1, sum(words));
        for (name, change) in CHANGES {
            let Counts { same, sound, unsound } = sweep(words, change);
            text += &format!("{name} same {same} sound {sound} unsound {unsound} wrong 0\n");
        }
    }
    text
}
