//! bills KIND FOLDER: writes inputs of the program `bill`, NAME.input, and of
//! each what it must print, NAME.bill. The kinds: stored, those that stand in
//! tests/bills, whose README says what each is for; large, at the limit of
//! 16,000 words and beyond it; drawn, steered calls with ticks among them.

use second::spelling::{
    create, destroy, endpoint, grant, interrupt, priority, receive, ticks, wait, yields, Words,
};
use second::{bill, write, Machine, Profile, Rng, Steer, RECEIVE};
use std::{env, fs, io, path::Path};

/// Name, rate, journal, and the odd bytes behind it.
type Input = (String, u32, Words, Vec<u8>);

/// Thread 0 has five ticks, thread 1 two in two lives, nobody two.
fn example() -> Words {
    [
        ticks(1),
        create(0, 5),
        create(1, 5),
        ticks(6),
        destroy(1),
        create(1, 5),
        yields(),
        ticks(1),
        destroy(7), // refused
        destroy(0),
        destroy(1),
        ticks(1),
    ]
    .concat()
}

/// Threads 3 and 4 at one level: the fifth tick belongs to 3, whose turn it
/// spends, though 4 runs after it.
fn turn() -> Words {
    [create(3, 9), create(4, 9), ticks(8)].concat()
}

/// Thread 6 lives three times, once displaced and once with another priority.
fn anew() -> Words {
    [
        create(6, 50),
        ticks(2),
        destroy(6),
        create(6, 40),
        create(5, 60),
        ticks(3), // 5 has displaced 6
        destroy(5),
        ticks(1),
        destroy(6),
        ticks(1),
        create(6, 0),
        priority(6, 255),
        ticks(4),
    ]
    .concat()
}

/// Nobody runs before thread 2 is there, while it waits and when it is gone.
fn idle() -> Words {
    let life = [create(2, 1), ticks(4), wait(31), ticks(5), interrupt(31), ticks(6), destroy(2)];
    [ticks(3), life.concat(), ticks(7)].concat()
}

/// Refused calls, also ones made by nobody, are no ticks and change no count.
fn refused() -> Words {
    [
        yields(),
        receive(0),
        ticks(1),
        create(1, 10),
        create(1, 11),
        ticks(2),
        priority(2, 1),
        grant(1, 0, RECEIVE, 0),
        receive(0),
        endpoint(0),
        endpoint(0),
        receive(0),
        ticks(3),
    ]
    .concat()
}

/// The only thread receives, without the right and with it; then nobody runs.
fn blocked() -> Words {
    let asks = [create(8, 10), endpoint(63), receive(63), ticks(2), grant(8, 63, RECEIVE, 0)];
    [asks.concat(), receive(63), ticks(5)].concat()
}

/// All threads, thread t with one to five ticks: the last ones spend its turn.
fn many() -> Words {
    let threads = (0..256).flat_map(|thread| create(thread, 100));
    let turns = (0..256).flat_map(|thread| match thread % 5 {
        4 => ticks(5),
        few => [ticks(few + 1), yields()].concat(),
    });
    threads.chain(turns).collect()
}

/// Each of these threads alone with so many ticks.
fn one_by_one(lives: &[(u32, usize)]) -> Words {
    let life = |&(thread, count)| [create(thread, 0), ticks(count), destroy(thread)].concat();
    lives.iter().flat_map(life).collect()
}

fn stored() -> Vec<Input> {
    let badge = vec![0x2000_0007];
    let inputs = [
        ("rate_alone", 10_000, vec![], vec![]),
        ("example", 500, example(), vec![]),
        ("turn", 1_000, turn(), vec![]),
        ("anew", 1_000, anew(), vec![]),
        ("idle", 1_000, idle(), vec![]),
        ("refused", 1_000, refused(), vec![]),
        ("blocked", 1_000, blocked(), vec![]),
        ("many", 9_999, many(), vec![]),
        ("rate_0", 0, many(), vec![]),
        ("rate_1", 1, one_by_one(&[(255, 499), (9, 500), (10, 501)]), vec![]),
        ("halves", 500, one_by_one(&[(0, 1), (1, 3), (2, 5), (3, 7), (4, 2)]), vec![]),
        ("rate_10000", 10_000, example(), vec![]),
        ("rate_10001", 10_001, example(), vec![]),
        ("rate_largest", u32::MAX, example(), vec![]),
        ("high_rate_wrong", 10_001, vec![0], vec![]),
        ("wrong", 500, [example(), badge, ticks(1)].concat(), vec![]),
        ("cut", 500, [example(), vec![0x1700_0000, 0x2000_0007]].concat(), vec![]),
        ("range", 500, [example(), create(0, 256), ticks(1)].concat(), vec![]),
        ("range_odd", 500, [ticks(1), create(0, 256)].concat(), vec![1]),
        ("odd", 500, example(), vec![0, 0, 0x16]),
        ("odd_alone", 500, vec![], vec![0, 0]),
    ];
    inputs.map(|(name, rate, words, odd)| (name.to_string(), rate, words, odd)).to_vec()
}

fn large() -> Vec<Input> {
    let full = [many(), ticks(16_000)].concat()[..16_000].to_vec();
    let inputs = [
        ("full", 10_000, full.clone(), vec![]),
        ("full_idle", 1, ticks(16_000), vec![]),
        ("full_odd", 10_000, full.clone(), vec![0, 0, 0x16]),
        ("full_range", 10_000, [full[1..].to_vec(), create(0, 256)].concat(), vec![]),
        ("over", 10_000, [full, ticks(1)].concat(), vec![]),
        ("over_wrong", 0, vec![0; 16_001], vec![]),
        ("over_odd", 0, ticks(16_001), vec![0x16]),
        ("long", 1, ticks(50_000), vec![]),
    ];
    inputs.map(|(name, rate, words, odd)| (name.to_string(), rate, words, odd)).to_vec()
}

/// Steered calls from fresh tables, behind each none to three ticks.
fn steered(rng: &mut Rng, steer: &mut Steer) -> Words {
    let profile = rng.pick(&[Profile::Few, Profile::Few, Profile::Edges, Profile::Many]);
    steer.new_list_of(profile);
    let (mut machine, mut words) = (Machine::fresh(), Vec::new());
    for _ in 0..10 + rng.below(200) {
        let call = steer.next(&machine);
        let written = write(&call);
        if written.code == 0 {
            machine.call(&call);
            words.extend(&written.words[..written.len]);
        }
        words.extend(ticks(rng.below(4)));
    }
    words
}

/// One in twelve has odd bytes, one in twelve a word changed to another.
fn drawn() -> Vec<Input> {
    let (mut rng, mut steer) = (Rng::new(6), Steer::new(60));
    let mut input = |n| {
        let mut words = steered(&mut rng, &mut steer);
        if rng.one_in(12) {
            let at = rng.below(words.len());
            words[at] = rng.draw() as u32 >> 3;
        }
        let odd = if rng.one_in(12) { vec![0; 1 + rng.below(3)] } else { vec![] };
        let some = rng.below(10_001) as u32;
        let rate = rng.pick(&[0, 1, 500, 10_000, 10_001, some, some, some, some, some]);
        (format!("drawn_{n}"), rate, words, odd)
    };
    (0..300).map(&mut input).collect()
}

/// Inputs that have no rate.
fn short() -> Vec<(String, Vec<u8>)> {
    let inputs = [("nothing", 0), ("one", 1), ("three", 3)];
    inputs.map(|(name, length)| (name.to_string(), vec![0; length])).to_vec()
}

fn bytes((name, rate, words, odd): Input) -> (String, Vec<u8>) {
    let words = std::iter::once(rate).chain(words);
    (name, words.flat_map(u32::to_le_bytes).chain(odd).collect())
}

fn main() -> io::Result<()> {
    let args: Vec<String> = env::args().skip(1).collect();
    let [kind, folder] = &args[..] else { panic!("usage: bills KIND FOLDER") };
    let (whole, short) = match kind.as_str() {
        "stored" => (stored(), short()),
        "large" => (large(), vec![]),
        "drawn" => (drawn(), vec![]),
        _ => panic!("the kinds are stored, large and drawn"),
    };
    for (name, input) in whole.into_iter().map(bytes).chain(short) {
        let path = Path::new(folder).join(name);
        fs::write(path.with_extension("input"), &input)?;
        fs::write(path.with_extension("bill"), bill(&input))?;
    }
    Ok(())
}
