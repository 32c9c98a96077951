//! The host of examples/writers.c in Rust, with the same output: a page store, twelve writers under two badges, and a
//! keeper that aborts. A badge is moved from six writers to a newcomer, by an abort that is broken off and taken up.
//!
//!     ./build.sh core_c
//!     cd bindings/rust && cargo run --example writers

use nazsombet::{codes, outcomes, rights, Answer, Call, Core, Waking};

const KEEPER: u32 = 0;
const WRITERS: u32 = 12;
const STORE: u32 = 13;
const NEWCOMER: u32 = 14;

/// The endpoint at which the store receives pages.
const PAGES: u32 = 0;
/// The line of the store's disk; a writer rests on the line of its own number.
const DISK: u32 = 0;
/// The badges of odd and of even writers.
const MOVED: u32 = 7;
const OTHER: u32 = 8;
/// The waiters that one abort call may look at.
const ALLOWANCE: u32 = 5;

const LOWEST: u32 = 0;
const LOW: u32 = 5;
const MIDDLE: u32 = 10;
const HIGH: u32 = 20;

#[derive(Default)]
struct Host {
    core: Core,
    /// Of each thread whether its last call was answered 1, and its pages so far.
    waits: [bool; 15],
    pages: [u32; 15],
    /// Whether the keeper has an abort to make or to take up.
    aborting: bool,
    /// Badge and message that the store has received and not yet written.
    page: Option<(u32, u32)>,
}

impl Host {
    /// Makes a call of the host, which must be done.
    fn make(&mut self, call: Call) {
        let answer = self.core.call(call);
        assert_eq!(answer.code, codes::DONE, "{call:?}");
    }

    /// Makes a call of the thread that runs.
    fn by(&mut self, thread: u32, call: Call) -> Answer {
        assert_eq!(self.core.running(), Some(thread));
        let answer = self.core.call(call);
        self.waits[thread as usize] = answer.code == codes::BLOCKED;
        answer
    }

    /// A new thread is ready before it has its grant: it is created low and raised afterwards.
    fn create(&mut self, thread: u32, priority: u32, rights: u32, badge: u32) {
        self.make(Call::CreateThread { thread, priority: LOWEST });
        self.make(Call::Grant { thread, endpoint: PAGES, rights, badge });
        self.make(Call::SetPriority { thread, priority });
    }

    /// The store has a page and waits for its disk.
    fn store_page(&mut self, badge: u32, message: u32) {
        println!("store: page {message} of badge {badge}, waits for the disk");
        self.page = Some((badge, message));
        self.by(STORE, Call::Wait { line: DISK });
    }

    fn run_store(&mut self, woken: Waking) {
        if woken.outcome == outcomes::MESSAGE_RECEIVED {
            return self.store_page(woken.badge, woken.message);
        }
        if let Some((badge, message)) = self.page.take() {
            println!("store: wrote page {message} of badge {badge}");
        }
        match self.by(STORE, Call::Receive { endpoint: PAGES }) {
            Answer { code: codes::DONE, badge, message, .. } => self.store_page(badge, message),
            _ => println!("store: waits for a page"),
        }
    }

    fn run_writer(&mut self, thread: u32, woken: Waking) {
        let rest = Call::Wait { line: thread };
        let ended = match woken.outcome {
            outcomes::MESSAGE_TAKEN => Some("taken"),
            outcomes::MESSAGE_ABORTED => Some("aborted"),
            _ => None,
        };
        if let Some(ended) = ended {
            println!("thread {thread}: its page is {ended}");
            self.by(thread, rest);
            return;
        }
        // It begins, or its last page was taken at once, or its line has fired.
        let badge = if thread == NEWCOMER || thread % 2 == 1 { MOVED } else { OTHER };
        let pages = &mut self.pages[thread as usize];
        *pages += 1;
        let message = 100 * *pages + thread;
        let code = self.by(thread, Call::Send { endpoint: PAGES, badge, message }).code;
        println!("thread {thread}: sends page {message} under badge {badge}: {code}");
        // Refused, it runs still.
        if code >= codes::LENGTH {
            self.by(thread, rest);
        }
    }

    /// Aborts the badge, or takes the abort up. Any other call of the keeper's would end its part in it.
    fn run_keeper(&mut self) {
        let abort = Call::Abort { endpoint: PAGES, allowance: ALLOWANCE, badge: MOVED };
        let Answer { code, count, .. } = self.by(KEEPER, abort);
        println!("keeper: aborts badge {MOVED}: {code}, looked at {count}");
        self.aborting = code == codes::BROKEN_OFF;
    }

    /// Lets threads run until the keeper does, the lowest of them, and has nothing to do.
    fn run(&mut self) {
        loop {
            let thread = self.core.running().expect("the keeper runs at least");
            let waited = self.waits[thread as usize];
            let woken = if waited { self.core.woken(thread) } else { Waking::default() };
            match thread {
                KEEPER if self.aborting => self.run_keeper(),
                KEEPER => return,
                STORE => self.run_store(woken),
                _ => self.run_writer(thread, woken),
            }
        }
    }
}

fn main() {
    let mut host = Host::default();
    host.make(Call::CreateEndpoint { endpoint: PAGES });
    host.create(KEEPER, LOW, rights::ABORT, 0);
    host.create(STORE, HIGH, rights::RECEIVE, 0);
    for thread in 1..=WRITERS {
        let badge = if thread % 2 == 1 { MOVED } else { OTHER };
        host.create(thread, MIDDLE, rights::SEND, badge);
    }
    host.run();

    println!("host: takes badge {MOVED} from the odd threads");
    for thread in (1..=WRITERS).step_by(2) {
        host.make(Call::Grant { thread, endpoint: PAGES, rights: 0, badge: 0 });
    }
    host.aborting = true;
    host.run();

    println!("host: lets the store write what it has received");
    host.make(Call::Interrupt { line: DISK });
    host.run();

    println!("host: gives badge {MOVED} to thread {NEWCOMER}");
    host.create(NEWCOMER, MIDDLE, rights::SEND, MOVED);
    host.run();
    while host.page.is_some() {
        host.make(Call::Interrupt { line: DISK });
        host.run();
    }

    println!("host: thread 1 tries again");
    host.make(Call::Interrupt { line: 1 });
    host.run();
}
