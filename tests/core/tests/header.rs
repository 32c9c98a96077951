//! The binding's constants are those of the header.

use nazsombet::{codes, outcomes, rights, GRANTS, RELEASE, SCRATCH, TABLES};

const HEADER: &str = include_str!("../../../include/nazsombet.h");

/// What the header defines a name as.
fn defined(name: &str) -> &'static str {
    let begins = format!("#define {name} ");
    let line = HEADER.lines().find_map(|line| line.strip_prefix(&begins));
    line.unwrap_or_else(|| panic!("{name} is not defined")).split("/*").next().unwrap().trim()
}

#[test]
fn one_release() {
    assert_eq!(defined("NAZSOMBET_RELEASE"), format!("\"{RELEASE}\""));
    assert!(nazsombet::VERSION.starts_with(&format!("{RELEASE}.")));
}

macro_rules! same {
    ($($module:ident { $($name:ident,)* })*) => {
        [$($((concat!("NAZSOMBET_", stringify!($name)), $module::$name),)*)*]
    };
}

#[test]
fn one_number_for_each_name() {
    let named = same! {
        codes {
            DONE, BLOCKED, BROKEN_OFF, LENGTH, UNSOUND, NO_CALL, RANGE, NOBODY_RUNS, THREAD_ABSENT,
            THREAD_PRESENT, ENDPOINT_ABSENT, ENDPOINT_PRESENT, ENDPOINT_CLOSING, BADGE_ABORTED,
            LINE_TAKEN, NO_RIGHT,
        }
        outcomes {
            NO_OUTCOME, MESSAGE_TAKEN, MESSAGE_RECEIVED, MESSAGE_ABORTED, ENDPOINT_GONE, LINE_FIRED,
        }
    };
    let sizes = [
        ("NAZSOMBET_TABLES", TABLES),
        ("NAZSOMBET_GRANTS", GRANTS),
        ("NAZSOMBET_SCRATCH", SCRATCH),
    ];
    let rights = [
        ("NAZSOMBET_RIGHT_SEND", rights::SEND),
        ("NAZSOMBET_RIGHT_RECEIVE", rights::RECEIVE),
        ("NAZSOMBET_RIGHT_DELETE", rights::DELETE),
        ("NAZSOMBET_RIGHT_ABORT", rights::ABORT),
    ];
    let sizes = sizes.map(|(name, size)| (name, size as u32));
    for (name, number) in named.into_iter().chain(rights).chain(sizes) {
        assert_eq!(defined(name), number.to_string(), "{name}");
    }
}
