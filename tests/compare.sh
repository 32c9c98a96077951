#!/bin/sh
# Compares the compiled core with the second machine, call by call: first the comparison itself is held to cores with a
# fault, then it runs, with the options given here: --calls N, --seed S, --journal FILE. The last line is
# 'compare: 1 passed, 0 failed'; the exit status is 0 only then.
set -eu
cd "$(dirname "$0")/.."
# The library is built already where the caller says so.
[ -n "${NAZSOMBET_BUILT:-}" ] || ./build.sh core_c
(cd tests && cargo test --quiet -p compare && cargo build --quiet --release --bin compare)
target/tests/release/compare "$@"
echo "compare: 1 passed, 0 failed"
