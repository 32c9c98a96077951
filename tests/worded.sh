#!/bin/sh
# worded.sh: the lines that the library of tools writes, which tests/sentences.sh leaves, are those of the second
# machine, letter by letter. The last line is 'worded: N passed, M failed'; the exit status is 0 only where nothing
# failed.
set -eu
cases=$(dirname "$0")/../target/sentences.cases
if [ ! -s "$cases" ]; then
    echo "worded.sh: $cases is missing. Run: sh tests/sentences.sh" >&2
    exit 1
fi
cd "$(dirname "$0")"
cargo run --quiet --profile checked --bin worded <"../target/sentences.cases"
