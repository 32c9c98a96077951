#!/bin/sh
# Runs all tests: the second machine's own; then `rt ci` proves every crate, tries every must-fail edit and runs every
# program; then the programs and the libraries are built; the journals are listed, by the program and by the host in C,
# and told in sentences, plain and numbered; the documents' listings are tried; programs are run as compiled in several
# ways; the library is looked at as compiled, tested from Rust, lent damaged tables and grants from C, and compared with
# the second machine over 2,000,000 calls; a kernel around it is booted in an emulator; sentences, bills and the desk's
# command are tried. At the end it says what was not tried, and why. The last line is 'N passed, M failed'; the exit
# status is 0 only where nothing failed.
set -eu
cd "$(dirname "$0")"
need() {
    if ! command -v "$1" >/dev/null 2>&1; then
        echo "test.sh: the command $1 is missing. Install $2 and put $1 on the PATH." >&2
        exit 1
    fi
}
need rt "the Rattle kit (rattle-kit-13f or newer)"
need cargo "Rust (1.78 or newer)"
need cc "a C compiler"
need c++ "a C++ compiler"

passed=0
failed=0
log=$(mktemp)
trap 'rm -f "$log" "$log.code" "$log.untried"' EXIT
: >"$log.untried"

# Runs a command whose last line is '... N passed, M failed' and adds the two numbers to the totals. A command that
# fails and names no failure counts as one. A line 'NAME: not tried: WHY' is said again at the end.
counted() {
    { code=0; "$@" 2>&1 || code=$?; echo "$code" >"$log.code"; } | tee "$log"
    numbers=$(sed -n 's/^\(.*: \)\{0,1\}\([0-9][0-9]*\) passed, \([0-9][0-9]*\) failed$/\2 \3/p' "$log" | tail -n 1)
    numbers=${numbers:-0 0}
    grep '^[a-z]*: not tried: ' "$log" >>"$log.untried" || true
    if [ "$(cat "$log.code")" -ne 0 ] && [ "${numbers#* }" -eq 0 ]; then
        numbers="${numbers% *} 1"
    fi
    passed=$((passed + ${numbers% *}))
    failed=$((failed + ${numbers#* }))
}

counted sh tests/lines.sh
(cd tests && cargo test --quiet -p second)
counted rt ci
# An edit that could not be applied, compiled or read shows nothing, and rt ci passes all the same: here it fails.
bad=$(sed -n 's/^rt: ok;.*, \([0-9][0-9]*\) bad.*/\1/p' "$log" | tail -n 1)
if [ "${bad:-0}" -gt 0 ]; then
    echo "test.sh: $bad of the must-fail edits are bad, as rt says above"
    failed=$((failed + bad))
fi
./build.sh trace tell bill core_c tools_c || failed=$((failed + 1))
counted sh tests/journals.sh target/bin/trace
counted sh tests/journals.sh target/bin/tell told
counted sh tests/journals.sh target/bin/tell numbered -n
counted sh tests/slow.sh txt target/bin/trace
counted sh tests/slow.sh txt ./nazsombet list
counted sh tests/slow.sh told target/bin/tell
counted sh tests/slow.sh told ./nazsombet tell
counted sh tests/slow.sh numbered target/bin/tell -n
counted sh tests/documents.sh
counted sh tests/compiled.sh
counted sh tests/c.sh
export NAZSOMBET_BUILT=1
counted sh tests/damaged.sh
counted sh tests/compare.sh --seed 1
counted sh tests/box.sh
counted sh tests/sentences.sh
counted sh tests/bills.sh
counted sh tests/desk.sh
counted sh tests/worded.sh
cat "$log.untried"
echo "$passed passed, $failed failed"
test "$failed" -eq 0
