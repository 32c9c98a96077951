#!/bin/sh
# bills.sh: the bills that target/bin/bill prints are the second machine's: of the inputs of tests/bills, of large ones
# and of journals drawn at random; as files, byte by byte and by a slow pipe. What cannot be read is complained of and
# gives no bill. Then ticks are counted from C: AddressSanitizer and UndefinedBehaviorSanitizer watch the C side, known
# words around the counts the library. The last line is 'bills: N passed, M failed'; the exit status is 0 only where
# nothing failed.
set -eu
cd "$(dirname "$0")/.."
# The program and the libraries are built already where the caller says so.
if [ -z "${NAZSOMBET_BUILT:-}" ]; then
    ./build.sh bill core_c tools_c
fi
program=target/bin/bill
work=$(mktemp -d)
trap 'rm -rf "$work"' EXIT
mkdir "$work/large" "$work/drawn"
passed=0
failed=0

# Counts one judgement: passed where the command holds, else failed, with this sentence.
judge() {
    sentence=$1
    shift
    if "$@"; then
        passed=$((passed + 1))
    else
        echo "failed: $sentence"
        failed=$((failed + 1))
    fi
}

# Runs a test whose last line is 'NAME: N passed, M failed' and adds its numbers. One that fails and names no failure
# counts as one.
add() {
    code=0
    "$@" >"$work/log" || code=$?
    cat "$work/log"
    numbers=$(sed -n '$s/^.*: \([0-9]*\) passed, \([0-9]*\) failed$/\1 \2/p' "$work/log")
    numbers=${numbers:-0 0}
    [ "$code" -eq 0 ] || [ "${numbers#* }" -gt 0 ] || numbers="${numbers% *} 1"
    passed=$((passed + ${numbers% *}))
    failed=$((failed + ${numbers#* }))
}

# An input by a pipe that stays open a second after its first six bytes, in the middle of a word, and another before its
# end is told.
by_slow_pipe() {
    {
        dd bs=6 count=1 2>/dev/null
        sleep 1
        cat
        sleep 1
    } <"$1" | "$program" >"$work/$2.slow"
}

# All at once, since they mostly wait.
try_slow_pipes() {
    for input in tests/bills/*.input "$work/large/full.input" "$work/large/full_odd.input" "$work/large/over.input"; do
        by_slow_pipe "$input" "$(basename "$input" .input)" 2>/dev/null &
    done
    wait
    for slow in "$work"/*.slow; do
        name=$(basename "$slow" .slow)
        bill=tests/bills/$name.bill
        [ -f "$bill" ] || bill=$work/large/$name.bill
        judge "$name, by a slow pipe" cmp -s "$slow" "$bill"
    done
}

# The last try printed nothing and complained.
is_complaint() {
    judge "$1: a bill" test ! -s "$work/out"
    judge "$1: no complaint" grep -q '^nazsombet: standard input could not be read' "$work/err"
}

try_unreadable() {
    "$program" <tests >"$work/out" 2>"$work/err" || true
    is_complaint "a directory"
    "$program" <&- >"$work/out" 2>"$work/err" || true
    is_complaint "a closed standard input"
}

(cd tests && cargo build --quiet --profile checked --bin bills)
for kind in large drawn; do
    target/tests/checked/bills "$kind" "$work/$kind"
done
add sh tests/alike.sh tests/bills input bill "$program"
add sh tests/alike.sh "$work/large" input bill "$program"
add sh tests/alike.sh -f "$work/drawn" input bill "$program"
try_slow_pipes
try_unreadable
sh tests/sanitized.sh target/ticks tests/ticks.c target/staticlib/libcore_c.a target/staticlib/libtools_c.a
add target/ticks
echo "bills: $passed passed, $failed failed"
test "$failed" -eq 0
