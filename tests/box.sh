#!/bin/sh
# Boots the box of examples/box in an emulator: thousands of calls, with interrupts between and within them. What the
# kernel was answered has to be what the proved program and the second machine list of its journal, and no lookup may be
# answered to another writer than the one that asked. Then the box with a fault, three times, which has to be found.
# Without the emulator nothing is tried. The last line is 'box: N passed, M failed'; the exit status is 0 only where
# nothing failed.
set -u
cd "$(dirname "$0")/.." || exit 2
if ! command -v qemu-system-x86_64 >/dev/null 2>&1; then
    echo "box: not tried: the emulator qemu-system-x86_64 is missing (Debian: qemu-system-x86)"
    echo "box: 0 passed, 0 failed"
    exit 0
fi
if [ -z "${NAZSOMBET_BUILT:-}" ]; then
    ./build.sh core_c trace tell >/dev/null || exit 2
fi
work=$(mktemp -d) || exit 2
trap 'rm -rf "$work"' EXIT
passed=0
failed=0
holds() {
    if [ "$2" = "$3" ]; then
        passed=$((passed + 1))
    else
        echo "failed: $1: found '$2', not '$3'"
        failed=$((failed + 1))
    fi
}
# Lets the box run, and says how it ended; then what happened is counted again from its journal.
run() {
    rm -f "$work"/*
    sh examples/box/box.sh "$work" >"$work/said" 2>&1 && echo well || echo badly
    target/bin/trace <"$work/journal.words" >"$work/traced"
    target/bin/tell <"$work/journal.words" >"$work/told"
    tail -n +2 "$work/traced" | paste - "$work/told" | awk -f tests/box.awk >"$work/counted"
}
# The number that stands before a name in the last line of a file, and whether it is enough.
number() {
    tail -n 1 "$work/$1" | tr ',' '\n' | sed -n "s/^ *\([0-9]*\) $2\$/\1/p"
}
enough() {
    found=$(number "$2" "$3")
    holds "$3, $1 or more" "$([ "${found:-0}" -ge "$1" ] && echo yes || echo "$found")" yes
}
# Whether a call was made ten times and answered so.
answered() {
    found=$(awk -v call="$1" -v code="$2" '$2 == call && (code == "" || $3 == code)' "$work/listing" | wc -l)
    holds "call $1 answered ${2:-somehow}, ten times" "$([ "$found" -ge 10 ] && echo yes || echo "$found")" yes
}

holds "the box ended" "$(run)" well
cat "$work/said"
tail -n 1 "$work/text"
cat "$work/counted"
holds "the listing of the proved program" "$(cmp "$work/traced" "$work/listing" 2>&1)" ""
(cd tests && cargo run --quiet --profile checked --bin listing) <"$work/journal.words" >"$work/second"
holds "the listing of the second machine" "$(cmp "$work/second" "$work/listing" 2>&1)" ""
holds "calls" "$(number text calls)" "$(($(wc -l <"$work/listing") - 1))"
holds "answered to another, as the kernel counts" "$(number text wrong)" 0
holds "answered to another, as the sentences tell" "$(number counted wrong)" 0
holds "lookups answered" "$(number counted 'lookups answered')" "$(number text 'lookups answered')"
enough 100 text "lookups answered"
enough 100 text "of them in the core"
enough 1000000 text steps
enough 10 text "times idle"
enough 10 text "badges moved"
enough 10 counted "aborts joined"
enough 10 counted "notes used"
enough 5 counted "of them with a new writer waiting"
for call in 1 2 3 4 5 6 7 8 9 10 11 12 13; do
    answered "$call" ""
done
answered 7 29 # a writer that was unplugged
answered 11 2
answered 12 2

# Lets the box run with a fault, by the name that kernel.c or threads.c has for it, and whatever else cc is to know.
faulty() {
    NAZSOMBET_BOX="-DFAULT_$*"
    export NAZSOMBET_BOX
    ended=$(run)
    unset NAZSOMBET_BOX
    answered 13 0 # it was built, and has booted
    holds "a fault: $1" "$ended" badly
}
faulty SSE_NOT_GIVEN_BACK
# The threads' own code would suffer too: it is built for this stack, and the core is not.
faulty ON_THE_CORES_STACK -mno-red-zone
faulty SERVER_NOT_WAITED_FOR
enough 1 text wrong
enough 1 counted wrong
echo "box: $passed passed, $failed failed"
[ "$failed" -eq 0 ]
