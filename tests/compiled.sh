#!/bin/sh
# The compilers' back ends are covered by no proof. Here programs run in five ways: as LLVM builds them, as Rattle's own
# compiler does at its lowest level and at its highest ('rt run'), with the compiler's assumptions checked, and on the
# interpreter ('rt try'); in each they have to write what is expected. `trace` lists two short journals in all five, and
# a long one in the four compiled ways: the interpreter has steps for some fourteen calls. Of the programs at the edges
# those run that end in time. The last line is 'compiled: N passed, M failed'; the exit status is 0 only where nothing
# failed.
set -u
cd "$(dirname "$0")/.." || exit 2
work=$(mktemp -d) || exit 2
trap 'rm -rf "$work"' EXIT
passed=0
failed=0

# The program of a crate as LLVM builds it, and by Rattle's own compiler. What that made does not stay in the crate's
# out/, where it would be taken for LLVM's.
build() {
    ./build.sh "$1" >"$work/said" 2>&1 || return
    cp "target/bin/$1" "$work/$1.llvm" || return
    for level in 0 3; do
        (cd "crates/$1" && rt run --backend rattle --opt-level "$level" </dev/null) >/dev/null 2>"$work/said"
        mv "crates/$1/out/$1" "$work/$1.rattle$level" || return
    done
}

# judge WAY STATUS: the last run, in this way, ended with this status; it wrote what is expected.
judge() {
    if [ "$2" -eq 0 ] && cmp -s "$work/written" "$work/expected"; then
        passed=$((passed + 1))
    else
        echo "failed: $what, $1, status $2; said was:"
        tail -n 20 "$work/said" | cut -c 1-300
        failed=$((failed + 1))
    fi
}

# tried NAME WHAT WAY...: on the file `input` the program writes the file `expected`, as built in each way and in these
# ways of rt try.
tried() {
    name=$1
    what=$2
    shift 2
    for way in llvm rattle0 rattle3; do
        "$work/$name.$way" <"$work/input" >"$work/written" 2>"$work/said"
        judge "$way" $?
    done
    (cd "crates/$name" && rt try <"$work/input") >"$work/written" 2>"$work/said"
    tried=$?
    for way in "$@"; do
        status=$tried
        grep -q "^$way: ended status=0\$" "$work/said" || status=1
        judge "$way" "$status"
    done
}

# listed NAME CALLS WAY...: `trace` on so many calls of a journal, at the most. A call begins with a word 1.......
listed() {
    journal=tests/journals/$1
    calls=$2
    words=$(od -An -v -w4 -tx4 "$journal.words" |
        awk -v left="$calls" '/^ *1/ && left-- == 0 { exit } { words++ } END { print words }')
    head -c $((4 * words)) "$journal.words" >"$work/input"
    head -n $((calls + 1)) "$journal.txt" >"$work/expected"
    told="$calls calls of the journal $1"
    shift 2
    tried trace "$told" "$@"
}

for name in trace journal_edges summary_edges listing_edges; do
    build "$name" || {
        echo "failed: the program $name is not built; said was:"
        tail -n 20 "$work/said" | cut -c 1-300
        failed=$((failed + 1))
    }
done
listed example 13 checked interpreter
listed endpoints 13 checked interpreter
listed long 1000 checked
: >"$work/input"
for edges in journal_edges summary_edges listing_edges; do
    cp "crates/$edges/stdout" "$work/expected"
    tried "$edges" "the program $edges" checked interpreter
done
echo "compiled: $passed passed, $failed failed"
[ "$failed" -eq 0 ]
