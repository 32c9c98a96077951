#!/bin/sh
# desk.sh: tries the desk's command ./nazsombet, in sh and in bash: what it lists, tells and bills, and that every
# failure has its status and its sentence. The last line is 'desk: N passed, M failed'; the exit status is 0 only where
# nothing failed.
set -u
cd "$(dirname "$0")/.." || exit 2
work=$(mktemp -d) || exit 2
trap 'rm -rf "$work"' EXIT
passed=0
failed=0
example=tests/journals/example

# Counts one judgement of the last try: passed where the command holds, else failed, with this sentence.
judge() {
    sentence=$1
    shift
    if "$@"; then
        passed=$((passed + 1))
    else
        echo "failed: $shell, $what: $sentence"
        failed=$((failed + 1))
    fi
}

# Each try names itself, then gives the status that must come and a command, run by $shell; its output is in $work/out,
# its complaints in $work/err.
status_is() {
    what=$1
    want=$2
    shift 2
    "$@" >"$work/out" 2>"$work/err"
    got=$?
    judge "status $got, not $want" test "$got" -eq "$want"
}

# The output of the last try is this file's content; its complaint has these words.
output_is() {
    judge "another output" cmp -s "$work/out" "$1"
}

complains_of() {
    judge "no word of '$1'" grep -q -- "$1" "$work/err"
}

complains_not_of() {
    judge "a word of '$1'" test "$(grep -c -- "$1" "$work/err")" -eq 0
}

is_silent() {
    judge "it complains" test ! -s "$work/err"
}

shows() {
    judge "no word of '$1' in the output" grep -q -- "$1" "$work/out"
}

desk() {
    "$shell" ./nazsombet "$@"
}

from_input() { desk list <"$example.words"; }
told_from_input() { desk tell <"$example.words"; }
from_nothing() { desk list <&-; }
told_from_nothing() { desk tell <&-; }
billed_from_input() { desk bill 500 <"$work/billed.words"; }
billed_from_nothing() { desk bill 500 <&-; }
billed_from_folder() { desk bill 500 <tests; }
billed_without_signal() { (trap '' PIPE && desk bill 500 "$work/long.words"); }
billed_by_pipe() { dd if="$work/long.words" 2>/dev/null | desk bill 500; }
words_from_nothing() { desk words <&-; }
hex_from_nothing() { desk hex <&-; }
to_full() { desk "$@" >/dev/full; }
to_nothing() { desk "$@" >&-; }
to_closed_pipe() {
    { desk "$@"; echo $? >"$work/status"; } | head -n 1 >/dev/null
    return "$(cat "$work/status")"
}
# The same where the signal of a closed pipe is ignored, as some programs leave it to those they start.
without_signal() { (trap '' PIPE && to_closed_pipe "$@"); }
words_listed() { desk words 11030064 14070000 1D030207 20000000 18070000 | desk list; }
words_from_input() { desk words <"$work/words.txt"; }
poor_words() { PATH=$work/poor:$PATH desk words "$work/words.txt"; }
there_and_back() { desk hex "$1" 2>"$work/err" | desk words; }
linked() { "$shell" "$work/link" "$@"; }
boxed() { "$shell" "$work/box/nazsombet" "$@"; }
stubbed() { "$shell" "$work/stub/nazsombet" "$@"; }
in_no_folder() { TMPDIR=$work/none desk list "$example.words"; }
in_folder() { (cd "$work/dashed" && "$shell" "$top/nazsombet" "$@"); }

# Without the kit: the PATH has the system's folders alone, and the sources, a copy, are gone.
installed() { PATH=/usr/bin:/bin "$shell" "$work/prefix/bin/nazsombet" "$@"; }
installed_link() { PATH=/usr/bin:/bin "$shell" "$work/installed_link" "$@"; }

# By somebody who may not read all files: for the superuser every file is readable. The command stands in a folder that
# anybody may enter, with the program built.
unprivileged() {
    if [ "$(id -u)" -eq 0 ]; then
        setpriv --reuid=65534 --regid=65534 --clear-groups "$shell" "$work/box/nazsombet" "$@"
    else
        "$shell" "$work/box/nazsombet" "$@"
    fi
}

# Runs a line of the shell with a terminal as its standard error, and as nothing else.
on_terminal() {
    TERM=xterm script -qec "$1 >'$work/lines' </dev/null" /dev/null >"$work/screen" 2>&1 </dev/null
}

# A copy of the command with a release of its own, no kit and no sources but what `install` takes.
make_box() {
    mkdir -p "$1/crates" "$1/include" "$1/docs" "$1/target/bin" "$1/target/staticlib"
    cp nazsombet crates.txt "$1"
    cp include/*.h "$1/include"
    sed '/define NAZSOMBET_RELEASE/d' include/nazsombet.h >"$1/include/nazsombet.h"
    echo '#define NAZSOMBET_RELEASE "7.99"' >>"$1/include/nazsombet.h"
    cp docs/nazsombet.1 "$1/docs"
    cp target/bin/trace target/bin/tell target/bin/bill "$1/target/bin"
    cp target/staticlib/libcore_c.a target/staticlib/libtools_c.a "$1/target/staticlib"
}

# A program that says its arguments, one that reads slowly, a kit that proves three crates of four, and an awk that
# writes no byte 0.
make_stubs() {
    mkdir -p "$work/stub/crates/trace/out" "$work/stub/target/bin" "$work/kit" "$work/poor"
    cp nazsombet build.sh "$work/stub"
    printf '%s\n' '# four' 'a:' 'b: a io' 'c: a' 'trace: b c' 'd: a' >"$work/stub/crates.txt"
    # shellcheck disable=SC2016  # for the stub
    printf '%s\n' '#!/bin/sh' 'cat >/dev/null' 'echo "told $*"' >"$work/stub/target/bin/tell"
    printf '%s\n' '#!/bin/sh' 'for i in 1 2 3 4; do dd bs=25 count=1 2>/dev/null; sleep 1; done' >"$work/slow"
    # shellcheck disable=SC2016  # for the stub
    printf '%s\n' '#!/bin/sh' '[ "$1" = run ] || exit 1' \
        'for i in a b c trace; do echo "crate $i: modules loaded=0 checked=1"; echo "logic=proved functions=1"; done >&2' \
        'cp "$SLOW" out/trace' >"$work/kit/rt"
    printf '%s\n' '#!/bin/sh' "$(command -v awk) \"\$@\" | tr -d '\\000'" >"$work/poor/awk"
    chmod a+x "$work/stub/target/bin/tell" "$work/slow" "$work/kit/rt" "$work/poor/awk"
}

top=$(pwd)
shell="sh"
status_is "install, from the sources" 0 ./nazsombet install "$work/first"
make_box "$work/box"
make_stubs
cp "$example.words" "$work/secret"
mkdir "$work/dashed" "$work/locked"
cp "$example.words" "$work/dashed/-n"
chmod -R a+rX "$work"
chmod 000 "$work/secret"
chmod 555 "$work/locked"
: >"$work/file"
ln -s "$top" "$work/top"
ln -s top/nazsombet "$work/link"
ln -s prefix/bin/nazsombet "$work/installed_link"
printf '==> %s <==\n' "$example.words" >"$work/heading"
printf '==> %s <==\n' tests/journals/incident.words >"$work/heading2"
cat "$work/heading" "$example.txt" "$work/heading2" tests/journals/incident.txt >"$work/both"
cat "$work/heading" "$example.told" "$work/heading2" tests/journals/incident.told >"$work/both_told"
cat "$work/heading" "$example.txt" >"$work/headed"
dd bs=4 skip=1 if=tests/bills/example.input of="$work/billed.words" 2>/dev/null
for number in 18 19 30; do
    echo "$number" >"$work/$number"
done
{
    printf '==> %s <==\n' "$work/billed.words"
    cat tests/bills/example.bill
    printf '==> %s <==\n' tests/journals/odd.words
    cat "$work/18"
} >"$work/both_billed"
# More than the program reads, and than a pipe holds.
for _ in 1 2 3 4 5 6 7; do
    cat tests/journals/long.words
done >"$work/long.words"
{
    echo 'n call code count badge message running'
    printf '%s\n' '0 1 0 0 0 0 3' '1 4 0 0 0 0 3' '2 13 0 0 0 0 3' '3 8 1 0 0 0 -'
} >"$work/listed"
printf '\144\000\003\021' >"$work/word"
printf '\144\000\003\021\000\000\007\024' >"$work/two_words"
printf '# two words\n0x11030064 # one\r\n\n\t14070000' >"$work/words.txt"
printf '11030064\n14070000\n1103006G\n' >"$work/bad.txt"
printf '11030064\n1D030207 20000000\n17070000 20000005 3000002A\n' >"$work/hex.txt"
printf '11030064 \0 14070000' >"$work/nul.txt"
echo 'told -n' >"$work/passed_on"
echo 'told ' >"$work/not_passed_on"
echo 'nazsombet 7.99' >"$work/release"
own=$(awk '$2 == "NAZSOMBET_RELEASE" { gsub(/"/, "", $3); print $3 }' include/nazsombet.h)
echo "nazsombet ${own:-unknown}" >"$work/own_release"
: >"$work/empty"

# What the command lists and tells, and what it says of a journal that stops.
try_shows() {
    status_is "a file" 0 desk list "$example.words"
    output_is "$example.txt"
    is_silent
    status_is "two files" 0 desk list "$example.words" tests/journals/incident.words
    output_is "$work/both"
    status_is "standard input" 0 from_input
    output_is "$example.txt"
    status_is "a file told" 0 desk tell "$example.words"
    output_is "$example.told"
    status_is "two files told" 0 desk tell "$example.words" tests/journals/incident.words
    output_is "$work/both_told"
    status_is "standard input told" 0 told_from_input
    output_is "$example.told"
    for form in list:txt tell:told; do
        status_is "odd bytes, ${form%:*}" 3 desk "${form%:*}" tests/journals/odd.words
        output_is "tests/journals/odd.${form#*:}"
        complains_of 'odd.words: the journal does not go on at index 15: refused by 18, this is no call$'
        complains_not_of 'text'
        status_is "out of range, ${form%:*}" 3 desk "${form%:*}" tests/journals/range.words
        output_is "tests/journals/range.${form#*:}"
        complains_of 'range.words: the journal does not go on at index 2: refused by 19, number out of range$'
        status_is "a text, ${form%:*}" 3 desk "${form%:*}" "$work/words.txt"
        complains_of 'words.txt: the journal does not go on at index 0: refused by 18'
        complains_of "words.txt: it looks like text; 'nazsombet words' makes a journal"
    done
    status_is "a journal that stops, and one that is not there" 1 desk list tests/journals/odd.words "$work/none"
    status_is "a journal that stops, and one that does not" 3 desk list tests/journals/odd.words "$example.words"
    status_is "option -n of tell" 0 stubbed tell -n -
    output_is "$work/passed_on"
    status_is "tell without -n" 0 stubbed tell
    output_is "$work/not_passed_on"
    status_is "tell -n of a journal" 0 desk tell -n "$example.words"
    output_is "$example.numbered"
    is_silent
    status_is "tell -n of a journal that stops" 3 desk tell -n tests/journals/odd.words
    output_is tests/journals/odd.numbered
    complains_of 'odd.words: the journal does not go on at index 15: refused by 18'
    status_is "option -n of list" 2 desk list -n "$example.words"
    complains_of 'list has no option -n'
    status_is "a file -n" 0 in_folder list -- -n
    output_is "$example.txt"
}

# Bills, the rates that there are, and what gets a number for a bill.
try_bills() {
    for rate in 500 0500 00000000000000000500; do
        status_is "a bill at $rate" 0 desk bill "$rate" "$work/billed.words"
        output_is tests/bills/example.bill
        is_silent
    done
    status_is "a bill at 10000" 0 desk bill 10000 "$work/billed.words"
    output_is tests/bills/rate_10000.bill
    status_is "standard input billed" 0 billed_from_input
    output_is tests/bills/example.bill
    status_is "no word billed" 0 desk bill 0 "$work/empty"
    output_is tests/bills/rate_alone.bill
    status_is "-- before the rate" 0 desk bill -- 500 "$work/billed.words"
    output_is tests/bills/example.bill
    status_is "-- behind the rate" 0 in_folder bill 500 -- -n
    output_is tests/bills/rate_alone.bill
    status_is "two files billed" 3 desk bill 500 "$work/billed.words" tests/journals/odd.words
    output_is "$work/both_billed"
    complains_of 'odd.words: no bill: refused by 18, this is no call$'
    status_is "out of range, billed" 3 desk bill 500 tests/journals/range.words
    output_is "$work/19"
    complains_of 'range.words: no bill: refused by 19, number out of range$'
    status_is "a text, billed" 3 desk bill 500 "$work/words.txt"
    output_is "$work/18"
    complains_of "words.txt: it looks like text; 'nazsombet words' makes a journal"
    for rate in 10001 4294967295 4294967296 4294967796 18446744073709551616 99999999999999999999999999; do
        status_is "a bill at $rate" 3 desk bill "$rate" "$work/billed.words"
        output_is "$work/30"
        complains_of 'billed.words: no bill: refused by 30, too much to bill$'
    done
    for try in "desk bill 500 $work/long.words" billed_without_signal billed_by_pipe; do
        # shellcheck disable=SC2086  # the words stand apart by blanks
        status_is "a long journal, $try" 3 $try
        output_is "$work/30"
        judge "more than a sentence" test "$(wc -l <"$work/err")" -eq 1
        complains_of 'no bill: refused by 30, too much to bill$'
    done
    for rate in '' x 5x 0x10 +5 1.5 - "$example.words"; do
        status_is "the rate '$rate'" 2 desk bill "$rate" "$work/billed.words"
        complains_of "the rate '$rate' is no number"
        output_is "$work/empty"
    done
    status_is "a rate below 0" 2 desk bill -5 "$work/billed.words"
    status_is "no rate" 2 desk bill
    complains_of 'bill takes a rate'
    status_is "a file that is not there, and one that is refused" 1 desk bill 500 "$work/none" tests/journals/odd.words
    status_is "a bill to a full device" 1 to_full bill 500 "$work/billed.words"
    complains_of "billed.words: its lines could not be written whole"
}

# What cannot be read or written.
try_failures() {
    status_is "a directory" 1 desk list tests
    complains_of 'nazsombet: tests: is a directory'
    output_is "$work/empty"
    status_is "no such file" 1 desk list "$work/none"
    complains_of "$work/none: there is no such file"
    status_is "a bad file and a good one" 1 desk list "$work/none" "$example.words"
    output_is "$work/headed"
    for try in from_nothing told_from_nothing billed_from_nothing billed_from_folder words_from_nothing \
        hex_from_nothing; do
        status_is "$try" 1 "$try"
        complains_of 'nazsombet: standard input: could not be read'
        judge "one sentence is not all" test "$(wc -l <"$work/err")" -eq 1
    done
    status_is "a full device" 1 to_full list "$example.words"
    complains_of "$example.words: its lines could not be written whole: No space"
    status_is "a full device told" 1 to_full tell "$example.words"
    complains_of "$example.words: its lines could not be written whole"
    status_is "words to a full device" 1 to_full words 11030064
    complains_of 'the journal could not be written whole'
    status_is "hex to a full device" 1 to_full hex "$example.words"
    complains_of "$example.words: its words could not be written whole"
    status_is "a closed output" 1 to_nothing list "$example.words"
    complains_of 'could not be written'
    for command in list tell hex; do
        status_is "$command to a closed pipe" 141 to_closed_pipe "$command" tests/journals/long.words
        is_silent
        status_is "$command to a closed pipe, no signal" 141 without_signal "$command" tests/journals/long.words
        is_silent
    done
    status_is "an unreadable file" 1 unprivileged list "$work/secret"
    complains_of "$work/secret: may not be read"
    status_is "an unreadable file told" 1 unprivileged tell "$work/secret"
    complains_of "$work/secret: may not be read"
    status_is "an unreadable file billed" 1 unprivileged bill 500 "$work/secret"
    complains_of "$work/secret: may not be read"
    status_is "no temporary folder" 1 in_no_folder
    complains_of "nazsombet: $work/none: no temporary folder"
}

try_words() {
    status_is "words" 0 desk words 11030064
    output_is "$work/word"
    status_is "words with 0x" 0 desk words 0x11030064 0X14070000
    output_is "$work/two_words"
    status_is "words of a file" 0 desk words "$work/words.txt"
    output_is "$work/two_words"
    status_is "words of standard input" 0 words_from_input
    output_is "$work/two_words"
    status_is "words by an awk that writes no byte 0" 0 poor_words
    output_is "$work/two_words"
    status_is "no words" 0 desk words "$work/empty"
    output_is "$work/empty"
    status_is "words listed" 0 words_listed
    output_is "$work/listed"
    for word in 1103006 110300641 0x1103006 11 1103006414070000; do
        status_is "the word $word" 2 desk words 11030064 "$word"
        complains_of "nazsombet: $word has not eight digits"
        output_is "$work/empty"
    done
    for word in 1103006G 0x1103006G 0x0x11030064; do
        status_is "no digit in $word" 2 desk words "$word"
        complains_of "nazsombet: $word is no hexadecimal word"
        output_is "$work/empty"
    done
    status_is "no digit in a file" 2 desk words "$work/bad.txt"
    complains_of "nazsombet: $work/bad.txt: 1103006G is no hexadecimal word"
    output_is "$work/empty"
    status_is "a byte 0 in a file" 2 desk words "$work/nul.txt"
    status_is "a journal for a text" 2 desk words "$example.words"
    output_is "$work/empty"
    status_is "hex" 0 hex_of_calls
    output_is "$work/hex.txt"
    status_is "two files for hex" 2 desk hex "$example.words" "$example.words"
    status_is "no file for hex" 1 desk hex "$work/none"
    status_is "odd bytes for hex" 1 desk hex tests/journals/odd.words
    complains_of 'odd.words: the odd bytes at its end, 3, are no word and were left out'
}

hex_of_calls() { desk words "$work/hex.txt" | desk hex; }

try_help() {
    status_is "no command" 2 desk
    complains_of 'usage: nazsombet COMMAND'
    status_is "another command" 2 desk frob
    complains_of 'nazsombet: there is no command frob'
    status_is "help" 0 desk help
    shows 'usage: nazsombet COMMAND \[ARGUMENTS\] \[FILE...\]'
    status_is "option --help" 0 desk --help
    shows 'usage: nazsombet COMMAND'
    for command in list tell bill words hex install; do
        status_is "help $command" 0 desk help "$command"
        shows "^usage: nazsombet $command"
        judge "the manual page has it not" grep -q "^\.B nazsombet $command " docs/nazsombet.1
        cp "$work/out" "$work/said"
        status_is "$command --help" 0 desk "$command" --help
        output_is "$work/said"
        status_is "$command --frob" 2 desk "$command" --frob
        complains_of "$command has no option --frob"
    done
    status_is "help of no command" 2 desk help frob
    status_is "another release" 0 boxed --version
    output_is "$work/release"
    status_is "the release" 0 desk --version
    output_is "$work/own_release"
}

try_places() {
    status_is "a link" 0 linked list "$example.words"
    output_is "$example.txt"
    status_is "a file in the way of a prefix" 1 desk install "$work/file"
    complains_of "nazsombet: $work/file: could not be written"
    status_is "a file in the way of a folder" 1 desk install "$work/file/deeper"
    complains_of "nazsombet: $work/file/deeper: could not be written"
    status_is "a prefix of somebody else" 1 unprivileged install "$work/locked"
    complains_of "nazsombet: $work/locked: may not be written"
    status_is "no prefix" 2 desk install
    rm -rf "$work/stub/target/bin/trace" "$work/prefix" "$work/source"
    mv "$work/stub/target" "$work/stub/kept"
    : >"$work/stub/target"
    status_is "a file in the way of target" 1 with_kit list "$example.words"
    complains_of "nazsombet: $work/stub/target: may not be written"
    rm "$work/stub/target"
    mv "$work/stub/kept" "$work/stub/target"
    make_box "$work/source"
    status_is "install" 0 "$shell" "$work/source/nazsombet" install "$work/prefix"
    rm -rf "$work/source"
    status_is "an installed command" 0 installed list "$example.words"
    output_is "$example.txt"
    status_is "an installed command, by a link" 0 installed_link tell "$example.words"
    output_is "$example.told"
    status_is "an installed command's bill" 0 installed bill 500 "$work/billed.words"
    output_is tests/bills/example.bill
    status_is "an installed command's release" 0 installed --version
    output_is "$work/release"
    status_is "an installed command, to install" 1 installed install "$work/other"
    for file in include/nazsombet.h include/nazsombet_tools.h lib/libnazsombet.a lib/libnazsombet_tools.a \
        lib/pkgconfig/nazsombet.pc lib/pkgconfig/nazsombet-tools.pc share/man/man1/nazsombet.1; do
        judge "no $file" test -s "$work/prefix/$file"
    done
}

with_kit() { PATH=$work/kit:$PATH SLOW=$work/slow stubbed "$@"; }

# The example host, and a program that takes the tools, as their pkg-config files say.
try_libraries() {
    what="a host over what is installed"
    command -v pkg-config >/dev/null 2>&1 || {
        echo "not tried: the pkg-config files, since there is no pkg-config"
        return
    }
    PKG_CONFIG_PATH=$work/prefix/lib/pkgconfig
    export PKG_CONFIG_PATH
    judge "another version" test "$(pkg-config --modversion nazsombet)" = 7.99
    # shellcheck disable=SC2046  # the flags stand apart by blanks
    judge "is not linked" cc -std=c99 -o "$work/host" examples/host.c $(pkg-config --cflags --libs nazsombet)
    status_is "a host over what is installed" 0 "$work/host" "$example.words"
    output_is "$example.txt"
    printf '%s\n' '#include <nazsombet_tools.h>' 'int main(void) { return nazsombet_sentence == 0; }' >"$work/uses.c"
    # shellcheck disable=SC2046
    judge "tools are not linked" cc -o "$work/uses" "$work/uses.c" $(pkg-config --cflags --libs nazsombet-tools)
}

# Every journal there and back; the whole words of those with odd bytes.
try_inverse() {
    for journal in tests/journals/*.words; do
        status_is "hex and words, $journal" 0 there_and_back "$journal"
        size=$(wc -c <"$journal")
        dd bs="$((size - size % 4 + (size < 4)))" count="$((size >= 4))" if="$journal" 2>/dev/null >"$work/whole"
        output_is "$work/whole"
    done
}

# 11 MB of text: a second where the processor is idle.
try_speed() {
    awk 'BEGIN { for (i = 0; i < 1222222; i++) printf "1%07X\n", i % 65536 * 4096 }' >"$work/long.txt"
    before=$(date +%s)
    status_is "11 MB of words" 0 desk words "$work/long.txt"
    judge "it takes $(($(date +%s) - before)) s" test "$(($(date +%s) - before))" -le 4
    judge "another length" test "$(wc -c <"$work/out")" -eq 4888888
}

# The kit builds, then a long file is listed; both are seen on a terminal alone.
try_progress() {
    what=progress
    command -v script >/dev/null 2>&1 || {
        echo "not tried: progress on a terminal, since there is no command script"
        return
    }
    rm -f "$work/stub/target/bin/trace" "$work/stub/crates/trace/out/trace"
    dd bs=100 count=1 if=tests/journals/long.words of="$work/hundred" 2>/dev/null
    on_terminal "PATH='$work/kit':\$PATH SLOW='$work/slow' sh '$work/stub/nazsombet' list '$work/hundred'"
    judge "crates are not counted" grep -q 'building trace, .*: 2 of 4 crates' "$work/screen"
    judge "no percentage" grep -q 'hundred: [1-9][0-9]*%' "$work/screen"
    judge "progress among the lines" cmp -s "$work/lines" "$work/hundred"
    rm -f "$work/stub/target/bin/trace" "$work/stub/crates/trace/out/trace"
    cp target/bin/trace "$work/slow"
    status_is "no terminal" 0 with_kit list "$example.words"
    is_silent
}

for shell in sh bash; do
    command -v "$shell" >/dev/null 2>&1 || continue
    try_shows
    try_bills
    try_failures
    try_words
    try_help
    try_places
done
shell="sh"
try_libraries
try_inverse
try_speed
try_progress
echo "desk: $passed passed, $failed failed"
[ "$failed" -eq 0 ] && [ "$passed" -gt 0 ]
