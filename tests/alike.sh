#!/bin/sh
# alike.sh [-f] FOLDER ENDING FORM PROGRAM [ARGUMENT...]: runs the program, with these arguments, on every file
# NAME.ENDING of the folder and compares what it writes with NAME.FORM there. Each comes once as a file and, without -f,
# once byte by byte, so that words arrive in pieces. The last line is 'FOLDER: N passed, M failed', by files; the exit
# status is 0 only where nothing failed.
set -u
pieces=yes
if [ "${1:-}" = -f ]; then
    pieces=
    shift
fi
if [ $# -lt 4 ] || [ ! -d "$1" ] || [ ! -x "$4" ]; then
    echo "usage: alike.sh [-f] FOLDER ENDING FORM PROGRAM [ARGUMENT...]" >&2
    exit 2
fi
folder=$1
ending=$2
form=$3
shift 3
written=$(mktemp) || exit 2
trap 'rm -f "$written"' EXIT
passed=0
failed=0
for input in "$folder"/*."$ending"; do
    expected=${input%."$ending"}.$form
    wrong=
    "$@" <"$input" >"$written"
    cmp -s "$written" "$expected" || wrong="$wrong as a file"
    if [ -n "$pieces" ]; then
        dd bs=1 if="$input" 2>/dev/null | "$@" >"$written"
        cmp -s "$written" "$expected" || wrong="$wrong byte by byte"
    fi
    if [ -z "$wrong" ]; then
        passed=$((passed + 1))
    else
        echo "failed: $(basename "$input" ".$ending"), read$wrong"
        failed=$((failed + 1))
    fi
done
echo "$(basename "$folder"): $passed passed, $failed failed"
[ "$failed" -eq 0 ] && [ "$passed" -gt 0 ]
