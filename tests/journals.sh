#!/bin/sh
# journals.sh PROGRAM [FORM [ARGUMENT...]]: runs the program, with these arguments, on every journal of tests/journals and
# compares what it writes with the file of the form there: txt, a listing, if no form is named; told, a telling;
# numbered, a numbered telling. Each journal comes once as a file and once byte by byte, so that words arrive in pieces.
# The last line is 'journals: N passed, M failed'; the exit status is 0 only where nothing failed.
set -u
tests=$(dirname "$0")
program=${1:-}
form=${2:-txt}
if [ ! -x "$program" ] || [ ! -f "$tests/journals/example.$form" ]; then
    echo "usage: journals.sh PROGRAM [FORM [ARGUMENT...]], as journals.sh target/bin/tell numbered -n" >&2
    exit 2
fi
shift
[ $# -eq 0 ] || shift
exec sh "$tests/alike.sh" "$tests/journals" words "$form" "$program" "$@"
