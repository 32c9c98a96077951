#!/bin/sh
# slow.sh FORM COMMAND...: the command lists (FORM txt) or tells (FORM told, or numbered) a journal that comes by a slow
# pipe: the lines of the example's first calls must be there while the pipe is open and the others have not come. The
# last line is 'slow: N passed, M failed'; the exit status is 0 only where nothing failed.
set -u
example=$(dirname "$0")/journals/example
if [ $# -lt 2 ] || [ ! -f "$example.$1" ]; then
    echo "usage: slow.sh FORM COMMAND..., as slow.sh txt target/bin/trace, or slow.sh numbered target/bin/tell -n" >&2
    exit 2
fi
expected=$example.$1
shift
listing=$(mktemp) || exit 2
seen=$listing.seen
trap 'rm -f "$listing" "$seen"' EXIT

# The lines before those of the last eleven calls.
first=$(($(wc -l <"$expected") - 11))

# The first four calls have a word each. The rest comes when their lines have been seen, or is held back for twice as
# long as they are waited for.
{
    dd bs=4 count=4 if="$example.words" 2>/dev/null
    waits=0
    until [ -e "$seen" ] || [ "$waits" -eq 20 ]; do
        sleep 1
        waits=$((waits + 1))
    done
    dd bs=4 skip=4 if="$example.words" 2>/dev/null
} | "$@" >"$listing" &
waits=0
until [ -e "$seen" ] || [ "$waits" -eq 10 ]; do
    sleep 1
    waits=$((waits + 1))
    if head -n "$first" "$expected" | cmp -s - "$listing"; then
        : >"$seen"
    fi
done
wait
if [ -e "$seen" ] && cmp -s "$listing" "$expected"; then
    echo "slow: 1 passed, 0 failed"
else
    echo "failed: $* writes the example's lines late or wrongly"
    echo "slow: 0 passed, 1 failed"
    exit 1
fi
