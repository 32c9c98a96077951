#!/bin/sh
# stack.sh: the stack that each entry takes, by the watermark that it leaves on a painted one, is at most what
# the headers say of it. Builds the tools' library, and needs the core's, which tests/c.sh builds. memset is
# bound when the program starts (-z now): to bind it in a call takes stack of its own. The last line is 'stack: N
# passed, M failed'; the exit status is 0 only where nothing failed.
set -eu
cd "$(dirname "$0")/.."
./build.sh tools_c
cc -std=c99 -Wall -Wextra -Wpedantic -Werror -O1 -Wl,-z,now -Iinclude -o target/stack tests/stack.c \
    target/staticlib/libcore_c.a target/staticlib/libtools_c.a
passed=0
failed=0
target/stack tests/journals/*.words >target/stack.marks
while read -r entry bytes; do
    said=$(sed -n "s/.* $entry takes \([0-9]*\).*/\1/p" include/nazsombet.h include/nazsombet_tools.h)
    if [ "$bytes" -le "${said:-0}" ]; then
        echo "$entry: $bytes bytes of stack, and the header says $said"
        passed=$((passed + 1))
    else
        echo "failed: $entry takes $bytes bytes of stack, and the header says ${said:-nothing}"
        failed=$((failed + 1))
    fi
done <target/stack.marks
echo "stack: $passed passed, $failed failed"
[ "$failed" -eq 0 ] && [ "$passed" -gt 0 ]
