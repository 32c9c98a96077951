#!/bin/sh
# No line of Rattle or of its proofs is over 120 characters: characters, and not bytes, since proofs are full of symbols.
# The formatter breaks code alone.
set -u
cd "$(dirname "$0")/.."
LC_ALL=C.UTF-8
export LC_ALL
passed=0
failed=0

# The count is of characters where this locale is there: a line of 120 symbols passes, one of 121 does not.
long() {
    grep -nE '^.{121}' "$@"
}
row() {
    printf '%0*d\n' "$1" 0 | sed 's/0/≡/g'
}
if row 120 | long >/dev/null || ! row 121 | long >/dev/null; then
    echo "lines: the locale C.UTF-8 is missing, and characters cannot be counted"
    failed=$((failed + 1))
fi

for file in $(find crates -name out -prune -o -name '*.rt' -print -o -name '*.antt' -print); do
    if found=$(long "$file"); then
        echo "lines: $file: over 120 characters:"
        echo "$found"
        failed=$((failed + 1))
    fi
done
[ "$failed" -eq 0 ] && passed=1
echo "lines: $passed passed, $failed failed"
test "$failed" -eq 0
