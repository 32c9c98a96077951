#!/bin/sh
# documents.sh: every listing, telling and bill that a document shows is what the program writes. A listing is a block
# that begins with the listing's header, a telling one that begins with a sentence, a numbered telling one that begins
# with a numbered sentence, a bill one that begins with a line of a bill; what stands last in backquotes before the block
# is the journal's file, or its words; of a bill it is the command. The last line is 'documents: N passed, M failed'; the
# exit status is 0 only where nothing failed.
set -u
cd "$(dirname "$0")/.." || exit 2
work=$(mktemp -d) || exit 2
trap 'rm -rf "$work"' EXIT
passed=0
failed=0

# Each listing (.list), telling (.tell), numbered telling (.numbered) and bill (.bill) of a document to a file of its own,
# with what it is of in a file beside it.
for document in README.md docs/*.md; do
    awk -v out="$work/$(basename "$document" .md)" '
        /^```/ { if (inside) { inside = 0; if (file) close(file); file = ""; next } inside = 1; first = 1; next }
        inside && first {
            form = ""
            if ($0 == "n call code count badge message running") form = "list"
            if ($0 ~ /^[A-Z][a-z]+[ a-z0-9]*: [a-z0-9, ]+\.$/) form = "tell"
            if ($0 ~ /^[0-9]+(, [a-z0-9 ]+)?: [A-Z][a-z]+[ a-z0-9]*: [a-z0-9, ]+; [a-z0-9 ]+ runs\.$/) form = "numbered"
            if ($0 ~ /^([0-9]+ [0-9]+|idle) [0-9]+$/) form = "bill"
            if (form) { n++; file = out "." n "." form; print of > (out "." n ".of") }
        }
        inside { first = 0; if (file) print > file; next }
        /`/ { of = $0; sub(/`[^`]*$/, "", of); sub(/.*`/, "", of) }
    ' "$document"
done

# The program that tells or lists on standard input in the form of the first argument.
write() {
    case $1 in
    list) ./nazsombet list ;;
    tell) ./nazsombet tell ;;
    numbered) target/bin/tell -n ;;
    esac
}

for shown in "$work"/*.list "$work"/*.tell "$work"/*.numbered "$work"/*.bill; do
    form=${shown##*.}
    of=$(cat "${shown%.*}.of")
    # shellcheck disable=SC2086  # the words stand apart by blanks
    case $of in
    './nazsombet bill '*) $of >"$work/written" ;;
    *.words) write "$form" <"$of" >"$work/written" ;;
    *) ./nazsombet words $of | write "$form" >"$work/written" ;;
    esac
    if cmp -s "$shown" "$work/written"; then
        passed=$((passed + 1))
    else
        echo "failed: $(basename "$shown"), of $of, is not what is written"
        failed=$((failed + 1))
    fi
done
echo "documents: $passed passed, $failed failed"
[ "$failed" -eq 0 ] && [ "$passed" -gt 0 ]
