#!/bin/sh
# sanitized.sh PROGRAM SOURCE LIBRARY...: builds a test in C that AddressSanitizer and UndefinedBehaviorSanitizer watch,
# from the repository's root. The exit status is 0 only where it was built.
set -eu
program=$1
shift
sanitizers="-fsanitize=address,undefined -fno-sanitize-recover=all"
for file; do
    if [ ! -f "$file" ]; then
        echo "sanitized.sh: $file is missing. For a library run: ./build.sh NAME" >&2
        exit 1
    fi
done
if ! { echo 'int main(void) { return 0; }' | cc $sanitizers -x c -o "$program" - && "$program"; }; then
    echo "sanitized.sh: cc cannot build and run programs with $sanitizers here. Install the sanitizers' libraries." >&2
    exit 1
fi
cc -std=c99 -Wall -Wextra -Wpedantic -Werror -O1 -g $sanitizers -Iinclude -o "$program" "$@"
