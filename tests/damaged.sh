#!/bin/sh
# Lends damaged tables and grants to the library for C, which tests/c.sh builds: AddressSanitizer and
# UndefinedBehaviorSanitizer watch the C side, guard pages the library. The last line is 'damaged: N passed, M failed',
# by kinds of damage; the exit status is 0 only where nothing failed.
set -eu
cd "$(dirname "$0")/.."
sh tests/sanitized.sh target/damaged tests/damaged.c target/staticlib/libcore_c.a
target/damaged tests/journals/long.words tests/journals/destroyed.words
