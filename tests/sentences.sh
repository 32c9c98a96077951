#!/bin/sh
# Builds the library of tools for C and tries on it what include/nazsombet_tools.h says of sentences, linked with the
# core's, which tests/c.sh builds: AddressSanitizer and UndefinedBehaviorSanitizer watch the C side, known bytes around
# the buffer the library; then from Rust. Leaves every case with its line in target/sentences.cases. The last line is
# 'sentences: N passed, M failed', by kinds of judgement; the exit status is 0 only where nothing failed.
set -eu
cd "$(dirname "$0")/.."
tools=target/staticlib/libtools_c.a
./build.sh tools_c
uses=$(nm -u "$tools" | sed -n 's/^ *U //p' | tr '\n' ' ')
if [ "$uses" != "memcpy memset " ]; then
    echo "sentences.sh: $tools uses '$uses', and its header says that it uses memcpy and memset alone" >&2
    exit 1
fi
(cd bindings/rust && cargo test --quiet --features tools)
sh tests/sanitized.sh target/sentences tests/sentences.c target/staticlib/libcore_c.a "$tools"
target/sentences target/sentences.cases
