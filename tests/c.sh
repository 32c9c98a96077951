#!/bin/sh
# Builds the library for C and tries what its header says of it; compiles the headers as every C and C++ from 89 and 98
# on, and tries what they define; runs the example hosts, the one that lists on every journal of tests/journals; and the
# tests of the Rust binding. The exit status is 0 only where nothing failed.
set -eu
cd "$(dirname "$0")/.."
library=target/staticlib/libcore_c.a
./build.sh core_c
set -- -pedantic -Wall -Wextra -Werror -Iinclude
for standard in c89 c99 c11 c17; do
    cc "-std=$standard" "$@" -o target/header tests/header.c "$library"
    target/header
done
for standard in c++98 c++11 c++20; do
    c++ "-std=$standard" "$@" -x c++ -o target/header tests/header.c -x none "$library"
    target/header
done
for host in host writers; do
    cc -std=c99 "$@" -o target/$host examples/$host.c "$library"
done
sh tests/archive.sh
sh tests/stack.sh
target/writers | diff examples/writers.txt -
(cd bindings/rust && cargo run --quiet --example writers) | diff examples/writers.txt -
sh tests/journals.sh target/host
(cd bindings/rust && cargo test --quiet)
cd tests
cargo test --quiet -p core_c
