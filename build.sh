#!/bin/sh
# build.sh NAME...: proves and builds programs and libraries for C of these crates, and puts them where the tests and the
# desk's command look for them: the program NAME at target/bin/NAME, the library at target/staticlib/libNAME.a. What is
# there and newer than the sources stays. The exit status is 0 only where all were built.
set -eu
cd "$(dirname "$0")"

# Whether a file is there and made of the sources as they stand.
up_to_date() {
    [ -e "$1" ] && [ -z "$(find crates.txt crates/*/src crates/*/specs crates/*/proofs -newer "$1" 2>/dev/null |
        head -n 1)" ]
}

# Puts what was built of a crate in its place, all of it at once.
put() {
    mkdir -p "$(dirname "$2")"
    cp "$1" "$2.new"
    mv "$2.new" "$2"
}

# The library is compiled for every x86-64 processor: rt's own choice would need a later one.
library() {
    up_to_date "target/staticlib/lib$1.a" && return
    (cd "crates/$1" && rt lib --cpu=x86-64)
    put "crates/$1/out/lib$1.a" "target/staticlib/lib$1.a"
}

# `rt run` builds a program and runs it, here on no input. What it built earlier, as `rt ci` does, is taken.
program() {
    up_to_date "target/bin/$1" && return
    up_to_date "crates/$1/out/$1" || (cd "crates/$1" && rt run </dev/null >/dev/null)
    put "crates/$1/out/$1" "target/bin/$1"
}

for name; do
    if grep -q "^$name  *staticlib" crates.txt; then
        library "$name"
    else
        program "$name"
    fi
done
