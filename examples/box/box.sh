#!/bin/sh
# box.sh [DIR]: builds the box and lets it run until it ends, some seconds. In DIR, target/box where none is named, it
# leaves box.elf and what came out of the three serial ports: text, journal.words and listing. The exit status is 0 if
# the box found nothing wrong. NAZSOMBET_BOX are more words for the C compiler, NAZSOMBET_CLOCK those that tell the
# emulator how time goes.
set -eu
here=$(CDPATH='' cd -- "$(dirname -- "$0")" && pwd)
top=$here/../..
to=${1:-$top/target/box}
mkdir -p "$to"
compile() {
    # shellcheck disable=SC2086  # several words
    cc -std=c99 -O2 -Wall -Wextra -Werror -ffreestanding -fno-pic -fno-stack-protector -fcf-protection=none \
        -fno-asynchronous-unwind-tables -I"$top/include" ${NAZSOMBET_BOX:-} "$@"
}
compile -c -o "$to/start.o" "$here/start.S"
# The kernel's own code leaves the SSE registers to the core and the threads, and pushes by itself.
compile -mgeneral-regs-only -mno-red-zone -c -o "$to/kernel.o" "$here/kernel.c"
compile -c -o "$to/threads.o" "$here/threads.c"
ld -nostdlib -static -z max-page-size=4096 -T "$here/box.ld" -o "$to/box.elf" \
    "$to/start.o" "$to/kernel.o" "$to/threads.o" "$top/target/staticlib/libcore_c.a"
rm -f "$to/text" "$to/journal.words" "$to/listing"
# By the count of instructions the clocks go the same in every run, however busy the machine is.
counted='-icount shift=1,sleep=off -rtc base=2012-01-01,clock=vm'
status=0
# shellcheck disable=SC2086  # several words
timeout 120 qemu-system-x86_64 -accel tcg ${NAZSOMBET_CLOCK-$counted} -m 16 -nodefaults -display none -no-reboot \
    -kernel "$to/box.elf" -device isa-debug-exit,iobase=0xf4,iosize=1 -serial "file:$to/text" \
    -serial "file:$to/journal.words" -serial "file:$to/listing" || status=$?
[ "$status" -eq 1 ] # 2 n + 1 is what the box ends with n by
