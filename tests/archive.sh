#!/bin/sh
# archive.sh: tries what include/nazsombet.h says of the compiled library: which functions it calls, how much stack it
# takes, which registers it uses, that it writes below the stack pointer, that it has no unwind tables and no data that
# is written; and that no table of 256 bytes stands in it, or is made on the stack. It looks at the disassembly of
# target/staticlib/libcore_c.a. The last line is 'archive: N passed, M failed'; the exit status is 0 only where nothing
# failed.
set -u
cd "$(dirname "$0")/.." || exit 2
archive=target/staticlib/libcore_c.a
code=$(mktemp) || exit 2
trap 'rm -f "$code"' EXIT
objdump -dr --no-show-raw-insn "$archive" >"$code" || exit 2
passed=0
failed=0
holds() {
    if [ "$2" = "$3" ]; then
        passed=$((passed + 1))
    else
        echo "failed: $1: found '$2', not '$3'"
        failed=$((failed + 1))
    fi
}

holds "other functions called" "$(nm -u "$archive" | sed -n 's/^ *U //p' | sort -u | tr '\n' ' ')" "memset "

# No function calls one that is on the stack already: who calls whom has no loop.
calls=$(sed -n -e 's/^[0-9a-f]* <\(.*\)>:$/in \1/p' \
    -e 's/.*R_X86_64_PL*[TC]32[[:space:]]*\.text\.\(.*\)-0x4$/to \1/p' "$code" |
    awk '/^in/{f=$2} /^to/{print f, $2}')
holds "calls in a loop" "$(echo "$calls" | tsort 2>&1 >/dev/null)" ""
holds "calls between its functions seen" "$([ -n "$calls" ] && echo yes)" yes

# So the stack is at most all frames together: return addresses, registers saved, locals, and the red zone. No frame is
# made in another way than by push and sub; tests/stack.sh measures what is taken.
holds "frames made in another way" \
    "$(grep -cE '\<(lea|and|or|xchg|mov)[a-z]* .*,%rsp$|\<add *\$0xffff.*,%rsp$|\<enter\>' "$code")" 0
frames=$(($(grep -c '^[0-9a-f]* <.*>:$' "$code") * 8 + $(grep -cE '\<push\>' "$code") * 8 + 128))
for locals in $(sed -n 's/.*sub *\$\(0x[0-9a-f]*\),%rsp$/\1/p' "$code"); do
    frames=$((frames + locals))
done
holds "stack of $frames bytes under 1,024" "$([ "$frames" -lt 1024 ] && echo yes)" yes

used=$(grep -oE '%xmm[0-9]+' "$code" | sed 's/%xmm//' | sort -n | tail -n 1)
named=$(sed -n 's/.* use the SSE registers xmm0 to xmm\([0-9]*\), .*/\1/p' include/nazsombet.h)
holds "the highest SSE register used, $used, is the one that the header names" "$used" "$named"
holds "wider, x87 and MMX registers" "$(grep -oE '%(ymm|zmm|mm|st)[0-9(]*' "$code" | sort -u | tr '\n' ' ')" ""
# What a processor with SSE2 and no more has not: SSE3 to SSE4.2, AVX, and counting and moving bits.
beyond='addsubp|h(add|sub)p|lddqu|mov(ddup|shdup|sldup|ntdqa|be)|pabs|palignr|ph(add|sub|min)|pmaddub|pmulhrsw|pshufb'
beyond="$beyond|psign|p?blend|dpp|extractps|insertps|mpsadbw|packusdw|pcmp(eqq|gtq|[ei]str)|p(extr|insr)[bdq]"
beyond="$beyond|p(max|min)(sb|sd|uw|ud)|pmov[sz]x|pmul(dq|ld)|ptest|round[ps]|crc32|popcnt|lzcnt|tzcnt|andn |bextr"
beyond="$beyond|bls(i|r|msk)|bzhi|p(dep|ext) |rorx|sarx|sh[lr]x|mulx|ad[co]x|v[a-z]+ .*%xmm"
holds "instructions beyond SSE2" "$(grep -oE "[[:space:]]($beyond)" "$code" | sort -u | tr -d '\n')" ""
holds "writes below the stack pointer" "$(grep -qE 'mov.*,-0x[0-9a-f]+\(%rsp\)' "$code" && echo yes)" yes
far=
for below in $(grep -oE -- '-0x[0-9a-f]+\(%rsp' "$code" | grep -oE '0x[0-9a-f]+' | sort -u); do
    [ $((below)) -le 128 ] || far=$far$below
done
holds "uses farther below it than 128 bytes" "$far" ""

# The box is short of read-only memory. No table of 256 stands there, ours or one that the compiler makes of a match,
# and no function makes one on the stack: what it takes for its locals and what it uses below that are too small.
largest=$(size -A "$archive" | awk '/^\.rodata/ && $2 > most {most = $2} END {print most + 0}')
holds "read-only data of $largest bytes under 256" "$([ "$largest" -lt 256 ] && echo yes)" yes
most=0
for item in $(sed -n -e 's/^[0-9a-f]* <.*>:$/function/p' -e 's/.*sub *\$\(0x[0-9a-f]*\),%rsp$/\1/p' \
    -e 's/.*-\(0x[0-9a-f]*\)(%rsp.*/-\1/p' "$code"); do
    case $item in
    function) locals=0 below=0 ;;
    -*) [ $((${item#-})) -le "$below" ] || below=$((${item#-})) ;;
    *) locals=$((locals + item)) ;;
    esac
    [ $((locals + below)) -le "$most" ] || most=$((locals + below))
done
holds "locals of $most bytes in one function under 256" "$([ "$most" -lt 256 ] && echo yes)" yes
sections=$(size -A "$archive" | awk '{print $1}')
holds "unwind tables" "$(echo "$sections" | grep -c '^\.eh_frame')" 0
holds "data that is written" "$(echo "$sections" | grep -cE '^\.(data|bss|tdata|tbss)')" 0
holds "system calls, interrupts and traps" "$(grep -cE '\<(syscall|int|int3|ud2|hlt)\>' "$code")" 0
echo "archive: $passed passed, $failed failed"
[ "$failed" -eq 0 ] && [ "$passed" -gt 0 ]
