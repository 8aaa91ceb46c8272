#!/usr/bin/env bash
# What a call needs beside what it is lent, as the header says it: functions that are not in the archive, and stack (tests/c/stack.c). On a machine
# that is not x86-64 that is looked at in the archive made for it, and in that for x86-64 under an emulator. Its last line says how many checks
# passed.
set -euo pipefail
cd "$(dirname "${BASH_SOURCE[0]}")/.."
passed=0
mkdir -p target/c

# ARCHIVE: all that it calls and has not is memcpy and memset
calls_only() {
    local called
    called=$(nm -u "$1" | awk 'NF == 2 { print $2 }' | sort -u | xargs)
    if [ "$called" != "memcpy memset" ]; then
        echo "$1 calls $called" >&2
        exit 1
    fi
    passed=$((passed + 1))
}

# PROGRAM..: its last line says how many checks passed
add() {
    local told
    "$@" | tee target/c/told
    told=$(tail -n 1 target/c/told)
    if ! [[ $told =~ ^[1-9][0-9]*\ passed,\ 0\ failed$ ]]; then
        echo "$1 did not end in its verdict" >&2
        exit 1
    fi
    passed=$((passed + ${told%% *}))
}

part=native
if [ "$(uname -m)" = x86_64 ]; then
    part=staticlib
fi
calls_only "target/$part/libwinchbarn.a"
gcc -O1 -std=c99 -Wall -Wextra -Werror -pedantic -pthread -Iinclude -o target/c/stack tests/c/stack.c "target/$part/libwinchbarn.a"
add target/c/stack

if [ "$part" = native ]; then
    source tests/emulator.sh
    calls_only target/staticlib/libwinchbarn.a
    clang --target=x86_64-linux-gnu -O1 -fPIE -std=c99 -Wall -Wextra -Werror -isystem "/usr/include/$(gcc -dumpmachine)" -Iinclude -c -o target/c/stack.o tests/c/stack.c
    ld.lld -pie -dynamic-linker "$loader" -o target/c/stack.x86_64 "$libraries"/{Scrt1.o,crti.o,crtbeginS.o} target/c/stack.o \
        target/staticlib/libwinchbarn.a "$libraries"/{libc.so.6,libc_nonshared.a,libgcc.a,crtendS.o,crtn.o}
    add "${emulated[@]}" target/c/stack.x86_64
fi

echo "$passed passed, 0 failed"
