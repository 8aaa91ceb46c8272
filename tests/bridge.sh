#!/usr/bin/env bash
# On a machine that is not x86-64 this makes target/bridge/libwinchbarn.a, whose functions hand each call to a server that holds the archive for
# x86-64 and runs under an emulator (host/bridge). It says what the core answers, and nothing about speed.
set -euo pipefail
cd "$(dirname "${BASH_SOURCE[0]}")/.."
source tests/emulator.sh
out=$PWD/target/bridge
mkdir -p "$out"

clang --target=x86_64-linux-gnu -O2 -fPIE -std=gnu99 -Wall -Wextra -Werror -isystem "/usr/include/$(gcc -dumpmachine)" -Iinclude -Ihost/bridge -c -o "$out/server.o" host/bridge/server.c
ld.lld -pie -dynamic-linker "$loader" -o "$out/server" "$libraries"/{Scrt1.o,crti.o,crtbeginS.o} "$out/server.o" target/staticlib/libwinchbarn.a \
    "$libraries"/{libc.so.6,libc_nonshared.a,libgcc.a,crtendS.o,crtn.o}
gcc -O2 -std=gnu99 -Wall -Wextra -Werror -Iinclude -Ihost/bridge -DEMULATOR="\"$emulator\"" -DLOADER="\"$loader\"" -DLIBRARIES="\"$libraries\"" -DSERVER="\"$out/server\"" \
    -c -o "$out/client.o" host/bridge/client.c
rm -f "$out/libwinchbarn.a"
ar crs "$out/libwinchbarn.a" "$out/client.o"
