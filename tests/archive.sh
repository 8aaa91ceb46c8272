#!/usr/bin/env bash
# Makes the archive for C, target/staticlib/libwinchbarn.a, which is for x86-64. On another machine it makes target/native/libwinchbarn.a beside
# it: the same proved code, compiled by the same compiler for this machine. That is what is compared with the original, timed and run under
# valgrind there.
set -euo pipefail
cd "$(dirname "${BASH_SOURCE[0]}")/.."

make_for() { # MACHINE PROCESSOR FOLDER; what is made for the processor runs on every one of the machine's
    mkdir -p "$3"
    (cd crates/winchbarn_c && rt lib --target "$1-unknown-linux-gnu" --cpu "$2")
    cp crates/winchbarn_c/out/libwinchbarn_c.a "$3/libwinchbarn.a"
}

make_for x86_64 x86-64 target/staticlib
machine=$(uname -m)
if [ "$machine" != x86_64 ]; then
    make_for "$machine" generic target/native
fi
