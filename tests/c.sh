#!/usr/bin/env bash
# Reads the header alone as C and as C++, and calls the archive from C (tests/c/calls.c). Its last line says how many checks passed.
set -euo pipefail
cd "$(dirname "${BASH_SOURCE[0]}")/.."
part=native
if [ "$(uname -m)" = x86_64 ]; then
    part=staticlib
fi
archive=${WINCHBARN_LIB_DIR:-target/$part}/libwinchbarn.a
if ! [ -f "$archive" ]; then
    echo "$archive is not there: run \`tests/archive.sh\` in the repository's root" >&2
    exit 1
fi
warnings=(-Wall -Wextra -Werror -pedantic)

gcc -x c -std=c99 "${warnings[@]}" -Iinclude -fsyntax-only - <<<'#include "winchbarn.h"'
g++ -x c++ "${warnings[@]}" -Iinclude -fsyntax-only - <<<'#include "winchbarn.h"'

mkdir -p target/c
gcc -std=c99 "${warnings[@]}" -Iinclude -o target/c/calls tests/c/calls.c "$archive"
target/c/calls
