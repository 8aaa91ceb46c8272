#!/usr/bin/env bash
# Runs every script of crates/frames/stdin through scriptrun, its input in pieces of 1, of 7 and of 65,536 bytes, and compares what it prints byte for
# byte with what stands there. Its last line says how many passed.
set -euo pipefail
cd "$(dirname "${BASH_SOURCE[0]}")/.."
source tests/emulator.sh
exec python3 tests/pieces.py crates/frames/stdin "${emulated[@]}" crates/scriptrun/out/scriptrun
