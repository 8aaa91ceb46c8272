#!/usr/bin/env bash
# Runs a program that `rt ci`, or `rt run` in its crate's folder, has built: tests/run.sh NAME
set -euo pipefail
root=$(cd "$(dirname "${BASH_SOURCE[0]}")/.." && pwd)
source "$root/tests/emulator.sh"
exec "${emulated[@]}" "$root/crates/$1/out/$1"
