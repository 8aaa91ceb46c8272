#!/usr/bin/env bash
# Makes the table of wide characters anew from crates/widths/stdin, which are the lines of W and F of EastAsianWidth.txt, and compares it with each copy
# of it that is here: of the definition, of the code and of host/compare. Where that file is installed, the lines are compared with it too; EAST_ASIAN_WIDTH
# names one that stands elsewhere, and has to be the version that the docs name. Its last line says how many checks passed.
set -euo pipefail
cd "$(dirname "${BASH_SOURCE[0]}")/.."
exec python3 tests/widths.py ${EAST_ASIAN_WIDTH:+"$EAST_ASIAN_WIDTH"}
