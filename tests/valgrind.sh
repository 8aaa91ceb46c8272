#!/usr/bin/env bash
# Runs the comparison with the original under valgrind: tests/valgrind.sh [tiny|quick|long]. Fails where valgrind finds an error; else its last line
# is the comparison's. The archive has to be there (`tests/archive.sh`).
set -euo pipefail
cd "$(dirname "${BASH_SOURCE[0]}")/.."

cargo build --release --offline --quiet --manifest-path host/Cargo.toml -p compare
valgrind --quiet --error-exitcode=1 --leak-check=no host/target/release/compare "${1:-quick}"
