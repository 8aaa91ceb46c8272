#!/usr/bin/env bash
# The archive called from C and from Rust, and compared with the original: all of host/ but its benchmarks. The archive has to be there
# (`tests/archive.sh`). Its last line says how many tests passed.
set -euo pipefail
cd "$(dirname "${BASH_SOURCE[0]}")/.."
passed=0
log=$(mktemp)
trap 'rm -f "$log"' EXIT

add() { # the verdict that the log ends with
    local verdict
    verdict=$(tail -n 1 "$log")
    if ! [[ $verdict =~ ^[1-9][0-9]*\ passed,\ 0\ failed$ ]]; then
        echo "no verdict of tests that passed: $verdict" >&2
        exit 1
    fi
    passed=$((passed + ${verdict%% *}))
}

compare() { # SIZE
    cargo build --release --offline --quiet --manifest-path host/Cargo.toml -p compare
    host/target/release/compare "$1" | tee "$log"
    add
}

tests/c.sh | tee "$log"
add

tests/needs.sh | tee "$log"
add

# The documentation needs no archive.
WINCHBARN_LIB_DIR=$PWD/target/nowhere RUSTDOCFLAGS="-D warnings" cargo doc --offline --no-deps --manifest-path host/Cargo.toml --target-dir target/documented -p winchbarn
passed=$((passed + 1))

cargo test --release --offline --manifest-path host/Cargo.toml 2>&1 | tee "$log"
awk '/^test result: ok\. [0-9]+ passed; 0 failed/ { n += $4 } END { print n + 0 " passed, 0 failed" }' "$log" | tee -a "$log"
add

compare quick

# What was called so far on a machine that is not x86-64 was compiled for it. The archive itself runs there under an emulator.
if [ "$(uname -m)" != x86_64 ]; then
    tests/bridge.sh
    export WINCHBARN_LIB_DIR=$PWD/target/bridge
    tests/c.sh | tee "$log"
    add
    compare tiny
fi

echo "$passed passed, 0 failed"
