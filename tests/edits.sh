#!/usr/bin/env bash
# Holds what a run of `rt ci` said of the must-fail edits to the edits that are here: tests/edits.sh LOG
set -euo pipefail
cd "$(dirname "${BASH_SOURCE[0]}")/.."
log=$1

fail() { # WHAT
    echo "must-fail edits: $1" >&2
    exit 1
}

ok=$(grep '^rt: ok;' "$log") || fail "the line 'rt: ok' of rt ci is missing"
said=
if [[ $ok =~ \;\ must-fail\ edits:\ ([^\;]*) ]]; then
    said=${BASH_REMATCH[1]}
fi
refused=0
if [[ $said =~ ^([0-9]+)\ refused ]]; then
    refused=${BASH_REMATCH[1]}
fi
if [[ $said =~ ,\ ([0-9]+)\ bad ]] && [ "${BASH_REMATCH[1]}" -ne 0 ]; then
    fail "${BASH_REMATCH[1]} are bad, and show nothing"
fi
if [[ $said =~ ,\ ([0-9]+)\ of\ them\ only\ by\ a\ limit ]]; then
    fail "${BASH_REMATCH[1]} were refused only by a limit of the prover, which says nothing of them"
fi
edits=$(find crates -path 'crates/*/must-fail/*.edit' | wc -l)
if [ "$edits" -ne "$refused" ]; then
    fail "$edits are here, and $refused were refused"
fi
if grep 'only because a proof file names what the edit took away' "$log"; then
    fail "these were refused for a proof that does not fit the code, and show nothing"
fi
