#!/usr/bin/env bash
# Runs scriptrun on scripts: each of examples/ against its stored output, and some that are too long to store. What is printed is compared
# byte for byte; the exit status has to be 0, and standard error empty. Its last line says how many passed.
set -euo pipefail
cd "$(dirname "${BASH_SOURCE[0]}")/.."
passed=0
room=$(mktemp -d)
trap 'rm -rf "$room"' EXIT

fail() { # NAME, WHAT
    echo "$1: $2" >&2
    exit 1
}

run() { # NAME; the script comes on standard input, and what it prints stands in $room/out
    local status=0
    tests/run.sh scriptrun >"$room/out" 2>"$room/err" || status=$?
    [ "$status" -eq 0 ] || fail "$1" "exit status $status"
    [ ! -s "$room/err" ] || fail "$1" "standard error: $(head -n 1 "$room/err")"
}

same() { # NAME; what is expected comes on standard input
    cmp - "$room/out" >&2 || fail "$1" "not what was expected"
    passed=$((passed + 1))
}

repeat() { # WORD, COUNT
    awk -v w="$1" -v n="$2" 'BEGIN { for (i = 0; i < n; i++) printf "%s", w }'
}

for script in examples/*.script; do
    run "$script" <"$script"
    same "$script" <"${script%.script}.out"
done

# a last line without LF is malformed, and changes nothing
run "no LF" < <(printf '0161\n0162')
same "no LF" <<<$'0a\n0161'
run "no LF alone" < <(printf 0161)
same "no LF alone" <<<$'0a\n01'

# A block of 36,864 digits, as many as a line may have, below the last row of the text: its one chunk has 6,140 characters, and goes nowhere.
longest() {
    printf '150000000500000000000047f3'
    repeat e38182 6139
    printf 'c3a9'
}
run "longest line" < <(longest; echo)
same "longest line" <<<$'00160000000500000000000017fc00000000\n01'

# With more digits it is malformed, whether with one byte more or with two million digits, and the next line is judged as usual.
run "byte too long" < <(longest; echo 61)
same "byte too long" <<<$'0a\n01'
run "endless line" < <(longest; repeat 61 1000000; echo; echo 10000000000000000061)
same "endless line" <<<$'0a\n00110000000000000000000000000000000001\n0161'

# 10,000 insertions of one character into a text of 4,000: there is room for 96 of them, each put in before what the ones before it did
many() {
    printf '01'
    repeat 61 4000
    echo
    awk 'BEGIN { for (i = 0; i < 10000; i++) printf "1000000000%08x62\n", i % 4000 }'
}
many_out() {
    awk 'BEGIN { for (i = 0; i < 96; i++) printf "00110000000000%08x00000000%08x\n", i, i + 1; for (i = 96; i < 10000; i++) print "08" }'
    printf '01'
    repeat 62 96
    repeat 61 4000
    echo
}
run "full buffer" < <(many)
same "full buffer" < <(many_out)

# a mark that shifts carried past 1,000,000 is dropped by the next one: the row that it is on is cut away behind its back
far() {
    echo 01610a620a63
    echo 0200000002000000010000000200000001
    echo 110100000005000000000000000900000000
    for _ in $(seq 63); do printf '1500000000000000000000000000000000%s' 00003e80; repeat 61 16000; echo; done
    echo 10000000000000000062
}
run "dropped" < <(far)
sed -e 's/^00.*/00/' -e 's/^01.*/01/' "$room/out" >"$room/short"
mv "$room/short" "$room/out"
same "dropped" < <(repeat '00\n' 65; echo 01; echo 03)

echo "$passed passed, 0 failed"
