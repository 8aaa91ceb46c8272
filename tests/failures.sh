#!/usr/bin/env bash
# Runs scriptrun where reads or writes fail, or take a part, or are not possible yet: what it prints, and its one line on standard error or none, are
# compared byte for byte; and the programs that compare, which pass over what fails. Their exit status has to be 0. Its last line says how many passed.
set -euo pipefail
unset POSIXLY_CORRECT # the file size limit below is in units of 1,024 bytes
cd "$(dirname "${BASH_SOURCE[0]}")/.."
source tests/emulator.sh
run=(timeout 120 "${emulated[@]}" crates/scriptrun/out/scriptrun) # one that does not end fails
passed=0

dir=$(mktemp -d)
trap 'rm -rf "$dir"' EXIT

expect() { # NAME, FILE that was to be printed, LINE that was to be on standard error, if any; both came to $dir/out and $dir/err
    printf '%s' "${3:+$3$'\n'}" > "$dir/line"
    if ! cmp -s "$2" "$dir/out" || ! cmp -s "$dir/line" "$dir/err"; then
        echo "$1: not what was expected" >&2
        exit 1
    fi
    passed=$((passed + 1))
}

# a script of 20,000 insertions, which prints more than a pipe or the program's own array holds: 4,095 have room, and those behind the first 4,000 go in
# among the ones before
many() {
    echo 0161
    awk 'BEGIN { for (i = 0; i < 20000; i++) printf "1000000000%08x62\n", i % 4000 }'
}
many_out() {
    awk 'BEGIN {
        for (i = 0; i < 4095; i++) printf "00110000000000%08x00000000%08x\n", i % 4000, i % 4000 + 1
        for (i = 4095; i < 20000; i++) print "08"
        printf "01"
        for (i = 0; i < 4095; i++) printf "62"
        print "61"
    }'
}
many > "$dir/many"
many_out > "$dir/all"
"${run[@]}" < "$dir/many" > "$dir/out" 2> "$dir/err"
expect "a file" "$dir/all"

: > "$dir/nothing"
head -c 1024 "$dir/all" > "$dir/front"

# ---- standard output

: > "$dir/out"
"${run[@]}" < "$dir/many" > /dev/full 2> "$dir/err"
expect "a full device" "$dir/nothing" "scriptrun: standard output: No space left on device"

: > "$dir/out"
python3 tests/failures.py open-input "$dir/many" "${run[@]}" > /dev/full 2> "$dir/err"
expect "a full device, and an input that stays open" "$dir/nothing" "scriptrun: standard output: No space left on device"

"${run[@]}" < "$dir/many" >&- 2> "$dir/err"
expect "output closed" "$dir/nothing" "scriptrun: standard output: Bad file descriptor"

(
    trap '' XFSZ
    ulimit -f 1
    "${run[@]}" < "$dir/many" > "$dir/out" 2> "$dir/err"
)
expect "a file that may not grow" "$dir/front" "scriptrun: standard output: File too large"

# ---- standard input

"${run[@]}" <&- > "$dir/out" 2> "$dir/err"
expect "input closed" "$dir/nothing" "scriptrun: standard input: Bad file descriptor"

"${run[@]}" < "$dir" > "$dir/out" 2> "$dir/err"
expect "a directory" "$dir/nothing" "scriptrun: standard input: Is a directory"

# ---- what a shell cannot set up: see tests/failures.py

python3 tests/failures.py slow-reader "$dir/many" "${run[@]}" > "$dir/out" 2> "$dir/err"
expect "a pipe that does not block, read slowly" "$dir/all"

python3 tests/failures.py late-writer "$dir/many" "${run[@]}" > "$dir/out" 2> "$dir/err"
expect "an input that does not block, with nothing there at first" "$dir/all"

printf '0161\n10000000000000000062\n' > "$dir/some"
printf '00110000000000000000000000000000000001\n' > "$dir/front"
python3 tests/failures.py lost-line "$dir/some" "${run[@]}" > "$dir/out" 2> "$dir/err"
expect "an input that fails behind its second line" "$dir/front" "scriptrun: standard input: Input/output error"

# ---- the programs that compare: a read that fails ends the input, and a write that fails is passed over

for program in vectors widths limits agrees marks frames; do
    run=(timeout 120 "${emulated[@]}" "crates/$program/out/$program")

    "${run[@]}" < /dev/null > "$dir/front"
    "${run[@]}" < "$dir" > "$dir/out" 2> "$dir/err"
    expect "$program: a directory" "$dir/front"

    "${run[@]}" <&- > "$dir/out" 2> "$dir/err"
    expect "$program: input closed" "$dir/front"

    head -c 2000 "crates/$program/stdin" > "$dir/some"
    "${run[@]}" < "$dir/some" > "$dir/front"
    python3 tests/failures.py lost-line "$dir/some" "${run[@]}" > "$dir/out" 2> "$dir/err"
    expect "$program: an input that fails behind 2,000 bytes" "$dir/front"

    : > "$dir/out"
    "${run[@]}" < "crates/$program/stdin" > /dev/full 2> "$dir/err"
    expect "$program: a full device" "$dir/nothing"

    "${run[@]}" < "crates/$program/stdin" >&- 2> "$dir/err"
    expect "$program: output closed" "$dir/nothing"
done

# the title is too long for the room and so is the total, and what stands between them is not
printf ': a title of many letters\n' > "$dir/some"
echo ': 0 of 0' > "$dir/front"
run=(timeout 120 "${emulated[@]}" crates/vectors/out/vectors)
python3 tests/failures.py tight-pipe "$dir/some" "${run[@]}" > "$dir/out" 2> "$dir/err"
expect "vectors: a write that fails before one that does not" "$dir/front"

echo "$passed passed, 0 failed"
