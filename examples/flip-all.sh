#!/bin/sh
# Compiles a text, runs it, and then once more for each instruction, each register x1 to x31 and a few bits, with
# that bit flipped just before that instruction. Prints how many flips were survived, and how many of those at
# listed points did harm. Ends with 1 where a flip outside the list did harm.
#
#   examples/flip-all.sh TEXT [BITS]        BITS: "0 7 31 63" where not given
#
# It takes the instruction numbered N to be the word numbered N, so the text's words must run straight through.
[ $# -ge 1 ] || { sed -n 's/^#   /usage: /p' "$0" >&2; exit 2; }
swiftr=$(dirname "$(readlink -f "$0")")/../swiftr
bits=${2:-0 7 31 63}
export SWIFTR_QUIET=1
folder=$(mktemp -d) || exit 2
trap 'rm -rf "$folder"' EXIT
file=$folder/file.elf

"$swiftr" compile "$1" "$file" > "$folder/points" || { cat "$folder/points"; exit 2; }
"$swiftr" disasm "$file" > "$folder/words" || exit 2
"$swiftr" run "$file" - 4294967295 > "$folder/run" || { cat "$folder/run"; exit 2; }
if grep -Eq '^.{18}(b|j)' "$folder/words"; then
    echo "$1: its words don't run straight through" >&2
    exit 2
fi
steps=$(sed -n 's/.* steps=//p' "$folder/run")
want=$(sed 's/ steps=.*//' "$folder/run")

at=0
while [ "$at" -lt "$steps" ]; do
    line=$(sed -n "$((at + 1))p" "$folder/words")
    for reg in $(seq 31); do
        kind=outside
        grep -qx "${line%% *} x$reg" "$folder/points" && kind=listed
        for bit in $bits; do
            got=$("$swiftr" flip "$file" - 4294967295 "$at" "$reg" "$bit" | sed 's/ steps=.*//')
            [ "$got" = "$want" ] && echo "$at $kind same" || echo "$at $kind other"
        done
    done
    at=$((at + 1))
done > "$folder/flips"

awk -v words="$folder/words" '
    { count[$1 " " $2 " " $3]++; count["all " $2 " " $3]++ }
    function row(name, key) {
        printf "%-40s %8d %16d %15d %16d\n", name, count[key " outside same"], count[key " listed same"], count[key " listed other"],
            count[key " outside other"]
    }
    END {
        printf "%-40s %8s %16s %15s %16s\n", "flipped just before", "survived", "listed, harmless", "listed, harmful", "outside, harmful"
        for (at = 0; (getline line < words) > 0; at++) row(line, at)
        row("all", "all")
        exit count["all outside other"] > 0
    }' "$folder/flips"
