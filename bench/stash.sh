#!/usr/bin/env bash
# Simulates the stash (bench/stash.c) of sets of parameters, and writes docs/parameters.tsv: a line for each
# set. For each number of keys from 16 to 65,536 it takes trees of 4, 8 and 16 real slots a bucket, as small as
# N allows, epochs of six sizes, and as many eviction paths as the rule has it (docs/OPERATING, "The nine
# numbers"); and then some sets more, of which some get too full. Needs gcc; some ten minutes.
#
#   bench/stash.sh            writes docs/parameters.tsv
#   bench/stash.sh PROGRAM    holds the simulation against runs of a built program instead: at each T up to the
#                             rows simulated the program has to go on, or to be too full, at the same epoch and
#                             with as many rows. Ends with status 1 at the first difference
set -euo pipefail
top=$(cd "$(dirname "$0")/.." && pwd)
work=$(mktemp -d)
trap 'rm -rf "$work"' EXIT
gcc -O2 -o "$work/stash" "$top/bench/stash.c"
epochs=2000

# Prints the sets: N L Z S R BR BW E.
sets() {
    echo 8 2 2 3 2 2 2 2
    awk 'BEGIN {
        count = split("4 4 8,4 8 16,8 8 32,8 16 64,16 16 128,16 64 256", sizes, ",")
        for (n = 16; n <= 65536; n *= 2) for (i = 1; i <= count; i++) for (z = 4; z <= 16; z *= 2) {
            split(sizes[i], size, " ")
            if (size[1] * size[2] > 2 * n) continue
            for (l = 1; z * 2 ^ l < n; l++);
            paths = int((size[1] * size[2] + size[3] + z - 1) / z)
            print n, l, z, 1.5 * z, sizes[i], (paths > 64 ? 64 : paths)
        }
    }'
    printf '%s\n' "65536 14 4 6 8 16 64 16" "65536 14 4 6 8 16 64 32" "65536 14 4 6 8 16 64 40" \
        "16384 10 16 24 8 16 64 8" "4096 8 16 24 8 16 64 6" "65536 12 16 24 16 64 256 48"
}

make_table() {
    printf 'N\tL\tZ\tS\tR\tBR\tBW\tE\tepochs\tmost rows\tover 1,024\tslots filled\tcells read\n'
    # shellcheck disable=SC2086
    sets | while read -r set; do "$work/stash" $set $epochs; done
}

# One set, a key file and a number of epochs: the program at each T.
hold_against() {
    local set=$1 wanted status t most
    "$work/stash" $set "$2" "$work/keys" rows >"$work/rows"
    "$work/stash" $set "$2" "$work/keys" script >"$work/script"
    most=$(sort -n "$work/rows" | tail -1)
    for ((t = 1; t <= most; t++)); do
        wanted=$(awk -v t="$t" '$1 > t { print "epoch " NR - 1; print "fault: stash full, " $1 " rows"; exit }' "$work/rows")
        [[ -n $wanted ]] || wanted="epoch $(wc -l <"$work/rows")"
        "$program" format "$work/store" "$work/keys" $set "$t" >/dev/null
        status=0
        "$program" run "$work/store" "$work/keys" --turns <"$work/script" >"$work/report" || status=$?
        if [[ $(grep -E '^(epoch|fault)' "$work/report" | tail -2 | grep -A 1 -Fx "${wanted%%$'\n'*}") != "$wanted" ]]; then
            echo "$set $t: status $status, $(grep -E '^(epoch|fault)' "$work/report" | tail -2 | tr '\n' ' '), not: $wanted" >&2
            exit 1
        fi
        rm "$work/store"
    done
    echo "$set: $(wc -l <"$work/rows") epochs, at most $most rows, each T from 1 to $most as simulated"
}

if [[ $# == 0 ]]; then
    make_table >"$work/table"
    cp "$work/table" "$top/docs/parameters.tsv"
else
    program=$(realpath -- "$1")
    head -c 96 /dev/urandom | od -An -v -tx1 | tr -d ' \n' >"$work/keys"
    hold_against "16 3 2 1 1 2 2 1" 500
    hold_against "64 4 4 6 4 4 8 2" 500
    hold_against "256 6 4 6 4 8 16 2" 1000
fi
