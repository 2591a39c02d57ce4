#!/usr/bin/env bash
# Measures what a trace costs: 200 transactions of one client, a get and an add each, over a store of 256
# keys (`256 8 4 6 4 4 8 8 256`, some 1,470 lines an epoch) in a file, without `--trace` and with it, seven
# times in turns. It prints the fewest seconds of the processor of each, the lines and bytes of the trace,
# and the largest resident memory, and fails where a traced run takes more than 1.5 times as long, or more
# than 256 KiB more. What is aimed at: at most 1.5 times the time, and no memory more.
#
# Figures, on a busy machine of four processors (November 2026): 1.14 s without a trace, 1.37 s with one,
# 1.20 times; 294,323 lines, 1.9 MB; 2,752 KiB without, 2,560 KiB with.
#
# It needs rt and GNU time, and writes only to a temporary folder. With a word, that is the program.
set -euo pipefail
top=$(cd "$(dirname "$0")/.." && pwd)
work=$(mktemp -d)
trap 'rm -rf "$work"' EXIT
program=$(realpath "${1:-$top/crates/obladi/out/obladi}")
[ -x "$program" ] || "$top/build"
cd "$work"

head -c 96 /dev/urandom | od -An -v -tx1 | tr -d ' \n' >keys
"$program" format made keys 256 8 4 6 4 4 8 8 256 --trace formatted >output
awk 'BEGIN {
    print "client 1"
    for (t = 0; t < 200; t++) printf "begin\nget %d\nadd %d 1\ncommit\n", (37 * t) % 256, (53 * t + 11) % 256
}' >script

# Runs the script on a copy of the store, with these options, and puts what it cost behind the other runs'.
measure() {
    local kind=$1
    shift
    cp made store
    /usr/bin/time -f '%U %S %M' -o cost "$program" run store keys --turns "$@" <script >output
    [ "$(grep -c '^txn.* committed$' output)" = 200 ]
    awk '{ print $1 + $2, $3 }' cost >>"$kind"
}
for _ in 1 2 3 4 5 6 7; do
    measure plain
    measure traced --trace trace
done
[ "$(cat formatted trace | "$program" audit)" = fits ]

# The fewest seconds of a kind's runs, and the fewest KiB.
fewest() { cut -d ' ' -f "$2" "$1" | sort -n | head -1; }
awk -v plain="$(fewest plain 1)" -v traced="$(fewest traced 1)" -v plain_size="$(fewest plain 2)" \
    -v traced_size="$(fewest traced 2)" -v lines="$(wc -l <trace)" -v bytes="$(stat -c %s trace)" 'BEGIN {
    printf "without a trace %.2f s, with one %.2f s of the processor: %.2f times; ", plain, traced, traced / plain
    printf "%d lines, %d bytes, %d lines an epoch; %d KiB and %d KiB\n", lines, bytes, lines / 200, plain_size, traced_size
    exit !(traced <= 1.5 * plain && traced_size <= plain_size + 256)
}'
