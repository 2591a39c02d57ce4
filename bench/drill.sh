#!/usr/bin/env bash
# Measures self-tests: the processor time of `drill` with few and with many transactions beside their floor,
# which is what sealing and opening as many cells takes by seal.sh; their largest resident memory; and the
# same transactions by `run` over a file, by threads and by hand. The digest of each summary is compared with
# another implementation's. It fails where one differs or a bound is missed.
# How many cells an epoch opens and seals, and a format seals, is counted in a trace of such a store.
# It needs GNU time, and what seal.sh needs where that isn't handed in; it writes only to a temporary folder,
# in memory where there is one. Times are of the processor, the fewest of three runs.
#
#   drill.sh PROGRAM [SEALS [FEW MANY]]    PROGRAM: the built program; SEALS: what seal.sh printed, else it is
#                                          run here; FEW, MANY: counts of those below, 2000 and 10000 else
set -euo pipefail
top=$(cd "$(dirname "$0")/.." && pwd)
[[ $# -ge 1 ]] || { sed -n '2,/^set/s/^# \?//p' "$0" >&2; exit 2; }
program=$(realpath -- "$1")
seals=${2:+$(realpath -- "$2")}
few=${3:-2000} many=${4:-10000}
work=$(mktemp -d -p "$([[ -w /dev/shm ]] && echo /dev/shm || echo /tmp)")
trap 'rm -rf "$work"' EXIT
cd "$work"
# By how many transactions: the keys that are there behind them, and the digest.
declare -A keys=([0]=0 [200]=137 [1000]=247 [2000]=256 [10000]=256)
declare -A map=(
    [0]=e3b0c44298fc1c149afbf4c8996fb92427ae41e4649b934ca495991b7852b855
    [200]=92c898a831f67272c56aa98e659e66ec28a4acf64178fa7bb589193e77db8a21
    [1000]=6b2680ad480661fe6f1ed717498a514621f5af88fbe1612298ee920b45f827d3
    [2000]=f5a4d8f33fe55f4d8eca9d5db4b5f12eb690fd31c24e68434f6c18aee9649703
    [10000]=f021ba15f6448bace13e7dcc6dc4540646df93f100a8687e22ff3655b0bb4762
)
missed=0

# Prints a measure, its least and its greatest that are aimed at, and whether it is between.
holds() {
    awk -v name="$1" -v x="$2" -v least="$3" -v most="$4" 'BEGIN {
        good = least <= x && x <= most
        printf "%s: %.2f (%s to %s)%s\n", name, x, least, most, good ? "" : ", missed"
        exit !good
    }' || missed=1
}
# The quotient of two numbers.
by() { awk -v a="$1" -v b="$2" 'BEGIN { print a / b }'; }

# Runs a command three times: the fewest seconds of the processor in `took`, the most kilobytes in `resident`.
# What it prints last is in the file `told`.
measure() {
    took= resident=0
    for _ in 1 2 3; do
        /usr/bin/time -f '%U %S %M' -o cost "$@" >told
        read -r taken memory < <(awk '{ print $1 + $2, $3 }' cost)
        took=$(awk -v a="${took:-$taken}" -v b="$taken" 'BEGIN { print a < b ? a : b }')
        [[ $memory -le $resident ]] || resident=$memory
    done
}
# Measures a self-test of so many transactions, and compares what it tells.
drill() {
    measure "$program" drill "$1"
    printf 'drill %s\nepochs %s\ncommitted %s\nkeys %s\nmap %s\n' "$1" "$1" "$1" "${keys[$1]}" "${map[$1]}" |
        diff - told || { echo "drill $1 tells something else"; missed=1; }
}
# The script of a self-test of so many transactions.
script() {
    local x=1 a b n
    echo 'client 1'
    for ((n = 0; n < $1; n++)); do
        x=$((x * 6364136223846793005 + 1442695040888963407)) a=$((x >> 32 & 255))
        x=$((x * 6364136223846793005 + 1442695040888963407)) b=$((x >> 32 & 255))
        printf 'begin\nget %d\nadd %d 1\ncommit\n' $a $b
    done
}

# What an epoch of such a store opens and seals, and what its format seals.
printf '%0192d' 0 >zeros
"$program" format store zeros 256 8 4 6 4 4 8 8 256 --trace made >told
cp store first
sealed_first=$(grep -c ^W made)
script 200 >asks
"$program" run store zeros --trace ran <asks >told
[[ $(grep -c committed told) == 200 ]]
opened=$(grep -c ^R ran) sealed=$(grep -c ^W ran)
[[ -n $seals ]] || { "$top/bench/seal.sh" >sealing; seals=$work/sealing; }
read -r seal open < <(awk '/^seal/ { s = $2 } /^open/ { o = $2 } END { print s, o }' "$seals")
echo "an epoch opens $((opened / 200)) cells at $open ns, and seals $((sealed / 200)) at $seal ns"
# The seconds of sealing and opening of a self-test of so many transactions: 64 batches of four keys read its
# map back, which makes 16 epochs more.
floor() {
    awk -v n="$1" -v r="$opened" -v w="$sealed" -v first="$sealed_first" -v s="$seal" -v o="$open" \
        'BEGIN { print ((n + 16) * (r * o + w * s) / 200 + first * s) / 1e9 }'
}

drill 0
none=$resident
echo "drill 0: $took s, $resident KiB"
drill 1000
drill "$few"
few_took=$took few_resident=$resident
echo "drill $few: $took s, its floor $(floor "$few") s, $resident KiB"
drill "$many"
echo "drill $many: $took s, its floor $(floor "$many") s, $resident KiB"
holds "drill $few by its floor" "$(by "$few_took" "$(floor "$few")")" 0.8 1.6
holds "drill $many by drill $few" "$(by "$took" "$few_took")" 0 "$(by "$((many * 106))" "$((few * 100))")"
holds "MiB more in drill $many" "$(by $((resident - few_resident)) 1024)" -100 12
holds "MiB more in drill $few than in drill 0" "$(by $((few_resident - none)) 1024)" -100 16

# The same transactions over a file, a copy of a new store each time.
printf '#!/bin/sh\ncp first store\nexec "%s" run store zeros "$@" <asks\n' "$program" >again
chmod 755 again
script "$few" >asks
measure ./again
by_threads=$took
cp told reported
measure ./again --turns
cmp told reported || missed=1
echo "$few transactions over a file: by threads $by_threads s, by hand $took s"
holds "by threads, by hand's" "$(by "$by_threads" "$took")" 0 1.3
[[ $missed == 0 ]]
