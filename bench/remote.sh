#!/usr/bin/env bash
# Runs one script three times on a store in a file (in memory where there is /dev/shm, since the server's
# disk is), and three times on a store that a server on this machine's loopback keeps (nbdkit's memory
# server, its disk mounted as a file by nbdfuse); compares what the two print, and prints the time of each
# run and the ratio of the least. Needs Debian's packages nbdkit, libnbd-bin and fuse3 and leave to mount:
# where one is wanting it says so and ends with status 0. Stands outside the gate. The port may be given:
# bench/remote.sh PORT.
set -euo pipefail
top=$(cd "$(dirname "$0")/.." && pwd)
port=${1:-10809}
for tool in nbdkit nbdfuse fusermount3; do
    if ! command -v "$tool" >/dev/null; then
        echo "$tool isn't here: apt-get install nbdkit libnbd-bin fuse3"
        exit 0
    fi
done
if [ ! -e /dev/fuse ]; then
    echo "nothing can be mounted here: there is no /dev/fuse"
    exit 0
fi
work=$(mktemp -d)
near=$(mktemp -d -p /dev/shm 2>/dev/null || mktemp -d)
server=
finish() {
    fusermount3 -u "$work/disk" 2>/dev/null || true
    if [ -n "$server" ]; then kill "$server" 2>/dev/null || true; fi
    rm -rf "$work" "$near"
}
trap finish EXIT
(cd "$top/crates/obladi" && rt run -- x </dev/null >/dev/null 2>"$work/build.log") || true
program="$top/crates/obladi/out/obladi"

mkdir "$work/disk"
nbdkit -f -i 127.0.0.1 -p "$port" memory 64K &
server=$!
for _ in $(seq 50); do
    if (exec 3<>"/dev/tcp/127.0.0.1/$port") 2>/dev/null; then break; fi
    sleep 0.1
done
nbdfuse "$work/disk/store" "nbd://127.0.0.1:$port" &
for _ in $(seq 50); do
    if [ -e "$work/disk/store" ]; then break; fi
    sleep 0.1
done
head -c 96 /dev/urandom | od -An -v -tx1 | tr -d ' \n' >"$work/keys"
{
    echo client 1
    for i in $(seq 100); do
        printf 'begin\nget %d\nput %d %d\ncommit\n' $((i % 8)) $((i % 8)) "$i"
    done
} >"$work/script"

# Makes the store at a path, runs the script on it three times, and writes what was printed and the seconds.
run_on() {
    "$program" format "$1" "$work/keys" 8 2 2 3 2 2 2 2 8 </dev/null >"$2.output"
    for _ in 1 2 3; do
        local from
        from=$(date +%s%N)
        "$program" run "$1" "$work/keys" <"$work/script" >>"$2.output"
        echo $((($(date +%s%N) - from) / 1000000)) >>"$2.times"
    done
}
run_on "$near/store" "$work/near"
run_on "$work/disk/store" "$work/far"
cmp "$work/near.output" "$work/far.output"
least() { sort -n "$1" | head -1; }
echo "a run of 100 transactions, an epoch each, in milliseconds"
echo "on a file:           $(tr '\n' ' ' <"$work/near.times")"
echo "over NBD, loopback:  $(tr '\n' ' ' <"$work/far.times")"
echo "ratio of the least:  $(echo "scale=2; $(least "$work/far.times") / $(least "$work/near.times")" | bc)"
