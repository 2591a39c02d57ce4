#!/usr/bin/env bash
# Measures how long it takes to read the words of a command line: a thousand parses of `run` and a
# thousand of `format`, of which each takes less than a millisecond.
# It needs rt alone, and writes only to a temporary folder. Times are of the processor.
set -euo pipefail
top=$(cd "$(dirname "$0")/.." && pwd)
work=$(mktemp -d)
trap 'rm -rf "$work"' EXIT
parses=1000
mkdir -p "$work/crates/words_bench/src"
cp -r "$top/crates/ob_base" "$top/crates/ob_words" "$work/crates/"
rm -rf "$work"/crates/*/out "$work"/crates/*/must-fail
{ grep -E '^(ob_base|ob_words):' "$top/crates.txt"; echo 'words_bench: ob_base ob_words'; } >"$work/crates.txt"
git -C "$work" init -q
cat >"$work/crates/words_bench/src/main.rt" <<'PROGRAM'
//! Reads the words of `run`, or of `format`: which of the two is the first byte of the input.
#![tactic(auto)]

use ob_words::read_words;
use std::alloc::Global;
use std::hint;
use std::io;
use std::io::Read;

const PARSES: u64 = 1000;

const RUN: [&str; 6] = ["run", "store", "keys", "--lanes", "2", "--turns"];

const FORMAT: [&str; 12] = [
    "format", "store", "keys", "8", "2", "2", "3", "2", "2", "2", "2", "8",
];

// How many of so many parses read the words.
fn read_all(alloc: Global, words: &[&str]) -> u64 {
    let mut read: u64 = 0;
    for _ in 0..PARSES {
        if hint::black_box(read_words(alloc, &*words)).is_ok() {
            read = read.saturating_add(1);
        }
    }
    read
}

fn main(rt: HostRuntime) -> io::Result<()> {
    let mut line = [0; 1];
    let _ = rt.stdin().read(&mut line)?;
    let read = if line[0] == b'r' {
        read_all(rt.alloc(), &RUN)
    } else {
        read_all(rt.alloc(), &FORMAT)
    };
    println!(rt; "{read}")?;
    Ok(())
}
PROGRAM
cd "$work/crates/words_bench"
rt run </dev/null >"$work/log" 2>&1 || { tail -30 "$work/log"; exit 1; }
TIMEFORMAT=%U
# The fewest microseconds of a parse, of five runs.
fastest() {
    local best= t
    for _ in 1 2 3 4 5; do
        t=$({ time ./out/words_bench <<<"$1" >"$work/count"; } 2>&1)
        [[ $(<"$work/count") == "$parses" ]]
        t=$(awk -v t="$t" -v n=$parses 'BEGIN { print t * 1e6 / n }')
        best=$(awk -v a="${best:-$t}" -v b="$t" 'BEGIN { print a < b ? a : b }')
    done
    echo "$best"
}
run=$(fastest r) format=$(fastest f)
printf 'reading the words of run %.0f us, of format %.0f us\n' "$run" "$format"
awk -v r="$run" -v f="$format" 'BEGIN { exit !(r < 1000 && f < 1000) }'
