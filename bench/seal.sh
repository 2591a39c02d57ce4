#!/usr/bin/env bash
# Measures how many cells one thread seals and opens in a second, beside OpenSSL's SHA-256 at 152
# bytes and ChaCha20 at 96 bytes, which are the floors of the tag and of the pad.
# It needs rt and openssl, and writes only to a temporary folder. Times are of the processor.
set -euo pipefail
top=$(cd "$(dirname "$0")/.." && pwd)
work=$(mktemp -d)
trap 'rm -rf "$work"' EXIT
cells=2000000
mkdir -p "$work/crates/seal_bench/src"
cp -r "$top/crates/ob_base" "$top/crates/ob_seal" "$work/crates/"
rm -rf "$work"/crates/*/out "$work"/crates/*/must-fail
{ grep -E '^(ob_base|ob_seal):' "$top/crates.txt"; echo 'seal_bench: ob_base ob_seal'; } >"$work/crates.txt"
git -C "$work" init -q
cat >"$work/crates/seal_bench/src/main.rt" <<'PROGRAM'
//! Seals cells, or opens them: which of the two is the first byte of the input.
#![tactic(auto)]

use ob_seal::{Keys, Sealer};
use std::hint;
use std::io;
use std::io::Read;

const CELLS: u64 = 2000000;

// How many cells were sealed.
fn seal_all(sealer: &mut Sealer, plain: &[u8; 96]) -> u64 {
    let mut sealed = 0;
    for n in 0..CELLS {
        if let Ok(cell) = sealer.seal(n, plain) {
            sealed += u64::from(hint::black_box(cell)[127] <= 255);
        }
    }
    sealed
}

// How many cells opened.
fn open_all(sealer: &mut Sealer, plain: &[u8; 96]) -> u64 {
    let mut cells = [[0; 128]; 64];
    for i in 0..64 {
        if let Ok(cell) = sealer.seal(i as u64, plain) {
            cells[i] = cell;
        }
    }
    let mut opened = 0;
    for n in 0..CELLS {
        let i = (n % 64) as usize;
        let found = sealer.unseal(i as u64, Some((5, i as u64)), &cells[i]);
        opened += u64::from(hint::black_box(found).is_ok());
    }
    opened
}

fn main(rt: HostRuntime) -> io::Result<()> {
    let mut line = [0; 1];
    let _ = rt.stdin().read(&mut line)?;
    let mut sealer = Sealer::new(&Keys::from_bytes(&[7; 96]), 5);
    let plain = hint::black_box([9; 96]);
    let done = if line[0] == b's' {
        seal_all(&mut sealer, &plain)
    } else {
        open_all(&mut sealer, &plain)
    };
    println!(rt; "{done}")?;
    Ok(())
}
PROGRAM
cd "$work/crates/seal_bench"
mkdir -p proofs/seal_all proofs/open_all
for f in seal_all:sealed open_all:opened; do
    name=${f%%:*} count=${f##*:}
    cat >"proofs/$name/Invariants.antt" <<PROOF
use Rattle.std.proofs.Common.{◌≤◌}
use Rattle.seal_bench.proofs.$name.Given as goal

abbrev pub invariant-loop-n : goal.invariant-loop-n
invariant-loop-n l = l.$count ≤ l.n
PROOF
done
rt run </dev/null >"$work/log" 2>&1 || { tail -30 "$work/log"; exit 1; }
TIMEFORMAT=%U
# The fewest nanoseconds of five runs.
fastest() {
    local best= t
    for _ in 1 2 3 4 5; do
        t=$({ time ./out/seal_bench <<<"$1" >"$work/count"; } 2>&1)
        [[ $(<"$work/count") == "$cells" ]]
        t=$(awk -v t="$t" -v n=$cells 'BEGIN { print t * 1e9 / n }')
        best=$(awk -v a="${best:-$t}" -v b="$t" 'BEGIN { print a < b ? a : b }')
    done
    echo "$best"
}
# The fewest nanoseconds of five runs, from OpenSSL's thousands of bytes a second.
floor() {
    local best= t
    for _ in 1 2 3 4 5; do
        t=$(openssl speed -seconds 1 -bytes "$2" -evp "$1" 2>/dev/null | tail -1 | awk -v n="$2" '{ sub("k", "", $NF); print n * 1e6 / $NF }')
        best=$(awk -v a="${best:-$t}" -v b="$t" 'BEGIN { print a < b ? a : b }')
    done
    echo "$best"
}
seal=$(fastest s) open=$(fastest o) tag=$(floor sha256 152) pad=$(floor chacha20 96)
awk -v s="$seal" -v o="$open" -v t="$tag" -v p="$pad" 'BEGIN {
    printf "SHA-256 of 152 bytes %4.0f ns, ChaCha20 of 96 bytes %4.0f ns, together %4.0f ns\n", t, p, t + p
    printf "seal %4.0f ns, %8.0f cells a second, %.2f of the floors\n", s, 1e9 / s, s / (t + p)
    printf "open %4.0f ns, %8.0f cells a second, %.2f of the floors\n", o, 1e9 / o, o / (t + p)
}'
