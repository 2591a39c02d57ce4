#!/usr/bin/env bash
# Measures a format of a ring store of 65,536 keys (levels 0 to 14, 4 real and 6 dummy slots, 721,739
# cells) beside as many cells sealed (360,833), its opening beside as many cells opened (33,163) and
# beside an opening of a plain store of as many keys, and the largest resident memory of both beside
# the store's cells. Then what a store takes of levels 0 to 16 with 16 real and 32 dummy slots.
# What is aimed at: 1.3 of the seals and of the opens, no longer than the plain store's, 32 MB.
# The stores are in memory, on one thread, without a record.
# The set of 65,536 keys is one for measuring: with all keys present its stash gets too full (docs/OPERATING).
# It needs rt and GNU time, and writes only to a temporary folder. Times are of the processor, those in
# the kernel (which hands out the pages of memory) apart.
set -euo pipefail
top=$(cd "$(dirname "$0")/.." && pwd)
source "$top/bench/common.sh"
bench_crate ring_open_bench ob_base ob_pads ob_io ob_store ob_claims ob_lanes ob_bare ob_seal ob_twin ob_cells ob_start \
    ob_log ob_flat ob_tables ob_schedule ob_ring ob_recover ob_stand ob_check ob_serial ob_opening <<'PROGRAM'
//! Makes a ring store, and formats it again (f), opens it (p), or seals (s) or opens (o) as many
//! cells; makes a plain store of as many keys, and opens it (q) or not (k); makes a larger ring
//! store, and opens it (c) or not (b): the first byte of the input says what, any other makes the
//! ring store alone.
#![tactic(auto)]

use ob_bare::BareStore;
use ob_base::{Params, ring_cells};
use ob_seal::{Keys, Sealer};
use ob_store::Blind;
use ob_seal::ChaChaTape;
use std::alloc::Global;
use std::hint;
use std::io;
use std::io::Read;
use std::thread::Threads;

const FORMATS: u64 = 4;
const OPENINGS: u64 = 20;
const SEALS: u64 = 360833;
const OPENS: u64 = 33163;

// Whether a ring store of these parameters was made.
fn make<R: Threads + Sync>(
    rt: &R,
    alloc: Global,
    store: &mut BareStore,
    keys: &Keys,
    p: &Params,
) -> bool {
    let mut tape = ChaChaTape::new(&[7; 32]);
    ob_opening::format(rt, alloc, store, &mut tape, keys, p, &mut Blind).is_ok()
}

// Whether it was opened.
fn open<R: Threads + Sync>(
    rt: &R,
    alloc: Global,
    store: &mut BareStore,
    keys: &Keys,
    p: &Params,
) -> bool {
    let mut tape = ChaChaTape::new(&[7; 32]);
    ob_opening::prepare(rt, alloc, store, &mut tape, keys, p, 1, &mut Blind).is_ok()
}

fn make_all<R: Threads + Sync>(
    rt: &R,
    alloc: Global,
    store: &mut BareStore,
    keys: &Keys,
    p: &Params,
) -> u64 {
    let mut done = 0;
    for n in 0..FORMATS {
        done += u64::from(make(rt, alloc, store, keys, p));
    }
    done
}

fn open_all<R: Threads + Sync>(
    rt: &R,
    alloc: Global,
    store: &mut BareStore,
    keys: &Keys,
    p: &Params,
) -> u64 {
    let mut done = 0;
    for n in 0..OPENINGS {
        done += u64::from(open(rt, alloc, store, keys, p));
    }
    done
}

fn open_plain_all(alloc: Global, store: &mut BareStore, keys: &Keys, p: &Params) -> u64 {
    let mut done = 0;
    for n in 0..OPENINGS {
        let opened = ob_flat::prepare(alloc, store, keys, p, &mut Blind);
        done += u64::from(opened.is_ok());
    }
    done
}

fn seal_cells(sealer: &mut Sealer) -> u64 {
    let plain = hint::black_box([9; 96]);
    let mut done = 0;
    for n in 0..FORMATS * SEALS {
        if let Ok(cell) = sealer.seal(n, &plain) {
            done += u64::from(hint::black_box(cell)[127] <= 255);
        }
    }
    done
}

fn open_cells(sealer: &mut Sealer) -> u64 {
    let mut cells = [[0; 128]; 64];
    for i in 0..64 {
        if let Ok(cell) = sealer.seal(i as u64, &[9; 96]) {
            cells[i] = cell;
        }
    }
    let mut done = 0;
    for n in 0..OPENINGS * OPENS {
        let i = (n % 64) as usize;
        let found = sealer.unseal(i as u64, None, &cells[i]);
        done += u64::from(hint::black_box(found).is_ok());
    }
    done
}

fn on_ring<R: Threads + Sync>(rt: &R, alloc: Global, what: u8) -> Option<u64> {
    let p = Params::new(65536, 14, 4, 6, 8, 16, 64, 16, 1024).ok()?;
    let keys = Keys::from_bytes(&[7; 96]);
    let mut store = BareStore::new(alloc, ring_cells(&p) as usize).ok()?;
    if !make(rt, alloc, &mut store, &keys, &p) {
        return None;
    }
    Some(match what {
        b'f' => make_all(rt, alloc, &mut store, &keys, &p),
        b'p' => open_all(rt, alloc, &mut store, &keys, &p),
        b's' => seal_cells(&mut Sealer::new(&keys, 2)),
        b'o' => open_cells(&mut Sealer::new(&keys, 2)),
        _ => ring_cells(&p),
    })
}

fn on_plain(alloc: Global, what: u8) -> Option<u64> {
    let p = Params::new(65536, 14, 4, 6, 8, 16, 64, 16, 1024).ok()?;
    let keys = Keys::from_bytes(&[7; 96]);
    let mut store = BareStore::new(alloc, ob_flat::cells(&p) as usize).ok()?;
    ob_flat::format(&mut store, &keys, &p, &mut Blind).ok()?;
    Some(match what {
        b'q' => open_plain_all(alloc, &mut store, &keys, &p),
        _ => ob_flat::cells(&p),
    })
}

fn on_large_ring<R: Threads + Sync>(rt: &R, alloc: Global, what: u8) -> Option<u64> {
    let p = Params::new(65536, 16, 16, 32, 16, 64, 256, 64, 1024).ok()?;
    let keys = Keys::from_bytes(&[7; 96]);
    let mut store = BareStore::new(alloc, ring_cells(&p) as usize).ok()?;
    if !make(rt, alloc, &mut store, &keys, &p) {
        return None;
    }
    if what == b'c' && !open(rt, alloc, &mut store, &keys, &p) {
        return None;
    }
    Some(ring_cells(&p))
}

fn done<R: Threads + Sync>(rt: &R, alloc: Global, what: u8) -> Option<u64> {
    match what {
        b'k' | b'q' => on_plain(alloc, what),
        b'b' | b'c' => on_large_ring(rt, alloc, what),
        _ => on_ring(rt, alloc, what),
    }
}

fn main(rt: HostRuntime) -> io::Result<()> {
    let mut line = [0; 1];
    let _ = rt.stdin().read(&mut line)?;
    match done(&rt, rt.alloc(), line[0]) {
        Some(n) => println!(rt; "{n}")?,
        None => println!(rt; "none")?,
    }
    Ok(())
}
PROGRAM
for name in make_all open_plain_all seal_cells open_cells; do
    invariant "$name" '◌≤◌' 'l.done ≤ l.n'
done
invariant open_all '◌≤◌' 'l.done ≤ l.n' 'g l'
build_bench
time_kinds n:721739 f:4 p:20 s:1443332 o:663260 k:131081 q:20
# Prints what one of a kind takes beyond the runs without it, so many a run, beside as many of
# others: each of these is its name, its kind, and the kind of the runs without it.
beside() {
    local name=$1 kind=$2 without=$3 many=$4
    shift 4
    awk -v t="${best[$kind]}" -v n="${best[$without]}" -v many="$many" -v name="$name" \
        -v kt="${kernel[$kind]}" -v kn="${kernel[$without]}" \
        'BEGIN { printf "%s: %.1f ms, and %.1f ms in the kernel", name, (t - n) * 1e3 / many, (kt - kn) * 1e3 / many }'
    while [ $# -gt 0 ]; do
        awk -v t="${best[$kind]}" -v n="${best[$without]}" -v a="${best[$2]}" -v b="${best[$3]}" \
            -v kt="${kernel[$kind]}" -v kn="${kernel[$without]}" -v ka="${kernel[$2]}" -v kb="${kernel[$3]}" \
            -v name="$1" 'BEGIN {
                printf "; %.2f of %s, %.2f with the kernel", (t - n) / (a - b), name, (t - n + kt - kn) / (a - b + ka - kb)
            }'
        shift 3
    done
    echo
}
beside format f n 4 'its seals' s n
beside opening p n 20 'its opens' o n 'a plain opening' q k
# What one run of a kind takes, beside the store's cells, how many of which it tells: at most so much
# memory at once, and so many seconds.
for run in 'n:65,536 keys, format' 'p:65,536 keys, openings' 'b:large store, format' 'c:large store, format and opening'; do
    /usr/bin/time -f '%U %M' -o "$work/cost" ./out/ring_open_bench <<<"${run%%:*}" >"$work/count"
    cells=$(<"$work/count")
    [ "$cells" != 20 ] || cells=721739
    awk -v what="${run#*:}" -v cells="$cells" '{
        printf "%s: %.2f s, %.1f MB beside %d cells (%.0f MB)\n", what, $1, $2 * 1024 / 1e6 - cells * 128 / 1e6, cells, cells * 128 / 1e6
    }' "$work/cost"
done
