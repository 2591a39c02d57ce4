#!/usr/bin/env bash
# Measures an append of a record of 64 places (9 body cells) beside 9 cells sealed, and a read of 16
# open records of 64 places beside 144 cells opened, in the same program. Each place asks for a key.
# The store is in memory, on one thread.
# The set of 65,536 keys is one for measuring: with all keys present its stash gets too full (docs/OPERATING).
# It needs rt, and writes only to a temporary folder. Times are of the processor.
set -euo pipefail
top=$(cd "$(dirname "$0")/.." && pwd)
source "$top/bench/common.sh"
bench_crate log_bench ob_base ob_io ob_store ob_claims ob_lanes ob_bare ob_seal ob_twin ob_cells ob_log <<'PROGRAM'
//! Appends 16 records (a), reads them (r), or seals (s) or opens (o) as many cells as their bodies
//! have: the first byte of the input says what, any other nothing. Each is done many times, behind
//! the same preparations.
#![tactic(auto)]

ghost use Rattle.std.specs.Prelude.{◌≡◌, ◌<◌, ◌≤◌, ℕ, Some, None, slice_index_or};

use ob_bare::BareStore;
use ob_base::{Key, Params};
use ob_log::{append, read_open};
use ob_seal::{Keys, Sealer};
use ob_store::Blind;
use std::alloc::Global;
use std::hint;
use std::io;
use std::io::Read;

const TIMES: u64 = 2000;
const CELLS: u64 = 144;

// Each of 64 places asks for the key of its number.
fn all_keys() -> [Option<Key>; 64]
    ensures { (i k : ℕ) → slice_index_or result i None ≡ Some k → (k ≡ i) × (k < 64) }
{
    let mut asks = [None; 64];
    for i in 0..64 {
        asks[i] = Some(i as u32);
    }
    asks
}

// Appends a record a batch: whether all went well.
fn fill(
    store: &mut BareStore,
    sealer: &mut Sealer,
    p: &Params,
    epoch: u64,
    asks: &[Option<Key>; 64],
    words: &[u64; 64],
) -> bool
    requires places { p.now.places ≡ 64 }
    requires keys { 64 ≤ p.now.keys }
    requires asks { (i k : ℕ) → slice_index_or asks.now i None ≡ Some k → (k ≡ i) × (k < 64) }
    requires epoch { epoch < 2000 }
{
    for batch in 0..p.batches {
        if append(store, sealer, p, epoch, batch, 7, asks, words, &mut Blind).is_err() {
            return false;
        }
    }
    true
}

fn fill_all(store: &mut BareStore, sealer: &mut Sealer, p: &Params) -> u64
    requires places { p.now.places ≡ 64 }
    requires keys { 64 ≤ p.now.keys }
{
    let asks = all_keys();
    let words = hint::black_box([9; 64]);
    let mut done = 0;
    for n in 0..TIMES {
        done += u64::from(fill(store, sealer, p, n, &asks, &words));
    }
    done
}

// Whether so many records are read.
fn read_one(alloc: Global, store: &mut BareStore, sealer: &Sealer, p: &Params) -> bool {
    match read_open(alloc, store, sealer, p, 0, &mut Blind) {
        Ok(records) => records.as_slice().len() == 16,
        Err(_) => false,
    }
}

fn read_all(alloc: Global, store: &mut BareStore, sealer: &Sealer, p: &Params) -> u64 {
    let mut done = 0;
    for n in 0..TIMES {
        done += u64::from(read_one(alloc, store, sealer, p));
    }
    done
}

fn seal_all(sealer: &mut Sealer) -> u64 {
    let plain = hint::black_box([9; 96]);
    let mut done = 0;
    for n in 0..TIMES * CELLS {
        if let Ok(cell) = sealer.seal(n, &plain) {
            done += u64::from(hint::black_box(cell)[127] <= 255);
        }
    }
    done
}

fn open_all(sealer: &mut Sealer) -> u64 {
    let mut cells = [[0; 128]; 64];
    for i in 0..64 {
        if let Ok(cell) = sealer.seal(i as u64, &[9; 96]) {
            cells[i] = cell;
        }
    }
    let mut done = 0;
    for n in 0..TIMES * CELLS {
        let i = (n % 64) as usize;
        let found = sealer.unseal(i as u64, None, &cells[i]);
        done += u64::from(hint::black_box(found).is_ok());
    }
    done
}

fn done(alloc: Global, what: u8) -> Option<u64> {
    let p = Params::new(65536, 14, 4, 6, 16, 64, 256, 64, 1024).ok()?;
    let mut sealer = Sealer::new(&Keys::from_bytes(&[7; 96]), 1);
    let mut store = BareStore::new(alloc, 400).ok()?;
    if !fill(&mut store, &mut sealer, &p, 0, &all_keys(), &[9; 64]) {
        return None;
    }
    Some(match what {
        b'a' => fill_all(&mut store, &mut sealer, &p),
        b'r' => read_all(alloc, &mut store, &sealer, &p),
        b's' => seal_all(&mut sealer),
        b'o' => open_all(&mut sealer),
        _ => 0,
    })
}

fn main(rt: HostRuntime) -> io::Result<()> {
    let mut line = [0; 1];
    let _ = rt.stdin().read(&mut line)?;
    match done(rt.alloc(), line[0]) {
        Some(n) => println!(rt; "{n}")?,
        None => println!(rt; "none")?,
    }
    Ok(())
}
PROGRAM
mkdir -p proofs/all_keys
cat >proofs/all_keys/Invariants.antt <<'PROOF'
use Rattle.std.proofs.Common.{◌≡◌, ◌<◌, ℕ, Some, None, length, slice_index_or}
use Rattle.log_bench.proofs.all_keys.Given as goal

abbrev pub invariant-loop-i : goal.invariant-loop-i
invariant-loop-i l = record { long : length l.asks ≡ 64; asks : (j k : ℕ) → slice_index_or l.asks j None ≡ Some k → (k ≡ j) × (j < l.i) }
PROOF
cat >proofs/all_keys/Answers.antt <<'PROOF'
use Rattle.std.proofs.Common.{◌≡◌, ◌≢◌, ℕ, zero, suc, Option, Some, None, slice_index_or, refl, sym, ap, ◌∙◌, ⊎_elim, arith, length-set, get_or-set_same, get_or-set_other}
use Rattle.std.specs.Prelude.{replicate, slice_set}
use Rattle.std.proofs.lemmas.Bool.{cases_eq}
use Rattle.log_bench.proofs.all_keys.Goals as goal

none_in : (n i : ℕ) → slice_index_or (replicate {A = Option ℕ} n None) i None ≡ None
none_in zero i = refl
none_in (suc n) zero = refl
none_in (suc n) (suc i) = none_in n i

none≢some : (k : ℕ) → ◌≡◌ {A = Option ℕ} None (Some k) → ⊥
none≢some k e = cc

some_same : (j k : ℕ) → ◌≡◌ {A = Option ℕ} (Some j) (Some k) → k ≡ j
some_same j k e = cc

pub loop-i-init : goal.loop-i-init
loop-i-init c = record { long = refl; asks = λ j k e. absurd (none≢some k (sym (none_in 64 j) ∙ e)) }

pub loop-i-preserved : goal.loop-i-preserved
loop-i-preserved c =
    let i = c.loop-i.i in
    let old = c.loop-i.asks in
    record {
      long = length-set old i (Some i) ∙ c.loop-i.invariant.long;
      asks = λ j k e.
          ⊎_elim
          (λ (here : j ≡ i). (let found : ◌≡◌ {A = Option ℕ} (Some i) (Some k) = sym (get_or-set_same old i (Some i) None (omega (arith, c.loop-i.invariant.long))) ∙ ap (λ n. slice_index_or (slice_set old i (Some i)) n None) (sym here) ∙ e in
          (some_same i k found ∙ sym here, omega arith)))
          (λ (other : j ≢ i). (let was = c.loop-i.invariant.asks j k (sym (get_or-set_other old i j (Some i) None other) ∙ e) in (was.0, omega (arith, was.1))))
          (cases_eq j i);
    }

pub returns : goal.returns
returns c = λ j k e. let was = c.loop-i.invariant.asks j k e in (was.0, omega (arith, was.0, was.1))
PROOF
for name in fill_all read_all seal_all open_all; do invariant $name '◌≤◌' 'l.done ≤ l.n'; done
build_bench
time_kinds n:0 a:2000 r:2000 s:288000 o:288000
awk -v n="${best[n]}" -v a="${best[a]}" -v r="${best[r]}" -v s="${best[s]}" -v o="${best[o]}" 'BEGIN {
    printf "append %6.2f us a record, %.2f of its seals\n", (a - n) * 31.25, (a - n) / (s - n)
    printf "read   %6.2f us for 16 records, %.2f of their opens\n", (r - n) * 500, (r - n) / (o - n)
}'
