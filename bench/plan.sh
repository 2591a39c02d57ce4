#!/usr/bin/env bash
# Measures what planning costs: the 16 read batches, the final lifts, and the writes and the refill (with
# the words that these need) of each of eight epochs, at 65,536 keys, levels 0 to 14, 4 real and 6 dummy
# slots, 64 places a batch. Each epoch puts 256 keys more, and the batches ask for keys that were put. It
# needs rt, and writes only to a temporary folder. Nothing is read or settled: planning alone is timed.
# The set of 65,536 keys is one for measuring: with all keys present its stash gets too full (docs/OPERATING).
set -euo pipefail
top=$(cd "$(dirname "$0")/.." && pwd)
work=$(mktemp -d)
trap 'rm -rf "$work"' EXIT
crates="ob_base ob_io ob_tables ob_store ob_schedule ob_ring"
mkdir -p "$work/crates/plan_bench/src"
for crate in $crates; do
    cp -r "$top/crates/$crate" "$work/crates/"
    rm -rf "$work/crates/$crate/out" "$work/crates/$crate/must-fail"
    grep "^$crate:" "$top/crates.txt" >>"$work/crates.txt"
done
echo 'plan_bench: ob_base ob_tables ob_store ob_schedule ob_ring' >>"$work/crates.txt"
git -C "$work" init -q
cat >"$work/crates/plan_bench/src/main.rt" <<'PROGRAM'
//! Plans epochs, and writes what that took.
#![tactic(auto)]

ghost use Rattle.std.specs.Prelude.{◌≡◌, ℕ, ◌<◌, ◌≤◌, ◌+◌, ◌*◌, IfSome, None, slice_index_or, length, replicate, true};
ghost use Rattle.ob_base.specs.Planned.{most_jobs};
ghost use Rattle.ob_base.specs.Tree.{buckets, width};
ghost use Rattle.ob_ring.specs.Ring.{AreListedWithin, IsListed};
ghost use Rattle.ob_ring.specs.Writing.{write_at};

use ob_base::{Jobs, Key, Memory, Params, Value, Write};
use ob_ring::{Index, Ring, Steps};
use std::alloc::Global;
use std::io;
use std::marker::Brand;
use std::sync::ledger::{Blank, Ledger};
use std::time::Instant;

// Words that follow from a seed (a xorshift generator).
#[derive(Clone, Copy)]
struct Random {
    state: u64,
}

impl Random {
    fn word(&mut self) -> u64 {
        self.state ^= self.state >> 12;
        self.state ^= self.state << 25;
        self.state ^= self.state >> 27;
        self.state.wrapping_mul(0x2545_F491_4F6C_DD1D)
    }
}

// Whether it is a key below a number, or none.
fn is_low(key: Option<Key>, keys: u32) -> bool
    ensures { result ≡ true → IfSome key (λ k. k < keys) }
{
    match key {
        Some(key) => key < keys,
        None => true,
    }
}

// Whether each of these is a key below a number, or none.
fn asks_are_low(asks: &[Option<Key>], keys: u32) -> bool
    ensures { result ≡ true → (i : ℕ) → IfSome (slice_index_or asks.now i None) (λ k. k < keys) }
{
    for i in 0..asks.len() {
        if !is_low(asks[i], keys) {
            return false;
        }
    }
    true
}

// Whether the key of each write is below a number.
fn writes_are_low(writes: &[Write], keys: u32) -> bool
    ensures { result ≡ true → (i : ℕ) → i < length writes.now → (write_at writes.now i).key < keys }
{
    for i in 0..writes.len() {
        if writes[i].key >= keys {
            return false;
        }
    }
    true
}

// What a place asks for, of so many keys that were put: 64 places in a row ask for different keys.
fn ask(from: u64, place: u64, put: u32) -> Option<Key> {
    if put < 64 {
        return None;
    }
    Some((from.wrapping_add(place) % put as u64) as u32)
}

fn fill(random: &mut Random, put: u32, asks: &mut [Option<Key>], words: &mut [u64]) {
    let from = random.word();
    for i in 0..asks.len() {
        asks[i] = ask(from, i as u64, put);
    }
    for word in words.iter_mut() {
        *word = random.word();
    }
}

// Plans a batch, and tells how many jobs that has.
fn plan_batch(p: &Params, ring: &mut Ring, jobs: &mut Jobs, random: &mut Random, put: u32) -> u64
    requires ring { ring.old.p ≡ p.now }
    requires jobs { (jobs.old.room ≡ most_jobs p.now) × (jobs.old.place_room ≡ p.now.places) }
    ensures ring { ring.new.p ≡ p.now }
    ensures jobs { (jobs.new.room ≡ most_jobs p.now) × (jobs.new.place_room ≡ p.now.places) }
{
    let mut asks = [None; 64];
    let mut words = [0; 64];
    fill(random, put, &mut asks, &mut words);
    if p.places != 64 || !asks_are_low(&asks, p.keys) {
        return 0;
    }
    ring.plan_fetch(&asks, &words, (2, 0), jobs);
    jobs.jobs().len() as u64
}

// Plans the batches of an epoch, and tells how many jobs those have.
fn plan_batches(p: &Params, ring: &mut Ring, jobs: &mut Jobs, random: &mut Random, put: u32) -> u64
    requires ring { ring.old.p ≡ p.now }
    requires jobs { (jobs.old.room ≡ most_jobs p.now) × (jobs.old.place_room ≡ p.now.places) }
    ensures ring { ring.new.p ≡ p.now }
    ensures jobs { (jobs.new.room ≡ most_jobs p.now) × (jobs.new.place_room ≡ p.now.places) }
{
    let mut planned: u64 = 0;
    for _batch in 0..p.batches {
        planned = planned.wrapping_add(plan_batch(p, ring, jobs, random, put));
    }
    planned
}

// So many words.
fn words(alloc: Global, random: &mut Random, many: usize) -> Result<Vec<u64>, Memory> {
    let mut words = Vec::new(alloc);
    for _i in 0..many {
        words.push(random.word())?;
    }
    Ok(words)
}

// Fills the lifted buckets with these words; whether no more rows are left than may be.
fn refill<C: Ledger>(ring: &mut Ring, index: &mut Index, words: &[u64], blank: Blank) -> bool
    requires listed { IsListed ring.old }
    requires words { length words.now ≡ length ring.old.metas.order * width ring.old.p }
    requires index { index.old ≡ replicate (buckets ring.old.p) 0 }
    requires name { blank.name ≡ C.name }
    requires parts { (blank.parts ≡ C.parts) × (0 < blank.parts) }
    ensures ring { ring.new.p ≡ ring.old.p }
    ensures within { AreListedWithin ring.new }
    ensures index { index.new ≡ index.old }
{
    let mut steps = Steps::<C>::none(blank);
    match ring.refill_indexed(index, words, (2, 0), &mut steps) {
        Ok(()) => true,
        Err(_) => false,
    }
}

// Puts 256 keys more, and fills the lifted buckets; whether that was done.
fn end(alloc: Global, p: &Params, ring: &mut Ring, random: &mut Random, put: u32) -> Result<bool, Memory>
    requires ring { ring.old.p ≡ p.now }
    requires listed { IsListed ring.old }
    ensures { ring.new.p ≡ p.now }
{
    let _told: Option<Value> = None;
    let mut writes = Vec::new(alloc);
    for i in 0..256 {
        writes.push(Write {
            key: put.wrapping_add(i),
            value: Value::new(&[7]),
        })?;
    }
    let own = words(alloc, random, 256)?;
    if own.len() < writes.len() || !writes_are_low(&writes, p.keys) {
        return Ok(false);
    }
    ring.apply_writes(&writes, &own, (2, 0));
    let width = (p.real + p.dummies) as usize;
    let many = ring.to_refill().len().checked_mul(width);
    let slots = words(alloc, random, ring.to_refill().len().wrapping_mul(width))?;
    if many != Some(slots.len()) {
        return Ok(false);
    }
    let mut index = Index::new(alloc, p)?;
    if !refill::<Brand>(ring, &mut index, &slots, Blank::new(1)) {
        return Ok(false);
    }
    ring.forget_written();
    Ok(true)
}

fn main(rt: HostRuntime) -> io::Result<()> {
    let alloc = rt.alloc();
    let p = match Params::new(65536, 14, 4, 6, 16, 64, 256, 64, 1024) {
        Ok(p) => p,
        Err(_) => return Ok(()),
    };
    let mut ring = Ring::empty(alloc, &p).expect(&rt, "memory");
    let mut jobs = Jobs::new(alloc, &p).expect(&rt, "memory");
    let mut random = Random { state: 1 };
    for epoch in 0..8 {
        let put = epoch * 256;
        let start = Instant::now(&rt)?;
        let batches = plan_batches(&p, &mut ring, &mut jobs, &mut random, put);
        let planned = start.elapsed(&rt)?;
        ring.plan_lifts(&mut jobs);
        let lifted = start.elapsed(&rt)?;
        let lifts = jobs.jobs().len();
        let done = end(alloc, &p, &mut ring, &mut random, put).expect(&rt, "memory");
        let ended = start.elapsed(&rt)?;
        println!(rt; "{} {} {} {} {} {} {}", epoch, done, batches, lifts, planned.as_micros(), lifted.as_micros(), ended.as_micros())?;
    }
    Ok(())
}
PROGRAM
cd "$work/crates/plan_bench"
prove() {
    mkdir -p "proofs/$1"
    cat >"proofs/$1/$2.antt"
}
prove asks_are_low Invariants <<'PROOF'
use Rattle.std.specs.Prelude.{ℕ, ◌<◌, None, IfSome, slice_index_or}
use Rattle.plan_bench.proofs.asks_are_low.Given as goal

abbrev pub invariant-loop-i : goal.invariant-loop-i
invariant-loop-i l = (k : ℕ) → k < l.i → IfSome (slice_index_or l.asks k None) (λ x. x < l.keys)
PROOF
prove writes_are_low Invariants <<'PROOF'
use Rattle.std.specs.Prelude.{ℕ, ◌<◌}
use Rattle.ob_ring.specs.Writing.{write_at}
use Rattle.plan_bench.proofs.writes_are_low.Given as goal

abbrev pub invariant-loop-i : goal.invariant-loop-i
invariant-loop-i l = (k : ℕ) → k < l.i → (write_at l.writes k).key < l.keys
PROOF
prove plan_batches Invariants <<'PROOF'
use Rattle.std.specs.Prelude.{◌≡◌}
use Rattle.ob_base.specs.Planned.{most_jobs}
use Rattle.plan_bench.proofs.plan_batches.Given as goal

abbrev pub invariant-loop-batch : goal.invariant-loop-batch
invariant-loop-batch l = (l.ring.p ≡ l.p) × (l.jobs.room ≡ most_jobs l.p) × (l.jobs.place_room ≡ l.p.places)
PROOF
prove end Invariants <<'PROOF'
use Rattle.plan_bench.proofs.end.Given as goal

abbrev pub ghosts-refill : goal.ghosts-refill
ghosts-refill a = record { name = a.blank.name; parts = a.blank.parts }
PROOF
prove main Invariants <<'PROOF'
use Rattle.std.specs.Prelude.{◌≡◌}
use Rattle.ob_base.specs.Planned.{most_jobs}
use Rattle.plan_bench.proofs.main.Given as goal

abbrev pub invariant-loop-epoch : goal.invariant-loop-epoch
invariant-loop-epoch g l = (l.ring.p ≡ l.p) × (l.jobs.room ≡ most_jobs l.p) × (l.jobs.place_room ≡ l.p.places)
PROOF
rt run </dev/null >"$work/log" 2>&1 || { tail -40 "$work/log"; exit 1; }
./out/plan_bench | awk '{
    printf "epoch %d: %6d jobs in 16 batches %8.3f ms, %6d jobs of final lifts %8.3f ms, writes and refill %8.3f ms, %s\n", $1, $3, $5 / 1000, $4, ($6 - $5) / 1000, ($7 - $6) / 1000, $2 == "true" ? "done" : "refused"
}'
