#!/usr/bin/env bash
# Measures epochs of a ring vault over a store in memory, one thread, at three sizes: 256 keys (levels 0
# to 8, 4 real and 6 dummy slots, 4 batches of 4 places, 8 writes, 8 paths evicted), 4,096 (0 to 12; 4 of
# 16, 64 and 16), all present, and 65,536 (0 to 14; 8 of 16, 64 and 16), of which 2,560 are present. An
# epoch asks for keys that are present, and puts such. Its time stands beside that of sealing and opening
# as many cells, which is measured in turns with it, and beside a plain vault's of as many keys; with it
# stands what filling the lifted buckets takes of it, in the same epochs planned alone. The third size
# once more with all keys present, which 1,024 epochs put whose fetches are pads. Then two stores whose
# buckets have one dummy slot, so that most are lifted (16 batches of 64 places, 256 writes, 64 paths
# evicted): levels 0 to 12 with 16 real slots, of which 19,968 keys are present, and 0 to 16 with 4, all
# present. Then the largest resident memory at the third size beside the store's cells, and how it grows
# over 100 epochs, once all the room that was made has been used.
# What is aimed at: 1.5 of the seals and opens; 9 times the plain vault's epoch at 256 keys and 1.0 at
# 65,536; filling 0.05 of the seals, and 0.1 where buckets have one dummy slot; 32 MB, and no growth.
# The sets of 65,536 keys are for measuring: with all keys present a stash gets too full (docs/OPERATING).
# It needs rt and GNU time, and writes only to a temporary folder. Times are of the processor.
set -euo pipefail
top=$(cd "$(dirname "$0")/.." && pwd)
source "$top/bench/common.sh"
bench_crate ring_bench ob_base ob_io ob_store ob_claims ob_lanes ob_bare ob_seal ob_twin ob_cells ob_start ob_log \
    ob_flat ob_tables ob_schedule ob_ring ob_recover ob_stand ob_check ob_serial ob_plain_serial \
    ob_pads ob_opening ob_fetch ob_end ob_fresh ob_vault <<'PROGRAM'
//! Runs epochs of a ring vault (a to d, i and j) or of a plain one (A to C) in memory, or plans the ring's
//! alone (e to h, k and l): the first byte of the input says which, and the second how many rounds.
#![tactic(auto)]

ghost use Rattle.std.specs.Prelude.{◌≡◌};

mod calls;
mod epochs;
mod planning;
mod rounds;

use crate::epochs::fill_keys;
use crate::planning::refill_time;
use crate::rounds::{EPOCHS, Round, run_rounds};
use ob_bare::BareStore;
use ob_base::{Jobs, Params, ring_cells};
use ob_flat::FlatVault;
use ob_ring::Ring;
use ob_vault::RingVault;
use ob_seal::Keys;
use ob_lanes::Lanes;
use ob_seal::{ChaChaTape, Tape};
use ob_store::Blind;
use std::alloc::Global;
use std::io;
use std::io::Read;
use std::thread::Threads;
use std::time::{CpuClock, Duration};

// The parameters, and how many keys are put first.
fn setting(what: u8) -> Option<(Params, u32)> {
    match what {
        b'a' | b'e' | b'A' => Some((Params::new(256, 8, 4, 6, 4, 4, 8, 8, 256).ok()?, 256)),
        b'b' | b'f' | b'B' => Some((Params::new(4096, 12, 4, 6, 4, 16, 64, 16, 512).ok()?, 4096)),
        b'c' | b'g' | b'C' => Some((
            Params::new(65536, 14, 4, 6, 8, 16, 64, 16, 1024).ok()?,
            2560,
        )),
        b'd' | b'h' => Some((
            Params::new(65536, 14, 4, 6, 8, 16, 64, 16, 1024).ok()?,
            65536,
        )),
        b'i' | b'k' => Some((
            Params::new(65536, 12, 16, 1, 16, 64, 256, 64, 1024).ok()?,
            19968,
        )),
        b'j' | b'l' => Some((
            Params::new(65536, 16, 4, 1, 16, 64, 256, 64, 1024).ok()?,
            65536,
        )),
        _ => None,
    }
}

// A vault over a ring store that is opened.
fn open_ring<'a, R: Threads + Sync, S: Lanes, T: Tape>(
    rt: &R,
    alloc: Global,
    store: &'a mut S,
    tape: &'a mut T,
    keys: &Keys,
    p: &Params,
) -> Option<RingVault<'a, S, T>>
    requires none_out { (S.disk store.old).out ≡ 0 }
    requires unstarted { T.present tape.old ≡ 0 }
{
    match ob_opening::prepare(rt, alloc, store, tape, keys, p, 1, &mut Blind) {
        Ok(opening) => Some(RingVault::over(store, tape, opening)),
        Err(_) => None,
    }
}

fn on_ring<R: Threads + Sync + CpuClock>(
    rt: &R,
    alloc: Global,
    what: u8,
    rounds: u32,
) -> Option<Vec<Round>> {
    let (p, present) = setting(what)?;
    let keys = Keys::from_bytes(&[7; 96]);
    let mut store = BareStore::new(alloc, ring_cells(&p) as usize).ok()?;
    let mut tape = ChaChaTape::new(&[7; 32]);
    ob_opening::format(rt, alloc, &mut store, &mut tape, &keys, &p, &mut Blind).ok()?;
    let mut tape = ChaChaTape::new(&[7; 32]);
    let mut vault = open_ring(rt, alloc, &mut store, &mut tape, &keys, &p)?;
    let p = vault.params();
    if fill_keys(rt, &p, &mut vault, present, &mut Blind) != u64::from(present / p.writes) {
        return None;
    }
    run_rounds(rt, alloc, &p, &mut vault, present, rounds)
}

fn on_plain<R: Threads + Sync + CpuClock>(
    rt: &R,
    alloc: Global,
    what: u8,
    rounds: u32,
) -> Option<Vec<Round>> {
    let (p, present) = setting(what)?;
    let keys = Keys::from_bytes(&[7; 96]);
    let mut store = BareStore::new(alloc, ob_flat::cells(&p) as usize).ok()?;
    ob_flat::format(&mut store, &keys, &p, &mut Blind).ok()?;
    let opened = ob_flat::prepare(alloc, &mut store, &keys, &p, &mut Blind);
    let mut vault = FlatVault::over(&mut store, opened.ok()?);
    let p = vault.params();
    if fill_keys(rt, &p, &mut vault, present, &mut Blind) != u64::from(present / p.writes) {
        return None;
    }
    run_rounds(rt, alloc, &p, &mut vault, present, rounds)
}

// What filling buckets takes in the epochs of as many rounds.
fn planned(clock: &impl CpuClock, alloc: Global, what: u8, rounds: u32) -> Option<Duration> {
    let (p, present) = setting(what)?;
    let mut ring = Ring::empty(alloc, &p).ok()?;
    let mut jobs = Jobs::new(alloc, &p).ok()?;
    let epochs = EPOCHS.wrapping_mul(rounds);
    refill_time(clock, alloc, &p, &mut ring, &mut jobs, present, epochs).ok()?
}

// A digit as a number.
fn digit(byte: u8) -> u32 {
    u32::from(byte.saturating_sub(b'0'))
}

fn main(rt: HostRuntime) -> io::Result<()> {
    let mut line = [0; 2];
    let _ = rt.stdin().read(&mut line)?;
    let [what, many] = line;
    let rounds = digit(many);
    if let b'e'..=b'h' | b'k' | b'l' = what {
        let taken = planned(&rt, rt.alloc(), what, rounds).unwrap_or(Duration::ZERO);
        println!(rt; "{}", taken.as_micros())?;
        return Ok(());
    }
    let all = match what {
        b'a'..=b'd' | b'i' | b'j' => on_ring(&rt, rt.alloc(), what, rounds),
        _ => on_plain(&rt, rt.alloc(), what, rounds),
    };
    match all {
        None => println!(rt; "none")?,
        Some(all) => {
            println!(rt; "filled")?;
            for one in &all {
                println!(rt;
                    "{} {} {} {} {} {}",
                    one.done,
                    one.reads,
                    one.writes,
                    one.took.as_micros(),
                    one.sealing.as_micros(),
                    one.opening.as_micros()
                )?;
            }
        }
    }
    Ok(())
}
PROGRAM
cat >src/epochs.rt <<'PROGRAM'
//! Epochs of any vault.

ghost use Rattle.std.specs.Prelude.{◌≡◌, ◌<◌, ◌≤◌, length};

use crate::calls::{may_end, may_fetch};
use ob_base::{Key, Params, Value, Write};
use ob_serial::Vault;
use ob_store::{Note, Watch};
use std::thread::Threads;

// Words that follow from a seed (a xorshift generator).
#[derive(Drop)]
pub struct Random {
    pub state: u64,
}

impl Random {
    pub fn word(&mut self) -> u64 {
        self.state ^= self.state >> 12;
        self.state ^= self.state << 25;
        self.state ^= self.state >> 27;
        self.state.wrapping_mul(0x2545_F491_4F6C_DD1D)
    }
}

// Counts reads, and writes behind the registers.
#[derive(Drop)]
pub struct Count {
    pub reads: u64,
    pub writes: u64,
}

impl Watch for Count {
    ghost use Rattle.std.specs.Prelude.{None, false, []};

    ghost trace = { λ _. record { written = None; broken = false; faults = 0; anchors = [] } };

    fn note(&mut self, note: Note) {
        match note {
            Note::Read(_) => self.reads = self.reads.wrapping_add(1),
            Note::Write(cell) => self.writes = self.writes.wrapping_add(u64::from(cell > 8)),
            Note::Label(_) | Note::Sync => {}
        }
    }

    fn broken(&self) -> bool {
        false
    }
}

// What the places of a batch ask for: so many keys in a row of those that are present, or nothing where
// too few are.
pub fn fill_asks(asks: &mut [Option<Key>], from: u64, present: u32)
    ensures { length asks.new ≡ length asks.old }
{
    let many = asks.len() as u64;
    for i in 0..asks.len() {
        asks[i] = if (present as u64) < many || present == 0 {
            None
        } else {
            Some((from.wrapping_add(i as u64) % present as u64) as u32)
        };
    }
}

// Puts of so many keys in a row.
pub fn fill_writes(writes: &mut [Write], first: u32)
    ensures { length writes.new ≡ length writes.old }
{
    for i in 0..writes.len() {
        writes[i] = Write {
            key: first.wrapping_add((i % 256) as u32),
            value: Value::new(&[7; 32]),
        };
    }
}

// Fetches a batch, if the vault takes it.
fn fetch<R: Threads + Sync, V: Vault, W: Watch>(
    rt: &R,
    p: &Params,
    vault: &mut V,
    asks: &[Option<Key>],
    out: &mut [Option<Value>],
    watch: &mut W,
) -> bool
    requires { V.params vault.old ≡ p.now }
    ensures { V.params vault.new ≡ p.now }
{
    if vault.spent() || out.len() != asks.len() || !may_fetch(p, vault.left(), asks) {
        return false;
    }
    vault.fetch(rt, asks, out, watch).is_ok()
}

fn fetch_batch<R: Threads + Sync, V: Vault, W: Watch>(
    rt: &R,
    p: &Params,
    vault: &mut V,
    random: &mut Random,
    present: u32,
    watch: &mut W,
) -> bool
    requires { V.params vault.old ≡ p.now }
    ensures { V.params vault.new ≡ p.now }
{
    let many = p.places as usize;
    let mut asks = [None; 64];
    let mut out: [Option<Value>; 64] = [None; 64];
    fill_asks(&mut asks[..many], random.word(), present);
    fetch(rt, p, vault, &asks[..many], &mut out[..many], watch)
}

fn fetch_batches<R: Threads + Sync, V: Vault, W: Watch>(
    rt: &R,
    p: &Params,
    vault: &mut V,
    random: &mut Random,
    present: u32,
    watch: &mut W,
) -> bool
    requires { V.params vault.old ≡ p.now }
    ensures { V.params vault.new ≡ p.now }
{
    for n in 0..p.batches {
        if !fetch_batch(rt, p, vault, random, present, watch) {
            return false;
        }
    }
    true
}

// Ends the epoch, if the vault takes these writes.
fn end<R: Threads + Sync, V: Vault, W: Watch>(
    rt: &R,
    p: &Params,
    vault: &mut V,
    writes: &[Write],
    watch: &mut W,
) -> bool
    requires { V.params vault.old ≡ p.now }
    ensures { V.params vault.new ≡ p.now }
{
    if vault.spent() || !may_end(p, vault.left(), writes) {
        return false;
    }
    vault.end(rt, writes, watch).is_ok()
}

fn end_epoch<R: Threads + Sync, V: Vault, W: Watch>(
    rt: &R,
    p: &Params,
    vault: &mut V,
    first: u32,
    watch: &mut W,
) -> bool
    requires { V.params vault.old ≡ p.now }
    ensures { V.params vault.new ≡ p.now }
{
    let many = p.writes as usize;
    let mut writes = [Write {
        key: 0,
        value: None,
    }; 256];
    fill_writes(&mut writes[..many], first);
    end(rt, p, vault, &writes[..many], watch)
}

// Puts so many keys, whose number the writes of an epoch divide; the fetches are pads. How many epochs
// went well.
pub fn fill_keys<R: Threads + Sync, V: Vault, W: Watch>(
    rt: &R,
    p: &Params,
    vault: &mut V,
    present: u32,
    watch: &mut W,
) -> u64
    requires { V.params vault.old ≡ p.now }
    ensures { V.params vault.new ≡ p.now }
{
    let mut random = Random { state: 1 };
    let mut done: u64 = 0;
    for n in 0..present / p.writes {
        let fetched = fetch_batches(rt, p, vault, &mut random, 0, watch);
        let ended = fetched && end_epoch(rt, p, vault, n.wrapping_mul(p.writes), watch);
        done = done.wrapping_add(u64::from(ended));
    }
    done
}

// Epochs that ask for keys that are present, and put such. How many went well.
pub fn run_epochs<R: Threads + Sync, V: Vault, W: Watch>(
    rt: &R,
    p: &Params,
    vault: &mut V,
    random: &mut Random,
    epochs: u32,
    present: u32,
    watch: &mut W,
) -> u64
    requires { V.params vault.old ≡ p.now }
    ensures { V.params vault.new ≡ p.now }
{
    let mut done: u64 = 0;
    for n in 0..epochs {
        let fetched = fetch_batches(rt, p, vault, random, present, watch);
        let first = random.word() % (present.saturating_sub(p.writes) as u64 + 1);
        let ended = fetched && end_epoch(rt, p, vault, first as u32, watch);
        done = done.wrapping_add(u64::from(ended));
    }
    done
}
PROGRAM
cat >src/planning.rt <<'PROGRAM'
//! The same epochs planned alone: what refilling takes of them.

ghost use Rattle.std.specs.Prelude.{◌≡◌, ℕ, ◌<◌, ◌*◌, IfOk, IfSome, None, slice_index_or, length, replicate, true};
ghost use Rattle.ob_base.specs.Planned.{job_at, most_jobs};
ghost use Rattle.ob_base.specs.Tree.{buckets, width};
ghost use Rattle.ob_ring.specs.Ring.{AreListedWithin, IsListed};
ghost use Rattle.ob_ring.specs.Writing.{write_at};

use crate::epochs::{Random, fill_asks, fill_writes};
use ob_base::{Job, Jobs, Key, Params, Write};
use ob_ring::{Index, Ring, Steps};
use std::alloc::{AllocError, Global};
use std::io;
use std::marker::Brand;
use std::sync::ledger::{Blank, Ledger};
use std::time::{CpuClock, Duration};

// Whether it is a key below a number, or none.
fn is_low(key: Option<Key>, keys: u32) -> bool
    ensures { result ≡ true → IfSome key (λ k. k < keys) }
{
    match key {
        Some(key) => key < keys,
        None => true,
    }
}

fn asks_are_low(asks: &[Option<Key>], keys: u32) -> bool
    ensures { result ≡ true → (i : ℕ) → IfSome (slice_index_or asks.now i None) (λ k. k < keys) }
{
    for i in 0..asks.len() {
        if !is_low(asks[i], keys) {
            return false;
        }
    }
    true
}

fn writes_are_low(writes: &[Write], keys: u32) -> bool
    ensures { result ≡ true → (i : ℕ) → i < length writes.now → (write_at writes.now i).key < keys }
{
    for i in 0..writes.len() {
        if writes[i].key >= keys {
            return false;
        }
    }
    true
}

fn jobs_are_low(jobs: &[Job], keys: u32) -> bool
    ensures { result ≡ true → (i : ℕ) → IfSome (job_at jobs.now i).key (λ k. k < keys) }
{
    for i in 0..jobs.len() {
        if !is_low(jobs[i].key, keys) {
            return false;
        }
    }
    true
}

// The plain bytes of a row of this key, with 32 bytes.
fn row_of(key: Key) -> [u8; 96] {
    let mut plain = [0; 96];
    plain[..4].copy_from_slice(&key.to_le_bytes());
    plain[4] = 32;
    plain
}

// Gives each job of a key a row of it.
fn read_jobs(jobs: &mut Jobs)
    ensures rooms { (jobs.new.room ≡ jobs.old.room) × (jobs.new.place_room ≡ jobs.old.place_room) }
{
    for i in 0..jobs.jobs().len() {
        if let Some(key) = jobs.jobs()[i].key {
            jobs.set_result(i, row_of(key));
        }
    }
}

// Settles what a plan reads.
fn settle(p: &Params, ring: &mut Ring, jobs: &mut Jobs) -> bool
    requires ring { ring.old.p ≡ p.now }
    ensures ring { ring.new.p ≡ p.now }
    ensures rooms { (jobs.new.room ≡ jobs.old.room) × (jobs.new.place_room ≡ jobs.old.place_room) }
    ensures listed { IsListed ring.old → IsListed ring.new }
{
    read_jobs(jobs);
    jobs_are_low(jobs.jobs(), p.keys) && ring.settle(jobs).is_ok()
}

// Plans a batch, and settles what it reads.
fn plan(p: &Params, ring: &mut Ring, jobs: &mut Jobs, asks: &[Option<Key>], words: &[u64]) -> bool
    requires ring { ring.old.p ≡ p.now }
    requires jobs { (jobs.old.room ≡ most_jobs p.now) × (jobs.old.place_room ≡ p.now.places) }
    ensures ring { ring.new.p ≡ p.now }
    ensures jobs { (jobs.new.room ≡ most_jobs p.now) × (jobs.new.place_room ≡ p.now.places) }
{
    let many = p.places as usize;
    if asks.len() != many || words.len() != many || !asks_are_low(asks, p.keys) {
        return false;
    }
    ring.plan_fetch(asks, words, (2, 0), jobs);
    settle(p, ring, jobs)
}

fn plan_batch(
    p: &Params,
    ring: &mut Ring,
    jobs: &mut Jobs,
    random: &mut Random,
    present: u32,
) -> bool
    requires ring { ring.old.p ≡ p.now }
    requires jobs { (jobs.old.room ≡ most_jobs p.now) × (jobs.old.place_room ≡ p.now.places) }
    ensures ring { ring.new.p ≡ p.now }
    ensures jobs { (jobs.new.room ≡ most_jobs p.now) × (jobs.new.place_room ≡ p.now.places) }
{
    let many = p.places as usize;
    let mut asks = [None; 64];
    let mut words = [0; 64];
    fill_asks(&mut asks[..many], random.word(), present);
    for word in words.iter_mut() {
        *word = random.word();
    }
    plan(p, ring, jobs, &asks[..many], &words[..many])
}

fn plan_batches(
    p: &Params,
    ring: &mut Ring,
    jobs: &mut Jobs,
    random: &mut Random,
    present: u32,
) -> bool
    requires ring { ring.old.p ≡ p.now }
    requires jobs { (jobs.old.room ≡ most_jobs p.now) × (jobs.old.place_room ≡ p.now.places) }
    ensures ring { ring.new.p ≡ p.now }
    ensures jobs { (jobs.new.room ≡ most_jobs p.now) × (jobs.new.place_room ≡ p.now.places) }
{
    for n in 0..p.batches {
        if !plan_batch(p, ring, jobs, random, present) {
            return false;
        }
    }
    true
}

// So many words.
fn words_of(alloc: Global, random: &mut Random, many: usize) -> Result<Vec<u64>, AllocError>
    ensures { IfOk result (λ words. length words.items ≡ many) }
{
    let mut words = Vec::new(alloc);
    for n in 0..many {
        words.push(random.word())?;
    }
    Ok(words)
}

// Fills the lifted buckets with these words; whether no more rows are left than may be.
fn fill<C: Ledger>(ring: &mut Ring, index: &mut Index, words: &[u64], blank: Blank) -> bool
    requires listed { IsListed ring.old }
    requires words { length words.now ≡ length ring.old.metas.order * width ring.old.p }
    requires index { index.old ≡ replicate (buckets ring.old.p) 0 }
    requires name { blank.name ≡ C.name }
    requires parts { (blank.parts ≡ C.parts) × (0 < blank.parts) }
    ensures ring { ring.new.p ≡ ring.old.p }
    ensures within { AreListedWithin ring.new }
    ensures index { index.new ≡ index.old }
{
    let mut steps = Steps::<C>::none(blank);
    match ring.refill_indexed(index, words, (2, 0), &mut steps) {
        Ok(()) => true,
        Err(_) => false,
    }
}

// Fills the lifted buckets with these words, and adds the time that takes.
fn refill(
    clock: &impl CpuClock,
    p: &Params,
    ring: &mut Ring,
    index: &mut Index,
    words: &[u64],
    taken: &mut Duration,
) -> io::Result<bool>
    requires ring { ring.old.p ≡ p.now }
    requires listed { IsListed ring.old }
    requires index { index.old ≡ replicate (buckets p.now) 0 }
    ensures ring { ring.new.p ≡ p.now }
{
    let width = (p.real + p.dummies) as usize;
    if ring.to_refill().len().checked_mul(width) != Some(words.len()) {
        return Ok(false);
    }
    let start = clock.thread_cpu_time()?;
    if !fill::<Brand>(ring, index, words, Blank::new(1)) {
        return Ok(false);
    }
    let end = clock.thread_cpu_time()?;
    *taken = taken.saturating_add(end.saturating_sub(start));
    ring.forget_written();
    Ok(true)
}

// Puts keys, whose lifted buckets are filled.
fn end(
    clock: &impl CpuClock,
    alloc: Global,
    p: &Params,
    ring: &mut Ring,
    random: &mut Random,
    writes: &[Write],
    taken: &mut Duration,
) -> io::Result<bool>
    requires ring { ring.old.p ≡ p.now }
    requires listed { IsListed ring.old }
    ensures ring { ring.new.p ≡ p.now }
{
    let own = words_of(alloc, random, writes.len())?;
    if !writes_are_low(writes, p.keys) {
        return Ok(false);
    }
    ring.apply_writes(writes, &own, (2, 0));
    let many = ring
        .to_refill()
        .len()
        .wrapping_mul((p.real + p.dummies) as usize);
    let words = words_of(alloc, random, many)?;
    let Ok(mut index) = Index::new(alloc, p) else {
        return Ok(false);
    };
    refill(clock, p, ring, &mut index, &words, taken)
}

// Ends an epoch with puts of so many keys in a row.
fn end_epoch(
    clock: &impl CpuClock,
    alloc: Global,
    p: &Params,
    ring: &mut Ring,
    jobs: &mut Jobs,
    random: &mut Random,
    first: u32,
    taken: &mut Duration,
) -> io::Result<bool>
    requires ring { ring.old.p ≡ p.now }
    requires jobs { (jobs.old.room ≡ most_jobs p.now) × (jobs.old.place_room ≡ p.now.places) }
    ensures ring { ring.new.p ≡ p.now }
    ensures jobs { (jobs.new.room ≡ most_jobs p.now) × (jobs.new.place_room ≡ p.now.places) }
{
    ring.plan_lifts(jobs);
    if !settle(p, ring, jobs) {
        return Ok(false);
    }
    let many = p.writes as usize;
    let mut writes = [Write {
        key: 0,
        value: None,
    }; 256];
    fill_writes(&mut writes[..many], first);
    end(clock, alloc, p, ring, random, &writes[..many], taken)
}

// An epoch that asks for keys that are present, of so many, and puts keys from this one on.
fn epoch(
    clock: &impl CpuClock,
    alloc: Global,
    p: &Params,
    ring: &mut Ring,
    jobs: &mut Jobs,
    random: &mut Random,
    keys: (u32, u32),
    taken: &mut Duration,
) -> io::Result<bool>
    requires ring { ring.old.p ≡ p.now }
    requires jobs { (jobs.old.room ≡ most_jobs p.now) × (jobs.old.place_room ≡ p.now.places) }
    ensures ring { ring.new.p ≡ p.now }
    ensures jobs { (jobs.new.room ≡ most_jobs p.now) × (jobs.new.place_room ≡ p.now.places) }
{
    let (present, first) = keys;
    if !plan_batches(p, ring, jobs, random, present) {
        return Ok(false);
    }
    end_epoch(clock, alloc, p, ring, jobs, random, first, taken)
}

// What filling buckets takes in so many epochs behind those that put so many keys.
pub fn refill_time(
    clock: &impl CpuClock,
    alloc: Global,
    p: &Params,
    ring: &mut Ring,
    jobs: &mut Jobs,
    present: u32,
    epochs: u32,
) -> io::Result<Option<Duration>>
    requires ring { ring.old.p ≡ p.now }
    requires jobs { (jobs.old.room ≡ most_jobs p.now) × (jobs.old.place_room ≡ p.now.places) }
{
    let mut random = Random { state: 1 };
    let mut taken = Duration::ZERO;
    let fill = present / p.writes;
    let mut before = taken;
    for n in 0..fill.saturating_add(epochs) {
        if n == fill {
            before = taken;
        }
        let last = present.saturating_sub(p.writes) as u64 + 1;
        let keys = if n < fill {
            (0, n.wrapping_mul(p.writes))
        } else {
            (present, (random.word() % last) as u32)
        };
        if !epoch(clock, alloc, p, ring, jobs, &mut random, keys, &mut taken)? {
            return Ok(None);
        }
    }
    Ok(Some(taken.saturating_sub(before)))
}
PROGRAM
cat >src/rounds.rt <<'PROGRAM'
//! Rounds of epochs, beside cells sealed and opened.

ghost use Rattle.std.specs.Prelude.{◌≡◌};

use crate::epochs::{Count, Random, run_epochs};
use ob_base::Params;
use ob_seal::{Keys, Sealer};
use ob_serial::Vault;
use std::alloc::Global;
use std::thread::Threads;
use std::time::{CpuClock, Duration};
use std::{hint, io};

// The epochs of a round, the cells that are sealed beside them, and as many opened.
pub const EPOCHS: u32 = 20;

pub const CELLS: u64 = 20000;

// What a round did, and what processor time it took.
#[derive(Clone, Copy, Drop)]
pub struct Round {
    pub done: u64,
    pub reads: u64,
    pub writes: u64,
    pub took: Duration,
    pub sealing: Duration,
    pub opening: Duration,
}

// How many cells were sealed.
fn seal_all(sealer: &mut Sealer) -> u64 {
    let plain = hint::black_box([9; 96]);
    let mut done: u64 = 0;
    for n in 0..CELLS {
        if let Ok(cell) = sealer.seal(n, &plain) {
            done = done.wrapping_add(u64::from(hint::black_box(cell)[127] <= 255));
        }
    }
    done
}

// How many were opened.
fn open_all(sealer: &mut Sealer) -> u64 {
    let mut cells = [[0; 128]; 64];
    for i in 0..64 {
        if let Ok(cell) = sealer.seal(i as u64, &[9; 96]) {
            cells[i] = cell;
        }
    }
    let mut done: u64 = 0;
    for n in 0..CELLS {
        let i = (n % 64) as usize;
        let found = sealer.unseal(i as u64, None, &cells[i]);
        done = done.wrapping_add(u64::from(hint::black_box(found).is_ok()));
    }
    done
}

fn run_round<R: Threads + Sync + CpuClock, V: Vault>(
    rt: &R,
    p: &Params,
    vault: &mut V,
    random: &mut Random,
    present: u32,
) -> io::Result<Round>
    requires { V.params vault.old ≡ p.now }
    ensures { V.params vault.new ≡ p.now }
{
    let mut sealer = Sealer::new(&Keys::from_bytes(&[7; 96]), 5);
    let mut count = Count {
        reads: 0,
        writes: 0,
    };
    let start = rt.thread_cpu_time()?;
    let sealed = seal_all(&mut sealer);
    let between = rt.thread_cpu_time()?;
    let opened = open_all(&mut sealer);
    let before = rt.thread_cpu_time()?;
    let done = run_epochs(rt, p, vault, random, EPOCHS, present, &mut count);
    let end = rt.thread_cpu_time()?;
    let whole = sealed == CELLS && opened == CELLS;
    Ok(Round {
        done: if whole { done } else { 0 },
        reads: count.reads,
        writes: count.writes,
        took: end.saturating_sub(before),
        sealing: between.saturating_sub(start),
        opening: before.saturating_sub(between),
    })
}

// So many rounds; none where memory or the clock fails.
pub fn run_rounds<R: Threads + Sync + CpuClock, V: Vault>(
    rt: &R,
    alloc: Global,
    p: &Params,
    vault: &mut V,
    present: u32,
    rounds: u32,
) -> Option<Vec<Round>>
    requires { V.params vault.old ≡ p.now }
    ensures { V.params vault.new ≡ p.now }
{
    let mut random = Random { state: 9 };
    let mut all = Vec::new(alloc);
    for n in 0..rounds {
        let one = run_round(rt, p, vault, &mut random, present).ok()?;
        all.push(one).ok()?;
    }
    Some(all)
}
PROGRAM
# Whether a vault takes a call is tested as in the ring vault's tests.
tests=$top/crates/ob_ring_vault_tests
cp "$tests/src/calls.rt" src/
mkdir -p proofs
cp -r "$tests/proofs/calls" "$tests/proofs/CallLaws.antt" proofs/
echo 'mod CallLaws' >proofs/Lib.antt
find proofs -name '*.antt' -exec sed -i 's/Rattle\.ob_ring_vault_tests\./Rattle.ring_bench./' {} +

# Gives a loop of a function of a module an invariant: the module, the function, the loop's variable, what
# the invariant is a function of, and itself. The names that it needs are read from the input.
keeps() {
    mkdir -p "proofs/$1/$2"
    {
        cat
        echo "use Rattle.ring_bench.proofs.$1.$2.Given as goal"
        echo
        echo "abbrev pub invariant-loop-$3 : goal.invariant-loop-$3"
        echo "invariant-loop-$3 $4 = $5"
    } >"proofs/$1/$2/Invariants.antt"
}
for name in epochs/fetch_batches epochs/fill_keys epochs/run_epochs rounds/run_rounds; do
    keeps "${name%/*}" "${name#*/}" n 'g l' 'g.V.Vault.params l.vault ≡ l.p' <<'PROOF'
use Rattle.std.specs.Prelude.{◌≡◌}
PROOF
done
keeps planning asks_are_low i l '(k : ℕ) → k < l.i → IfSome (slice_index_or l.asks k None) (λ x. x < l.keys)' <<'PROOF'
use Rattle.std.specs.Prelude.{ℕ, ◌<◌, None, IfSome, slice_index_or}
PROOF
keeps planning writes_are_low i l '(k : ℕ) → k < l.i → (write_at l.writes k).key < l.keys' <<'PROOF'
use Rattle.std.specs.Prelude.{ℕ, ◌<◌}
use Rattle.ob_ring.specs.Writing.{write_at}
PROOF
keeps planning jobs_are_low i l '(k : ℕ) → k < l.i → IfSome (job_at l.jobs k).key (λ x. x < l.keys)' <<'PROOF'
use Rattle.std.specs.Prelude.{ℕ, ◌<◌, IfSome}
use Rattle.ob_base.specs.Planned.{job_at}
PROOF
keeps planning read_jobs i l '(l.jobs.room ≡ l.initial.jobs.room) × (l.jobs.place_room ≡ l.initial.jobs.place_room) × (length l.jobs.jobs ≡ length l.initial.jobs.jobs)' <<'PROOF'
use Rattle.std.specs.Prelude.{◌≡◌, length}
PROOF
keeps planning words_of n l 'length l.words.items ≡ l.n' <<'PROOF'
use Rattle.std.specs.Prelude.{◌≡◌, length}
PROOF
mkdir -p proofs/planning/refill
cat >proofs/planning/refill/Invariants.antt <<'PROOF'
use Rattle.ring_bench.proofs.planning.refill.Given as goal

abbrev pub ghosts-fill : goal.ghosts-fill
ghosts-fill g a = record { name = a.blank.name; parts = a.blank.parts }
PROOF
for name in plan_batches:l refill_time:'g l'; do
    keeps planning "${name%:*}" n "${name#*:}" '(l.ring.p ≡ l.p) × (l.jobs.room ≡ most_jobs l.p) × (l.jobs.place_room ≡ l.p.places)' <<'PROOF'
use Rattle.std.specs.Prelude.{◌≡◌}
use Rattle.ob_base.specs.Planned.{most_jobs}
PROOF
done
build_bench
# Runs so many times a kind in so many rounds, and keeps the lines of all rounds.
rounds() {
    local n
    for ((n = 0; n < $2; n++)); do
        ./out/ring_bench <<<"$1$3"
    done | grep -v filled
}
# The fewest microseconds that filling takes in an epoch of a kind, of so many runs of so many rounds.
filling() {
    local n
    for ((n = 0; n < $2; n++)); do
        ./out/ring_bench <<<"$1$3"
    done | sort -n | awk -v epochs=$(($3 * 20)) 'NR == 1 { print $1 / epochs }'
}
# Prints a size: its name, the kinds of its ring, its plan and its plain vault, its batches, how many runs
# and how many rounds each.
size() {
    rounds "$2" "$6" "$7" >"$work/ring"
    [ "$4" = - ] && : >"$work/plain" || rounds "$4" "$6" "$7" >"$work/plain"
    awk -v name="$1" -v batches="$5" -v fill="$(filling "$3" "$6" "$7")" '
        $1 != 20 { print "an epoch failed"; exit 1 }
        FILENAME ~ /plain$/ { if (!plain || $4 / 20 < plain) plain = $4 / 20; next }
        {
            opened = $2 / 20; sealed = $3 / 20 - 2 * batches
            cost = sealed * $5 / 20000 + opened * $6 / 20000
            if (!best || $4 / 20 / cost < best) {
                best = $4 / 20 / cost; epoch = $4 / 20; s = sealed; o = opened; seals = sealed * $5 / 20000
            }
        }
        END {
            printf "%s: an epoch %.2f ms, %.0f cells sealed and %.0f opened, %.2f of them", name, epoch / 1e3, s, o, best
            if (plain) printf "; a plain epoch %.2f ms, %.2f of it", plain / 1e3, epoch / plain
            printf "; filling %.3f ms, %.1f %% of the epoch, %.3f of its seals\n", fill / 1e3, fill * 100 / epoch, fill / seals
        }' "$work/ring" "$work/plain"
}
size '256 keys' a e A 4 5 5
size '4,096 keys' b f B 4 3 5
size '65,536 keys, 2,560 present' c g C 8 3 5
# One round: with all keys present the stash gets too full some time after.
size '65,536 keys, all present' d h - 8 1 1
size '65,536 keys, 16 real slots and a dummy, 19,968 present' i k - 16 1 1
size '65,536 keys, 4 real slots and a dummy, all present' j l - 16 1 1
# The largest resident memory, in kilobytes, of so many rounds at the third size.
resident() {
    /usr/bin/time -f %M -o "$work/cost" ./out/ring_bench <<<"c$1" >/dev/null
    cat "$work/cost"
}
awk -v most="$(resident 4)" -v later="$(resident 9)" -v cells=721739 'BEGIN {
    printf "memory at 65,536 keys: %.1f MB beside the cells (%.0f MB); from the 80th epoch to the 180th %+.2f MB\n", later * 1024 / 1e6 - cells * 128 / 1e6, cells * 128 / 1e6, (later - most) * 1024 / 1e6
}'
