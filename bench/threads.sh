#!/usr/bin/env bash
# Measures runs of a script by threads and by hand, with 1, 4, 16 and 64 clients: operations of the
# script done a second (begin, get, put and commit, not what is asked again), and processor time an
# operation. A transaction is eight times a put and a get of its client's own key, so no get waits. Then
# what 64 clients use of a processor that all wait for a fetch that takes a second; and how long a begin
# and a put take of a client that makes them each 10 ms, beside 15 whose epochs take a second to end. It
# fails where a floor is missed.
# The vault is the plain one, over a store in memory of 64 keys. A run of the same script in which
# nothing is served is taken off.
# It needs rt and GNU time, and writes only to a temporary folder.
#
#   threads.sh [PROGRAM]    PROGRAM: this bench's program, as an earlier run left it (KEEP=FILE keeps it);
#                           else it is proved and built here
set -euo pipefail
top=$(cd "$(dirname "$0")/.." && pwd)
program=${1:+$(realpath "$1")}
keep=${KEEP:+$(realpath "$KEEP")}
source "$top/bench/common.sh"
bench_crate threads_bench ob_base ob_pads ob_io ob_script ob_report ob_store ob_claims ob_lanes ob_bare ob_mem ob_seal \
    ob_twin ob_cells ob_start ob_flat ob_serial ob_order ob_queue ob_key_versions ob_versions ob_shares ob_desk \
    ob_turn ob_session ob_hall ob_calls ob_threads ob_runner ob_conduct ob_driver ob_run <<'PROGRAM'
//! Serves the script that comes in, over a plain vault in memory. The first byte of the input says how:
//! t by threads, h by hand, s by threads where a fetch takes a second, n not at all; or e, by calls of
//! as many clients as the script has, where an end takes a second.
#![tactic(auto)]

mod beside;

ghost use Rattle.std.specs.Prelude.{◌≡◌, ◌≤◌, false};
ghost use Rattle.ob_script.specs.Script.{AreSound};

use crate::beside::{Found, desk_for, run_beside};
use ob_bare::BareStore;
use ob_base::{Fault, Key, Params, Value, Write};
use ob_conduct::RunErr;
use ob_desk::Eager;
use ob_flat::{FlatVault, cells, format, prepare};
use ob_mem::MemSink;
use ob_run::run;
use ob_runner::runners;
use ob_script::{Scripts, parse};
use ob_seal::Keys;
use ob_serial::{EndErr, Vault};
use ob_store::{Blind, Watch};
use std::alloc::Global;
use std::io;
use std::io::Read;
use std::process::Abort;
use std::sync::Wait;
use std::thread;
use std::thread::Threads;
use std::time::{Clock, Duration};

/// A vault whose fetches take a second where it is run so, or its ends.
#[derive(Drop)]
struct Slow<'r, 'f, R, V> {
    rt: &'r R,
    vault: V,
    kind: u8,
    found: &'f Found,
}

impl<'r, 'f, R: Clock, V: Vault> Vault for Slow<'r, 'f, R, V> {
    ghost params = { λ v. V.params v.vault };

    ghost counts = { λ v. V.counts v.vault };

    ghost holds = { λ v s. V.holds v.vault s };

    ghost sound = { λ v s. V.sound v.vault s };

    ghost stands = { λ v. V.stands v.vault };

    ghost disk = { λ v. V.disk v.vault };

    ghost called = { λ v call answer notes new. V.called v.vault call answer notes new.vault };

    fn epoch(&self) -> u64 {
        self.vault.epoch()
    }

    fn left(&self) -> u32 {
        self.vault.left()
    }

    fn spent(&self) -> bool {
        self.vault.spent()
    }

    fn fetch<T: Threads + Sync, W: Watch>(
        &mut self,
        rt: &T,
        asks: &[Option<Key>],
        out: &mut [Option<Value>],
        watch: &mut W,
    ) -> Result<(), Fault> {
        if self.kind == b's' {
            thread::sleep(self.rt, Duration::from_secs(1));
        }
        self.vault.fetch(rt, asks, out, watch)
    }

    fn end<T: Threads + Sync, W: Watch>(
        &mut self,
        rt: &T,
        writes: &[Write],
        watch: &mut W,
    ) -> Result<(), EndErr> {
        if self.kind == b'e' {
            self.found.end_for(self.rt, Duration::from_secs(1));
        }
        self.vault.end(rt, writes, watch)
    }

    ghost agrees = { λ v s h. V.agrees v.vault s h };

    ghost sound_holds = { λ v s h. V.sound_holds v.vault s h };

    ghost rests = { λ v s image h may. V.rests v.vault s image h may };
}

// The fault that a run ended with, if any.
fn fault_of(ended: Result<(), RunErr>) -> Result<(), Fault> {
    match ended {
        Ok(()) => Ok(()),
        Err(err) => Err(err.fault()),
    }
}

// Runs the script over a vault.
fn conduct<R: Threads + Wait + Sync + Abort, V: Vault>(
    rt: &R,
    alloc: Global,
    params: &Params,
    scripts: &Scripts,
    vault: &mut V,
    threads: bool,
    output: &mut MemSink,
) -> Result<(), Fault>
    requires params { V.params vault.old ≡ params.now }
    requires serves { (V.counts vault.old).spent ≡ false }
    requires few { (V.counts vault.old).left ≤ params.now.batches }
    requires sound { AreSound scripts.now }
    requires keys { scripts.now.keys ≡ params.now.keys }
{
    let mut runners = runners(alloc, scripts)?;
    let clients = scripts.clients();
    let desk = desk_for(rt, alloc, params, clients, vault.epoch() + 1, vault);
    let ended = run(
        rt,
        alloc,
        params,
        desk,
        clients,
        &mut runners,
        vault,
        &mut Blind,
        &mut Eager,
        output,
        threads,
    );
    fault_of(ended)
}

// How many bytes the report has.
fn serve<R: Threads + Wait + Sync + Clock + Abort>(
    rt: &R,
    alloc: Global,
    kind: u8,
    script: &[u8],
    found: &Found,
) -> Result<u64, Fault> {
    let Ok(params) = Params::new(64, 6, 4, 6, 1, 1, 64, 8, 64) else {
        return Err(Fault::Usage);
    };
    let keys = Keys::from_bytes(&[7; 96]);
    let mut store = BareStore::new(alloc, cells(&params) as usize)?;
    format(&mut store, &keys, &params, &mut Blind)?;
    let scripts = parse(alloc, script, params.keys)?;
    let opening = prepare(alloc, &mut store, &keys, &params, &mut Blind)?;
    let mut output = MemSink::new(alloc, 100_000_000, Vec::new(alloc))?;
    let vault = FlatVault::over(&mut store, opening);
    let mut vault = Slow {
        rt,
        vault,
        kind,
        found,
    };
    match kind {
        b'n' => {}
        b'e' => run_beside(rt, alloc, &params, &scripts, &mut vault, found, &mut output)?,
        _ => conduct(rt, alloc, &params, &scripts, &mut vault, kind != b'h', &mut output)?,
    }
    Ok(output.written().len() as u64)
}

fn main(rt: HostRuntime) -> io::Result<()> {
    let mut text = Vec::new(rt.alloc());
    rt.stdin().read_to_end(&mut text)?;
    let Some((kind, script)) = text.split_first() else {
        return Ok(());
    };
    let found = Found::new();
    match serve(&rt, rt.alloc(), *kind, script, &found) {
        Ok(bytes) => {
            let (beside, most) = found.told();
            println!(rt; "{bytes} {beside} {most}")
        }
        Err(_) => println!(rt; "failed"),
    }
}
PROGRAM
cat >src/beside.rt <<'PROGRAM'
//! Clients' calls beside the driver, in threads: the first client begins, writes and gives up each
//! 10 ms; the others write and commit three times.

ghost use Rattle.std.specs.Prelude.{◌≡◌, ◌≤◌, ◌<◌, ◌^◌, ℕ, suc, false, All};
ghost use Rattle.ob_script.specs.Script.{AreSound};
ghost use Rattle.ob_desk.specs.Desk.{MayOpen, new_desk, setup_of};
ghost use Rattle.ob_hall.specs.Passes.{opening_of};
ghost use Rattle.ob_hall.specs.Calling.{IsReady, IsBetween};
ghost use Rattle.ob_hall.specs.Testing.{IsInTxn};
ghost use Rattle.ob_driver.specs.Drives.{IsFirstPass};
ghost use denote.Param.Send.{IsSync};

use ob_base::{Fault, Key, Params, Value};
use ob_calls::Refused;
use ob_conduct::RunErr;
use ob_desk::{Begun, Desk, Eager};
use ob_hall::{Hall, Pass};
use ob_mem::MemSink;
use ob_run::serve;
use ob_runner::ScriptRunner;
use ob_script::Scripts;
use ob_serial::Vault;
use ob_shares::NO_SHARES;
use ob_store::Blind;
use ob_threads::Client;
use std::alloc::Global;
use std::process::Abort;
use std::sync::Wait;
use std::sync::atomic::Ordering::SeqCst;
use std::sync::atomic::{AtomicBool, AtomicU64};
use std::thread;
use std::thread::Threads;
use std::time::{Clock, Duration, Instant};

/// What the first client found.
#[derive(Drop)]
pub struct Found {
    // Whether an end is under way.
    ending: AtomicBool,
    // Transactions that began and wrote while one was, and the most nanoseconds that a begin or a
    // put took.
    beside: AtomicU64,
    most: AtomicU64,
}

impl Found {
    /// Nothing yet.
    pub fn new() -> Found {
        Found {
            ending: AtomicBool::new(false),
            beside: AtomicU64::new(0),
            most: AtomicU64::new(0),
        }
    }

    /// What it found: how many transactions beside an end, and the most nanoseconds of a call.
    pub fn told(&self) -> (u64, u64) {
        (self.beside.load(SeqCst), self.most.load(SeqCst))
    }

    /// An end that takes so long.
    pub fn end_for<R: Clock>(&self, rt: &R, time: Duration) {
        self.ending.store(true, SeqCst);
        thread::sleep(rt, time);
        self.ending.store(false, SeqCst);
    }

    // A call took so many nanoseconds. One thread tells them.
    fn tell(&self, nanos: u64) {
        if nanos > self.most.load(SeqCst) {
            self.most.store(nanos, SeqCst);
        }
    }
}

fn now<R: Clock>(rt: &R) -> Option<Instant> {
    Instant::now(rt).ok()
}

// The nanoseconds since then, where the clock tells them.
fn since<R: Clock>(rt: &R, start: Option<Instant>) -> u64 {
    let Some(start) = start else {
        return u64::MAX;
    };
    match start.elapsed(rt) {
        Ok(time) => u64::try_from(time.as_nanos()).unwrap_or(u64::MAX),
        Err(_) => u64::MAX,
    }
}

// ---- calls of a client

fn is_done(done: &Result<(), Refused>) -> bool {
    done.is_ok()
}

fn put<R: Wait>(rt: &R, hall: &Hall, pass: &mut Pass, key: Key) -> bool
    requires ready { IsReady hall.now pass.old }
    requires inside { IsInTxn pass.old }
    requires key { key < (opening_of hall.now).setup.params.keys }
    ensures ready { IsReady hall.now pass.new }
    ensures inside { IsInTxn pass.new }
{
    match Value::new(b"v") {
        Some(value) => is_done(&ob_calls::put(rt, hall, pass, key, value)),
        None => false,
    }
}

// Writes and gives up.
fn give_up<R: Wait + Clock>(rt: &R, hall: &Hall, pass: &mut Pass, key: Key, found: &Found)
    requires ready { IsReady hall.now pass.old }
    requires inside { IsInTxn pass.old }
    requires key { key < (opening_of hall.now).setup.params.keys }
    ensures ready { IsReady hall.now pass.new }
    ensures between { IsBetween pass.new }
{
    let start = now(rt);
    put(rt, hall, pass, key);
    found.tell(since(rt, start));
    ob_calls::abort(rt, hall, pass);
}

// Begins, writes and gives up: whether it did.
fn probe<R: Wait + Clock>(rt: &R, hall: &Hall, pass: &mut Pass, key: Key, found: &Found) -> bool
    requires ready { IsReady hall.now pass.old }
    requires between { IsBetween pass.old }
    requires key { key < (opening_of hall.now).setup.params.keys }
    ensures ready { IsReady hall.now pass.new }
    ensures between { IsBetween pass.new }
{
    let start = now(rt);
    match ob_calls::begin(rt, hall, pass) {
        Ok(Begun::Txn { .. }) => {
            found.tell(since(rt, start));
            give_up(rt, hall, pass, key, found);
            true
        }
        Ok(Begun::Stopped { .. }) => false,
        Err(_) => false,
    }
}

// Begins, writes and commits.
fn commit<R: Wait>(rt: &R, hall: &Hall, pass: &mut Pass, key: Key)
    requires ready { IsReady hall.now pass.old }
    requires between { IsBetween pass.old }
    requires key { key < (opening_of hall.now).setup.params.keys }
    ensures ready { IsReady hall.now pass.new }
    ensures between { IsBetween pass.new }
{
    match ob_calls::begin(rt, hall, pass) {
        Ok(Begun::Txn { .. }) => {
            put(rt, hall, pass, key);
            ob_calls::commit(rt, hall, pass);
        }
        Ok(Begun::Stopped { .. }) => {}
        Err(_) => {}
    }
}

// ---- all calls of a client

// A transaction each 10 ms, counted where an end was under way from its begin to behind its put.
fn probe_all<R: Wait + Clock>(rt: &R, hall: &Hall, pass: &mut Pass, key: Key, found: &Found)
    requires ready { IsReady hall.now pass.old }
    requires between { IsBetween pass.old }
    requires key { key < (opening_of hall.now).setup.params.keys }
    ensures ready { IsReady hall.now pass.new }
    ensures between { IsBetween pass.new }
{
    for _ in 0..280 {
        let ending = found.ending.load(SeqCst);
        let done = probe(rt, hall, pass, key, found);
        if done && ending && found.ending.load(SeqCst) {
            found.beside.fetch_add(1, SeqCst);
        }
        thread::sleep(rt, Duration::from_millis(10));
    }
}

fn commit_all<R: Wait>(rt: &R, hall: &Hall, pass: &mut Pass, key: Key)
    requires ready { IsReady hall.now pass.old }
    requires between { IsBetween pass.old }
    requires key { key < (opening_of hall.now).setup.params.keys }
    ensures ready { IsReady hall.now pass.new }
    ensures between { IsBetween pass.new }
{
    for _ in 0..3 {
        commit(rt, hall, pass, key);
    }
}

// Makes the calls of a client in its transactions.
fn call_all<R: Wait + Clock>(rt: &R, hall: &Hall, pass: &mut Pass, found: &Found)
    requires ready { IsReady hall.now pass.old }
    requires between { IsBetween pass.old }
    requires keys { 64 ≤ (opening_of hall.now).setup.params.keys }
    ensures ready { IsReady hall.now pass.new }
    ensures between { IsBetween pass.new }
{
    let number = pass.number();
    let key = number % 64;
    if number == 1 {
        probe_all(rt, hall, pass, key, found)
    } else {
        commit_all(rt, hall, pass, key)
    }
}

// Makes the calls of a client, and signs off.
fn follow<R: Wait + Clock>(rt: &R, hall: &Hall, pass: &mut Pass, found: &Found)
    requires ready { IsReady hall.now pass.old }
    requires between { IsBetween pass.old }
    requires keys { 64 ≤ (opening_of hall.now).setup.params.keys }
{
    call_all(rt, hall, pass, found);
    ob_calls::sign_off(rt, hall, pass);
}

// Each client in a thread of its own.
fn follow_each<R: Threads + Wait + Sync + Clock>(
    rt: &R,
    hall: &Hall,
    passes: &mut [Pass],
    found: &Found,
)
    requires passes { All (λ p. IsReady hall.now p × IsBetween p) passes.old }
    requires keys { 64 ≤ (opening_of hall.now).setup.params.keys }
{
    thread::for_each_mut(
        rt,
        passes,
        16,
        &move |_k, pass: &mut Pass|
            requires { (IsReady hall.now pass.old × IsBetween pass.old)
                × (64 ≤ (opening_of hall.now).setup.params.keys) }
        { follow(rt, hall, pass, found) },
    );
}

// ---- a run

// A hall that none has called, the driver's pass, and those of the clients.
#[derive(Drop)]
struct Opened {
    hall: Hall,
    driver: Pass,
    clients: Vec<Pass>,
}

/// A desk of these clients at this vault.
pub fn desk_for<V: Vault>(
    rt: &impl Abort,
    alloc: Global,
    params: &Params,
    numbers: &[u32],
    epoch: u64,
    vault: &V,
) -> Desk
    requires epoch { epoch ≡ suc (V.counts vault.now).epoch }
    requires opens { MayOpen (setup_of params.now) (suc (V.counts vault.now).epoch)
        (V.counts vault.now).left numbers.now }
    ensures { result ≡ new_desk (setup_of params.now) (suc (V.counts vault.now).epoch)
        (V.counts vault.now).left numbers.now }
{
    let Ok(desk) = Desk::new(alloc, params, epoch, vault.left(), numbers, NO_SHARES) else {
        panic!(rt; "no memory")
    };
    desk
}

// A hall of these clients round a new desk at this vault.
fn open_hall<V: Vault>(
    rt: &impl Abort,
    alloc: Global,
    params: &Params,
    numbers: &[u32],
    epoch: u64,
    vault: &V,
) -> Opened
    requires epoch { epoch ≡ suc (V.counts vault.now).epoch }
    requires serves { (V.counts vault.now).spent ≡ false }
    requires opens { MayOpen (setup_of params.now) (suc (V.counts vault.now).epoch)
        (V.counts vault.now).left numbers.now }
    ensures driver { IsFirstPass result.hall result.driver params.now (V.counts vault.now) }
    ensures clients { All (λ p. IsReady result.hall p × IsBetween p) result.clients.items }
    ensures keys { (opening_of result.hall).setup.params.keys ≡ params.now.keys }
{
    let desk = desk_for(rt, alloc, params, numbers, epoch, vault);
    let Ok((hall, mut clients)) = Hall::new(alloc, desk, numbers) else {
        panic!(rt; "no memory")
    };
    let driver = clients.remove(0);
    Opened {
        hall,
        driver,
        clients,
    }
}

// Drives the epochs of a hall with no client of the driver's own.
fn drive_alone<R: Threads + Wait + Sync, V: Vault>(
    rt: &R,
    alloc: Global,
    params: &Params,
    hall: &Hall,
    driver: &mut Pass,
    vault: &mut V,
    output: &mut MemSink,
) -> Result<(), RunErr>
    requires params { V.params vault.old ≡ params.now }
    requires driver { IsFirstPass hall.now driver.old params.now (V.counts vault.old) }
{
    let mut none: Vec<Client<ScriptRunner>> = Vec::new(alloc);
    let result = serve(
        rt, alloc, params, hall, driver, &mut none, vault, &mut Blind, &mut Eager, output, 0,
    );
    none.destroy_empty();
    result
}

// The clients in threads, and the driver beside them.
fn drive_beside<R: Threads + Wait + Sync + Clock, V: Vault>(
    rt: &R,
    alloc: Global,
    params: &Params,
    hall: &Hall,
    driver: &mut Pass,
    passes: &mut [Pass],
    found: &Found,
    vault: &mut V,
    output: &mut MemSink,
) -> Result<(), RunErr>
    requires params { V.params vault.old ≡ params.now }
    requires driver { IsFirstPass hall.now driver.old params.now (V.counts vault.old) }
    requires passes { All (λ p. IsReady hall.now p × IsBetween p) passes.old }
    requires keys { 64 ≤ (opening_of hall.now).setup.params.keys }
{
    let (_, result) = thread::join(
        rt,
        move ||
            requires { All (λ p. IsReady hall.now p × IsBetween p) passes.now
                × (64 ≤ (opening_of hall.now).setup.params.keys) × IsSync R.row }
        { follow_each(rt, hall, passes, found) },
        move || -> Result<(), RunErr>
            requires { (V.params vault.now ≡ params.now)
                × (IsFirstPass hall.now driver.now params.now (V.counts vault.now)) × IsSync R.row }
        { drive_alone(rt, alloc, params, hall, driver, vault, output) },
    );
    result
}

/// The clients of a script beside the driver.
///
/// # Errors
/// Those of the run.
pub fn run_beside<R: Threads + Wait + Sync + Clock + Abort, V: Vault>(
    rt: &R,
    alloc: Global,
    params: &Params,
    scripts: &Scripts,
    vault: &mut V,
    found: &Found,
    output: &mut MemSink,
) -> Result<(), Fault>
    requires params { V.params vault.old ≡ params.now }
    requires serves { (V.counts vault.old).spent ≡ false }
    requires few { (V.counts vault.old).left ≤ params.now.batches }
    requires keys { 64 ≤ params.now.keys }
{
    let mut opened = open_hall(rt, alloc, params, scripts.clients(), vault.epoch() + 1, vault);
    let ended = drive_beside(
        rt,
        alloc,
        params,
        &opened.hall,
        &mut opened.driver,
        opened.clients.as_mut_slice(),
        found,
        vault,
        output,
    );
    match ended {
        Ok(()) => Ok(()),
        Err(err) => Err(err.fault()),
    }
}
PROGRAM
sed -i 's/^threads_bench:.*/& atomic_table/' "$work/crates.txt"
mkdir -p proofs/conduct
cat >proofs/conduct/Answers.antt <<'PROOF'
use Rattle.std.proofs.Common.{◌∙◌, suc, arith, sym, ap, subst}
use Rattle.ob_desk.specs.Desk.{MayOpen, new_desk, setup_of}
use Rattle.ob_shares.specs.Shares.{no_shares}
use Rattle.ob_shares.proofs.Fitting.{none_fit}
use Rattle.ob_conduct.proofs.Conducting.{own_shares, own_opens}
use Rattle.ob_run.proofs.Scripts.{may_open, opens_all}
use Rattle.threads_bench.proofs.conduct.Goals as goal

pub desk_for-desk-requires-clause-opens : goal.desk_for-desk-requires-clause-opens
desk_for-desk-requires-clause-opens g c =
    subst (MayOpen (setup_of c.args.params.now) (suc (g.V.Vault.counts c.args.vault.now).epoch) (g.V.Vault.counts c.args.vault.now).left) (sym c.clients-clients.ensures.clients)
    (may_open c.args.params.now no_shares _ _ c.args.scripts.now (let e = c.epoch.ensures.epoch in let few = c.epoch.ensures.few in omega (arith, e, few)) c.requires.few c.requires.sound (none_fit _ _ _))

pub run-ended-requires-clause-fresh : goal.run-ended-requires-clause-fresh
run-ended-requires-clause-fresh g c κs within = own_shares c.args.params.now no_shares _ _ _ _
    (c.desk_for-desk.ensures ∙ ap (new_desk (setup_of c.args.params.now) _ _) (c.clients-clients.ensures.clients ∙ sym c.in_ok-runners.ensures.clients_are))

pub run-ended-requires-clause-opens : goal.run-ended-requires-clause-opens
run-ended-requires-clause-opens g c κs within = own_opens c.args.params.now no_shares _ _ _ _
    (c.desk_for-desk.ensures ∙ ap (new_desk (setup_of c.args.params.now) _ _) (c.clients-clients.ensures.clients ∙ sym c.in_ok-runners.ensures.clients_are))
    (opens_all c.args.scripts.now c.in_ok-runners.runners.items c.in_ok-runners.ensures c.args.params.now no_shares _ _
    (may_open c.args.params.now no_shares _ _ c.args.scripts.now (let e = c.epoch.ensures.epoch in let few = c.epoch.ensures.few in omega (arith, e, few)) c.requires.few c.requires.sound (none_fit _ _ _)))
PROOF
# Puts a file of answers for a function.
answers() {
    mkdir -p "proofs/$1"
    cat >"proofs/$1/Answers.antt"
}
answers beside/put <<'PROOF'
use Rattle.ob_calls.proofs.Inside.{stays_inside, its_txn}
use Rattle.threads_bench.proofs.beside.put.Goals as goal

pub put-requires-clause-inside : goal.put-requires-clause-inside
put-requires-clause-inside g c = its_txn c.args.pass.now c.requires.inside

pub returns-in-Some-clause-inside : goal.returns-in-Some-clause-inside
returns-in-Some-clause-inside g c = stays_inside c.put.result c.args.pass.now c.put.new.pass c.put.ensures.stands c.requires.inside
PROOF
answers beside/give_up <<'PROOF'
use Rattle.ob_calls.proofs.Inside.{its_txn}
use Rattle.threads_bench.proofs.beside.give_up.Goals as goal

pub abort-requires-clause-inside : goal.abort-requires-clause-inside
abort-requires-clause-inside g c = its_txn c.put.new.pass c.put.ensures.inside

pub returns-clause-between : goal.returns-clause-between
returns-clause-between g c = c.abort.ensures.stands c.put.ensures.inside.2
PROOF
answers beside/probe <<'PROOF'
use Rattle.ob_calls.proofs.Inside.{begun_inside, refused_between}
use Rattle.threads_bench.proofs.beside.probe.Goals as goal

pub give_up-requires-clause-inside : goal.give_up-requires-clause-inside
give_up-requires-clause-inside g c = begun_inside c.begin.new.pass c.in-Ok-Txn.field-0 c.in-Ok-Txn.field-0-0 c.in-Ok-Txn.field-0-is c.in-Ok-Txn.ensures.stands

pub returns-in-Ok-Stopped-clause-between : goal.returns-in-Ok-Stopped-clause-between
returns-in-Ok-Stopped-clause-between g c = refused_between c.begin.new.pass c.in-Ok-Stopped.field-0 c.in-Ok-Stopped.field-0-0 c.in-Ok-Stopped.field-0-is c.in-Ok-Stopped.ensures.stands
PROOF
answers beside/commit <<'PROOF'
use Rattle.ob_calls.proofs.Inside.{begun_inside, its_txn, refused_between}
use Rattle.threads_bench.proofs.beside.commit.Goals as goal

pub put-requires-clause-inside : goal.put-requires-clause-inside
put-requires-clause-inside g c = begun_inside c.begin.new.pass c.in-Ok-Txn.field-0 c.in-Ok-Txn.field-0-0 c.in-Ok-Txn.field-0-is c.in-Ok-Txn.ensures.stands

pub commit-requires-clause-inside : goal.commit-requires-clause-inside
commit-requires-clause-inside g c = its_txn c.put.new.pass c.put.ensures.inside

pub returns-in-Ok-Txn-clause-between : goal.returns-in-Ok-Txn-clause-between
returns-in-Ok-Txn-clause-between g c = c.commit.ensures.stands c.put.ensures.inside.2

pub returns-in-Ok-Stopped-clause-between : goal.returns-in-Ok-Stopped-clause-between
returns-in-Ok-Stopped-clause-between g c = refused_between c.begin.new.pass c.in-Ok-Stopped.field-0 c.in-Ok-Stopped.field-0-0 c.in-Ok-Stopped.field-0-is c.in-Ok-Stopped.ensures.stands
PROOF
answers beside/follow_each <<'PROOF'
use denote.Param.Send.{sendable}
use Rattle.std.proofs.Common.{sym, subst}
use Rattle.std.proofs.Crossing.{crosses}
use Rattle.atomic_table.proofs.shared.Seat.TheSendSync as seat_law
use Rattle.ob_turn.proofs.bell.Bell.TheSendSync as bell_law
use Rattle.ob_hall.proofs.hall.Held.TheSendSync as held_law
use Rattle.ob_hall.specs.Passes.{Pass}
use Rattle.ob_hall.specs.Calling.{IsReady, IsBetween}
use Rattle.ob_hall.proofs.Sent.{pass_sent, hall_shared, both_shared}
use Rattle.threads_bench.proofs.beside.Found.TheSendSync as found_law
use Rattle.threads_bench.proofs.beside.follow_each.Goals as goal

pub for_each_mut-requires-send-T : goal.for_each_mut-requires-send-T
for_each_mut-requires-send-T g c κs = search (sendable, held_law.the_send, pass_sent, seat_law.the_send) depth 40

pub for_each_mut-requires-sync-F : goal.for_each_mut-requires-sync-F
for_each_mut-requires-sync-F g c κs within = search (sendable, crosses, found_law.the_sync, both_shared, hall_shared, bell_law.the_sync) depth 40

pub for_each_mut-requires-clause-accepts : goal.for_each_mut-requires-clause-accepts
for_each_mut-requires-clause-accepts g c κs within = λ i p low is. (subst (λ (q : Pass). IsReady c.args.hall.now q × IsBetween q) (sym is) (c.requires.passes i p.now low), c.requires.keys)
PROOF
answers beside/drive_beside <<'PROOF'
use denote.Param.Send.{sendable}
use Rattle.std.proofs.Crossing.{crosses}
use Rattle.atomic_table.proofs.shared.Seat.TheSendSync as seat_law
use Rattle.ob_turn.proofs.bell.Bell.TheSendSync as bell_law
use Rattle.ob_hall.proofs.hall.Held.TheSendSync as held_law
use Rattle.ob_hall.proofs.Sent.{pass_sent, hall_shared, both_shared}
use Rattle.threads_bench.proofs.beside.Found.TheSendSync as found_law
use Rattle.threads_bench.proofs.beside.drive_beside.Goals as goal

pub join-result-requires-send-F : goal.join-result-requires-send-F
join-result-requires-send-F g c κs within =
    search (sendable, crosses, held_law.the_send, pass_sent, seat_law.the_send, found_law.the_sync, both_shared, hall_shared, bell_law.the_sync) depth 40
PROOF
answers beside/desk_for <<'PROOF'
use Rattle.std.proofs.Common.{◌∙◌, suc, sym, ap, subst}
use Rattle.ob_desk.specs.Desk.{MayOpen, new_desk, setup_of}
use Rattle.threads_bench.proofs.beside.desk_for.Goals as goal

pub new-requires : goal.new-requires
new-requires g c =
    subst (λ n. MayOpen (setup_of c.args.params.now) c.args.epoch n c.args.numbers.now) (sym c.left.ensures)
    (subst (λ n. MayOpen (setup_of c.args.params.now) n (g.V.Vault.counts c.args.vault.now).left c.args.numbers.now) (sym c.requires.epoch) c.requires.opens)

pub returns : goal.returns
returns g c =
    c.in-Ok.ensures ∙ (ap (λ n. new_desk (setup_of c.args.params.now) n c.left.result c.args.numbers.now) c.requires.epoch
    ∙ ap (λ n. new_desk (setup_of c.args.params.now) (suc (g.V.Vault.counts c.args.vault.now).epoch) n c.args.numbers.now) c.left.ensures)
PROOF
answers beside/open_hall <<'PROOF'
use Rattle.std.proofs.Common.{◌∙◌, List, remove, slice_index_or, sym, ap, subst}
use Rattle.std.proofs.lemmas.List.Elements.{All-same}
use Rattle.ob_desk.specs.Desk.{DeskState, setup_of}
use Rattle.ob_shares.specs.Shares.{no_shares}
use Rattle.ob_hall.specs.Passes.{Pass, may_raise}
use Rattle.ob_hall.specs.Opening.{IsFreshPass}
use Rattle.ob_hall.specs.Calling.{IsReady, IsBetween}
use Rattle.threads_bench.proofs.beside.open_hall.Goals as goal

pub new-requires : goal.new-requires
new-requires g c = record { opens = (setup_of c.args.params.now, _, _, c.requires.opens, c.desk_for-desk.ensures) }

pub returns-clause-driver : goal.returns-clause-driver
returns-clause-driver g c =
    let passes = c.in-Ok.ensures.passes in
    let is = c.remove-driver.ensures.value ∙ ap (λ (ps : List Pass). slice_index_or ps 0 c.remove-driver.result) passes.are in record {
      fresh = subst (λ (q : Pass). IsFreshPass c.in-Ok.hall 0 q) (sym is) passes.first;
      raises = ap may_raise is ∙ passes.raises;
      shares = no_shares;
      clients = c.args.numbers.now;
      opening = c.in-Ok.ensures.desk ∙ c.desk_for-desk.ensures;
      serves = c.requires.serves;
    }

pub returns-clause-clients : goal.returns-clause-clients
returns-clause-clients g c =
    let passes = c.in-Ok.ensures.passes in
    All-same (λ q. IsReady c.in-Ok.hall q × IsBetween q) _ passes.others (c.remove-driver.ensures.items ∙ ap (λ (ps : List Pass). remove ps 0) passes.are) passes.ready

pub returns-clause-keys : goal.returns-clause-keys
returns-clause-keys g c = ap (λ (d : DeskState). d.setup.params.keys) (c.in-Ok.ensures.desk ∙ c.desk_for-desk.ensures)
PROOF
answers beside/run_beside <<'PROOF'
use Rattle.std.proofs.Common.{suc, arith, sym, subst}
use Rattle.ob_desk.specs.Desk.{MayOpen, setup_of}
use Rattle.ob_shares.specs.Shares.{no_shares}
use Rattle.ob_shares.proofs.Fitting.{none_fit}
use Rattle.ob_run.proofs.Scripts.{may_open}
use Rattle.threads_bench.proofs.beside.run_beside.Goals as goal

pub open_hall-opened-requires-clause-opens : goal.open_hall-opened-requires-clause-opens
open_hall-opened-requires-clause-opens g c =
    subst (MayOpen (setup_of c.args.params.now) (suc (g.V.Vault.counts c.args.vault.now).epoch) (g.V.Vault.counts c.args.vault.now).left) (sym c.clients.ensures.clients)
    (may_open c.args.params.now no_shares _ _ c.args.scripts.now (let e = c.epoch.ensures.epoch in let few = c.epoch.ensures.few in omega (arith, e, few)) c.requires.few c.clients.ensures.sound (none_fit _ _ _))

pub drive_beside-ended-requires-clause-keys : goal.drive_beside-ended-requires-clause-keys
drive_beside-ended-requires-clause-keys g c κs within = let same = c.open_hall-opened.ensures.keys in let low = c.requires.keys in omega (arith, same, low)
PROOF
for name in probe_all commit_all; do
    mkdir -p "proofs/beside/$name"
    cat >"proofs/beside/$name/Invariants.antt" <<PROOF
use Rattle.ob_hall.specs.Calling.{IsReady, IsBetween}
use Rattle.threads_bench.proofs.beside.$name.Given as goal

abbrev pub invariant-loop : goal.invariant-loop
invariant-loop g l = IsReady l.fn.hall l.pass × IsBetween l.pass
PROOF
done
if [[ -n $program ]]; then
    mkdir -p out
    cp "$program" "out/${PWD##*/}"
else
    build_bench
    [[ -z $keep ]] || cp "out/${PWD##*/}" "$keep"
fi
# A script of so many clients with so many transactions each.
script() {
    awk -v clients="$1" -v txns="$2" 'BEGIN {
        for (c = 1; c <= clients; c++) {
            print "client " c
            for (t = 1; t <= txns; t++) {
                print "begin"
                for (i = 1; i <= 8; i++) print "put " c - 1 " v\nget " c - 1
                print "commit"
            }
        }
    }'
}
# The fewest seconds of five runs of this kind, and the fewest of a processor.
fastest() {
    local i
    for i in 1 2 3 4 5; do
        { printf %s "$1"; cat "$work/script"; } >"$work/input"
        /usr/bin/time -f '%e %U %S' -o "$work/time" "./out/${PWD##*/}" <"$work/input" >"$work/said"
        [[ $(<"$work/said") != failed ]]
        awk '{ print $1, $2 + $3 }' "$work/time"
    done | awk 'NR == 1 || $1 < wall { wall = $1 } NR == 1 || $2 < busy { busy = $2 } END { print wall, busy }'
}
# Operations a second and microseconds of a processor an operation, from a run's seconds, those of a run
# that serves nothing, and how many operations there are.
rate() {
    awk -v wall="$1" -v busy="$2" -v none="$3" -v idle="$4" -v n="$5" 'BEGIN {
        wall -= none; busy -= idle
        if (wall < 0.001) wall = 0.001
        printf "%.0f %.2f\n", n / wall, busy * 1e6 / n
    }'
}
declare -A by_threads=() by_hand=()
for clients in 1 4 16 64; do
    txns=$((6400 / clients))
    script "$clients" "$txns" >"$work/script"
    count=$((clients * txns * 18))
    read -r none idle <<<"$(fastest n)"
    read -r wall busy <<<"$(fastest t)"
    read -r by_threads[$clients] threads_busy <<<"$(rate "$wall" "$busy" "$none" "$idle" "$count")"
    read -r wall busy <<<"$(fastest h)"
    read -r by_hand[$clients] hand_busy <<<"$(rate "$wall" "$busy" "$none" "$idle" "$count")"
    printf '%2d clients: by threads %d operations a second, %s us of processor each; by hand %d, %s us\n' \
        "$clients" "${by_threads[$clients]}" "$threads_busy" "${by_hand[$clients]}" "$hand_busy"
done
awk 'BEGIN { for (c = 1; c <= 64; c++) print "client " c "\nbegin\nget 5\ncommit" }' >"$work/script"
read -r none idle <<<"$(fastest n)"
read -r wall busy <<<"$(fastest s)"
waiting=$(awk -v busy="$busy" -v idle="$idle" -v wall="$wall" 'BEGIN { printf "%.1f", (busy - idle) * 100 / wall }')
echo "64 clients that wait for a fetch of a second: $waiting % of a processor"
# How many transactions began and wrote while an end of a second was under way, and the most milliseconds
# that a begin or a put of that client's took: the fewest of three runs.
awk 'BEGIN { for (c = 1; c <= 16; c++) print "client " c }' >"$work/script"
for _ in 1 2 3; do
    read -r _ begun nanos <<<"$({ printf e; cat "$work/script"; } | "./out/${PWD##*/}")"
    [[ -n $nanos ]]
    beside=$(fewest "${beside:-$begun}" "$begun")
    most=$(fewest "${most:-$nanos}" "$nanos")
done
most=$(awk -v nanos="$most" 'BEGIN { printf "%.2f", nanos / 1e6 }')
echo "a client beside ends of a second: $beside transactions, each begin and each put within $most ms"
# The floors hold on a machine with four processors and nothing else to do.
missed=0
floor() {
    if awk "BEGIN { exit !($2) }"; then
        echo "met: $1"
    else
        echo "missed: $1"
        missed=1
    fi
}
floor 'one client by threads at least a quarter of by hand' "${by_threads[1]} >= ${by_hand[1]} / 4"
floor '4 clients at least a quarter' "${by_threads[4]} >= ${by_hand[4]} / 4"
floor '16 clients at least an eighth' "${by_threads[16]} >= ${by_hand[16]} / 8"
floor '64 clients at least a sixteenth' "${by_threads[64]} >= ${by_hand[64]} / 16"
floor '64 clients by threads at least half of 16' "${by_threads[64]} >= ${by_threads[16]} / 2"
floor 'who waits uses less than 5 % of a processor' "$waiting < 5"
floor 'a begin and a put beside an end of a second within 5 ms' "$beside >= 100 && $most <= 5"
exit "$missed"
