#!/usr/bin/env bash
# Measures what a call on the transaction manager takes in an epoch of 64 clients with 1,024 gets and
# puts in 128 transactions, and in one with twice as many of both.
# Each client makes eight calls and then aborts, so that it may begin again in the same epoch.
# Then what a call takes where each client gets one key of its own and puts or deletes four, without shares
# and with just these shares: it fails where the latter takes more than 1.3 times as long.
# Then what a look takes in an epoch of 64 aborted transactions, and in one of 64,000. It fails where
# the latter takes more than twice as long.
# It needs rt, and writes only to a temporary folder. Times are of the processor.
#
#   desk.sh [PROGRAM]    PROGRAM: this bench's program, as an earlier run left it (KEEP=FILE keeps it);
#                        else it is proved and built here
set -euo pipefail
top=$(cd "$(dirname "$0")/.." && pwd)
program=${1:+$(realpath "$1")}
keep=${KEEP:+$(realpath "$KEEP")}
work=$(mktemp -d)
trap 'rm -rf "$work"' EXIT
epochs=200
looks=2000000
mkdir -p "$work/crates/desk_bench/src"
for crate in ob_base ob_io ob_store ob_serial ob_order ob_queue ob_key_versions ob_versions ob_shares ob_desk; do
    cp -r "$top/crates/$crate" "$work/crates/"
    rm -rf "$work/crates/$crate/must-fail"
done
{ grep -E '^(ob_base|ob_io|ob_store|ob_serial|ob_order|ob_queue|ob_key_versions|ob_versions|ob_shares|ob_desk):' "$top/crates.txt"; echo 'desk_bench: ob_base ob_order ob_versions ob_serial ob_shares ob_desk'; } >"$work/crates.txt"
git -C "$work" init -q
# The questions whether a call may be made, which tests ask, are asked here too.
sed -i 's/^#\[cfg(test)\]$/ /' "$work/crates/ob_desk/src/desk.rt"
cat >"$work/crates/desk_bench/src/main.rt" <<'PROGRAM'
//! Epochs of gets and puts: the first byte of the input, 1 or 2, says how many times sixteen calls each
//! client makes. Or as with 1, but each client names keys of its own, without shares (o) or with
//! shares that are just enough (s). Or looks in an epoch of 64 aborted transactions (f) or of 64,000 (m); or the latter
//! epoch with no look (n).
#![tactic(auto)]

ghost use Rattle.std.specs.Prelude.{◌≡◌, ◌≤◌, ℕ, Some};

use ob_base::{Memory, Params, Value};
use ob_desk::{Begun, Desk, Got, Txn};
use ob_shares::{NO_SHARES, Shares};
use std::alloc::Global;
use std::hint;
use std::io;
use std::io::Read;

const EPOCHS: u32 = 200;
const LOOKS: u32 = 2000000;

// One key for the gets of each client, and four for its puts.
const ENOUGH: Shares = Shares {
    reads: Some(1),
    writes: Some(4),
};

// Which keys are named, and under which shares.
#[derive(Clone, Copy)]
struct Kind {
    own: bool,
    shared: bool,
}

// 1,024 keys, 16 read batches of 64 places, 256 write places, 64 clients.
fn open(alloc: Global, shares: Shares) -> Result<Option<Desk>, Memory>
    requires reads { (n : ℕ) → shares.reads ≡ Some n → n ≤ 1 }
    requires writes { (n : ℕ) → shares.writes ≡ Some n → n ≤ 4 }
{
    let Ok(p) = Params::new(1024, 8, 16, 16, 16, 64, 256, 8, 64) else {
        return Ok(None);
    };
    if p.batches < 16 {
        return Ok(None);
    }
    if p.places < 64 {
        return Ok(None);
    }
    if p.writes < 256 {
        return Ok(None);
    }
    let desk = Desk::new(alloc, &p, 1, 16, &[
        1, 2, 3, 4, 5, 6, 7, 8, 9, 10, 11, 12, 13, 14, 15, 16, 17, 18, 19, 20, 21, 22, 23, 24, 25,
        26, 27, 28, 29, 30, 31, 32, 33, 34, 35, 36, 37, 38, 39, 40, 41, 42, 43, 44, 45, 46, 47, 48,
        49, 50, 51, 52, 53, 54, 55, 56, 57, 58, 59, 60, 61, 62, 63, 64,
    ], shares)?;
    Ok(Some(desk))
}

// A batch is taken, and each of its keys is absent.
#[tactic(auto, using(ob_order::proofs::Batches::taken_in_flight))]
fn round(desk: &mut Desk) {
    let mut keys = [None; 64];
    let values = [None; 64];
    if !desk.may_take() || desk.params().places != 64 {
        return;
    }
    desk.take_batch(&mut keys);
    desk.deliver(&keys, &values);
}

fn next(word: u32) -> u32 {
    word.wrapping_mul(1664525).wrapping_add(1013904223)
}

fn begin(desk: &mut Desk, client: u32) -> Result<Option<Txn>, Memory> {
    if !desk.may_begin(client) {
        return Ok(None);
    }
    match desk.begin(client)? {
        Begun::Txn { txn } => Ok(Some(txn)),
        Begun::Stopped { .. } => Ok(None),
    }
}

// The key of a get or a put: any of 256, or one of the client's own.
fn key_of(kind: Kind, txn: &Txn, word: u32) -> u32 {
    let any = word / 65536 % 256;
    if !kind.own {
        return any;
    }
    let first = txn.client % 64 * 4;
    if word / 4096 % 2 == 0 { first } else { first + any % 4 }
}

// One get, put or poll: whether it was made.
fn access(desk: &mut Desk, kind: Kind, txn: &Txn, word: u32) -> Result<bool, Memory> {
    let key = key_of(kind, txn, word);
    if desk.may_poll(txn) {
        let _got: Got = desk.poll(txn);
        return Ok(true);
    }
    if !desk.may_access(txn, key) {
        return Ok(false);
    }
    if word / 4096 % 2 == 0 {
        let _got = desk.get(txn, key)?;
        return Ok(true);
    }
    let Some(value) = Value::new(b"a value of some bytes") else {
        return Ok(false);
    };
    let _done = desk.put(txn, key, value)?;
    Ok(true)
}

fn leave(desk: &mut Desk, txn: &Txn) {
    if desk.may_abort(txn) {
        let _why = desk.abort(txn);
    }
}

// Each client makes a call in turn, eight times, in transactions that begin now and are aborted:
// how many were made.
fn turns(desk: &mut Desk, alloc: Global, kind: Kind, seed: u32) -> Result<u64, Memory> {
    let mut txns: Vec<Txn> = Vec::new(alloc);
    for client in 1..65 {
        if let Some(txn) = begin(desk, client)? {
            txns.push(txn)?;
        }
    }
    let mut word = seed;
    let mut made: u64 = 0;
    for _ in 0..8 {
        for txn in &txns {
            word = next(word);
            made = made.wrapping_add(u64::from(access(desk, kind, txn, word)?));
        }
        round(desk);
    }
    for txn in &txns {
        leave(desk, txn);
    }
    Ok(made)
}

fn epoch(alloc: Global, kind: Kind, times: u32, seed: u32) -> Result<u64, Memory> {
    let opened = if kind.shared { open(alloc, ENOUGH)? } else { open(alloc, NO_SHARES)? };
    let Some(mut desk) = opened else {
        return Ok(0);
    };
    let mut made: u64 = 0;
    for i in 0..times {
        made = made.wrapping_add(turns(&mut desk, alloc, kind, seed.wrapping_add(i))?);
    }
    Ok(made)
}

fn all(alloc: Global, own: bool, shared: bool, times: u32) -> Result<u64, Memory> {
    let kind = Kind { own, shared };
    let mut made: u64 = 0;
    for n in 0..EPOCHS {
        made = made.wrapping_add(epoch(alloc, kind, times, next(n))?);
    }
    Ok(made)
}

// Each client begins a transaction and aborts it.
fn abort_each(desk: &mut Desk) -> Result<(), Memory> {
    for client in 1..65 {
        if let Some(txn) = begin(desk, client)? {
            leave(desk, &txn);
        }
    }
    Ok(())
}

fn look_often(desk: &Desk, times: u32) -> u64 {
    let mut made: u64 = 0;
    for _ in 0..times {
        if desk.may_look() {
            let look = hint::black_box(desk.look());
            made = made.wrapping_add(look.clients / 64);
        }
    }
    made
}

// So many looks in an epoch of so many times 64 aborted transactions: how many were made.
fn look_behind(alloc: Global, times: u32, looks: u32) -> Result<u64, Memory> {
    let Some(mut desk) = open(alloc, NO_SHARES)? else {
        return Ok(0);
    };
    for _ in 0..times {
        abort_each(&mut desk)?;
    }
    Ok(look_often(&desk, looks))
}

fn main(rt: HostRuntime) -> io::Result<()> {
    let mut line = [0; 1];
    let _ = rt.stdin().read(&mut line)?;
    let made = match line[0] {
        b'f' => look_behind(rt.alloc(), 1, LOOKS),
        b'm' => look_behind(rt.alloc(), 1000, LOOKS),
        b'n' => look_behind(rt.alloc(), 1000, 0),
        b'2' => all(rt.alloc(), false, false, 4),
        b'o' => all(rt.alloc(), true, false, 2),
        b's' => all(rt.alloc(), true, true, 2),
        _ => all(rt.alloc(), false, false, 2),
    };
    match made {
        Ok(made) => println!(rt; "{made}"),
        Err(_) => println!(rt; "no memory"),
    }
}
PROGRAM
mkdir -p "$work/crates/desk_bench/proofs/open"
cat >"$work/crates/desk_bench/proofs/open/Answers.antt" <<'PROOF'
use Rattle.std.proofs.Common.{◌≡◌, ℕ, ◌+◌, ◌<◌, ◌≤◌, List, length, arith}
use Rattle.std.specs.List.{All, range_with_len}
use Rattle.std.specs.List.Sorted.{IsStrictlyIncreasing}
use Rattle.std.proofs.lemmas.List.FromFn.{get_or-range_with_len, length-range_with_len}
use Rattle.desk_bench.proofs.open.Goals as goal

rising : IsStrictlyIncreasing (range_with_len 1 64)
rising k l =
    let n = length-range_with_len 1 64 in
    let a = get_or-range_with_len 1 64 k 0 (omega (arith, l, n)) in
    let b = get_or-range_with_len 1 64 (k + 1) 0 (omega (arith, l, n)) in
    omega (arith, a, b)

named : All (λ c. (1 ≤ c) × (c ≤ 64)) (range_with_len 1 64)
named k d l =
    let n = length-range_with_len 1 64 in
    let a = get_or-range_with_len 1 64 k d (omega (arith, l, n)) in
    (omega (arith, a), omega (arith, a, l, n))

pub new-requires-2 : goal.new-requires-2
new-requires-2 c = record {
  few_left = omega (arith, c.if-p-lt16.false);
  low_epoch = omega arith;
  named = named;
  rising = rising;
  fit = record {
    reads = λ n is. let few = c.requires.reads n is in omega (arith, few, c.if-p-lt64.false);
    writes = λ n is. let few = c.requires.writes n is in omega (arith, few, c.if-p-lt256.false);
  };
}
PROOF
cd "$work/crates/desk_bench"
if [[ -n $program ]]; then
    mkdir -p out
    cp "$program" out/desk_bench
else
    rt run </dev/null >"$work/log" 2>&1 || { tail -30 "$work/log"; exit 1; }
    [[ -z $keep ]] || cp out/desk_bench "$keep"
fi
TIMEFORMAT=%U
# The fewest nanoseconds a call of five runs, with the beginning and ending of the transactions.
fastest() {
    local best= t made
    for _ in 1 2 3 4 5; do
        t=$({ time ./out/desk_bench <<<"$1" >"$work/count"; } 2>&1)
        made=$(<"$work/count")
        t=$(awk -v t="$t" -v n="$made" 'BEGIN { print t * 1e9 / n }')
        best=$(awk -v a="${best:-$t}" -v b="$t" 'BEGIN { print a < b ? a : b }')
    done
    echo "$best ns a call, $((made / epochs)) calls an epoch"
}
echo "once:  $(fastest 1)"
echo "twice: $(fastest 2)"
own=$(fastest o)
shared=$(fastest s)
echo "own keys: $own"
awk -v o="${own%% *}" -v s="${shared%% *}" -v told="$shared" 'BEGIN {
    printf "shared:   %s (%.2f of it; at most 1.3)\n", told, s / o
    exit !(s <= 1.3 * o)
}'
# The fewest seconds of five runs of this kind, which has to tell so many looks.
fewest() {
    local best= t
    for _ in 1 2 3 4 5; do
        t=$({ time ./out/desk_bench <<<"$1" >"$work/count"; } 2>&1)
        [[ $(<"$work/count") == "$2" ]]
        best=$(awk -v a="${best:-$t}" -v b="$t" 'BEGIN { print a < b ? a : b }')
    done
    echo "$best"
}
few=$(fewest f $looks)
many=$(fewest m $looks)
none=$(fewest n 0)
awk -v f="$few" -v m="$many" -v n="$none" -v k=$looks 'BEGIN {
    printf "a look:  %.0f ns behind 64 aborted transactions, %.0f ns behind 64,000 (%.2f of it; at most 2)\n",
        f * 1e9 / k, (m - n) * 1e9 / k, (m - n) / f
    exit !(m - n <= 2 * f)
}'
