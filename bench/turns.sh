#!/usr/bin/env bash
# Measures turns of an empty call with 1, 4, 16 and 64 threads: turns a second, processor time a turn,
# and how often a thread gave up its processor, a turn. It fails where a floor is missed.
# It needs rt, GNU time and strace, and writes only to a temporary folder.
set -euo pipefail
top=$(cd "$(dirname "$0")/.." && pwd)
work=$(mktemp -d)
trap 'rm -rf "$work"' EXIT
turns=10240000
mkdir -p "$work/crates/turn_bench/src"
for crate in ob_base ob_turn; do
    cp -r "$top/crates/$crate" "$work/crates/"
    rm -rf "$work/crates/$crate/must-fail"
done
{ grep -E '^(ob_base|ob_turn):' "$top/crates.txt"; echo 'turn_bench: ob_base ob_turn'; } >"$work/crates.txt"
git -C "$work" init -q
cat >"$work/crates/turn_bench/src/main.rt" <<'PROGRAM'
//! Turns of an empty call; the first byte of the input is how many threads take them: a 1, b 4, c 16, d 64.
#![tactic(auto)]
ghost use Rattle.std.specs.Prelude.{◌≡◌, ◌≤◌, length};
ghost use Rattle.std.specs.List.{All};
ghost use Rattle.ob_turn.specs.TurnCalls.{IsTurnSeat, IsIdle};

use ob_base::Memory;
use ob_turn::{Stepped, Turn, TurnSeat};
use std::alloc::Global;
use std::io;
use std::io::Read;
use std::snapshot::Snapshot;
use std::sync::Wait;
use std::thread;
use std::thread::Threads;

// How many turns are taken in all.
const TURNS: u32 = 10240000;

#[derive(Drop)]
struct Nothing {
    value: u64,
}

#[derive(Drop)]
struct Empty {
    value: u64,
}

impl Stepped<Empty> for Nothing {
    ghost use Rattle.std.specs.Prelude.{◌≡◌};

    ghost steps = { λ _ x e y. y ≡ x };
}

fn take_turns<R: Wait>(
    rt: &R,
    turn: &Turn<Nothing, Empty>,
    seat: &mut TurnSeat<Nothing, Empty>,
    times: u32,
)
    requires own { IsTurnSeat turn.now seat.old }
    requires idle { IsIdle seat.old }
    ensures own { IsTurnSeat turn.now seat.new }
    ensures idle { IsIdle seat.new }
{
    let empty = Empty { value: 0 };
    for _ in 0..times {
        let value = turn.take(rt, seat);
        turn.put(seat, value, Snapshot::of(&empty));
    }
}

fn take_all<R: Threads + Wait + Sync>(
    rt: &R,
    turn: &Turn<Nothing, Empty>,
    seats: &mut [TurnSeat<Nothing, Empty>],
    times: u32,
)
    requires own { All (λ s. IsTurnSeat turn.now s) seats.old }
    requires idle { All (λ s. IsIdle s) seats.old }
{
    thread::for_each_mut(
        rt,
        seats,
        64,
        &|_, seat: &mut TurnSeat<Nothing, Empty>|
            requires { IsTurnSeat turn.now seat.old × IsIdle seat.old }
        { take_turns(rt, turn, seat, times) },
    );
}

fn run<R: Threads + Wait + Sync>(rt: &R, alloc: Global, threads: u32) -> Result<(), Memory>
    requires { 1 ≤ threads }
{
    let (turn, mut seats) = Turn::new(alloc, Nothing { value: 0 }, threads)?;
    take_all(rt, &turn, seats.as_mut_slice(), TURNS / threads);
    Ok(())
}

fn main(rt: HostRuntime) -> io::Result<()> {
    let mut line = [0; 1];
    let _ = rt.stdin().read(&mut line)?;
    let threads = match line[0] {
        b'b' => 4,
        b'c' => 16,
        b'd' => 64,
        _ => 1,
    };
    match run(&rt, rt.alloc(), threads) {
        Ok(()) => println!(rt; "{threads}"),
        Err(_) => println!(rt; "no memory"),
    }
}
PROGRAM
mkdir -p "$work/crates/turn_bench/proofs/take_turns"
cat >"$work/crates/turn_bench/proofs/take_turns/Invariants.antt" <<'PROOF'
use Rattle.ob_turn.specs.TurnCalls.{IsTurnSeat, IsIdle}
use Rattle.turn_bench.proofs.take_turns.Given as goal

abbrev pub invariant-loop : goal.invariant-loop
invariant-loop g l = IsTurnSeat l.turn l.seat × IsIdle l.seat
PROOF
cd "$work/crates/turn_bench"
rt run </dev/null >"$work/log" 2>&1 || { grep -v '^  |' "$work/log" | grep -n 'error\|must prove\|not proved' | cut -c1-700; exit 1; }
# The median of five runs by turns a second: turns a second, processor time a turn in microseconds, and
# switches a turn.
measure() {
    for _ in 1 2 3 4 5; do
        /usr/bin/time -f '%e %U %S %w' -o "$work/time" ./out/turn_bench <<<"$1" >/dev/null
        awk -v n=$turns '{ print n / ($1 > 0 ? $1 : 0.01), ($2 + $3) * 1e6 / n, $4 / n }' "$work/time"
    done | sort -n | sed -n 3p
}
tell() {
    awk -v name="$1" '{ printf "%-11s %.0f turns a second, %.2f us of processor a turn, %.3f switches a turn\n", name, $1, $2, $3 }' <<<"$2"
}
one=$(measure a)
four=$(measure b)
sixteen=$(measure c)
many=$(measure d)
tell '1 thread:' "$one"
tell '4 threads:' "$four"
tell '16 threads:' "$sixteen"
tell '64 threads:' "$many"
strace -f -c -o "$work/calls" ./out/turn_bench <<<a >/dev/null
calls=$(awk '$NF == "total" { print $4 }' "$work/calls")
echo "1 thread makes $calls system calls in $turns turns"
# The floors hold on a machine with four processors and nothing else to do.
missed=0
floor() {
    if awk "BEGIN { exit !($2) }"; then
        echo "met: $1"
    else
        echo "missed: $1"
        missed=1
    fi
}
read -r _ time_four _ <<<"$four"
read -r rate_sixteen _ _ <<<"$sixteen"
read -r rate_many time_many _ <<<"$many"
floor '64 threads make at least half as many turns a second as 16' "$rate_many >= $rate_sixteen / 2"
floor 'a turn of 64 threads takes at most three times the processor time of one of 4' "$time_many <= 3 * $time_four"
floor 'one thread alone makes no system call a turn' "$calls < $turns / 1000"
exit "$missed"
