#!/usr/bin/env bash
# Measures the reads of a batch by 1, 2, 4, 8 and 16 lanes: 960 jobs, as 64 places have at 65,536 keys
# (levels 0 to 14), read and opened; and of a phase of 9 jobs, as a sealed record has. Over a store in
# memory, over one whose reads sleep for 200 us, and over one where of 50 cells' reads one sleeps for 4 ms.
# What is planned before and shown behind is left out.
# What is aimed at, on four processors: over sleeping reads 4 lanes 3.5 times as fast as one and 16 lanes 10
# times; where few of them sleep long, 4 lanes at most 1.15 of a fourth of one's time, and 16 lanes 1.4 of a
# sixteenth; in memory 4 lanes 2.5 times as fast; 9 jobs by 4 lanes at most 200 us longer than by one. It fails where that is missed, or where one lane
# starts a thread.
# It needs rt and strace, and writes only to a temporary folder. Times are of the clock: the fewest of seven
# runs of 20 batches each (where reads sleep of 4, of the small phases of 200).
#
#   lanes.sh [PROGRAM]    PROGRAM: this bench's program, as an earlier run left it (KEEP=FILE keeps it);
#                         else it is proved and built here
set -euo pipefail
top=$(cd "$(dirname "$0")/.." && pwd)
program=${1:+$(realpath "$1")}
keep=${KEEP:+$(realpath "$KEEP")}
source "$top/bench/common.sh"
bench_crate lanes_bench ob_base ob_io ob_store ob_claims ob_lanes ob_bare ob_seal ob_cells <<'PROGRAM'
//! Reads batches by several lanes. The input is a byte that says what, and two digits that say by how many
//! lanes: 960 jobs a batch in memory (m), where reads sleep (s) or where few of them sleep long (u), or nine
//! in memory (n). The output is how many batches went well, and the fewest nanoseconds of one.
#![tactic(auto)]

mod sleeping;

use crate::sleeping::Sleeping;
use ob_bare::BareStore;
use ob_base::{Job, Jobs, Params};
use ob_cells::{Crew, run_jobs};
use ob_lanes::Lanes;
use ob_seal::{Keys, Sealer};
use ob_store::Store;
use std::alloc::Global;
use std::io;
use std::io::Read;
use std::thread::Threads;
use std::time::{Clock, Duration, Instant};

// The cells of the store, and those that are sealed.
const CELLS: u64 = 721739;

const SEALED: u64 = 19200;

// The cell of the seal with this number: no two have the same, and neighbours lie far apart.
fn cell_of(number: u64) -> u64 {
    number.wrapping_mul(104729) % CELLS
}

// A store of which some cells are sealed.
fn sealed_store(alloc: Global, sealer: &mut Sealer) -> Option<BareStore> {
    let mut store = BareStore::new(alloc, CELLS as usize).ok()?;
    for number in 0..SEALED {
        let cell = cell_of(number);
        let bytes = sealer.seal(cell, &[9; 96]).ok()?;
        store.write(cell, &bytes).ok()?;
    }
    Some(store)
}

// Takes jobs for so many seals, from one on, in place of those that were there.
fn fill(jobs: &mut Jobs, first: u64, many: u64) {
    jobs.clear();
    for i in 0..many {
        let number = first.wrapping_add(i) % SEALED;
        if jobs.jobs().len() < jobs.room() {
            jobs.push(Job {
                cell: cell_of(number),
                generation: 1,
                number,
                key: None,
                result: None,
            });
        }
    }
}

/// What is read: so many batches of so many jobs, by so many lanes.
#[derive(Clone, Copy)]
struct Setting {
    batches: u64,
    jobs: u64,
    lanes: usize,
}

// Reads the batches: how many went well, and the least time that one took.
fn read_all<S: Lanes, R: Threads + Sync + Clock>(
    rt: &R,
    store: &mut S,
    crew: &mut Crew<S::Lane>,
    sealer: &Sealer,
    jobs: &mut Jobs,
    setting: Setting,
) -> io::Result<(u64, Duration)> {
    let mut done: u64 = 0;
    let mut least = Duration::MAX;
    for n in 0..setting.batches {
        fill(jobs, n.wrapping_mul(setting.jobs), setting.jobs);
        if jobs.jobs().len() as u64 == setting.jobs && jobs.jobs().len() <= crew.jobs() {
            let start = Instant::now(rt)?;
            let outcome = run_jobs(rt, store, crew, sealer, jobs);
            least = least.min(start.elapsed(rt)?);
            done = done.wrapping_add(u64::from(outcome.is_ok()));
        }
    }
    Ok((done, least))
}

// The same with a crew for it.
fn measure<S: Lanes, R: Threads + Sync + Clock>(
    rt: &R,
    alloc: Global,
    store: &mut S,
    sealer: &Sealer,
    setting: Setting,
) -> io::Result<(u64, Duration)> {
    let none = (0, Duration::ZERO);
    let Ok(p) = Params::new(65536, 14, 4, 6, 16, 64, 256, 64, 1024) else {
        return Ok(none);
    };
    let lanes = setting.lanes.clamp(1, 16);
    let Ok(mut crew) = Crew::new(alloc, lanes, setting.jobs as usize) else {
        return Ok(none);
    };
    let Ok(mut jobs) = Jobs::new(alloc, &p) else {
        return Ok(none);
    };
    read_all(rt, store, &mut crew, sealer, &mut jobs, setting)
}

// A digit as a number.
fn digit(byte: u8) -> usize {
    usize::from(byte.saturating_sub(b'0'))
}

fn main(rt: HostRuntime) -> io::Result<()> {
    let mut line = [0; 3];
    let _ = rt.stdin().read(&mut line)?;
    let [what, tens, ones] = line;
    let lanes = digit(tens).wrapping_mul(10).wrapping_add(digit(ones));
    let mut sealer = Sealer::new(&Keys::from_bytes(&[7; 96]), 1);
    let Some(mut store) = sealed_store(rt.alloc(), &mut sealer) else {
        return Ok(());
    };
    let (batches, jobs) = match what {
        b'm' => (20, 960),
        b's' | b'u' => (4, 960),
        _ => (200, 9),
    };
    let setting = Setting {
        batches,
        jobs,
        lanes,
    };
    let (done, least) = if what == b's' || what == b'u' {
        let long = if what == b'u' { 4000 } else { 200 };
        let mut sleeping = Sleeping::over(store, &rt, long);
        measure(&rt, rt.alloc(), &mut sleeping, &sealer, setting)?
    } else {
        measure(&rt, rt.alloc(), &mut store, &sealer, setting)?
    };
    println!(rt; "{} {}", done, least.as_nanos())
}
PROGRAM
cat >src/sleeping.rt <<'PROGRAM'
//! A store whose reads sleep.

ghost use Rattle.std.specs.Prelude.{None};
ghost use Rattle.ob_bare.specs.Cells.{cell_of};
ghost use Rattle.ob_store.specs.Disk.{bare};

use ob_bare::{BareLane, BareStore};
use ob_base::Failed;
use ob_claims::{Claims, Round};
use ob_lanes::{Hand, Lanes, SealedJobs, read_hands};
use ob_store::Store;
use std::thread;
use std::thread::Threads;
use std::time::Duration;

/// A store in memory, each read of which takes 200 us more, and that of one cell in 50 so many.
#[derive(Drop)]
pub struct Sleeping<'r> {
    store: BareStore,
    clock: &'r HostRuntime,
    long: u64,
}

impl<'r> Sleeping<'r> {
    /// Over a store in memory.
    pub fn over(store: BareStore, clock: &'r HostRuntime, long: u64) -> Sleeping<'r> {
        Sleeping { store, clock, long }
    }
}

impl<'r> Store for Sleeping<'r> {
    type Lane = BareLane;

    ghost disk = { λ s. bare (cell_of s.store.cells.items) s.store.faults };

    ghost lane_faults = { λ _. 0 };

    ghost lane_seen = { λ _. None };

    ghost counts_now = { λ _ t c le left. absurd left };

    ghost only_now = { λ _ c left. absurd left };

    ghost includes_reads = { λ _ tells leaves. absurd leaves };

    fn lane(&mut self) -> Result<BareLane, Failed> {
        self.store.lane()
    }

    fn read(&self, lane: &mut BareLane, cell: u64, out: &mut [u8; 128]) -> Result<(), Failed> {
        let time = if cell % 50 == 0 { self.long } else { 200 };
        thread::sleep(self.clock, Duration::from_micros(time));
        self.store.read(lane, cell, out)
    }

    fn absorb(&mut self, lane: BareLane) {
        self.store.absorb(lane);
    }

    fn write(&mut self, cell: u64, bytes: &[u8; 128]) -> Result<(), Failed> {
        self.store.write(cell, bytes)
    }

    fn sync(&mut self) -> Result<(), Failed> {
        self.store.sync()
    }
}

impl<'r> Lanes for Sleeping<'r> {
    fn read_parts<R: Threads + Sync>(
        &self,
        rt: &R,
        hands: &mut [Option<Hand<BareLane>>],
        claims: &Claims,
        round: &Round,
        asked: &SealedJobs,
    ) {
        read_hands(rt, self, hands, claims, round, asked);
    }
}
PROGRAM
if [[ -n $program ]]; then
    mkdir -p out
    cp "$program" "out/${PWD##*/}"
else
    build_bench
    [[ -z $keep ]] || cp "out/${PWD##*/}" "$keep"
fi
# The nanoseconds of a batch by so many lanes: each kind with the batches that have to go well.
declare -A took=()
for _ in 1 2 3 4 5 6 7; do
    for kind in m:20 s:4 u:4 n:200; do
        for lanes in 01 02 04 08 16; do
            read -r done nanos <<<"$("./out/${PWD##*/}" <<<"${kind%:*}$lanes")"
            [[ $done == "${kind#*:}" ]]
            took[${kind%:*}$lanes]=$(fewest "${took[${kind%:*}$lanes]:-$nanos}" "$nanos")
        done
    done
done
# Prints what a batch takes by each number of lanes: a text, and the kind.
tell() {
    local lanes
    printf '%s' "$1"
    for lanes in 01 02 04 08 16; do
        awk -v lanes=$((10#$lanes)) -v one="${took[${2}01]}" -v nanos="${took[$2$lanes]}" 'BEGIN {
            printf "%s %d: %.3f ms (%.2f times)", lanes == 1 ? "" : ",", lanes, nanos / 1e6, one / nanos
        }'
    done
    echo
}
tell '960 jobs in memory, by lanes:' m
tell '960 jobs where a read sleeps, by lanes:' s
tell '960 jobs where few reads sleep long, by lanes:' u
tell '9 jobs in memory, by lanes:' n
# How many threads a run starts.
threads() {
    strace -f -e trace=clone,clone3 -o "$work/calls" "./out/${PWD##*/}" <<<"$1" >/dev/null
    grep -c 'clone.* = [0-9]' "$work/calls" || true
}
# The floors hold on a machine with four processors and nothing else to do.
missed=0
floor() {
    if awk "BEGIN { exit !($2) }"; then
        echo "met: $1"
    else
        echo "missed: $1"
        missed=1
    fi
}
floor 'where a read sleeps 4 lanes are 3.5 times as fast as one' "${took[s01]} >= 3.5 * ${took[s04]}"
floor 'where a read sleeps 16 lanes are 10 times as fast as one' "${took[s01]} >= 10 * ${took[s16]}"
# By one lane the batch takes the sum of its sleeps: 4 lanes have 1.15 of a fourth of it, 16 lanes 1.4 of a
# sixteenth.
floor 'where few reads sleep long 4 lanes take at most 1.15 of a fourth' "${took[u04]} <= 1.15 * ${took[u01]} / 4"
floor 'where few reads sleep long 16 lanes take at most 1.4 of a sixteenth' "${took[u16]} <= 1.4 * ${took[u01]} / 16"
floor 'in memory 4 lanes are 2.5 times as fast as one' "${took[m01]} >= 2.5 * ${took[m04]}"
floor '9 jobs take 4 lanes at most 200 us longer than one' "${took[n04]} <= ${took[n01]} + 200000"
floor 'one lane starts no thread, and 4 start some' "$(threads m01) == 0 && $(threads m04) > 0"
exit "$missed"
