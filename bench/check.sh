#!/usr/bin/env bash
# Measures a checkpoint of 65,536 keys (33,163 cells) written, and read, beside as many cells sealed,
# and opened, in the same program; and a batch of 1,000 jobs beside 1,000 cells opened. Each key lies
# in the bucket of its leaf. The store is in memory, on one thread.
# The set of 65,536 keys is one for measuring: with all keys present its stash gets too full (docs/OPERATING).
# It needs rt, and writes only to a temporary folder. Times are of the processor.
set -euo pipefail
top=$(cd "$(dirname "$0")/.." && pwd)
source "$top/bench/common.sh"
bench_crate check_bench ob_base ob_io ob_store ob_claims ob_lanes ob_bare ob_seal ob_cells ob_tables \
    ob_check <<'PROGRAM'
//! Writes a checkpoint (w), reads it (r), seals (s) or opens (o) as many cells, runs batches (b) or
//! opens as many cells as they have (c): the first byte of the input says what, any other nothing.
//! Each is done several times, behind the same preparations.
#![tactic(auto)]

ghost use Rattle.std.specs.Prelude.{◌≡◌, ◌≤◌, ◌*◌, IfSome, length};
ghost use Rattle.ob_base.specs.Layout.{checkpoint_cells};
ghost use Rattle.ob_tables.specs.Content.{Obeys, content_of};

use ob_base::{Job, Jobs, Params, check_cell, checkpoint_cells, set_u32, set_u64};
use ob_cells::{Bench, Crew, run_jobs};
use ob_tables::Metas;
use ob_cells::{Cut, write_sealed};
use ob_check::{Sheet, read, write};
use ob_bare::{BareLane, BareStore};
use ob_seal::{Keys, Sealer};
use ob_store::Blind;
use ob_tables::Tables;
use std::alloc::Global;
use std::hint;
use std::io;
use std::io::Read;
use std::thread::Threads;

const TIMES: u64 = 20;
const CELLS: u64 = 33163;
const BATCHES: u64 = 500;

fn put_keys(bytes: &mut Vec<u8>) -> Option<()> {
    for k in 0..65536 {
        let mut entry = [0; 21];
        entry[0] = 1;
        set_u32(&mut entry, 17, k >> 2);
        bytes.extend_from_slice(&entry).ok()?;
    }
    Some(())
}

// The number in the place of a bucket's key.
fn key_of(u: u32, j: u32) -> u32 {
    if u < 16383 || u > 32766 || j > 3 {
        return 0xffff_ffff;
    }
    4 * (u - 16383) + j
}

fn put_buckets(bytes: &mut Vec<u8>) -> Option<()> {
    for u in 0..32767 {
        let mut head = [0; 17];
        set_u64(&mut head, 1, 1);
        set_u64(&mut head, 9, u64::from(u));
        bytes.extend_from_slice(&head).ok()?;
        for j in 0..4 {
            bytes.extend_from_slice(&key_of(u, j).to_le_bytes()).ok()?;
        }
        for i in 0..10 {
            bytes.extend_from_slice(&[i, 0]).ok()?;
        }
    }
    Some(())
}

// The text of tables in which each key lies in the bucket of its leaf.
fn some_text(alloc: Global) -> Option<Vec<u8>> {
    let mut bytes = Vec::new(alloc);
    bytes.extend_from_slice(&[0; 16]).ok()?;
    put_keys(&mut bytes)?;
    put_buckets(&mut bytes)?;
    bytes.resize(96 * CELLS as usize, 0).ok()?;
    Some(bytes)
}

// The first cell of the checkpoint's area.
fn first_cell(p: &Params) -> Option<u64> {
    if checkpoint_cells(p) == 0 {
        return None;
    }
    Some(check_cell(p, 0, 0))
}

// The checkpoint in a store.
fn stored(alloc: Global, p: &Params, sealer: &mut Sealer) -> Option<BareStore> {
    let text = some_text(alloc)?;
    let mut store = BareStore::new(alloc, 70000).ok()?;
    let cut = Cut {
        bytes: text.as_slice(),
    };
    let (_, next) = sealer.next();
    if next > 1 << 40 {
        return None;
    }
    let base = first_cell(p)?;
    let many = checkpoint_cells(p);
    if base > 1 << 40 {
        return None;
    }
    write_sealed(&mut store, sealer, base, many, &cut, &mut Blind).ok()?;
    Some(store)
}

fn write_all<R: Threads + Sync>(
    rt: &R,
    store: &mut BareStore,
    sealer: &mut Sealer,
    p: &Params,
    tables: &Tables<Metas>,
    sheet: &mut Sheet,
    bench: &mut Bench,
) -> u64
    requires obeys { Obeys p.now (content_of tables.now) }
    requires sheet { length sheet.old ≡ 96 * checkpoint_cells p.now }
{
    let mut done = 0;
    for n in 0..TIMES {
        let result = write(rt, store, sealer, p, 0, tables, sheet, bench, &mut Blind);
        done += u64::from(result.is_ok());
    }
    done
}

fn read_all(
    alloc: Global,
    store: &mut BareStore,
    sealer: &Sealer,
    p: &Params,
    sheet: &mut Sheet,
) -> u64
    requires sheet { length sheet.old ≡ 96 * checkpoint_cells p.now }
{
    let mut done = 0;
    for n in 0..TIMES {
        let result = read(alloc, store, sealer, p, 0, sheet, &mut Blind);
        done += u64::from(result.is_ok());
    }
    done
}

fn seal_all(sealer: &mut Sealer) -> u64 {
    let plain = hint::black_box([9; 96]);
    let mut done = 0;
    for n in 0..TIMES * CELLS {
        if let Ok(cell) = sealer.seal(n, &plain) {
            done += u64::from(hint::black_box(cell)[127] <= 255);
        }
    }
    done
}

fn open_all(sealer: &mut Sealer, times: u64) -> u64 {
    let mut cells = [[0; 128]; 64];
    for i in 0..64 {
        if let Ok(cell) = sealer.seal(i as u64, &[9; 96]) {
            cells[i] = cell;
        }
    }
    let mut done = 0;
    for n in 0..times {
        let i = (n % 64) as usize;
        let found = sealer.unseal(i as u64, None, &cells[i]);
        done += u64::from(hint::black_box(found).is_ok());
    }
    done
}

// A batch of the first cells of the checkpoint, which have the numbers from 0 on.
fn batch(alloc: Global, p: &Params) -> Option<Jobs> {
    let mut jobs = Jobs::new(alloc, p).ok()?;
    let base = first_cell(p)?;
    for i in 0..1000 {
        if jobs.jobs().len() < jobs.room() {
            jobs.push(Job {
                cell: base.saturating_add(i),
                generation: 1,
                number: i,
                key: None,
                result: None,
            });
        }
    }
    Some(jobs)
}

fn run_all<R: Threads + Sync>(
    rt: &R,
    store: &mut BareStore,
    sealer: &Sealer,
    crew: &mut Crew<BareLane>,
    jobs: &mut Jobs,
) -> u64 {
    let mut done = 0;
    for n in 0..BATCHES {
        if jobs.jobs().len() <= crew.jobs() {
            done += u64::from(run_jobs(rt, store, crew, sealer, jobs).is_ok());
        }
    }
    done
}

fn done<R: Threads + Sync>(rt: &R, alloc: Global, what: u8) -> Option<u64> {
    let p = Params::new(65536, 14, 4, 6, 16, 64, 256, 64, 1024).ok()?;
    let mut sealer = Sealer::new(&Keys::from_bytes(&[7; 96]), 1);
    let mut store = stored(alloc, &p, &mut sealer)?;
    let mut sheet = Sheet::new(alloc, &p).ok()?;
    let tables = match read(alloc, &mut store, &sealer, &p, 0, &mut sheet, &mut Blind) {
        Ok(tables) => tables,
        Err(_) => return None,
    };
    let mut jobs = batch(alloc, &p)?;
    let mut crew = Crew::new(alloc, 1, 1000).ok()?;
    let mut bench = Bench::new(alloc, 1).ok()?;
    Some(match what {
        b'w' => write_all(rt, &mut store, &mut sealer, &p, &tables, &mut sheet, &mut bench),
        b'r' => read_all(alloc, &mut store, &sealer, &p, &mut sheet),
        b's' => seal_all(&mut sealer),
        b'o' => open_all(&mut sealer, TIMES * CELLS),
        b'b' => run_all(rt, &mut store, &sealer, &mut crew, &mut jobs),
        b'c' => open_all(&mut sealer, 500000),
        _ => 0,
    })
}

fn main(rt: HostRuntime) -> io::Result<()> {
    let mut line = [0; 1];
    let _ = rt.stdin().read(&mut line)?;
    match done(&rt, rt.alloc(), line[0]) {
        Some(n) => println!(rt; "{n}")?,
        None => println!(rt; "none")?,
    }
    Ok(())
}
PROGRAM
invariant write_all '◌≡◌, ◌≤◌, length' 'record { few : l.done ≤ l.n; room : length l.sheet ≡ length l.initial.sheet }'
invariant read_all '◌≡◌, ◌≤◌, length' 'record { few : l.done ≤ l.n; room : length l.sheet ≡ length l.initial.sheet }'
for name in seal_all open_all; do invariant $name '◌≤◌' 'l.done ≤ l.n'; done
invariant run_all '◌≤◌' 'l.done ≤ l.n' 'g l'
build_bench
time_kinds n:0 w:20 r:20 s:663260 o:663260 b:500 c:500000
awk -v n="${best[n]}" -v w="${best[w]}" -v r="${best[r]}" -v s="${best[s]}" -v o="${best[o]}" -v b="${best[b]}" -v c="${best[c]}" 'BEGIN {
    printf "write %6.1f ms a checkpoint, %.2f of its seals\n", (w - n) * 50, (w - n) / (s - n)
    printf "read  %6.1f ms a checkpoint, %.2f of its opens\n", (r - n) * 50, (r - n) / (o - n)
    printf "batch %6.3f ms for 1,000 jobs, %.2f of their opens\n", (b - n) * 2, (b - n) / (c - n)
}'
