#!/usr/bin/env bash
# Measures what a mirror costs: 1,000 transactions of one client at 256 keys over one file and over two on the
# same disk, by the clock and by the processor; and the copy that a run with --mirror makes first, of a store
# of 65,536 keys (721,739 cells, 92 MB) between files in memory, beside a program in C that makes the same
# reads, writes and the one sync. The copy is what a run of no script takes longer with a mirror than without.
# What is aimed at, with nothing else running: the transactions at most 2.1 times as long, and 1.15 times the
# processor's time; the copy at most 0.9 s, and at most 1.2 times the C program. It fails where one is missed.
# Times are the fewest of so many rounds (5), in turns.
# It needs gcc, python3, 300 MB in /dev/shm, and a little on the disk of TMPDIR for its temporary folders.
#
#   mirror.sh PROGRAM [ROUNDS]    a built program
set -euo pipefail
program=$(realpath "$1")
rounds=${2-5}
memory=$(mktemp -d -p /dev/shm)
disk=$(mktemp -d)
trap 'rm -rf "$memory" "$disk"' EXIT
cat >"$memory/copy.c" <<'C'
#include <fcntl.h>
#include <stdlib.h>
#include <string.h>
#include <unistd.h>
// Copies so many cells of 128 bytes, each read by itself, 512 of them written at once, and syncs. Behind the
// file's end they are zeros.
int main(int argc, char **argv) {
    static unsigned char cells[512][128];
    int from = argc > 3 ? open(argv[1], O_RDONLY) : -1, to = argc > 3 ? open(argv[2], O_RDWR | O_CREAT, 0600) : -1;
    long many = argc > 3 ? atol(argv[3]) : 0, at, held = 0;
    if (from < 0 || to < 0) return 1;
    for (at = 0; at < many; at++) {
        long got = pread(from, cells[held], 128, 128 * at);
        if (got < 0) return 1;
        memset(cells[held] + got, 0, 128 - got);
        if (++held < 512 && at + 1 < many) continue;
        if (pwrite(to, cells, 128 * held, 128 * (at + 1 - held)) != 128 * held) return 1;
        held = 0;
    }
    return fsync(to) != 0;
}
C
gcc -O2 -o "$memory/copy" "$memory/copy.c"
python3 - "$memory" "$disk" "$program" "$rounds" <<'PY'
import os, subprocess, sys, time
memory, disk, program, rounds = sys.argv[1:]
LARGE, SMALL = "65536 14 4 6 8 16 64 64 1024".split(), "256 8 4 6 4 4 8 8 256".split()

def ran(words, folder, script=b""):
    """The seconds of a command by the clock and of the processor."""
    open(folder + "/script", "wb").write(script)
    with open(folder + "/script", "rb") as source, open(folder + "/report", "wb") as sink:
        begun = time.monotonic()
        started = subprocess.Popen(words, stdin=source, stdout=sink)
        _, status, used = os.wait4(started.pid, 0)
        started.returncode = status
        clock = time.monotonic() - begun
    if status:
        sys.exit(f"{words}: status {status}: {open(folder + '/report').read()[-200:]}")
    return clock, used.ru_utime + used.ru_stime

def fewest(kinds):
    """The fewest of both, kind by kind, in turns."""
    best = {}
    for _ in range(int(rounds)):
        for name, once in kinds.items():
            clock, used = once()
            was = best.get(name, (clock, used))
            best[name] = min(was[0], clock), min(was[1], used)
    return best

def store_in(folder, numbers):
    open(folder + "/keys", "w").write(bytes(range(96)).hex())
    ran([program, "format", folder + "/store", folder + "/keys", *numbers], folder)
    return [program, "run", folder + "/store", folder + "/keys"]

missed = []
def held(what, value, most, unit=""):
    print(f"{'met' if value <= most else 'missed'}: {what} {value:.2f}{unit} (at most {most}{unit})")
    if value > most:
        missed.append(what)

lines = ["client 1"]
for i in range(1000):
    lines += ["begin", f"put {i % 256} value{i}", "commit"]
script = ("\n".join(lines) + "\n").encode()
run = store_in(disk, SMALL)
took = fewest({"one": lambda: ran(run, disk, script), "two": lambda: ran([*run, "--mirror", disk + "/second"], disk, script)})
(one, one_used), (two, two_used) = took["one"], took["two"]
print(f"1,000 transactions at 256 keys: one file {one:.2f} s, two {two:.2f} s; of the processor {one_used:.2f} s, {two_used:.2f} s")
run = store_in(memory, LARGE)
cells = int(open(memory + "/report").read().split()[2])
took = fewest({
    "without": lambda: ran([*run, "--lanes", "1"], memory),
    "with": lambda: ran([*run, "--lanes", "1", "--mirror", memory + "/second"], memory),
    "c": lambda: ran([memory + "/copy", memory + "/store", memory + "/second", str(cells)], memory),
})
copy, c = took["with"][0] - took["without"][0], took["c"][0]
print(f"a copy of {cells:,} cells: {copy:.2f} s, in C {c:.2f} s")
held("two files, by the clock, times", two / one, 2.1)
held("by the processor, times", two_used / one_used, 1.15)
held("the copy", copy, 0.9, " s")
held("the copy, times the C program", copy / c, 1.2)
sys.exit(bool(missed))
PY
