#!/usr/bin/env bash
# Measures what an epoch and a format take whose cells are sealed by several threads and handed to the system
# by neighbours: at 65,536 keys, on a file in memory, a program beside an earlier one, with 4 lanes and with
# one, and beside a program in C that makes the same reads, writes and syncs, and seals or opens each cell
# with OpenSSL's ChaCha20 and SHA-256 by one thread; 1,000 transactions of one client at 256 keys; the calls
# by which an epoch's checkpoint goes out; and memory. An epoch is a run of nine, less one of one, by eight.
# What is aimed at, by the clock, on four processors with nothing else running: an epoch at most 0.45 of the
# earlier program's, and at most the C program's; a format 0.4; an epoch with one lane 1.02; the transactions
# 0.7; and anyhow a call for each 200 cells of a checkpoint, and 0.5 MB more. It fails where one is missed.
# Times and memory are the fewest of so many rounds (5), times by the clock and of the processor.
# It needs gcc with OpenSSL's headers, python3 and strace, and 300 MB in /dev/shm for its temporary folder.
#
#   seal_runs.sh PROGRAM BEFORE [ROUNDS]    two built programs
set -euo pipefail
program=$(realpath "$1")
before=$(realpath "$2")
rounds=${3-5}
work=$(mktemp -d -p /dev/shm)
trap 'rm -rf "$work"' EXIT
python3 -c 'print(bytes(range(96)).hex())' >"$work/keys"

cat >"$work/same.c" <<'C'
#define OPENSSL_SUPPRESS_DEPRECATED
#include <fcntl.h>
#include <openssl/evp.h>
#include <openssl/sha.h>
#include <stdio.h>
#include <string.h>
#include <unistd.h>
static unsigned char keys[64], cells[512][128];
static EVP_CIPHER_CTX *cipher;
// Seals a cell, or opens it, which takes the same: the pad over 96 bytes, and the tag of 152.
static void seal(unsigned char *cell, long at) {
    unsigned char place[16] = {0}, tag[32], tagged[152];
    int many;
    memcpy(place, &at, 8);
    EVP_EncryptInit_ex(cipher, NULL, NULL, keys, place);
    EVP_EncryptUpdate(cipher, cell + 16, &many, cell + 16, 96);
    memcpy(tagged, keys + 32, 32);
    memcpy(tagged + 32, &at, 8);
    memcpy(tagged + 40, cell, 112);
    SHA256(tagged, 152, tag);
    memcpy(cell + 112, tag, 16);
}
// The calls of a run on its store, in their order: of each a letter (R, W or S) and, behind a read or a
// write, its first cell and how many.
int main(int argc, char **argv) {
    long at, many, i;
    int kind, file = argc > 2 ? open(argv[1], O_RDWR) : -1;
    FILE *calls = argc > 2 ? fopen(argv[2], "r") : NULL;
    cipher = EVP_CIPHER_CTX_new();
    if (file < 0 || !calls || !cipher || !EVP_EncryptInit_ex(cipher, EVP_chacha20(), NULL, keys, keys)) return 1;
    while ((kind = getc(calls)) != EOF) {
        if (kind == 'S' && fsync(file) != 0) return 1;
        if (kind != 'R' && kind != 'W') continue;
        if (fscanf(calls, "%ld %ld", &at, &many) != 2 || many < 1 || many > 512) return 1;
        if (kind == 'R' && pread(file, cells, 128 * many, 128 * at) < 0) return 1;
        for (i = 0; i < many; i++) seal(cells[i], at + i);
        if (kind == 'W' && pwrite(file, cells, 128 * many, 128 * at) != 128 * many) return 1;
    }
    return 0;
}
C
gcc -O2 -o "$work/same" "$work/same.c" -lcrypto

python3 - "$work" "$program" "$before" "$rounds" <<'PY'
import os, re, shutil, subprocess, sys, time
work, now, before, rounds = sys.argv[1:]
keys, calls = work + "/keys", work + "/calls"
LARGE, SMALL = "65536 14 4 6 8 16 64 64 1024".split(), "256 8 4 6 4 4 8 8 256".split()

def ran(words, script=b""):
    """The seconds of a command by the clock and of the processor, and the most MB that it had."""
    open(work + "/script", "wb").write(script)
    with open(work + "/script", "rb") as source, open(work + "/report", "wb") as sink:
        begun = time.monotonic()
        started = subprocess.Popen(words, stdin=source, stdout=sink)
        _, status, used = os.wait4(started.pid, 0)
        started.returncode = status
        clock = time.monotonic() - begun
    assert status == 0, (words, status, open(work + "/report", "rb").read()[-80:])
    return clock, used.ru_utime + used.ru_stime, used.ru_maxrss * 1024 / 1e6

def puts(many, keys):
    """A script of so many transactions with a put each: an epoch each."""
    return b"client 1\n" + b"".join(b"begin\nput %d value %d\ncommit\n" % (i * 89 % keys, i) for i in range(many))

def format_with(program, store, numbers):
    if os.path.exists(store):
        os.remove(store)
    return ran([program, "format", store, keys] + numbers)

def run_with(program, store, lanes, script):
    return ran([program, "run", store, keys, "--turns", "--lanes", str(lanes)], script)

def seen(epochs):
    """The calls of the program's run of so many epochs over a store of its own, as strace sees them."""
    words = ["strace", "-f", "-s", "0", "-P", store_of[now], "-o", work + "/seen", "-e", "trace=pread64,pwrite64,fsync"]
    ran(words + [now, "run", store_of[now], keys, "--turns", "--lanes", "1"], puts(epochs, 65536))
    found = []
    for line in open(work + "/seen"):
        cells = re.search(r"p(read|write)64\(\d+, .*, (\d+), (\d+)\)", line)
        if cells:
            found.append(("R" if cells[1] == "read" else "W", int(cells[3]) // 128, int(cells[2]) // 128))
        elif re.search(r"fsync\(\d", line):
            found.append(("S", 0, 0))
    return found

def write_calls(found, path):
    open(path, "w").write("".join("S\n" if kind == "S" else "%s %d %d\n" % (kind, at, many) for kind, at, many in found))

def less(most, least):
    """The time of an epoch: that of nine, less that of one, by eight."""
    return [(a - b) / 8 for a, b in zip(most, least)]

def fewest(kept, name, found):
    kept[name] = [min(a, b) for a, b in zip(kept.get(name, found), found)]

store_of = {now: work + "/now", before: work + "/before", "C": work + "/beside"}
best, peak = {}, {}
for _ in range(int(rounds)):
    for program in (now, before):
        taken = format_with(program, store_of[program], LARGE)
        fewest(best, ("format", program), taken[:2])
        peak["format", program] = min(peak.get(("format", program), taken[2]), taken[2])
shutil.copy(store_of[now], store_of["C"])
write_calls(seen(9), work + "/calls9")
one = seen(1)
write_calls(one, work + "/calls1")
for _ in range(int(rounds)):
    for program in (now, before):
        for lanes in (4, 1):
            nine = run_with(program, store_of[program], lanes, puts(9, 65536))
            single = run_with(program, store_of[program], lanes, puts(1, 65536))
            fewest(best, ("nine", program, lanes), nine[:2])
            fewest(best, ("one", program, lanes), single[:2])
            peak["run", program] = min(peak.get(("run", program), nine[2]), nine[2])
    for name in ("nine", "one"):
        fewest(best, (name, "C"), ran([work + "/same", store_of["C"], work + "/calls" + ("9" if name == "nine" else "1")])[:2])
for path in store_of.values():
    os.remove(path)
for _ in range(int(rounds)):
    for program in (now, before):
        format_with(program, store_of[program], SMALL)
        fewest(best, ("small", program), run_with(program, store_of[program], 4, puts(1000, 256))[:2])

def epoch(*which):
    return less(best[("nine",) + which], best[("one",) + which])

missed = []

def tell(what, found, other, most):
    ratio = found[0] / other[0]
    print("%s: %.1f ms by the clock, beside %.1f: %.2f (%.2f is aimed at); of the processor %.1f and %.1f ms: %.2f" % (
        what, 1e3 * found[0], 1e3 * other[0], ratio, most, 1e3 * found[1], 1e3 * other[1], found[1] / other[1]))
    if ratio > most:
        missed.append(what)

tell("an epoch at 65,536 keys, 4 lanes, beside the earlier program's", epoch(now, 4), epoch(before, 4), 0.45)
tell("beside the C program's", epoch(now, 4), epoch("C"), 1.0)
tell("with one lane, beside the earlier program's", epoch(now, 1), epoch(before, 1), 1.02)
tell("a format", best["format", now], best["format", before], 0.4)
tell("1,000 transactions at 256 keys", best["small", now], best["small", before], 0.7)
# The checkpoint areas are the cells from 9 + 2 * R * (c + 1) to the homes; a run's last one is one of them.
area, first = 33163, 9 + 2 * 8 * 4
parts = [many for kind, at, many in one if kind == "W" and first <= at < first + 2 * area]
print("an epoch's checkpoint: %d cells by %d calls, %d cells a call (200 are aimed at); of the epoch %d writes" % (
    sum(parts), len(parts), sum(parts) // len(parts), sum(kind == "W" for kind, _, _ in one)))
if sum(parts) != area or area < 200 * len(parts):
    missed.append("the checkpoint's calls")
for what in ("format", "run"):
    print("memory of a %s: %.1f MB, beside %.1f (0.5 more are aimed at)" % (what, peak[what, now], peak[what, before]))
    if peak[what, now] > peak[what, before] + 0.5:
        missed.append("memory of a " + what)
for what in missed:
    print("missed:", what)
sys.exit(1 if missed else 0)
PY
