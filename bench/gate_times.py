#!/usr/bin/env python3
"""Runs a command, `rt ci` with its words, and tells where its processor seconds went.

Twice a second it looks at each process below the command: whose it is (its crate), what it does (its
kind), and how long it has run. What a process used behind the last look is told by its parent's count,
once it has ended. Prints a table of kinds, one of crates, the processor seconds that stood idle, and
what ran alone at the end; the sum is held against what the system counts for the whole command.
"""
import collections
import os
import re
import subprocess
import sys
import time

TICK = os.sysconf("SC_CLK_TCK")
LOOK = 0.5
KINDS = ["library", "crate of tests", "tests inside of a crate", "edits: a crate once more", "edits: each",
         "compiler and linker", "running tests and programs", "rt itself"]
OWN = (KINDS[-1], None)


def stat_of(pid):
    """A process's parent, and its own ticks and those of its ended children; None where it is gone."""
    try:
        with open(f"/proc/{pid}/stat") as file:
            fields = file.read().rpartition(")")[2].split()
    except OSError:
        return None
    own, ended = int(fields[11]) + int(fields[12]), int(fields[13]) + int(fields[14])
    return int(fields[1]), own, ended


def words_of(pid):
    """The words that a process was started with, and the folder that it is in."""
    try:
        with open(f"/proc/{pid}/cmdline", "rb") as file:
            words = file.read().decode(errors="replace").split("\0")
        return words, os.readlink(f"/proc/{pid}/cwd")
    except OSError:
        return [], ""


def kind_of(words, folder):
    """What a process does, and for which crate; None where its parent's answer holds for it."""
    text = " ".join(words)
    crate = words[words.index("--crate-name") + 1] if "--crate-name" in words[:-1] else None
    program = os.path.basename(words[0]) if words else ""
    if "/rt-run-" in text or "/rt-run-" in folder:
        return "running tests and programs", (re.search(r"/bin/(\w+?)(_tests)?(\.by-rattle)?( |$)", text) or [None, None])[1]
    if program != "rattle" or crate is None:
        is_tool = re.match(r"clang|ld|lld|rattle-link|rattle-x64|llc|opt", program)
        return ("compiler and linker", crate) if is_tool else None
    if "/rt-edit-" in folder:
        over = words[words.index("--incremental") + 1] if "--incremental" in words[:-1] else ""
        return "edits: a crate once more" if over.endswith("/seed") else "edits: each", crate
    if "--test" in words:
        return "crate of tests" if crate.endswith(("_tests", "_cases")) else "tests inside of a crate", crate
    return "library", crate


class Run:
    """What was seen of the processes below one."""

    def __init__(self, root):
        self.root, self.seen, self.ended = root, {}, 0
        self.used = collections.Counter()
        self.shown = []

    def look(self):
        """Looks once at all processes below the root."""
        alive = {int(name): stat for name in os.listdir("/proc") if name.isdigit() for stat in [stat_of(name)] if stat}
        below, busy = {self.root}, collections.Counter()
        for pid in sorted(alive):
            # A process has a greater number than its parent, but for those behind a wrap of numbers.
            if alive[pid][0] in below:
                below.add(pid)
        for pid in below & alive.keys():
            parent, own, _ = alive[pid]
            if pid not in self.seen:
                self.seen[pid] = [OWN, 0, self.child_of(pid, parent)]
            one = self.seen[pid]
            if one[0] == OWN and pid != self.root:
                # A process that was seen before it became another program is asked again.
                of = self.seen.get(parent)
                one[0] = kind_of(*words_of(pid)) or (of[0] if of else OWN)
            if own > one[1]:
                self.used[one[0]] += own - one[1]
                busy[one[0]] += own - one[1]
                one[1] = own
        self.settle(alive)
        self.shown.append((time.time(), busy))

    def child_of(self, pid, parent):
        """Which child of the root a process stands below."""
        if parent == self.root or pid == self.root:
            return pid
        return self.seen[parent][2] if parent in self.seen else pid

    def settle(self, alive):
        """Gives what ended children of the root used unseen to them, in equal shares."""
        if self.root not in alive:
            return
        gone = [pid for pid, one in self.seen.items() if one[2] == pid != self.root and pid not in alive]
        told = sum(one[1] for one in self.seen.values() if one[2] in gone)
        unseen = alive[self.root][2] - self.ended - told
        self.ended = alive[self.root][2]
        for pid in gone or [self.root]:
            self.used[self.seen[pid][0]] += unseen / len(gone or [1])
        for pid in [pid for pid, one in self.seen.items() if one[2] in gone]:
            del self.seen[pid]

    def alone(self):
        """What used a processor from the last moment on at which two did."""
        last = max((at for at, busy in self.shown if len([n for n in busy.values() if n > TICK * LOOK / 4]) > 1), default=0)
        found = collections.Counter()
        for at, busy in self.shown:
            if at > last:
                found.update(busy)
        return self.shown[-1][0] - last if self.shown else 0, found


def idle_ticks():
    """The ticks of all processors that stood idle, and those that another machine took."""
    with open("/proc/stat") as file:
        fields = list(map(int, file.readline().split()[1:]))
    return fields[3] + fields[4], fields[7]


def report(run, wall, counted, idle, stolen):
    """Prints the tables."""
    kinds, crates = collections.Counter(), collections.defaultdict(collections.Counter)
    for (kind, crate), ticks in run.used.items():
        kinds[kind] += ticks / TICK
        crates[crate or "(none)"][kind] += ticks / TICK
    whole = sum(kinds.values())
    print(f"wall {wall:.0f} s, {os.cpu_count()} processors; {whole:.0f} processor seconds in this table, "
          f"{counted:.0f} by the system's count ({100 * (whole / counted - 1):+.1f} %); idle {idle:.0f}, stolen {stolen:.0f}")
    print("\n| Kind | Processor seconds | Share |\n|---|---|---|")
    for kind in KINDS:
        print(f"| {kind} | {kinds[kind]:.0f} | {100 * kinds[kind] / whole:.1f} % |")
    print("\n| Crate | All | " + " | ".join(KINDS[:5]) + " |\n|---|---|" + "---|" * 5)
    for crate, of in sorted(crates.items(), key=lambda it: -sum(it[1].values())):
        print(f"| {crate} | {sum(of.values()):.0f} | " + " | ".join(f"{of[kind]:.0f}" for kind in KINDS[:5]) + " |")
    seconds, found = run.alone()
    print(f"\nalone at the end: {seconds:.0f} s, of which " + ", ".join(
        f"{kind} {crate or ''} {ticks / TICK:.0f}" for (kind, crate), ticks in found.most_common(8)))


def main():
    began, (idle, stolen) = time.time(), idle_ticks()
    ran = subprocess.Popen(sys.argv[1:], stdin=subprocess.DEVNULL)
    run = Run(ran.pid)
    while True:
        pid, status, used = os.wait4(ran.pid, os.WNOHANG)
        if pid:
            break
        run.look()
        time.sleep(LOOK)
    ran.returncode = os.waitstatus_to_exitcode(status)
    idle, stolen = ((now - then) / TICK for now, then in zip(idle_ticks(), (idle, stolen)))
    report(run, time.time() - began, used.ru_utime + used.ru_stime, idle, stolen)
    sys.exit(ran.returncode)


main()
