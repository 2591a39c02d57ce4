#!/usr/bin/env python3
"""Writes the trace of a ring store: its format, and a run of so many epochs.

    audit_trace.py N L Z S R BR BW E T EPOCHS

Labels and slots are random (the same in each call); all else is the public schedule, computed here from
its rules alone and not from the program.
"""
import random
import sys


class Trace:
    def __init__(self, numbers, out):
        (self.n, self.l, self.z, self.s, self.r, self.br, self.bw, self.e, self.t) = numbers
        self.out = out
        self.width = self.z + self.s
        self.buckets = 2 ** (self.l + 1) - 1
        self.record = -(-(20 + 13 * self.br) // 96)
        table = self.buckets * (17 + 4 * self.z + 2 * self.width)
        self.check = -(-(16 + 21 * self.n + table + 4 + 69 * self.t) // 96)
        self.logs = 9
        self.checks = self.logs + 2 * self.r * (self.record + 1)
        self.slots = self.checks + 2 * self.check
        self.homes = [0] * self.buckets
        self.counts = [0] * self.buckets
        self.used = [set() for _ in range(self.buckets)]
        self.counter = 0
        self.open_gates = set()
        self.write_line("P " + " ".join(map(str, numbers)))

    def write_line(self, line):
        self.out.write(line + "\n")

    def writes(self, cells):
        for cell in cells:
            self.write_line(f"W {cell}")

    def reads(self, cells):
        for cell in cells:
            self.write_line(f"R {cell}")

    def sync(self):
        self.write_line("S")

    def gate(self, area, batch):
        return self.logs + area * self.r * (self.record + 1) + batch * (self.record + 1) + self.record

    def gates(self, area):
        return [self.gate(area, b) for b in range(self.r)]

    def checkpoint(self, area):
        return range(self.checks + area * self.check, self.checks + (area + 1) * self.check)

    def slot(self, home, bucket, slot):
        return self.slots + home * self.buckets * self.width + bucket * self.width + slot

    def bucket(self, home, bucket):
        return [self.slot(home, bucket, i) for i in range(self.width)]

    # a register's number, whose gate is closed first where it may be open
    def set(self, base, number):
        body = base + 2 * (number % 2)
        if body + 1 in self.open_gates:
            self.writes([body + 1])
            self.sync()
        self.writes([body])
        self.sync()
        self.writes([body + 1])
        self.sync()
        self.open_gates.add(body + 1)

    def path(self, leaf):
        return [2**k - 1 + leaf // 2 ** (self.l - k) for k in range(self.l + 1)]

    def show(self, bucket):
        fresh = [i for i in range(self.width) if i not in self.used[bucket]]
        slot = random.choice(fresh)
        self.used[bucket].add(slot)
        self.reads([self.slot(self.homes[bucket], bucket, slot)])

    def format(self):
        self.writes([0])
        self.sync()
        self.writes([2, 4, 6, 8] + self.gates(0) + self.gates(1))
        self.sync()
        self.open_gates.add(4)
        self.set(1, 1)
        for bucket in range(self.buckets):
            self.writes(self.bucket(0, bucket))
        self.writes(self.checkpoint(0))
        self.sync()
        self.open_gates.add(6)
        self.set(5, 0)
        self.writes([0])
        self.sync()

    def open(self):
        self.write_line("O")
        self.reads(range(9))
        self.reads(self.checkpoint(0))
        area = self.r * (self.record + 1)
        self.reads(range(self.logs + area, self.logs + 2 * area))
        self.sync()
        self.set(1, 2)

    def place(self):
        leaf = random.randrange(2**self.l)
        self.write_line(f"L {leaf}")
        for bucket in self.path(leaf):
            if self.counts[bucket] < self.s:
                self.show(bucket)
                if self.counts[bucket] + 1 == self.s:
                    for _ in range(self.z):
                        self.show(bucket)
            self.counts[bucket] += 1

    def batch(self, epoch, batch):
        gate = self.gate(epoch % 2, batch)
        self.writes(range(gate - self.record, gate))
        self.sync()
        self.writes([gate])
        self.sync()
        for _ in range(self.br):
            self.place()

    def evicted(self):
        buckets = []
        for i in range(self.e):
            low = (self.counter + i) % 2**self.l
            leaf = int(format(low, f"0{self.l}b")[::-1], 2)
            buckets += [u for u in self.path(leaf) if u not in buckets]
        return buckets

    def end(self, epoch):
        evicted = self.evicted()
        lifted = {u for u in range(self.buckets) if self.counts[u] >= self.s} | set(evicted)
        for bucket in evicted:
            if self.counts[bucket] < self.s:
                for _ in range(self.z):
                    self.show(bucket)
        for level in range(self.l, -1, -1):
            for bucket in range(2**level - 1, 2 ** (level + 1) - 1):
                if bucket in lifted:
                    self.writes(self.bucket(1 - self.homes[bucket], bucket))
        self.writes(self.checkpoint(epoch % 2))
        self.writes(self.gates((epoch + 1) % 2))
        self.sync()
        self.set(5, epoch)
        for bucket in lifted:
            self.homes[bucket] = 1 - self.homes[bucket]
            self.counts[bucket] = 0
            self.used[bucket] = set()
        self.counter = (self.counter + self.e) % 2**self.l


def main():
    random.seed(1)
    numbers = [int(word) for word in sys.argv[1:]]
    trace = Trace(numbers[:9], sys.stdout)
    trace.format()
    trace.open()
    for epoch in range(1, numbers[9] + 1):
        for batch in range(trace.r):
            trace.batch(epoch, batch)
        trace.end(epoch)


main()
