#!/usr/bin/env python3
"""Measures how fast the program judges journals that it left, and what memory that takes.

    replay.py OUT PROGRAM

OUT is a folder for loads, journals and lines, with the tool `measure`. A node answers 100,000 anchored
reads, and 1,000,000; and 60,000 reads behind a login with four certificates, each of another object than
those whose proofs are kept, so that each is a miss. Its journals are judged, the best of nine times each.
It fails where 1,000,000 reads are judged at less than 800,000 entries a second, or take more than 1.15 times
ten times the processor time of 100,000; where logins take more than 0.6 of the processor time in which the
node answered them; where the memory is more than that of the node and 1.3 times the bytes of the journals;
or where journals that are refused at their first byte, about their middle or at their last byte take more
processor time than legal ones, a twentieth aside.
"""
import os
import subprocess
import sys

import kept
import load
from journal import say

FEW, MANY, LOGINS, OBJECTS = 100_000, 1_000_000, 60_000, 65
# The most entries of each journal of a shard and so many objects.
LIMIT = 8_388_608 // (OBJECTS + 1)
LEAST_RATE, MOST_TIMES, MOST_OF_RUN, MOST_BYTES, MOST_REFUSED = 800_000, 1.15, 0.6, 1.3, 1.05
TRIES, RUNS = 40, 9


class Took:
    """What a run took: seconds, those of processor time, its peak memory in bytes."""

    def __init__(self, line):
        passed, worked, peak = line.split()
        self.passed, self.worked, self.peak = float(passed), float(worked), int(peak) * 1024


class Load:
    """An opening and frames for it, and what the program leaves of them."""

    def __init__(self, out, program, name):
        self.out, self.program, self.name = out, program, name

    def path(self, what):
        return os.path.join(self.out, f"{self.name}_{what}")

    def ran(self, source, target, *words, status=0):
        """Runs the program on a file, to a file."""
        tool = os.path.join(self.out, "measure")
        words = [tool, source, target, self.program, self.path("opening"), "-", "-", *words]
        told = subprocess.run(words, stdout=subprocess.PIPE, stderr=subprocess.DEVNULL, text=True)
        if bool(told.returncode) != bool(status):
            raise RuntimeError(f"{self.name}: {' '.join(words[7:])} ended otherwise than with status {status}")
        return Took(told.stdout)

    def left(self):
        """Has the journals left, and tells what the node took that answered alone."""
        self.ran(self.path("frames"), self.path("journals"), "audit-bytes")
        took = [self.ran(self.path("frames"), self.path("replies"), "run") for _ in range(RUNS)]
        return min(took, key=lambda it: it.worked)

    def judged(self):
        """What it took to judge the journals, the best of some runs, and how many entries there were."""
        took = [self.ran(self.path("journals"), self.path("line"), "replay") for _ in range(RUNS)]
        with open(self.path("line")) as file:
            words = file.read().split()
        kept.want("as the line", words[:2], ["legal", "entries"])
        return min(took, key=lambda it: it.worked), int(words[2])

    def refused(self, at):
        """What it took to refuse the journals with a bit turned at this byte, or behind it where that is legal too."""
        with open(self.path("journals"), "rb") as file:
            text = bytearray(file.read())
        at %= len(text)
        for place in range(at, min(at + TRIES, len(text))):
            text[place] ^= 1
            with open(self.path("turned"), "wb") as file:
                file.write(text)
            text[place] ^= 1
            try:
                took = [self.ran(self.path("turned"), self.path("line"), "replay", status=14) for _ in range(RUNS)]
            except RuntimeError:
                continue
            with open(self.path("line")) as file:
                return min(it.worked for it in took), file.read().strip()
        raise RuntimeError(f"{self.name}: nothing about byte {at} is refused")

    def size(self):
        return os.path.getsize(self.path("journals"))


def reads(out, program, count):
    it = Load(out, program, f"reads_{count}")
    load.write(it.path("opening"), it.path("frames"), count)
    os.chmod(it.path("opening"), 0o600)
    return it


def logins(out, program):
    it = Load(out, program, "logins")
    signer, who = kept.USERS[0]
    base = kept.acting(kept.WORKSTATION, kept.name(who))
    lists = [[kept.in_role(base, 100 + number)] for number in range(OBJECTS)]
    kept.write_secret(it.path("opening"), kept.opening(1, LIMIT, [1], [(kept.MACHINE, kept.WS1), (signer, who)], lists))
    with open(it.path("frames"), "wb") as file:
        for seq in range(1, LOGINS + 1):
            certificates = kept.login_of(1, 0) if seq == 1 else []
            file.write(kept.frame(1, seq, kept.name(who), kept.OBJECT + seq % OBJECTS, certificates))
    return it


class Bounds:
    """What was held against a bound, and whether all were kept."""

    def __init__(self):
        self.status = 0

    def hold(self, is_kept, text):
        say(text if is_kept else f"{text}: THE BOUND IS NOT KEPT")
        self.status |= not is_kept


def memory(bounds, it, node, took):
    most = node.peak + MOST_BYTES * it.size()
    mib = 1 << 20
    bounds.hold(took.peak <= most, f"{it.name}: peak memory {took.peak / mib:.1f} MiB; of the node {node.peak / mib:.1f},"
                f" bytes of its journals {it.size() / mib:.1f}")


def measured(out, program):
    bounds, few, many, missed = Bounds(), reads(out, program, FEW), reads(out, program, MANY), logins(out, program)
    few.left()
    fewer, _ = few.judged()
    node = many.left()
    legal, entries = many.judged()
    rate, times = entries / legal.passed, legal.worked / (10 * fewer.worked)
    bounds.hold(rate >= LEAST_RATE, f"{MANY:,} reads, {entries:,} entries: {rate:,.0f} a second")
    bounds.hold(times <= MOST_TIMES, f"{MANY:,} reads to ten times {FEW:,}: {times:.2f}")
    memory(bounds, many, node, legal)
    for what, at in (("first byte", 0), ("middle", many.size() // 2), ("last byte", many.size() - 1)):
        worked, line = many.refused(at)
        times = worked / legal.worked
        bounds.hold(times <= MOST_REFUSED, f"refused about the {what} ({line}): {times:.2f} of the time of legal ones")
    run = missed.left()
    judged, entries = missed.judged()
    times = judged.worked / run.worked
    bounds.hold(times <= MOST_OF_RUN, f"{LOGINS:,} logins, each a miss, {entries:,} entries: {times:.2f} of the time of the run")
    memory(bounds, missed, run, judged)
    return bounds.status


def main(words):
    if len(words) != 2:
        print(__doc__, end="", file=sys.stderr)
        return 2
    try:
        return measured(*words)
    except RuntimeError as fault:
        print(f"replay.py: {fault}", file=sys.stderr)
        return 1


if __name__ == "__main__":
    sys.exit(main(sys.argv[1:]))
