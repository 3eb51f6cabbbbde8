#!/usr/bin/env python3
"""Measures the program on its journal: the rate at few entries and at many, and the memory of an entry.

    journal.py rate OUT PROGRAM [RUNS]
    journal.py memory OUT PROGRAM

OUT is a folder for the load and the replies. By `rate` the program answers 1,000,000 anchored reads,
the most of one run, in each of RUNS runs (5). The reads come by a pipe, up to a mark at a time: what
follows a mark is written once all replies before it are there. So the program stands still at each mark,
and what it took from one to the next is that of the reads between. These windows are compared, best of
all runs each: the first begins at 1,000 entries, the last ends at 1,000,000. It fails where the last
takes more than 1.15 times the processor time of the first.

By `memory` the program opens a node with no object, so that the shard's journal is the only one, and is
looked at once it waits for its input: at a journal limit of 1,000 and at one of 1,000,000. The difference
of its address space is what the journal reserves. It fails where that is more than 256 bytes an entry.
The memory that is in use behind 1,000 reads and behind 1,000,000 is printed beside it.
"""
import os
import subprocess
import sys
import time

import load

FEW, MANY, LIMIT = 1_000, 1_000_000, 1_048_576
WINDOW = 10_000
RUNS, MOST_TIMES, MOST_BYTES = 5, 1.15, 256
PIECE = 65_536
# A reply that does not come for so long is not waited for.
PATIENCE = 60


def say(text):
    print(text, flush=True)


class Program:
    """The program as it runs, over a pipe of frames and a file of replies."""

    def __init__(self, program, opening, replies):
        self.out = open(replies, "wb+")
        words = [program, opening, "-", "-", "run"]
        self.child = subprocess.Popen(words, stdin=subprocess.PIPE, stdout=self.out, bufsize=0)
        self.wanted = 0

    def feed(self, frames, replies):
        """Writes these frames, and waits until replies of so many bytes more are there."""
        text = memoryview(frames)
        for at in range(0, len(text), PIECE):
            piece = text[at : at + PIECE]
            while piece:
                piece = piece[self.child.stdin.write(piece) :]
        self.wanted += replies
        start = time.monotonic()
        while os.fstat(self.out.fileno()).st_size < self.wanted:
            if self.child.poll() is not None or time.monotonic() - start > PATIENCE:
                raise RuntimeError("the replies do not come")
            time.sleep(0.0001)
        while self.state() not in "SD":
            time.sleep(0.0001)

    def state(self):
        with open(f"/proc/{self.child.pid}/stat") as file:
            return file.read().rpartition(")")[2].split()[0]

    def worked(self):
        """The seconds of processor time so far."""
        with open(f"/proc/{self.child.pid}/schedstat") as file:
            return int(file.read().split()[0]) / 1e9

    def memory(self):
        """The most KiB of its address space so far, and of its memory in use."""
        with open(f"/proc/{self.child.pid}/status") as file:
            fields = dict(line.split(":", 1) for line in file)
        return [int(fields[name].split()[0]) for name in ("VmPeak", "VmHWM")]

    def end(self):
        self.child.stdin.close()
        status = self.child.wait()
        self.out.close()
        if status != 0:
            raise RuntimeError(f"the program ended with status {status}")


def frames_of(first, last):
    return b"".join(load.frame(seq) for seq in range(first, last + 1))


def opening_of(out, limit, objects=True):
    path = os.path.join(out, "opening")
    with open(path, "wb") as file:
        file.write(load.opening(limit, objects))
    return path


def frames_file(out):
    """The reads, from the first to the last, in a file; it is left as it is where it has them all."""
    path = os.path.join(out, "many_frames")
    size = MANY * len(load.frame(1))
    if not os.path.exists(path) or os.path.getsize(path) != size:
        with open(path, "wb") as file:
            for first in range(1, MANY, FEW):
                file.write(frames_of(first, first + FEW - 1))
    with open(path, "rb") as file:
        return file.read()


# The length of the reply's frame: a grant of an anchored read.
REPLY = 4 + load.HEAD.size + load.GRANT.size + 4 + 23 + 1 + 2 + len(load.CONTENT) + load.TAG


def windows():
    """The windows that are measured: the first, some between, and the last."""
    firsts = [FEW] + [MANY * part // 4 for part in (1, 2, 3)] + [MANY - WINDOW]
    return [(first, first + WINDOW) for first in firsts]


def rate_run(program, opening, replies, frames):
    """For each window the seconds of processor time and those of the clock."""
    length, runs, at, took = len(load.frame(1)), Program(program, opening, replies), 0, []
    for first, last in windows():
        runs.feed(frames[at * length : first * length], (first - at) * REPLY)
        worked, start = runs.worked(), time.monotonic()
        runs.feed(frames[first * length : last * length], (last - first) * REPLY)
        took.append((runs.worked() - worked, time.monotonic() - start))
        at = last
    memory = runs.memory()
    runs.end()
    return took, memory


def rate(out, program, runs=RUNS):
    frames, opening = frames_file(out), opening_of(out, LIMIT)
    replies = os.path.join(out, "many_replies")
    taken = [rate_run(program, opening, replies, frames) for _ in range(int(runs))]
    status = load.check(replies, MANY, load.GRANTED, load.Grants())
    say("entries of the journal    processor time a read    reads per second    best of each")
    best = []
    for place, (first, last) in enumerate(windows()):
        worked = min(took[place][0] for took, _ in taken) / WINDOW
        passed = min(took[place][1] for took, _ in taken) / WINDOW
        best.append(worked)
        say(f"{first:9,} to {last:9,} {worked * 1e6:19.2f} us {1 / passed:19,.0f}")
    spread = [max(took[place][0] for took, _ in taken) / WINDOW * 1e6 for place in (0, -1)]
    say(f"the worst of the first {spread[0]:.2f} us, of the last {spread[1]:.2f} us")
    times = best[-1] / best[0]
    say(f"processor time of a read, at {MANY:,} entries / at {FEW:,}: {times:.2f}")
    if times > MOST_TIMES:
        say(f"THAT IS MORE THAN {MOST_TIMES}")
        status = 1
    return status


def memory_at(out, program, limit, filled):
    """The address space and the memory in use, behind so many reads."""
    opening = opening_of(out, limit, objects=filled > 0)
    runs = Program(program, opening, os.path.join(out, "many_replies"))
    if filled:
        frames, length = frames_file(out), len(load.frame(1))
        runs.feed(frames[: filled * length], filled * REPLY)
    else:
        # An empty frame is answered as malformed, without an entry; then the node is open, and waits.
        runs.feed(bytes(4), 4 + load.HEAD.size + 4 + load.TAG)
    told = runs.memory()
    runs.end()
    return told


def each(few, many):
    return (many - few) * 1024 / (MANY - FEW)


def memory(out, program):
    (reserved, in_use), (reserved_many, in_use_many) = (memory_at(out, program, limit, 0) for limit in (FEW, MANY))
    fixed = reserved - each(reserved, reserved_many) * FEW / 1024
    bytes_each = each(reserved, reserved_many)
    say(f"address space at a limit of {FEW:,}: {reserved} KiB, of {MANY:,}: {reserved_many} KiB,")
    say(f"so {bytes_each:.1f} bytes for each entry of the journal, beside {fixed / 1024:.1f} MiB")
    say(f"memory in use, before the first read: {in_use} KiB, {in_use_many} KiB")
    full = [memory_at(out, program, MANY, filled)[1] for filled in (FEW, MANY)]
    say(f"memory in use behind {FEW:,} reads: {full[0]} KiB, behind {MANY:,}: {full[1]} KiB,")
    say(f"so {each(*full):.1f} bytes for each read, with all that its entry names")
    if bytes_each > MOST_BYTES:
        say(f"THAT IS MORE THAN {MOST_BYTES} BYTES RESERVED FOR AN ENTRY")
        return 1
    return 0


def main(words):
    try:
        if words[:1] == ["rate"] and len(words) in (3, 4):
            return rate(*words[1:])
        if words[:1] == ["memory"] and len(words) == 3:
            return memory(*words[1:])
    except RuntimeError as fault:
        print(f"journal.py: {fault}", file=sys.stderr)
        return 1
    print(__doc__, end="", file=sys.stderr)
    return 2


if __name__ == "__main__":
    sys.exit(main(sys.argv[1:]))
