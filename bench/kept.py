#!/usr/bin/env python3
"""Measures the program on kept proofs: their memory, the instructions of a hit, a miss and an eviction, and the
time of a hit.

    kept.py memory OUT PROGRAM
    kept.py count OUT PROGRAM
    kept.py time OUT PROGRAM

OUT is a folder for the load and the replies. By `memory` the node has 64 shards, and 16 channels in each.
On each channel four users log in on one machine, each by a session of its own, and read: so each shard
keeps the proofs of 64 logins, of four certificates each, which is as many as it can. All is asked once
more, and each of the 4,096 replies has to tell of a kept proof. The memory in use is looked at before the
first request and behind the last; and beside it in a run in which nobody has the right, so that no proof is
kept, and all else is the same but the journal's entries of the proofs. It fails where the memory in use
grew by 16 MiB or more.

By `count` one channel reads one object after another, whose entries name another principal each: a role
of the one that it speaks for. The first 64 reads are misses, whose proofs are kept; the next ones over
these objects are hits; and the next ones over other objects are misses for which the last of 64 kept proofs
goes. valgrind's callgrind counts the instructions of whole runs of the program, which come out alike within
a few hundreds; differences of two runs are told, for one read. It is done for an anchored read, and for a
login with four certificates that the channel holds already.

By `time` one channel reads one object again and again: as an anchored read, behind a login with four
certificates, and behind 16 hand-offs from key to key. All but the first of 100,000 reads are hits. The
processor time of a run with one read is taken off, and the best of nine runs is told, for one read.
"""
import os
import re
import struct
import subprocess
import sys
import time

import load
from journal import PATIENCE, PIECE, Program, say

NODE, UNTIL, KEEP = 7, 4_102_444_800, 3600
MACHINE, NODE_KEY = 2_001, 2_002
WS1, TAOS, NOBODY = 20, 1, 99
USERS = [(2_010 + user, 30 + user) for user in range(4)]
SHARDS, CHANNELS, LIMIT = 64, 1_024, 16_384
MOST = 16 << 20
OBJECT, CONTENT = 5, b"hello"
HELD, SPARE = 64, 192
HITS, RUNS = 100_000, 9
FIRST_OF_CHAIN, CHAIN = 3_000, 16


def key_of(number):
    return struct.pack(">I", number) * 8


def tagged(number, text):
    return text + load.hmac.digest(key_of(number), text, "sha256")


def key(number):
    return struct.pack(">BI", 1, number)


def name(number):
    return struct.pack(">BI", 2, number)


def both(left, right):
    return b"\3" + left + right


def quoting(left, right):
    return b"\4" + left + right


def in_role(base, role):
    return b"\5" + base + struct.pack(">I", role)


def acting(left, right):
    return b"\6" + left + right


def sealed(issuer, left, right, serial):
    """A certificate under the node's seal."""
    body = struct.pack(">BIB", 1, issuer, 0) + left + right + struct.pack(">QQ", UNTIL, serial)
    return tagged(NODE, b"\2" + body)


WORKSTATION = in_role(name(WS1), TAOS)


def session(channel, user):
    return 10_000 + 4 * channel + user


def login_of(channel, user):
    """The four certificates of a user's login on the machine, by this channel."""
    signer, who = USERS[user]
    joined = both(WORKSTATION, key(session(channel, user)))
    return [
        sealed(MACHINE, key(NODE_KEY), WORKSTATION, 1),
        sealed(NODE_KEY, key(channel), key(NODE_KEY), 1),
        sealed(signer, quoting(joined, name(who)), acting(joined, name(who)), 1),
        sealed(session(channel, user), key(channel), key(session(channel, user)), 1),
    ]


def opening(shards, limit, channels, anchors, lists):
    """An opening with an object for each list, numbered from OBJECT on."""
    text = struct.pack(">HI", 1, NODE) + key_of(NODE) + struct.pack(">IQQ", shards, KEEP, limit)
    text += struct.pack(">H", len(channels)) + b"".join(struct.pack(">I", it) + key_of(it) for it in channels)
    text += struct.pack(">B", len(anchors)) + b"".join(struct.pack(">II", *it) for it in anchors)
    text += struct.pack(">BH", 0, len(lists))
    for number, entries in enumerate(lists):
        text += struct.pack(">IH", OBJECT + number, len(CONTENT)) + CONTENT
        text += struct.pack(">B", len(entries)) + b"".join(b"\x0f" + it for it in entries)
    return text


def frame(channel, seq, quoted, number, certificates):
    text = struct.pack(">BIQ", 3, channel, seq)
    text += b"\1" + quoted if quoted else b"\0"
    text += struct.pack(">BIB", load.READ, number, len(certificates))
    text += b"".join(struct.pack(">H", len(it)) + it for it in certificates)
    payload = tagged(channel, text)
    return struct.pack(">I", len(payload)) + payload


def write_secret(path, text):
    """Writes a file that nobody else may read: the program warns of others."""
    with open(path, "wb") as file:
        os.chmod(path, 0o600)
        file.write(text)


class Replies:
    """How many replies there are in a file, of which status, and how many tell of a kept proof."""

    def __init__(self, path):
        with open(path, "rb") as file:
            text = file.read()
        self.count, self.granted, self.kept, at = 0, 0, 0, 0
        while at + 4 <= len(text):
            length = struct.unpack_from(">I", text, at)[0]
            payload = text[at + 4 : at + 4 + length]
            if len(payload) < length:
                break
            version, channel, seq, status = load.HEAD.unpack_from(payload)
            is_sealed = payload == tagged(channel, payload[: -load.TAG])
            if is_sealed and status == load.GRANTED:
                self.granted += 1
                self.kept += payload[load.HEAD.size]
            self.count, at = self.count + 1, at + 4 + length


def want(what, got, wanted):
    if got != wanted:
        raise RuntimeError(f"{got} {what}, and not {wanted}")


class Run(Program):
    def ask(self, frames, count):
        """Writes these frames, and waits until there are so many replies in all."""
        for at in range(0, len(frames), PIECE):
            piece = memoryview(frames)[at : at + PIECE]
            while piece:
                piece = piece[self.child.stdin.write(piece) :]
        start = time.monotonic()
        while Replies(self.out.name).count < count:
            if self.child.poll() is not None or time.monotonic() - start > PATIENCE:
                raise RuntimeError("the replies do not come")
            time.sleep(0.05)


def logins(seq, with_certificates):
    return b"".join(
        frame(channel, seq + user, name(who), OBJECT, login_of(channel, user) if with_certificates else [])
        for channel in range(1, CHANNELS + 1)
        for user, (_, who) in enumerate(USERS)
    )


def filled(out, program, entries):
    """The memory in use before the first request and behind all, in KiB, and what was answered."""
    anchors = [(MACHINE, WS1), *USERS]
    path, replies = os.path.join(out, "kept_opening"), os.path.join(out, "kept_replies")
    write_secret(path, opening(SHARDS, LIMIT, range(1, CHANNELS + 1), anchors, [entries]))
    run = Run(program, path, replies)
    # An empty frame is answered as malformed, without an entry.
    run.ask(bytes(4), 1)
    before = run.memory()[1]
    count = CHANNELS * len(USERS)
    run.ask(logins(1, True), 1 + count)
    first = Replies(replies)
    run.ask(logins(10, False), 1 + 2 * count)
    after = run.memory()[1]
    run.end()
    return before, after, first, Replies(replies)


def memory(out, program):
    count = CHANNELS * len(USERS)
    entries = [acting(WORKSTATION, name(who)) for _, who in USERS]
    before, after, first, last = filled(out, program, entries)
    want("grants of the first round", first.granted, count)
    want("kept proofs in the first round", first.kept, 0)
    want("grants in all", last.granted, 2 * count)
    want("kept proofs in the second round", last.kept, count)
    denied_before, denied, _, none = filled(out, program, [acting(WORKSTATION, name(NOBODY))])
    want("grants where nobody has the right", none.granted, 0)
    grown = (after - before) * 1024
    more = (after - before) - (denied - denied_before)
    say(f"{count:,} kept login proofs, {count // SHARDS} in each of {SHARDS} shards")
    say(f"memory in use before the first request: {before:,} KiB, behind all: {after:,} KiB")
    say(f"where no proof is kept: {denied_before:,} KiB, {denied:,} KiB")
    say(f"so {more:,} KiB more with kept proofs, {more * 1024 / count:.0f} bytes for each with its entry")
    if grown >= MOST:
        say(f"THE MEMORY IN USE GREW BY {grown / (1 << 20):.1f} MiB, AND NOT BY LESS THAN 16")
        return 1
    return 0


def counted(out, program, path, frames):
    """The instructions of a run, and what was answered."""
    source, replies = os.path.join(out, "kept_frames"), os.path.join(out, "kept_replies")
    with open(source, "wb") as file:
        file.write(b"".join(frames))
    words = ["valgrind", "--tool=callgrind", f"--callgrind-out-file={out}/callgrind", program, path, "-", "-", "run"]
    with open(source, "rb") as given, open(replies, "wb") as written:
        ran = subprocess.run(words, stdin=given, stdout=written, stderr=subprocess.PIPE, text=True)
    told = re.search(r"Collected : (\d+)", ran.stderr)
    if ran.returncode or not told:
        raise RuntimeError(f"valgrind: {ran.stderr[-400:]}")
    return int(told[1]), Replies(replies)


def count_of(out, program, what, anchors, base, first):
    """Hits, misses and evictions of one channel; `first` makes the frame of a number and an object."""
    lists = [[in_role(base, 100 + number)] for number in range(HELD + SPARE)]
    path = os.path.join(out, "kept_opening")
    write_secret(path, opening(1, 4_096, [1], anchors, lists))

    def run(objects):
        frames = [first(seq + 1, OBJECT + number) for seq, number in enumerate(objects)]
        took, answered = counted(out, program, path, frames)
        want("grants", answered.granted, len(objects))
        return took, answered.kept

    held, spare = list(range(HELD)), list(range(HELD, HELD + SPARE))
    one, _ = run(held[:1])
    misses, kept = run(held)
    want("hits among the first reads", kept, 0)
    hits, kept = run(held * 4)
    want("hits among the same reads", kept, 3 * HELD)
    evicted, kept = run(held + spare)
    want("hits among other reads", kept, 0)
    say(f"{what}: {(hits - misses) / (3 * HELD):,.0f} instructions for a hit,"
        f" {(misses - one) / (HELD - 1):,.0f} for a miss, {(evicted - misses) / SPARE:,.0f} for one that evicts")


def count(out, program):
    def anchored(seq, number):
        return frame(1, seq, None, number, [])

    count_of(out, program, "anchored read", [(1, 10)], name(10), anchored)
    signer, who = USERS[0]

    def logged_in(seq, number):
        return frame(1, seq, name(who), number, login_of(1, 0) if seq == 1 else [])

    base = acting(WORKSTATION, name(who))
    count_of(out, program, "login", [(MACHINE, WS1), (signer, who)], base, logged_in)
    return 0


def hand_offs():
    """Certificates by which the first channel speaks for the last key of a chain, each key for the next."""
    keys = [1, *(FIRST_OF_CHAIN + place for place in range(CHAIN))]
    return [sealed(after, key(before), key(after), 1) for before, after in zip(keys, keys[1:])]


def worked(program, path, source, replies):
    """The processor time of a run, in seconds."""
    with open(source, "rb") as given, open(replies, "wb") as written:
        child = subprocess.Popen([program, path, "-", "-", "run"], stdin=given, stdout=written)
        _, status, used = os.wait4(child.pid, 0)
        child.returncode = os.waitstatus_to_exitcode(status)
    want("as exit status", child.returncode, 0)
    return used.ru_utime + used.ru_stime


class Hits:
    """A channel's reads of one object, of which all but the first are hits."""

    def __init__(self, out, name, anchors, entry, quoted, certificates):
        self.path, self.replies = os.path.join(out, f"{name}_opening"), os.path.join(out, f"{name}_replies")
        write_secret(self.path, opening(1, 1 << 20, [1], anchors, [[entry]]))
        self.sources = {}
        for count in (1, HITS):
            self.sources[count] = os.path.join(out, f"{name}_{count}_frames")
            with open(self.sources[count], "wb") as file:
                for seq in range(1, count + 1):
                    file.write(frame(1, seq, quoted, OBJECT, certificates if seq == 1 else []))
        self.best = dict.fromkeys(self.sources, float("inf"))

    def run(self, program):
        for count, source in self.sources.items():
            self.best[count] = min(self.best[count], worked(program, self.path, source, self.replies))
        answered = Replies(self.replies)
        want("grants", answered.granted, HITS)
        want("hits", answered.kept, HITS - 1)

    def each(self):
        """The processor time of a hit, in microseconds."""
        return (self.best[HITS] - self.best[1]) / (HITS - 1) * 1e6


def timed(out, program):
    signer, who = USERS[0]
    last = FIRST_OF_CHAIN + CHAIN - 1
    kinds = [
        Hits(out, "anchored", [(1, 10)], name(10), None, []),
        Hits(out, "login", [(MACHINE, WS1), (signer, who)], acting(WORKSTATION, name(who)), name(who), login_of(1, 0)),
        Hits(out, "handed", [(last, 10)], name(10), None, hand_offs()),
    ]
    # In turn, since others may use the machine.
    for _ in range(RUNS):
        for kind in kinds:
            kind.run(program)
    anchored, login, handed = (kind.each() for kind in kinds)
    say(f"processor time of a hit: {anchored:.2f} us for an anchored read,"
        f" {login:.2f} us behind a login, {login / anchored:.2f} times as long,"
        f" {handed:.2f} us behind {CHAIN} hand-offs, {handed / anchored:.2f} times as long")
    return 0


def main(words):
    try:
        if words[:1] == ["time"] and len(words) == 3:
            return timed(*words[1:])
        if words[:1] == ["memory"] and len(words) == 3:
            return memory(*words[1:])
        if words[:1] == ["count"] and len(words) == 3:
            return count(*words[1:])
    except RuntimeError as fault:
        print(f"kept.py: {fault}", file=sys.stderr)
        return 1
    print(__doc__, end="", file=sys.stderr)
    return 2


if __name__ == "__main__":
    sys.exit(main(sys.argv[1:]))
