#!/usr/bin/env python3
"""Measures a node that serves over TCP on this machine.

    serve.py PROGRAM OUT [COUNT [TURNS]]

OUT is a folder that has the clients and the echo server, built. COUNT (200000) is how many reads each lane is sent, pipelined,
and TURNS (20000) how many are sent one by one. Nine rounds measure what is compared in turn, each run with a node of its own,
whose line has to count a grant for each read; a run counts while all its lanes have reads to answer. The median of a round's
ratios counts. Ends with 1 where one is out of its bounds.
"""
import hmac
import os
import re
import statistics
import struct
import subprocess
import sys
import time

HERE = os.path.dirname(os.path.abspath(__file__))
sys.path.insert(0, os.path.join(HERE, "..", "..", "example"))

from serving import Server  # noqa: E402

LANES, IDLE_LANES, ROUNDS = 4, 16, 9
SHARED = 100
# What is wanted: of the rates of four lanes and of one, of the medians of the node and of the echo server, and of the processor
# time of an idle node, in seconds.
OWN_RATE, SHARED_RATE, LATENCY, IDLE = 3.5, 2.5, 1.5, 0.0
IDLE_SECONDS = 5
TICKS = os.sysconf("SC_CLK_TCK")


def key(number):
    return bytes([number]) * 32


def opening(lanes, count):
    """A channel and an object for each lane, in a shard of its own, and one object for all. Every one of them may be read."""
    limit = lanes * count + 16
    lines = ["taos 1", f"node 7 {key(7).hex()}", f"shards {lanes}", f"journal {limit}", "name 10 reader"]
    lines += [f"channel {each} {key(each).hex()}" for each in range(1, lanes + 1)]
    lines += [f"anchor {each} reader" for each in range(1, lanes + 1)]
    for each in [*range(1, lanes + 1), SHARED]:
        lines += [f"object {each}", f"content {each} {b'hello'.hex()}", f"allow {each} r reader"]
    return "\n".join(lines) + "\n"


def frames(channel, target, count):
    """Reads of an object by a channel, with numbers from 1."""
    for seq in range(1, count + 1):
        text = struct.pack(">BIQBBIB", 3, channel, seq, 0, 1, target, 0)
        yield struct.pack(">I", len(text) + 32) + text + hmac.digest(key(channel), text, "sha256")


class Bench:
    def __init__(self, program, out, count, turns):
        self.program, self.out, self.count, self.turns = program, out, count, turns
        self.met = True
        self.node_file = self.write("node.txt", [opening(LANES, count).encode()])
        # Files with keys are nobody else's.
        os.chmod(self.node_file, 0o600)

    def path(self, name):
        return os.path.join(self.out, name)

    def write(self, name, pieces):
        with open(self.path(name), "wb") as file:
            file.writelines(pieces)
        return self.path(name)

    def node(self, lanes):
        return Server(self.program, self.node_file, lanes, "-", "serve")

    def client(self, *words):
        told = subprocess.run([self.path("client"), *words], capture_output=True, check=True, text=True)
        return [float(word) for word in told.stdout.split()]

    def ends(self, node, grants):
        """Whether the node ended well, and granted so many requests."""
        status, line = node.stop()
        counted = re.search(r"grants (\d+) denials 0$", line)
        right = status == 0 and counted and int(counted.group(1)) == grants
        if not right:
            print(f"the node ended with status {status} and says: {line}")
        self.met = self.met and bool(right)

    def rate(self, paths, nodes=1):
        """Replies a second on as many lanes, of one node or of several."""
        lanes = len(paths) // nodes
        running = [self.node(lanes) for _ in range(nodes)]
        ports = ",".join(node.address[1] for node in running)
        took, back, all_back = self.client("pipelined", ports, *paths)
        for node in running:
            self.ends(node, self.count * lanes)
        return len(paths) * self.count * back / all_back / took

    def bound(self, what, found, least=None, most=None):
        inside = (least is None or found >= least) and (most is None or found <= most)
        wanted = f"at least {least}" if most is None else f"at most {most}"
        print(f"{what}: {found:.2f} ({wanted}{'' if inside else ', which it is NOT'})", flush=True)
        self.met = self.met and inside

    def rates(self):
        for name, target_of, least in [("shards of their own", lambda each: each, OWN_RATE),
                                       ("one shared object", lambda each: SHARED, SHARED_RATE)]:
            paths = [self.write(f"frames-{each}", frames(each, target_of(each), self.count)) for each in range(1, LANES + 1)]
            runs = [(self.rate(paths[:1]), self.rate(paths), self.rate(paths, nodes=LANES)) for _ in range(ROUNDS)]
            one, lanes, nodes = zip(*runs)
            print(f"{name}: {statistics.median(one):.0f} reads a second on one lane, {statistics.median(lanes):.0f} on {LANES}; "
                  f"{statistics.median(nodes):.0f} of {LANES} nodes with one lane each, {ratio(nodes, one):.2f} times one; "
                  f"{LANES} lanes do {ratio(lanes, nodes):.2f} times the reads of {LANES} nodes", flush=True)
            self.bound(f"{name}: {LANES} lanes against one", ratio(lanes, one), least=least)

    def latency(self):
        path = self.write("frames-turns", frames(1, 1, self.turns))
        node = self.node(1)
        _, median, late = self.client("turns", node.address[1], path)
        self.ends(node, self.turns)
        with subprocess.Popen([self.path("echo")], stdout=subprocess.PIPE, text=True) as echo:
            _, bare_median, bare_late = self.client("turns", echo.stdout.readline().strip(), path)
        print(f"one by one: median {median:.1f} us, 99 of 100 within {late:.1f} us; "
              f"the echo server {bare_median:.1f} us, {bare_late:.1f} us", flush=True)
        self.bound("one by one: the medians, node against echo server", median / bare_median, most=LATENCY)

    def idle(self):
        node = self.node(IDLE_LANES)
        time.sleep(1)
        before = used(node.process.pid)
        time.sleep(IDLE_SECONDS)
        spent = used(node.process.pid) - before
        self.ends(node, 0)
        self.bound(f"{IDLE_LANES} idle lanes: seconds of a processor in {IDLE_SECONDS} s", spent, most=IDLE)


def ratio(of, to):
    """The median of the rounds' ratios: the machine's speed is the same within a round."""
    return statistics.median(one / other for one, other in zip(of, to))


def used(pid):
    """The processor time of a process, in seconds."""
    with open(f"/proc/{pid}/stat", encoding="ascii", errors="replace") as file:
        fields = file.read().rsplit(")", 1)[1].split()
    return (int(fields[11]) + int(fields[12])) / TICKS


def main(words):
    if not 2 <= len(words) <= 4:
        print(__doc__, end="", file=sys.stderr)
        return 2
    count, turns = map(int, [*words[2:], *["200000", "20000"][len(words) - 2 :]])
    bench = Bench(words[0], words[1], count, turns)
    bench.rates()
    bench.latency()
    bench.idle()
    return 0 if bench.met else 1


if __name__ == "__main__":
    sys.exit(main(sys.argv[1:]))
