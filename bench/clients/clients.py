#!/usr/bin/env python3
"""Measures a node that many clients use, over TCP on this machine.

    clients.py PROGRAM OUT [TURNS]

OUT is a folder that has the program `clients`, built. Each of 1,000 clients has a channel of its own and sends TURNS (50) reads, one
after the other (64 of them are granted, and the others denied, since a node has no more anchors), beside silent ones; the same frames
go to an echo over the same loop. What a machine does to any program it does to the echo: where that alone is beyond a bound, the node is
held to it. Ends with 1 where a bound is not kept, or a connection is lost.
"""
import hmac
import itertools
import os
import re
import socket
import statistics
import struct
import subprocess
import sys
import threading

LANES, SEATS, BUSY, SILENT, ROUNDS = 4, 12_000, 1_000, 2_000, 3
# What is wanted: the rate beside the echo's; one client's median and 99th in 100 beside others to those alone, or to the echo's beside
# others where these are beyond that; bytes of a silent client; how far the 99th in 100 of others rises beside a rude one, to how far the
# echo's does; and the rate of a client beside a scrape each 10 ms to that without.
RATE, MEDIAN, LATE, MEDIAN_ECHO, LATE_ECHO, MEMORY, RISE, SCRAPED = 0.7, 3, 5, 1.5, 2, 8_192, 1.1, 0.98
# Beside a rude client: how many others, how many reads of each, and how often, by turns with and without it. Beside scrapes: the reads, and
# how often.
POLITE, READS, PAIRS, MANY, SCRAPES = 16, 2_000, 11, 20_000, 31


def key(number):
    return number.to_bytes(2, "big") * 16


def opening(turns):
    lines = ["taos 1", f"node 7 {key(7007).hex()}", "shards 4", f"journal {min(1_048_576, BUSY * turns * ROUNDS)}", "name 10 reader"]
    lines += [f"channel {each} {key(each).hex()}" for each in range(1, BUSY + 1)]
    lines += [f"anchor {each} reader" for each in range(1, 65)]
    for each in range(1, 5):
        lines += [f"object {each}", f"content {each} {b'hello'.hex()}", f"allow {each} r reader"]
    return "\n".join(lines) + "\n"


def frames(turns, first=1):
    """Reads of each channel in turn, with numbers from the first one on."""
    for channel in range(1, BUSY + 1):
        for number in range(first, first + turns):
            text = struct.pack(">BIQBBIB", 3, channel, number, 0, 1, channel % 4 + 1, 0)
            yield struct.pack(">I", len(text) + 32) + text + hmac.digest(key(channel), text, "sha256")


class Started:
    """A program that serves until its input ends."""

    def __init__(self, words, pattern):
        self.child = subprocess.Popen(words, stdin=subprocess.PIPE, stdout=subprocess.PIPE, stderr=subprocess.PIPE, text=True)
        stream = self.child.stdout if pattern is None else self.child.stderr
        line = stream.readline()
        while pattern and not re.search(pattern, line):
            line = stream.readline()
        self.port = line.strip().rsplit(":", 1)[-1]

    def memory(self):
        with open(f"/proc/{self.child.pid}/status") as status:
            return int(re.search(r"VmRSS:\s+(\d+)", status.read()).group(1)) * 1024

    def end(self):
        self.child.stdin.close()
        self.child.wait(20)


class Bench:
    def __init__(self, program, out, turns):
        self.program, self.out, self.turns, self.met, self.lost = program, out, turns, True, 0
        self.file = self.path("node.txt")
        with open(self.file, "w") as node:
            node.write(opening(turns))
        os.chmod(self.file, 0o600)

    def path(self, name):
        return os.path.join(self.out, name)

    def node(self, *options):
        listen = ",".join(["127.0.0.1:0"] * LANES)
        words = [self.program, *options, "--clients", str(SEATS), "--tell-addresses", "--stop-at-end", self.file, listen, "-", "serve"]
        return Started([*words, "--connections", "1000000", "--frames", "1000000000"], "listening on")

    def echo(self):
        return Started([self.path("clients"), "echo"], None)

    def load(self, server, busy, silent, turns):
        """The replies, their rate, the first client's median and 99th, those of all, and the lost connections."""
        with open(self.path("frames"), "wb") as out:
            out.writelines(itertools.islice(frames(turns), busy * turns))
        words = [self.path("clients"), "load", server.port, self.path("frames"), str(busy), str(silent), str(turns)]
        told = [float(word) for word in subprocess.run(words, capture_output=True, text=True).stdout.split()]
        # A client that was lost, or whose reply did not come in half a minute.
        self.lost += told[6] + (told[0] < busy * turns)
        return told

    def late(self, start, how, aside):
        """The 99th in 100 of the microseconds of a few clients' reads of a server, beside a client that is rude in this way if any: to the
        server, or aside, to an echo of its own."""
        server, rude = start(), None
        other = self.echo() if aside else server
        if how:
            with open(self.path("rude"), "wb") as out:
                out.writelines(frame for frame in frames(8) if frame[5:9] == struct.pack(">I", BUSY))
            words = [self.path("clients"), "rude", other.port, self.path("rude"), "8", how]
            rude = subprocess.Popen(words, stdin=subprocess.PIPE)
        told = self.load(server, POLITE, 0, READS)
        if rude:
            rude.stdin.close()
            rude.wait(20)
        for each in {server, other}:
            each.end()
        return told[5]

    def beside(self, how):
        """The 99th in 100 beside a rude client to that without, by turns: the node's, and the echo's, to which the same one is rude."""
        without, near, far = (None, False), (how, False), (how, True)
        ways = [(self.node, *without), (self.node, *near), (self.node, *far), (self.echo, *without), (self.echo, *near)]
        rounds = [[self.late(*way) for way in ways] for _ in range(PAIRS)]
        rises = [(by / alone, aside / alone, bare_by / bare_alone) for alone, by, aside, bare_alone, bare_by in rounds]
        rise, rise_aside, bare = (statistics.median(each) for each in zip(*rises))
        time_alone, time_by = (statistics.median(each[way] for each in rounds) for way in (0, 1))
        most = RISE * max(1, bare)
        kind = how or "nobody, by chance"
        times = f"{time_by:.0f} us to {time_alone:.0f} us"
        self.row(f"99th of {POLITE} clients beside one of this kind, to that without: {kind}", f"{rise:.2f}; {times}",
                 f"{most:.2f}" if how else "", rise <= most or not how)
        self.row("the same of the echo", f"{bare:.2f}", "", True)
        self.row("the same of the node, where it is so to another program", f"{rise_aside:.2f}", "", True)

    def rate(self, scrapes):
        """The reads a second of one client, of a node whose page is asked for each 10 ms or not at all."""
        with socket.create_server(("127.0.0.1", 0)) as free:
            port = free.getsockname()[1]
        node, done = self.node("--status", str(port)), threading.Event()

        def scrape():
            while not done.wait(0.01):
                with socket.create_connection(("127.0.0.1", port)) as page:
                    page.sendall(b"GET /metrics HTTP/1.1\r\nHost: node\r\n\r\n")
                    while page.recv(65_536):
                        pass

        thread = threading.Thread(target=scrape)
        if scrapes:
            thread.start()
        told = self.load(node, 1, 0, MANY)
        done.set()
        if scrapes:
            thread.join()
        node.end()
        return told[1]

    def scraped(self):
        """A client's rate beside scrapes to what it is without, before and behind each: the median."""
        before, shares = self.rate(False), []
        for _ in range(SCRAPES):
            beside, behind = self.rate(True), self.rate(False)
            shares.append(2 * beside / (before + behind))
            before = behind
        return sorted(shares)[SCRAPES // 2]

    def row(self, what, number, wanted, kept):
        self.met &= kept
        print(f"| {what} | {number} | {wanted} |{'' if kept else ' MISSED'}", flush=True)

    def one_beside(self, what, at, alone, rounds, times, times_of_echo):
        """What one client's reads take beside the 1,000, in microseconds, and the most that they may."""
        found, bare = (statistics.median(each[at] for each in side) for side in zip(*rounds))
        most = times * alone[at]
        if bare > most:
            most = times_of_echo * bare
        self.row(f"{what} of one client beside the others; alone; that of the echo beside the others",
                 f"{found:.0f} us; {alone[at]:.0f} us; {bare:.0f} us", f"{most:.0f} us", found <= most)

    def run(self):
        node, echo = self.node(), self.echo()
        alone = self.load(node, 1, 0, READS)
        node.end()
        rounds = []
        for _ in range(ROUNDS):
            node = self.node()
            rounds.append((self.load(node, BUSY, SILENT, self.turns), self.load(echo, BUSY, SILENT, self.turns)))
            node.end()
        echo.end()
        share = statistics.median(served[1] / bare[1] for served, bare in rounds)
        rate = statistics.median(served[1] for served, _ in rounds)
        self.row("reads a second of 1,000 clients beside 2,000 silent ones", f"{rate:.0f}", "", True)
        self.row("the same to the echo", f"{share:.2f}", RATE, share >= RATE)
        self.one_beside("median", 2, alone, rounds, MEDIAN, MEDIAN_ECHO)
        self.one_beside("99th", 3, alone, rounds, LATE, LATE_ECHO)
        node = self.node()
        before = node.memory()
        silent = subprocess.Popen(
            [self.path("clients"), "load", node.port, self.path("frames"), "1", "10000", "1"], stdout=subprocess.PIPE, text=True
        )
        silent.communicate()
        each = (node.memory() - before) / 10_000
        node.end()
        self.row("memory of the program a silent client", f"{each:.0f} bytes", MEMORY, each <= MEMORY)
        for how in ("deaf", "drip", "reset", None):
            self.beside(how)
        share = self.scraped()
        self.row("one client's rate beside a scrape each 10 ms, to that without", f"{share:.3f}", SCRAPED, share >= SCRAPED)
        self.row("connections that were lost, of all of these", f"{self.lost:.0f}", "none", self.lost == 0)
        print("all bounds were kept" if self.met else "a bound was NOT kept")
        return 0 if self.met else 1


if __name__ == "__main__":
    program, out, *rest = sys.argv[1:]
    sys.exit(Bench(program, out, int(rest[0]) if rest else 50).run())
