#!/usr/bin/env python3
"""Measures the client in Python over TCP on this machine.

    pipelined.py PROGRAM OUT [COUNT [TURNS]]

OUT is a folder that has the client in C, built. In each of nine rounds COUNT (20000) reads of one channel are made, sent together, and
their replies believed, by the client in Python with its numbers in a file; and TURNS (20000) reads that are made before are sent one by
one by the client in C, which believes any reply. Each has a node of its own. The median of the rounds' ratios counts. Ends with 1 where
one is out of its bound, or a read is not granted.
"""
import os
import re
import statistics
import subprocess
import sys
import time

HERE = os.path.dirname(os.path.abspath(__file__))
TOP = os.path.join(HERE, "..", "..")
sys.path[:0] = [os.path.join(TOP, each) for each in ("bench/serve", "example", "clients/python")]

from serve import frames, key, opening  # noqa: E402
from serving import Server  # noqa: E402
from yoritzal import Channel, Client, FileNumbers, Read, connect  # noqa: E402

# What is wanted of the first rate to the second: 8,000 reads a second where the other does 20,000.
ROUNDS, RATIO = 9, 0.4
CHANNEL = OBJECT = 1


class Bench:
    def __init__(self, program, out, count, turns):
        self.program, self.out, self.count, self.turns = program, out, count, turns
        self.node_file, self.frames = self.path("node.txt"), self.path("frames")
        with open(os.open(self.node_file, os.O_WRONLY | os.O_CREAT | os.O_TRUNC, 0o600), "w", encoding="ascii") as file:
            file.write(opening(1, max(count, turns)))
        with open(self.frames, "wb") as file:
            file.writelines(frames(CHANNEL, OBJECT, turns))

    def path(self, name):
        return os.path.join(self.out, name)

    def granted(self, asks, count):
        """What asking a node comes to, which has to grant so many reads."""
        node = Server(self.program, self.node_file, 1, "-", "serve")
        found = asks(node.address[1])
        status, line = node.stop()
        counted = re.search(r"grants (\d+) denials 0$", line)
        if status != 0 or not counted or int(counted.group(1)) != count:
            raise RuntimeError(f"the node ended with status {status} and says: {line}")
        return found

    def together(self, port):
        """The reads a second of the client in Python."""
        numbers = self.path("numbers")
        if os.path.exists(numbers):
            os.remove(numbers)
        with FileNumbers(numbers) as taken:
            channel = Channel(CHANNEL, key(CHANNEL), taken)
            began = time.perf_counter()
            requests = [channel.request(OBJECT, Read()) for _ in range(self.count)]
            # A client connects once it has a request to send.
            with connect("127.0.0.1", port) as connection:
                contents = {answer.result for answer in Client(channel, connection).send(requests)}
            took = time.perf_counter() - began
        if contents != {b"hello"}:
            raise RuntimeError("the content is another")
        return self.count / took

    def in_turn(self, port):
        """The reads a second of the client in C, by the median of their times."""
        told = subprocess.run([self.path("client"), "turns", port, self.frames], capture_output=True, check=True, text=True)
        return 1e6 / float(told.stdout.split()[1])

    def measured(self):
        rounds = [(self.granted(self.together, self.count), self.granted(self.in_turn, self.turns)) for _ in range(ROUNDS)]
        together, in_turn = (statistics.median(each) for each in zip(*rounds))
        ratio = statistics.median(one / other for one, other in rounds)
        print(f"reads a second: {together:.0f} together in Python, {in_turn:.0f} one by one in C")
        print(f"the first to the second: {ratio:.2f} (at least {RATIO}{'' if ratio >= RATIO else ', which it is NOT'})")
        return 0 if ratio >= RATIO else 1


def main(words):
    if not 2 <= len(words) <= 4:
        print(__doc__, end="", file=sys.stderr)
        return 2
    count, turns = map(int, [*words[2:], *["20000", "20000"][len(words) - 2 :]])
    try:
        return Bench(words[0], words[1], count, turns).measured()
    except RuntimeError as fault:
        print(f"pipelined.py: {fault}", file=sys.stderr)
        return 1


if __name__ == "__main__":
    sys.exit(main(sys.argv[1:]))
