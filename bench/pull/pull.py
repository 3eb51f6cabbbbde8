#!/usr/bin/env python3
"""Measures a node that fetches certificates over TCP on this machine.

    pull.py PROGRAM OUT [TURNS]

OUT is a folder that has the client and the echo server, built. In each of nine rounds TURNS (20000) reads behind a login are sent one
by one to a node that fetches the login's four certificates for each of them, to one where each presents them, and as many frames to the
echo server. The wallet is the program, a process for the node's connection. The median of the rounds' ratios counts. Ends with 1
where a request with a fetch takes more than 1.2 times one that presents and an echo together, or a read is not granted.
"""
import os
import re
import statistics
import subprocess
import sys
import time

HERE = os.path.dirname(os.path.abspath(__file__))
TOP = os.path.join(HERE, "..", "..")
sys.path[:0] = [os.path.join(TOP, "bench"), os.path.join(TOP, "example")]

import kept  # noqa: E402
from serving import Server  # noqa: E402

ROUNDS, MOST, CHANNEL = 9, 1.2, 1
SIGNER, WHO = kept.USERS[0]
PATIENCE = 30


def port_in(path):
    """The port that the wallet's listener has written, once it has."""
    for _ in range(100 * PATIENCE):
        if os.path.exists(path):
            with open(path, encoding="ascii") as file:
                return file.read().strip()
        time.sleep(0.01)
    raise RuntimeError("the wallet does not listen")


class Bench:
    def __init__(self, program, out, turns):
        self.program, self.out, self.turns = program, out, turns
        self.certificates = kept.login_of(CHANNEL, 0)
        self.node_file, self.wallet_file = self.path("opening"), self.path("wallet.txt")
        entry = kept.acting(kept.WORKSTATION, kept.name(WHO))
        anchors = [(kept.MACHINE, kept.WS1), (SIGNER, WHO)]
        kept.write_secret(self.node_file, kept.opening(1, 1 << 20, [CHANNEL], anchors, [[entry]]))
        lines = ["taos-wallet 1", *(f"cert {CHANNEL} {it.hex()}" for it in self.certificates)]
        kept.write_secret(self.wallet_file, "".join(f"{it}\n" for it in lines).encode())

    def path(self, name):
        return os.path.join(self.out, name)

    def frames(self, name, certificates):
        with open(self.path(name), "wb") as file:
            for seq in range(1, self.turns + 1):
                file.write(kept.frame(CHANNEL, seq, kept.name(WHO), kept.OBJECT, certificates))
        return self.path(name)

    def median(self, port, frames):
        """The median of the microseconds from a frame to its reply."""
        told = subprocess.run([self.path("client"), "turns", port, frames], capture_output=True, check=True, text=True)
        return float(told.stdout.split()[1])

    def node(self, relay, frames, *options):
        node = Server(self.program, self.node_file, 1, relay, "serve", *options)
        median = self.median(node.address[1], frames)
        status, line = node.stop()
        counted = re.search(r"grants (\d+) denials 0$", line)
        if status != 0 or not counted or int(counted.group(1)) != self.turns:
            raise RuntimeError(f"the node ended with status {status} and says: {line}")
        return median

    def pulled(self, frames):
        port = self.path("port")
        if os.path.exists(port):
            os.remove(port)
        listen = [sys.executable, os.path.join(TOP, "example", "listen.py"), port, self.program, self.wallet_file, "-", "-", "wallet"]
        wallet = subprocess.Popen(listen)
        try:
            return self.node(f"-,127.0.0.1:{port_in(port)}", frames, "--pull")
        finally:
            wallet.kill()
            wallet.wait()

    def echoed(self, frames):
        with subprocess.Popen([self.path("echo")], stdout=subprocess.PIPE, text=True) as echo:
            return self.median(echo.stdout.readline().strip(), frames)

    def measured(self):
        bare, presenting = self.frames("bare", []), self.frames("presenting", self.certificates)
        rounds = [(self.pulled(bare), self.node("-", presenting), self.echoed(bare)) for _ in range(ROUNDS)]
        pulled, plain, echo = (statistics.median(each) for each in zip(*rounds))
        times = statistics.median(one / (other + third) for one, other, third in rounds)
        print(f"one by one: median {pulled:.1f} us with a fetch, {plain:.1f} us where it presents, {echo:.1f} us of the echo server")
        print(f"with a fetch, to presenting and echo together: {times:.2f} (at most {MOST}{'' if times <= MOST else ', which it is NOT'})")
        return 0 if times <= MOST else 1


def main(words):
    if not 2 <= len(words) <= 3:
        print(__doc__, end="", file=sys.stderr)
        return 2
    try:
        return Bench(words[0], words[1], int((words[2:] or ["20000"])[0])).measured()
    except RuntimeError as fault:
        print(f"pull.py: {fault}", file=sys.stderr)
        return 1


if __name__ == "__main__":
    sys.exit(main(sys.argv[1:]))
