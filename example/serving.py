#!/usr/bin/env python3
"""Starts a relay and a node, runs the clients, and stops both in order.

    serving.py PROGRAM NODE RELAY CERTIFICATES

NODE and RELAY are their files. Either serves up to 100 clients at a time, at a port of 127.0.0.1 that it chose, by two lanes. It
tells its address on its standard error, and ends once its standard input has ended. Ends with 0 where the clients, the node and
the relay did.
"""
import os
import re
import subprocess
import sys
import threading

HERE = os.path.dirname(os.path.abspath(__file__))
BOUND = re.compile(r"taosd: listening on (\S+):(\d+)$")
LIMIT = 30
LANES, CLIENTS = 2, 100


class Server:
    """A process that serves a port by so many lanes, until it is stopped: so many clients at a time, or without a number of them
    one connection of a lane after the other."""

    def __init__(self, program, file, lanes, relay, command, *options, clients=None):
        listen = ",".join(["127.0.0.1:0"] * lanes)
        many = ["--clients", str(clients)] if clients else []
        words = [program, *many, "--tell-addresses", "--stop-at-end", file, listen, relay, command]
        words += ["--connections", "1000000" if clients else "100", *options]
        pipe = subprocess.PIPE
        self.name = command
        self.process = subprocess.Popen(words, stdin=pipe, stdout=pipe, stderr=pipe, text=True)
        self.told, self.address, self.bound = [], None, threading.Event()
        self.reader = threading.Thread(target=self._read, daemon=True)
        self.reader.start()
        self.bound.wait(LIMIT)

    def _read(self):
        """Takes what it tells, and of that its address."""
        for line in self.process.stderr:
            found = BOUND.match(line.rstrip("\n"))
            if found and not self.address:
                self.address = found.groups()
                self.bound.set()
            elif not found:
                self.told.append(line)
        self.bound.set()

    def stop(self):
        """Stops it in order, and gives its status, or None where it did not end, and the line that it printed."""
        self.process.stdin.close()
        try:
            status = self.process.wait(LIMIT)
        except subprocess.TimeoutExpired:
            self.process.kill()
            status = None
        self.reader.join(LIMIT)
        sys.stderr.writelines(self.told)
        return status, self.process.stdout.read().strip()


def started(program, file, relay, command):
    server = Server(program, file, LANES, relay, command, clients=CLIENTS)
    if not server.address:
        server.stop()
        raise SystemExit(f"{command} does not listen")
    return server


def ended(server):
    """Whether a server ends well, and the line that it printed is told."""
    status, line = server.stop()
    print(f"{server.name}: {line} (status {status})", flush=True)
    return status == 0


def main(words):
    if len(words) != 4:
        print(__doc__, end="", file=sys.stderr)
        return 2
    program, node_file, relay_file, certificates = words
    relay, well = started(program, relay_file, "-", "relay-serve"), False
    try:
        node = started(program, node_file, ":".join(relay.address), "serve")
        try:
            print(f"the node serves on {':'.join(node.address)}", flush=True)
            clients = [sys.executable, os.path.join(HERE, "clients.py"), certificates, *node.address]
            status = subprocess.run(clients, timeout=LIMIT, check=False).returncode
        finally:
            well = ended(node)
    finally:
        well = ended(relay) and well
    return status or (0 if well else 1)


if __name__ == "__main__":
    sys.exit(main(sys.argv[1:]))
