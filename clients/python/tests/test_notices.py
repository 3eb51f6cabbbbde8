"""The lines that a node writes of what goes otherwise than well, and a relay that serves, with the program that PROGRAM names."""
import fcntl
import os
import re
import socket
import struct
import subprocess
import tempfile
import time
import unittest

from test_lanes import line_of
from vectors import key_of
from yoritzal import ISSUED, Body, Channel, Client, Denied, Key, Name, Read, Request, TimeNumbers, connect, sealed

PROGRAM = os.environ.get("PROGRAM")
CONTENT = b"nobody may read this in a line"
NODE = f"""taos 1
node 7 {key_of(7).hex()}
shards 1
journal 200000
channel 1 {key_of(1).hex()}
channel 2 {key_of(2).hex()}
anchor 1 name:10
object 5
content 5 {CONTENT.hex()}
allow 5 rwcm name:10
"""
RELAY = f"taos-relay 1\nnode 7 {key_of(7).hex()}\nissuer 1 {key_of(1).hex()}\n"
BOUND = re.compile(rb"taosd: listening on 127\.0\.0\.1:(\d+)\n")
TIME = r"\d{4}-\d\d-\d\dT\d\d:\d\d:\d\dZ"
LINE = re.compile(rf"taosd: {TIME} (\S+)((?: \S+ \S+)+)")
HERE, PATIENCE = "127.0.0.1:0", 60
# More lines than that come in no second.
LINES = 100
SHOWN = [sealed(key_of(1), Body(1, Key(2), Name(10), 4102444800, 1), ISSUED)]


class Node:
    """A node of the program, or a relay, with one lane. `errors` is where its standard error goes, a pipe without it."""

    def __init__(self, file, option, relay="-", command="serve", errors=None, more=()):
        words = [option, "--idle", "1", "--tell-addresses", "--stop-at-end", file, HERE, relay, command, "--connections", "20", *more]
        pipe = subprocess.PIPE
        self.process = subprocess.Popen([PROGRAM, *words], stdin=pipe, stdout=pipe, stderr=errors or pipe)

    def bound(self, line):
        self.port = int(BOUND.match(line).group(1))
        return self

    def client(self, number):
        return Client(Channel(number, key_of(number), TimeNumbers()), connect("127.0.0.1", self.port))

    def stream(self):
        return socket.create_connection(("127.0.0.1", self.port), PATIENCE)

    def end(self):
        """Its status and what it wrote on standard error, once its input has ended."""
        _, notes = self.process.communicate(timeout=PATIENCE)
        return self.process.returncode, notes


def frame(payload):
    return len(payload).to_bytes(4, "big") + payload


def reads_out(stream):
    while stream.recv(4096):
        pass


def told(notes):
    """Each line as its word and its pairs."""
    found = []
    for line in notes.decode("ascii").splitlines():
        word, pairs = LINE.fullmatch(line).groups()
        words = pairs.split()
        found.append((word, dict(zip(words[::2], words[1::2]))))
    return found


@unittest.skipUnless(PROGRAM, "no PROGRAM is named")
class Notices(unittest.TestCase):
    def file(self, text):
        with tempfile.NamedTemporaryFile("w", encoding="ascii", delete=False) as file:
            file.write(text)
        self.addCleanup(os.remove, file.name)
        return file.name

    def node(self, option="--tell-refusals", text=NODE, **words):
        node = Node(self.file(text), option, **words)
        self.addCleanup(node.process.kill)
        return node.bound(node.process.stderr.readline())

    def test_refusals_and_denials_have_a_line_each(self):
        for option, denials in ("--tell-refusals", 0), ("--tell-denials", 1):
            node = self.node(option)
            with node.stream() as stream:
                peer = "{}:{}".format(*stream.getsockname())
                asked = Request(1, 8, 5, Read())
                turned = bytearray(asked.payload(key_of(1)))
                turned[-1] ^= 1
                for payload in (asked.payload(key_of(1)), bytes(turned), asked.payload(key_of(1)), b"",
                                Request(2, 9, 5, Read()).payload(key_of(2)), Request(77, 1, 5, Read()).payload(key_of(2))):
                    stream.sendall(frame(payload))
                stream.shutdown(socket.SHUT_WR)
                reads_out(stream)
            status, notes = node.end()
            self.assertEqual(status, 0)
            same = {"lane": "0", "peer": peer}
            read = {"operation": "read", "object": "5", "right": "read"}
            wanted = [
                ("refused", {**same, "status": "4"}),
                ("refused", {**same, "channel": "1", "number": "8", **read, "status": "5"}),
                ("refused", {**same, "status": "2"}),
                ("denied", {**same, "channel": "2", "number": "9", **read, "status": "1", "link": "missing", "shard": "0", "place": "3"}),
                ("refused", {**same, "channel": "77", "status": "3"}),
            ]
            found = told(notes)
            self.assertEqual(found, [each for each in wanted if denials or each[0] != "denied"])
            self.assertNotIn(asked.payload(key_of(1))[-32:].hex().encode(), notes)
            for secret in CONTENT, CONTENT.hex().encode(), key_of(1), key_of(1).hex().encode(), key_of(7).hex().encode():
                self.assertNotIn(secret, notes)

    def test_a_connection_that_breaks_has_a_line_with_its_cause(self):
        node = self.node(more=("--frames", "2"))
        request = [frame(Request(1, number, 5, Read()).payload(key_of(1))) for number in range(1, 4)]

        def reset(stream):
            stream.setsockopt(socket.SOL_SOCKET, socket.SO_LINGER, struct.pack("ii", 1, 0))
            time.sleep(0.3)
            stream.close()

        ends = [
            ("silent", b"", reads_out),
            ("slow", b"\0\0", reads_out),
            ("cut", b"\0\0\0\5abc", lambda stream: stream.shutdown(socket.SHUT_WR)),
            ("long", b"\xff\xff\xff\xff", reads_out),
            ("lost", b"", reset),
            ("given-up", b"".join(request), reads_out),
        ]
        wanted = []
        for cause, sent, behaves in ends:
            with node.stream() as stream:
                peer = "{}:{}".format(*stream.getsockname())
                wanted.append(("broken", {"lane": "0", "peer": peer, "cause": cause}))
                stream.sendall(sent)
                behaves(stream)
                if cause == "cut":
                    reads_out(stream)
        # One that ends well, and one in the middle of nothing.
        for sent in request[2], b"":
            with node.stream() as stream:
                stream.sendall(sent)
                stream.shutdown(socket.SHUT_WR)
                reads_out(stream)
        status, notes = node.end()
        self.assertEqual((status, told(notes)), (0, wanted))

    def test_a_relay_that_is_down_has_a_line(self):
        with socket.create_server(("127.0.0.1", 0)) as nobody:
            relay = "127.0.0.1:{}".format(nobody.getsockname()[1])
        node = self.node(relay=relay)
        client = node.client(2)
        for _ in range(2):
            self.assertEqual(client.ask(5, Read(), SHOWN).reply.status, 8)
        client.connection.close()
        status, notes = node.end()
        self.assertEqual((status, [word for word, _ in told(notes)]), (0, ["relay-failed", "refused", "refused"]))
        self.assertEqual(told(notes)[0][1], {"lane": "0"})

    def test_a_relay_that_serves_tells_what_it_does_not_reseal(self):
        node = self.node(text=RELAY, command="relay-serve")
        with node.stream() as stream:
            peer = "{}:{}".format(*stream.getsockname())
            for certificate in SHOWN[0], SHOWN[0][:-1] + b"\0":
                stream.sendall(frame(b"\5" + (7).to_bytes(4, "big") + certificate))
            stream.shutdown(socket.SHUT_WR)
            reads_out(stream)
        status, notes = node.end()
        self.assertEqual((status, told(notes)), (0, [("refused", {"lane": "0", "peer": peer, "code": "3"})]))

    def test_a_standard_error_that_nobody_reads_holds_no_lane_up(self):
        ours, its = os.pipe()
        fcntl.fcntl(its, fcntl.F_SETPIPE_SZ, 4096)
        node = Node(self.file(NODE), "--tell-denials", errors=its)
        os.close(its)
        self.addCleanup(node.process.kill)
        node.bound(line_of(ours))
        client = node.client(2)
        began = time.monotonic()
        while time.monotonic() < began + 3:
            asked = time.monotonic()
            self.assertIsInstance(client.ask(5, Read()).reply, Denied)
            self.assertLess(time.monotonic() - asked, 0.5)
        client.connection.close()
        node.process.stdin.close()
        self.assertEqual(node.process.wait(PATIENCE), 0)
        node.process.stdout.close()
        os.close(ours)

    def test_a_run_tells_what_it_writes(self):
        frames = frame(b"") + frame(Request(2, 9, 5, Read()).payload(key_of(2))) + b"\0"
        words = [PROGRAM, "--tell-denials", self.file(NODE), "-", "-", "run"]
        run = subprocess.run(words, input=frames, capture_output=True, check=False, timeout=PATIENCE)
        self.assertEqual(run.returncode, 7)
        note = b"taos: input ends inside a frame, 1 bytes kept\n"
        self.assertIn(note, run.stderr)
        self.assertEqual(told(run.stderr.replace(note, b"")), [
            ("refused", {"lane": "0", "status": "2"}),
            ("denied", {"lane": "0", "channel": "2", "number": "9", "operation": "read", "object": "5", "right": "read", "status": "1",
                        "link": "missing", "shard": "0", "place": "0"}),
        ])

    def test_a_second_has_so_many_lines_and_counts_the_others(self):
        node = self.node("--tell-denials")
        client = node.client(2)
        count = 0
        began = time.monotonic()
        while time.monotonic() < began + 2:
            client.ask(5, Read())
            count += 1
        client.connection.close()
        status, notes = node.end()
        found = told(notes)
        lines = [pairs for word, pairs in found if word == "denied"]
        rest = sum(int(pairs["lines"]) for word, pairs in found if word == "left-out")
        self.assertEqual((status, len(lines) + rest), (0, count))
        seconds = time.monotonic() - began
        self.assertLessEqual(len(lines), LINES * (seconds + 2))


if __name__ == "__main__":
    unittest.main()
