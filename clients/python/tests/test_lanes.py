"""Asks a node of the program that PROGRAM names over TCP, where lanes serve connections at the same time."""
import os
import re
import select
import socket
import subprocess
import tempfile
import threading
import time
import unittest

from vectors import key_of
from yoritzal import (ISSUED, RELAYED, Body, Channel, Client, Fate, Key, Missing, Name, Read, RelayFailed, TimeNumbers, Withdraw, Write,
                      connect, sealed)

PROGRAM = os.environ.get("PROGRAM")
NODE = f"""taos 1
node 7 {key_of(7).hex()}
shards 2
channel 1 {key_of(1).hex()}
channel 2 {key_of(2).hex()}
channel 3 {key_of(3).hex()}
anchor 1 name:10
anchor 3 name:10
object 5
content 5 {b'hello'.hex()}
allow 5 rwcm name:10
"""
BOUND = re.compile(rb"taosd: listening on 127\.0\.0\.1:(\d+)\n")
# The node asks its relay about it.
HAND_OFF = Body(1, Key(2), Name(10), 4102444800, 1)
SHOWN = [sealed(key_of(1), HAND_OFF, ISSUED)]
HERE, PATIENCE = "127.0.0.1:0", 60


def line_of(pipe):
    """A line of a pipe, which may come in pieces."""
    line = b""
    while not line.endswith(b"\n"):
        byte = os.read(pipe, 1)
        if not byte:
            break
        line += byte
    return line


class Node:
    """A node with a lane for each address, each of which takes up to so many connections."""

    def __init__(self, file, listen, relay="-", connections=1, *more):
        words = ["--idle", "20", "--tell-addresses", "--stop-at-end", file, listen, relay, "serve", "--connections", str(connections), *more]
        pipe = subprocess.PIPE
        self.process = subprocess.Popen([PROGRAM, *words], stdin=pipe, stdout=pipe, stderr=pipe)
        self.before, told = [], line_of(self.process.stderr.fileno())
        # An address that can't be bound is told first.
        while told and not BOUND.match(told):
            self.before.append(told)
            told = line_of(self.process.stderr.fileno())
        self.port = told and int(BOUND.match(told).group(1))

    def client(self, number):
        return Client(Channel(number, key_of(number), TimeNumbers()), connect("127.0.0.1", self.port))

    def stream(self):
        return socket.create_connection(("127.0.0.1", self.port), PATIENCE)

    def end(self):
        """Its status, the line that it printed and the notes, once all its doors are done or its input has ended."""
        line, notes = self.process.communicate(timeout=PATIENCE)
        return self.process.returncode, line, notes


def closes(stream):
    """Whether the node closes a stream, whatever it sent."""
    look = select.poll()
    look.register(stream, select.POLLRDHUP)
    return bool(look.poll(1000 * PATIENCE))


def is_silent(stream):
    return closes(stream)


def trickles(stream):
    """Sends a byte of one frame now and then."""
    for byte in [0, 0, 0, 200] + 60 * [1]:
        try:
            stream.send(bytes([byte]))
        except OSError:
            return True
        time.sleep(0.1)
    return False


def ends_inside_a_frame(stream):
    stream.send(b"\0\0\0\5abc")
    stream.shutdown(socket.SHUT_WR)
    return closes(stream)


def sends_no_frame(stream):
    stream.send(b"\xff\xff\xff\xff")
    return closes(stream)


def never_reads(stream):
    """Sends more requests than what their replies have room for on the way."""
    channel = Channel(3, key_of(3), TimeNumbers())
    frame = b"".join(len(each).to_bytes(4, "big") + each for each in (channel.request(5, Read()).payload(key_of(3)) for _ in range(8000)))
    # What is sent once the node takes no more is of no matter.
    threading.Thread(target=lambda: sends(stream, frame), daemon=True).start()
    return closes(stream)


def sends(stream, data):
    try:
        stream.sendall(data)
    except OSError:
        pass


@unittest.skipUnless(PROGRAM, "no PROGRAM is named")
class Lanes(unittest.TestCase):
    def setUp(self):
        with tempfile.NamedTemporaryFile("w", encoding="ascii", delete=False) as file:
            file.write(NODE)
        self.file = file.name
        self.addCleanup(os.remove, file.name)

    def node(self, *words, **limits):
        node = Node(self.file, *words, **limits)
        self.addCleanup(node.process.kill)
        return node

    def is_granted(self, client, operation):
        self.assertEqual(client.ask(5, operation).fate, Fate.DONE)

    def test_a_peer_that_breaks_is_its_own_end_alone(self):
        node = self.node(f"{HERE},{HERE}", connections=10)
        alice = node.client(1)
        self.is_granted(alice, Write(bytes(4000)))
        for breaks in is_silent, trickles, ends_inside_a_frame, sends_no_frame, never_reads:
            with self.subTest(breaks.__name__), node.stream() as stream:
                ends = []
                peer = threading.Thread(target=lambda: ends.append(breaks(stream)))
                peer.start()
                while peer.is_alive():
                    began = time.monotonic()
                    self.is_granted(alice, Read())
                    self.assertLess(time.monotonic() - began, 1.5)
                    peer.join(0.2)
                self.assertEqual(ends, [True])
        alice.connection.close()
        status, line, notes = node.end()
        self.assertEqual((status, notes), (0, b""))
        self.assertRegex(line, rb"^connections 6 broken 5 entries \d+ grants \d+ denials 0\n$")

    def test_as_many_connections_as_lanes_are_served_at_the_same_time(self):
        node = self.node(",".join([HERE] * 16))
        clients = [node.client(1) for _ in range(16)]
        # A connection's first frame is to come soon, so each begins at once.
        for client in clients + clients:
            self.is_granted(client, Read())
        for client in clients:
            client.connection.close()
        self.assertEqual(node.end(), (0, b"connections 16 broken 0 entries 33 grants 32 denials 0\n", b""))

    def test_lanes_take_one_connection_after_the_other(self):
        node = self.node(",".join([HERE] * 4), connections=16)
        for _ in range(64):
            client = node.client(1)
            self.is_granted(client, Read())
            client.connection.close()
        self.assertEqual(node.end(), (0, b"connections 64 broken 0 entries 65 grants 64 denials 0\n", b""))

    def test_what_one_lane_withdrew_another_does_not_take(self):
        node = self.node(f"{HERE},{HERE}")
        alice, other = node.client(1), node.client(2)
        shown = [sealed(key_of(7), HAND_OFF, RELAYED)]
        self.assertEqual(other.ask(5, Read(), shown).fate, Fate.DONE)
        self.is_granted(alice, Withdraw(1))
        self.assertEqual(other.ask(5, Read(), shown).reply.link, Missing(0, Name(10)))
        alice.connection.close()
        other.connection.close()
        self.assertEqual(node.end()[0], 0)

    def test_a_lane_that_waits_for_its_relay_holds_no_other_up(self):
        with socket.create_server(("127.0.0.1", 0)) as relay:
            node = self.node(f"{HERE},{HERE}", f"127.0.0.1:{relay.getsockname()[1]}")
            alice, other = node.client(1), node.client(2)
            self.is_granted(alice, Read())
            answers = []
            asking = threading.Thread(target=lambda: answers.append(other.ask(5, Read(), SHOWN)))
            asking.start()
            asked = 0
            while asking.is_alive():
                self.is_granted(alice, Read())
                asked += 1
                asking.join(0.1)
            self.assertIsInstance(answers[0].reply, RelayFailed)
            self.assertGreater(asked, 10)
            alice.connection.close()
            other.connection.close()
            self.assertEqual(node.end()[0], 0)

    def test_an_address_that_can_not_be_bound_is_a_fault_of_its_lane(self):
        node = self.node(f"{HERE},127.0.0.1:none")
        self.assertEqual(node.before, [b"taosd: 127.0.0.1:none: invalid port value\n"])
        alice = node.client(1)
        self.is_granted(alice, Read())
        alice.connection.close()
        self.assertEqual(node.end(), (9, b"", b"taos: door fault at lane 1\n"))

    def test_seventeen_addresses_are_too_many(self):
        run = subprocess.run([PROGRAM, self.file, "," * 16, "-", "serve"], capture_output=True, check=False, timeout=PATIENCE)
        self.assertEqual((run.returncode, run.stdout), (1, b""))


if __name__ == "__main__":
    unittest.main()
