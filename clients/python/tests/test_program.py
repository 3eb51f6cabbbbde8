"""Asks a node of the program that PROGRAM names, over its standard streams."""
import os
import subprocess
import tempfile
import unittest

from vectors import key_of
from yoritzal import (MANAGE, READ, RELAYED, WRITE, Body, Channel, Client, Connection, Denied, Discard, Entry, Fate, Forget, Hold,
                      Key, MalformedRequest, Missing, Name, Read, SetList, Sweep, TimeNumbers, UnknownObject, Withdraw, Write, read_journals,
                      sealed)

PROGRAM = os.environ.get("PROGRAM")
NODE = f"""taos 1
node 7 {key_of(7).hex()}
shards 2
channel 1 {key_of(1).hex()}
channel 2 {key_of(2).hex()}
anchor 1 name:10
object 5
content 5 {b'hello'.hex()}
allow 5 rwcm name:10
"""
ALICE = Name(10)
ANCHORS, LIST = [(1, 10)], [Entry(15, ALICE)]
HAND_OFF = Body(1, Key(2), ALICE, 4102444800, 1)
SHOWN = [sealed(key_of(7), HAND_OFF, RELAYED)]
MANY = 2000


@unittest.skipUnless(PROGRAM, "no PROGRAM is named")
class Program(unittest.TestCase):
    def setUp(self):
        with tempfile.NamedTemporaryFile("w", encoding="ascii", delete=False) as file:
            file.write(NODE)
        self.addCleanup(os.remove, file.name)
        self.file = file.name
        self.node = subprocess.Popen([PROGRAM, file.name, "-", "-", "run"], stdin=subprocess.PIPE, stdout=subprocess.PIPE,
                                     stderr=subprocess.PIPE)
        self.addCleanup(self.node.kill)
        self.connection = Connection(self.node.stdout, self.node.stdin)
        self.alice, self.other = (Client(Channel(each, key_of(each), TimeNumbers()), self.connection) for each in (1, 2))

    def tearDown(self):
        self.connection.sink.close()
        self.assertEqual((self.node.wait(60), self.node.stderr.read()), (0, b""))
        self.node.stderr.close()
        self.connection.close()

    def granted(self, client, operation, entries=(), certificates=()):
        answer = client.ask(5, operation, certificates)
        self.assertEqual(answer.fate, Fate.DONE, answer)
        answer.reply.check(answer.request, ANCHORS, entries or LIST)
        return answer.result

    def test_every_operation_does_what_it_says(self):
        shared = (Entry(READ | MANAGE, ALICE), Entry(WRITE, Key(2)))
        self.assertEqual(self.granted(self.other, Read(), certificates=SHOWN), b"hello")
        self.granted(self.alice, Write(b"new"))
        self.assertEqual(self.granted(self.other, Read()), b"new")
        self.granted(self.alice, Discard(HAND_OFF.digest))
        denied = self.other.ask(5, Read()).reply
        self.assertIsInstance(denied, Denied)
        self.assertEqual(denied.link, Missing(0, ALICE))
        self.granted(self.alice, Hold(), certificates=SHOWN)
        self.assertEqual(self.granted(self.other, Read()), b"new")
        self.granted(self.alice, Forget(2))
        self.granted(self.alice, Sweep())
        self.granted(self.alice, Withdraw(1))
        self.assertEqual(self.other.ask(5, Read(), SHOWN).reply.link, Missing(0, ALICE))
        self.granted(self.alice, SetList(shared))
        self.granted(self.other, Write(b"newer"), entries=shared)
        self.assertEqual(self.granted(self.alice, Read(), entries=shared), b"newer")

    def test_a_restart_forgets_who_was_withdrawn(self):
        self.granted(self.alice, Withdraw(1))
        self.assertEqual(self.other.ask(5, Read(), SHOWN).reply.link, Missing(0, ALICE))
        self.tearDown()
        self.setUp()
        self.assertEqual(self.granted(self.other, Read(), certificates=SHOWN), b"hello")

    def test_what_is_refused_is_told(self):
        self.assertIsInstance(self.alice.ask(6, Read()).reply, UnknownObject)
        stranger = Client(Channel(1, key_of(3), TimeNumbers()), self.connection)
        answer = stranger.ask(5, Read())
        self.assertEqual((answer.fate, answer.reply), (Fate.UNKNOWN, None))
        self.assertEqual(len(stranger.channel.may_still_come()), 1)

    def test_a_payload_that_is_no_request_is_told_without_a_seal(self):
        self.connection.send([b"\3"])
        answer = self.alice.ask(5, Read())
        self.assertIn(MalformedRequest.__name__, answer.why)
        self.assertEqual(self.alice.ask(5, Read()).fate, Fate.DONE)
        self.assertEqual([each.request for each in self.alice.late], [answer.request])

    def test_many_at_once_are_answered_in_order(self):
        asked = [self.alice.channel.request(5, Write(bytes(4000)) if place % 2 else Read()) for place in range(MANY)]
        answers = self.alice.send(asked)
        self.assertEqual({answer.fate for answer in answers}, {Fate.DONE})
        self.assertEqual([answer.reply.number for answer in answers], [request.number for request in asked])

    def left_of(self, command, data):
        done = subprocess.run([PROGRAM, self.file, "-", "-", command], input=data, stdout=subprocess.PIPE, timeout=60, check=False)
        return done.returncode, done.stdout

    def test_journals_as_bytes_are_read_and_judged(self):
        asked = [client.channel.request(5, operation).payload(key_of(client.channel.number))
                 for client, operation in [(self.alice, Write(b"new")), (self.other, Read()), (self.alice, Withdraw(1))]]
        status, data = self.left_of("audit-bytes", b"".join(len(each).to_bytes(4, "big") + each for each in asked))
        told = list(read_journals(data).lines())
        self.assertEqual((status, len([line for line in told if line.startswith("object 5")])), (0, 3))
        self.assertEqual(self.left_of("replay", data), (0, f"legal entries {len(told)}\n".encode()))
        # The last entry's ruling, which grants by entry 0.
        status, line = self.left_of("replay", data[:-1] + b"\1")
        self.assertEqual((status, line), (14, b"illegal object 5 entry 2 ruling\n"))
        self.assertIn("withdraw 1 -> granted 1", read_journals(data[:-1] + b"\1").explained(line.decode())[0])


if __name__ == "__main__":
    unittest.main()
