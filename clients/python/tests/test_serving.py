"""Asks a node of the program that PROGRAM names over TCP by two lanes, whose steps meet in the ways that these tests make happen."""
import os
import socket
import subprocess
import sys
import tempfile
import threading
import unittest

from test_lanes import HERE, PATIENCE, PROGRAM, Node
from vectors import TOP, key_of
from yoritzal import (ISSUED, READ, RELAYED, And, As, Body, Channel, Client, Denied, Entry, Fate, For, Granted,
                      JournalFull, Key, Missing, Name, Quoting, Read, Replayed, SetList, connect, sealed)

import relay as relays  # isort: skip

LOAD = os.path.join(TOP, "crates", "taos_drill", "tools", "load.py")
UNTIL = 4_102_444_800
# The node of the load of logins: no channel has its key.
NODE = 100
TWO = f"{HERE},{HERE}"
# Alice is key 1 and key 3, and may do all with object 5.
OPENING = "\n".join(
    ["taos 1", f"node 7 {key_of(7).hex()}", "shards 2"]
    + [f"channel {each} {key_of(each).hex()}" for each in (1, 2, 3)]
    + ["anchor 1 name:10", "anchor 3 name:10", "object 5", f"content 5 {b'hello'.hex()}", "allow 5 rwcm name:10", ""])


class Rising:
    """Numbers from one on."""

    def __init__(self):
        self.last = 0

    def take(self):
        self.last += 1
        return self.last


class LateRelay(relays.Relay):
    """A relay that tells when it is asked, and answers once it may."""

    def __init__(self):
        super().__init__({7: key_of(7)}, {1: key_of(1)})
        self.asked, self.may_answer = threading.Event(), threading.Event()

    def answer_all(self, stream):
        payload = relays.taken(stream, int.from_bytes(relays.taken(stream, 4), "big"))
        self.asked.set()
        self.may_answer.wait(PATIENCE)
        brought = relays.answer(self.nodes, self.issuers, payload)
        stream.sendall(len(brought).to_bytes(4, "big") + brought)


class Workstation:
    """A machine of the load of logins: what it and its users say, under the node's seal."""

    def __init__(self, number):
        self.key, self.booted, self.name = 2000 + number, 2100 + number, Name(200 + number)
        self.system = As(self.name, 1)

    def login(self, user):
        """The certificates of a login: of the boot, the channel, the login and the session."""
        session, who = Key(4000 + user), Name(1000 + user)
        seat = And(self.system, session)
        said = [(self.key, Key(self.booted), self.system), (self.booted, Key(user), Key(self.booted)),
                (3000 + user, Quoting(seat, who), For(seat, who)), (4000 + user, Key(user), session)]
        return [sealed(key_of(NODE), Body(issuer, left, right, UNTIL, 1), RELAYED) for issuer, left, right in said]


MACHINES, USERS = [Workstation(0), Workstation(1)], range(1, 41)


def machine_of(user):
    return MACHINES[user % 2]


def object_of(user):
    return (user - 1) // 4 + 1


def opening_of_logins():
    lines = ["taos 1", f"node {NODE} {key_of(NODE).hex()}", "shards 8"]
    lines += [f"channel {user} {key_of(user).hex()}" for user in USERS]
    lines += [f"anchor {each.key} {each.name}" for each in MACHINES] + [f"anchor {3000 + user} {Name(1000 + user)}" for user in USERS]
    lines += [f"object {each}" for each in range(1, 11)]
    lines += [f"allow {object_of(user)} r {For(machine_of(user).system, Name(1000 + user))}" for user in USERS]
    return "\n".join(lines + [""])


@unittest.skipUnless(PROGRAM, "no PROGRAM is named")
class Serving(unittest.TestCase):
    def file(self, text):
        with tempfile.NamedTemporaryFile("w", encoding="ascii", delete=False) as file:
            file.write(text)
        self.addCleanup(os.remove, file.name)
        return file.name

    def node(self, text=OPENING, relay="-", connections=1):
        node = Node(self.file(text), TWO, relay, connections)
        self.addCleanup(node.process.kill)
        return node

    def ends(self, node, line):
        self.assertEqual(node.end(), (0, line, b""))

    def test_requests_of_two_lanes_wait_for_each_other(self):
        relay = LateRelay()
        with relay as address:
            node = self.node(relay=address)
            shown = [sealed(key_of(1), Body(1, Key(2), Name(10), UNTIL, 1), ISSUED)]
            waiting, other = node.client(2), node.client(1)
            answers = []
            asking = threading.Thread(target=lambda: answers.append(waiting.ask(5, Read(), shown)))
            asking.start()
            # This lane asks only once the other one waits for its relay, which answers only once this one was answered twice.
            self.assertTrue(relay.asked.wait(PATIENCE))
            for _ in range(2):
                self.assertEqual(other.ask(5, Read()).fate, Fate.DONE)
            self.assertFalse(answers)
            relay.may_answer.set()
            asking.join(PATIENCE)
            self.assertIsInstance(answers[0].reply, Granted)
            waiting.connection.close()
            other.connection.close()
            self.ends(node, b"connections 2 broken 0 entries 5 grants 3 denials 0\n")

    def test_each_number_of_a_channel_on_two_lanes_is_ruled_on_once(self):
        count, node, replies = 400, self.node(), []

        def asks():
            channel = Channel(1, key_of(1), Rising())
            with connect("127.0.0.1", node.port) as connection:
                replies.extend(each.reply for each in Client(channel, connection).send([channel.request(5, Read()) for _ in range(count)]))

        lanes = [threading.Thread(target=asks) for _ in range(2)]
        for each in lanes:
            each.start()
        for each in lanes:
            each.join(PATIENCE)
        granted = [each.number for each in replies if isinstance(each, Granted)]
        self.assertEqual(sorted(granted), list(range(1, count + 1)))
        self.assertEqual(sum(isinstance(each, Replayed) for each in replies), count)
        # Each Ask has an entry, the replayed ones too, and one proof is kept.
        self.ends(node, b"connections 2 broken 0 entries 801 grants 400 denials 0\n")

    def test_a_journal_that_two_lanes_fill_has_no_entry_more(self):
        limit, node, replies = 50, self.node(OPENING + "journal 50\n"), {}

        def asks(number):
            client = node.client(number)
            replies[number] = [each.reply for each in client.send([client.channel.request(5, Read()) for _ in range(limit)])]
            client.connection.close()

        lanes = [threading.Thread(target=asks, args=[number]) for number in (1, 3)]
        for each in lanes:
            each.start()
        for each in lanes:
            each.join(PATIENCE)
        for kinds in ([type(each) for each in told] for told in replies.values()):
            self.assertLessEqual(set(kinds), {Granted, JournalFull})
            # Once it is full, it stays so.
            self.assertEqual(kinds, sorted(kinds, key=[Granted, JournalFull].index))
        # Both channels are at one shard, which keeps a proof for each of them that asked before it was full.
        granted = sum(isinstance(each, Granted) for told in replies.values() for each in told)
        kept = sum(isinstance(told[0], Granted) for told in replies.values())
        self.assertEqual(granted, limit - kept)
        self.ends(node, b"connections 2 broken 0 entries 50 grants %d denials 0\n" % granted)

    def test_a_list_that_one_lane_sets_counts_for_the_other(self):
        node = self.node()
        alice, other = node.client(1), node.client(2)
        reply = other.ask(5, Read()).reply
        self.assertEqual((type(reply), reply.link), (Denied, Missing(0, Name(10))))
        self.assertEqual(alice.ask(5, SetList((Entry(READ, Key(2)), Entry(15, Name(10))))).fate, Fate.DONE)
        self.assertEqual(other.ask(5, Read()).fate, Fate.DONE)
        self.assertEqual(alice.ask(5, SetList((Entry(15, Name(10)),))).fate, Fate.DONE)
        self.assertIsInstance(other.ask(5, Read()).reply, Denied)
        alice.connection.close()
        other.connection.close()
        self.assertRegex(node.end()[1], rb"^connections 2 broken 0 entries \d+ grants 3 denials 2\n$")

    def test_connections_that_are_cut_at_each_byte_harm_no_other_lane(self):
        payload = Channel(3, key_of(3), Rising()).request(5, Read()).payload(key_of(3))
        frame = len(payload).to_bytes(4, "big") + payload
        node = self.node(connections=len(frame) + 1)
        alice = node.client(1)
        self.assertEqual(alice.ask(5, Read()).fate, Fate.DONE)
        for cut in range(1, len(frame)):
            with node.stream() as stream:
                stream.sendall(frame[:cut])
                stream.shutdown(socket.SHUT_WR)
                self.assertEqual(stream.recv(1), b"")
            self.assertEqual(alice.ask(5, Read()).fate, Fate.DONE)
        alice.connection.close()
        line = f"connections {len(frame)} broken {len(frame) - 1} entries {len(frame) + 1} grants {len(frame)} denials 0\n"
        self.ends(node, line.encode())

    def test_a_load_of_logins_is_granted(self):
        node, answers = self.node(opening_of_logins(), connections=20), {}

        def logs_in(users):
            for user in users:
                channel = Channel(user, key_of(user), Rising())
                with connect("127.0.0.1", node.port) as connection:
                    client, quoted = Client(channel, connection), Name(1000 + user)
                    shown = [machine_of(user).login(user), (), ()]
                    answers[user] = [client.ask(object_of(user), Read(), each, quoted).reply for each in shown]

        lanes = [threading.Thread(target=logs_in, args=[USERS[first::2]]) for first in range(2)]
        for each in lanes:
            each.start()
        for each in lanes:
            each.join(PATIENCE)
        self.assertEqual(sorted(answers), list(USERS))
        for replies in answers.values():
            self.assertEqual([(type(each), each.kept) for each in replies], [(Granted, False), (Granted, True), (Granted, True)])
        self.ends(node, b"connections 40 broken 0 entries 160 grants 120 denials 0\n")

    def test_lanes_whose_doors_have_ended_serve_nobody(self):
        for text, command, line in ((OPENING, "serve", b"connections 0 broken 0 entries 0 grants 0 denials 0\n"),
                                    ("taos-relay 1\n", "relay-serve", b"connections 0 broken 0\n")):
            with self.subTest(command):
                words = [PROGRAM, "--stop-at-end", self.file(text), TWO, "-", command]
                run = subprocess.run(words, stdin=subprocess.DEVNULL, capture_output=True, check=False, timeout=PATIENCE)
                self.assertEqual((run.returncode, run.stdout, run.stderr), (0, line, b""))


@unittest.skipUnless(PROGRAM, "no PROGRAM is named")
class Drills(unittest.TestCase):
    def test_a_large_drill_comes_to_what_its_words_say(self):
        sys.path.insert(0, os.path.dirname(LOAD))
        import load

        drawn = load.words(0, load.REQUESTS)
        even = [next(drawn) % 2 == 0 for _ in range(10_000)]
        granting = len({at % 16 for at, is_even in enumerate(even) if is_even})
        line = f"requests 10000 entries {10_000 + granting} grants {sum(even)} denials {10_000 - sum(even)}\n".encode()
        for _ in range(2):
            run = subprocess.run([PROGRAM, "-", "-", "-", "drill", "0", "10000", "16"], stdin=subprocess.DEVNULL,
                                 capture_output=True, check=False, timeout=PATIENCE)
            self.assertEqual((run.returncode, run.stdout, run.stderr), (0, line, b""))


if __name__ == "__main__":
    unittest.main()
