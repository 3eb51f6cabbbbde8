"""What a peer may cost: one that trickles, that sends what is no reply, that never settles a request, that proves at length."""
import asyncio
import io
import socket
import threading
import time
import unittest

from test_client import DENIAL, GRANT, SECONDS, Counted, channel, frame, grant, sealed_reply, told, unsealed
from test_sessions import Server, answer, grants_all, requests_of
from vectors import TAG, key_of
from yoritzal import (MOST_LINES, MOST_UNSETTLED, READ, AsyncClient, Broken, Channel, Client, Connection, Entry, Fate, Malformed, Name,
                      ProofFault, Read, Request, Session, TooManyLines, believed, connect, open_client, read_proof)

LIMIT, LONGEST = 0.4, (1 << 26) - 1
NOT_DONE = b"\x09\0\0\0\5"
# What no node sends to the first request of channel 1, and what is said of it.
JUNK = [(b"", "no reply"), (bytes(40), "nobody sealed"), (b"\4" + bytes(60), "nobody sealed"), (grant(1)[:-1] + b"\0", "another tag"),
        (unsealed(NOT_DONE), "nobody sealed"), (grant(9), "nothing waits"), (grant(1, of=2), "another tag"),
        (sealed_reply(1, b"\xff"), "spells nothing")]
MANY = 30
# Four bytes of a proof of one node, key 1, are how many lines it has; each says that the node speaks for itself.
TABLE, SAME_LINE = b"\0\1\1\0\0\0\1", b"\1\0\0\0\0"
# Key 1 speaks for name 10 by anchor 0.
ANCHORED_TABLE, ANCHOR_LINE = b"\0\2\1\0\0\0\1\2\0\0\0\x0a", b"\x09\0\0\0\1\0\0"
# A line of each rule, of node 0 alone: its byte, how many nodes its fact has, and the bytes behind them.
SHAPES = [(1, 2, 0), (2, 2, 8), (3, 2, 0), (4, 2, 0), (5, 2, 8), (6, 2, 8), (7, 2, 8), (8, 2, 0), (9, 2, 2), (10, 3, 2), (11, 3, 8),
          (12, 3, 8), (13, 2, 4), (14, 2, 4), (15, 2, 4)]


def pieces_of_the_longest(files, piece, pause):
    """Announces the longest answer to a request, and sends it in pieces as long as a test may take."""
    next(requests_of(files))
    files.write(LONGEST.to_bytes(4, "big"))
    end = time.monotonic() + 1.6
    while time.monotonic() < end:
        files.write(bytes(piece))
        files.flush()
        time.sleep(pause)


def trickles(files, _):
    pieces_of_the_longest(files, 65536, LIMIT / 2)


def sends_single_bytes(files, _):
    pieces_of_the_longest(files, 1, LIMIT / 8)


def gives_late(files, _):
    """Answers three requests by nothing that is sealed, and behind the fourth the first ones, with pauses."""
    first = []
    for request in requests_of(files):
        if len(first) == 3:
            break
        first.append(request.number)
        answer(files, unsealed(b"\4"))
    for number in first:
        time.sleep(LIMIT * 0.7)
        answer(files, grant(number))


class Limits(unittest.TestCase):
    """A limit of time is of an answer as a whole."""

    def asked(self, serve, before=0):
        """The last answer, behind so many that came, and how long it took."""
        with Server(serve) as server, connect("127.0.0.1", server.port, LIMIT) as connection:
            client = Client(channel(), connection)
            for _ in range(before):
                client.ask(5, Read())
            began = time.monotonic()
            return client.ask(5, Read()), time.monotonic() - began

    def asked_by_task(self, serve, before=0):
        async def run(port):
            async with await open_client(channel(), "127.0.0.1", port, LIMIT) as client:
                for _ in range(before):
                    await client.ask(5, Read())
                began = time.monotonic()
                return await client.ask(5, Read()), time.monotonic() - began

        with Server(serve) as server:
            return asyncio.run(run(server.port))

    def assert_given_up(self, found):
        last, took = found
        self.assertEqual(last.fate, Fate.UNKNOWN)
        self.assertIn(f"no whole answer in {LIMIT} seconds", last.why)
        self.assertTrue(LIMIT * 0.9 < took < LIMIT * 3, took)

    def test_an_answer_that_comes_in_large_pieces_is_given_up(self):
        self.assert_given_up(self.asked(trickles))

    def test_an_answer_that_comes_in_single_bytes_is_given_up(self):
        self.assert_given_up(self.asked(sends_single_bytes))

    def test_answers_that_come_late_give_no_more_time(self):
        self.assert_given_up(self.asked(gives_late, 3))

    def test_tasks_give_up_the_same(self):
        for serve, before in [(trickles, 0), (sends_single_bytes, 0), (gives_late, 3)]:
            self.assert_given_up(self.asked_by_task(serve, before))

    def test_each_of_many_answers_has_its_time(self):
        def slow(files, _):
            for request in requests_of(files):
                time.sleep(LIMIT / 2)
                answer(files, grant(request.number))

        async def run(port):
            async with await open_client(channel(), "127.0.0.1", port, LIMIT) as client:
                return await asyncio.gather(*[client.ask(5, Read()) for _ in range(4)])

        with Server(slow) as server:
            with connect("127.0.0.1", server.port, LIMIT) as connection:
                client = Client(channel(), connection)
                answers = client.send([client.channel.request(5, Read()) for _ in range(4)])
            self.assertEqual([each.fate for each in answers + asyncio.run(run(server.port))], [Fate.DONE] * 8)

    def test_who_still_writes_is_let_go_with_the_connection(self):
        """The peer sends what is no reply, and reads none of what the other thread of the client still writes."""
        ended = threading.Event()

        def deaf(files, _):
            next(requests_of(files))
            time.sleep(0.2)
            answer(files, bytes(40))
            ended.wait(SECONDS)

        with Server(deaf) as server:
            # Of a small room: what is written finds none.
            server.listener.setsockopt(socket.SOL_SOCKET, socket.SO_RCVBUF, 65536)
            with connect("127.0.0.1", server.port, SECONDS) as connection:
                client, began = Client(channel(), connection), time.monotonic()
                answers = client.send([client.channel.request(5, Read(), [bytes(2000)] * 16)] * 400)
                took = time.monotonic() - began
                ended.set()
        self.assertLess(took, SECONDS / 4)
        self.assertEqual({(each.fate, each.why) for each in answers}, {(Fate.UNKNOWN, "a reply that nobody sealed")})


class Pieces:
    """A stream that gives bytes in pieces, and what stands for one that takes them."""

    def __init__(self, data, size):
        self.data, self.size, self.at, self.transport = memoryview(data), size, 0, self

    async def read(self, _):
        self.at += self.size
        return bytes(self.data[self.at - self.size : self.at])

    def write(self, data):
        """Nobody takes it."""

    def get_write_buffer_size(self):
        return 0

    def abort(self):
        """There is nothing to close."""


class Pace(unittest.TestCase):
    def test_an_answer_in_small_pieces_costs_its_bytes(self):
        """Where each piece moves those before it again, this takes some ten seconds of the processor, and not a half."""
        async def run():
            stream = Pieces(frame(bytes(16 << 20)), 2048)
            return await AsyncClient(channel(), stream, stream).ask(5, Read())

        began = time.process_time()
        self.assertIn("nobody sealed", asyncio.run(run()).why)
        self.assertLess(time.process_time() - began, 4)


class Junk(unittest.TestCase):
    """A connection fails on which something came that no node sends."""

    def test_what_is_no_reply_ends_the_connection(self):
        for payload, word in JUNK:
            client, sent = told(payload, grant(2), grant(3))
            last, written = client.ask(5, Read()), []
            sent.write = written.append
            self.assertEqual((last.fate, client.failed), (Fate.UNKNOWN, True), payload.hex())
            self.assertIn(word, last.why)
            self.assertTrue(client.connection.source.closed and sent.closed)
            for _ in range(2):
                after = client.ask(5, Read())
                self.assertEqual((after.fate, after.request.number, written), (Fate.NOT_SENT, 0, []))
                self.assertIn(word, after.why)
            self.assertEqual((client.channel.numbers.last, [each.number for each in client.channel.may_still_come()]), (1, [1]))

    def test_requests_that_were_made_before_are_not_sent(self):
        client, _ = told(bytes(40))
        requests = [client.channel.request(5, Read()) for _ in range(3)]
        self.assertEqual(client.ask(5, Read()).fate, Fate.UNKNOWN)
        self.assertEqual([each.fate for each in client.send(requests)], [Fate.NOT_SENT] * 3)
        self.assertEqual([each.number for each in client.channel.may_still_come()], [4])

    def test_what_a_node_may_send_without_a_seal_does_not(self):
        for fields in (b"\2\0\0\0\5", b"\3\0\0\0\1", b"\4", b"\x0b"):
            client, _ = told(unsealed(fields), grant(1), grant(2))
            self.assertEqual([client.ask(5, Read()).fate for _ in range(2)], [Fate.UNKNOWN, Fate.DONE])
            self.assertFalse(client.failed)

    def test_those_behind_it_are_not_known(self):
        client, _ = told(grant(1), bytes(40), grant(2), grant(3))
        answers = client.send([client.channel.request(5, Read()) for _ in range(3)])
        self.assertEqual([each.fate for each in answers], [Fate.DONE, Fate.UNKNOWN, Fate.UNKNOWN])
        self.assertEqual((client.failed, len(client.waiting)), (True, 0))

    def test_a_connection_tells_why_it_failed(self):
        connection = Connection(io.BytesIO(b"\4\0\0\0" + frame(b"x")), io.BytesIO())
        with self.assertRaisesRegex(Broken, "no frame"):
            connection.receive()
        for after in (connection.receive, lambda: connection.send([b"x"])):
            with self.assertRaisesRegex(Broken, "failed before: what came is no frame"):
                after()

    def test_one_that_is_cut_short_by_a_signal_is_not_read_on(self):
        class Cut(io.BytesIO):
            def read(self, count=-1):
                if count > 4:
                    raise KeyboardInterrupt
                return super().read(count)

        client = Client(channel(), Connection(Cut(frame(grant(1))), io.BytesIO()))
        with self.assertRaises(KeyboardInterrupt):
            client.ask(5, Read())
        self.assertEqual((client.failed, client.ask(5, Read()).fate), (True, Fate.NOT_SENT))
        client, sink = Client(channel(), Connection(io.BytesIO(frame(grant(1))), io.BytesIO())), Cut()
        sink.write, client.connection.sink = lambda data: sink.read(5), sink
        with self.assertRaises(KeyboardInterrupt):
            client.ask(5, Read())
        self.assertEqual((client.failed, client.ask(5, Read()).fate), (True, Fate.NOT_SENT))
        connection = Connection(Cut(frame(grant(1))), io.BytesIO())
        with self.assertRaises(KeyboardInterrupt):
            connection.receive()
        with self.assertRaisesRegex(Broken, "KeyboardInterrupt"):
            connection.receive()

    def test_tasks_find_the_same(self):
        gone = threading.Event()

        def junk(payload):
            def serve(files, _):
                next(requests_of(files))
                answer(files, payload)
                try:
                    while files.read(1):
                        pass
                finally:
                    gone.set()
            return serve

        async def run(port):
            client = await open_client(channel(), "127.0.0.1", port, SECONDS)
            asked = await asyncio.gather(*[client.ask(5, Read()) for _ in range(2)])
            return asked, await client.ask(5, Read()), client

        for payload, word in JUNK:
            gone.clear()
            with Server(junk(payload)) as server:
                asked, after, client = asyncio.run(run(server.port))
                self.assertEqual([each.fate for each in asked + [after]], [Fate.UNKNOWN] * 2 + [Fate.NOT_SENT], payload.hex())
                self.assertTrue(word in asked[0].why and word in after.why and word in client.failed, asked)
                self.assertEqual((client.channel.numbers.last, len(client.waiting)), (2, 0))
                self.assertTrue(gone.wait(SECONDS))

    def test_a_session_goes_on_by_another_connection(self):
        def serve(files, place):
            for request in requests_of(files):
                answer(files, grant(request.number) if place else bytes(40))

        with Server(serve) as server, Session(channel(), server.dial) as session:
            self.assertEqual([session.ask(5, Read()).fate for _ in range(3)], [Fate.UNKNOWN, Fate.DONE, Fate.DONE])
            self.assertEqual(server.count, 2)


class Unsettled(unittest.TestCase):
    """What a channel and its client keep of requests that are not settled has a bound."""

    def of(self, replies, most=10):
        client, _ = told(*replies)
        client.channel = Channel(1, key_of(1), Counted(), most)
        return client

    def numbers(self, client):
        return [each.number for each in client.channel.may_still_come()]

    def test_the_last_are_kept_and_a_grant_settles_all(self):
        client = self.of([sealed_reply(number, NOT_DONE) for number in range(1, MANY + 1)] + [grant(MANY + 1)])
        for _ in range(MANY):
            self.assertEqual(client.ask(5, Read()).fate, Fate.NOT_DONE)
        self.assertEqual((self.numbers(client), client.channel.forgotten), (list(range(21, 31)), 20))
        self.assertEqual(client.ask(5, Read()).fate, Fate.DONE)
        self.assertEqual((self.numbers(client), client.channel.forgotten), ([], 0))

    def test_one_that_is_forgotten_may_come_until_a_higher_one_is_ruled_on(self):
        client = self.of([grant(1), sealed_reply(2, DENIAL[13:-TAG])] + [sealed_reply(number, NOT_DONE) for number in range(3, MANY + 1)])
        client.send([client.channel.request(5, Read()) for _ in range(MANY)])
        self.assertEqual((self.numbers(client), client.channel.forgotten), (list(range(21, 31)), 20))

    def test_those_whose_answers_were_given_up_are_forgotten_too(self):
        client = self.of([unsealed(b"\4")] * MANY + [grant(number) for number in range(MANY - 9, MANY + 2)])
        for _ in range(MANY):
            self.assertEqual(client.ask(5, Read(), [bytes(1000)] * 16).fate, Fate.UNKNOWN)
        self.assertEqual((list(client.waiting), client.failed), (list(range(21, 31)), False))
        self.assertEqual(client.ask(5, Read()).fate, Fate.DONE)
        self.assertEqual([each.request.number for each in client.late], list(range(21, 31)))

    def test_an_answer_to_one_that_was_forgotten_is_none(self):
        client = self.of([unsealed(b"\4")] * MANY + [grant(1)])
        for _ in range(MANY):
            client.ask(5, Read())
        self.assertEqual((client.ask(5, Read()).fate, client.failed), (Fate.UNKNOWN, True))

    def test_of_late_answers_the_last_are_kept(self):
        given_up = [unsealed(b"\4")] * 2
        client = self.of(given_up + [grant(1), grant(2), grant(3)] + given_up + [grant(4), grant(5), grant(6)], 2)
        fates = [client.ask(5, Read()).fate for _ in range(6)]
        self.assertEqual(fates, [Fate.UNKNOWN, Fate.UNKNOWN, Fate.DONE] * 2)
        self.assertEqual([each.request.number for each in client.late], [4, 5])

    def test_tasks_keep_no_more(self):
        def serve(files, _):
            for count, request in enumerate(requests_of(files)):
                answer(files, unsealed(b"\4") if count < MANY else sealed_reply(request.number, NOT_DONE))

        async def run(port):
            held = Channel(1, key_of(1), Counted(), 10)
            async with await open_client(held, "127.0.0.1", port, SECONDS) as client:
                fates = [(await client.ask(5, Read())).fate for _ in range(MANY + 5)]
                return fates, list(client.waiting), held

        with Server(serve) as server:
            fates, waiting, held = asyncio.run(run(server.port))
        self.assertEqual(fates, [Fate.UNKNOWN] * MANY + [Fate.NOT_DONE] * 5)
        self.assertEqual((waiting, held.forgotten), (list(range(21, 31)), 25))
        self.assertEqual([each.number for each in held.may_still_come()], list(range(26, 36)))

    def test_many_at_once_may_be_more_than_are_remembered(self):
        async def run(port):
            async with await open_client(Channel(1, key_of(1), Counted(), 3), "127.0.0.1", port, SECONDS) as client:
                return await asyncio.gather(*[client.ask(5, Read()) for _ in range(MANY)])

        with Server(grants_all) as server:
            with connect("127.0.0.1", server.port, SECONDS) as connection:
                client = Client(Channel(1, key_of(1), Counted(), 3), connection)
                answers = client.send([client.channel.request(5, Read()) for _ in range(MANY)])
            self.assertEqual([each.fate for each in answers + asyncio.run(run(server.port))], [Fate.DONE] * 2 * MANY)
        self.assertEqual((self.numbers(client), client.channel.forgotten, client.waiting), ([], 0, {}))

    def test_it_is_1000_where_nothing_is_said(self):
        held = channel()
        for _ in range(MOST_UNSETTLED + 5):
            held.request(5, Read())
        self.assertEqual((len(held.may_still_come()), held.forgotten, MOST_UNSETTLED), (1000, 5, 1000))
        with self.assertRaises(ValueError):
            Channel(1, key_of(1), Counted(), 0)


class Lengths(unittest.TestCase):
    """A proof is read as far as its reader allows."""

    def granted(self, lines):
        """The worked grant with a proof that says so many times that key 1 speaks for itself, and then what is due."""
        proof = ANCHORED_TABLE + (lines + 1).to_bytes(4, "big") + SAME_LINE * lines + ANCHOR_LINE
        at, rest = 28, GRANT[28:-TAG]
        behind = rest[4 + int.from_bytes(rest[:4], "big") :]
        return believed(sealed_reply(1, GRANT[13:at] + len(proof).to_bytes(4, "big") + proof + behind), 1, key_of(1))

    def check(self, lines, *most):
        self.granted(lines).check(Request(1, 1, 5, Read()), [(1, 10)], [Entry(READ, Name(10))], *most)

    def test_the_caller_sets_how_many_lines_are_looked_at(self):
        self.check(20, 21)
        with self.assertRaises(TooManyLines) as told_of:
            self.check(21, 21)
        self.assertEqual((str(told_of.exception), told_of.exception.count), ("a proof of 22 lines, more than the 21 that are looked at", 22))
        self.assertIsInstance(told_of.exception, ProofFault)

    def test_it_may_be_more_than_without_a_word(self):
        self.check(MOST_LINES, MOST_LINES + 1)

    def test_a_proof_that_was_read_is_refused_by_a_lower_limit(self):
        reply = self.granted(20)
        self.assertEqual(len(reply.proof.lines), 21)
        with self.assertRaises(TooManyLines):
            reply.check(Request(1, 1, 5, Read()), [(1, 10)], [Entry(READ, Name(10))], 20)

    def test_it_is_100000_where_nothing_is_said(self):
        self.assertEqual(MOST_LINES, 100000)
        reply, began = self.granted(MOST_LINES), time.process_time()
        for look in (lambda: reply.proof, lambda: reply.check(Request(1, 1, 5, Read()), [(1, 10)], [Entry(READ, Name(10))])):
            with self.assertRaises(TooManyLines):
                look()
        self.assertLess(time.process_time() - began, 0.1)
        self.assertEqual(len(read_proof(TABLE + MOST_LINES.to_bytes(4, "big") + SAME_LINE * MOST_LINES).lines), MOST_LINES)

    def test_none_is_read_that_is_too_long(self):
        """The lines are not there at all."""
        with self.assertRaises(TooManyLines):
            read_proof(TABLE + b"\0\0\0\6", 5)
        with self.assertRaises(Malformed):
            read_proof(TABLE + b"\0\0\0\5", 5)

    def test_each_line_is_read_as_it_is_spelled_and_refused_at_its_byte(self):
        begin = len(TABLE) + 4
        for rule, nodes, rest in SHAPES:
            line = bytes([rule]) + bytes(2 * nodes) + bytes(range(1, rest + 1))
            whole = TABLE + b"\0\0\0\1" + line
            found = read_proof(whole).lines[0]
            behind = [int.from_bytes(line[at : at + 4], "big") for at in range(1 + 2 * nodes, len(line) - 3, 4)]
            cited = int.from_bytes(line[-2:], "big") if rest == 2 else None
            self.assertEqual(found, (rule, 0 if nodes == 3 else None, 0, 0, tuple(behind), cited), rule)
            faults = [(whole[:end], end) for end in range(begin, len(whole))] + [(whole + b"\0", len(whole))]
            for place in range(nodes):
                at = begin + 1 + 2 * place
                faults.append((whole[:at] + b"\0\1" + whole[at + 2 :], at))
                faults.append((whole[:at] + b"\0\1", at))
            for data, offset in faults:
                with self.assertRaises(Malformed, msg=f"{rule} {data.hex()}") as fault:
                    read_proof(data)
                self.assertEqual(fault.exception.offset, offset, f"{rule} {data.hex()}")

    def test_there_is_no_rule_but_these(self):
        for rule in (0, 16, 255):
            with self.assertRaises(Malformed) as fault:
                read_proof(TABLE + b"\0\0\0\1" + bytes([rule]) + bytes(12))
            self.assertEqual(fault.exception.offset, len(TABLE) + 4)


if __name__ == "__main__":
    unittest.main()
