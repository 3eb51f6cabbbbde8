"""The rules for clients, against nodes that answer as a test tells them."""
import io
import os
import socket
import tempfile
import threading
import time
import unittest

from vectors import TAG, asked, key_of, payloads_of, turned, worked
from yoritzal import (READ, Body, Broken, Channel, Client, Connection, Discard, Entry, Fate, FileNumbers, Forget, Hold, InUse, Key, Malformed,
                      Name, NotGranted, Read, Request, SetList, Sweep, TimeNumbers, Withdraw, Write, connect, sealed, tag)

GRANT, DENIAL = payloads_of(worked("An anchored read")[2])[0], payloads_of(worked("An anchored read")[3])[0]
BODY = Body(1, Key(2), Name(10), 4102444800, 1)
OPERATIONS = [Read(), Write(b"new"), SetList((Entry(READ, Name(10)),)), Hold(), Discard(BODY.digest), Forget(2), Sweep(),
              Withdraw(1)]
SECONDS = 20


class Counted:
    """Numbers from 1, which a test looks at."""

    def __init__(self):
        self.last = 0

    def take(self):
        self.last += 1
        return self.last


def channel(number=1):
    return Channel(number, key_of(number), Counted())


def frame(payload):
    return len(payload).to_bytes(4, "big") + payload


def sealed_reply(number, fields, of=1):
    text = b"\4" + of.to_bytes(4, "big") + number.to_bytes(8, "big") + fields
    return text + tag(key_of(of), text)


def grant(number, of=1):
    """The worked grant, under another number."""
    return sealed_reply(number, GRANT[13:-TAG], of)


def unsealed(fields):
    return b"\4" + bytes(12) + fields + bytes(TAG)


def told(*payloads, of=1):
    """A client whose node answers with these payloads, whatever is asked; and what was sent."""
    sent = io.BytesIO()
    return Client(channel(of), Connection(io.BytesIO(b"".join(map(frame, payloads))), sent)), sent


# The fields of a reply of each sealed status, and what became of a Read, and of a Hold.
FATES = [
    (DENIAL[13:-TAG], Fate.NOT_DONE, Fate.NOT_DONE),
    (b"\x05" + bytes(7) + b"\1", Fate.UNKNOWN, Fate.UNKNOWN),
    (b"\x06\0\3", Fate.NOT_DONE, Fate.NOT_DONE),
    (b"\x07\x20", Fate.NOT_DONE, Fate.NOT_DONE),
    (b"\x08\0", Fate.NOT_DONE, Fate.NOT_DONE),
    (b"\x09\0\0\0\5", Fate.NOT_DONE, Fate.NOT_DONE),
    (b"\x0a\0" + bytes(12), Fate.NOT_DONE, Fate.NOT_DONE),
    (b"\x0a\1" + bytes(12), Fate.NOT_DONE, Fate.IN_PART),
    (b"\x0b", Fate.UNKNOWN, Fate.UNKNOWN),
    (b"\x0c\x20\0\0\0\0", Fate.IN_PART, Fate.IN_PART),
    (b"\x0d" + bytes(32), Fate.IN_PART, Fate.IN_PART),
    (b"\x0e\x40\0\0\0\0", Fate.IN_PART, Fate.IN_PART),
]
UNSEALED = [b"\2\0\0\0\5", b"\3\0\0\0\1", b"\4", b"\x0b"]


class Answers(unittest.TestCase):
    def test_a_grant_gives_its_result(self):
        client, sent = told(grant(1))
        answer = client.ask(5, Read())
        self.assertEqual((answer.fate, answer.result, answer.request.number), (Fate.DONE, b"hello", 1))
        self.assertEqual(payloads_of(sent.getvalue()), [answer.request.payload(key_of(1))])

    def test_every_operation_is_sent_as_it_is_asked(self):
        shown = (sealed(key_of(1), BODY),)
        for operation in OPERATIONS:
            client, sent = told(grant(1))
            client.ask(5, operation, shown, Name(30))
            request = asked(payloads_of(sent.getvalue())[0])
            self.assertEqual(request, Request(1, 1, 5, operation, shown, Name(30)))

    def test_each_status_tells_what_became_of_the_request(self):
        for fields, of_read, of_hold in FATES:
            for operation, fate in [(Read(), of_read), (Hold(), of_hold)]:
                client, _ = told(sealed_reply(1, fields))
                answer = client.ask(5, operation)
                self.assertEqual(answer.fate, fate, f"at status {fields[0]}")
                self.assertEqual(answer.reply.status, fields[0])
                with self.assertRaises(NotGranted):
                    answer.result

    def test_what_nobody_sealed_tells_nothing(self):
        for fields in UNSEALED:
            client, _ = told(unsealed(fields))
            answer = client.ask(5, Read())
            self.assertEqual((answer.fate, answer.reply), (Fate.UNKNOWN, None), f"at status {fields[0]}")
            self.assertIn("nobody sealed", answer.why)

    def test_a_wrong_key_is_told_as_what_it_may_be(self):
        for payload, word in [(unsealed(b"\4"), "another key for channel 1"), (unsealed(b"\3\0\0\0\1"), "no channel 1"),
                              (unsealed(b"\2\0\0\0\5"), "at byte 5"), (grant(1, of=2), "channel 1's key")]:
            client, _ = told(payload)
            self.assertIn(word, client.ask(5, Read()).why)

    def test_an_answer_has_both_frames_as_they_went(self):
        client, sent = told(grant(1))
        answer = client.ask(5, Read())
        self.assertEqual(answer.pair, sent.getvalue() + frame(grant(1)))
        client, _ = told()
        with self.assertRaises(NotGranted):
            client.ask(5, Read()).pair

    def test_a_proof_is_read_once_it_is_asked_for(self):
        at = 28
        text = GRANT[: at + 4] + b"\xff" + GRANT[at + 5 : -TAG]
        client, _ = told(text + tag(key_of(1), text))
        answer = client.ask(5, Read())
        self.assertEqual(answer.result, b"hello")
        with self.assertRaises(Malformed):
            answer.reply.proof
        with self.assertRaises(Malformed):
            answer.reply.check(answer.request, [(1, 10)], [Entry(READ, Name(10))])

    def test_a_reply_to_another_number_is_not_taken(self):
        for number in (0, 2, 257):
            client, _ = told(grant(number))
            self.assertEqual(client.ask(5, Read()).fate, Fate.UNKNOWN)

    def test_a_reply_comes_once(self):
        client, _ = told(grant(1), grant(1))
        self.assertEqual([client.ask(5, Read()).fate for _ in range(2)], [Fate.DONE, Fate.UNKNOWN])

    def test_a_reply_of_another_channel_is_not_taken(self):
        client, _ = told(grant(1, of=2))
        self.assertEqual(client.ask(5, Read()).fate, Fate.UNKNOWN)

    def test_a_turned_reply_is_not_taken(self):
        for bit in range(8 * len(GRANT)):
            client, _ = told(turned(grant(1), bit))
            self.assertEqual(client.ask(5, Read()).fate, Fate.UNKNOWN, f"at {bit}")

    def test_a_stream_that_is_cut_leaves_the_outcome_unknown(self):
        whole = frame(grant(1))
        for end in range(len(whole)):
            client = Client(channel(), Connection(io.BytesIO(whole[:end]), io.BytesIO()))
            self.assertEqual(client.ask(5, Read()).fate, Fate.UNKNOWN, f"at {end}")

    def test_a_frame_that_is_too_long_is_none(self):
        with self.assertRaises(Broken):
            Connection(io.BytesIO(b"\4\0\0\0"), io.BytesIO()).receive()

    def test_what_was_put_in_does_not_shift_the_answers(self):
        """The grant of the first request comes behind a frame of somebody on the way."""
        client, _ = told(unsealed(b"\4"), grant(1), grant(2))
        first, second = client.ask(5, Read()), client.ask(5, Read())
        self.assertEqual((first.fate, second.fate, second.reply.number), (Fate.UNKNOWN, Fate.DONE, 2))
        self.assertEqual([(each.request.number, each.fate) for each in client.late], [(1, Fate.DONE)])

    def test_a_request_without_a_spelling_takes_no_number(self):
        client, sent = told()
        for operation in (Write(bytes(4097)), Discard(b""), Forget(1 << 32), Withdraw(1 << 32)):
            with self.assertRaises(ValueError):
                client.ask(5, operation)
        with self.assertRaises(ValueError):
            client.ask(5, Read(), [b""] * 17)
        self.assertEqual((client.channel.numbers.last, sent.getvalue()), (0, b""))


class OldFrames(unittest.TestCase):
    def test_a_lower_number_may_come_until_a_higher_one_is_ruled_on(self):
        client, _ = told(unsealed(b"\4"), sealed_reply(2, b"\x08\0"), sealed_reply(3, DENIAL[13:-TAG]), unsealed(b"\4"))
        open_numbers = []
        for _ in range(4):
            client.ask(5, Read())
            open_numbers.append([each.number for each in client.channel.may_still_come()])
        self.assertEqual(open_numbers, [[1], [1, 2], [], [4]])


class Numbers(unittest.TestCase):
    def test_a_file_keeps_them_over_a_restart(self):
        with tempfile.TemporaryDirectory() as folder:
            path = os.path.join(folder, "numbers")
            taken = [FileNumbers(path, 1).take() for _ in range(3)] + [FileNumbers(path, 10).take(), FileNumbers(path).take()]
            taken.append(FileNumbers(path, 1).take())
            self.assertEqual(taken, [1, 2, 3, 4, 14, 1014])

    def test_what_is_left_of_a_block_goes_back_at_the_end(self):
        with tempfile.TemporaryDirectory() as folder:
            path, taken = os.path.join(folder, "numbers"), []
            for _ in range(3):
                with FileNumbers(path) as numbers:
                    taken += [numbers.take(), numbers.take()]
            self.assertEqual(taken, [1, 2, 3, 4, 5, 6])
            numbers.close()
            self.assertEqual(FileNumbers(path, 1).take(), 7)

    def test_no_other_takes_numbers_while_a_block_is_used(self):
        with tempfile.TemporaryDirectory() as folder:
            path = os.path.join(folder, "numbers")
            with FileNumbers(path) as numbers:
                self.assertEqual(numbers.take(), 1)
                with self.assertRaises(InUse):
                    FileNumbers(path).take()
            self.assertEqual(FileNumbers(path).take(), 2)

    def test_after_the_last_number_there_is_none(self):
        with tempfile.TemporaryDirectory() as folder:
            path = os.path.join(folder, "numbers")
            with open(path, "w", encoding="ascii") as file:
                file.write(f"{2**64 - 2}\n")
            for taken in ([2**64 - 1], []):
                with FileNumbers(path) as numbers:
                    self.assertEqual([numbers.take() for _ in taken], taken)
                    with self.assertRaises(OverflowError):
                        numbers.take()

    def test_a_number_is_on_the_disk_before_it_is_used(self):
        with tempfile.TemporaryDirectory() as folder:
            path = os.path.join(folder, "numbers")
            number = FileNumbers(path).take()
            with open(path, encoding="ascii") as file:
                self.assertGreaterEqual(int(file.read()), number)

    def test_a_file_that_lost_its_number_is_refused(self):
        with tempfile.TemporaryDirectory() as folder:
            path = os.path.join(folder, "numbers")
            with open(path, "w", encoding="ascii"):
                pass
            with self.assertRaises(ValueError):
                FileNumbers(path).take()

    def test_threads_get_numbers_of_their_own(self):
        with tempfile.TemporaryDirectory() as folder:
            taken, path = [], os.path.join(folder, "numbers")
            counters = [FileNumbers(path, 1) for _ in range(4)]
            threads = [threading.Thread(target=lambda each=each: taken.extend(each.take() for _ in range(5)))
                       for each in counters]
            for thread in threads:
                thread.start()
            for thread in threads:
                thread.join()
            self.assertEqual(sorted(taken), list(range(1, 21)))

    def test_the_time_rises(self):
        numbers = TimeNumbers()
        taken = [numbers.take() for _ in range(1000)]
        self.assertEqual(taken, sorted(set(taken)))
        self.assertLess(abs(taken[0] - time.time() * 1e6), 60e6)


class Node:
    """A node on a port of this machine, for one connection."""

    def __init__(self, serve):
        self.listener = socket.create_server(("127.0.0.1", 0))
        self.port = self.listener.getsockname()[1]
        self.thread = threading.Thread(target=self._serve, args=(serve,), daemon=True)
        self.thread.start()

    def _serve(self, serve):
        connection, _ = self.listener.accept()
        with connection, self.listener:
            serve(connection)

    def end(self):
        self.thread.join(SECONDS)


class Tcp(unittest.TestCase):
    def test_many_requests_at_once_wait_for_nobody(self):
        """The node reads no request more while nobody takes its replies, and there are too many for the streams' rooms."""
        count, content = 1500, bytes(4096)
        reply = GRANT[13 : -TAG - 7] + len(content).to_bytes(2, "big") + content

        def serve(connection):
            with connection.makefile("rwb") as stream:
                for _ in range(count):
                    request = asked(stream.read(int.from_bytes(stream.read(4), "big")))
                    stream.write(frame(sealed_reply(request.number, reply)))
                    stream.flush()

        node = Node(serve)
        with connect("127.0.0.1", node.port, SECONDS) as connection:
            client = Client(channel(), connection)
            answers = client.send([client.channel.request(5, Write(content)) for _ in range(count)])
        node.end()
        self.assertEqual([answer.reply.number for answer in answers], list(range(1, count + 1)))

    def test_a_reply_that_trickles_is_given_up(self):
        def serve(connection):
            try:
                for byte in frame(grant(1)):
                    connection.send(bytes([byte]))
                    time.sleep(0.05)
            except OSError:
                pass

        node = Node(serve)
        began = time.monotonic()
        with connect("127.0.0.1", node.port, 0.2) as connection:
            answer = Client(channel(), connection).ask(5, Read())
        self.assertLess(time.monotonic() - began, 2)
        self.assertEqual(answer.fate, Fate.UNKNOWN)
        node.end()

    def test_a_node_that_closes_leaves_the_outcome_unknown(self):
        node = Node(lambda connection: None)
        with connect("127.0.0.1", node.port, SECONDS) as connection:
            client = Client(channel(), connection)
            answers = [client.ask(5, Read()) for _ in range(3)]
        self.assertEqual([each.fate for each in answers], [Fate.UNKNOWN, Fate.NOT_SENT, Fate.NOT_SENT])
        self.assertEqual((client.failed, client.channel.numbers.last), (True, 1))
        node.end()


if __name__ == "__main__":
    unittest.main()
