"""Connections that are made anew, pools, and the client for asyncio, against nodes that answer as a test tells them."""
import asyncio
import contextlib
import itertools
import socket
import threading
import unittest

from test_client import SECONDS, asked, channel, frame, grant, unsealed
from yoritzal import AsyncSession, Client, Fate, NotGranted, Pool, Read, Session, connect, open_client


class Server:
    """A node on a port of this machine. Each connection is served as `serve` says, which is told the count of those before."""

    def __init__(self, serve):
        self.listener = socket.create_server(("127.0.0.1", 0))
        self.port, self.serve, self.count = self.listener.getsockname()[1], serve, 0
        threading.Thread(target=self._accept, daemon=True).start()

    def _accept(self):
        while True:
            try:
                stream, _ = self.listener.accept()
            except OSError:
                return
            self.count += 1
            threading.Thread(target=self._serve, args=(stream, self.count - 1), daemon=True).start()

    def _serve(self, stream, place):
        # A client may be gone before it is served.
        with contextlib.suppress(OSError), stream, stream.makefile("rwb") as files:
            self.serve(files, place)

    def __enter__(self):
        return self

    def __exit__(self, *fault):
        self.listener.close()

    def dial(self):
        return connect("127.0.0.1", self.port, SECONDS)


def requests_of(files):
    while True:
        head = files.read(4)
        if len(head) < 4:
            return
        yield asked(files.read(int.from_bytes(head, "big")))


def answer(files, payload):
    files.write(frame(payload))
    files.flush()


def grants_all(files, _):
    for request in requests_of(files):
        answer(files, grant(request.number, request.channel))


def grants_two(files, _):
    for count, request in enumerate(requests_of(files)):
        if count == 2:
            return
        answer(files, grant(request.number, request.channel))


def grants_two_of_five(files, _):
    """None lies unread at the end, at which what was written would be lost."""
    for request in list(itertools.islice(requests_of(files), 5))[:2]:
        answer(files, grant(request.number, request.channel))


def puts_one_in(files, _):
    """An unsealed frame in front of the second reply."""
    for count, request in enumerate(requests_of(files)):
        if count == 1:
            answer(files, unsealed(b"\4"))
        answer(files, grant(request.number, request.channel))


def free_port():
    """A port of this machine at which nobody listens."""
    with socket.create_server(("127.0.0.1", 0)) as listener:
        return listener.getsockname()[1]


class Sessions(unittest.TestCase):
    def test_a_connection_is_made_anew_after_a_failure(self):
        with Server(grants_two) as server, Session(channel(), server.dial) as session:
            fates = [session.ask(5, Read()).fate for _ in range(6)]
        self.assertEqual(fates, [Fate.DONE, Fate.DONE, Fate.UNKNOWN] * 2)
        self.assertEqual(server.count, 2)

    def test_where_nobody_listens_no_number_is_used(self):
        port = free_port()
        with self.assertRaises(OSError):
            connect("127.0.0.1", port, SECONDS)
        session = Session(channel(), lambda: connect("127.0.0.1", port, SECONDS))
        told = session.ask(5, Read())
        self.assertEqual((told.fate, told.reply, told.request.number), (Fate.NOT_SENT, None, 0))
        self.assertRegex(told.why, "^not sent: no connection: .*refused")
        with self.assertRaisesRegex(NotGranted, "not sent: no connection"):
            told.result
        self.assertEqual((session.channel.numbers.last, session.channel.may_still_come()), (0, []))

    def test_what_was_made_before_and_is_not_sent_cannot_come(self):
        port = free_port()
        session = Session(channel(), lambda: connect("127.0.0.1", port, SECONDS))
        requests = [session.channel.request(5, Read()) for _ in range(3)]
        self.assertEqual([each.number for each in session.channel.may_still_come()], [1, 2, 3])
        told = session.send(requests[:2])
        self.assertEqual([(each.fate, each.request) for each in told], [(Fate.NOT_SENT, each) for each in requests[:2]])
        self.assertEqual(session.channel.may_still_come(), requests[2:])

    def test_a_request_without_a_spelling_is_refused_where_nobody_listens(self):
        port = free_port()
        session = Session(channel(), lambda: connect("127.0.0.1", port, SECONDS))
        with self.assertRaises(ValueError):
            session.ask(5, Read(), [b""] * 17)

    def test_what_else_a_dial_raises_comes_to_the_caller(self):
        def dial():
            raise KeyError("no such host in the table")

        with self.assertRaises(KeyError):
            Session(channel(), dial).ask(5, Read())

    def test_what_was_not_sent_may_be_asked_again(self):
        with Server(grants_all) as server:
            dials = iter([free_port(), server.port])
            with Session(channel(), lambda: connect("127.0.0.1", next(dials), SECONDS)) as session:
                self.assertEqual([session.ask(5, Read()).fate for _ in range(3)], [Fate.NOT_SENT, Fate.DONE, Fate.DONE])
                self.assertEqual(session.channel.numbers.last, 2)

    def test_what_is_asked_over_one_that_was_closed_is_not_sent(self):
        with Server(grants_all) as server:
            with server.dial() as connection:
                client = Client(channel(), connection)
                self.assertEqual(client.ask(5, Read()).fate, Fate.DONE)
            told = client.ask(5, Read())
        self.assertEqual((told.fate, told.why), (Fate.NOT_SENT, "not sent: it was closed"))

    def test_threads_share_a_pool(self):
        with Server(grants_all) as server, Pool([channel(each) for each in (1, 2, 3)], server.dial) as pool:
            fates = []
            threads = [threading.Thread(target=lambda: fates.extend(pool.ask(5, Read()).fate for _ in range(50))) for _ in range(8)]
            for thread in threads:
                thread.start()
            for thread in threads:
                thread.join()
        self.assertEqual(fates, [Fate.DONE] * 400)
        self.assertLessEqual(server.count, 3)

    def test_a_pool_closes_each_connection_that_nobody_uses(self):
        with Server(grants_all) as server, Pool([channel(each) for each in (1, 2, 3)], server.dial) as pool:
            for session in pool.sessions[:2]:
                self.assertEqual(session.ask(5, Read()).fate, Fate.DONE)
            used = pool.idle.get()
            self.assertEqual(used.ask(5, Read()).fate, Fate.DONE)
            pool.close()
            self.assertEqual([session.client is None for session in pool.sessions], [session is not used for session in pool.sessions])
            pool.idle.put(used)
        self.assertTrue(all(session.client is None for session in pool.sessions))


class Tasks(unittest.TestCase):
    def ask_all(self, serve, count, seconds=SECONDS):
        """The answers to so many requests of tasks of their own, and the client."""
        async def run(port):
            async with await open_client(channel(), "127.0.0.1", port, seconds) as client:
                return await asyncio.gather(*[client.ask(5, Read()) for _ in range(count)]), client

        with Server(serve) as server:
            return asyncio.run(run(server.port))

    def test_each_task_has_its_own_answer(self):
        answers, client = self.ask_all(grants_all, 2000)
        self.assertEqual([each.reply.number for each in answers], list(range(1, 2001)))
        self.assertEqual((client.late, client.waiting), ([], {}))

    def test_what_was_put_in_does_not_shift_the_answers(self):
        answers, client = self.ask_all(puts_one_in, 4)
        self.assertEqual([each.fate for each in answers], [Fate.DONE, Fate.UNKNOWN, Fate.DONE, Fate.DONE])
        self.assertIn("nobody sealed", answers[1].why)
        self.assertEqual([(each.request.number, each.fate) for each in client.late], [(2, Fate.DONE)])

    def test_the_end_of_the_connection_leaves_the_rest_unknown(self):
        answers, client = self.ask_all(grants_two_of_five, 5)
        self.assertEqual([each.fate for each in answers], [Fate.DONE, Fate.DONE] + [Fate.UNKNOWN] * 3)
        self.assertTrue(client.failed)

    def test_silence_is_given_up(self):
        answers, client = self.ask_all(lambda files, _: files.read(), 3, 0.2)
        self.assertEqual([each.fate for each in answers], [Fate.UNKNOWN] * 3)
        self.assertIn("0.2 seconds", answers[0].why)

    def test_tasks_may_ask_one_after_the_other(self):
        async def run(port):
            async with await open_client(channel(), "127.0.0.1", port, SECONDS) as client:
                return [(await client.ask(5, Read())).result for _ in range(20)]

        with Server(grants_all) as server:
            self.assertEqual(asyncio.run(run(server.port)), [b"hello"] * 20)

    def test_what_is_asked_over_one_that_was_closed_is_not_sent(self):
        async def run(port):
            async with await open_client(channel(), "127.0.0.1", port, SECONDS) as client:
                first = await client.ask(5, Read())
            return first, await client.ask(5, Read())

        with Server(grants_all) as server:
            first, told = asyncio.run(run(server.port))
        self.assertEqual((first.fate, told.fate, told.request.number), (Fate.DONE, Fate.NOT_SENT, 0))
        self.assertIn("closed", told.why)

    def test_a_session_of_tasks_makes_a_connection_anew(self):
        async def run(port):
            ports = iter([free_port(), port, port])

            async def dial():
                return await open_client(held, "127.0.0.1", next(ports), SECONDS)

            async with AsyncSession(held, dial) as session:
                first = await asyncio.gather(*[session.ask(5, Read()) for _ in range(3)])
                return first, [(await session.ask(5, Read())).fate for _ in range(4)]

        held = channel()
        with Server(grants_two) as server:
            first, fates = asyncio.run(run(server.port))
            self.assertEqual(server.count, 2)
        self.assertEqual([each.fate for each in first], [Fate.NOT_SENT] * 3)
        self.assertRegex(first[0].why, "^not sent: no connection: ")
        self.assertEqual((fates, held.numbers.last), ([Fate.DONE, Fate.DONE, Fate.UNKNOWN, Fate.DONE], 4))

    def test_many_tasks_share_a_connection_of_a_session(self):
        async def run(port):
            held = channel()
            async with AsyncSession(held, lambda: open_client(held, "127.0.0.1", port, SECONDS)) as session:
                return await asyncio.gather(*[session.ask(5, Read()) for _ in range(50)])

        with Server(grants_all) as server:
            self.assertEqual({each.fate for each in asyncio.run(run(server.port))}, {Fate.DONE})
            self.assertEqual(server.count, 1)


if __name__ == "__main__":
    unittest.main()
