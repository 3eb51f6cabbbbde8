"""Wallets: the conversations of the command `wallet`, and a node of the program that PROGRAM names which fetches from one."""
import os
import socket
import subprocess
import tempfile
import threading
import unittest

from test_lanes import BOUND, HAND_OFF, HERE, NODE, PATIENCE, PROGRAM, Node, line_of
from vectors import conversations, key_of, payloads_of
from yoritzal import RELAYED, Connection, Granted, Missing, NoWallet, PullFailed, Read, Wallet, connect, sealed


def told():
    """The conversations whose file is read, each with its lines."""
    for case in conversations("wallets.txt"):
        if case.words("words")[:1] == ["wallet"] and case.text("status") in ("0", "2"):
            yield case, case.bytes("file").decode("ascii", "surrogateescape").splitlines()


class Wallets(unittest.TestCase):
    def test_each_frame_is_answered_as_the_program_answers_it(self):
        count = 0
        for case, lines in told():
            if case.text("status") == "0":
                wallet = Wallet.of_file(lines)
                answers = [wallet.answer(payload) for payload in payloads_of(case.bytes("input"))]
                self.assertEqual(answers, payloads_of(b"".join(case.written)), case.name)
                count += len(answers)
        self.assertGreater(count, 24)

    def test_each_file_is_refused_at_the_line_that_the_program_names(self):
        count = 0
        for case, lines in told():
            if case.text("status") == "2" and not case.bytes("file").startswith(b"\0"):
                with self.assertRaises(NoWallet, msg=case.name) as refused:
                    Wallet.of_file(lines)
                self.assertIn(f": line {refused.exception.line}: ", case.text("note"), case.name)
                count += 1
        self.assertGreater(count, 10)

    def test_a_file_is_written_as_it_is_read(self):
        wallet = Wallet([(2, b"\5\6"), (3, b"\7"), (2, b"\5\6")])
        self.assertEqual(Wallet.of_file(wallet.lines()).pairs, wallet.pairs)
        for channel, certificate in ((-1, b"\5"), (1 << 32, b"\5"), (2, b""), (2, bytes(1025))):
            with self.assertRaises(ValueError):
                Wallet([(channel, certificate)])


class Served:
    """A wallet at a port of this machine, which serves one connection while it is entered."""

    def __init__(self, wallet):
        self.wallet, self.count = wallet, 0

    def __enter__(self):
        self.listener = socket.create_server(("127.0.0.1", 0))
        self.thread = threading.Thread(target=self.serve, daemon=True)
        self.thread.start()
        return f"127.0.0.1:{self.listener.getsockname()[1]}"

    def __exit__(self, *_):
        self.thread.join(PATIENCE)
        self.listener.close()

    def serve(self):
        stream, _ = self.listener.accept()
        with stream, Connection(stream.makefile("rb"), stream.makefile("wb")) as connection:
            self.count = self.wallet.serve(connection)


@unittest.skipUnless(PROGRAM, "no PROGRAM")
class Pulls(unittest.TestCase):
    def asked(self, relay):
        """The replies to two Reads of channel 2, which presents nothing, and what the node printed."""
        with tempfile.NamedTemporaryFile("w", suffix=".txt") as file:
            os.chmod(file.name, 0o600)
            file.write(NODE)
            file.flush()
            node = Node(file.name, HERE, relay, 1, "--pull")
            client = node.client(2)
            replies = [client.ask(5, Read()).reply for _ in range(2)]
            client.connection.close()
            return replies, node.end()

    def test_what_a_wallet_gives_is_believed_as_what_is_presented(self):
        served = Served(Wallet([(2, sealed(key_of(7), HAND_OFF, RELAYED))]))
        with served as wallet:
            replies, (status, _, _) = self.asked(f"-,{wallet}")
        self.assertEqual(([type(each) for each in replies], status), ([Granted, Granted], 0))
        self.assertEqual(served.count, 2)

    def test_the_program_gives_what_a_wallet_file_has(self):
        with tempfile.NamedTemporaryFile("w", suffix=".txt") as file:
            file.write("".join(f"{line}\n" for line in Wallet([(2, b"\5")]).lines()))
            file.flush()
            pipe = subprocess.PIPE
            with subprocess.Popen([PROGRAM, "--wallet", file.name, f"{HERE},{HERE}"], stdin=subprocess.DEVNULL, stdout=pipe, stderr=pipe) as program:
                try:
                    port = int(BOUND.match(line_of(program.stderr.fileno())).group(1))
                    with connect("127.0.0.1", port) as first, connect("127.0.0.1", port) as second:
                        for connection in (first, second, first):
                            connection.send([b"\x08" + bytes(3) + b"\2" + bytes(8)])
                            self.assertEqual(connection.receive(), b"\x09\1\0\1\5")
                finally:
                    program.kill()

    def test_a_wallet_that_has_none_gives_none(self):
        with Served(Wallet()) as wallet:
            replies, _ = self.asked(f"-,{wallet}")
        self.assertTrue(all(isinstance(each.link, Missing) for each in replies))

    def test_without_a_wallet_nothing_is_decided(self):
        replies, (status, _, _) = self.asked("-")
        self.assertEqual(([type(each) for each in replies], status), ([PullFailed, PullFailed], 0))


if __name__ == "__main__":
    unittest.main()
