"""Processes of the program that PROGRAM names, what the system tells of them, and honest clients of a node."""
import os
import re
import socket
import subprocess
import sys
import tempfile
import threading
import time
import unittest

TOP = os.path.abspath(os.path.join(os.path.dirname(__file__), "..", ".."))
sys.path.insert(0, os.path.join(TOP, "clients", "python"))

from yoritzal import Channel, Client, Granted, Read, TimeNumbers, connect  # noqa: E402

PROGRAM = os.environ.get("PROGRAM")
HERE, PATIENCE = "127.0.0.1", 60
LISTENS = re.compile(r"taosd: listening on 127\.0\.0\.1:(\d+)$")
LANES, CHANNELS, OBJECT, CONTENT = 2, 4, 5, b"hello"
KIB, MIB = 1024, 1024 * 1024
# Memory, by docs/SECURITY.md: what waits for a lane; and what a client may have, bytes for frames, replies that it has not taken, and
# those to two frames more. Beside it: pieces that are read and written, and what the system's allocator keeps.
A_LANE, A_CLIENT, BESIDE = MIB, 65_540 + 65_536 + 2 * 256, 2 * MIB
# What is free again and not given back: the system's allocator keeps that much of a heap that was larger.
KEPT = 4 * MIB
# What an orderly stop may take behind the last reply to an honest client, and what such a reply may take beside a flood.
STOP, SOON = 1.0, 10


def key_of(number):
    return bytes([number]) * 32


def node_text(journal=16384, content=CONTENT):
    """The channels are key 1 to key 4, which all speak for the name that may do all with the object."""
    return "\n".join(
        ["taos 1", f"node 7 {key_of(7).hex()}", "shards 2", f"journal {journal}"]
        + [f"channel {each} {key_of(each).hex()}" for each in range(1, CHANNELS + 1)]
        + [f"anchor {each} name:10" for each in range(1, CHANNELS + 1)]
        + [f"object {OBJECT}", f"content {OBJECT} {content.hex()}", f"allow {OBJECT} rwcm name:10", ""])


def relay_text():
    return "\n".join(["taos-relay 1", f"node 7 {key_of(7).hex()}", f"issuer 1 {key_of(1).hex()}", ""])


def free_port():
    with socket.create_server((HERE, 0)) as taken:
        return taken.getsockname()[1]


def waits_for(holds, seconds):
    """Whether it holds within so many seconds."""
    end = time.monotonic() + seconds
    while not holds():
        if time.monotonic() > end:
            return False
        time.sleep(0.02)
    return True


class Process:
    """A process that ends where its standard input does. What it tells is read as it comes, and stands in `told`."""

    def __init__(self, words, **how):
        pipe = subprocess.PIPE
        self.process = subprocess.Popen(words, **{"stdin": pipe, "stdout": pipe, "stderr": pipe, **how})
        self.told, self.port, self.is_begun = [], None, threading.Event()
        self.reader = threading.Thread(target=self._read, daemon=True)
        self.reader.start()

    def _read(self):
        for line in self.process.stderr:
            line = line.decode("utf-8", "replace").rstrip("\n")
            found = LISTENS.match(line)
            if found and self.port is None:
                self.port = int(found.group(1))
                self.is_begun.set()
            elif not found:
                self.told.append(line)
        self.is_begun.set()

    @property
    def pid(self):
        return self.process.pid

    def is_there(self):
        return self.process.poll() is None

    def descriptors(self):
        return len(os.listdir(f"/proc/{self.pid}/fd"))

    def memory(self, what="VmRSS"):
        """So many bytes of memory it has, or had at most (VmHWM)."""
        with open(f"/proc/{self.pid}/status", encoding="ascii") as file:
            return next(int(line.split()[1]) * KIB for line in file if line.startswith(what + ":"))

    def is_checked(self):
        """Whether it is a program with checks at run time, whose memory is not that of the one that is built."""
        return self.memory("VmSize") > 1 << 40

    def seconds_to_end(self, limit=30):
        """How long it takes to end by itself, or None where it does not."""
        began = time.monotonic()
        try:
            self.process.wait(limit)
        except subprocess.TimeoutExpired:
            return None
        return time.monotonic() - began

    def asked_to_stop(self):
        self.process.stdin.close()

    def kill(self):
        self.process.kill()
        self.process.wait()
        self.reader.join(PATIENCE)
        for each in self.process.stdin, self.process.stdout, self.process.stderr:
            if each:
                each.close()

    def client(self, channel, seconds=20):
        """An honest client. No step of it takes longer than so many seconds."""
        return Client(channel, connect(HERE, self.port, seconds))


def channels():
    """The channels of the node file, each with numbers that rise."""
    return [Channel(each, key_of(each), TimeNumbers()) for each in range(1, CHANNELS + 1)]


def is_granted(client, count=1, content=CONTENT):
    """Whether so many reads, sent together, are granted in order."""
    answers = client.send([client.channel.request(OBJECT, Read()) for _ in range(count)])
    return all(isinstance(each.reply, Granted) and each.result == content for each in answers)


class Honest:
    """A client that asks on one connection, one request after the other, until it is told to end or is not granted one."""

    def __init__(self, process, channel, content, pause=0.005):
        self.client, self.content, self.pause = process.client(channel), content, pause
        self.count, self.longest, self.last, self.why, self.is_done = 0, 0.0, time.monotonic(), "", False
        self.thread = threading.Thread(target=self._asks, daemon=True)
        self.thread.start()

    def _asks(self):
        while not self.is_done and not self.why:
            began = time.monotonic()
            answer = self.client.ask(OBJECT, Read())
            if isinstance(answer.reply, Granted) and answer.result == self.content:
                self.count, self.last = self.count + 1, time.monotonic()
                self.longest = max(self.longest, self.last - began)
                time.sleep(self.pause)
            else:
                self.why = answer.why or str(answer.reply)[:200]
        self.client.connection.close()

    def is_served(self):
        """Whether it has another reply soon, and had all before."""
        count = self.count
        return waits_for(lambda: self.count > count or self.why, SOON) and not self.why

    def ends(self):
        self.is_done = True
        self.thread.join(PATIENCE)


@unittest.skipUnless(PROGRAM, "no PROGRAM is named")
class Case(unittest.TestCase):
    # What its node's object has.
    content = CONTENT

    def setUp(self):
        folder = tempfile.TemporaryDirectory()
        self.addCleanup(folder.cleanup)
        self.folder = folder.name

    def file(self, text, name="node", mode=0o600):
        path = os.path.join(self.folder, name)
        with open(os.open(path, os.O_WRONLY | os.O_CREAT | os.O_TRUNC, mode), "w", encoding="ascii") as file:
            file.write(text)
        os.chmod(path, mode)
        return path

    def process(self, words, **how):
        process = Process(words, **how)
        self.addCleanup(process.kill)
        return process

    def serving(self, text=None, options=(), lanes=LANES, relay="-", command="serve", mode=0o600, may_fail=False, **how):
        """A process that serves by so many lanes at one address. One that may fail has no port then."""
        file = self.file(node_text() if text is None else text, mode=mode)
        listen = ",".join([f"{HERE}:0"] * lanes)
        words = [PROGRAM, "--tell-addresses", "--stop-at-end", *options, file, listen, relay, command, "--connections", "1000000",
                 "--frames", "1000000000"]
        process = self.process(words, **how)
        process.is_begun.wait(PATIENCE)
        if not may_fail:
            self.assertIsNotNone(process.port, process.told)
        return process

    def assert_is_ready(self, process, channel):
        """It grants a request, once its lanes are there."""
        def grants():
            try:
                client = process.client(channel)
            except OSError:
                return False
            with client.connection:
                return is_granted(client)
        self.assertTrue(waits_for(grants, PATIENCE), process.told)

    def ran(self, *words, **how):
        return subprocess.run([PROGRAM, *words], capture_output=True, check=False, timeout=PATIENCE, **how)

    def honest(self, process, channel):
        """An honest client that asks on and on."""
        honest = Honest(process, channel, self.content)
        self.addCleanup(honest.ends)
        return honest

    def assert_is_served(self, honest):
        """An honest client had a grant to each request until now, and has no more to ask."""
        self.assertTrue(honest.is_served(), f"{honest.count} grants, the slowest in {honest.longest:.1f} s, then {honest.why or 'none'}")
        honest.ends()

    def assert_stops(self, process, honest, limit=STOP):
        """Asked to stop while an honest client asks, it has ended soon behind the last reply to that one, with status 0."""
        self.assertTrue(honest.is_served(), honest.why)
        process.asked_to_stop()
        process.seconds_to_end()
        seconds = time.monotonic() - honest.last
        self.assertEqual(process.process.poll(), 0, f"{seconds:.1f} s behind the last reply to an honest client")
        self.assertLess(seconds, limit)
