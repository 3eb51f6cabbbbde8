"""The program as an operator meets it: what it tells and how it ends where the system lacks something, and how service/taosd-start
starts and stops it. With the program that PROGRAM names."""
import os
import resource
import shutil
import signal
import socket
import subprocess
import tempfile
import threading
import time
import unittest

from test_lanes import line_of
from test_notices import LINE
from vectors import TOP, key_of
from yoritzal import ISSUED, Body, Channel, Client, Key, Name, Read, RelayFailed, Request, TimeNumbers, connect, sealed

import relay as relays  # isort: skip

PROGRAM = os.environ.get("PROGRAM")
STARTER = os.path.join(TOP, "service", "taosd-start")
UNIT = os.path.join(TOP, "service", "taosd.service")
CLOCK = os.path.join(TOP, "crates", "taos_cases", "tools", "clock.c")
LANES = 3
NODE = "\n".join(
    ["taos 1", f"node 7 {key_of(7).hex()}", "shards 2"]
    + [f"channel {each} {key_of(each).hex()}" for each in range(1, LANES + 1)]
    + [f"anchor {each} name:10" for each in range(1, LANES + 1)]
    + ["object 5", f"content 5 {b'hello'.hex()}", "allow 5 rwcm name:10", ""])
HERE, PATIENCE, SECOND = "127.0.0.1:0", 60, 1.0
TOLD = b"taosd: listening on 127.0.0.1:"
# The seconds that all calls of one request to a relay have, and what a slow relay takes for each.
LIMIT, SLOW, SHOWN = 5, 1.5, 8


def frame(payload):
    return len(payload).to_bytes(4, "big") + payload


def reads(number, channel=1):
    """The frame of a Read of the object."""
    return frame(Request(channel, number, 5, Read()).payload(key_of(channel)))


def taken(stream, count):
    """So many bytes of a socket, or what comes before its end."""
    data = b""
    while len(data) < count:
        piece = stream.recv(count - len(data))
        if not piece:
            break
        data += piece
    return data


def frames_of(stream, count):
    """The payloads of so many frames of a socket."""
    return [taken(stream, int.from_bytes(taken(stream, 4), "big")) for _ in range(count)]


def port_of(pipe):
    """The port of the first listener that a program tells, and the lines before."""
    before = []
    while True:
        line = line_of(pipe)
        if line.startswith(TOLD):
            return int(line[len(TOLD):]), before
        if not line:
            raise AssertionError(b"".join(before))
        before.append(line)


class SlowRelay(relays.Relay):
    """A relay that takes its time for each answer, and serves one connection after the other."""

    pause = SLOW

    def __init__(self):
        super().__init__({7: key_of(7)}, {1: key_of(1)})

    def serve(self):
        try:
            while True:
                with self.listener.accept()[0] as stream:
                    self.answer_all(stream)
        except OSError:
            pass

    def answer_all(self, stream):
        try:
            while payload := frames_of(stream, 1)[0]:
                time.sleep(self.pause)
                stream.sendall(frame(relays.answer(self.nodes, self.issuers, payload)))
        except OSError:
            # The node has given up.
            pass


class QuickRelay(SlowRelay):
    pause = 0


@unittest.skipUnless(PROGRAM, "no PROGRAM is named")
class Case(unittest.TestCase):
    def file(self, text=NODE):
        with tempfile.NamedTemporaryFile("w", encoding="ascii", delete=False) as file:
            file.write(text)
        self.addCleanup(os.remove, file.name)
        return file.name

    def started(self, words, **how):
        pipe = subprocess.PIPE
        process = subprocess.Popen(words, **{"stdin": pipe, "stdout": pipe, "stderr": pipe, **how})
        self.addCleanup(process.wait)
        self.addCleanup(process.kill)
        for each in filter(None, (process.stdin, process.stdout, process.stderr)):
            self.addCleanup(each.close)
        return process

    def ran(self, *words, **how):
        return subprocess.run([PROGRAM, *words], check=False, timeout=PATIENCE, stderr=subprocess.PIPE, **how)

    def node(self, listen=HERE, options=(), relay="-", more=(), text=NODE, **how):
        words = [PROGRAM, *options, "--tell-addresses", "--stop-at-end", self.file(text), listen, relay, "serve", "--connections", "100"]
        process = self.started([*words, *more], **how)
        process.port, process.before = port_of(process.stderr.fileno())
        return process

    def ends(self, process):
        """Its status and what it wrote on standard error, once its input has ended."""
        _, notes = process.communicate(timeout=PATIENCE)
        return process.returncode, notes


class Begins(Case):
    def test_words_are_read_before_anything_is_touched(self):
        with socket.create_server(("127.0.0.1", 0)) as other:
            taken_one = "127.0.0.1:{}".format(other.getsockname()[1])
            for words in (["serve", "--frames", "0"], ["nothing"], [], ["run", "--frames", "+1"], ["drill", "1"]):
                run = self.ran("/nowhere/node", taken_one, "-", *words, stdin=subprocess.DEVNULL)
                self.assertEqual((run.returncode, run.stderr), (1, b"taos: usage\n"), words)
            run = self.ran("/nowhere/node", taken_one, "-", "drill", "1", "1", "1", stdin=subprocess.DEVNULL, stdout=subprocess.DEVNULL)
            self.assertEqual((run.returncode, run.stderr), (0, b""))

    def test_seconds_are_written_as_numbers_are(self):
        for idle in ["+60"], ["007"], ["0"], ["86401"], [""], ["6 "], ["60", "--idle", "60"]:
            run = self.ran("--idle", *idle, "-", "-", "-", "run", stdin=subprocess.DEVNULL)
            self.assertEqual((run.returncode, run.stderr), (1, b"taos: usage\n"), idle)
        for idle in "1", "86400":
            run = self.ran("--idle", idle, self.file(), "-", "-", "run", stdin=subprocess.DEVNULL)
            self.assertEqual(run.returncode, 0, idle)

    def test_an_address_that_is_taken_is_told_while_the_other_serves(self):
        with socket.create_server(("127.0.0.1", 0)) as other:
            taken_one = "127.0.0.1:{}".format(other.getsockname()[1])
            node = self.node(f"{taken_one},{HERE}")
            self.assertEqual(len(node.before), 1)
            self.assertTrue(node.before[0].startswith(f"taosd: {taken_one}: ".encode()), node.before)
            with socket.create_connection(("127.0.0.1", node.port), PATIENCE) as stream:
                stream.sendall(reads(1))
                self.assertEqual(len(frames_of(stream, 1)), 1)
        self.assertEqual(self.ends(node), (9, b"taos: door fault at lane 0\n"))

    def test_an_output_that_is_lost_is_told_by_the_status(self):
        grant = self.ran(self.file(), "-", "-", "run", input=reads(1), stdout=subprocess.PIPE).stdout
        journals = self.ran(self.file(), "-", "-", "audit-bytes", input=reads(1), stdout=subprocess.PIPE).stdout
        checks = ("check", reads(1) + grant, 0), ("check", reads(2) + grant, 11)
        replays = ("replay", journals, 0), ("replay", journals[:-1], 14)
        for command, given, wanted in checks + replays:
            words = self.file(), "-", "-", command
            self.assertEqual(self.ran(*words, input=given, stdout=subprocess.DEVNULL).returncode, wanted, command)
            with open("/dev/full", "wb") as full:
                self.assertEqual(self.ran(*words, input=given, stdout=full).returncode, 4, command)
            come, gone = os.pipe()
            os.close(come)
            with os.fdopen(gone, "wb") as closed:
                run = self.ran(*words, input=given, stdout=closed, restore_signals=False)
                self.assertEqual((run.returncode, run.stderr), (4, b"taos: write fault\n"), command)

    def test_streams_that_are_told_not_to_wait_are_waited_for(self):
        (come, asks), (answers, gone) = os.pipe(), os.pipe()
        for each in come, gone:
            os.set_blocking(each, False)
        run = self.started([PROGRAM, self.file(), "-", "-", "run"], stdin=come, stdout=gone)
        os.close(come)
        os.close(gone)
        many = 2000
        with os.fdopen(asks, "wb", 0) as sink, os.fdopen(answers, "rb") as source:
            time.sleep(0.2)
            data = b"".join(map(reads, range(1, many + 1)))
            threading.Thread(target=lambda: (sink.write(data), sink.close()), daemon=True).start()
            time.sleep(0.5)
            replies = source.read()
        count = 0
        while replies:
            replies = replies[4 + int.from_bytes(replies[:4], "big"):]
            count += 1
        self.assertEqual((run.wait(PATIENCE), count), (0, many))


class Clocks(Case):
    def setUp(self):
        if not shutil.which("cc"):
            self.skipTest("no compiler for the clock")
        folder = tempfile.TemporaryDirectory()
        self.addCleanup(folder.cleanup)
        self.library = os.path.join(folder.name, "clock.so")
        subprocess.run(["cc", "-shared", "-fPIC", "-o", self.library, CLOCK], check=True)
        told = self.run_at([1000], ["--tell-refusals"], frame(b"")).stderr
        if not told.startswith(b"taosd: 1970-01-01T00:16:40Z "):
            self.skipTest("the clock can't be preloaded")

    def run_at(self, readings, options, asked):
        env = {**os.environ, "LD_PRELOAD": self.library, "CLOCK_READINGS": " ".join(map(str, readings))}
        return self.ran(*options, self.file(), "-", "-", "run", input=asked, stdout=subprocess.PIPE, env=env)

    def read_at(self, *readings):
        """The status and the count of replies of a run whose clock has these readings."""
        run = self.run_at(readings, [], b"".join(map(reads, range(1, len(readings) + 1))))
        count, replies = 0, run.stdout
        while replies:
            replies = replies[4 + int.from_bytes(replies[:4], "big"):]
            count += 1
        return run.returncode, count

    def test_a_clock_that_goes_back_and_returns_is_believed(self):
        now, day = 1_800_000_000, 86_400
        self.assertEqual(self.read_at(now, now - 3 * day, now), (0, 3))
        self.assertEqual(self.read_at(now, now - 3 * day, now + 2 * day), (5, 2))
        self.assertEqual(self.read_at(now, now + 2 * day), (5, 1))

    def test_a_clock_below_the_machine_s_uptime_is_held_against_it_too(self):
        day = 86_400
        self.assertEqual(self.read_at(10, 10 + day), (0, 2))
        with open("/proc/uptime", encoding="ascii") as file:
            uptime = int(float(file.read().split()[0]))
        # What was ahead by less than the uptime was believed once.
        self.assertEqual(self.read_at(10, 10 + day + min(600, max(5, uptime // 2))), (5, 1))

    def test_the_last_day_of_the_year_9999_is_told(self):
        run = self.run_at([253_402_300_799], ["--tell-refusals"], frame(b""))
        self.assertTrue(run.stderr.startswith(b"taosd: 9999-12-31T23:59:59Z refused "), run.stderr)

    def test_a_clock_before_1970_has_failed(self):
        self.assertEqual(self.read_at(-1), (5, 0))

    def test_a_reading_that_is_not_believed_is_told(self):
        now, day = 1_800_000_000, 86_400
        for readings, count in ([-1], 1), ([now, now + 2 * day], 1), ([now, now - day, now], 0):
            run = self.run_at(readings, ["--tell-refusals"], b"".join(map(reads, range(1, len(readings) + 1))))
            self.assertEqual(run.stderr.count(b" clock-failed lane 0\n"), count, readings)


class Lacks(Case):
    def held_by(self, node):
        """The descriptors of a node that serves already, and has no connection any more."""
        with socket.create_connection(("127.0.0.1", node.port), PATIENCE) as stream:
            stream.sendall(b"\0\0\0\0")
            frames_of(stream, 1)
        count = None
        while count != (count := len(os.listdir(f"/proc/{node.pid}/fd"))):
            time.sleep(SECOND)
        return count

    def test_with_few_descriptors_a_door_waits_and_tells_it_once(self):
        many = 30
        node = self.node(options=["--tell-refusals"])
        pid, held = node.pid, self.held_by(node)
        # One is enough to take a connection, and not to serve it.
        resource.prlimit(pid, resource.RLIMIT_NOFILE, (held + 1, held + 64))
        streams = [socket.create_connection(("127.0.0.1", node.port), PATIENCE) for _ in range(many)]
        time.sleep(SECOND)
        resource.prlimit(pid, resource.RLIMIT_NOFILE, (held + 64, held + 64))
        served = 0
        for stream in streams:
            with stream:
                try:
                    stream.sendall(reads(served + 1))
                    served += frames_of(stream, 1) != [b""]
                except OSError:
                    pass
        self.assertGreater(served, many // 3)
        status, notes = self.ends(node)
        words = [LINE.fullmatch(line).group(1) for line in notes.decode("ascii").splitlines()]
        self.assertEqual((status, words.count("scarce"), words.count("broken")), (0, 1, many - served))

    def test_a_door_that_can_take_none_waits_for_descriptors(self):
        node = self.node(options=["--tell-refusals"])
        held = self.held_by(node)
        resource.prlimit(node.pid, resource.RLIMIT_NOFILE, (held, held + 64))
        # The door waits already, and the system may have kept a number for the connection that it waits for.
        first, second = (socket.create_connection(("127.0.0.1", node.port), PATIENCE) for _ in range(2))
        with first, second:
            time.sleep(SECOND)
            resource.prlimit(node.pid, resource.RLIMIT_NOFILE, (held + 64, held + 64))
        with socket.create_connection(("127.0.0.1", node.port), PATIENCE) as stream:
            stream.sendall(reads(1))
            self.assertNotEqual(frames_of(stream, 1), [b""])
        status, notes = self.ends(node)
        self.assertEqual((status, notes.count(b" scarce lane 0\n")), (0, 1))

    def test_all_certificates_of_a_request_have_one_limit_at_the_relay(self):
        with SlowRelay() as address:
            node = self.node(relay=address)
            client = Client(Channel(2, key_of(2), TimeNumbers()), connect("127.0.0.1", node.port))
            for serials in range(2), range(2, 2 + SHOWN), range(20, 22):
                begin = time.monotonic()
                certificates = [sealed(key_of(1), Body(1, Key(2), Name(10), 4102444800, each), ISSUED) for each in serials]
                answer = client.ask(5, Read(), certificates)
                # What is asked of the relay is a matter of each request.
                self.assertLess(time.monotonic() - begin, LIMIT + 1)
                self.assertEqual(isinstance(answer.reply, RelayFailed), len(serials) == SHOWN)
                # Behind a fault the link rests.
                time.sleep(1.1)
            client.connection.close()
        self.assertEqual(self.ends(node)[0], 0)


class Idle(Case):
    def lasts(self, node, payload_at, drips=False):
        """The seconds for which a connection lasts whose client sends a frame each half second, whole or a byte at a time, four seconds at most."""
        began = time.monotonic()
        with socket.create_connection(("127.0.0.1", node.port), PATIENCE) as stream:
            for turn in range(1, 9):
                sent = payload_at(turn)
                step = 1 if drips else len(sent)
                try:
                    for start in range(0, len(sent), step):
                        stream.sendall(sent[start:start + step])
                        time.sleep(SECOND / 2 * step / len(sent))
                    if frames_of(stream, 1) == [b""]:
                        break
                except OSError:
                    break
        return time.monotonic() - began

    def test_frames_that_nobody_sealed_keep_no_seat(self):
        for options in [], ["--clients", "10"]:
            node = self.node(options=[*options, "--idle", "1"])
            self.assertGreater(self.lasts(node, reads), 3.5, options)
            for drips in False, True:
                self.assertLess(self.lasts(node, lambda turn: frame(b""), drips), 3, options)
            self.assertEqual(self.ends(node)[0], 0)

    def test_a_link_that_idles_makes_room_for_another_node(self):
        for options in [], ["--clients", "10"]:
            with QuickRelay() as address:
                nodes = [self.node(options=options, relay=address) for _ in range(2)]
                clients = [Client(Channel(2, key_of(2), TimeNumbers()), connect("127.0.0.1", node.port)) for node in nodes]
                for turn, client in enumerate(clients * 2):
                    began = time.monotonic()
                    shown = [sealed(key_of(1), Body(1, Key(2), Name(10), 4102444800, turn), ISSUED)]
                    self.assertNotIsInstance(client.ask(5, Read(), shown).reply, RelayFailed, options)
                    self.assertLess(time.monotonic() - began, 3, options)
                for client in clients:
                    client.connection.close()
            for node in nodes:
                self.assertEqual(self.ends(node)[0], 0)


class Starter(Case):
    def start(self, *words, listen=HERE, options=(), env=None, text=NODE):
        words = [STARTER, *options, PROGRAM, *words, self.file(text), listen, "-", "serve", "--connections", "100"]
        return self.started(words, stdin=subprocess.DEVNULL, env={**os.environ, **(env or {})})

    def test_term_and_int_stop_it_in_order_with_requests_under_way_on_each_lane(self):
        many = 300
        for number in signal.SIGTERM, signal.SIGINT:
            service = self.start(listen=",".join([HERE] * LANES))
            port, _ = port_of(service.stderr.fileno())
            streams = [socket.create_connection(("127.0.0.1", port), PATIENCE) for _ in range(LANES)]
            for channel, stream in enumerate(streams, 1):
                stream.sendall(b"".join(reads(each, channel) for each in range(1, many + 1)))
            firsts = [frames_of(stream, 1) for stream in streams]
            service.send_signal(number)
            counts = []
            for stream in streams:
                with stream:
                    counts.append(1 + sum(1 for _ in iter(lambda: frames_of(stream, 1)[0], b"")))
            self.assertEqual((len(firsts), service.wait(PATIENCE)), (LANES, 0))
            line = service.stdout.read()
            # Each frame that was taken is answered, and they are counted.
            said = dict(zip(line.split()[::2], map(int, line.split()[1::2])))
            self.assertEqual((said[b"connections"], said[b"broken"], said[b"grants"]), (LANES, 0, sum(counts)))
            self.assertEqual(service.stderr.read(), b"")

    def test_the_manager_is_told_when_it_listens_and_when_it_stops(self):
        with tempfile.TemporaryDirectory() as folder, socket.socket(socket.AF_UNIX, socket.SOCK_DGRAM) as manager:
            name = os.path.join(folder, "notify")
            manager.bind(name)
            manager.settimeout(PATIENCE)
            service = self.start(env={"NOTIFY_SOCKET": name})
            self.assertEqual(manager.recv(64), b"READY=1")
            service.send_signal(signal.SIGTERM)
            self.assertEqual(manager.recv(64), b"STOPPING=1")
            self.assertEqual(service.wait(PATIENCE), 0)

    def test_a_file_that_is_refused_ends_it_before_it_listens(self):
        service = self.start(text="taos 2\n")
        self.assertEqual(service.wait(PATIENCE), 2)
        told = service.stderr.read()
        self.assertIn(b"taos: ", told)
        self.assertNotIn(TOLD, told)

    def test_an_option_s_value_is_no_file(self):
        for words in ["--clients", "100"], ["--idle", "5", "--clients", "100", "--notices", "json", "--status", HERE, "--tell-refusals"]:
            service = self.start(*words)
            port, before = port_of(service.stderr.fileno())
            self.assertEqual(before, [])
            streams = [socket.create_connection(("127.0.0.1", port), PATIENCE) for _ in range(2 * LANES)]
            for channel, stream in enumerate(streams):
                stream.sendall(reads(channel + 1, 1 + channel % LANES))
            self.assertEqual([len(frames_of(stream, 1)) for stream in streams], [1] * len(streams))
            for stream in streams:
                stream.close()
            service.send_signal(signal.SIGTERM)
            self.assertEqual(service.wait(PATIENCE), 0)

    def test_hup_reopens_the_log(self):
        with tempfile.TemporaryDirectory() as folder:
            log, old = os.path.join(folder, "log"), os.path.join(folder, "log.1")
            service = self.start("--tell-refusals", options=["--log", log])
            self.wait_for(lambda: os.path.exists(log) and TOLD in open(log, "rb").read())
            with open(log, "rb") as file:
                port = int(file.read()[len(TOLD):])
            os.rename(log, old)
            service.send_signal(signal.SIGHUP)
            self.wait_for(lambda: os.path.exists(log))
            with socket.create_connection(("127.0.0.1", port), PATIENCE) as stream:
                stream.sendall(frame(b""))
                self.assertEqual(len(frames_of(stream, 1)), 1)
            self.wait_for(lambda: b" refused lane 0 " in open(log, "rb").read())
            service.send_signal(signal.SIGTERM)
            self.assertEqual(service.wait(PATIENCE), 0)

    def wait_for(self, holds):
        end = time.monotonic() + PATIENCE
        while not holds():
            self.assertLess(time.monotonic(), end)
            time.sleep(0.02)

    def test_words_that_serve_nothing_are_told(self):
        for words in [], [PROGRAM], [PROGRAM, "-", "-", "-", "run"], ["--log"]:
            run = subprocess.run([STARTER, *words], capture_output=True, check=False, timeout=PATIENCE)
            self.assertEqual(run.returncode, 1, words)
            self.assertIn(b"taosd-start", run.stderr)


class Unit(unittest.TestCase):
    def test_the_system_s_own_tool_takes_the_unit(self):
        tool = shutil.which("systemd-analyze")
        if not tool:
            self.skipTest("no systemd-analyze")
        with tempfile.TemporaryDirectory() as folder:
            path = os.path.join(folder, "taosd.service")
            with open(UNIT, encoding="ascii") as unit, open(path, "w", encoding="ascii") as copy:
                copy.write(unit.read().replace("/usr/lib/taosd/taosd-start", STARTER))
            run = subprocess.run([tool, "verify", path], capture_output=True, check=False, timeout=PATIENCE)
            self.assertEqual((run.returncode, [each for each in run.stderr.splitlines() if b"taosd" in each]), (0, []))

    @unittest.skipUnless(PROGRAM, "no PROGRAM is named")
    def test_the_unit_s_words_are_the_program_s(self):
        with open(UNIT, encoding="ascii") as unit:
            line = unit.read().replace("\\\n", " ").split("ExecStart=")[1].split("\n")[0]
        words = line.split()[1:]
        with tempfile.NamedTemporaryFile("w", encoding="ascii") as file:
            file.write(NODE)
            file.flush()
            filled = {words[0]: PROGRAM, "%d/node": file.name, "${TAOSD_LISTEN}": ",".join([HERE] * 2), "${TAOSD_RELAY}": "-"}
            pipe = subprocess.PIPE
            with subprocess.Popen([STARTER, *(filled.get(word, word) for word in words)], stdin=subprocess.DEVNULL, stdout=pipe, stderr=pipe) as service:
                try:
                    port_of(service.stderr.fileno())
                    service.terminate()
                    line, _ = service.communicate(timeout=PATIENCE)
                finally:
                    service.kill()
            self.assertEqual(service.returncode, 0)
            self.assertTrue(line.startswith(b"connections "), line)


if __name__ == "__main__":
    unittest.main()
