"""What a node tells of itself by HTTP (`--status`), and its notices as JSON, with the program that PROGRAM names."""
import contextlib
import http.client
import json
import os
import re
import socket
import tempfile
import threading
import time
import unittest

from test_notices import PATIENCE, frame, reads_out
from test_service import HERE, LANES, NODE, Case, frames_of, reads, taken
from vectors import key_of
from yoritzal import Read, Request, Sweep, Withdraw, Write

PROGRAM = os.environ.get("PROGRAM")
SAMPLE = re.compile(r'([a-z_]+)((?:\{[a-z]+="[^"]*"\})?) (\d+)')
HEADING = re.compile(r"# (HELP|TYPE) ([a-z_]+) (.+)")
FAMILIES = ["taosd_build_info", "taosd_uptime_seconds", "taosd_connections_total", "taosd_connections_open", "taosd_broken_total",
            "taosd_replies_total", "taosd_answers_total", "taosd_reply_microseconds", "taosd_relay_calls_total", "taosd_relay_faults_total",
            "taosd_clock_faults_total", "taosd_scarce_total", "taosd_full_total", "taosd_notices_left_out_total", "taosd_shard_entries",
            "taosd_object_entries"]
BOUNDS = [100, 250, 500, 1000, 2500, 5000, 10000, 25000, 50000, 100000, 250000, 500000, 1000000, 2500000, 5000000, 10000000]
# Less than a silent peer has, and more than a busy machine takes.
SILENT = 4
TOLD = "taosd_replies_total{status=\"%d\"}"


def free_port():
    with socket.create_server(("127.0.0.1", 0)) as taken:
        return taken.getsockname()[1]


def asked(port, path, method="GET"):
    """The status, the type and the body of an answer."""
    connection = http.client.HTTPConnection("127.0.0.1", port, timeout=PATIENCE)
    try:
        connection.request(method, path)
        answer = connection.getresponse()
        return answer.status, answer.getheader("content-type"), answer.read().decode("ascii")
    finally:
        connection.close()


def samples_of(page):
    """Each sample by its name and label, and the families in their order."""
    samples, families = {}, []
    for line in page.splitlines():
        heading = HEADING.fullmatch(line)
        if heading:
            if heading.group(1) == "TYPE":
                families.append(heading.group(2))
            continue
        name, label, value = SAMPLE.fullmatch(line).groups()
        if name + label in samples:
            raise AssertionError(f"{name}{label} stands twice")
        samples[name + label] = int(value)
    return samples, families


class Status(Case):
    def counted(self, options=(), **how):
        port = free_port()
        node = self.node(options=["--status", f"127.0.0.1:{port}", *options], **how)
        return node, port

    def test_each_family_stands_once_in_order(self):
        node, port = self.counted()
        status, kind, page = asked(port, "/metrics")
        self.assertEqual((status, kind), (200, "text/plain; version=0.0.4; charset=utf-8"))
        samples, families = samples_of(page)
        self.assertEqual(families, FAMILIES)
        self.assertEqual([samples[f'taosd_reply_microseconds_bucket{{le="{bound}"}}'] for bound in BOUNDS], [0] * len(BOUNDS))
        self.assertEqual(self.ends(node), (0, b""))

    def test_replies_are_counted_by_their_status(self):
        for options in [], ["--clients", "10"]:
            node, port = self.counted(options)
            turned = bytearray(reads(3))
            turned[-1] ^= 1
            with socket.create_connection(("127.0.0.1", node.port), PATIENCE) as stream:
                for sent in reads(1), reads(2), reads(2), bytes(turned), frame(b""):
                    stream.sendall(sent)
                self.assertEqual(len(frames_of(stream, 5)), 5)
                time.sleep(0.1)
                samples, _ = samples_of(asked(port, "/metrics")[2])
                self.assertEqual([samples[TOLD % status] for status in (0, 1, 2, 4, 5)], [2, 0, 1, 1, 1], options)
                self.assertEqual((samples["taosd_connections_total"], samples["taosd_connections_open"]), (1, 1), options)
                self.assertEqual(samples['taosd_object_entries{object="5"}'], 2, options)
                buckets = [samples[f'taosd_reply_microseconds_bucket{{le="{bound}"}}'] for bound in [*BOUNDS, "+Inf"]]
                self.assertEqual(buckets, sorted(buckets))
                self.assertEqual((buckets[-1], samples["taosd_reply_microseconds_count"]), (5, 5))
            time.sleep(2)
            self.assertEqual(samples_of(asked(port, "/metrics")[2])[0]["taosd_connections_open"], 0, options)
            self.assertEqual(self.ends(node)[0], 0)

    def test_other_paths_and_methods_are_refused(self):
        node, port = self.counted()
        self.assertEqual(asked(port, "/healthz"), (200, "text/plain; charset=utf-8", "ok\n"))
        self.assertEqual(asked(port, "/healthz", "HEAD"), (200, "text/plain; charset=utf-8", ""))
        for path in "/", "/metrics/", "/healthz2":
            self.assertEqual(asked(port, path), (404, None, ""), path)
        for method in "POST", "PUT", "DELETE":
            self.assertEqual(asked(port, "/metrics", method), (405, None, ""), method)
        self.assertEqual(self.ends(node)[0], 0)

    def test_who_asks_slowly_holds_up_nobody(self):
        node, port = self.counted()
        with contextlib.ExitStack() as streams:
            for many in 1, 20:
                for said in [b"GET /metrics HT", b""] * many:
                    slow = streams.enter_context(socket.create_connection(("127.0.0.1", port), PATIENCE))
                    slow.sendall(said)
                began = time.monotonic()
                self.assertEqual(asked(port, "/healthz")[0], 200)
                self.assertLess(time.monotonic() - began, SILENT)
            began = time.monotonic()
            self.assertEqual(self.ends(node)[0], 0)
            self.assertLess(time.monotonic() - began, SILENT)

    def test_who_asks_a_byte_at_a_time_is_answered_and_a_silent_one_is_let_go(self):
        node, port = self.counted()
        with socket.create_connection(("127.0.0.1", port), PATIENCE) as silent, socket.create_connection(("127.0.0.1", port), PATIENCE) as slow:
            began = time.monotonic()
            for each in b"GET /healthz HTTP/1.1\r\nHost: a\r\n\r\n":
                slow.sendall(bytes([each]))
                time.sleep(0.02)
            self.assertTrue(taken(slow, 15).startswith(b"HTTP/1.1 200"))
            self.assertEqual(silent.recv(1), b"")
            self.assertGreater(time.monotonic() - began, SILENT)
        self.assertEqual(self.ends(node)[0], 0)

    def test_a_long_body_is_refused_and_holds_up_nobody(self):
        node, port = self.counted()
        head = b"POST / HTTP/1.1\r\nHost: a\r\nTransfer-Encoding: chunked\r\n\r\n"
        with socket.create_connection(("127.0.0.1", port), PATIENCE) as stream:
            stream.sendall(head + b"1\r\nx\r\n" * 1024 + b"0\r\n\r\n")
            self.assertTrue(taken(stream, 12).endswith(b" 405"))
        with socket.create_connection(("127.0.0.1", port), PATIENCE) as stream:
            # What is sent behind the refusal may be reset.
            with contextlib.suppress(OSError):
                stream.sendall(head + b"1\r\nx\r\n" * 200_000)
            began = time.monotonic()
            self.assertEqual(asked(port, "/healthz")[0], 200)
            self.assertLess(time.monotonic() - began, SILENT)
        self.assertEqual(self.ends(node)[0], 0)

    def test_scrapes_slow_a_lane_by_little(self):
        node, port = self.counted()
        rates = {}
        for scrapes in False, True, False, True:
            done = threading.Event()

            def scrape(done=done):
                while not done.wait(0.01):
                    asked(port, "/metrics")

            thread = threading.Thread(target=scrape)
            if scrapes:
                thread.start()
            rates.setdefault(scrapes, []).append(self.rate(node.port, len(rates.get(scrapes, [])) * 2 + scrapes))
            done.set()
            if scrapes:
                thread.join()
        # The machine of the tests has others on it; a lane that waits for scrapes would lose more than half.
        self.assertGreater(max(rates[True]), max(rates[False]) * 0.6)
        self.assertEqual(self.ends(node)[0], 0)

    def rate(self, port, turn, count=2000):
        sent = b"".join(reads(turn * count + each) for each in range(1, count + 1))
        with socket.create_connection(("127.0.0.1", port), PATIENCE) as stream:
            writer = threading.Thread(target=stream.sendall, args=(sent,))
            began = time.monotonic()
            writer.start()
            frames_of(stream, count)
            writer.join()
            return count / (time.monotonic() - began)

    def test_an_address_that_is_taken_ends_it_before_it_listens(self):
        with socket.create_server(("127.0.0.1", 0)) as other:
            taken = "127.0.0.1:{}".format(other.getsockname()[1])
            run = self.ran("--status", taken, self.file(), HERE, "-", "serve", input=b"")
            self.assertEqual(run.returncode, 9)
            self.assertIn(f"taosd: {taken}: ".encode(), run.stderr)

    def test_a_port_alone_is_of_this_machine(self):
        port = free_port()
        node = self.node(options=["--status", str(port)])
        self.assertEqual(asked(port, "/healthz")[0], 200)
        self.assertEqual(self.ends(node)[0], 0)
        for address in "-", "127.0.0.1:0,127.0.0.1:0":
            self.assertEqual(self.ran("--status", address, self.file(), HERE, "-", "serve", input=b"").returncode, 9, address)

    def test_words_are_read_before(self):
        for words in ["--status"], ["--status", "x", "--status", "y"], ["--notices", "xml"], ["--notices", "json", "--notices", "json"]:
            run = self.ran(*words, self.file(), HERE, "-", "serve", input=b"")
            self.assertEqual((run.returncode, run.stderr), (1, b"taos: usage\n"), words)


class Filling(Case):
    def test_a_journal_that_fills_is_told_of_once(self):
        text = NODE.replace("shards 2", "shards 1\njournal 20").replace("allow 5 rwcm name:10", "allow 5 r name:11")
        node = self.node(options=["--tell-refusals"], text=text)
        with socket.create_connection(("127.0.0.1", node.port), PATIENCE) as stream:
            # What nobody may do is denied, and each denial takes one entry and says which.
            for number in range(1, 19):
                stream.sendall(frame(Request(1, number, 5, Read()).payload(key_of(1))))
            self.assertEqual(len(frames_of(stream, 18)), 18)
        status, notes = self.ends(node)
        told = [line.split(" ", 2)[2] for line in notes.decode("ascii").splitlines()]
        self.assertEqual((status, told), (0, ["filling lane 0 shard 0 entries 16", "filling lane 0 object 5 entries 16"]))


class Decisions(Case):
    def setUp(self):
        folder = tempfile.TemporaryDirectory()
        self.addCleanup(folder.cleanup)
        self.path = os.path.join(folder.name, "decisions")

    def lines(self, path=None):
        with open(path or self.path, encoding="ascii") as file:
            return [json.loads(line) for line in file]

    def test_each_ruling_has_a_line_before_its_reply_comes(self):
        text = NODE.replace("allow 5 rwcm name:10", "allow 5 r name:10")
        for options in [], ["--clients", "10"]:
            node = self.node(options=["--decisions", self.path, *options], text=text)
            with socket.create_connection(("127.0.0.1", node.port), PATIENCE) as stream:
                for turn, asked in enumerate((Request(1, 1, 5, Read()), Request(1, 2, 5, Write(b"x")), Request(1, 2, 5, Read()), Request(2, 1, 5, Sweep()),
                                              Request(2, 2, 5, Withdraw(9))), 1):
                    stream.sendall(frame(asked.payload(key_of(asked.channel))))
                    self.assertEqual(len(frames_of(stream, 1)), 1)
                    # The third is replayed, and no ruling.
                    self.assertEqual(len(self.lines()), turn - (turn > 2), options)
            self.assertEqual(self.ends(node), (0, b""))
            told = [{key: line.get(key) for key in ("event", "channel", "number", "operation", "object", "right", "link")} for line in self.lines()]
            wanted = [("granted", 1, 1, "read", 5, "read", None), ("denied", 1, 2, "write", 5, "write", "no-entry"),
                      ("denied", 2, 1, "sweep", 5, "manage", "no-entry"), ("denied", 2, 2, "withdraw", 5, "manage", "no-entry")]
            self.assertEqual([tuple(line.values()) for line in told], wanted, options)
            self.assertEqual(os.stat(self.path).st_mode & 0o777, 0o600)
            os.remove(self.path)

    def test_a_frame_that_was_cut_is_none_of_the_next_connection_s(self):
        node = self.node(options=["--decisions", self.path, "--tell-denials"])
        for number in 1, 2:
            with socket.create_connection(("127.0.0.1", node.port), PATIENCE) as stream:
                stream.sendall(reads(number))
                self.assertNotEqual(frames_of(stream, 1), [b""])
                stream.sendall(reads(9)[:30])
        # The last lines may be missing at a stop.
        time.sleep(0.5)
        status, notes = self.ends(node)
        self.assertEqual((status, [line["number"] for line in self.lines()]), (0, [1, 2]))
        self.assertEqual(notes.count(b" cause cut\n"), 2)

    def test_a_file_that_was_renamed_is_made_anew(self):
        node = self.node(options=["--decisions", self.path])
        with socket.create_connection(("127.0.0.1", node.port), PATIENCE) as stream:
            for number in 1, 2:
                stream.sendall(reads(number))
                self.assertEqual(len(frames_of(stream, 1)), 1)
                if number == 1:
                    os.rename(self.path, self.path + ".1")
                    time.sleep(1)
        self.assertEqual(self.ends(node)[0], 0)
        self.assertEqual([[line["number"] for line in self.lines(path)] for path in (self.path + ".1", self.path)], [[1], [2]])

    def test_on_a_full_device_nothing_more_is_served_unless_lines_may_be_dropped(self):
        for option, replies in ([], 0), (["--decisions-may-drop"], 1):
            node = self.node(options=["--decisions", "/dev/full", *option])
            with socket.create_connection(("127.0.0.1", node.port), PATIENCE) as stream:
                stream.sendall(reads(1))
                payload = frames_of(stream, 1)[0]
                self.assertEqual(payload != b"", bool(replies), option)
            if not replies:
                # It has stopped by itself.
                self.assertEqual(node.wait(PATIENCE), 4)
            time.sleep(0.5)
            status, notes = self.ends(node)
            self.assertEqual(status, 0 if replies else 4)
            self.assertIn(b"taosd: /dev/full: a decision can't be written\n", notes)


class Start(Case):
    def test_the_begin_and_the_end_have_a_line_each(self):
        served = {"node": 7, "channels": LANES, "objects": 1, "shards": 2, "journal": 16384}
        limits = {"connections": 100, "frames": 1000000, "idle": 60}
        for form, clients in ("text", []), ("json", ["--clients", "10"]):
            node = self.node(options=["--tell-start", "--notices", form, *clients])
            status, notes = self.ends(node)
            where = {"listen": f"127.0.0.1:{node.port}"}
            lines = notes.decode("ascii").splitlines()
            if form == "json":
                told = [{key: value for key, value in json.loads(line).items() if key not in ("time", "level")} for line in lines]
                self.assertEqual(told, [{"event": "started", **served, "lanes": 1, "clients": 10, **limits, **where}, {"event": "ended", "status": 0}])
            else:
                pairs = " ".join(f"{key} {value}" for key, value in {**served, "lanes": 1, **limits, **where}.items())
                self.assertEqual([line.split(" ", 2)[2] for line in lines], [f"started {pairs}", "ended status 0"])
            self.assertEqual(status, 0)


class Json(Case):
    def test_notices_are_objects_of_members_in_order(self):
        node = self.node(options=["--tell-denials", "--notices", "json"])
        turned = bytearray(Request(1, 8, 5, Read()).payload(key_of(1)))
        turned[-1] ^= 1
        with socket.create_connection(("127.0.0.1", node.port), PATIENCE) as stream:
            peer = "{}:{}".format(*stream.getsockname())
            for payload in (Request(1, 8, 5, Read()).payload(key_of(1)), bytes(turned), Request(1, 8, 5, Read()).payload(key_of(1)), b"",
                            Request(77, 1, 5, Read()).payload(key_of(2))):
                stream.sendall(frame(payload))
            stream.shutdown(socket.SHUT_WR)
            reads_out(stream)
        status, notes = self.ends(node)
        lines = [json.loads(line) for line in notes.decode("ascii").splitlines()]
        now = time.time()
        for line in lines:
            self.assertLess(abs(now - line.pop("time")), PATIENCE)
        first = {"level": "info", "event": "refused", "lane": 0, "peer": peer}
        self.assertEqual((status, [list(line.items()) for line in lines]), (0, [list({**first, **more}.items()) for more in (
            {"status": 4}, {"channel": 1, "number": 8, "operation": "read", "object": 5, "right": "read", "status": 5}, {"status": 2},
            {"channel": 77, "status": 3})]))


if __name__ == "__main__":
    unittest.main()
