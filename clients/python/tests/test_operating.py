"""What whoever keeps a node reads of it: the line at start with each of its pairs, and the log of decisions where a grant was not done.
With the program that PROGRAM names."""
import json
import os
import resource
import socket
import tempfile
import threading
import time
import unittest

from test_lanes import line_of
from test_service import HERE, LANES, NODE, PATIENCE, TOLD, Case, frame, frames_of, reads
from test_status import asked, free_port
from vectors import key_of
from yoritzal import RELAYED, As, Body, Discard, Hold, Key, Name, Read, Request, Withdraw, sealed

# What a channel and a request, what all shards in common, and what a shard of issuers may have.
HELD, PRESENTED, COMMON, WITHDRAWN = 32, 16, 32, 64


def held(serials, channel):
    """Certificates which say that the channel's key speaks for the name 10, as the node's relay seals them."""
    return [sealed(key_of(7), Body(1, Key(channel), Name(10), 4102444800, serial), RELAYED) for serial in serials]


class NotDone(Case):
    def setUp(self):
        folder = tempfile.TemporaryDirectory()
        self.addCleanup(folder.cleanup)
        self.path = os.path.join(folder.name, "decisions")

    def lines(self):
        with open(self.path, encoding="ascii") as file:
            return [json.loads(line) for line in file]

    def asked(self, requests, options=()):
        """The lines of the log behind these requests, and the status of each reply."""
        node = self.node(options=["--decisions", self.path, *options])
        with socket.create_connection(("127.0.0.1", node.port), PATIENCE) as stream:
            stream.sendall(b"".join(frame(request.payload(key_of(request.channel))) for request in requests))
            statuses = [payload[13] for payload in frames_of(stream, len(requests))]
        self.assertEqual(self.ends(node), (0, b""))
        return self.lines(), statuses

    def told(self, requests):
        """What the log says of the last request, whose line is the last, and that each before it was granted."""
        lines, statuses = self.asked(requests)
        self.assertEqual(([line["status"] for line in lines], set(statuses[:-1])), (statuses, {0} if statuses[1:] else set()))
        self.assertEqual([line["event"] for line in lines[:-1]], ["granted"] * (len(lines) - 1))
        last = lines[-1]
        self.assertLess(abs(last.pop("time") - time.time()), PATIENCE)
        last.pop("peer")
        return list(last.items())

    def test_a_hold_that_has_no_room_is_not_done(self):
        first, second = range(PRESENTED), range(PRESENTED, HELD)
        requests = [Request(1, 1, 5, Hold(), certificates=held(first, 1)), Request(1, 2, 5, Hold(), certificates=held(second, 1)),
                    Request(2, 1, 5, Hold(), certificates=held([COMMON], 2))]
        self.assertEqual(self.told(requests), list({
            "level": "info", "event": "not-done", "lane": 0, "channel": 2, "number": 1, "operation": "hold", "object": 5, "right": "manage",
            "status": 12, "shard": 0}.items()))

    def test_a_discard_of_what_nobody_holds_is_not_done(self):
        self.assertEqual(self.told([Request(3, 7, 5, Discard(bytes(32)))]), list({
            "level": "info", "event": "not-done", "lane": 0, "channel": 3, "number": 7, "operation": "discard", "object": 5, "right": "manage",
            "status": 13}.items()))

    def test_an_issuer_too_many_is_not_withdrawn(self):
        requests = [Request(1, number, 5, Withdraw(100 + number)) for number in range(1, WITHDRAWN + 2)]
        self.assertEqual(self.told(requests), list({
            "level": "info", "event": "not-done", "lane": 0, "channel": 1, "number": WITHDRAWN + 1, "operation": "withdraw", "object": 5,
            "right": "manage", "status": 14, "shard": 0}.items()))

    def test_a_request_that_was_not_ruled_on_has_no_line(self):
        # In turn: granted, replayed, of an object that is not there, no request, with a certificate that is none, denied.
        node = self.node(options=["--decisions", self.path, "--clients", "10"], text=NODE.replace("allow 5 rwcm name:10", "allow 5 rm name:10"))
        payloads = [Request(1, 5, 5, Read()).payload(key_of(1)), Request(1, 5, 5, Read()).payload(key_of(1)), Request(1, 6, 6, Read()).payload(key_of(1)),
                    b"", Request(1, 7, 5, Read(), certificates=[b"\2"]).payload(key_of(1)), Request(2, 1, 5, Discard(bytes(32))).payload(key_of(2))]
        with socket.create_connection(("127.0.0.1", node.port), PATIENCE) as stream:
            stream.sendall(b"".join(map(frame, payloads)))
            self.assertEqual([payload[13] for payload in frames_of(stream, len(payloads))], [0, 5, 9, 2, 6, 13])
        self.assertEqual(self.ends(node), (0, b""))
        told = [(line["event"], line["status"], line["channel"], line["number"], "peer" in line) for line in self.lines()]
        self.assertEqual(told, [("granted", 0, 1, 5, False), ("not-done", 13, 2, 1, False)])


    def test_whom_a_channel_quotes_stands_in_the_line(self):
        lines, statuses = self.asked([Request(1, 1, 5, Read(), quoted=As(Name(11), 2)), Request(1, 2, 5, Read())])
        self.assertEqual([(line["event"], line["status"], line.get("quoted")) for line in lines], [("denied", 1, "name:11 as role:2"), ("granted", 0, None)])
        self.assertEqual(statuses, [1, 0])

    def test_lines_of_lanes_stand_whole_beside_each_other(self):
        many = 300
        node = self.node(",".join([HERE] * LANES), options=["--decisions", self.path])

        def asks(channel):
            with socket.create_connection(("127.0.0.1", node.port), PATIENCE) as stream:
                stream.sendall(b"".join(reads(number, channel) for number in range(1, many + 1)))
                frames_of(stream, many)

        threads = [threading.Thread(target=asks, args=(channel,)) for channel in range(1, LANES + 1)]
        for thread in threads:
            thread.start()
        for thread in threads:
            thread.join()
        self.assertEqual(self.ends(node), (0, b""))
        told = sorted((line["channel"], line["number"], line["event"]) for line in self.lines())
        self.assertEqual(told, [(channel, number, "granted") for channel in range(1, LANES + 1) for number in range(1, many + 1)])


class Start(Case):
    def test_the_line_at_start_says_where_and_for_how_many(self):
        port, served = free_port(), {"node": 7, "channels": LANES, "objects": 1, "shards": 2, "journal": 16384}
        listen = "127.0.0.1:0,127.0.0.1:0,127.0.0.2:0"
        node = self.node(listen, options=["--tell-start", "--notices", "json", "--status", str(port), "--idle", "7"], relay="127.0.0.1:1,127.0.0.1:2",
                         more=["--frames", "9", "--pull"])
        self.assertEqual(asked(port, "/healthz")[0], 200)
        status, notes = self.ends(node)
        # Each address that stands twice is bound once.
        told = notes.splitlines()
        bound = [f"127.0.0.1:{node.port}"] + [line[len(TOLD) - len("127.0.0.1:"):].decode() for line in told if line.startswith(b"taosd: listening on ")]
        self.assertEqual(len(bound), 2)
        started, ended = (json.loads(line) for line in told if line.startswith(b"{"))
        for line in started, ended:
            self.assertLess(abs(line.pop("time") - time.time()), PATIENCE)
        self.assertEqual(list(started.items()), list({
            "level": "info", "event": "started", **served, "lanes": 3, "connections": 100, "frames": 9, "idle": 7, "listen": ",".join(bound),
            "relay": "127.0.0.1:1", "wallet": "127.0.0.1:2", "page": f"127.0.0.1:{port}"}.items()))
        self.assertEqual((status, ended), (0, {"level": "info", "event": "ended", "status": 0}))

    def test_of_other_commands_it_says_what_they_have(self):
        relay = "taos-relay 1\nissuer 1 " + key_of(1).hex() + "\nnode 7 " + key_of(7).hex() + "\n"
        for words, pairs in ((["run", "--frames", "3"], f"node 7 channels {LANES} objects 1 shards 2 journal 16384 lanes 1 frames 3 relay 127.0.0.1:1"),
                             (["relay", "--frames", "3"], "lanes 1 frames 3")):
            run = self.ran("--tell-start", self.file(NODE if words[0] == "run" else relay), "-", "127.0.0.1:1,127.0.0.1:2", *words, input=b"")
            self.assertEqual((run.returncode, [line.split(" ", 2)[2] for line in run.stderr.decode("ascii").splitlines()]),
                             (0, [f"started {pairs}", "ended status 0"]))

    def test_clients_are_as_many_as_descriptors_allow(self):
        def few():
            resource.setrlimit(resource.RLIMIT_NOFILE, (200, 200))

        node = self.node(options=["--tell-start", "--clients", "1000"], preexec_fn=few)
        self.assertEqual(node.before, [b"taosd: 72 clients at most, since 200 descriptors are allowed\n"])
        status, notes = self.ends(node)
        self.assertEqual(status, 0)
        self.assertIn(f" lanes 1 clients 72 connections 100 frames 1000000 idle 60 listen 127.0.0.1:{node.port}\n".encode(), notes)


class Begins(Case):
    def test_why_nothing_was_begun_stands_for_the_note(self):
        with socket.create_server(("127.0.0.1", 0)) as other:
            taken = "127.0.0.1:{}".format(other.getsockname()[1])
            for options, address in ((["--decisions", "/nowhere/decisions"], None), (["--status", taken], taken), (["--clients", "9"], taken)):
                listen = taken if options[0] == "--clients" else "127.0.0.1:0"
                run = self.ran(*options, "--tell-start", self.file(), listen, "-", "serve", input=b"")
                lines = run.stderr.decode("ascii").splitlines()
                self.assertTrue(lines[-1].startswith("taosd: not begun: "), lines)
                # What can't be bound has a line of its own, and nothing began that could end.
                self.assertEqual([line.startswith(f"taosd: {address}: ") for line in lines[:-1]], [True] * (address is not None), lines)
                self.assertEqual(run.returncode, 9)


class Told(Case):
    def test_each_lane_tells_of_its_own_connections(self):
        node = self.node("127.0.0.1:0,127.0.0.2:0", options=["--tell-refusals"])
        ports = [("127.0.0.1", node.port), ("127.0.0.2", self.second(node))]
        peers = []
        for lane, place in enumerate(ports):
            with socket.create_connection(place, PATIENCE) as stream:
                peers.append("{}:{}".format(*stream.getsockname()))
                stream.sendall(frame(Request(70 + lane, 1, 5, Read()).payload(key_of(1))))
                self.assertEqual(len(frames_of(stream, 1)), 1)
            time.sleep(0.3)
        time.sleep(0.5)
        status, notes = self.ends(node)
        told = [line.split(" ", 2)[2] for line in notes.decode("ascii").splitlines()]
        self.assertEqual((status, told), (0, [f"refused lane {lane} peer {peers[lane]} channel {70 + lane} status 3" for lane in range(2)]))

    def second(self, node):
        """The port of the second listener."""
        line = line_of(node.stderr.fileno())
        self.assertTrue(line.startswith(b"taosd: listening on 127.0.0.2:"), line)
        return int(line.rpartition(b":")[2])

    def test_that_each_seat_is_taken_is_told_once_until_one_leaves(self):
        node = self.node(options=["--clients", "1", "--tell-refusals"])
        for turn in range(1, 5, 2):
            with socket.create_connection(("127.0.0.1", node.port), PATIENCE) as first:
                first.sendall(reads(turn))
                self.assertEqual(len(frames_of(first, 1)), 1)
                with socket.create_connection(("127.0.0.1", node.port), PATIENCE) as second:
                    second.sendall(reads(turn + 1))
                    time.sleep(0.5)
                    first.close()
                    self.assertEqual(len(frames_of(second, 1)), 1)
            time.sleep(0.5)
        status, notes = self.ends(node)
        told = [line.split(" ", 2)[2] for line in notes.decode("ascii").splitlines()]
        self.assertEqual((status, told), (0, ["full lane 1"] * 4))


if __name__ == "__main__":
    unittest.main()
