"""Seats of `--clients`: whoever floods without a key, and resets, half-closes, goes silent or takes nothing, at each point, leaves no
seat, no descriptor and no memory behind, and holds no stop up."""
import contextlib
import http.client
import itertools
import os
import re
import socket
import threading
import time

import peers
from nodes import (A_CLIENT, A_LANE, BESIDE, CHANNELS, HERE, LANES, OBJECT, PATIENCE, STOP, Case, channels, free_port, is_granted,
                   key_of, node_text, relay_text, waits_for)
from yoritzal import ISSUED, Body, Key, Name, Read, sealed

SEATS = 400
# Hostile connections of all these tests together, and how long each thousand may take.
CONNECTIONS = int(os.environ.get("CONNECTIONS", "2000"))
A_THOUSAND = 30
# Who takes nothing is let go behind 10 seconds, and its stream is read for one more.
SETTLED = 60
# What an entry of a journal takes.
ENTRY = 256
COUNT = re.compile(r"^(taosd_connections_open|taosd_(?:shard|object)_entries)(?:\{.*\})? (\d+)$", re.M)
RESETS = [peers.resets, peers.resets_once_taken, peers.resets_at_a_reply]
CLOSES = [peers.closes, peers.half_closes, peers.half_closes_and_resets]
UNTIL = 4_102_444_800


def lasts(stream):
    """Leaves in no way."""


class LateRelay:
    """A relay that takes a question, and answers nothing."""

    def __enter__(self):
        self.listener, self.streams = socket.create_server((HERE, 0)), []
        self.is_asked = threading.Event()
        threading.Thread(target=self._takes, daemon=True).start()
        return self

    def _takes(self):
        try:
            while True:
                stream = self.listener.accept()[0]
                self.streams.append(stream)
                if stream.recv(1):
                    self.is_asked.set()
        except OSError:
            pass

    @property
    def address(self):
        return "{}:{}".format(*self.listener.getsockname())

    def __exit__(self, *fault):
        for each in self.streams + [self.listener]:
            each.close()


class Seats(Case):
    """A node with a page. Each test ends by what has to be as it was at first."""

    def begun(self, text=None, options=(), **how):
        self.page, self.channels, self.numbers = free_port(), channels(), itertools.count(1)
        text = node_text(journal=max(100_000, 4 * CONNECTIONS)) if text is None else text
        node = self.serving(text, ["--clients", str(SEATS), "--tell-refusals", "--status", str(self.page), *options], **how)
        # Lanes come once the file is read.
        self.assertTrue(waits_for(lambda: self.seated(node, 1), PATIENCE))
        self.assertEqual(self.seated(node), SEATS)
        self.assertTrue(waits_for(lambda: self.counted()[0] == 0, SETTLED))
        self.entries = self.counted()[1]
        # The page's own connection goes.
        time.sleep(0.5)
        self.descriptors, self.memory = node.descriptors(), node.memory()
        return node

    def settles(self, node, descriptors):
        waits_for(lambda: node.descriptors() <= descriptors, SETTLED)

    def counted(self):
        """The connections that are open by the page, and the entries of journals."""
        connection = http.client.HTTPConnection(HERE, self.page, timeout=10)
        connection.request("GET", "/metrics")
        counts = COUNT.findall(connection.getresponse().read().decode("ascii"))
        connection.close()
        is_open = [int(count) for name, count in counts if name == "taosd_connections_open"]
        return is_open[0], sum(int(count) for name, count in counts if name != "taosd_connections_open")

    def takes_a_seat(self, node, place):
        """The connection of an honest client, and whether it was served."""
        client = node.client(self.channels[place % CHANNELS], 5)
        return client.connection, is_granted(client, content=self.content)

    def seated(self, node, most=SEATS):
        """How many honest clients are served at the same time."""
        with contextlib.ExitStack() as seats:
            for place in range(most):
                try:
                    connection, is_served = self.takes_a_seat(node, place)
                except OSError:
                    return place
                seats.enter_context(connection)
                if not is_served:
                    return place
        return most

    def silent(self, node, sent):
        """A peer that sends this, or as much of it as is taken in a moment, and takes nothing."""
        stream = peers.dialled(node.port, received=2048)
        self.addCleanup(stream.close)
        stream.settimeout(0.05)
        try:
            stream.sendall(sent)
        except OSError:
            pass
        return stream

    def assert_nothing_stays(self, node, at_once=2 * peers.Crowd.THREADS):
        """Behind so many hostile peers at a time. What memory may stay is what is given out at most."""
        self.settles(node, self.descriptors)
        waits_for(lambda: self.counted()[0] == 0, 1)
        time.sleep(0.5)
        left = {"descriptors": max(node.descriptors() - self.descriptors, 0), "connections of the page": self.counted()[0]}
        left["seats"] = SEATS - self.seated(node)
        self.assertEqual(left, {"descriptors": 0, "connections of the page": 0, "seats": 0})
        self.settles(node, self.descriptors)
        account = LANES * A_LANE + at_once * A_CLIENT + BESIDE + ENTRY * (self.counted()[1] - self.entries)
        if not node.is_checked():
            self.assertLess(node.memory() - self.memory, account)

    def assert_floods_leave_nothing(self, node, ways, count):
        """So many connections of each kind in turn, beside an honest client that keeps its own."""
        honest = self.honest(node, self.channels[0])
        crowd = peers.Crowd(node.port, list(itertools.product(peers.SENT.values(), ways)), count, 5 + count * A_THOUSAND / 1000)
        not_made = crowd.runs()
        self.assert_is_served(honest)
        self.assert_nothing_stays(node)
        self.assertEqual(not_made, 0)
        self.assert_stops(node, self.honest(node, self.channels[0]))


class Floods(Seats):
    def test_who_resets_leaves_no_seat(self):
        self.assert_floods_leave_nothing(self.begun(), RESETS, CONNECTIONS // 2)

    def test_who_closes_leaves_no_seat(self):
        self.assert_floods_leave_nothing(self.begun(), CLOSES, CONNECTIONS // 4)

    def test_who_goes_silent_is_let_go(self):
        node, left = self.begun(options=["--idle", "5"]), CONNECTIONS // 20
        kinds = itertools.cycle(peers.SENT.values())
        honest = self.honest(node, self.channels[0])
        while left:
            streams = [self.silent(node, sent) for sent in itertools.islice(kinds, min(left, SEATS // 2))]
            left -= len(streams)
            # One seat is the honest client's.
            self.settles(node, self.descriptors + 1)
            self.assertLessEqual(node.descriptors(), self.descriptors + 1)
            for each in streams:
                each.close()
        self.assert_is_served(honest)
        self.assert_nothing_stays(node, SEATS // 2)
        self.assert_stops(node, self.honest(node, self.channels[0]))


class Points(Seats):
    """Where it is made sure at what point a peer leaves."""

    def test_who_leaves_while_its_frames_are_at_a_lane_leaves_no_seat(self):
        with LateRelay() as relay:
            node = self.begun(lanes=1, relay=relay.address)
            asking = node.client(self.channels[1])
            for _ in range(max(1, CONNECTIONS // 2000)):
                self.leave_while_a_lane_waits(node, relay, asking)
            asking.connection.close()
        self.assert_nothing_stays(node)
        self.assert_stops(node, self.honest(node, self.channels[0]))

    def leave_while_a_lane_waits(self, node, relay, asking):
        """The lane waits for its relay for 5 seconds, and answers nobody."""
        shown = [sealed(key_of(1), Body(1, Key(2), Name(10), UNTIL, 1), ISSUED)]
        relay.is_asked.clear()
        thread = threading.Thread(target=asking.ask, args=(OBJECT, Read(), shown))
        thread.start()
        self.assertTrue(relay.is_asked.wait(5))
        pairs = 2 * list(itertools.product(peers.SENT.values(), RESETS + CLOSES))
        self.assertEqual(peers.Crowd(node.port, pairs, len(pairs), 3).runs(), 0)
        thread.join()
        # Behind a fault the link rests.
        time.sleep(1.2)

    def test_who_leaves_while_replies_are_left_leaves_no_seat(self):
        self.content = bytes(4096)
        node = self.begun(node_text(100_000, self.content))
        number = itertools.count(time.time_ns() // 1000)
        streams = []
        for place, leaves in zip(range(36), itertools.cycle(RESETS + CLOSES + [lasts])):
            stream = peers.dialled(node.port, received=2048)
            self.addCleanup(stream.close)
            streams.append(stream)
            # Replies to these have room nowhere.
            stream.sendall(peers.reads(1 + place % CHANNELS, itertools.islice(number, 400)))
            stream.recv(1)
            time.sleep(0.05)
            try:
                leaves(stream)
            except OSError:
                pass
        # Those that are still there on their side are let go as well.
        self.assert_nothing_stays(node, len(streams))
        self.assert_stops(node, self.honest(node, self.channels[0]))


class OfARelay(Seats):
    def takes_a_seat(self, node, place):
        """The connection of a client, and whether its frame, which is no question, was answered."""
        stream = peers.dialled(node.port, seconds=5)
        try:
            stream.sendall(bytes(4))
            return stream, stream.recv(4) != b""
        except OSError:
            return stream, False

    def test_who_resets_leaves_no_seat(self):
        node = self.begun(relay_text(), command="relay-serve")
        pairs = list(itertools.product(peers.SENT.values(), RESETS + CLOSES))
        count = max(len(pairs), CONNECTIONS // 10)
        self.assertEqual(peers.Crowd(node.port, pairs, count, 5 + count * A_THOUSAND / 1000).runs(), 0)
        self.assert_nothing_stays(node)
        node.asked_to_stop()
        self.assertIsNotNone(node.seconds_to_end())
        self.assertEqual(node.process.poll(), 0)


class Stops(Seats):
    def test_a_stop_waits_for_no_silent_peer(self):
        node = self.begun()
        for sent in 3 * list(peers.SENT.values()):
            self.silent(node, sent)
        # What those still send is read for a second.
        self.assert_stops(node, self.honest(node, self.channels[0]), STOP + 1)

    def test_a_stop_waits_for_nobody_who_flooded_and_went(self):
        for pause in 0, 2:
            node = self.begun()
            flood = peers.Flood(node.port, 16, [peers.unsealed(1) * 30, bytes(65544)])
            flood.lasts(3)
            time.sleep(pause)
            self.assert_stops(node, self.honest(node, self.channels[0]))
