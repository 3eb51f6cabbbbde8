"""A node that many clients use (`--clients`), of the program that PROGRAM names: they come and go in every order, in pieces of every size,
and with frames under way, and each gets the replies to its own frames, in order."""
import itertools
import os
import resource
import select
import signal
import socket
import struct
import subprocess
import tempfile
import threading
import time
import unittest

from test_service import HERE, PATIENCE, SECOND, STARTER, Case, SlowRelay, frame, frames_of, port_of, reads
from vectors import key_of
from yoritzal import ISSUED, Body, Granted, Key, Name, Read, Request, Write, believed, is_unsealed, sealed

PROGRAM = os.environ.get("PROGRAM")
LANES, CHANNELS, OBJECT = 2, 6, 5
CHAIN = 32
NODE = "\n".join(
    ["taos 1", f"node 7 {key_of(7).hex()}", "shards 2", "journal 200000"]
    + [f"channel {each} {key_of(each).hex()}" for each in range(1, CHANNELS + 1)]
    + [f"anchor {each} name:10" for each in range(1, CHANNELS)]
    + [f"object {OBJECT}", f"content {OBJECT} {b'hello'.hex()}", f"allow {OBJECT} rwcm name:10", ""])
# Who is let go sees it, and who waits does not wait for longer than that.
SOON = 20


class Peer:
    """A client with a channel of its own, whose numbers rise."""

    numbers = {channel: itertools.count(1) for channel in range(1, 256)}

    def __init__(self, test, port, channel):
        self.test, self.channel = test, channel
        self.stream = socket.create_connection(("127.0.0.1", port), PATIENCE)
        test.addCleanup(self.stream.close)

    def frames(self, count=1, operation=Read(), certificates=()):
        """Frames of new requests, and their numbers."""
        numbers = [next(self.numbers[self.channel]) for _ in range(count)]
        payloads = (Request(self.channel, each, OBJECT, operation, certificates).payload(key_of(self.channel)) for each in numbers)
        return b"".join(map(frame, payloads)), numbers

    def granted(self, numbers):
        """Takes the replies to these, which have to be grants, in order."""
        replies = [believed(payload, self.channel, key_of(self.channel)) for payload in frames_of(self.stream, len(numbers))]
        self.test.assertEqual([(type(reply), reply.number) for reply in replies], [(Granted, number) for number in numbers])
        return replies

    def asks(self, count=1, **how):
        """The replies to new requests, which are sent while they are taken."""
        data, numbers = self.frames(count, **how)
        if count == 1:
            self.stream.sendall(data)
            return self.granted(numbers)
        sending = threading.Thread(target=self.stream.sendall, args=[data])
        sending.start()
        replies = self.granted(numbers)
        sending.join(PATIENCE)
        return replies

    def resets(self):
        self.stream.setsockopt(socket.SOL_SOCKET, socket.SO_LINGER, struct.pack("ii", 1, 0))
        self.stream.close()

    def is_let_go(self):
        """Whether the node ends the connection before it writes anything more."""
        try:
            return self.stream.recv(1) == b""
        except ConnectionError:
            return True


class Many(Case):
    def setUp(self):
        super().setUp()
        Peer.numbers = {channel: itertools.count(1) for channel in range(1, CHANNELS + 1)}

    def many(self, clients=100, lanes=LANES, options=(), **how):
        return self.node(",".join([HERE] * lanes), ["--clients", str(clients), *options], text=NODE, **how)

    def peer(self, node, channel):
        return Peer(self, node.port, channel)

    def ends_well(self, node):
        self.assertEqual(self.ends(node), (0, b""))


class ComeAndGo(Many):
    def test_they_open_ask_and_close_in_every_order(self):
        node, orders = self.many(), list(itertools.permutations(range(1, 5)))
        for opened, asked, closed in zip(orders, reversed(orders), orders[7:] + orders[:7]):
            peers = {channel: self.peer(node, channel) for channel in opened}
            for channel in asked + closed:
                peers[channel].asks()
            for at, channel in enumerate(closed):
                peers[channel].stream.close()
                # Those that are left are where they were.
                for other in closed[at + 1 :]:
                    peers[other].asks()
        self.ends_well(node)

    def test_they_come_and_go_at_once_in_loops(self):
        node, faults = self.many(), []

        def loops(channel):
            try:
                for turn in range(40):
                    peer = self.peer(node, channel)
                    peer.asks(1 + turn % 5)
                    peer.stream.close()
            except (AssertionError, OSError) as fault:
                faults.append((channel, fault))

        threads = [threading.Thread(target=loops, args=[channel]) for channel in range(1, CHANNELS)]
        for each in threads:
            each.start()
        for each in threads:
            each.join(PATIENCE)
        self.assertEqual(faults, [])
        self.ends_well(node)

    def test_more_than_there_are_seats_wait_for_one(self):
        node = self.many(clients=2)
        seated = [self.peer(node, 1), self.peer(node, 2)]
        for each in seated:
            each.asks()
        third = self.peer(node, 3)
        data, numbers = third.frames()
        third.stream.sendall(data)
        third.stream.settimeout(SECOND)
        with self.assertRaises(TimeoutError):
            third.stream.recv(1)
        third.stream.settimeout(PATIENCE)
        for each in seated:
            each.asks()
        seated[0].stream.close()
        third.granted(numbers)
        seated[1].asks()
        third.stream.close()
        self.ends_well(node)


class Pieces(Many):
    def test_frames_are_cut_at_each_byte(self):
        node = self.many()
        other, peer = self.peer(node, 1), self.peer(node, 3)
        for cut in range(1, len(peer.frames()[0])):
            data, numbers = peer.frames(2)
            peer.stream.sendall(data[:cut])
            # Once this one is answered, what came before it was read.
            other.asks()
            peer.stream.sendall(data[cut:])
            peer.granted(numbers)
        self.ends_well(node)

    def test_a_first_frame_is_cut_at_each_byte_and_no_more_comes(self):
        node = self.many()
        other = self.peer(node, 1)
        for cut in range(len(other.frames()[0])):
            peer = self.peer(node, 3)
            peer.stream.sendall(peer.frames()[0][:cut])
            if cut % 2:
                peer.resets()
            else:
                peer.stream.shutdown(socket.SHUT_WR)
                self.assertTrue(peer.is_let_go(), cut)
            other.asks()
        self.ends_well(node)

    def test_bytes_come_one_at_a_time(self):
        node = self.many()
        peers = [self.peer(node, channel) for channel in (1, 2, 3)]
        asked = [peer.frames(2) for peer in peers]
        for at in range(len(asked[0][0])):
            for peer, (data, _) in zip(peers, asked):
                peer.stream.sendall(data[at : at + 1])
        for peer, (_, numbers) in zip(peers, asked):
            peer.granted(numbers)
        self.ends_well(node)

    def test_many_frames_come_in_one_piece(self):
        node, faults = self.many(), []

        def asks(channel):
            try:
                self.peer(node, channel).asks(1500)
            except (AssertionError, OSError) as fault:
                faults.append((channel, fault))

        threads = [threading.Thread(target=asks, args=[channel]) for channel in range(1, 5)]
        for each in threads:
            each.start()
        for each in threads:
            each.join(PATIENCE)
        self.assertEqual(faults, [])
        self.ends_well(node)

    def test_replies_of_the_largest_size_are_taken_whole(self):
        """The largest content, and a proof that cites as many certificates as a channel holds."""
        node = self.many()
        # The last channel is the end of a chain of keys that begins with an anchored one.
        keys = [1, *range(100, 100 + CHAIN - 1), CHANNELS]
        chain = [sealed(key_of(7), Body(one, Key(other), Key(one), 4102444800, 1), 2) for one, other in zip(keys[1:], keys[2:])]
        chain.append(sealed(key_of(7), Body(1, Key(keys[1]), Name(10), 4102444800, 1), 2))
        writer, last = self.peer(node, 1), self.peer(node, CHANNELS)
        writer.asks(operation=Write(bytes(range(256)) * 16))
        # What is denied has presented its certificates all the same.
        data, _ = last.frames(certificates=tuple(chain[:16]))
        last.stream.sendall(data)
        self.assertEqual(len(frames_of(last.stream, 1)), 1)
        last.asks(certificates=tuple(chain[16:]))
        count = 300
        data, numbers = last.frames(count)
        last.stream.sendall(data)
        # It takes nothing for a while: others are served meanwhile.
        for _ in range(20):
            self.assertEqual(writer.asks()[0].result, bytes(range(256)) * 16)
        for reply in last.granted(numbers):
            self.assertEqual((len(reply.certificates), reply.result), (CHAIN, bytes(range(256)) * 16))
        self.ends_well(node)


class Ends(Many):
    def test_who_ends_with_frames_under_way_shifts_nobody_s_place(self):
        node = self.many(lanes=1)
        other = self.peer(node, 1)
        for turn in range(60):
            peer = self.peer(node, 2 + turn % 4)
            peer.stream.sendall(peer.frames(1 + 7 * turn % 50)[0])
            data, numbers = other.frames(5)
            other.stream.sendall(data)
            if turn % 3 == 0:
                peer.resets()
            elif turn % 3 == 1:
                peer.stream.close()
            else:
                frames_of(peer.stream, 1)
                peer.resets()
            other.granted(numbers)
        self.ends_well(node)

    def test_who_takes_nothing_holds_up_nobody(self):
        node = self.many(lanes=1)
        deaf, other = self.peer(node, 2), self.peer(node, 1)
        data, _ = deaf.frames(2000, operation=Write(bytes(4000)))
        deaf.stream.setsockopt(socket.SOL_SOCKET, socket.SO_RCVBUF, 4096)
        sending = threading.Thread(target=self.sends, args=[deaf.stream, data], daemon=True)
        sending.start()
        for _ in range(100):
            began = time.monotonic()
            other.asks()
            self.assertLess(time.monotonic() - began, 5 * SECOND)
        deaf.stream.shutdown(socket.SHUT_RDWR)
        sending.join(PATIENCE)
        deaf.stream.close()
        other.asks()
        self.ends_well(node)

    def sends(self, stream, data):
        try:
            stream.sendall(data)
        except OSError:
            # It was reset meanwhile.
            pass

    def test_each_frame_that_was_taken_is_answered_at_a_stop(self):
        for number in signal.SIGTERM, signal.SIGINT:
            service, port = self.started_by_the_launcher(clients=100)
            peers = [Peer(self, port, channel) for channel in range(1, CHANNELS)]
            asked = [peer.frames(300) for peer in peers]
            for peer, (data, _) in zip(peers, asked):
                peer.stream.sendall(data)
            firsts = [peer.granted(numbers[:1]) for peer, (_, numbers) in zip(peers, asked)]
            service.send_signal(number)
            count = len(firsts)
            for peer, (_, numbers) in zip(peers, asked):
                came = list(iter(lambda: frames_of(peer.stream, 1)[0], b""))
                replies = [believed(payload, peer.channel, key_of(peer.channel)).number for payload in came]
                self.assertEqual(replies, numbers[1 : 1 + len(replies)])
                count += len(replies)
            self.assert_grants(service, count)

    def test_a_stop_is_seen_while_all_seats_are_taken(self):
        for asks_before in False, True:
            service, port = self.started_by_the_launcher(clients=2)
            seated = [Peer(self, port, channel) for channel in (1, 2)]
            for each in seated:
                each.asks()
            waiting = Peer(self, port, 3)
            if asks_before:
                waiting.stream.sendall(waiting.frames()[0])
            time.sleep(SECOND / 2)
            service.send_signal(signal.SIGTERM)
            for each in [*seated, waiting]:
                each.stream.settimeout(SOON)
                self.assertTrue(each.is_let_go(), asks_before)
            self.assert_grants(service, 2)

    def started_by_the_launcher(self, clients):
        Peer.numbers = {channel: itertools.count(1) for channel in range(1, CHANNELS + 1)}
        words = ["--clients", str(clients), self.file(NODE), ",".join([HERE] * LANES), "-", "serve", "--connections", "1000000"]
        service = self.started([STARTER, PROGRAM, *words], stdin=subprocess.DEVNULL)
        return service, port_of(service.stderr.fileno())[0]

    def assert_grants(self, service, count):
        """The service ends well, and has counted so many grants."""
        self.assertEqual(service.wait(SOON), 0)
        said = service.stdout.read().split()
        self.assertEqual(dict(zip(said[::2], map(int, said[1::2])))[b"grants"], count)
        self.assertEqual(service.stderr.read(), b"")


class Lacks(Many):
    def test_descriptors_that_are_exhausted_come_back(self):
        node = self.many(options=["--tell-refusals"])
        seated = [self.peer(node, channel) for channel in (1, 2)]
        for each in seated:
            each.asks()
        held = len(os.listdir(f"/proc/{node.pid}/fd"))
        resource.prlimit(node.pid, resource.RLIMIT_NOFILE, (held + 1, held + 64))
        peers = [self.peer(node, channel) for channel in (3, 4, 5)]
        asked = [peer.frames() for peer in peers]
        for peer, (data, _) in zip(peers, asked):
            peer.stream.sendall(data)
        # Each is served once the one before it has gone, and those that were there all the time.
        for peer, (_, numbers) in zip(peers, asked):
            peer.granted(numbers)
            for each in seated:
                each.asks()
            peer.stream.close()
        status, notes = self.ends(node)
        self.assertEqual(status, 0)
        self.assertIn(b" scarce ", notes)

    def test_fewer_descriptors_than_clients_are_told(self):
        few = 40

        def limited():
            resource.setrlimit(resource.RLIMIT_NOFILE, (few, few))

        node = self.many(clients=1000, preexec_fn=limited)
        self.assertEqual(len(node.before), 1)
        self.assertRegex(node.before[0], rb"^taosd: \d+ clients at most, since 40 descriptors are allowed\n$")
        count = int(node.before[0].split()[1])
        peers = [self.peer(node, 1 + place % (CHANNELS - 1)) for place in range(count)]
        for each in peers:
            each.asks()
        late = self.peer(node, 1)
        data, numbers = late.frames()
        late.stream.sendall(data)
        peers[0].stream.close()
        late.granted(numbers)
        for each in peers[1:]:
            each.asks()
        late.stream.close()
        self.assertEqual(self.ends(node)[0], 0)


class Late(Many):
    """Lanes are there once the node file is read: here it comes late."""

    def late(self):
        """A node, and what gives it its file."""
        folder = tempfile.TemporaryDirectory()
        self.addCleanup(folder.cleanup)
        path, may_come = os.path.join(folder.name, "node"), threading.Event()
        os.mkfifo(path, 0o600)

        def writes():
            with open(path, "w", encoding="ascii") as file:
                may_come.wait(PATIENCE)
                file.write(NODE)

        threading.Thread(target=writes, daemon=True).start()
        self.addCleanup(may_come.set)
        options = ["--clients", "10", "--tell-addresses", "--stop-at-end"]
        node = self.started([PROGRAM, *options, path, ",".join([HERE] * LANES), "-", "serve", "--connections", "100"])
        node.port, _ = port_of(node.stderr.fileno())
        return node, may_come

    def test_a_lane_that_comes_late_answers_what_waits(self):
        node, may_come = self.late()
        peers = [self.peer(node, channel) for channel in (1, 2, 3)]
        asked = [peer.frames(3) for peer in peers]
        for peer, (data, _) in zip(peers, asked):
            peer.stream.sendall(data)
        self.assertEqual(select.select([peer.stream for peer in peers], [], [], 3 * SECOND)[0], [])
        may_come.set()
        for peer, (_, numbers) in zip(peers, asked):
            peer.granted(numbers)
        self.ends_well(node)

    def test_a_lane_that_comes_too_late_serves_who_comes_then(self):
        node, may_come = self.late()
        peers = [self.peer(node, channel) for channel in (1, 2, 3)]
        for peer in peers:
            peer.stream.sendall(peer.frames(3)[0])
        for peer in peers:
            peer.stream.settimeout(SOON)
            self.assertTrue(peer.is_let_go())
        may_come.set()
        # The lanes take their streams then.
        time.sleep(SECOND)
        for channel in (1, 2, 3):
            self.peer(node, channel).asks(3)
        self.ends_well(node)

    def test_a_lane_whose_stream_ends_comes_back(self):
        """A frame more than a stream may have ends it, and lets its own client go. The others are served by the next stream."""
        node = self.many(lanes=1, more=["--frames", "3"])
        peers = [self.peer(node, channel) for channel in (1, 2, 3, 4)]
        while len(peers) > 1:
            for turn in range(3):
                peers[turn % len(peers)].asks()
            last = peers.pop()
            last.stream.sendall(last.frames()[0])
            self.assertTrue(last.is_let_go())
        peers[0].asks(3)
        self.ends_well(node)

    def test_a_lane_that_waits_for_its_relay_serves_its_clients_later(self):
        with SlowRelay() as address:
            node = self.many(lanes=1, relay=address)
            shown = (sealed(key_of(1), Body(1, Key(CHANNELS), Name(10), 4102444800, 1), ISSUED),)
            first, other = self.peer(node, CHANNELS), self.peer(node, 1)
            other.asks()
            data, numbers = first.frames(certificates=shown)
            first.stream.sendall(data)
            time.sleep(SECOND / 4)
            began = time.monotonic()
            other.asks(3)
            self.assertGreater(time.monotonic() - began, SECOND / 2)
            first.granted(numbers)
            self.ends_well(node)


class Idle(Many):
    def test_silent_clients_cost_a_busy_one_nothing(self):
        silent, count = 100, 1000
        node = self.many(clients=silent + 9)
        quiet = [self.peer(node, 1 + place % 4) for place in range(silent)]
        for each in quiet:
            each.asks()
        used = self.seconds_of(node)
        time.sleep(2 * SECOND)
        # A look at each, four times a second.
        self.assertLess(self.seconds_of(node) - used, 0.2)
        busy = self.peer(node, 5)
        for _ in range(count):
            began = time.monotonic()
            busy.asks()
            self.assertLess(time.monotonic() - began, 2 * SECOND)
        for each in quiet:
            each.asks()
        self.ends_well(node)

    def seconds_of(self, node):
        """The processor's time of a node so far."""
        with open(f"/proc/{node.pid}/stat", encoding="ascii") as file:
            fields = file.read().rsplit(")", 1)[1].split()
        return (int(fields[11]) + int(fields[12])) / os.sysconf("SC_CLK_TCK")

    def test_who_sends_no_frame_is_let_go_and_nobody_else(self):
        node = self.many()
        busy, silent = self.peer(node, 1), [self.peer(node, 2) for _ in range(20)]
        empty = self.peer(node, 3)
        empty.stream.sendall(frame(b""))
        self.assertTrue(is_unsealed(frames_of(empty.stream, 1)[0]))
        began = time.monotonic()
        while time.monotonic() - began < 3 * SECOND:
            busy.asks()
            time.sleep(SECOND / 10)
        for each in silent:
            self.assertTrue(each.is_let_go())
        empty.asks()
        self.ends_well(node)


if __name__ == "__main__":
    unittest.main()
