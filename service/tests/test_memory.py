"""Memory of `--clients`: what a flood without a key may take, that it is given back, and seats where memory is refused."""
import multiprocessing
import resource
import time

import peers
from nodes import A_CLIENT, A_LANE, BESIDE, KEPT, MIB, Case, channels, is_granted, waits_for

SECONDS, PEERS = 3, 16
FLOODS = {
    "the longest frames": [peers.unsealed(channel) * 30 for channel in (1, 2)],
    "frames of many sizes": [peers.unsealed(channel, size) * (2 * MIB // size) for channel in (1, 2) for size in (65536, 40000, 9000, 900)],
    "frames of no channel": [peers.frame(b"\3" + bytes(3) + bytes([98 + lane]) + bytes(65531)) * 30 for lane in (0, 1)],
    "empty frames": [bytes(160_000)],
}


def floods(port, pieces, sent):
    """Floods a port for some seconds, in a process of its own."""
    flood = peers.Flood(port, PEERS, pieces)
    flood.lasts(SECONDS)
    sent.value = flood.sent


class Lane(Case):
    def test_a_flood_takes_no_more_than_the_account(self):
        for name, pieces in FLOODS.items():
            for lanes in 1, 2:
                with self.subTest(name, lanes=lanes):
                    self.floods(lanes, pieces)

    def floods(self, lanes, pieces):
        node = self.serving(lanes=lanes, options=["--clients", "100", "--tell-refusals"])
        channel = channels()[0]
        self.assert_is_ready(node, channel)
        client = node.client(channel)
        self.assertTrue(is_granted(client, 100))
        before, sent = node.memory(), multiprocessing.Value("Q")
        flood = multiprocessing.Process(target=floods, args=(node.port, pieces, sent))
        flood.start()
        flood.join()
        taken = node.memory("VmHWM") - before
        # Else it was no flood.
        self.assertGreater(sent.value, 10 * MIB)
        self.assertTrue(is_granted(client, 100))
        client.connection.close()
        if node.is_checked():
            self.skipTest("the memory of a checked program is not that of the built one")
        waits_for(lambda: node.memory() - before < KEPT, 5)
        kept = node.memory() - before
        node.asked_to_stop()
        self.assertIsNotNone(node.seconds_to_end())
        self.assertLess(taken, lanes * A_LANE + PEERS * A_CLIENT + BESIDE, "bytes at most")
        self.assertLess(kept, KEPT, "bytes that are kept")


class Refused(Case):
    """Memory that the system refuses for a moment."""

    SEATS = 50
    # The least of these that it begins in: then all of its threads have one heap.
    ROOMS = [each * MIB for each in (16, 24, 40, 64, 96, 128, 160, 256)]

    def begun(self):
        """A node with little room for more addresses."""
        options = ["--clients", str(self.SEATS), "--tell-refusals"]
        for self.room in self.ROOMS:
            node = self.serving(options=options, may_fail=True, preexec_fn=lambda: self.limits(0, self.room))
            if node.port is not None and self.serves(node):
                return node
        self.skipTest("it begins in no such room")

    def serves(self, node):
        """Whether it serves with the memory that it has: it may listen, and then end."""
        try:
            client = node.client(channels()[0])
        except OSError:
            return False
        with client.connection:
            return is_granted(client, 10)

    def limits(self, process, room):
        resource.prlimit(process, resource.RLIMIT_AS, (room, resource.RLIM_INFINITY))

    def test_seats_come_back_once_memory_does(self):
        if self.serving().is_checked():
            self.skipTest("a checked program has addresses without end")
        node = self.begun()
        time.sleep(0.5)
        descriptors = node.descriptors()
        for _ in range(20):
            self.limits(node.pid, node.memory("VmSize"))
            self.floods(node)
            self.limits(node.pid, self.room)
        waits_for(lambda: node.descriptors() <= descriptors, 20)
        self.assertTrue(node.is_there(), node.told[-3:])
        self.assertEqual(node.descriptors() - descriptors, 0, "descriptors that are held")
        if not any("cause given-up" in line or "turned-away" in line or "status 11" in line for line in node.told):
            self.skipTest("no memory was refused")
        self.assert_stops(node, self.honest(node, channels()[0]))

    def floods(self, node):
        """Each seat's peer sends all that is kept of it; then they go."""
        streams = [peers.dialled(node.port) for _ in range(self.SEATS)]
        for each in streams:
            try:
                each.sendall(peers.unsealed(1))
            except OSError:
                pass
        time.sleep(0.1)
        for each in streams:
            peers.resets(each)
