"""Peers that keep no rule: what they send, without any key, and how they leave."""
import array
import fcntl
import itertools
import selectors
import socket
import struct
import termios
import threading
import time

from nodes import HERE, OBJECT, key_of
from yoritzal import Read, Request

# The longest payload of a frame, and the most certificates of a request.
LONGEST, PRESENTED = 65536, 16
WRONG = bytes(32)


def frame(payload):
    return len(payload).to_bytes(4, "big") + payload


def reads(channel, numbers, key=None):
    """Frames of requests to read the object, under the channel's key or another one."""
    return b"".join(frame(Request(channel, each, OBJECT, Read()).payload(key or key_of(channel))) for each in numbers)


def unsealed(channel, size=LONGEST):
    """The frame of a request of so many bytes that can be read, under a wrong tag."""
    empty = len(Request(channel, 1, OBJECT, Read(), [b""] * PRESENTED).payload(WRONG))
    each, more = divmod(size - empty, PRESENTED)
    certificates = [b"\2" * (each + (place < more)) for place in range(PRESENTED)]
    return frame(Request(channel, 1, OBJECT, Read(), certificates).payload(WRONG))


# What a peer may send without any key: 16,385 empty frames are the most that a switch keeps of a client.
SENT = {
    "nothing": b"",
    "a byte": b"\0",
    "an empty frame": bytes(4),
    "65,536 bytes of empty frames": bytes(65536),
    "16,385 empty frames": bytes(65540),
    "16,386 empty frames": bytes(65544),
    "empty frames and a cut one": bytes(65543),
    "40,000 empty frames": bytes(160_000),
    "a wrong tag": reads(1, [1], WRONG),
    "500 wrong tags": reads(2, range(1, 501), WRONG),
    "the longest frame": unsealed(1),
    "four of the longest": unsealed(2) * 4,
    "the longest but a byte": unsealed(1)[:-1],
    "a frame of 65,537": frame(bytes(65537)),
    "a length of 2^32 - 1": b"\xff" * 4096,
    "an unknown channel": frame(b"\3" + (98).to_bytes(4, "big") + bytes(600)) * 20,
}


def dialled(port, received=None, seconds=2):
    """A connection, with little room for what is received where that is said."""
    stream = socket.socket()
    try:
        if received:
            stream.setsockopt(socket.SOL_SOCKET, socket.SO_RCVBUF, received)
        stream.setsockopt(socket.SOL_SOCKET, socket.SO_SNDBUF, 1 << 20)
        stream.settimeout(seconds)
        stream.connect((HERE, port))
    except OSError:
        stream.close()
        raise
    return stream


def is_taken(stream):
    """Whether the other side's system has all that was sent."""
    left = array.array("i", [0])
    fcntl.ioctl(stream, termios.TIOCOUTQ, left)
    return left[0] == 0


def resets(stream):
    stream.setsockopt(socket.SOL_SOCKET, socket.SO_LINGER, struct.pack("ii", 1, 0))
    stream.close()


def resets_once_taken(stream):
    end = time.monotonic() + 0.1
    while not is_taken(stream) and time.monotonic() < end:
        time.sleep(0.0002)
    resets(stream)


def resets_at_a_reply(stream):
    stream.settimeout(0.05)
    try:
        stream.recv(1)
    except TimeoutError:
        pass
    resets(stream)


def closes(stream):
    stream.close()


def half_closes(stream):
    """Says its last, and takes of what comes what there is at once."""
    stream.shutdown(socket.SHUT_WR)
    stream.settimeout(0.05)
    while stream.recv(65536):
        pass


def half_closes_and_resets(stream):
    stream.shutdown(socket.SHUT_WR)
    resets(stream)


def is_over(stream):
    """Whether the other side has ended a connection. Takes nothing of what came."""
    try:
        return stream.recv(1, socket.MSG_PEEK | socket.MSG_DONTWAIT) == b""
    except BlockingIOError:
        return False
    except OSError:
        return True


class Crowd:
    """So many connections, each of one of these pairs of what is sent and how it leaves, in turn. Some threads make them, one after
    the other each, until all were made or the seconds are over."""

    THREADS = 8

    def __init__(self, port, pairs, count, seconds):
        self.port, self.kinds, self.left = port, itertools.cycle(pairs), count
        self.end, self.mutex = time.monotonic() + seconds, threading.Lock()

    def runs(self):
        """How many were not made in time."""
        threads = [threading.Thread(target=self._makes) for _ in range(self.THREADS)]
        for each in threads:
            each.start()
        for each in threads:
            each.join()
        return self.left

    def _makes(self):
        while time.monotonic() < self.end:
            with self.mutex:
                if not self.left:
                    return
                self.left -= 1
                sent, leaves = next(self.kinds)
            self._makes_one(sent, leaves)

    def _makes_one(self, sent, leaves):
        try:
            with dialled(self.port) as stream:
                stream.sendall(sent)
                leaves(stream)
        except OSError:
            # Who is let go before it has sent all has left as well.
            pass


class Flood:
    """Peers that send a piece each again and again, each from its own on, and take what comes, by one thread; who is let go comes
    again."""

    def __init__(self, port, peers, pieces):
        self.port, self.pieces, self.is_over, self.sent = port, itertools.cycle(map(memoryview, pieces)), False, 0
        self.selector = selectors.DefaultSelector()
        for _ in range(peers):
            self._comes()

    def _comes(self):
        stream = dialled(self.port)
        stream.setblocking(False)
        self.selector.register(stream, selectors.EVENT_READ | selectors.EVENT_WRITE, [next(self.pieces), 0])

    def lasts(self, seconds):
        end = time.monotonic() + seconds
        while time.monotonic() < end:
            for key, events in self.selector.select(0.1):
                try:
                    self._turn(key.fileobj, key.data, events)
                except BlockingIOError:
                    pass
                except OSError:
                    self.selector.unregister(key.fileobj)
                    key.fileobj.close()
                    self._comes()
        for key in list(self.selector.get_map().values()):
            key.fileobj.close()

    def _turn(self, stream, data, events):
        if events & selectors.EVENT_READ and not stream.recv(65536):
            raise ConnectionResetError
        if events & selectors.EVENT_WRITE:
            piece, at = data
            count = stream.send(piece[at:])
            data[1] = (at + count) % len(piece)
            self.sent += count
