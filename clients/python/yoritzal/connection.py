"""Frames over a pair of streams: a length in four bytes, and so many bytes of payload."""
import io
import socket
import threading
import time

from .fields import counted
from .replies import MAX_REPLY

PIECE = 65536
NO_FRAME = "what came is no frame of a reply"
# So many seconds who writes has to hear that the connection failed.
LET_GO = 1


class Broken(OSError):
    """The stream ended inside a frame, what came is none, or the connection failed before."""


class Frames:
    """Cuts what comes in pieces of any size into the payloads of frames. No byte is moved again for each piece."""

    def __init__(self):
        self.came = bytearray()

    def take(self, piece):
        """The payloads of the frames that are whole with this piece. Where one is too long, Broken comes behind them."""
        came, at = self.came, 0
        came += piece
        while at + 4 <= len(came):
            end = at + 4 + int.from_bytes(came[at : at + 4], "big")
            if end - at - 4 > MAX_REPLY:
                raise Broken(NO_FRAME)
            if end > len(came):
                break
            yield bytes(came[at + 4 : end])
            at = end
        del came[:at]


class Connection:
    """A connection to a node. `source` is read from and `sink` written to: any two binary file objects, as the pipes of a
    process or a socket's. It can be used in a `with`, and is then closed. Once `failed` says why, it is closed, and what is
    asked of it is refused by Broken."""

    def __init__(self, source, sink):
        self.source, self.sink, self.failed, self.writing = source, sink, "", threading.Lock()

    def __enter__(self):
        return self

    def __exit__(self, *fault):
        self.close()

    def close(self):
        self.failed = self.failed or "it was closed"
        self.sink.close()
        self.source.close()

    def fail(self, why):
        """Closes it, since it ended, or nobody knows any more where the next frame begins. The first reason is kept."""
        self.failed = self.failed or why
        _close(self.source)
        # Who still writes is let go by the end of the source, which is that of a socket as a whole. A pipe may have none.
        if self.writing.acquire(timeout=LET_GO):
            _close(self.sink)
            self.writing.release()

    def deadline(self):
        """The moment by which an answer has to be whole that is awaited from now on, or None for any time."""
        return None

    def send(self, payloads):
        """Writes the payloads as frames. So many replies will come; who sends several has to read meanwhile."""
        waiting = memoryview(b"".join(counted(each, 4) for each in payloads))
        with self.writing:
            self._refuse_failed()
            while waiting:
                waiting = waiting[self.sink.write(waiting) :]
            self.sink.flush()

    def receive(self, by=None):
        """The payload of the next frame, or None where the stream ended before it. The whole of it has to be there by that
        moment of `deadline`, or without one in the connection's time from now."""
        self._refuse_failed()
        try:
            return self._frame()
        except BaseException as fault:
            # A part of the frame may have been taken, also where a signal cut it short.
            self.fail(str(fault) or type(fault).__name__)
            raise

    def _refuse_failed(self):
        if self.failed:
            raise Broken(f"the connection failed before: {self.failed}")

    def _frame(self):
        head = self._read(4)
        if not head:
            return None
        length = int.from_bytes(head, "big")
        if len(head) < 4 or length > MAX_REPLY:
            raise Broken(NO_FRAME)
        payload = self._read(length)
        if len(payload) < length:
            raise Broken("the stream ended inside a frame")
        return payload

    def _read(self, count):
        """So many bytes, or fewer where the stream ends."""
        piece = self.source.read(min(count, PIECE))
        if len(piece) == count:
            return piece
        found = bytearray(piece)
        while piece and len(found) < count:
            piece = self.source.read(min(count - len(found), PIECE))
            found += piece
        return bytes(found)


def _close(stream):
    try:
        stream.close()
    except (OSError, ValueError):
        pass


def unmade(why):
    """What stands for a connection that could not be made: one that failed."""
    connection = Connection(io.BytesIO(), io.BytesIO())
    connection.fail(why)
    return connection


class _Tcp(Connection):
    """A connection over TCP, each of whose answers has a time limit as a whole."""

    def __init__(self, stream, seconds):
        # The sink writes while the source reads, each with time limits of its own: so each has a socket object.
        super().__init__(_TcpSource(stream, seconds), _TcpSink(stream.dup(), seconds))

    def deadline(self):
        return time.monotonic() + self.source.seconds

    def receive(self, by=None):
        self.source.by = self.deadline() if by is None else by
        return super().receive(by)


class _TcpSource:
    """Reads a socket, until the moment `by`."""

    def __init__(self, stream, seconds):
        # Of what came, what stands before `at` was taken.
        self.stream, self.seconds, self.by, self.came, self.at = stream, seconds, 0, b"", 0

    def read(self, count):
        """So many bytes, or fewer where no more are there yet. None are the end."""
        if self.at == len(self.came):
            self.came, self.at = self._wait(), 0
        taken = self.came[self.at : self.at + count]
        self.at += len(taken)
        return taken

    def _wait(self):
        left = self.by - time.monotonic()
        try:
            if left > 0:
                self.stream.settimeout(left)
                return self.stream.recv(PIECE)
        except socket.timeout:
            pass
        raise TimeoutError(f"no whole answer in {self.seconds} seconds")

    def close(self):
        """Closes it for who writes too, so that nobody waits at it any more."""
        try:
            self.stream.shutdown(socket.SHUT_RDWR)
        except OSError:
            pass
        self.stream.close()


class _TcpSink:
    """Writes to a socket. What is written has to go in so many seconds."""

    def __init__(self, stream, seconds):
        self.stream, self.seconds = stream, seconds

    def write(self, data):
        self.stream.settimeout(self.seconds)
        self.stream.sendall(data)
        return len(data)

    def flush(self):
        """Nothing waits here."""

    def close(self):
        self.stream.close()


def connect(host, port, seconds=30):
    """A connection over TCP. Where none is made in so many seconds the exception is an OSError. What is written has to go in
    so many seconds, and each answer has to be there as a whole in so many, however it trickles."""
    stream = socket.create_connection((host, port), seconds)
    stream.setsockopt(socket.IPPROTO_TCP, socket.TCP_NODELAY, 1)
    return _Tcp(stream, seconds)
