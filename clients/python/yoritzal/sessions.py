"""Connections that are made anew, and several of them at once."""
import contextlib
import queue
import threading

from .client import Client
from .connection import unmade


class Session:
    """A channel at a node, over one connection at a time. One thread uses it.

    `dial` gives a new Connection, as `lambda: connect(host, port)`, or fails by an OSError. One is made when the first
    request is sent, and after each failure when the next one is. A request is sent once, or not at all where none can be
    made, whatever becomes of it: whether it is to be asked again its caller has to know."""

    def __init__(self, channel, dial):
        self.channel, self.dial, self.client = channel, dial, None

    def __enter__(self):
        return self

    def __exit__(self, *fault):
        self.close()

    def close(self):
        """Ends the connection. The next request makes another one."""
        if self.client:
            client, self.client = self.client, None
            client.connection.close()

    def ask(self, object, operation, certificates=(), quoted=None):
        """Sends one request, and gives its answer. Where no connection can be made, it is not sent, and no number is used."""
        with self._connected() as client:
            return client.ask(object, operation, certificates, quoted)

    def send(self, requests):
        """As Client.send."""
        with self._connected() as client:
            return client.send(requests)

    @contextlib.contextmanager
    def _connected(self):
        """The client, which is let go if it fails."""
        if self.client is None:
            self.client = Client(self.channel, self._dialled())
        try:
            yield self.client
        finally:
            if self.client.failed:
                self.close()

    def _dialled(self):
        try:
            return self.dial()
        except OSError as fault:
            return unmade(f"no connection: {fault}")


class Pool:
    """Sessions for many threads, a channel each: a node takes the requests of one channel in the order of their numbers, so
    two connections of one channel would lose some. The one that was used last is used first."""

    def __init__(self, channels, dial):
        self.sessions = [Session(channel, dial) for channel in channels]
        self.idle, self.mutex = queue.LifoQueue(), threading.Lock()
        for session in self.sessions:
            self.idle.put(session)

    def __enter__(self):
        return self

    def __exit__(self, *fault):
        self.close()

    def close(self):
        """Ends the connections that nobody uses."""
        idle = []
        with contextlib.suppress(queue.Empty):
            while True:
                idle.append(self.idle.get_nowait())
        for session in reversed(idle):
            session.close()
            self.idle.put(session)

    def ask(self, object, operation, certificates=(), quoted=None, seconds=None):
        """Sends one request over a session that is idle, and gives its answer. Where none is for so many seconds, the
        exception is queue.Empty."""
        session = self.idle.get(timeout=seconds)
        try:
            return session.ask(object, operation, certificates, quoted)
        finally:
            self.idle.put(session)
