"""Numbers for the requests of a channel. They rise, and none is used twice: not after silence, not after a restart."""
import contextlib
import fcntl
import os
import threading
import time

LAST = 2**64 - 1


class InUse(OSError):
    """Another process, or another object of this one, has the numbers of the file."""


class FileNumbers:
    """Numbers that a file keeps, from 1. Each is on the disk before it is handed out.

    So many as `block` are kept at once, so that a request seldom waits for the disk. From the first one to `close` no
    other has the file, which is refused by InUse: its requests would overtake these. What is left of a block goes back
    by `close`, or is lost where the program ends without it. With a block of 1 several processes may have one channel;
    each number waits for the disk then."""

    def __init__(self, path, block=1000):
        self.path, self.block, self.mutex = os.path.abspath(path), block, threading.Lock()
        self.next, self.end, self.lock = 1, 1, None

    def __enter__(self):
        return self

    def __exit__(self, *fault):
        self.close()

    def take(self):
        with self.mutex:
            if self.next == self.end:
                self.next, self.end = self._reserve()
            self.next += 1
            return self.next - 1

    def close(self):
        """Gives back what is left of the block, and lets others have the file."""
        with self.mutex:
            if self.lock:
                with self.lock:
                    # Where no block was had, the file's number stands.
                    if self.end > 1:
                        self._keep(self.next - 1)
                self.next, self.end, self.lock = 1, 1, None

    def _reserve(self):
        """The first number of a new block, and the first behind it."""
        with self._alone():
            first = self._last() + 1
            end = min(first + self.block, LAST + 1)
            if first == end:
                raise OverflowError("the channel has no number left")
            self._keep(end - 1)
            return first, end

    def _alone(self):
        """What keeps others from the file: for a single number as long as it is taken, for blocks until `close`."""
        if self.lock:
            return contextlib.nullcontext()
        lock = open(self.path + ".lock", "ab")
        try:
            fcntl.flock(lock, fcntl.LOCK_EX if self.block == 1 else fcntl.LOCK_EX | fcntl.LOCK_NB)
        except OSError as fault:
            lock.close()
            raise InUse(f"{self.path}: its numbers are in use") from fault
        if self.block == 1:
            return lock
        self.lock = lock
        return contextlib.nullcontext()

    def _last(self):
        """The number that the file has. An empty file is none of ours: who lost the number must not start again."""
        try:
            with open(self.path, encoding="ascii") as file:
                return int(file.read())
        except FileNotFoundError:
            return 0

    def _keep(self, number):
        with open(self.path + ".new", "w", encoding="ascii") as file:
            file.write(f"{number}\n")
            file.flush()
            os.fsync(file.fileno())
        os.replace(self.path + ".new", self.path)
        folder = os.open(os.path.dirname(self.path), os.O_RDONLY)
        try:
            os.fsync(folder)
        finally:
            os.close(folder)


class TimeNumbers:
    """The time in microseconds since 1970, for a machine whose clock does not go back, and one process a channel."""

    def __init__(self):
        self.last, self.mutex = 0, threading.Lock()

    def take(self):
        with self.mutex:
            self.last = max(self.last + 1, time.time_ns() // 1000)
            return self.last
