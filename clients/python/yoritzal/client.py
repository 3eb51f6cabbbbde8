"""Asking a node, by the rules for clients: what is believed, which numbers are used, and what is not known."""
import collections
import enum
import threading
from dataclasses import dataclass, field, replace

from .fields import counted
from .replies import CommonsFull, Denied, Granted, JournalFull, NotHeld, OutOfMemory, Replayed, Unbelieved, WithdrawnFull, believed
from .requests import MANAGE, Request
from .tags import KEY_BYTES

# A channel remembers so many requests that are not settled, unless it is told otherwise.
MOST_UNSETTLED = 1000


class Fate(enum.Enum):
    """What became of a request, as far as its answer tells. One that was not sent can't be done later either."""

    DONE = "done"
    NOT_DONE = "not done"
    IN_PART = "granted, and done in part"
    NOT_SENT = "not sent"
    UNKNOWN = "not known"


@dataclass(frozen=True)
class Answer:
    """A request with the sealed reply to it. Where none came `reply` is None, and `why` says what came instead. `sent` and
    `came` are the payloads of both, as they went over the connection. Where no byte was sent `sent` is empty, and a request
    that was made for the sending alone has no number, but 0."""

    request: Request
    reply: object = None
    why: str = ""
    sent: bytes = field(default=b"", repr=False, compare=False)
    came: bytes = field(default=b"", repr=False, compare=False)

    @property
    def pair(self):
        """The request and its reply as two frames: the input of the program's `check`."""
        if self.reply is None:
            raise NotGranted(self)
        return counted(self.sent, 4) + counted(self.came, 4)

    @property
    def fate(self):
        """A status 5 or 11 says no more than silence: by another frame of the same bytes it may have been granted. And what
        is not done may still be, if its frame comes again, until a later request is granted or denied."""
        reply = self.reply
        if not self.sent:
            return Fate.NOT_SENT
        if reply is None or isinstance(reply, (Replayed, OutOfMemory)):
            return Fate.UNKNOWN
        if isinstance(reply, Granted):
            return Fate.DONE
        in_shards = isinstance(reply, JournalFull) and reply.which == 1 and self.request.operation.right == MANAGE
        return Fate.IN_PART if in_shards or isinstance(reply, (CommonsFull, NotHeld, WithdrawnFull)) else Fate.NOT_DONE

    @property
    def result(self):
        """What a granted request gives. Any other is refused by NotGranted."""
        if not isinstance(self.reply, Granted):
            raise NotGranted(self)
        return self.reply.result


class NotGranted(Exception):
    """There is no grant."""

    def __init__(self, answer):
        super().__init__(f"request {answer.request.number}: {answer.reply or answer.why}")
        self.answer = answer


class Channel:
    """A client's key at a node, with its number and the numbers for its requests (FileNumbers or TimeNumbers). Of requests
    that are not settled it remembers the last `most_unsettled`, one or more; `forgotten` is the last number of those before,
    or 0 where there are none."""

    def __init__(self, number, key, numbers, most_unsettled=MOST_UNSETTLED):
        self.number, self.key, self.numbers = number, bytes(key), numbers
        if len(self.key) != KEY_BYTES:
            raise ValueError(f"a key of {len(self.key)} bytes")
        if most_unsettled < 1:
            raise ValueError(f"a channel that remembers {most_unsettled} requests")
        # Requests that are not settled, in the order of their numbers.
        self.mutex, self.most_unsettled, self.unsettled, self.forgotten = threading.Lock(), most_unsettled, collections.deque(), 0

    def __repr__(self):
        return f"Channel({self.number})"

    def request(self, object, operation, certificates=(), quoted=None):
        """A request with a new number. What has no spelling is refused by ValueError, and then no number is used."""
        request = self.unnumbered(object, operation, certificates, quoted)
        with self.mutex:
            request = request.numbered(self.numbers.take())
            self.unsettled.append(request)
            if len(self.unsettled) > self.most_unsettled:
                self.forgotten = self.unsettled.popleft().number
        return request

    def unnumbered(self, object, operation, certificates=(), quoted=None):
        """The same under the number 0, which no node takes."""
        request = Request(self.number, 0, object, operation, tuple(certificates), quoted)
        request.spell()
        return request

    def may_still_come(self):
        """The requests whose frames would still be ruled on if they came now, oldest first, as far as this channel knows.
        Where one is `forgotten`, it and those before it may come too."""
        with self.mutex:
            return list(self.unsettled)

    def settle(self, reply):
        """Once a request is granted or denied, no lower number is."""
        if isinstance(reply, (Granted, Denied)):
            with self.mutex:
                while self.unsettled and self.unsettled[0].number <= reply.number:
                    self.unsettled.popleft()
                if self.forgotten <= reply.number:
                    self.forgotten = 0

    def not_sent(self, request, why):
        """The answer to a request of which no byte was sent: it can't come."""
        with self.mutex:
            if request.number and request in self.unsettled:
                self.unsettled.remove(request)
        return Answer(request, why=f"not sent: {why}")


class Client:
    """A channel over a connection. One thread uses it. Once the connection `failed` it is closed, and what is asked over it is
    not sent. Of answers that come late the last are kept, as many as the channel remembers requests."""

    def __init__(self, channel, connection):
        self.channel, self.connection = channel, connection
        self.waiting, self.late = collections.OrderedDict(), []

    @property
    def failed(self):
        return bool(self.connection.failed)

    def ask(self, object, operation, certificates=(), quoted=None):
        """Sends one request, and gives its answer."""
        if self.failed:
            return self.channel.not_sent(self.channel.unnumbered(object, operation, certificates, quoted), self.connection.failed)
        return self.send([self.channel.request(object, operation, certificates, quoted)])[0]

    def send(self, requests):
        """Sends requests of the channel, all before the first reply is awaited, and gives their answers in their order.
        A reply that comes to an earlier request, whose answer was given up, is added to `late`."""
        if self.failed:
            return [self.channel.not_sent(each, self.connection.failed) for each in requests]
        asked = [Answer(each, sent=each.payload(self.channel.key)) for each in requests]
        self.waiting.update({each.request.number: each for each in asked})
        by = self.connection.deadline()
        try:
            writer = _Writer(self.connection, [each.sent for each in asked])
            answers, why = self._answers({each.request.number for each in asked}, by)
        except BaseException as fault:
            self.connection.fail(f"it was cut short by {type(fault).__name__}")
            raise
        if writer.end():
            self.connection.fail(writer.fault)
        forget(self.waiting, len(self.waiting) - (0 if self.failed else self.channel.most_unsettled))
        return [answers.get(each.request.number) or replace(each, why=self.connection.failed or why) for each in asked]

    def _answers(self, numbers, by):
        """Answers by number, and what came in place of those that are not there. A node answers each frame by one: so many
        are read, and more only where one answers an earlier request, which gives the one that is awaited no more time."""
        answers, why, left = {}, "", len(numbers)
        while left:
            try:
                answer = self._next(by)
            except Unbelieved as told:
                why = told.why
                if not told.told:
                    self.connection.fail(why)
                    break
                left, by = left - 1, self.connection.deadline()
                continue
            except OSError:
                break
            if answer is None:
                why = why or "the connection ended"
                self.connection.fail(why)
                break
            if answer.request.number in numbers:
                answers[answer.request.number], left, by = answer, left - 1, self.connection.deadline()
            else:
                keep_late(self.late, answer, self.channel.most_unsettled)
        return answers, why

    def _next(self, by):
        """The next answer that is believed, or None at the end. Any other payload is refused by Unbelieved."""
        payload = self.connection.receive(by)
        return payload if payload is None else taken(self.channel, self.waiting, payload)


def taken(channel, waiting, payload):
    """The answer that a payload is: its request waits for it no longer. What answers none of those that wait, by their
    numbers, is refused by Unbelieved."""
    reply = believed(payload, channel.number, channel.key)
    asked = waiting.pop(reply.number, None)
    if asked is None:
        raise Unbelieved(f"a reply to number {reply.number}, for which nothing waits")
    channel.settle(reply)
    return Answer(asked.request, reply, "", asked.sent, payload)


def forget(waiting, count):
    """So many that waited longest wait no more."""
    for _ in range(count):
        waiting.popitem(last=False)


def keep_late(late, answer, most):
    """One more behind those that came late, of which so many are kept."""
    late.append(answer)
    del late[:-most]


class _Writer:
    """Writes frames while their replies are read: else a node that stands at a full stream of replies, and a client at a
    full stream of requests, would wait for each other."""

    def __init__(self, connection, payloads):
        self.connection, self.payloads, self.fault, self.thread = connection, payloads, "", None
        if len(payloads) > 1:
            self.thread = threading.Thread(target=self._write, daemon=True)
            self.thread.start()
        else:
            self._write()

    def _write(self):
        try:
            self.connection.send(self.payloads)
        except (OSError, ValueError) as fault:
            self.fault = str(fault)

    def end(self):
        """What failed, if anything did."""
        if self.thread:
            self.thread.join()
        return self.fault
