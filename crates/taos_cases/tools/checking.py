"""Holds what a case states of a run against the shards of tools/shard.py: each place, each number, and each `kept`;
and what the objects are, and what becomes of operations. What replay says is held against tools/judge.py."""
from conversation import Grant, Times, joined
from formats import DISCARD, FORGET, HOLD, ISSUED, READ, RELAYED, SET_LIST, SWEEP, WITHDRAW, WRITE, key, key_of, quoting, tag, u8, u32, u64
from judge import RIGHTS, Judge, Unknown
from shard import Kept, Shard, lease_of

TAG, FRAME = 32, 4
OPERANDS = {3: 2, 4: 2, 5: 1, 6: 2}
# The most certificates of a request, and the most bytes of one that is looked at.
MOST, LONGEST = 16, 2048
# The statuses of what had no seal that holds.
UNSEALED = {2, 3, 4}
# The statuses of requests that came to their object.
RULED = {0, 1, 5, 7, 10, 12, 13, 14}


class Reader:
    """Bytes, from the front."""

    def __init__(self, text):
        self.text, self.at = bytes(text), 0

    def take(self, count):
        self.at += count
        if self.at > len(self.text):
            raise EOFError
        return self.text[self.at - count : self.at]

    def number(self, size):
        return int.from_bytes(self.take(size), "big")

    def counted(self):
        return self.take(self.number(2))

    def entries(self):
        return [(self.number(1), self.term()) for _ in range(self.number(1))]

    def term(self):
        start, tag = self.at, self.number(1)
        for _ in range(OPERANDS.get(tag, 0)):
            self.term()
        self.take(4 if tag in (1, 2, 5) else 0)
        return self.text[start : self.at]


def frames_of(text):
    """The payloads of whole frames."""
    reader, found = Reader(text), []
    try:
        while reader.at < len(reader.text):
            found.append(reader.take(reader.number(FRAME)))
    except EOFError:
        pass
    return found


class Guarded:
    """An object's content, its list, and how many entries it has."""

    def __init__(self, content, entries):
        self.content, self.list, self.length = content, entries, 0

    def listed(self, operation):
        """The places and principals of the entries with the right."""
        return [(at, who) for at, (rights, who) in enumerate(self.list) if rights & RIGHTS[operation]]

    def rule(self, request, granted):
        self.length += 1
        if granted and request.operation == WRITE:
            self.content = request.fields
        if granted and request.operation == SET_LIST:
            self.list = request.fields


class Node:
    """What an opening says of shards and objects."""

    def __init__(self, text):
        reader = Reader(text)
        self.number, self.key = reader.take(2 + 4)[2:], reader.take(32)
        count, keep, limit = reader.number(4), reader.number(8), reader.number(8)
        self.channels = [(reader.number(4), reader.take(32))[0] for _ in range(reader.number(2))]
        self.anchors = [(reader.number(4), reader.number(4)) for _ in range(reader.number(1))]
        commons = [reader.counted()[1:-TAG] for _ in range(reader.number(1))]
        self.limit = limit
        self.objects = dict(self.object_of(reader) for _ in range(reader.number(2)))
        self.shards = [Shard(keep, limit, commons) for _ in range(count)]

    @staticmethod
    def object_of(reader):
        number, content = reader.number(4), reader.counted()
        return number, Guarded(content, reader.entries())


class Request:
    """What a request asks."""

    def __init__(self, text):
        reader = Reader(text)
        reader.take(1)
        self.channel, self.number = reader.number(4), reader.number(8)
        self.subject = key(self.channel)
        if reader.number(1):
            self.subject = quoting(self.subject, reader.term())
        self.operation, self.target = reader.number(1), reader.number(4)
        self.fields = self.fields_of(reader)
        self.presented = [reader.counted()[1:-TAG] for _ in range(reader.number(1))]

    def fields_of(self, reader):
        """What the operation says: bytes, a list, a digest, a channel or an issuer."""
        if self.operation == WRITE:
            return reader.counted()
        if self.operation == SET_LIST:
            return reader.entries()
        number = {FORGET: lambda: reader.number(4), WITHDRAW: lambda: reader.number(4)}
        return {DISCARD: lambda: reader.take(32), **number}.get(self.operation, tuple)()


class Reply:
    """A reply's status and fields; of a grant what it is by, as far as the case says it."""

    def __init__(self, text):
        reader = Reader(text)
        reader.take(13)
        self.status = reader.number(1)
        self.fields = reader.take(len(reader.text) - reader.at)
        if self.status == 0:
            self.read_grant()

    def read_grant(self):
        reader = Reader(self.fields)
        self.kept, self.entry, self.where = reader.number(1), reader.number(1), reader.take(12)
        if reader.at < len(reader.text):
            self.proof = reader.take(reader.number(4))
            self.cites = [reader.counted() for _ in range(reader.number(1))]
            self.lease, self.result = lease_of(self.cites), reader.counted()

    def place(self):
        return self.where if self.status == 0 else self.fields[:12]


def replies_of(output):
    """What stands in the output, in order."""
    found, text = [], b""
    for part in output:
        if isinstance(part, Grant):
            found += map(Reply, frames_of(text))
            text, reply = b"", Reply(part.front)
            reply.proof, reply.cites = None, part.cites
            reply.lease, reply.result = part.until, part.content
            found.append(reply)
        else:
            text += bytes(part)
    return found + list(map(Reply, frames_of(text)))


class Run:
    """The node of a case and its clock, while the case's requests come in."""

    def __init__(self, case):
        self.node = Node(joined(case.lines["file"]))
        self.readings = list(case.lines.get("clock", [0]))
        self.pulls = "--pull" in case.lines.get("words", [])
        self.given = [bytes(each) for each in case.lines.get("fetched", [])]
        self.issuers = [number for number, _ in case.lines.get("relay-issuer", [])]
        self.is_resealed = "relay-says" in case.lines

    def reading(self):
        """The next one; the last stays."""
        return self.readings.pop(0) if len(self.readings) > 1 else self.readings[0]

    def opens(self, text):
        """The body that a certificate opens to, if it opens to one."""
        kind, body, seal = text[:1], text[1:-TAG], text[-TAG:]
        if kind == u8(RELAYED) and seal == tag(self.node.key, text[:-TAG]):
            return body
        issuer = int.from_bytes(body[1:5], "big")
        known = issuer in self.issuers or self.is_resealed and issuer <= 0xFF
        if kind == u8(ISSUED) and len(text) <= LONGEST and known:
            return body if seal == tag(key_of(issuer), text[:-TAG]) else None
        return None

    def pull(self, request, reply):
        """Adds to what is presented what the wallet's next answer gives and opens."""
        if not self.pulls or reply.status in UNSEALED or not self.given:
            return
        reader = Reader(self.given.pop(0))
        try:
            texts = [reader.counted() for _ in range(reader.number(2) & 0xFF)]
        except EOFError:
            return
        shown = texts[: MOST - len(request.presented)]
        request.presented += [body for body in map(self.opens, shown) if body is not None]

    def take(self, request, reply):
        """What the reply should have said, where it says another thing."""
        if reply.status not in RULED:
            return None
        number, reading = request.channel % len(self.node.shards), self.reading()
        found, shard = self.node.objects[request.target], self.node.shards[number]
        if found.length >= self.node.limit:
            return differs(reply, 10, u8(0) + u32(request.target) + u64(found.length))
        if shard.is_full():
            return differs(reply, 10, u8(1) + u32(number) + u64(shard.length))
        place, entries = shard.length, found.listed(request.operation)
        told, what = shard.ask(request.channel, request.number, reading, request.presented, request.subject, entries)
        if told == "replayed":
            return differs(reply, 5, u64(what))
        if told == "full":
            return differs(reply, 7, u8(what))
        wrong = differs_in_place(reply, number, place)
        wrong = wrong or (hit_fault(reply, *what) if told == "hit" else self.settle(shard, request, reply))
        return wrong or self.rule(found, request, reply, reading)

    def settle(self, shard, request, reply):
        """What comes of a miss, and whether the reply says so."""
        if reply.status == 0 and reply.kept:
            return "nothing is kept for it"
        if reply.status != 1 and not shard.is_full():
            shard.keep_proof(request.channel, self.proof_of(request, reply))
        return None

    def proof_of(self, request, reply):
        """The proof of a grant. One that the reply does not tell is taken to be for the entry of who asks, or else for
        the first, and to cite nothing."""
        found = self.node.objects[request.target]
        if reply.status == 0:
            return Kept(request.subject, found.list[reply.entry][1], reply.lease, reply.cites, reply.proof)
        listed = [who for _, who in found.listed(request.operation)]
        who = request.subject if request.subject in listed else listed[0]
        return Kept(request.subject, who, lease_of([]), [])

    def rule(self, found, request, reply, reading):
        """What the object and the shards make of the ruling, and whether the reply says so."""
        content = found.content if request.operation == READ else b""
        found.rule(request, reply.status != 1)
        if reply.status == 1:
            return None
        stopped = self.perform(request, reading)
        if stopped:
            return differs(reply, *stopped)
        if reply.status != 0:
            return "it is granted, and performed"
        return None if reply.result == content else f"its result is {content.hex()}"

    def perform(self, request, reading):
        """The status and fields of what stops the operation in the shards, if anything does."""
        steps = {
            HOLD: lambda shard: shard.hold(request.presented),
            DISCARD: lambda shard: shard.discard(request.fields),
            FORGET: lambda shard: shard.forget(request.fields),
            SWEEP: lambda shard: shard.expire(reading),
            WITHDRAW: lambda shard: shard.withdraw(request.fields),
        }
        if request.operation not in steps:
            return None
        numbers, removed = range(len(self.node.shards)), 0
        for number in [request.fields % len(numbers)] if request.operation == FORGET else numbers:
            shard = self.node.shards[number]
            if shard.is_full():
                return 10, u8(1) + u32(number) + u64(shard.length)
            told, count = steps[request.operation](shard)
            if told == "commons full":
                return 12, u8(count) + u32(number)
            if told == "withdrawn full":
                return 14, u8(count) + u32(number)
            removed += count
        return (13, request.fields) if request.operation == DISCARD and not removed else None


def differs(reply, status, fields):
    if (reply.status, reply.fields[: len(fields)]) != (status, fields):
        return f"it is to be status {status} with {fields.hex()}"
    return None


def differs_in_place(reply, number, place):
    if reply.status not in (0, 1, 10, 12, 13, 14):
        return "it is to be ruled on"
    if reply.status > 1:
        return None
    wanted = u32(number) + u64(place)
    return None if reply.place() == wanted else f"it is at shard {number}, place {place}"


def hit_fault(reply, entry, found):
    if reply.status == 1 or reply.status == 0 and (not reply.kept or reply.entry != entry):
        return f"it is granted by the proof that is kept for entry {entry}"
    if reply.status != 0:
        return None
    if None not in (reply.proof, found.proof) and (reply.proof, reply.cites) != (found.proof, found.cites):
        return "its proof is the one that is kept"
    return None


def replay_fault(case):
    """What a case says of journals otherwise than the judge of tools/judge.py, if anything."""
    try:
        said = Judge(Node(joined(case.lines["file"]))).said(joined(case.lines.get("input", [])))
    except Unknown:
        return None
    return None if joined(case.lines["output"]) == f"{said}\n".encode("ascii") else f"{case.title}: it is {said}"


def fault(case):
    """What a case states otherwise than the shards have it, if anything."""
    output = case.lines.get("output", [])
    if case.lines.get("words", [])[:1] == ["replay"] and case.lines["status"] in (0, 14):
        return replay_fault(case)
    if case.lines.get("words", [])[:1] != ["run"] or not output or any(isinstance(part, Times) for part in output):
        return None
    # A file that does not begin with 0 is a text, of which Node knows nothing.
    if joined(case.lines["file"])[:1] != b"\0":
        return None
    run = Run(case)
    for place, (asked, reply) in enumerate(zip(frames_of(joined(case.lines["input"])), replies_of(output))):
        wrong = None
        if reply.status not in UNSEALED:
            request = Request(asked)
            run.pull(request, reply)
            wrong = run.take(request, reply) if reply.status in RULED else None
        if wrong:
            return f"{case.title}: reply {place}: {wrong}"
    return None
