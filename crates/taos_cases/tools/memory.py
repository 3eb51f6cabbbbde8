#!/usr/bin/env python3
"""Refuses the built program one allocation after the other, and holds what it answers against what may come of that.

    memory.py PROGRAM [NAME..]

Each conversation of TALKS, or each of these names, is played for n = 1, 2, .. : its n-th allocation alone is refused, by tools/memory.c,
which `cc` compiles and which is preloaded, until it ends without having come to one. docs/COURSE.md says what may come of it. The states
that the node may be in are carried as a set: a request that is answered by 11 may have left all as it was; if the 11 is sealed and the
request would be granted, its Ask may stand in the journal, or its Ask and the kept proof. Each later reply has to be that of a state of
the set, and what it excludes is dropped. The program may end with 6 where it has answered nothing. The last line counts; ends with 1
where something else was seen, or nothing was refused.
"""
import concurrent.futures
import contextlib
import copy
import importlib
import itertools
import os
import selectors
import socket
import subprocess
import sys
import tempfile
import time

from cases.nodes import ALICE, ANCHORS, ask, handing, issued, node, relayed
from checking import RULED, Node, Reply, Request, Run
from conversation import joined
from formats import DISCARD, HOLD, SET_LIST, WRITE, digest, frame, key, key_of, list_of, name, request, u8, u16
from relay import Relay
from shard import Kept, lease_of

HERE = os.path.dirname(os.path.abspath(__file__))
sys.path.insert(0, os.path.join(HERE, "..", "..", "..", "clients", "python"))

import yoritzal  # noqa: E402
from yoritzal import fields as client_fields, terms  # noqa: E402

# `try` is a word of the language.
compiled = importlib.import_module("try").compiled

NO_MEMORY, RELAY_FAILED, ENDED = 11, 8, 6
NOTE = b"taos: no memory\n"
LISTENS = b"taosd: listening on "
WORKERS, LIMIT, SECONDS, BATCH = 4, 60, 10, 32
# The end of each certificate, long after any reading of the system's clock: the year 2100.
UNTIL = 4_102_444_800
OPENS = relayed(handing(until=UNTIL))
ISSUED = issued(1, handing(until=UNTIL))


class Talk:
    """A node file, and requests in turn, each on one of the connections; whether a relay reseals."""

    def __init__(self, file, asked, has_relay=False, lanes=0):
        self.file, self.has_relay, self.lanes = joined(file), has_relay, lanes
        # On which connection, and the frame.
        self.asked = [each if isinstance(each, tuple) else (0, each) for each in asked]


def doing(number, operation, *fields, channel=1, certificates=()):
    """The frame of a request for an operation."""
    return frame(request(channel, number, operation, fields=fields, certificates=certificates))


def entries(*pairs):
    return list_of(list(pairs))


FOR_TWO = [(15, ALICE), (3, key(2))]
BY_LANES = [(0, ask(1, 1)), (1, ask(2, 1, OPENS)), (0, doing(2, HOLD, certificates=[OPENS])), (1, ask(2, 2)), (0, ask(1, 3)),
            (1, ask(2, 3, OPENS)), (0, doing(4, DISCARD, digest(handing(until=UNTIL)))), (1, ask(2, 4)), (0, ask(1, 5))]
TALKS = {
    "three": Talk(node(), [ask(1, 1), ask(2, 1, ISSUED), ask(2, 2, ISSUED), ask(1, 2)], has_relay=True),
    "keep": Talk(node(), [ask(1, 1), ask(1, 2), ask(2, 1, OPENS), ask(2, 2), ask(1, 3)]),
    "hold": Talk(node(shards=2), [doing(1, HOLD, certificates=[OPENS]), ask(2, 1), ask(1, 2), ask(2, 2), ask(1, 3)]),
    "discard": Talk(node(shards=2), [ask(2, 1, OPENS), doing(1, DISCARD, digest(handing(until=UNTIL))), ask(2, 2),
                                     doing(2, DISCARD, digest(handing(until=UNTIL))), ask(1, 3)]),
    "list": Talk(node(FOR_TWO), [doing(1, SET_LIST, entries((15, key(2)))), ask(1, 2), ask(2, 1),
                                 doing(2, SET_LIST, entries((1, ALICE)), channel=2), ask(1, 3), ask(2, 3)]),
    "write": Talk(node(FOR_TWO), [doing(1, WRITE, u16(5), b"other"), ask(1, 2), ask(2, 1)]),
    "lanes": Talk(node(shards=2), BY_LANES, lanes=2),
}


class Difference(Exception):
    """What was seen, and may not come."""


# States of a node.


def cites_of(subject, who, held):
    """Bodies by which the subject speaks for a principal, of keys that hand themselves or their names over; None where it does not."""
    if subject == who or any((subject, who) == (key(number), name(text)) for number, text in ANCHORS):
        return []
    for at, text in enumerate(held):
        issuer, left, right = b"\x01" + text[1:5], text[6:11], text[11:16]
        others = held[:at] + held[at + 1 :]
        if left == subject:
            parts = [cites_of(issuer, right, others), cites_of(right, who, others)]
            if None not in parts:
                return [text, *parts[0], *parts[1]]
    return None


class World(Run):
    """A state that the node may be in. It knows what its requests derive."""

    def __init__(self, file):
        self.node, self.readings, self.grants, self.denials = Node(file), [int(time.time())], 0, 0

    def shard_of(self, channel):
        return self.node.shards[channel % len(self.node.shards)]

    def verdict(self, shard, request):
        """The first entry that is derivable, its principal and what it cites."""
        held = shard.own.get(request.channel, []) + shard.commons
        for entry, who in self.node.objects[request.target].listed(request.operation):
            cites = cites_of(request.subject, who, held)
            if cites is not None:
                return entry, who, cites
        return None

    def settle(self, shard, request, reply):
        found = self.verdict(shard, request)
        if (found is None) != (reply.status == 1):
            return "it is granted" if found else "it is denied"
        if found is None:
            return self.link_fault(request, reply)
        if reply.status == 0 and reply.entry != found[0]:
            return f"it is granted by entry {found[0]}"
        self.found = found
        return super().settle(shard, request, reply)

    def link_fault(self, request, reply):
        """All entries are keys or names, of which the first is what is missing."""
        listed = self.node.objects[request.target].listed(request.operation)
        link = u8(2) + u8(listed[0][0]) + listed[0][1] if listed else u8(3)
        return None if reply.fields[12 : 12 + len(link)] == link else f"its link is {link.hex()}"

    def proof_of(self, request, reply):
        _, who, cites = self.found
        if reply.status == 0:
            return Kept(request.subject, who, reply.lease, reply.cites, reply.proof)
        return Kept(request.subject, who, lease_of(cites), cites)

    def rule(self, found, request, reply, reading):
        listed = list(found.list)
        self.grants, self.denials = self.grants + (reply.status != 1), self.denials + (reply.status == 1)
        wrong = super().rule(found, request, reply, reading)
        return wrong or (proof_fault(request, reply, listed[reply.entry][1]) if reply.status == 0 else None)

    def after(self, request, reply):
        """The states in which the reply may leave this one; none where it can't come."""
        if reply.status == NO_MEMORY:
            return [self] + (self.in_place_of_a_grant(request) if reply.is_sealed else [])
        if reply.status == RELAY_FAILED and request.asks_relay:
            # The system's look-up of the relay's address takes memory too: a call that failed.
            return [self]
        world = copy.deepcopy(self)
        wrong = world.take(request, reply) if reply.status in RULED else f"status {reply.status}"
        self.wrong = wrong
        return [] if wrong else [world]

    def in_place_of_a_grant(self, request):
        """The request stands in the journal, with its proof or without, and nothing of it is performed."""
        world = copy.deepcopy(self)
        shard, listed = world.shard_of(request.channel), world.node.objects[request.target].listed(request.operation)
        told, _ = shard.ask(request.channel, request.number, world.reading(), request.presented, request.subject, listed)
        found = world.verdict(shard, request) if told == "miss" else None
        if found is None:
            return [world] if told == "hit" else []
        more = copy.deepcopy(world)
        more.shard_of(request.channel).keep_proof(request.channel, Kept(request.subject, found[1], lease_of(found[2]), found[2]))
        return [world, more]

    def counted(self):
        """What the line of `serve` counts of the journals."""
        return sum(shard.length for shard in self.node.shards), self.grants, self.denials


def proof_fault(request, reply, who):
    """What is wrong with a grant's proof, if anything is. The client looks at it, which shares nothing with the shards here."""
    try:
        proof, bodies = yoritzal.read_proof(reply.proof), [yoritzal.read_body(each) for each in reply.cites]
        proof.follows(ANCHORS, bodies)
        right = proof.concludes(term_of(request.subject), term_of(who))
    except (yoritzal.ProofFault, yoritzal.Malformed) as fault:
        return f"its proof: {fault}"
    return None if right else "its proof is of something else"


def term_of(text):
    return terms.read_term(client_fields.Reader(text), terms.ENTRY_NODES)


class Asked:
    """The set of states while requests are answered, and how many were answered by 11."""

    def __init__(self, file):
        self.worlds, self.replies, self.refusals, self.link_failed = [World(file)], 0, 0, False

    def take(self, text, payload):
        """One request and its reply."""
        asked, reply = Request(bytes(text)[4:]), believed(bytes(text), payload)
        asked.asks_relay = bytes(ISSUED) in bytes(text)
        # For a second after a call that failed each call fails at once.
        self.refusals += reply.status == NO_MEMORY or (reply.status == RELAY_FAILED and not self.link_failed)
        self.link_failed = self.link_failed or asked.asks_relay and reply.status in (NO_MEMORY, RELAY_FAILED)
        after = [each for world in self.worlds for each in world.after(asked, reply)]
        if not after:
            raise Difference(f"reply {self.replies} is {payload.hex()}: {self.worlds[0].wrong}")
        self.worlds, self.replies = after, self.replies + 1


def believed(text, payload):
    """The reply, under the channel's key and to this number, or without a seal where it says 11."""
    asked = Request(text[4:])
    reply = Reply(payload)
    reply.is_sealed = not yoritzal.is_unsealed(payload)
    if not reply.is_sealed:
        if reply.status != NO_MEMORY:
            raise Difference(f"an unsealed reply {payload.hex()}")
        return reply
    try:
        known = yoritzal.believed(payload, asked.channel, key_of(asked.channel))
    except yoritzal.Unbelieved as fault:
        raise Difference(f"{fault}: {payload.hex()}") from fault
    if known.number != asked.number:
        raise Difference(f"a reply to number {known.number}, not {asked.number}")
    return reply


# Runs of the program.


class Program:
    """The built program and the library that is preloaded."""

    def __init__(self, path, library, folder):
        self.path, self.library, self.folder = os.path.abspath(path), library, folder
        self.numbers = itertools.count()

    def place(self, kind):
        return os.path.join(self.folder, f"{kind}-{next(self.numbers)}")

    def env(self, count, mark):
        return dict(os.environ, LD_PRELOAD=self.library, REFUSED_ALLOCATION=str(count), REFUSED_MARK=mark)


def relay_of(talk):
    return Relay({7: key_of(7)}, {1: key_of(1)}) if talk.has_relay else contextlib.nullcontext("-")


def payloads_of(output):
    """The payloads of whole frames, and nothing else."""
    at, found = 0, []
    while at < len(output):
        end = at + 4 + int.from_bytes(output[at : at + 4], "big")
        if end > len(output):
            raise Difference(f"output ends inside a frame: {output[at:].hex()}")
        found.append(output[at + 4 : end])
        at = end
    return found


def run_once(program, talk, path, relay, env):
    """By `run`: all requests on the standard input. The answers, as a set of states."""
    done = subprocess.run([program.path, path, "-", relay, "run"], input=joined([each for _, each in talk.asked]),
                          capture_output=True, env=env, timeout=LIMIT, check=False)
    asked, payloads = Asked(talk.file), payloads_of(done.stdout)
    if done.returncode == ENDED and not payloads and done.stderr.endswith(NOTE):
        asked.refusals = 1
        return asked
    if done.returncode or len(payloads) != len(talk.asked):
        raise Difference(f"status {done.returncode}, {len(payloads)} replies, {done.stderr.decode(errors='replace').strip()}")
    for (_, text), payload in zip(talk.asked, payloads):
        asked.take(text, payload)
    return asked


class Lanes:
    """A node that serves two lanes of one address, and a connection of each."""

    def __init__(self, program, talk, path, relay, env):
        address = ",".join(["127.0.0.1:0"] * talk.lanes)
        words = ["--tell-addresses", "--stop-at-end", path, address, relay, "serve", "--connections", "1000"]
        self.run = subprocess.Popen([program.path, *words], stdin=subprocess.PIPE, stdout=subprocess.PIPE, stderr=subprocess.PIPE,
                                    env=env, bufsize=0)
        self.talk, self.streams, self.lost, self.ended, self.told = talk, {}, 0, 0, b""

    def __enter__(self):
        return self

    def __exit__(self, *_):
        for each in self.streams.values():
            each.close()
        self.run.kill()
        self.run.wait()
        for pipe in (self.run.stdin, self.run.stdout, self.run.stderr):
            pipe.close()

    def address(self):
        """Where it listens; None where it ends before."""
        end = time.monotonic() + SECONDS
        with selectors.DefaultSelector() as waits:
            waits.register(self.run.stderr, selectors.EVENT_READ)
            while time.monotonic() < end:
                if not waits.select(0.1):
                    continue
                piece = os.read(self.run.stderr.fileno(), 4096)
                self.told += piece
                lines = [line for line in self.told.split(b"\n")[:-1] if line.startswith(LISTENS)]
                if lines:
                    host, _, port = lines[0][len(LISTENS) :].decode().rpartition(":")
                    return host, int(port)
                if not piece:
                    return None
        raise Difference("it neither listens nor ends")

    def exchange(self, where, number, text):
        """The reply's payload; None where the program has ended. A connection that is closed before its first reply is made anew."""
        for _ in range(4):
            try:
                is_new = number not in self.streams
                if is_new:
                    self.streams[number] = socket.create_connection(where, SECONDS)
                self.streams[number].sendall(bytes(text))
                payload = self.reply(number)
            except ConnectionError:
                payload = None
            except TimeoutError as late:
                raise Difference("a request is not answered") from late
            if payload is not None:
                return payload
            if number in self.streams:
                self.streams.pop(number).close()
            if not is_new:
                raise Difference("a connection is closed after a reply")
            self.lost += 1
            if self.has_ended():
                return None
        raise Difference("four connections are closed before a reply")

    def reply(self, number):
        """The payload of the connection's next frame. Where none comes in time the other connections end, once: where no thread could be started
        for the second lane, its connection is served when the first's has ended."""
        try:
            return self.payload(self.streams[number])
        except TimeoutError:
            others = [each for each in self.streams if each != number]
            if not others:
                raise
            for each in others:
                self.streams.pop(each).close()
            self.ended += len(others)
            return self.payload(self.streams[number])

    def has_ended(self):
        try:
            self.run.wait(1)
        except subprocess.TimeoutExpired:
            return False
        return True

    @staticmethod
    def payload(stream):
        """The payload of one frame; None where the stream ends before it."""
        got, wanted = b"", 4
        while len(got) < wanted:
            piece = stream.recv(wanted - len(got))
            if not piece and got:
                raise Difference(f"a connection ends inside a reply: {got.hex()}")
            if not piece:
                return None
            got += piece
            if len(got) == 4:
                wanted += int.from_bytes(got, "big")
        return got[4:]

    def stopped(self):
        """Its status and what it wrote, once it has stopped in order."""
        for each in self.streams.values():
            each.close()
        self.streams = {}
        self.run.stdin.close()
        output = self.run.stdout.read()
        return self.run.wait(LIMIT), output


def serve_once(program, talk, path, relay, env):
    """By `serve`, with two lanes: each request on its connection, once the one before is answered."""
    asked = Asked(talk.file)
    with Lanes(program, talk, path, relay, env) as lanes:
        where = lanes.address()
        if where is not None:
            for number, text in talk.asked:
                payload = lanes.exchange(where, number, text)
                if payload is None:
                    break
                asked.take(text, payload)
        status, output = lanes.stopped()
        asked.refusals += bool(lanes.lost or lanes.ended) or status == ENDED
        if status == ENDED and output == b"" and (lanes.lost or not asked.replies):
            return asked
        if status or asked.replies != len(talk.asked) or not is_line(output, lanes, asked):
            raise Difference(f"status {status}, {asked.replies} replies, {output.decode(errors='replace').strip()}")
    return asked


def is_line(output, lanes, asked):
    """Whether the line counts the journals of a state of the set, and the connections that were taken."""
    words = output.decode(errors="replace").split()
    if words[::2] != ["connections", "broken", "entries", "grants", "denials"] or not output.endswith(b"\n"):
        return False
    connections, broken, *counts = map(int, words[1::2])
    may = range(lanes.talk.lanes, lanes.talk.lanes + lanes.lost + lanes.ended + 1)
    return connections in may and broken == 0 and tuple(counts) in [world.counted() for world in asked.worlds]


def tried(program, talk, count):
    """Whether the program came to the allocation of this number, and what was seen that may not come."""
    path, mark = program.place("file"), program.place("mark")
    with open(path, "wb") as file:
        file.write(talk.file)
    os.chmod(path, 0o600)
    wrong = None
    try:
        with relay_of(talk) as relay:
            asked = (serve_once if talk.lanes else run_once)(program, talk, path, relay, program.env(count, mark))
        if asked.refusals > os.path.exists(mark):
            wrong = f"memory lacked {asked.refusals} times, and was refused {int(os.path.exists(mark))} times"
    except Difference as difference:
        wrong = str(difference)
    except subprocess.TimeoutExpired:
        wrong = "it does not end"
    return os.path.exists(mark), wrong


def play(program, title, talk, pool):
    """How many allocations were refused, and how many runs came out wrong."""
    failed = 0
    for first in itertools.count(1, BATCH):
        numbers = range(first, first + BATCH)
        for number, (was_refused, wrong) in zip(numbers, pool.map(lambda each: tried(program, talk, each), numbers)):
            if wrong is not None:
                print(f"{title}: allocation {number}{'' if was_refused else ', which none was'}: {wrong}", flush=True)
                failed += 1
            if not was_refused:
                print(f"{title}: {number - 1} allocations", flush=True)
                return number - 1, failed
    return 0, failed


def main(words):
    if not words or not set(words[1:]) <= set(TALKS):
        print(__doc__, end="", file=sys.stderr)
        return 2
    with tempfile.TemporaryDirectory() as folder, concurrent.futures.ThreadPoolExecutor(WORKERS) as pool:
        library = compiled(folder, "memory")
        if library is None:
            print("no compiler: memory.c can't be preloaded", file=sys.stderr)
            return 2
        program = Program(words[0], library, folder)
        told = [play(program, title, TALKS[title], pool) for title in words[1:] or TALKS]
    refused, failed = (sum(each) for each in zip(*told))
    print(f"{refused} refused, {failed} differences")
    # Where none was refused in some conversation the program does not take its memory from the preloaded library.
    return 1 if failed or not all(count for count, _ in told) else 0


if __name__ == "__main__":
    sys.exit(main(sys.argv[1:]))
