#!/usr/bin/env python3
"""A relay on this machine, and requests that a program answers by it.

    relay.py serve
    relay.py ask PROGRAM ADDRESS FOLDER

`serve` listens on a port of 127.0.0.1 that is free, prints the address, and answers reseal frames, one
connection after the other, until its input ends. It knows two issuers and node 7; of certificates with
some serials it answers otherwise than a relay should, and says so on its standard error.

`ask` runs the program on openings and requests that it writes to FOLDER, with that address as its relay,
with none, and with one where nobody listens. It looks at each reply: its status and fields, and its tag; a
grant has to cite the certificate, and `check` has to bear it out. Ends with 1 where any is not as it should
be. Key n is 32 bytes of value n.
"""
import hmac
import os
import select
import socket
import struct
import subprocess
import sys
import time

NODE, STRANGE_NODE, SHARDS, KEEP, LIMIT = 7, 8, 1, 3600, 16_384
CHANNELS, NAME, OBJECT, CONTENT = (1, 2, 3), 10, 5, b"hello"
# Issuer 1 is anchored to the name that the object's list names; issuer 3 is known, and nobody.
ISSUERS, UNKNOWN_ISSUER = (1, 3), 9
ISSUED, RELAYED, ASKS, BRINGS = 1, 2, 5, 6
UNTIL = 2**40
MALFORMED, NO_ISSUER, BAD_SEAL, WRONG_KIND, NO_NODE, BAD_RESEAL, NO_MEMORY = 1, 2, 3, 4, 5, 6, 11
GRANTED, DENIED, REFUSED, FAILED, WANTS_MEMORY = 0, 1, 6, 8, 11
LONGEST, LONGEST_NEW, TAG = 65_536, 2_048, 32
# Seconds: between two bytes of an answer that trickles, and behind a fault until the link asks again.
PAUSE, REST = 0.3, 1.1

# By their serials: what the relay does other than it should.
CLOSES, IS_SILENT, BABBLES, CUTS, SHOUTS, OVERFLOWS, FLIPS_KIND, OTHER_KEY, OTHER_BODY, FULL = range(100, 110)
TRICKLES, ADDS, ENDS = range(110, 113)
DEEDS = {
    CLOSES: "closes without an answer",
    IS_SILENT: "says nothing",
    BABBLES: "answers a code that there is not",
    CUTS: "closes inside its answer",
    SHOUTS: "answers with a length above the most",
    OVERFLOWS: "answers with a certificate above the most",
    FLIPS_KIND: "answers that the kind is wrong",
    OTHER_KEY: "seals under another key",
    OTHER_BODY: "seals another body",
    FULL: "answers want of memory",
    TRICKLES: "answers a byte at a time, too slowly",
    ADDS: "answers, and sends a frame that nobody asked for",
    ENDS: "answers, and closes",
}


def key(number):
    return bytes([number]) * 32


def sealed(secret, text):
    return text + hmac.digest(secret, text, "sha256")


def frame(payload):
    return struct.pack(">I", len(payload)) + payload


def body(issuer, whom, serial):
    """That issuer says that the key of `whom` speaks for the name."""
    return struct.pack(">BIBBIBIQQ", 1, issuer, 0, 1, whom, 2, NAME, UNTIL, serial)


def issued(issuer, whom, serial=1, turned=False):
    text = sealed(key(issuer), bytes([ISSUED]) + body(issuer, whom, serial))
    return text[:-1] + bytes([text[-1] ^ 1]) if turned else text


def relayed(text):
    return sealed(key(NODE), bytes([RELAYED]) + text)


# The relay.


def reads(text):
    """Whether a body is one: by its first bytes and its length, as those that are sent here are."""
    return len(text) == 32 and text[:1] == b"\1" and text[5:7] == b"\0\1" and text[11:12] == b"\2"


def answer(node, certificate):
    """The relay's answer, and what it does other than that."""
    if certificate[:1] == bytes([RELAYED]):
        return bytes([BRINGS, WRONG_KIND]), None
    text, tag = certificate[1:-TAG], certificate[-TAG:]
    if certificate[:1] != bytes([ISSUED]) or not reads(text):
        return bytes([BRINGS, MALFORMED]), None
    issuer, serial = struct.unpack_from(">I", text, 1)[0], struct.unpack_from(">Q", text, 24)[0]
    if issuer not in ISSUERS:
        return bytes([BRINGS, NO_ISSUER]), None
    if not hmac.compare_digest(certificate, sealed(key(issuer), certificate[:-TAG])):
        return bytes([BRINGS, BAD_SEAL]), None
    if node != NODE:
        return bytes([BRINGS, NO_NODE]), None
    deed = serial if serial in DEEDS else None
    brought = {
        BABBLES: bytes([BRINGS, 7]),
        FLIPS_KIND: bytes([BRINGS, WRONG_KIND]),
        FULL: bytes([BRINGS, NO_MEMORY]),
        OVERFLOWS: bytes([BRINGS, 0]) + relayed(text) + bytes(LONGEST_NEW),
        OTHER_KEY: bytes([BRINGS, 0]) + sealed(key(NODE + 1), bytes([RELAYED]) + text),
        OTHER_BODY: bytes([BRINGS, 0]) + relayed(text[:-1] + bytes([text[-1] ^ 1])),
    }
    return brought.get(deed, bytes([BRINGS, 0]) + relayed(text)), deed


def take(stream, count):
    """So many bytes, or fewer where the other side closed."""
    got = b""
    while len(got) < count:
        try:
            piece = stream.recv(count - len(got))
        except ConnectionError:
            piece = b""
        if not piece:
            break
        got += piece
    return got


def tell(text):
    print(f"relay: {text}", file=sys.stderr, flush=True)


def trickle(stream, data):
    """Sends a byte at a time, until the other side closes."""
    try:
        for place in range(len(data)):
            stream.sendall(data[place : place + 1])
            time.sleep(PAUSE)
    except ConnectionError:
        pass


def serve_connection(stream):
    """Answers frames until the other side closes, or this one does."""
    while True:
        head = take(stream, 4)
        if len(head) < 4:
            return
        length = struct.unpack(">I", head)[0]
        payload = take(stream, length) if length <= LONGEST else b""
        if length > LONGEST or len(payload) < length:
            return
        if len(payload) < 5 or payload[0] != ASKS:
            stream.sendall(frame(bytes([BRINGS, MALFORMED])))
            continue
        brought, deed = answer(struct.unpack_from(">I", payload, 1)[0], payload[5:])
        if deed is not None:
            tell(DEEDS[deed])
        if deed == IS_SILENT:
            take(stream, 1)
            return
        if deed == CLOSES:
            return
        if deed == SHOUTS:
            stream.sendall(struct.pack(">I", LONGEST + 1) + brought)
        elif deed == CUTS:
            stream.sendall(frame(brought)[:-1])
            return
        elif deed == TRICKLES:
            return trickle(stream, frame(brought))
        elif deed == ADDS:
            stream.sendall(frame(brought) + frame(bytes([BRINGS, NO_ISSUER])))
        elif deed == ENDS:
            stream.sendall(frame(brought))
            return
        else:
            stream.sendall(frame(brought))


def serve():
    with socket.create_server(("127.0.0.1", 0)) as listener:
        print(f"127.0.0.1:{listener.getsockname()[1]}", flush=True)
        while True:
            ready, _, _ = select.select([listener, sys.stdin], [], [])
            if sys.stdin in ready and not sys.stdin.buffer.read1(1):
                return 0
            if listener in ready:
                stream, _ = listener.accept()
                with stream:
                    serve_connection(stream)


# The requests.


def opening(node):
    fields = [struct.pack(">HI", 1, node), key(NODE), struct.pack(">IQQ", SHARDS, KEEP, LIMIT)]
    fields += [struct.pack(">H", len(CHANNELS))]
    fields += [struct.pack(">I", channel) + key(channel) for channel in CHANNELS]
    fields += [struct.pack(">BIIB", 1, ISSUERS[0], NAME, 0)]
    fields += [struct.pack(">HIH", 1, OBJECT, len(CONTENT)), CONTENT, struct.pack(">BBBI", 1, 15, 2, NAME)]
    return b"".join(fields)


def request(channel, seq, certificates):
    text = struct.pack(">BIQBBIB", 3, channel, seq, 0, 1, OBJECT, len(certificates))
    text += b"".join(struct.pack(">H", len(each)) + each for each in certificates)
    return frame(sealed(key(channel), text))


GOOD, STRANGER = issued(1, 2), issued(3, 2)
REFUSALS = [
    ("that lacks its last byte", issued(1, 2)[:-1], MALFORMED),
    ("of one byte", bytes([ISSUED]), MALFORMED),
    ("that fills its request", bytes([ISSUED]) + bytes(LONGEST - 55), MALFORMED),
    ("of an issuer that is not known", issued(UNKNOWN_ISSUER, 2), NO_ISSUER),
    ("with a tag that is turned", issued(1, 2, turned=True), BAD_SEAL),
    ("which the relay calls wrong in kind", issued(1, 2, FLIPS_KIND), WRONG_KIND),
    ("which comes back under another key", issued(1, 2, OTHER_KEY), BAD_RESEAL),
    ("which comes back with another body", issued(1, 2, OTHER_BODY), BAD_RESEAL),
]
FAILURES = [
    ("the relay closes", CLOSES),
    ("the relay closes inside its answer", CUTS),
    ("the relay answers no code", BABBLES),
    ("the relay's length is too large", SHOUTS),
    ("the relay's certificate is too large", OVERFLOWS),
    ("the relay says nothing", IS_SILENT),
    ("the relay's answer trickles", TRICKLES),
]


class Case:
    """A request, and the reply that it should have. `place` is that of a grant or a denial, `kept` that of a grant."""

    def __init__(self, name, channel, certificates, status, fields=b"", place=None, kept=0):
        self.name, self.channel, self.certificates = name, channel, certificates
        self.status, self.fields, self.place, self.kept = status, fields, place, kept


def refused(name, certificate, code, before=()):
    shown = list(before) + [certificate]
    return Case(f"a certificate {name}", 2, shown, REFUSED, bytes([len(before), code]))


def failed(name, certificates, index=0):
    return Case(name, 2, certificates, FAILED, bytes([index]))


def with_relay():
    cases = [Case("no certificate", 2, [], DENIED, place=0)]
    cases += [refused(*each) for each in REFUSALS]
    cases += [refused("of an issuer that is not known, behind two that open", REFUSALS[3][1], NO_ISSUER,
                      (relayed(body(3, 2, 2)), STRANGER))]
    for name, serial in FAILURES:
        cases += [failed(name, [issued(1, 2, serial)])]
        cases += [refused("behind a link that failed", REFUSALS[4][1], BAD_SEAL)]
    cases += [failed("the relay closes at the second", [STRANGER, issued(1, 2, CLOSES)], 1)]
    cases += [Case("the relay wants memory", 2, [issued(1, 2, FULL)], WANTS_MEMORY)]
    # None of those took an entry, or is held.
    cases += [Case("no certificate, again", 2, [], DENIED, place=1)]
    cases += [Case("a certificate that does not help", 2, [STRANGER], DENIED, place=2)]
    # A kept connection that is of no use any more, and the question behind it on a new one.
    cases += [Case("the relay says one thing more", 2, [issued(3, 2, ADDS)], DENIED, place=3)]
    cases += [refused("behind one thing more", REFUSALS[4][1], BAD_SEAL)]
    cases += [Case("the relay answers and closes", 2, [issued(3, 2, ENDS)], DENIED, place=4)]
    cases += [refused("behind a relay that closed", REFUSALS[4][1], BAD_SEAL)]
    # A proof that is made takes an entry too, behind that of its request.
    cases += [Case("a good certificate", 2, [GOOD], GRANTED, place=5)]
    cases += [Case("no certificate: it is held", 2, [], GRANTED, place=7, kept=1)]
    cases += [Case("another's certificate", 3, [GOOD], DENIED, place=8)]
    cases += [Case("two good ones", 3, [issued(1, 3, 7), GOOD], GRANTED, place=9)]
    return cases


def without_relay():
    return [
        failed("nobody answers", [GOOD]),
        failed("nobody answers, behind one that opens", [relayed(body(3, 2, 2)), GOOD], 1),
        Case("no certificate", 2, [], DENIED, place=0),
        Case("one that the node opens", 2, [relayed(body(1, 2, 1))], GRANTED, place=1),
    ]


def for_another_node():
    return [refused("for a node that the relay does not know", GOOD, NO_NODE)]


class Fields:
    def __init__(self, text):
        self.text, self.at = text, 0

    def take(self, count):
        if self.at + count > len(self.text):
            raise ValueError("it is too short")
        self.at += count
        return self.text[self.at - count : self.at]

    def number(self, width):
        return int.from_bytes(self.take(width), "big")


def grant_fault(fields, case):
    """What is wrong with a grant's fields, but for its proof."""
    if fields.number(1) != case.kept:
        return "another word on whether its proof was kept"
    if fields.number(1) != 0:
        return "another entry"
    if (fields.number(4), fields.number(8)) != (0, case.place):
        return "another shard or place"
    fields.take(fields.number(4))
    cited = [fields.take(fields.number(2)) for _ in range(fields.number(1))]
    if cited != [body(1, case.channel, 7 if case.channel == 3 else 1)]:
        return "it does not cite the certificate"
    if fields.take(fields.number(2)) != CONTENT or fields.at != len(fields.text):
        return "another content"
    return None


def fault(case, seq, payload):
    """What is wrong with a reply, if anything is."""
    fields = Fields(payload[:-TAG])
    if (fields.number(1), fields.number(4), fields.number(8)) != (4, case.channel, seq):
        return "it is not of this request"
    if payload != sealed(key(case.channel), payload[:-TAG]):
        return "its tag is wrong"
    status = fields.number(1)
    if status != case.status:
        return f"status {status}, fields {fields.text[fields.at:].hex()}, in place of {case.status}"
    if status == GRANTED:
        return grant_fault(fields, case)
    rest = fields.text[fields.at :]
    if status == DENIED:
        return None if rest[:12] == struct.pack(">IQ", 0, case.place) else "another shard or place"
    return None if rest == case.fields else f"fields {rest.hex()} in place of {case.fields.hex()}"


def checked(program, node, asked, reply):
    run = subprocess.run([program, node, "-", "-", "check"], input=asked + reply, stdout=subprocess.PIPE)
    return run.returncode == 0 and run.stdout.startswith(b"granted entry 0 ")


def frames_of(data):
    fields, found = Fields(data), []
    while fields.at < len(data):
        found.append(fields.take(fields.number(4)))
    return found


def frame_of(stream):
    """The payload of the next frame, or less where the stream ends."""
    head = stream.read(4)
    return stream.read(int.from_bytes(head, "big")) if len(head) == 4 else head


def told(run, cases, asked):
    """The replies, in turn. Behind a failure the next question waits until the link asks again."""
    replies = []
    try:
        for place, text in enumerate(asked):
            run.stdin.write(text)
            run.stdin.flush()
            replies.append(frame_of(run.stdout))
            if cases[place].status == FAILED and cases[place + 1 :] and cases[place + 1].status != FAILED:
                time.sleep(REST)
        run.stdin.close()
        return replies + frames_of(run.stdout.read())
    except BrokenPipeError:
        return replies


def run_cases(program, folder, what, node, relay, cases):
    """Runs the program once on all of these, and counts those that are not answered as they should be."""
    path = os.path.join(folder, f"opening_{node}")
    with open(path, "wb") as out:
        out.write(opening(node))
    last, asked = {}, []
    for case in cases:
        last[case.channel] = last.get(case.channel, 0) + 1
        asked.append((last[case.channel], request(case.channel, last[case.channel], case.certificates)))
    start = time.monotonic()
    words = [program, path, "-", relay, "run"]
    with subprocess.Popen(words, stdin=subprocess.PIPE, stdout=subprocess.PIPE) as run:
        replies, wrong = told(run, cases, [text for _, text in asked]), 0
    print(f"{what} ({time.monotonic() - start:.1f} seconds):")
    for place, (case, (seq, text)) in enumerate(zip(cases, asked)):
        why = "no reply"
        if place < len(replies):
            why = fault(case, seq, replies[place])
            if why is None and case.status == GRANTED and not checked(program, path, text, frame(replies[place])):
                why = "`check` does not bear it out"
        wrong += why is not None
        print(f"    {case.name}: {'status ' + str(case.status) if why is None else 'WRONG: ' + why}")
    if run.returncode != 0 or len(replies) != len(cases):
        print(f"    WRONG: status {run.returncode} at the end, {len(replies)} replies to {len(cases)}")
        wrong += 1
    return wrong


def port_of_nobody():
    with socket.create_server(("127.0.0.1", 0)) as listener:
        return listener.getsockname()[1]


def ask(program, address, folder):
    wrong = run_cases(program, folder, "with the relay", NODE, address, with_relay())
    wrong += run_cases(program, folder, "for another node", STRANGE_NODE, address, for_another_node())
    nobody = f"127.0.0.1:{port_of_nobody()}"
    wrong += run_cases(program, folder, "where nobody listens", NODE, nobody, without_relay())
    wrong += run_cases(program, folder, "with no relay", NODE, "-", without_relay())
    print(f"{wrong} wrong" if wrong else "all are as they should be")
    return 1 if wrong else 0


def main(words):
    if words == ["serve"]:
        return serve()
    if words[:1] == ["ask"] and len(words) == 4:
        return ask(*words[1:])
    print(__doc__, end="", file=sys.stderr)
    return 2


if __name__ == "__main__":
    sys.exit(main(sys.argv[1:]))
