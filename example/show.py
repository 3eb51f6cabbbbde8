#!/usr/bin/env python3
"""Prints requests and the replies to them.

    show.py NODE REQUESTS REPLIES
    show.py pair NUMBER REQUESTS REPLIES

NODE is the node file, which has the channels' keys: each reply's tag is computed again under the key of the
channel that it names. Ends with status 0 where each request has its reply, each reply reads as
docs/FORMATS.md says, and each tag checks. By `pair` the frames of the request of that number, counted
from 1, and of its reply are written as they are, for `check`.
"""
import hashlib
import hmac
import sys

ATOMS = {1: "key", 2: "name"}
TAG = 32


class Bytes:
    """Fields from the front of some bytes; numbers have the highest byte first."""

    def __init__(self, data):
        self.data, self.at = data, 0

    def take(self, count):
        if self.at + count > len(self.data):
            raise ValueError(f"bytes are lacking at {len(self.data)}")
        self.at += count
        return self.data[self.at - count : self.at]

    def number(self, width):
        return int.from_bytes(self.take(width), "big")

    def end(self):
        if self.at != len(self.data):
            raise ValueError(f"bytes follow at {self.at}")


def frames(data):
    fields, found = Bytes(data), []
    while fields.at < len(data):
        found.append(fields.take(fields.number(4)))
    return found


def channel_keys(node_file):
    lines = [line.split() for line in node_file.decode("ascii").splitlines()]
    return {int(line[1]): bytes.fromhex(line[2]) for line in lines if line[:1] == ["channel"]}


PAIRS = {3: "and", 4: "|", 6: "for"}


def term(fields):
    """A principal as it is spelled in requests, certificates and links."""
    kind = fields.number(1)
    if kind in ATOMS:
        return f"{ATOMS[kind]} {fields.number(4)}"
    if kind in PAIRS:
        left, right = term(fields), term(fields)
        return f"({left} {PAIRS[kind]} {right})"
    if kind == 5:
        left = term(fields)
        return f"({left} as role {fields.number(4)})"
    raise ValueError(f"a term of kind {kind}")


def body(fields):
    """What a certificate says, after its length."""
    said = Bytes(fields.take(fields.number(2)))
    return statement(said)


def statement(said):
    version = said.number(1)
    if version not in (1, 2):
        raise ValueError("a certificate of another version")
    issuer = f"key {said.number(4)}"
    if said.number(1):
        issuer = f"{issuer} | {term(said)}"
    left, right = term(said), term(said)
    begins = f" from {said.number(8)}" if version == 2 else ""
    return f"{issuer} says {left} => {right}{begins} until {said.number(8)}"


def certificate(fields):
    """What a presented certificate says, whoever sealed it."""
    sealed = fields.take(fields.number(2))
    own = "" if sealed[:1] == b"\2" else ", under its issuer's own seal"
    return statement(Bytes(sealed[1:-TAG])) + own


RIGHTS = {1: "r", 2: "w", 4: "c", 8: "m"}


def entry(fields):
    """An entry of an access list: the letters of its rights, and who has them."""
    rights = fields.number(1)
    return "".join(letter for right, letter in RIGHTS.items() if rights & right) + " " + term(fields)


def operation(code, number, fields):
    """What is asked of the object of this number."""
    if code == 1:
        return f"read object {number}"
    if code == 2:
        content = fields.take(fields.number(2)).decode("utf-8", "backslashreplace")
        return f'write "{content}" to object {number}'
    if code == 3:
        entries = [entry(fields) for _ in range(fields.number(1))]
        return f"set the list of object {number} to {'; '.join(entries)}"
    if code == 5:
        return f"by object {number} discard the certificate of digest {fields.take(32).hex()[:16]}.."
    if code == 6:
        return f"by object {number} forget what channel {fields.number(4)} holds"
    if code == 8:
        return f"by object {number} withdraw issuer {fields.number(4)}"
    if code in (4, 7):
        return f"by object {number} {'hold what is presented' if code == 4 else 'let ended certificates go'}"
    raise ValueError(f"an operation of code {code}")


def request(payload):
    """A request in words, or how long another payload is."""
    try:
        fields = Bytes(payload[:-TAG])
        version, channel, seq = fields.number(1), fields.number(4), fields.number(8)
        quoted = f" quoting {term(fields)}" if fields.number(1) else ""
        code, number = fields.number(1), fields.number(4)
        if version != 3:
            return "a request of another version"
        what = operation(code, number, fields)
        shown = [certificate(fields) for _ in range(fields.number(1))]
    except ValueError:
        return f"a payload of {len(payload)} bytes"
    by = "".join(f"\n    presents: {each}" for each in shown)
    return f"channel {channel}{quoted}, number {seq}: {what}{by}"


def node(fields, nodes):
    kind = fields.number(1)
    if kind in ATOMS:
        return f"{ATOMS[kind]} {fields.number(4)}"
    if kind in PAIRS:
        left, right = nodes[fields.number(2)], nodes[fields.number(2)]
        return f"({left} {PAIRS[kind]} {right})"
    if kind == 5:
        left = nodes[fields.number(2)]
        return f"({left} as role {fields.number(4)})"
    raise ValueError(f"a node of kind {kind}")


# Each rule: its name, whether its fact is a statement of somebody, how many lines it names, and
# whether it names an anchor or a certificate.
RULES = {
    1: ("same", False, 0, ""),
    2: ("chain", False, 2, ""),
    3: ("left", False, 0, ""),
    4: ("right", False, 0, ""),
    5: ("both", False, 2, ""),
    6: ("quote", False, 2, ""),
    7: ("for", False, 2, ""),
    8: ("role", False, 0, ""),
    9: ("anchor", False, 0, "anchor"),
    10: ("said", True, 0, "certificate"),
    11: ("lift", True, 2, ""),
    12: ("join", True, 2, ""),
    13: ("hand-off", False, 1, ""),
    14: ("delegate", False, 1, ""),
    15: ("role under", False, 1, ""),
}


def line(fields, nodes):
    rule = fields.number(1)
    if rule not in RULES:
        raise ValueError(f"a line by rule {rule}")
    name, says, premises, what = RULES[rule]
    who = f"{nodes[fields.number(2)]} says " if says else ""
    left, right = nodes[fields.number(2)], nodes[fields.number(2)]
    numbers = [f"line {fields.number(4)}" for _ in range(premises)]
    if what:
        numbers.append(f"{what} {fields.number(2)}" if what != name else str(fields.number(2)))
    by = f"{name} {', '.join(numbers)}".strip()
    return f"{who}{left} => {right} by {by}"


def proof(data):
    """The lines of a proof."""
    fields, nodes = Bytes(data), []
    try:
        for _ in range(fields.number(2)):
            nodes.append(node(fields, nodes))
        lines = [line(fields, nodes) for _ in range(fields.number(4))]
    except IndexError:
        raise ValueError("a proof names a node that is not there") from None
    fields.end()
    return lines


def place(fields):
    """Where the request stands: in the journal of which shard, after how many entries."""
    return f"shard {fields.number(4)}, place {fields.number(8)}"


def grant(fields):
    kept, entry = fields.number(1), fields.number(1)
    if kept > 1:
        raise ValueError("kept is neither 0 nor 1")
    at = place(fields) + (", kept" if kept else "")
    lines = proof(fields.take(fields.number(4)))
    cited = [body(fields) for _ in range(fields.number(1))]
    content = fields.take(fields.number(2)).decode("utf-8", "backslashreplace")
    said = [f'grant: {at}: entry {entry}, content "{content}"']
    said += [f"    certificate {number}: {each}" for number, each in enumerate(cited)]
    said += [f"    line {number}: {each}" for number, each in enumerate(lines)]
    return "\n    ".join(said)


def denial(fields):
    at, link = place(fields), fields.number(1)
    if link == 1:
        entry, digest = fields.number(1), fields.take(32).hex()
        return f"denial: {at}: entry {entry} would be reached but for the certificate of digest {digest[:16]}.., which has ended"
    if link == 2:
        entry = fields.number(1)
        return f"denial: {at}: of entry {entry} {term(fields)} is missing"
    if link == 3:
        return f"denial: {at}: no entry has the right"
    if link == 4:
        entry, digest = fields.number(1), fields.take(32).hex()
        return f"denial: {at}: entry {entry} would be reached but for the certificate of digest {digest[:16]}.., which has not begun"
    raise ValueError(f"a link of kind {link}")


# What each refusal says: its name, and the widths of the numbers after it.
REFUSALS = {
    2: ("malformed, at byte", [4]),
    3: ("unknown channel", [4]),
    4: ("bad seal", []),
    5: ("replayed: the channel's last number is", [8]),
    6: ("certificate refused, at its index and for the code", [1, 1]),
    7: ("the channel would hold too many certificates, and holds", [1]),
    8: ("no relay answers for the certificate at index", [1]),
    9: ("unknown object", [4]),
    10: ("a journal is full (0 an object's, 1 a shard's), its number, its length:", [1, 4, 8]),
    11: ("no memory", []),
    12: ("a shard has no room for more in common, and holds, and its number:", [1, 4]),
    13: ("no shard held the certificate of this digest", [32]),
    14: ("a shard has no room for one withdrawn issuer more, and has, and its number:", [1, 4]),
    15: ("the certificates could not be fetched", []),
}
# These come before the seal of a request is found right, and NO_MEMORY may.
UNSEALED, NO_MEMORY = (2, 3, 4), 11


def refusal(status, fields):
    if status not in REFUSALS:
        raise ValueError(f"a reply of status {status}")
    name, widths = REFUSALS[status]
    return f"refusal: {name} {', '.join(str(fields.number(width)) for width in widths)}".rstrip()


def reply(payload, keys):
    """A reply in words, and whether its tag is what it should be."""
    if len(payload) < TAG:
        raise ValueError("a reply without a tag")
    text, sealed = payload[:-TAG], payload[-TAG:]
    fields = Bytes(text)
    if fields.number(1) != 4:
        raise ValueError("a reply of another version")
    channel, seq, status = fields.number(4), fields.number(8), fields.number(1)
    if status == 0:
        said = grant(fields)
    elif status == 1:
        said = denial(fields)
    else:
        said = refusal(status, fields)
    fields.end()
    if (channel, seq, sealed) == (0, 0, bytes(TAG)) and (status in UNSEALED or status == NO_MEMORY):
        return f"{said}\n    not sealed", True
    if status in UNSEALED:
        return f"{said}\n    SEALED, WHICH IT SHOULD NOT BE", False
    if channel in keys and hmac.compare_digest(sealed, hmac.new(keys[channel], text, hashlib.sha256).digest()):
        return f"{said}\n    the tag checks under the key of channel {channel}", True
    return f"{said}\n    THE TAG DOES NOT CHECK under the key of channel {channel}", False


def show(node_file, asked, replied):
    keys, requests, replies = channel_keys(node_file), frames(asked), frames(replied)
    all_check = True
    for payload, answer in zip(requests, replies):
        said, checks = reply(answer, keys)
        all_check = all_check and checks
        print(f"{request(payload)}\n    {said}")
    if len(replies) != len(requests):
        raise ValueError(f"{len(replies)} replies to {len(requests)} requests")
    return 0 if all_check else 1


def pair(number, asked, replied):
    for found in (frames(asked), frames(replied)):
        payload = found[int(number) - 1]
        sys.stdout.buffer.write(len(payload).to_bytes(4, "big") + payload)
    return 0


def main(words):
    wanted, count = (pair, 2) if words[:1] == ["pair"] and len(words) == 4 else (show, 3)
    if wanted is show and len(words) != 3:
        print(__doc__, end="", file=sys.stderr)
        return 2
    contents = []
    for word in words[-count:]:
        with open(word, "rb") as file:
            contents.append(file.read())
    try:
        return wanted(*words[1:-count], *contents)
    except ValueError as fault:
        print(f"show.py: {fault}", file=sys.stderr)
        return 1


if __name__ == "__main__":
    sys.exit(main(sys.argv[1:]))
