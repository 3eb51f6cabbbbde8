#!/usr/bin/env python3
"""Writes a node file at its limits, as a text.

    node_file.py ORDER FILE [PART]

There are 1,024 names and 256 roles with texts of 32 bytes, which differ at their end alone, 1,024
channels, 64 anchors by text, 32 certificates in common, whose terms have 63 nodes each, and 256 objects,
each with 4,096 bytes of content and 8 entries of 16 nodes by text. Comments fill the file up to 4,194,304
bytes, the most that there can be. ORDER says how numbers go from line to line, and with them the texts of
names and roles: `rising`, `falling` or `mixed`. PART is a divisor: the counts, but for entries and contents,
and the length are the limits by it.
"""
import hmac
import struct
import sys

LENGTH = 4_194_304
NAMES, ROLES, CHANNELS, ANCHORS, COMMONS, OBJECTS, ENTRIES = 1_024, 256, 1_024, 64, 32, 256, 8
CONTENT, TEXT, NODE, SHARDS = 4_096, 32, 7, 64
# Shards and objects together, times the journal limit, are at most 8,388,608.
JOURNAL = 8_388_608 // (SHARDS + OBJECTS)
RELAYED, UNTIL = 2, 2**40
# What numbers are multiples of, so that they have ten digits.
STEP = 1_000_003
ORDERS = {
    "rising": lambda count: range(count),
    "falling": lambda count: range(count)[::-1],
    # A step that shares no divisor with any count goes over all places.
    "mixed": lambda count: [place * 167 % count for place in range(count)],
}


def key(number):
    return hmac.digest(b"bench", struct.pack(">I", number), "sha256")


def relay_key():
    return key(2**32 - 1)


def number_of(place):
    return 2**30 + STEP * place


def text_of(sort, place):
    return sort + "a" * (TEXT - len(sort) - 4) + f"{place:04}"


def term(issuer):
    """The issuer's key in six roles, and eight of it in a tree: 63 nodes, of which 10 differ."""
    base = b"\5" * 6 + struct.pack(">BI", 1, issuer) + b"".join(struct.pack(">I", role) for role in range(6))
    for _ in range(3):
        base = b"\3" + base + base
    return base


def common(place):
    """That the issuer's key speaks for a tree, and that for itself, under the node's key."""
    body = struct.pack(">BIB", 1, 1, 0) + term(1) + term(1) + struct.pack(">QQ", UNTIL, place)
    text = bytes([RELAYED]) + body
    return text + hmac.digest(relay_key(), text, "sha256")


def principal(place, names, roles):
    """A principal of 16 nodes: 8 names, 7 compounds, and one role."""
    said = [text_of("n", (place + 131 * turn) % names) for turn in range(8)]
    role = text_of("r", place % roles)
    pairs = [f"({a} and {b})" for a, b in zip(said[::2], said[1::2])]
    return f"(({pairs[0]}|{pairs[1]}) for ({pairs[2]}|{pairs[3]})) as {role}"


def lines(order, part):
    names, roles, channels, objects = (count // part for count in (NAMES, ROLES, CHANNELS, OBJECTS))
    places = ORDERS[order]
    yield "taos 1"
    yield f"node {NODE} {relay_key().hex()}"
    yield f"shards {SHARDS}"
    yield f"journal {JOURNAL}"
    for place in places(names):
        yield f"name {number_of(place)} {text_of('n', place)}"
    for place in places(roles):
        yield f"role {number_of(place)} {text_of('r', place)}"
    for place in places(channels):
        yield f"channel {number_of(place)} {key(place).hex()}"
    for place in range(ANCHORS // part):
        yield f"anchor {number_of(place)} {text_of('n', place * 15 % names)}"
    for place in range(COMMONS // part):
        yield f"common {common(place).hex()}"
    for place in places(objects):
        yield f"object {number_of(place)}"
        yield f"content {number_of(place)} {(key(place) * (CONTENT // 32)).hex()}"
    for turn in range(ENTRIES):
        for place in places(objects):
            yield f"allow {number_of(place)} rwcm {principal(ENTRIES * place + turn, names, roles)}"


def main(words):
    if len(words) not in (2, 3) or words[0] not in ORDERS:
        print(__doc__, end="", file=sys.stderr)
        return 2
    part = int(words[2]) if len(words) == 3 else 1
    text = "".join(f"{line}\n" for line in lines(words[0], part)).encode()
    room = LENGTH // part - len(text)
    comment = b"#" + b"-" * 78 + b"\n"
    text += comment * (room // len(comment)) + b"#" * (room % len(comment))
    with open(words[1], "wb") as out:
        out.write(text)
    return 0


if __name__ == "__main__":
    sys.exit(main(sys.argv[1:]))
