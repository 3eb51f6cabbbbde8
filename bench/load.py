#!/usr/bin/env python3
"""Writes a load of anchored reads: a binary opening, and a stream of request frames that it grants.

    load.py write OPENING FRAMES [COUNT [LIMIT]]
    load.py check REPLIES COUNT
    load.py write-large FRAMES COUNT LENGTH
    load.py check-large REPLIES COUNT

The opening has node 7, one shard, channel 1, anchor 1 -> 10 and object 5 with `hello`, whose list
grants all rights to name 10. Each frame is a Read of object 5 by channel 1; the sequence numbers
rise from 1. Key n is 32 bytes of value n. LIMIT is the journal limit of the opening, 1,048,576 by
default, the most that there can be: each read takes an entry of the shard's journal. `check` looks at
each reply's length, channel, sequence number, status, shard, place and tag, and fails unless all COUNT
are grants: each place is the one behind the entries of the reads before it, which are one to a read, and
one more where its proof was not kept before.

A large request has LENGTH bytes, at most 65,536: a Read that presents 16 certificates, which are
bytes of no form. It is read whole, and `check-large` fails unless each answer says, sealed, that the
first certificate is refused as malformed (status 6). It takes no entry.
"""
import hmac
import struct
import sys

COUNT, LIMIT = 200_000, 1_048_576
CHANNEL, NAME, OBJECT, CONTENT = 1, 10, 5, b"hello"
SHARDS, KEEP = 1, 3600
GRANTED, REFUSED, MALFORMED = 0, 6, 1
READ = 1
CERTIFICATES = 16
TAG = 32
# Version, channel, sequence number, status; of a grant kept, entry, shard and place stand behind.
HEAD, GRANT = struct.Struct(">BIQB"), struct.Struct(">BBIQ")


def key(number):
    return bytes([number]) * 32


def tag(number, text):
    return hmac.digest(key(number), text, "sha256")


def opening(limit, objects=True):
    fields = [
        struct.pack(">HI", 1, 7), key(7),
        struct.pack(">IQQ", SHARDS, KEEP, limit),
        struct.pack(">HI", 1, CHANNEL), key(CHANNEL),
        struct.pack(">BII", 1, CHANNEL, NAME),
        struct.pack(">B", 0),
    ]
    if objects:
        fields += [
            struct.pack(">HIH", 1, OBJECT, len(CONTENT)), CONTENT,
            struct.pack(">BBBI", 1, 15, 2, NAME),
        ]
    else:
        fields += [struct.pack(">H", 0)]
    return b"".join(fields)


def frame(seq, certificates=()):
    body = struct.pack(">BIQBBIB", 3, CHANNEL, seq, 0, READ, OBJECT, len(certificates))
    body += b"".join(struct.pack(">H", len(text)) + text for text in certificates)
    payload = body + tag(CHANNEL, body)
    return struct.pack(">I", len(payload)) + payload


def certificates_of(length):
    """Certificates that take so many bytes with their lengths; the last has what is left over."""
    each, more = divmod(length - 2 * CERTIFICATES, CERTIFICATES)
    return [bytes(each)] * (CERTIFICATES - 1) + [bytes(each + more)]


def write(opening_path, frames_path, count=COUNT, limit=LIMIT):
    with open(opening_path, "wb") as out:
        out.write(opening(int(limit)))
    with open(frames_path, "wb") as out:
        for seq in range(1, int(count) + 1):
            out.write(frame(seq))


def write_large(frames_path, count, length):
    empty = len(frame(1)) - 4
    certificates = certificates_of(int(length) - empty)
    with open(frames_path, "wb") as out:
        for seq in range(1, int(count) + 1):
            out.write(frame(seq, certificates))


class Grants:
    """Grants of one shard, whose places go on from one to the next."""

    def __init__(self):
        self.due = 0

    def holds(self, fields):
        if len(fields) < GRANT.size + len(CONTENT):
            return False
        kept, entry, shard, place = GRANT.unpack_from(fields)
        right = (entry, shard, place) == (0, CHANNEL % SHARDS, self.due) and kept in (0, 1)
        self.due = place + 2 - kept
        return right and fields.endswith(struct.pack(">H", len(CONTENT)) + CONTENT)


class Refusals:
    def holds(self, fields):
        return fields == bytes([0, MALFORMED])


def check(path, count, wanted, answers):
    with open(path, "rb") as replies:
        data = replies.read()
    at, right, statuses = 0, 0, {}
    for seq in range(1, int(count) + 1):
        if at + 4 > len(data):
            break
        length = struct.unpack_from(">I", data, at)[0]
        payload = data[at + 4 : at + 4 + length]
        at += 4 + length
        if len(payload) != length or length < HEAD.size + TAG:
            break
        version, channel, number, status = HEAD.unpack_from(payload)
        statuses[status] = statuses.get(status, 0) + 1
        head = (version, channel, number, status) == (4, CHANNEL, seq, wanted)
        sealed = payload[-TAG:] == tag(CHANNEL, payload[:-TAG])
        if head and sealed and answers.holds(payload[HEAD.size : -TAG]):
            right += 1
    told = ", ".join(f"{n} of status {status}" for status, n in sorted(statuses.items()))
    print(f"replies: {told or 'none'}; {right} of {count} are as they should be, by status {wanted}")
    return 0 if right == int(count) and at == len(data) else 1


def main(words):
    if words[:1] == ["write"] and 3 <= len(words) <= 5:
        write(*words[1:])
        return 0
    if words[:1] == ["check"] and len(words) == 3:
        return check(words[1], words[2], GRANTED, Grants())
    if words[:1] == ["write-large"] and len(words) == 4:
        write_large(*words[1:])
        return 0
    if words[:1] == ["check-large"] and len(words) == 3:
        return check(words[1], words[2], REFUSED, Refusals())
    print(__doc__, end="", file=sys.stderr)
    return 2


if __name__ == "__main__":
    sys.exit(main(sys.argv[1:]))
