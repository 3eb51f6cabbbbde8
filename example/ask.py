#!/usr/bin/env python3
"""Writes the requests of the example on standard output: what clients send.

    ask.py CERTIFICATES

CERTIFICATES is a folder of lines as `mint` prints them, one a file. docs/FORMATS.md has the formats. Key n
is 32 bytes of value n.
"""
import hashlib
import hmac
import os
import struct
import sys

BOB = struct.pack(">BI", 2, 30)
LOGIN = ["boot", "channel", "login", "session"]

# What is asked of an object: a byte for the operation, and after the object its fields.
READ = (1, b"")
ALL, TO_READ = 15, 1
ALICE = struct.pack(">BI", 2, 10)
BOB_ON_WS1 = b"\6\5" + struct.pack(">BII", 2, 20, 1) + BOB


def write(content):
    return 2, struct.pack(">H", len(content)) + content


def new_list(*entries):
    return 3, bytes([len(entries)]) + b"".join(bytes([rights]) + who for rights, who in entries)


def discard(name):
    return 5, name


# channel, number, who is quoted, operation, object, certificates, whether a bit of the tag is turned. A client keeps the
# rules of docs/FORMATS.md: its numbers rise from 1, and it uses none twice, whatever became of the request.
REQUESTS = [
    (1, 1, None, READ, 5, [], False),  # key 1 is anchored to alice, who is listed
    (2, 1, None, READ, 5, ["hand-off"], False),  # and may hand that off to key 2
    (2, 2, None, READ, 5, [], False),  # for which the shard holds the certificate now, and the proof
    (2, 2, None, READ, 5, [], False),  # not the client: somebody on the wire sends the frame before this one again
    (2, 9, None, READ, 5, [], False),  # numbers may leave some out
    (4, 1, None, READ, 5, [], False),  # what channel 2 presented is channel 2's
    (4, 2, None, READ, 5, ["by-another"], False),  # key 3 may not hand off what is key 1's
    (4, 3, None, READ, 5, ["ended"], False),  # nor does key 1 for longer than it said
    (4, 4, None, READ, 5, ["turned"], False),  # the relay looks at the issuer's seal
    (1, 2, None, READ, 5, [], True),  # a bit was turned on the way
    (1, 3, None, READ, 7, [], False),  # there is no such object
    (1, 4, None, READ, 5, [], False),  # neither of these two took an entry: this stands behind the first read and its proof
    (15, 1, BOB, READ, 6, LOGIN, False),  # a login: the channel of a session speaks for bob on a machine
    (1, 5, None, write(b"good day"), 5, [], False),  # alice may write
    (1, 6, None, READ, 5, [], False),  # and reads what was written
    (15, 2, BOB, write(b"nothing"), 6, [], False),  # bob may read this, and no more
    (15, 3, BOB, READ, 6, [], False),  # so it is as it was
    (15, 4, BOB, READ, 5, [], False),  # and he is not on this list
    (1, 7, None, new_list((ALL, ALICE), (TO_READ, BOB_ON_WS1)), 5, [], False),  # until alice sets another one
    (15, 5, BOB, READ, 5, [], False),  # by which bob may read
    (1, 8, None, discard("hand-off"), 5, [], False),  # the hand-off to key 2 is let go
    (2, 10, None, READ, 5, [], False),  # and with it the proof that rested on it
]


def key(number):
    return bytes([number]) * 32


def tag(secret, text):
    return hmac.new(secret, text, hashlib.sha256).digest()


def digest(sealed):
    """The digest of a certificate: of its body, which stands between its kind and its tag."""
    return hashlib.sha256(sealed[1:-32]).digest()


def request(channel, seq, quoted, operation, obj, certificates, turned):
    code, fields = operation
    text = struct.pack(">BIQ", 3, channel, seq)
    text += b"\0" if quoted is None else b"\1" + quoted
    text += struct.pack(">BI", code, obj) + fields + bytes([len(certificates)])
    for sealed in certificates:
        text += struct.pack(">H", len(sealed)) + sealed
    seal = bytearray(tag(key(channel), text))
    if turned:
        seal[-1] ^= 1
    payload = text + bytes(seal)
    return struct.pack(">I", len(payload)) + payload


def main(words):
    if len(words) != 1:
        print(__doc__, end="", file=sys.stderr)
        return 2

    def sealed(name):
        with open(os.path.join(words[0], name), encoding="ascii") as line:
            return bytes.fromhex(line.read())

    for channel, seq, quoted, (code, fields), obj, names, turned in REQUESTS:
        if isinstance(fields, str):
            fields = digest(sealed(fields))
        asked = request(channel, seq, quoted, (code, fields), obj, [sealed(name) for name in names], turned)
        sys.stdout.buffer.write(asked)
    return 0


if __name__ == "__main__":
    sys.exit(main(sys.argv[1:]))
