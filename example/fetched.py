#!/usr/bin/env python3
"""What stands round a node that fetches certificates, to standard output.

    fetched.py wallet CHANNEL FILE.. | requests

`wallet` writes a wallet file that gives the certificates of these files, lines as `mint` prints them, to a channel's requests.
`requests` writes the frames of a login that presents nothing: bob reads twice what those who are logged in may read, and once what
they may not. Key n is 32 bytes of value n.
"""
import os
import sys

sys.path.insert(0, os.path.join(os.path.dirname(os.path.abspath(__file__)), "..", "clients", "python"))

from yoritzal import Name, Read, Request, Wallet  # noqa: E402

BOB, CHANNEL, OBJECTS = Name(30), 15, [6, 6, 5]


def certificate(path):
    with open(path, encoding="ascii") as line:
        return bytes.fromhex(line.read())


def wallet(channel, *paths):
    for line in Wallet((int(channel), certificate(path)) for path in paths).lines():
        print(line)


def requests():
    for number, target in enumerate(OBJECTS, 1):
        payload = Request(CHANNEL, number, target, Read(), quoted=BOB).payload(bytes([CHANNEL]) * 32)
        sys.stdout.buffer.write(len(payload).to_bytes(4, "big") + payload)


if __name__ == "__main__":
    {"wallet": wallet, "requests": requests}[sys.argv[1]](*sys.argv[2:])
