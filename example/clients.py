#!/usr/bin/env python3
"""Two clients of the example's node. Each has one connection for all it asks, and both are there at the same time.

    clients.py CERTIFICATES HOST PORT

Alice has the channel 1, whose key is anchored to her name. Bob has the channel 15 of a machine that he logged in on, and presents
the certificates of that. CERTIFICATES is a folder of them, as `mint` prints them. Each tells what it asks and what came of it;
grants are checked line by line. Ends with 1 where an answer is another than the example's.
"""
import contextlib
import os
import sys

sys.path.insert(0, os.path.join(os.path.dirname(os.path.abspath(__file__)), "..", "clients", "python"))

from yoritzal import (CONTROL, MANAGE, READ, WRITE, As, Channel, Client, Denied, Discard, Entry, For, Missing,  # noqa: E402
                      Name, NotGranted, ProofFault, Read, SetList, TimeNumbers, Write, body_of, connect)

# What both know of the node: its anchors in the order of its file, and the lists of its objects.
ANCHORS = [(1, 10), (3, 30), (11, 20), (13, 30)]
ALICE, BOB = Name(10), Name(30)
BOB_ON_WS1 = For(As(Name(20), 1), BOB)
OWN = Entry(READ | WRITE | CONTROL | MANAGE, ALICE)
SHARED = (OWN, Entry(READ | WRITE, BOB_ON_WS1))
LISTS = {5: [OWN], 6: [Entry(READ, BOB_ON_WS1)]}


class Other(Exception):
    """An answer is another than the example's."""


class Person:
    """A client with a name, and a connection of its own from its first request until `open_ones` are closed."""

    def __init__(self, name, number, address, open_ones, quoted=None):
        # Key n is 32 bytes of value n. A node that is started anew has forgotten the numbers, but clients use none twice.
        self.name, self.address, self.open_ones, self.quoted = name, address, open_ones, quoted
        self.channel = Channel(number, bytes([number]) * 32, TimeNumbers())
        self.client = None

    def ask(self, words, object, operation, certificates=()):
        print(f"{self.name} {words}", flush=True)
        # A node hears a connection that says nothing for two seconds, so it begins with the first request.
        if self.client is None:
            self.client = Client(self.channel, self.open_ones.enter_context(connect(*self.address)))
        return self.client.ask(object, operation, certificates, self.quoted)

    def gets(self, words, object, operation, certificates=()):
        """What a grant gives, once its proof is checked."""
        answer = self.ask(words, object, operation, certificates)
        result = answer.result
        answer.reply.check(answer.request, ANCHORS, LISTS[object])
        kept = ", kept from before" if answer.reply.kept else ""
        print(f"    granted by entry {answer.reply.entry}; {len(answer.reply.proof.lines)} lines follow{kept}", flush=True)
        return result

    def is_denied(self, words, object, operation):
        reply = self.ask(words, object, operation).reply
        if not isinstance(reply, Denied) or not isinstance(reply.link, Missing):
            raise Other(f"{self.name} {words}: {reply}")
        print(f"    denied: of entry {reply.link.entry} {reply.link.part} is missing", flush=True)


def expect(found, wanted):
    if found != wanted:
        raise Other(f"{found!r} and not {wanted!r}")


def talk(alice, bob, certificates):
    """What the two ask, and what comes of it."""
    expect(bob.gets("logs in on ws1, and reads object 6", 6, Read(), certificates), b"logs")
    alice.gets("writes object 5", 5, Write(b"good day"))
    bob.is_denied("writes object 5", 5, Write(b"and good night"))
    alice.gets("lets bob on ws1 write object 5", 5, SetList(SHARED))
    LISTS[5] = SHARED
    bob.gets("writes object 5", 5, Write(b"and good night"))
    expect(alice.gets("reads object 5", 5, Read()), b"and good night")
    alice.gets("discards the boot certificate of ws1", 5, Discard(body_of(certificates[0]).digest))
    bob.is_denied("reads object 6", 6, Read())
    bob.is_denied("writes object 5", 5, Write(b"once more"))
    expect(alice.gets("reads object 5", 5, Read()), b"and good night")


def read_certificates(folder):
    found = []
    for name in ("boot", "channel", "login", "session"):
        with open(os.path.join(folder, name), encoding="ascii") as line:
            found.append(bytes.fromhex(line.read()))
    return found


def main(words):
    if len(words) != 3:
        print(__doc__, end="", file=sys.stderr)
        return 2
    folder, host, port = words
    address = (host, int(port))
    try:
        with contextlib.ExitStack() as open_ones:
            alice, bob = Person("alice", 1, address, open_ones), Person("bob", 15, address, open_ones, BOB)
            talk(alice, bob, read_certificates(folder))
    except (Other, NotGranted, ProofFault) as fault:
        print(f"clients.py: {fault}", file=sys.stderr)
        return 1
    return 0


if __name__ == "__main__":
    sys.exit(main(sys.argv[1:]))
