"""What the tests are held against: the worked frames of docs/FORMATS.md and the conversations of crates/taos_cases.

Nothing here is made by the client: the conversations come from a generator that shares nothing with it.
"""
import os
import re
import sys

TOP = os.path.abspath(os.path.join(os.path.dirname(__file__), "..", "..", ".."))
sys.path.insert(0, os.path.join(TOP, "crates", "taos_cases", "tools"))
sys.path.insert(0, os.path.join(TOP, "clients", "python"))

import reading  # noqa: E402
from yoritzal import (And, As, Discard, Entry, For, Forget, Hold, Key, Name, Quoting, Read, Request, SetList,  # noqa: E402
                      Sweep, Withdraw, Write)

TAG = 32


def key_of(number):
    """Key n of the vectors is 32 bytes of value n."""
    return bytes([number]) * 32


def turned(data, bit):
    """The same with one bit turned; bits are counted from the highest of the first byte."""
    other = bytearray(data)
    other[bit // 8] ^= 0x80 >> bit % 8
    return bytes(other)


def worked(heading):
    """The bytes of each block of a section of docs/FORMATS.md: of each line the digits before its comment."""
    with open(os.path.join(TOP, "docs", "FORMATS.md"), encoding="utf-8") as file:
        section = file.read().split(f"\n## {heading}\n")[1].split("\n## ")[0]
    return [b"".join(map(digits_of, block.splitlines())) for block in re.findall(r"```text\n(.*?)```", section, re.S)]


def digits_of(line):
    """The digits at the front of a line, as bytes."""
    found = []
    for word in line.split():
        if not re.fullmatch(r"([0-9a-f]{2})+", word):
            break
        found.append(word)
    return bytes.fromhex("".join(found))


def conversations(*names):
    """Those of these files, or all."""
    files = [os.path.join(reading.DATA, name) for name in names] or reading.all_files()
    return [case for path in files for case in reading.read(path)]


def payloads_of(data):
    """The payloads of whole frames."""
    at, found = 0, []
    while at + 4 <= len(data):
        end = at + 4 + int.from_bytes(data[at : at + 4], "big")
        if end > len(data):
            break
        found.append(data[at + 4 : end])
        at = end
    return found


class Parts:
    """Fields from the front of some bytes, for the tests alone."""

    def __init__(self, data):
        self.data, self.at = data, 0

    def take(self, count):
        if self.at + count > len(self.data):
            raise ValueError("bytes are lacking")
        self.at += count
        return self.data[self.at - count : self.at]

    def number(self, width):
        return int.from_bytes(self.take(width), "big")

    def counted(self, width):
        return self.take(self.number(width))

    def term(self, nodes=64):
        kind = self.number(1)
        if kind in (1, 2):
            return (Key, Name)[kind - 1](self.number(4))
        if kind == 5:
            return As(self.term(), self.number(4))
        if kind not in (3, 4, 6):
            raise ValueError("no term")
        left = self.term()
        return {3: And, 4: Quoting, 6: For}[kind](left, self.term())

    def list(self):
        return tuple(Entry(self.number(1), self.term()) for _ in range(self.number(1)))


def operation(code, parts):
    if code == 2:
        return Write(parts.counted(2))
    if code == 3:
        return SetList(parts.list())
    if code == 5:
        return Discard(parts.take(32))
    if code == 6:
        return Forget(parts.number(4))
    if code == 8:
        return Withdraw(parts.number(4))
    return {1: Read, 4: Hold, 7: Sweep}[code]()


def asked(payload):
    """The request that a payload is. One that has another shape is refused by ValueError or KeyError."""
    parts = Parts(payload)
    if parts.number(1) != 3:
        raise ValueError("another version")
    channel, number, flag = parts.number(4), parts.number(8), parts.number(1)
    if flag > 1:
        raise ValueError("quoted is neither there nor not there")
    quoted = parts.term() if flag else None
    code, target = parts.number(1), parts.number(4)
    what = operation(code, parts)
    shown = tuple(parts.counted(2) for _ in range(parts.number(1)))
    parts.take(TAG)
    if parts.at != len(payload):
        raise ValueError("bytes follow")
    return Request(channel, number, target, what, shown, quoted)


class Opening:
    """A binary opening: its channels' keys, its anchors, its certificates in common, its objects' lists, and its numbers."""

    def __init__(self, data):
        parts = Parts(data)
        parts.take(38)
        self.shards, self.keep, self.limit = parts.number(4), parts.number(8), parts.number(8)
        self.keys = {}
        for _ in range(parts.number(2)):
            number = parts.number(4)
            self.keys[number] = parts.take(32)
        self.anchors = [(parts.number(4), parts.number(4)) for _ in range(parts.number(1))]
        self.commons = [parts.counted(2) for _ in range(parts.number(1))]
        self.objects = {}
        for _ in range(parts.number(2)):
            number = parts.number(4)
            parts.counted(2)
            self.objects[number] = parts.list()


def opening_of(case):
    """The opening of a conversation, where its file is a binary one that is whole."""
    data = case.bytes("file")
    if not data.startswith(b"\0\1"):
        return None
    try:
        return Opening(data)
    except ValueError:
        return None
