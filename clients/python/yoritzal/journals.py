"""Journals as bytes, as `audit-bytes` writes them: what the shards and objects of a node left, entry by entry. The `lines`
of journals are those of `audit`, and what a line of `replay` names is `explained`."""
from dataclasses import dataclass

from .certificates import read_body
from .fields import Malformed, Reader
from .proofs import MAX_LINES, read_proof
from .requests import (CONTROL, MANAGE, MAX_CONTENT, MAX_ENTRIES, MAX_PRESENTED, READ, WRITE, Discard, Entry, Forget, Hold,
                       Read, SetList, Sweep, Withdraw, Write)
from .terms import ENTRY_NODES, read_term

MAX_CITED = 64
RIGHTS = {READ: "read", WRITE: "write", CONTROL: "control", MANAGE: "manage"}
# Where a proof cites nothing its lease never ends.
NEVER = (1 << 64) - 1
# What was due, by the last word of a line of `replay`.
WAS_DUE = {
    "cells": "one journal for each shard and each object of the opening was due, and no other",
    "limit": "no entry was due: the journal may have no more",
    "keep": "a proof was due for the Ask that it names, by the entry of its list that it names",
    "told": "another answer was due, or none: the shard takes no such event",
    "ask": "an Ask was due that was judged, with the right of the operation and the list that the object has there",
    "again": "an Ask was due that no entry before names",
    "ruling": "another ruling was due to this Ask",
}


@dataclass(frozen=True)
class Journals:
    """The entries of each shard, and of each object by its number."""

    shards: tuple
    objects: dict

    def lines(self):
        """The entries as lines, those of the shards first."""
        for cell, journals in (("shard", enumerate(self.shards)), ("object", self.objects.items())):
            for number, entries in journals:
                for place, entry in enumerate(entries):
                    yield f"{cell} {number} entry {place} {entry}"

    def explained(self, line):
        """What a line of `replay` names, as lines: the entry, the Ask that it names, and what was due."""
        words = line.split()
        if words[0] != "illegal":
            return [line]
        cell, number, place = words[1], int(words[2]), int(words[4])
        entry = _at(self._journal(cell, number), place) if words[5] != "cells" else None
        told = [] if entry is None else [f"{cell} {number} entry {place} {entry}"]
        if isinstance(entry, Keep):
            told += self._asked(number, entry.ask)
        if isinstance(entry, Ruled):
            told += self._asked(entry.shard, entry.place)
        return told + [WAS_DUE[words[5]]]

    def _journal(self, cell, number):
        return _at(self.shards, number) if cell == "shard" else self.objects.get(number)

    def _asked(self, shard, place):
        entry = _at(_at(self.shards, shard), place)
        return [] if entry is None else [f"shard {shard} entry {place} {entry}"]


@dataclass(frozen=True)
class Ask:
    channel: int
    number: int
    reading: int
    subject: object
    entries: tuple
    right: int
    presented: tuple
    told: str

    def __str__(self):
        asked = f"ask channel {self.channel} seq {self.number} reading {self.reading}"
        return f"{asked} certificates {len(self.presented)} right {RIGHTS[self.right]} -> {self.told}"


@dataclass(frozen=True)
class Keep:
    """The proof of the Ask at a place by an entry of its list. Whose it is follows from that Ask, and the lease from what
    it cites; where it had lapsed one is told too."""

    ask: int
    entry: int
    proof: object
    cites: tuple
    told: str
    told_lease: object = None

    @property
    def lease(self):
        return min((body.until for body in self.cites), default=NEVER)

    def __str__(self):
        return f"keep ask {self.ask} entry {self.entry} lease {self.lease} -> {self.told}"


@dataclass(frozen=True)
class Change:
    """A Hold, Discard, Forget, Expire or Withdraw: its words, what was told, and of a Hold the bodies that were to be held."""

    what: str
    told: str
    bodies: tuple = ()

    def __str__(self):
        return f"{self.what} -> {self.told}"


@dataclass(frozen=True)
class Ruled:
    """An operation on an object, by the Ask at a place of a shard; `entry` is the one that granted it, if it was granted."""

    shard: int
    place: int
    operation: object
    entry: object

    def __str__(self):
        ruling = "denied" if self.entry is None else f"granted {self.entry}"
        return f"ask {self.shard}/{self.place} {_words(self.operation)} -> {ruling}"


def _words(operation):
    if isinstance(operation, Write):
        return f"write {len(operation.content)}"
    if isinstance(operation, SetList):
        # The program writes no blanks about this sign.
        return "list " + "; ".join(f"{_letters(each.rights)} {each.who}" for each in operation.entries).replace(" | ", "|")
    if isinstance(operation, Discard):
        return f"discard {operation.digest.hex()}"
    if isinstance(operation, Forget):
        return f"forget {operation.channel}"
    if isinstance(operation, Withdraw):
        return f"withdraw {operation.issuer}"
    return type(operation).__name__.lower()


def _letters(rights):
    return "".join(letter for letter, right in zip("rwcm", RIGHTS) if rights & right)


def _at(items, place):
    return items[place] if items is not None and place < len(items) else None


def read_journals(data):
    """The journals that all these bytes spell. Other bytes are refused by Malformed at the first that can't stand there."""
    fields = Reader(data)
    _one_of(fields, {7})
    _one_of(fields, {1})
    shards = tuple(_many(fields, 8, _entry) for _ in _times(fields.number(4)))
    objects, above = {}, 0
    for _ in _times(fields.number(4)):
        at, number = fields.at, fields.number(4)
        if number < above:
            fields.refuse(f"the object {number}, which is not above the one before", at)
        objects[number], above = _many(fields, 8, _ruled), number + 1
    fields.end()
    return Journals(shards, objects)


def _times(count):
    """So many times, however many."""
    while count:
        yield count
        count -= 1


def _many(fields, width, read):
    return tuple(read(fields) for _ in _times(fields.number(width)))


def _one_of(fields, numbers):
    at, found = fields.at, fields.number(1)
    if found not in numbers:
        fields.refuse(f"the number {found}", at)
    return found


def _inside(fields, width, read):
    """What fills bytes behind their length. A fault in them has its place in all of the bytes."""
    count = fields.number(width)
    start = fields.at
    inside = fields.take(count)
    try:
        return read(inside)
    except Malformed as fault:
        raise Malformed(start + fault.offset, "a part that is malformed") from fault


def _bodies(fields, most):
    return tuple(_inside(fields, 2, read_body) for _ in range(fields.number(1, most=most)))


def _list(fields):
    return tuple(Entry(_one_of(fields, range(1, 16)), read_term(fields, ENTRY_NODES))
                 for _ in range(fields.number(1, most=MAX_ENTRIES)))


# ---- shards

def _entry(fields):
    return (_ask, _keep, _hold, _discard, _forget, _expire, _withdraw)[_one_of(fields, range(1, 8)) - 1](fields)


def _ask(fields):
    asked = (fields.number(4), fields.number(8), fields.number(8), read_term(fields, ENTRY_NODES), _list(fields),
             _one_of(fields, RIGHTS), _bodies(fields, MAX_PRESENTED))
    kind = _one_of(fields, range(4))
    if kind == 0:
        return Ask(*asked, "miss")
    return Ask(*asked, ("hit", "replayed", "full")[kind - 1] + f" {fields.number(8 if kind == 2 else 1)}")


def _keep(fields):
    kept = fields.number(8), fields.number(1), _inside(fields, 4, _proof), _bodies(fields, MAX_CITED)
    kind = _one_of(fields, range(3))
    if kind == 0:
        return Keep(*kept, "kept")
    if kind == 1:
        return Keep(*kept, f"dropped not-held {fields.take(32).hex()}")
    clock, lease = fields.number(8), fields.number(8)
    return Keep(*kept, f"dropped lapsed {clock}", lease)


def _proof(data):
    return read_proof(data, MAX_LINES)


def _hold(fields):
    bodies = _bodies(fields, MAX_PRESENTED)
    kind = _one_of(fields, range(2))
    return Change(f"hold {len(bodies)}", ("added", "full")[kind] + f" {fields.number(1)}", bodies)


def _discard(fields):
    return Change(f"discard {fields.take(32).hex()}", _removed(fields))


def _forget(fields):
    return Change(f"forget {fields.number(4)}", _removed(fields))


def _expire(fields):
    return Change(f"expire {fields.number(8)}", _removed(fields))


def _withdraw(fields):
    issuer = fields.number(4)
    told = f"full {fields.number(1)}" if _one_of(fields, range(2)) else _removed(fields)
    return Change(f"withdraw {issuer}", told)


def _removed(fields):
    return f"removed {fields.number(4)}"


# ---- objects

def _ruled(fields):
    asked = fields.number(4), fields.number(8), _operation(fields)
    return Ruled(*asked, fields.number(1) if _one_of(fields, range(2)) else None)


def _operation(fields):
    kind = _one_of(fields, range(1, 9))
    if kind == Write.code:
        return Write(fields.take(fields.number(2, most=MAX_CONTENT)))
    if kind == SetList.code:
        return SetList(_list(fields))
    if kind == Discard.code:
        return Discard(fields.take(32))
    if kind == Forget.code:
        return Forget(fields.number(4))
    if kind == Withdraw.code:
        return Withdraw(fields.number(4))
    return {Read.code: Read, Hold.code: Hold, Sweep.code: Sweep}[kind]()
