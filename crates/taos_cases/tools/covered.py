#!/usr/bin/env python3
"""Which operation has which reply in the conversations of data/.

    covered.py

Prints a table, and ends with 1 where an operation lacks a reply that it may have. Memory is never refused there, so a program
that answers 11 in place of such a reply differs from a conversation.
"""
import sys

from checking import UNSEALED, Reply, Request, frames_of
from formats import DISCARD, FORGET, HOLD, READ, SET_LIST, SWEEP, WITHDRAW, WRITE
from reading import Granted, all_files, read

OPERATIONS = {READ: "Read", WRITE: "Write", SET_LIST: "SetList", HOLD: "Hold", DISCARD: "Discard", FORGET: "Forget", SWEEP: "Sweep",
              WITHDRAW: "Withdraw"}
# Each reply that stands under a seal, but 11, and the operations that may have it.
REPLIES = {"granted": OPERATIONS, "granted, kept": OPERATIONS, "denied": OPERATIONS, "5 replayed": OPERATIONS,
           "6 certificate refused": OPERATIONS, "7 channel full": OPERATIONS, "8 relay failed": OPERATIONS, "9 unknown object": OPERATIONS,
           "10 object's journal full": OPERATIONS, "10 shard's journal full": OPERATIONS, "12 commons full": [HOLD],
           "13 not held": [DISCARD], "14 withdrawn full": [WITHDRAW], "15 pull failed": OPERATIONS}
TOLD = {word.split(" ")[0]: word for word in REPLIES if word[0].isdigit()}


def word_of(reply):
    """The reply's word in the table, if it has one."""
    if reply.status == 0:
        return "granted, kept" if reply.kept else "granted"
    if reply.status == 1:
        return "denied"
    if reply.status == 10:
        return "10 shard's journal full" if reply.fields[0] else "10 object's journal full"
    return TOLD.get(str(reply.status))


def replies_of(case):
    """The replies that a conversation wants, in order."""
    found, text = [], b""
    for part in case.written:
        if isinstance(part, Granted):
            found += map(Reply, frames_of(text))
            text = b""
            found.append(Reply(part.front))
        else:
            text += part
    return found + list(map(Reply, frames_of(text)))


def pairs_of(case):
    """The operation and the reply of each request under a seal that holds."""
    if case.words("words")[:1] != ["run"] or case.text("status") not in ("0", None):
        return
    for asked, reply in zip(frames_of(case.bytes("input")), replies_of(case)):
        if reply.status not in UNSEALED:
            yield Request(asked).operation, word_of(reply)


def counted():
    """How many conversations have each pair."""
    counts = {}
    for path in all_files():
        for case in read(path):
            for pair in set(pairs_of(case)):
                counts[pair] = counts.get(pair, 0) + 1
    return counts


def main():
    counts = counted()
    print("| Reply | " + " | ".join(OPERATIONS.values()) + " |")
    print("|---" * (len(OPERATIONS) + 1) + "|")
    for word, having in REPLIES.items():
        cells = [str(counts.get((each, word), 0)) if each in having else "" for each in OPERATIONS]
        print(f"| {word} | " + " | ".join(cells) + " |")
    lacking = [f"{OPERATIONS[each]}: {word}" for word, having in REPLIES.items() for each in having if (each, word) not in counts]
    for each in lacking:
        print(f"no conversation has {each}")
    return 1 if lacking else 0


if __name__ == "__main__":
    sys.exit(main())
