"""Journals as bytes: the audit that writes them, and the replay that judges them.

What is answered is from the rules of journals: the first byte that can't stand; else that the cells are
others; else the first entry that fails, shards before objects, with the first of its causes.
"""
from conversation import Case
from formats import DENIES, WITHDRAW, WRITE, Fields, anchor_proof, ask_entry, grants, hits, journals, keep_entry, key, object_entry
from formats import same_proof, told_replayed, u8, u16, u32, withdraw_entry
from .checks import C1, handed_proof
from .files import usage
from .nodes import ALICE, BOB, FOR_ALICE, OBJECT, ask, node
from .objects import withdraw

PROOF = anchor_proof(1, 10, 0)
# The anchored read at 1000: an Ask, a Keep, and the object's entry.
ASK = ask_entry(1, 1, key(1), FOR_ALICE, 1000)
KEEP = keep_entry(0, PROOF)
READ_0 = object_entry(0, grants(0))


def one(entries, ruled=(READ_0,)):
    """The journals of one shard and of object 5."""
    return journals([list(entries)], [(OBJECT, list(ruled))])


ANCHORED = one([ASK, KEEP])
# Channel 1 withdraws issuer 1, of whom nothing is held.
MANAGES = ask_entry(1, 1, key(1), FOR_ALICE, 1000, right=8)
WITHDRAWN = [MANAGES, KEEP, withdraw_entry(1)]
ITS_GRANT = object_entry(0, grants(0), operation=WITHDRAW, fields=[u32(1)])


def changed(place, byte):
    """The anchored read with another byte at a place."""
    text = bytearray(bytes(ANCHORED))
    text[place] = byte
    return Fields(bytes(text))


# ---- audits

def audit(title, about, asked, output, status=0, words=("audit-bytes",), **lines):
    return Case(title, about, status, words, file=node(), input=asked, output=output, **lines)


def audits():
    second = ask_entry(1, 2, key(1), FOR_ALICE, told=hits(0))
    again = ask_entry(1, 1, key(1), FOR_ALICE, told=told_replayed(1))
    first = ask_entry(1, 1, key(1), FOR_ALICE)
    denied = ask_entry(2, 1, key(2), FOR_ALICE)
    return [
        audit("the anchored read, as bytes", "The 120 bytes of its journals.", [ask(1, 1)], [ANCHORED], clock=[1000]),
        audit("two reads, as bytes", "The second is served from the cache.", [ask(1, 1), ask(1, 2)],
              [one([first, KEEP, second], [READ_0, object_entry(2, grants(0))])]),
        audit("a read that is replayed, as bytes", "It comes to no ruling.", [ask(1, 1), ask(1, 1)], [one([first, KEEP, again])]),
        audit("a denial, as bytes", "Nobody speaks for alice.", [ask(2, 1)], [one([denied], [object_entry(0, DENIES)])]),
        audit("a withdrawal, as bytes", "The shard's own entry has a byte before its count.", [withdraw(1)],
              [one(WITHDRAWN, [ITS_GRANT])], clock=[1000]),
        audit("nothing, as bytes", "No journal has an entry.", [], [one([], [])]),
        audit("bytes that are cut", "Writing fails after seven bytes.", [ask(1, 1)], [bytes(ANCHORED)[:7]], 4, output_room=7,
              faults=1, clock=[1000], note="taos: write fault"),
        audit("bytes of a frame too many", "None are written.", [ask(1, 1), ask(1, 2)], [], 10, ("audit-bytes", "--frames", "1"),
              left=[bytes(ask(1, 2))[1:]], note="taos: frames spent: 1"),
        audit("bytes of as many frames", "A million frames where nothing is said.", [ask(1, 1)], [ANCHORED],
              words=("audit-bytes", "--frames=1"), clock=[1000]),
        usage("no frames of an audit as bytes", ["audit-bytes", "--frames", "0"], "At least one frame.", file=node()),
        usage("lemmas of an audit as bytes", ["audit-bytes", "--lemmas", "1"], "An option of another command.", file=node()),
    ]


# ---- replays

def replay(title, about, text, told, file=None, **lines):
    legal = told.startswith("legal")
    return Case(title, about, 0 if legal else 14, ("replay",), file=node() if file is None else file, input=[text],
                output=[f"{told}\n".encode("ascii")], **lines)


def read(number, told, reading=1000, **fields):
    return ask_entry(1, number, key(1), FOR_ALICE, reading, told=told, **fields)


def late_login():
    """An Ask that presents a certificate of issuer 1."""
    return ask_entry(2, 1, key(2), FOR_ALICE, 1000, bodies=[C1])


def legal():
    written = Fields(object_entry(0, grants(0), operation=WRITE, fields=[u16(3), b"new"]))
    writing = read(1, u8(0), right=2)
    login = ask_entry(2, 1, key(2), FOR_ALICE, 1000, bodies=[C1])
    both = [writing, KEEP, login, keep_entry(2, handed_proof(), bodies=[C1])]
    second = read(2, hits(0))
    return [
        replay("the anchored read, judged again", "An Ask, a Keep, and the object's entry.", ANCHORED, "legal entries 3"),
        replay("no proof kept", "A node that has no memory for it keeps none.", one([ASK]), "legal entries 2"),
        replay("a read that a kept proof serves", "By the entry of its list.",
               one([ASK, KEEP, second], [READ_0, object_entry(2, grants(0))]), "legal entries 5"),
        replay("a write, and a login that reads it", "The login's proof cites what it presents.",
               one(both, [written, object_entry(2, grants(0))]), "legal entries 6"),
        replay("an issuer withdrawn", "Nothing of it is held.", one(WITHDRAWN, [ITS_GRANT]), "legal entries 4"),
        replay("a certificate of a withdrawn issuer", "It does not count, so the login is denied.",
               one([*WITHDRAWN, late_login()], [ITS_GRANT, object_entry(3, DENIES)]), "legal entries 6"),
        replay("no entries", "Each journal is empty.", one([], []), "legal entries 0"),
    ]


MALFORMED = [
    ("no journals", "Not one byte.", Fields(), 0),
    ("another first byte", "It says that they are journals.", changed(0, 8), 0),
    ("a right of three", "A right is one of four.", changed(47, 3), 47),
    ("an answer that there is not", "Of an Ask there are four.", changed(49, 4), 49),
    ("a byte behind the journals", "Nothing stands behind them.", Fields(ANCHORED, b"\0"), 120),
    ("a last byte that is cut", "It is lacking at the end.", ANCHORED.front(119), 119),
    ("more entries than bytes", "The first of them is lacking.", Fields(b"\x07\x01", u32(1), bytes.fromhex("0000010000000000")), 14),
]


def judged():
    two = journals([[ASK, KEEP], []], [(OBJECT, [READ_0])])
    wrong_hit = read(1, hits(0))
    small = node(limit=1)
    return [replay(title, about, text, f"malformed byte {place}") for title, about, text, place in MALFORMED] + [
        replay("another object", "Object 6 is not in the opening.", changed(96, 6), "illegal shard 0 entry 0 cells"),
        replay("two shards where there is one", "The cells come before all entries.", two, "illegal shard 0 entry 0 cells"),
        replay("a journal that is too long", "It has room for one entry.", ANCHORED, "illegal shard 0 entry 1 limit", small),
        replay("a Keep of no Ask", "No Ask stands at place 1.", one([ASK, keep_entry(1, PROOF)]), "illegal shard 0 entry 1 keep"),
        replay("a Keep by no entry", "The list has one entry.", one([ASK, keep_entry(0, PROOF, entry=1)]), "illegal shard 0 entry 1 keep"),
        replay("a Keep of no proof", "Anchor 1 is of another key.", one([ASK, keep_entry(0, anchor_proof(1, 10, 1))]),
               "illegal shard 0 entry 1 keep"),
        replay("a Keep of another proof", "That a key speaks for itself.", one([ASK, keep_entry(0, same_proof(key(1)))]),
               "illegal shard 0 entry 1 keep"),
        replay("a hit by no kept proof", "Nothing is kept yet.", one([wrong_hit, KEEP]), "illegal shard 0 entry 0 told"),
        replay("a channel of no shard", "It has no key in the opening.", changed(18, 9), "illegal shard 0 entry 0 told"),
        replay("a subject of another channel", "Key 2 does not speak on channel 1.", changed(39, 2), "illegal shard 0 entry 0 told"),
        replay("a number that is not above", "Numbers begin with one.", changed(26, 0), "illegal shard 0 entry 0 told"),
        replay("a withdrawal of what is not held", "No certificate was let go.",
               one([MANAGES, KEEP, withdraw_entry(1, told=u8(0) + u32(1))], [ITS_GRANT]), "illegal shard 0 entry 2 told"),
        replay("a withdrawal without room", "No issuer is withdrawn yet.",
               one([MANAGES, KEEP, withdraw_entry(1, told=u8(1) + u8(64))], [ITS_GRANT]), "illegal shard 0 entry 2 told"),
        replay("granted by a certificate of a withdrawn issuer", "The login is denied.",
               one([*WITHDRAWN, late_login()], [ITS_GRANT, object_entry(3, grants(0))]), "illegal object 5 entry 1 ruling"),
        replay("an entry that names no Ask", "A Keep stands there.", one([ASK, KEEP], [object_entry(1, grants(0))]),
               "illegal object 5 entry 0 ask"),
        replay("an entry that names no shard", "There is one shard.", one([ASK, KEEP], [object_entry(0, grants(0), shard=1)]),
               "illegal object 5 entry 0 ask"),
        replay("an entry with another list", "Who asked had another list.",
               one([ask_entry(1, 1, key(1), [(14, ALICE)], 1000)]), "illegal object 5 entry 0 ask"),
        replay("an entry with another right", "It asked to read.",
               one([ASK], [object_entry(0, grants(0), operation=WRITE, fields=[u16(3), b"new"])]), "illegal object 5 entry 0 ask"),
        replay("an Ask that is replayed, named", "It came to no ruling.", one([read(0, told_replayed(0))]),
               "illegal object 5 entry 0 ask"),
        replay("an Ask that is named twice", "The second entry names it again.", one([ASK, KEEP], [READ_0, READ_0]),
               "illegal object 5 entry 1 again"),
        replay("an entry that grants by another", "The first entry is the one.", one([ASK, KEEP], [object_entry(0, grants(1))]),
               "illegal object 5 entry 0 ruling"),
        replay("a grant that is denied", "Key 1 is anchored to alice.", one([ASK, KEEP], [object_entry(0, DENIES)]),
               "illegal object 5 entry 0 ruling"),
        replay("a denial that is granted", "Nobody speaks for bob.",
               one([ask_entry(2, 1, key(2), [(1, BOB)], 1000)]), "illegal object 5 entry 0 ruling", node([(1, BOB)])),
        replay("a shard before an object", "Each fails, and the shard comes first.", one([wrong_hit], [object_entry(9, DENIES)]),
               "illegal shard 0 entry 0 told"),
    ]


def failing():
    note = "taos: write fault"
    return [
        Case("a replay's line that is cut", "Writing the line fails after five bytes.", 4, ("replay",), file=node(), input=[ANCHORED],
             output=[b"legal"], output_room=5, faults=1, note=note),
        Case("a replay whose input fails", "Nothing is written.", 3, ("replay",), file=node(), input=[ANCHORED], input_fails=[0],
             byte_fails=[0], faults=1, left=[ANCHORED], note="taos: read fault"),
        usage("frames of a replay", ["replay", "--frames", "1"], "It has no option.", file=node(), input=[ANCHORED], left=[ANCHORED]),
        usage("a word behind a replay", ["replay", "1"], "It has no option.", file=node(), input=[ANCHORED], left=[ANCHORED]),
    ]


def replays():
    return legal() + judged() + failing()


THEMES = [
    ("audit_bytes", "The command that serves a connection and writes the journals as bytes.", audits),
    ("replay", "The command that judges journals as bytes.", replays),
]
