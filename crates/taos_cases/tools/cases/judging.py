"""What replay says of journals: the first byte that can't stand, of each field; and each cause, of each kind of entry."""
from checking import Node
from conversation import Case, Times, joined
from formats import DENIES, DISCARD, HOLD, LAST, SET_LIST, WITHDRAW, WRITE, Fields, acting_for, added, ask_entry, digest
from formats import discard_entry, expire_entry, forget_entry, grants, hits, hold_entry, journals, keep_entry, key, lapsed, list_of, no_room
from formats import not_kept, object_entry, proof_of, proved, quoting, told_full, told_replayed, u8, u16, u32, u64, withdraw_entry
from judge import Judge
from .beginning import CF
from .checks import handed_proof
from .nodes import ALICE, BOB, FOR_ALICE, NODES_17, OBJECT, handing, node
from .replays import ASK, KEEP, PROOF, READ_0, one, replay

C1 = handing()
READS = (b"\1", u32(1), u64(1), u64(1000), key(1), list_of(FOR_ALICE), u8(1), u8(0), u8(0))
# One shard, and one entry of it; and an empty shard, an object, and one entry of that.
IN_SHARD = Fields(b"\x07\x01", u32(1), u64(1))
IN_OBJECT = Fields(b"\x07\x01", u32(1), u64(0), u32(1), u32(5), u64(1))
RULED_AT = Fields(IN_OBJECT, u32(0), u64(0))
NODES_16_AND_ONE = b"\x05" * 16 + ALICE


def broken(front, *fault, at=0):
    """Bytes behind a front, of which the one at this place can't stand; where none is named, what is cut."""
    return Fields(front, *fault), len(front) + at


def cut(front, *rest):
    whole = Fields(front, *rest)
    return whole, len(whole)


def asks(*fields, count):
    """The Ask but for its fields from this one on, and these in their place."""
    return broken(Fields(IN_SHARD, *READS[:count]), *fields)


KEEPS = Fields(IN_SHARD, b"\2", u64(0), u8(0))
IN_PROOF = Fields(KEEPS, u32(23))


def heads():
    return [
        ("the first byte alone", *cut(b"\x07")),
        ("another version", *broken(b"\x07", b"\2")),
        ("a count of shards that is cut", *cut(b"\x07\x01", bytes(3))),
        ("a count of entries that is cut", *cut(b"\x07\x01", u32(1), bytes(7))),
        ("a shard of two that is not there", *cut(b"\x07\x01", u32(2), u64(0))),
        ("no count of objects", *cut(b"\x07\x01", u32(1), u64(0))),
        ("a count of objects that is cut", *cut(b"\x07\x01", u32(1), u64(0), bytes(3))),
        ("an object that is not there", *cut(b"\x07\x01", u32(1), u64(0), u32(1))),
        ("an object's number that is cut", *cut(b"\x07\x01", u32(1), u64(0), u32(1), bytes(3))),
        ("an object's count that is cut", *cut(b"\x07\x01", u32(1), u64(0), u32(1), u32(5), bytes(7))),
        ("an object's number again", *broken(Fields(b"\x07\x01", u32(1), u64(0), u32(2), u32(5), u64(0)), u32(5), u64(0))),
        ("a lower number of an object", *broken(Fields(b"\x07\x01", u32(1), u64(0), u32(2), u32(5), u64(0)), u32(4), u64(0))),
        ("an event of kind 0", *broken(IN_SHARD, b"\0")),
        ("an event of kind 8", *broken(IN_SHARD, b"\x08")),
    ]


def of_asks():
    rest = (b"\0",) * 4
    return [
        ("an Ask's channel that is cut", *cut(IN_SHARD, b"\1", bytes(3))),
        ("an Ask's number that is cut", *cut(IN_SHARD, *READS[:2], bytes(7))),
        ("an Ask's reading that is cut", *cut(IN_SHARD, *READS[:3], bytes(7))),
        ("a subject that is not there", *cut(IN_SHARD, *READS[:4])),
        ("a subject of kind 0", *asks(b"\0", *rest, count=4)),
        ("a subject of kind 7", *asks(b"\x07", *rest, count=4)),
        ("a subject of 17 nodes", *broken(Fields(IN_SHARD, *READS[:4]), NODES_17, *rest, at=len(NODES_17) - 5)),
        ("a subject of 17 levels", *broken(Fields(IN_SHARD, *READS[:4]), NODES_16_AND_ONE, *rest, at=16)),
        ("a list of nine entries", *asks(u8(9), *[u8(1) + ALICE] * 9, count=5)),
        ("an entry of no right", *broken(Fields(IN_SHARD, *READS[:5], u8(1)), u8(0), ALICE)),
        ("an entry of the rights 16", *broken(Fields(IN_SHARD, *READS[:5], u8(1)), u8(16), ALICE)),
        ("an entry of no principal", *broken(Fields(IN_SHARD, *READS[:5], u8(1), u8(1)), b"\x09")),
        ("a right of none", *asks(u8(0), *rest, count=6)),
        ("a right of five", *asks(u8(5), *rest, count=6)),
        ("a right of 16", *asks(u8(16), *rest, count=6)),
        ("17 certificates of an Ask", *asks(u8(17), *[u16(32) + bytes(C1)] * 17, count=7)),
        ("a certificate's length that is cut", *cut(IN_SHARD, *READS[:7], u8(1), b"\0")),
        ("a certificate of version 0", *broken(Fields(IN_SHARD, *READS[:7], u8(1), u16(32)), b"\0", bytes(C1)[1:], u8(0))),
        ("a certificate that begins at 0", *broken(Fields(IN_SHARD, *READS[:7], u8(1), u16(40), b"\2", bytes(C1)[1:16]), u64(0), bytes(C1)[16:], u8(0))),
        ("a certificate that is cut", *cut(IN_SHARD, *READS[:7], u8(1), u16(32), bytes(C1)[:31])),
        ("nothing told of an Ask", *cut(IN_SHARD, *READS[:8])),
        ("an entry of a hit that is cut", *cut(IN_SHARD, *READS[:8], u8(1))),
        ("a last number that is cut", *cut(IN_SHARD, *READS[:8], u8(2), bytes(7))),
        ("a count of what is held that is cut", *cut(IN_SHARD, *READS[:8], u8(3))),
    ]


def of_keeps():
    line = [u8(9), u16(0), u16(1), u16(0)]
    return [
        ("the place of a kept proof's Ask that is cut", *cut(IN_SHARD, b"\2", bytes(7))),
        ("no entry of a kept proof", *cut(IN_SHARD, b"\2", u64(0))),
        ("a proof's length that is cut", *cut(KEEPS, bytes(3))),
        ("a proof that is cut", *cut(IN_PROOF, bytes(PROOF)[:22])),
        ("a proof of 1,297 nodes", *broken(IN_PROOF, u16(1297), bytes(21))),
        ("a proof's node of kind 7", *broken(Fields(IN_PROOF, u16(2)), b"\x07", bytes(20))),
        ("a proof of a rule 0", *broken(Fields(IN_PROOF, bytes(PROOF)[:16]), b"\0", *line[1:], bytes(2))),
        ("a proof of a rule 16", *broken(Fields(IN_PROOF, bytes(PROOF)[:16]), b"\x10", *line[1:], bytes(2))),
        ("a proof of a node that is not there", *broken(Fields(IN_PROOF, bytes(PROOF)[:17]), u16(2), bytes(4), bytes(2))),
        ("65 certificates of a kept proof", *broken(Fields(IN_PROOF, PROOF), u8(65), *[u16(32) + bytes(C1)] * 65)),
        ("a kept proof, and nothing told", *cut(IN_PROOF, PROOF, u8(0))),
        ("another answer to a kept proof", *broken(Fields(IN_PROOF, PROOF, u8(0)), u8(3))),
        ("a digest of what is not held that is cut", *cut(IN_PROOF, PROOF, u8(0), u8(1), bytes(31))),
        ("a clock of what lapsed that is cut", *cut(IN_PROOF, PROOF, u8(0), u8(2), bytes(7))),
        ("a lease of what lapsed that is cut", *cut(IN_PROOF, PROOF, u8(0), u8(2), bytes(15))),
    ]


def of_others():
    """Entries of other events, and of objects."""
    one_less = [("a Discard", b"\4", 32), ("a Forget", b"\5", 4), ("an Expire", b"\6", 8), ("a Withdraw", b"\7", 4)]
    rows = [(f"{what} that is cut", *cut(IN_SHARD, kind, bytes(size - 1))) for what, kind, size in one_less]
    rows += [(f"{what} whose count is cut", *cut(IN_SHARD, kind, bytes(size), bytes(3))) for what, kind, size in one_less[:3]]
    write = (u8(WRITE), u16(4097))
    return rows + [
        ("a Hold of 17", *broken(Fields(IN_SHARD, b"\3"), u8(17), *[u16(32) + bytes(C1)] * 17)),
        ("another answer to a Hold", *broken(Fields(IN_SHARD, b"\3", u8(0)), u8(2), u8(0))),
        ("a Hold's count that is cut", *cut(IN_SHARD, b"\3", u8(0), u8(0))),
        ("another answer to a Withdraw", *broken(Fields(IN_SHARD, b"\7", u32(1)), u8(2), bytes(4))),
        ("a Withdraw whose count is cut", *cut(IN_SHARD, b"\7", u32(1), u8(0), bytes(3))),
        ("a shard of a ruling that is cut", *cut(IN_OBJECT, bytes(3))),
        ("a place of a ruling that is cut", *cut(IN_OBJECT, u32(0), bytes(7))),
        ("operation 0 in a journal", *broken(RULED_AT, u8(0), u8(0))),
        ("operation 9 in a journal", *broken(RULED_AT, u8(9), u8(0))),
        ("a Write of 4,097 bytes in a journal", *broken(Fields(RULED_AT, write[0]), write[1], bytes(4097), u8(0))),
        ("a Write in a journal that is cut", *cut(RULED_AT, u8(WRITE), u16(3), b"ne")),
        ("a SetList of nine entries in a journal", *broken(Fields(RULED_AT, u8(SET_LIST)), u8(9), *[u8(1) + ALICE] * 9, u8(0))),
        ("a digest in a journal that is cut", *cut(RULED_AT, u8(DISCARD), bytes(31))),
        ("an issuer in a journal that is cut", *cut(RULED_AT, u8(WITHDRAW), bytes(3))),
        ("another ruling", *broken(Fields(RULED_AT, u8(1)), u8(2), u8(0))),
        ("an entry of a ruling that is cut", *cut(RULED_AT, u8(1), u8(1))),
    ]


def malformed():
    about = "The first byte that can't stand, or the one behind the last where bytes are lacking."
    failing = one([ask(told=hits(0))])
    return [replay(title, about, text, f"malformed byte {offset}") for title, text, offset in heads() + of_asks() + of_keeps() + of_others()] + [
        replay("a byte behind journals that fail", "Malformed bytes come before all else.", Fields(failing, b"\0"), f"malformed byte {len(failing)}"),
        replay("a byte behind journals of other cells", "Malformed bytes come before all else.", Fields(b"\x07\x01", bytes(8), b"\0"), "malformed byte 10"),
        replay("the last byte of other cells is cut", "Malformed bytes come before all else.", Fields(b"\x07\x01", bytes(7)), "malformed byte 9"),
    ]


# ---- causes

TWO, EITHER = [(15, ALICE), (1, ALICE)], [(1, key(1)), (1, ALICE)]
HANDED = handed_proof()


def ask(channel=1, number=1, reading=1000, listed=FOR_ALICE, told=u8(0), **rest):
    return ask_entry(channel, number, key(channel), listed, reading, told=told, **rest)


def login(number=1, reading=1000, bodies=(C1,), **rest):
    """Channel 2 presents what makes it alice."""
    return ask(2, number, reading, bodies=bodies, **rest)


def manage(number=1, reading=1000, **rest):
    return ask(1, number, reading, right=8, **rest)


def kept(place=0, proof=HANDED, bodies=(C1,), **rest):
    return keep_entry(place, proof, bodies=bodies, **rest)


def of_hold(place=0, entry=0):
    return object_entry(place, grants(entry), operation=HOLD)


def of_discard(place=0, text=C1):
    return object_entry(place, grants(0), operation=DISCARD, fields=[digest(text)])


# Channel 2 is granted, channel 1 lets its certificate go, and the proof is kept after that, or not.
LET_GO = [login(), manage(), keep_entry(1, PROOF), discard_entry(C1, 1)]
LET_GO_RULED = [READ_0, of_discard(1)]
# The certificate has ended once channel 1 has asked.
LAPSED = [login(), ask(reading=2000), keep_entry(1, PROOF)]
LAPSED_RULED = [READ_0, object_entry(1, grants(0))]


def legal():
    """Proofs that are kept or dropped, as a node can have them, though not by one connection."""
    of_second = keep_entry(0, PROOF, entry=1)
    return [
        replay("a proof that is kept once its certificate is gone", "It is dropped.", one([*LET_GO, kept(told=not_kept(C1))], LET_GO_RULED),
               "legal entries 7"),
        replay("a proof that is kept once its certificate has ended", "It has lapsed.", one([*LAPSED, kept(told=lapsed(2000, 2000))], LAPSED_RULED),
               "legal entries 6"),
        replay("a proof that is kept for an Ask that was replayed", "It names who asks, and a list.",
               one([ASK, ask(told=told_replayed(1)), keep_entry(1, PROOF)]), "legal entries 4"),
        replay("a proof that is kept twice", "The second takes the place of the first.", one([ASK, KEEP, KEEP]), "legal entries 4"),
        replay("a proof of the second entry that is kept", "Then it is hit, though the first would do.",
               one([ask(listed=EITHER), of_second, ask(number=2, listed=EITHER, told=hits(1))], [READ_0, object_entry(2, grants(1))]), "legal entries 5",
               node(EITHER)),
        replay("a longer proof than need be", "It follows.", one([ASK, keep_entry(0, proved((9, (key(1), ALICE), u16(0)), (1, (ALICE, ALICE)),
                                                                                  (2, (key(1), ALICE), u32(0), u32(1))))]), "legal entries 3"),
        replay("an Ask between an Ask and its Keep", "The shard is not held while it is decided.",
               one([login(), ASK, kept(), keep_entry(1, PROOF)], [READ_0, object_entry(1, grants(0))]), "legal entries 6"),
        replay("a proof with a certificate that has begun", "At the moment of its Ask.",
               one([login(reading=1500, bodies=[CF]), kept(bodies=[CF])]), "legal entries 3"),
        replay("journals at their limit", "Two entries of a shard, one of an object.", one([ASK, KEEP]), "legal entries 3", node(limit=2)),
    ] + legal_rulings()


def legal_rulings():
    """Rulings, and what else is told."""
    new = [(1, BOB)]
    listing = object_entry(0, grants(0), operation=SET_LIST, fields=[list_of(new)])
    other = handing(issuer=3)
    many = [handing(issuer=3, serial=each) for each in range(32)]
    filled = [ask(2, 1, bodies=many[:16]), ask(2, 2, bodies=many[16:])]
    both = [object_entry(0, DENIES), object_entry(1, DENIES)]
    return [
        replay("rulings in another order", "An object is ruled on as it is taken.", one([ASK, login()], [object_entry(1, grants(0)), READ_0]),
               "legal entries 4"),
        replay("an Ask that no entry names", "Memory ran out in place of its grant.", one([ASK], []), "legal entries 1"),
        replay("a new list, and a Read by it", "Bob speaks for himself.",
               one([ask(right=4), ask(3, listed=new)], [listing, object_entry(1, grants(0))]), "legal entries 4"),
        replay("a channel that holds 32, and one more", "It is full.", one([*filled, login(3, told=told_full(32))], both), "legal entries 5"),
        replay("an Expire", "It lets go of what ended 3600 seconds before.", one([ask(2, bodies=[other]), expire_entry(5600, 1)], [object_entry(0, DENIES)]),
               "legal entries 3"),
        replay("an Expire a second before", "It lets go of nothing.", one([ask(2, bodies=[other]), expire_entry(5599, 0)], [object_entry(0, DENIES)]),
               "legal entries 3"),
        replay("denied for what begins later", "It begins at 1500.", one([login(reading=1499, bodies=[CF])], [object_entry(0, DENIES)]), "legal entries 2"),
        replay("denied for what ended", "It ended at 2000.", one([login(reading=2000)], [object_entry(0, DENIES)]), "legal entries 2"),
        replay("no objects, and no entries", "The opening has none either.", journals([[]], []), "legal entries 0",
               [*node()[:-2], Fields(u16(0))]),
        replay("each of 64 shards", "None has an entry.", journals([[]] * 64, [(OBJECT, [])]), "legal entries 0", node(shards=64, limit=16)),
    ]


def cells():
    told = "illegal shard 0 entry 0 cells"
    return [
        replay(title, "The cells come before all entries.", text, told, file) for title, text, file in (
            ("one shard where there are two", one([ASK, KEEP]), node(shards=2)), ("no shard", journals([], [(OBJECT, [])]), None),
            ("no object", journals([[]], []), None), ("an object more", journals([[]], [(OBJECT, []), (6, [])]), None),
            ("an object less", one([ASK, KEEP]), node(more=[6])), ("other cells, and an entry that fails", journals([[ask(told=hits(0))]], []), None))]


def limits():
    bad = keep_entry(0, PROOF, entry=1)
    return [replay(title, "The limit comes before all else of an entry.", text, told, node(limit=1)) for title, text, told in (
        ("an entry too many of a shard, which fails", one([ASK, bad]), "illegal shard 0 entry 1 limit"),
        ("an entry too many of an object", one([ASK], [READ_0, object_entry(9, DENIES)]), "illegal object 5 entry 1 limit"),
        ("an entry too many of an object, and of a shard", one([ASK, KEEP], [READ_0, READ_0]), "illegal shard 0 entry 1 limit"))]


def keeps():
    """Keeps that are not well made."""
    said = [(10, (key(1), key(2), ALICE), u16(0))]
    twice = proved((9, (key(1), ALICE), u16(0)), (10, (key(1), key(2), ALICE), u16(0)), (10, (key(1), key(2), ALICE), u16(1)),
                   (11, (ALICE, key(2), ALICE), u32(2), u32(0)), (13, (key(2), ALICE), u32(3)))
    table = [
        ("no lines", "There is no last one.", [ASK, keep_entry(0, proof_of([], []))], 1),
        ("what is said", "The last line does not say that one speaks for another.", [login(), kept(proof=proved(*said))], 1),
        ("another's proof", "It is of key 1.", [login(), kept(proof=PROOF, bodies=[])], 1),
        ("a certificate twice", "What it cites is distinct.", [login(), kept(proof=twice, bodies=[C1, C1])], 1),
        ("a certificate that is not there", "It is cited by number.", [login(), kept(bodies=[])], 1),
        ("another certificate", "It says another thing.", [login(), kept(bodies=[handing(4)])], 1),
        ("a certificate that has not begun", "The Ask was before it.", [login(reading=1499, bodies=[CF]), kept(bodies=[CF])], 1),
        ("a certificate that began since", "The moment of the Ask counts.", [login(reading=1499, bodies=[CF]), ask(reading=1500), kept(bodies=[CF])], 2),
        ("itself for its Ask", "It names an earlier one.", [ASK, keep_entry(1, PROOF)], 1),
        ("a Keep for its Ask", "It is none.", [ASK, KEEP, keep_entry(1, PROOF)], 2),
        ("an Ask that comes later", "It names an earlier one.", [ASK, keep_entry(2, PROOF), ask(number=2)], 1),
        ("the largest place", "There is no such Ask.", [ASK, keep_entry(LAST, PROOF)], 1),
        ("the entry 255", "The list has one.", [ASK, keep_entry(0, PROOF, entry=255)], 1),
    ]
    cases = [replay(f"a Keep by {title}", about, one(entries, []), f"illegal shard 0 entry {place} keep") for title, about, entries, place in table]
    return cases + [replay("a Keep by no Ask, told wrong", "What is kept comes before what was told.", one([ASK, keep_entry(1, PROOF, told=not_kept(C1))], []),
                           "illegal shard 0 entry 1 keep")]


def tells():
    """Answers that a shard does not give."""
    by_bob = ask_entry(1, 1, quoting(BOB, key(1)), FOR_ALICE, 1000)
    table = [
        ("what is held is told as not held", [login(), kept(told=not_kept(C1))], 1),
        ("what is not held is told as kept", [*LET_GO, kept()], 4),
        ("what is not held is told by another digest", [*LET_GO, kept(told=not_kept(handing(4)))], 4),
        ("what lapsed is told as kept", [*LAPSED, kept()], 3),
        ("what lapsed is told by another clock", [*LAPSED, kept(told=lapsed(2001, 2000))], 3),
        ("what lapsed is told by another lease", [*LAPSED, kept(told=lapsed(2000, 1999))], 3),
        ("what has not lapsed is told as lapsed", [login(), kept(told=lapsed(1000, 2000))], 1),
        ("a hit is told as a miss", [ASK, KEEP, ask(number=2)], 2),
        ("a hit is told by another entry", [ask(listed=TWO), KEEP, ask(number=2, listed=TWO, told=hits(1))], 2),
        ("a hit that lapsed", [login(), kept(), login(2, 2000, (), told=hits(0))], 2),
        ("a hit of another channel", [login(), kept(), ask(4, told=hits(0))], 2),
        ("a new number is told as replayed", [ask(told=told_replayed(0))], 0),
        ("a number that was there is told as a miss", [ASK, ASK], 1),
        ("a number that was there is told by another last", [ASK, ask(told=told_replayed(2))], 1),
        ("a channel with room is told as full", [login(told=told_full(0))], 0),
        ("a Hold is told by one more", [manage(bodies=[C1]), hold_entry([C1], added(2))], 1),
        ("a Hold of what is held is told by one more", [hold_entry([C1], added(1)), hold_entry([C1], added(1))], 1),
        ("a Hold is told as full", [hold_entry([C1], no_room(0))], 0),
        ("a Discard is told by one more", [discard_entry(C1, 1)], 0),
        ("a Forget is told by one more", [login(), forget_entry(2, 2)], 1),
        ("a Forget of another channel is told by one", [login(), forget_entry(4, 1)], 1),
        ("an Expire is told by one", [login(), expire_entry(5599, 1)], 1),
        ("an Expire is told by none", [login(), expire_entry(5600, 0)], 1),
        ("a withdrawal is told by none", [login(), withdraw_entry(1)], 1),
        ("a subject that does not quote under its channel", [by_bob], 0),
        ("a subject that acts for another", [ask_entry(1, 1, acting_for(key(1), BOB), FOR_ALICE, 1000)], 0),
    ]
    cases = [replay(f"told: {title}", "Not what the shard tells.", one(entries, []), f"illegal shard 0 entry {place} told") for title, entries, place in table]
    two = journals([[ASK], []], [(OBJECT, [])])
    return cases + [replay("told: an Ask at another shard", "Channel 1 is of shard 1.", two, "illegal shard 0 entry 0 told", node(shards=2)),
                    replay("told: an Ask at its own shard, and one that fails", "Shards are looked at in order.",
                           journals([[ask(2)], [ask(told=hits(0))]], [(OBJECT, [object_entry(9, DENIES)])]), "illegal shard 1 entry 0 told", node(shards=2))]


def names():
    """Entries of objects that name no Ask, or one that an entry names already."""
    new = [(1, BOB)]
    listing = object_entry(0, grants(0), operation=SET_LIST, fields=[list_of(new)])
    many = [handing(issuer=3, serial=each) for each in range(32)]
    full = [ask(2, 1, bodies=many[:16]), ask(2, 2, bodies=many[16:]), login(3, told=told_full(32))]
    two = journals([[ASK]], [(OBJECT, [READ_0]), (6, [READ_0])])
    denied = [object_entry(each, DENIES) for each in range(3)]
    return [
        replay("an entry that names no place", "The journal has one entry.", one([ASK], [object_entry(1, grants(0))]), "illegal object 5 entry 0 ask"),
        replay("an entry that names the largest place", "The journal has one entry.", one([ASK], [object_entry(LAST, DENIES)]), "illegal object 5 entry 0 ask"),
        replay("an entry that names an Ask of a full channel", "It came to no ruling.", one(full, denied), "illegal object 5 entry 2 ask"),
        replay("an entry with the list before", "It was set since.", one([ask(right=4), ask(number=2)], [listing, object_entry(1, DENIES)]),
               "illegal object 5 entry 1 ask"),
        replay("an entry with the list of a SetList that was denied", "It did not become the list.",
               one([ask(2, right=4), ask(3, listed=new)], [object_entry(0, DENIES, operation=SET_LIST, fields=[list_of(new)]), object_entry(1, grants(0))]),
               "illegal object 5 entry 1 ask"),
        replay("an Ask that two objects name", "The second is that of object 6.", two, "illegal object 6 entry 0 again", node(more=[6])),
        replay("an Ask that is named again by another right", "That it asked for another comes first.",
               one([ASK], [READ_0, object_entry(0, grants(0), operation=WRITE, fields=[u16(0)])]), "illegal object 5 entry 1 ask"),
        replay("an Ask that is named again by another ruling", "That it is named comes first.", one([ASK], [READ_0, object_entry(0, DENIES)]),
               "illegal object 5 entry 1 again"),
        replay("the second entry of an object, and the first of the next", "Objects are looked at in order.",
               journals([[ASK]], [(OBJECT, [READ_0, READ_0]), (6, [object_entry(9, DENIES)])]), "illegal object 5 entry 1 again", node(more=[6])),
    ]


def rulings():
    about = "Not the ruling that is due."
    hit = [ASK, KEEP, ask(number=2, told=hits(0))]
    second = [(14, ALICE), (1, ALICE)]
    of_either = [ask(listed=EITHER), keep_entry(0, PROOF, entry=1), ask(number=2, listed=EITHER, told=hits(1))]
    table = [
        ("a hit that is denied", hit, [READ_0, object_entry(2, DENIES)], 1, None),
             ("a hit by another entry", hit, [READ_0, object_entry(2, grants(1))], 1, None),
        ("granted by what ended", [login(reading=2000)], [READ_0], 0, None),
             ("granted by what has not begun", [login(reading=1499, bodies=[CF])], [READ_0], 0, None),
        ("denied by what is live", [login(reading=1999)], [object_entry(0, DENIES)], 0, None),
        ("granted by the entry without the right", [ask(listed=second)], [READ_0], 0, node(second)),
        ("granted by the later entry", [ask(listed=EITHER)], [object_entry(0, grants(1))], 0, node(EITHER)),
        ("a hit of the later entry that is granted by the first", of_either, [READ_0, object_entry(2, grants(0))], 1, node(EITHER)),
        ("granted by an entry that is not there", [ASK], [object_entry(0, grants(255))], 0, None),
    ]
    return [replay(f"ruling: {title}", about, one(entries, ruled), f"illegal object 5 entry {place} ruling", file) for title, entries, ruled, place,
           file in table]


def bits():
    """The anchored read with each of its bits turned, as the judge of tools/judge.py has it."""
    whole, cases = bytes(one([ASK, KEEP])), []
    for at, byte in enumerate(whole):
        for bit in range(8):
            text = whole[:at] + bytes([byte ^ 1 << bit]) + whole[at + 1 :]
            cases.append(replay(f"byte {at}, bit {bit}", "", text, Judge(Node(joined(node()))).said(text)))
    return cases


def ends():
    """How the command ends where it judges nothing."""
    rest = dict(input=[one([ASK, KEEP])], left=[one([ASK, KEEP])])
    return [
        Case("a replay by a file of no bytes", "It is no opening.", 2, ("replay",), note="taos: node file: line 1: first line", **rest),
        Case("a replay by a file that is cut", "It is no opening.", 2, ("replay",), file=[b"\0\1"], note="taos: node file: byte 2: malformed", **rest),
        Case("a replay by a relay file", "It is no node file.", 2, ("replay",), file=[b"taos-relay 1\n"], note="taos: node file: line 1: first line", **rest),
        Case("a replay by too long a file", "One byte more than a file may have.", 2, ("replay",), file=[Times(b"\0", 4_194_305)],
             note="taos: node file: line 0: limit", **rest),
        Case("a replay whose file fails", "Nothing of the input is taken.", 3, ("replay",), file=node(), file_fails=[0], faults=1,
             note="taos: read fault", **rest),
        Case("a replay that writes nothing", "The line fails.", 4, ("replay",), file=node(), input=[one([ASK, KEEP])], output_fails=[0], faults=1,
             note="taos: write fault"),
        Case("a refusal of a replay that writes nothing", "The status is that of the fault.", 4, ("replay",), file=node(), output_fails=[0], faults=1,
             note="taos: write fault"),
        Case("no note of a replay that refuses", "It would fail.", 14, ("replay",), file=node(), output=[b"malformed byte 0\n"], notes_fails=[0]),
        Case("a replay reads no clock", "It would fail.", 0, ("replay",), file=node(), input=[one([ASK, KEEP])], output=[b"legal entries 3\n"], clock_fails=[0],
             relay_fails=[0], relay_node=(7, bytes(32))),
    ]


def judged():
    return malformed() + legal() + cells() + limits() + keeps() + tells() + names() + rulings() + ends()


THEMES = [("judged", "What replay says of journals: each field that can't stand, and each cause.", judged)]
TRIED = [("bits", "The anchored read as bytes, with each of its bits turned, judged again.", bits)]
