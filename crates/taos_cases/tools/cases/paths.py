"""First paths, and what is refused before a request comes to its object."""
from conversation import Case, Grant, talk
from formats import DISCARD, FORGET, READ, SET_LIST, WITHDRAW, WRITE, Fields, anchor_proof, bad_seal
from formats import frame, granted, key, key_of, malformed, missing, no_right, quoting, refused
from formats import request, tagged, turned, u8, u16, u32, unknown_channel, unknown_object
from .nodes import ALICE, BOB, NODES_17, SMALL, ask, by_anchor, by_itself, handed
from .nodes import no_alice, node, three

LARGE = bytes(range(256)) * 16


def first():
    quoted = quoting(key(1), BOB)
    return [
        Case("an empty input", "No frame, no reply; the opening of 64 bytes has no channel.", file=SMALL),
        talk("the anchored read", "Key 1 is anchored to alice, who is listed. docs/FORMATS.md has the bytes.",
             node(), [(ask(1, 1), by_anchor(1))]),
        talk("no anchor", "Nothing speaks for alice, who is all of entry 0.",
             node(), [(ask(2, 1), no_alice(2, 1))]),
        talk("an empty list", "No entry has the right.", node([]), [(ask(1, 1), no_right(1, 1))]),
        talk("a list without the right to read", "Entry 0 is of who asks, with all rights but one.",
             node([(14, ALICE)]), [(ask(1, 1), no_right(1, 1))]),
        talk("a listed key", "A key speaks for itself.", node([(1, key(2))]), [(ask(2, 1), by_itself(2, 1))]),
        talk("a listed key that quotes", "Who is quoted makes another subject, which is listed here.",
             node([(1, quoted)]), [(ask(1, 1, quoted=BOB), Grant(1, 1, 0)),
                                   (ask(1, 2), missing(1, 2, BOB, place=2))]),
        talk("a hand-off", "Key 1 hands on to key 2 what it is anchored to.",
             node(), [(ask(2, 1, handed()), Grant(2, 1, 1))], clock=[1000]),
        talk("the second entry, behind one that may not read", "The first entry with the right is granted.",
             node([(14, key(1)), (1, ALICE)]), [(ask(1, 1), by_anchor(1, entry=1))]),
        talk("the first of two entries that both may read", "Each would do.",
             node([(1, ALICE), (1, key(1))]), [(ask(1, 1), by_anchor(1))]),
        talk("the last of eight entries", "The seven before it are not derivable.",
             node([(1, BOB)] * 7 + [(1, ALICE)]), [(ask(1, 1), by_anchor(1, entry=7))]),
        talk("two shards", "Channel 1 is of shard 1.", node(shards=2), [(ask(1, 1), by_anchor(1, shard=1))]),
        talk("one certificate in common", "It was not presented.",
             node(commons=[handed()]), [(ask(2, 1), Grant(2, 1, 1))], clock=[1000]),
        talk("an empty content", "A result of no bytes.", node(content=b""),
             [(ask(1, 1), granted(1, 1, anchor_proof(1, 10, 0), content=b""))]),
        talk("a content of 4,096 bytes", "The longest, in a frame that is written in two pieces.",
             node(content=LARGE), [(ask(1, 1), granted(1, 1, anchor_proof(1, 10, 0), content=LARGE))]),
        talk("a grant, a denial and what is no request", "Each frame has its reply, in order.",
             node(), list(zip(three(), three_replies()))),
    ]


def three_replies():
    return [by_anchor(1), no_alice(2, 1, place=2), malformed(0)]


def writing(channel=1, certificates=()):
    return frame(request(channel, 1, WRITE, 5, [u16(3), b"new"], certificates))


REFUSALS = [
    ("an empty payload", "No request has no bytes.", Fields(bytes(4)), malformed(0)),
    ("a byte behind the tag", "It is the first that can't be there.", frame(request(1, 1), b"\0"), malformed(52)),
    ("channel 9", "It has no key in the opening.", ask(9, 1), unknown_channel(9)),
    ("channel 9 with a turned tag", "There is no key to look at the tag with.", turned(ask(9, 1)),
     unknown_channel(9)),
    ("a turned tag", "The channel's key has another tag.", turned(ask(1, 1)), bad_seal()),
    ("the tag of another channel's key", "The request is of channel 1, the key that of channel 2.",
     frame(tagged(key_of(2), Fields(*request(1, 1).parts[:-1]))), bad_seal()),
    ("a turned tag of a Write", "The seal comes first.", turned(writing()), bad_seal()),
    ("a turned tag of an object that is not there", "The seal comes first.", turned(ask(1, 1, target=6)),
     bad_seal()),
    ("object 6", "It is not in the opening.", ask(1, 1, target=6), unknown_object(1, 1, 6)),
    ("a Write with a turned certificate", "Nothing is written.",
     writing(certificates=[turned(handed())]), refused(1, 1, 0, 3)),
    ("a turned certificate and object 6", "The certificate comes first.", ask(2, 1, turned(handed()), target=6),
     refused(2, 1, 0, 3)),
]


def refusals():
    cases = [talk(title, about, node(), [(asked, reply)]) for title, about, asked, reply in REFUSALS]
    behind = [(asked, reply) for _, _, asked, reply in REFUSALS] + [(ask(1, 1), by_anchor(1))]
    about = "None of them takes an entry or a number: the Read behind them has the first of both."
    return cases + [talk("all of them in turn", about, node(), behind)]


HEAD = Fields(b"\x03", u32(1), bytes(7) + b"\x01")
READS = Fields(HEAD, b"\0", u8(READ), u32(5))


def of_operation(operation, *fields):
    return Fields(HEAD, b"\0", u8(operation), u32(5), *fields)


def quoted_text(term):
    return Fields(HEAD, b"\x01", term)


# A payload, and the byte at which it can be no request: the head has 13 bytes, the fields come behind 19.
NO_REQUESTS = [
    ("another version", Fields(b"\x02", u32(1), bytes(8)), 0),
    ("the version of a reply", Fields(b"\x04", u32(1), bytes(8)), 0),
    ("the version alone", Fields(b"\x03"), 1),
    ("a channel that is cut", Fields(b"\x03", bytes(3)), 4),
    ("a number that is cut", Fields(b"\x03", u32(1), bytes(7)), 12),
    ("no word on who is quoted", HEAD, 13),
    ("neither quoted nor not", Fields(HEAD, b"\x02"), 13),
    ("a quoted term that is not there", Fields(HEAD, b"\x01"), 14),
    ("a quoted term of kind 0", quoted_text(b"\0"), 14),
    ("a quoted term of kind 7", quoted_text(b"\x07"), 14),
    ("a quoted name that is cut", quoted_text(ALICE[:3]), 17),
    ("a quoted term of 15 nodes", quoted_text(b"\x05" * 14 + ALICE), 28),
    ("a quoted term of 14 nodes and no more", quoted_text(b"\x05" * 13 + ALICE + bytes(52)), 84),
    ("no operation", Fields(HEAD, b"\0"), 14),
    ("operation 0", of_operation(0), 14),
    ("operation 9", of_operation(9), 14),
    ("an object that is cut", Fields(HEAD, b"\0", u8(READ), bytes(3)), 18),
    ("no count of certificates", READS, 19),
    ("17 certificates", Fields(READS, u8(17)), 19),
    ("16 certificates that are not there", Fields(READS, u8(16)), 20),
    ("a certificate's length that is cut", Fields(READS, u8(1), b"\0"), 21),
    ("a certificate that is cut", Fields(READS, u8(1), u16(2), b"\x02"), 23),
    ("no tag", Fields(READS, u8(0)), 20),
    ("a tag that is cut", Fields(READS, u8(0), bytes(31)), 51),
    ("a tag and a byte", Fields(READS, u8(0), bytes(33)), 52),
    ("4,097 bytes to write", of_operation(WRITE, u16(4097)), 19),
    ("4,096 bytes to write that are not there", of_operation(WRITE, u16(4096)), 21),
    ("nine entries", of_operation(SET_LIST, u8(9)), 19),
    ("eight entries that are not there", of_operation(SET_LIST, u8(8)), 20),
    ("an entry of no rights", of_operation(SET_LIST, u8(1), u8(0)), 20),
    ("an entry of rights 16", of_operation(SET_LIST, u8(1), u8(16)), 20),
    ("an entry of kind 0", of_operation(SET_LIST, u8(1), u8(15), b"\0"), 21),
    ("an entry of depth 17", of_operation(SET_LIST, u8(1), u8(15), b"\x05" * 16 + ALICE), 37),
    ("an entry of 17 nodes", of_operation(SET_LIST, u8(1), u8(15), NODES_17), 69),
    ("a digest that is cut", of_operation(DISCARD, bytes(31)), 50),
    ("a channel to forget that is cut", of_operation(FORGET, bytes(3)), 22),
    ("an issuer to withdraw that is cut", of_operation(WITHDRAW, bytes(3)), 22),
]


def requests():
    about = "Byte {} is the first that can't stand where it does."
    cases = [talk(f"no request: {title}", about.format(offset), node(), [(frame(payload), malformed(offset))])
             for title, payload, offset in NO_REQUESTS]
    all_of_them = [(frame(payload), malformed(offset)) for _, payload, offset in NO_REQUESTS]
    about = "Each is answered, without a seal, and the request behind them too."
    return cases + [talk("all of them, and a request", about, node(), all_of_them + [(ask(1, 1), by_anchor(1))])]


THEMES = [
    ("first", "First paths: what is granted and what is denied.", first),
    ("refusals", "What is refused before a request comes to its object, the first that applies.", refusals),
    ("requests", "What is no request, and at which byte.", requests),
]
