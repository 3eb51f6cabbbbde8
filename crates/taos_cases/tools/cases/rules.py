"""What check says of proofs by each rule, and of replies that are none."""
from conversation import Case
from formats import Fields, acting_for, body, both, frame, grant_front, grant_text, granted, in_role, key, key_of, proof_of
from formats import proved, quoting, sealed_reply, tagged, u8, u16, u32, u64
from .checks import ANCHORED, BY_ONE, C1, GRANT, HANDED, found, handed_proof, node, refused
from .nodes import ALICE, BOB, HELLO, NODES_17, READER, TAOS, ask

ONE, TWO, THREE = key(1), key(2), key(3)
SAME, CHAIN, LEFT, RIGHT, BOTH, QUOTE, FOR, ROLE, ANCHOR, SAID, LIFT, JOIN, HAND_OFF, DELEGATE, ROLE_UNDER = range(1, 16)
AS_TAOS, PAIR = in_role(ALICE, TAOS), both(ALICE, ONE)


def anchor(number, whom, place):
    return ANCHOR, (key(number), whom), u16(place)


def by(rule, fact, *lines):
    """A line that names other lines."""
    return rule, fact, *map(u32, lines)


ALICES, BOBS = anchor(1, ALICE, 0), anchor(3, BOB, 1)
# Key 1 is alice and itself, so both together.
TOGETHER = [ALICES, (SAME, (ONE, ONE)), by(BOTH, (ONE, PAIR), 0, 1)]
# Key 3 says that key 1, which quotes bob, acts for bob; so bob says it.
ACTS = acting_for(ONE, BOB)
LOGIN = body(3, quoting(ONE, BOB), ACTS, 2000, 1)
SPOKEN = [BOBS, (SAID, (THREE, quoting(ONE, BOB), ACTS), u16(0)), by(LIFT, (BOB, quoting(ONE, BOB), ACTS), 1, 0)]
ACTING = [*SPOKEN, by(DELEGATE, (quoting(ONE, BOB), ACTS), 2)]
FOR_BOB = [*ACTING, ALICES, (SAME, (BOB, BOB)), by(FOR, (ACTS, acting_for(ALICE, BOB)), 4, 5)]
# Keys 1 and 3 say the same of key 2: that it speaks for alice and bob.
MATES = both(ALICE, BOB)
JOINED = [ALICES, BOBS, (SAID, (ONE, TWO, MATES), u16(0)), (SAID, (THREE, TWO, MATES), u16(1)), by(LIFT, (ALICE, TWO, MATES), 2, 0),
          by(LIFT, (BOB, TWO, MATES), 3, 1), by(JOIN, (MATES, TWO, MATES), 4, 5)]
WORDS = [body(1, TWO, MATES, 2000, 1), body(3, TWO, MATES, 2000, 1)]
UNDER = [ALICES, (ROLE, (ONE, in_role(ONE, TAOS))), by(ROLE_UNDER, (in_role(ONE, TAOS), AS_TAOS), 0)]


def asked(channel, quoted):
    return ask(channel, 1, quoted=quoted)


def follows():
    """Proofs that follow: the rules that they show, the entry, the lines, the certificates, who asks and whom it quotes."""
    table = [
        ("Role and Chain", AS_TAOS, [ALICES, (ROLE, (ALICE, AS_TAOS)), by(CHAIN, (ONE, AS_TAOS), 0, 1)], [], 1, None),
        ("Both", PAIR, TOGETHER, [], 1, None),
        ("Left", ALICE, [*TOGETHER, (LEFT, (PAIR, ALICE)), by(CHAIN, (ONE, ALICE), 2, 3)], [], 1, None),
        ("Right", ONE, [*TOGETHER, (RIGHT, (PAIR, ONE)), by(CHAIN, (ONE, ONE), 2, 3)], [], 1, None),
        ("RoleUnder", AS_TAOS, [*UNDER, by(CHAIN, (ONE, AS_TAOS), 1, 2)], [], 1, None),
        ("Delegate", ACTS, ACTING, [LOGIN], 1, BOB),
        ("For", acting_for(ALICE, BOB), [*FOR_BOB, by(CHAIN, (quoting(ONE, BOB), acting_for(ALICE, BOB)), 3, 6)], [LOGIN], 1, BOB),
        ("Join", MATES, [*JOINED, by(HAND_OFF, (TWO, MATES), 6)], WORDS, 2, None),
        ("one fact twice", ALICE, [ALICES, ALICES], [], 1, None),
        ("a line that no other uses", ALICE, [(SAME, (BOB, BOB)), ALICES], [], 1, None),
    ]
    return [found(f"a proof by {title}", "Each line follows.", [asked(channel, quoted), granted(channel, 1, proved(*lines), bodies=bodies)],
                  (0, len(lines), len(bodies)), node([(1, who)])) for title, who, lines, bodies, channel, quoted in table]


def strays():
    """A line by each rule that does not follow, behind lines that do."""
    other = [body(1, TWO, MATES, 2000, 1), body(3, TWO, ALICE, 2000, 1)]
    unlike = [*JOINED[:3], (SAID, (THREE, TWO, ALICE), u16(1)), JOINED[4], by(LIFT, (BOB, TWO, ALICE), 3, 1), by(JOIN, (MATES, TWO, MATES), 4, 5)]
    table = [
        ("Same of two", [(SAME, (ONE, ALICE))], []),
        ("Chain of two that do not meet", [ALICES, BOBS, by(CHAIN, (ONE, BOB), 0, 1)], []),
        ("Chain in the wrong order", [ALICES, (ROLE, (ALICE, AS_TAOS)), by(CHAIN, (ONE, AS_TAOS), 1, 0)], []),
        ("Chain that names itself", [ALICES, by(CHAIN, (ONE, ALICE), 0, 1)], []),
        ("Chain that names a later line", [by(CHAIN, (ONE, ALICE), 1, 1), ALICES], []),
        ("Chain that names no line", [ALICES, by(CHAIN, (ONE, ALICE), 0, 2**32 - 1)], []),
        ("Left to the right", [(LEFT, (PAIR, ONE))], []),
        ("Left of one who quotes", [(LEFT, (quoting(ALICE, ONE), ALICE))], []),
        ("Right to the left", [(RIGHT, (PAIR, ALICE))], []),
        ("Both the other way round", [*TOGETHER[:2], by(BOTH, (ONE, PAIR), 1, 0)], []),
        ("Both of one line twice", [*TOGETHER[:2], by(BOTH, (ONE, PAIR), 0, 0)], []),
        ("Quote for And", [ALICES, BOBS, by(QUOTE, (both(ONE, THREE), both(ALICE, BOB)), 0, 1)], []),
        ("Quote the other way round", [ALICES, BOBS, by(QUOTE, (quoting(ONE, THREE), quoting(ALICE, BOB)), 1, 0)], []),
        ("Quote of one line twice", [ALICES, BOBS, by(QUOTE, (quoting(ONE, THREE), quoting(ALICE, BOB)), 0, 0)], []),
        ("For as Quote", [ALICES, BOBS, by(FOR, (quoting(ONE, THREE), quoting(ALICE, BOB)), 0, 1)], []),
        ("For the other way round", [ALICES, BOBS, by(FOR, (acting_for(ONE, THREE), acting_for(ALICE, BOB)), 1, 0)], []),
        ("For of one line twice", [ALICES, BOBS, by(FOR, (acting_for(ONE, THREE), acting_for(ALICE, BOB)), 0, 0)], []),
        ("Role of another", [(ROLE, (ALICE, in_role(BOB, TAOS)))], []),
        ("Role backwards", [(ROLE, (AS_TAOS, ALICE))], []),
        ("RoleUnder another role", [ALICES, by(ROLE_UNDER, (in_role(ONE, TAOS), in_role(ALICE, READER)), 0)], []),
        ("RoleUnder backwards", [ALICES, by(ROLE_UNDER, (AS_TAOS, in_role(ONE, TAOS)), 0)], []),
        ("an anchor backwards", [(ANCHOR, (ALICE, ONE), u16(0))], []),
        ("Said by who is quoted", [(SAID, (quoting(ONE, BOB), TWO, ALICE), u16(0))], [C1]),
        ("Said by a certificate that is not there", [(SAID, (ONE, TWO, ALICE), u16(1))], [C1]),
        ("Lift by who does not speak", [ALICES, (SAID, (THREE, TWO, ALICE), u16(0)), by(LIFT, (ALICE, TWO, ALICE), 1, 0)], [body(3, TWO, ALICE, 2000, 1)]),
        ("Lift of what speaks", [ALICES, by(LIFT, (ALICE, ONE, ALICE), 0, 0)], []),
        ("Lift to another", [ALICES, (SAID, (ONE, TWO, ALICE), u16(0)), by(LIFT, (TWO, TWO, ALICE), 1, 0)], [C1]),
        ("Join of two words", unlike, other),
        ("Join the other way round", [*JOINED[:6], by(JOIN, (MATES, TWO, MATES), 5, 4)], WORDS),
        ("Join of one line twice", [*JOINED[:6], by(JOIN, (MATES, TWO, MATES), 4, 4)], WORDS),
        ("HandOff of another's", [ALICES, (SAID, (ONE, TWO, ALICE), u16(0)), by(HAND_OFF, (TWO, ALICE), 1)], [C1]),
        ("HandOff of what speaks", [ALICES, by(HAND_OFF, (ONE, ALICE), 0)], []),
        ("Delegate of a hand-off", [ALICES, (SAID, (ONE, TWO, ALICE), u16(0)), by(LIFT, (ALICE, TWO, ALICE), 1, 0), by(DELEGATE, (TWO, ALICE), 2)], [C1]),
        ("Delegate of what speaks", [BOBS, by(DELEGATE, (quoting(ONE, BOB), ACTS), 0)], []),
        ("Delegate by who is not quoted", [SPOKEN[1], by(DELEGATE, (quoting(ONE, BOB), ACTS), 0)], [LOGIN]),
        ("HandOff for Delegate", [*SPOKEN, by(HAND_OFF, (quoting(ONE, BOB), ACTS), 2)], [LOGIN]),
        ("a quoting for an acting", [(SAME, (ONE, ONE)), by(CHAIN, (quoting(ONE, BOB), ACTS), 0, 0)], []),
    ]
    return [refused(f"no proof by {title}", "The last line does not follow.", [BY_ONE, granted(1, 1, proved(*lines), bodies=bodies)], "proof")
            for title, lines, bodies in table]


# ---- replies

def sealed(*fields):
    return frame(tagged(key_of(1), *fields))


def of_grant(proof=ANCHORED, bodies=(), content=HELLO, front=None):
    return sealed(grant_text(front or grant_front(1, 1, 0, 0, 0), proof, bodies, content))


def counted(*fields):
    """A grant, with these in place of its proof's length and what is behind it."""
    return sealed(Fields(grant_front(1, 1, 0, 0, 0), *fields))


def no_proofs():
    """Grants whose proof does not parse, or has another table."""
    nodes, line = [ONE, ALICE], Fields(u8(ANCHOR), u16(0), u16(1), u16(0))
    return [
        ("a proof of one byte more", of_grant(Fields(ANCHORED, b"\0"))), ("a proof of one byte less", of_grant(ANCHORED.front(22))),
        ("no proof", of_grant(Fields())), ("a table with one more", of_grant(proof_of([*nodes, BOB], [line]))),
        ("a table in another order", of_grant(proof_of([ALICE, ONE], [Fields(u8(ANCHOR), u16(1), u16(0), u16(0))]))),
        ("a table with one twice", of_grant(proof_of([ONE, ONE, ALICE], [Fields(u8(ANCHOR), u16(0), u16(2), u16(0))]))),
        ("a node of kind 0", of_grant(proof_of([ONE, b"\0" + ALICE[1:]], [line]))), ("a node of kind 7", of_grant(proof_of([ONE, b"\7" + ALICE[1:]], [line]))),
        ("a node of a later one", of_grant(proof_of([Fields(u8(3), u16(0), u16(1)), ONE], [line]))),
        ("a line of a node that is not there", of_grant(proof_of(nodes, [Fields(u8(ANCHOR), u16(0), u16(2), u16(0))]))),
        ("a line of rule 0", of_grant(proof_of(nodes, [Fields(u8(0), u16(0), u16(1))]))),
             ("a line of rule 16", of_grant(proof_of(nodes, [Fields(u8(16), u16(0), u16(1))]))),
        ("a hand-off whose first rule is Role", granted(2, 1, in_place(handed_proof(), 21, ROLE), bodies=[C1])),
        ("1,297 nodes", of_grant(Fields(u16(1297)))), ("1,762,561 lines", of_grant(Fields(u16(0), u32(1_762_561)))),
        ("a proof's length that is cut", counted(bytes(3))), ("a proof that is not there", counted(u32(23))),
    ]


def in_place(fields, at, byte):
    text = bytearray(bytes(fields))
    text[at] = byte
    return Fields(bytes(text))


def no_grants():
    """Grants whose other fields can't stand."""
    behind = Fields(u32(len(ANCHORED)), ANCHORED)
    front = bytes(grant_front(1, 1, 0, 0, 0))
    return [
        ("kept 2", of_grant(front=Fields(front[:14] + b"\2" + front[15:]))), ("another version", of_grant(front=Fields(b"\3" + front[1:]))),
        ("65 certificates", counted(behind, u8(65), *[Fields(u16(len(C1)), C1)] * 65, u16(0))),
        ("a body of version 0", of_grant(bodies=[Fields(b"\0", bytes(C1)[1:])])), ("a body and a byte", of_grant(bodies=[Fields(C1, b"\0")])),
        ("a body that is cut", of_grant(bodies=[C1.front(31)])), ("a body of no bytes", of_grant(bodies=[b""])),
        ("a body that begins at 0", of_grant(bodies=[Fields(b"\2", bytes(C1)[1:16], u64(0), bytes(C1)[16:])])),
        ("a result that is cut", counted(behind, u8(0), u16(6), b"hello")), ("a byte behind a grant's tag", frame(Fields(bytes(GRANT)[4:]), b"\0")),
        ("a grant without its last byte", frame(bytes(GRANT)[4:-1])),
    ]


WHERE = u32(0) + u64(0)


def no_others():
    """Replies of other statuses that can't stand, under their seal."""
    table = [
        ("a pull that failed", 15), ("status 16", 16), ("status 255", 255), ("a link of kind 0", 1, WHERE, b"\0"),
             ("a link of kind 5", 1, WHERE, b"\5", bytes(33)),
        ("what ended, cut", 1, WHERE, b"\1", bytes(32)), ("what is missing, and is none", 1, WHERE, b"\2\0\0"),
        ("what is missing, of 17 nodes", 1, WHERE, b"\2\0", NODES_17), ("what begins, cut", 1, WHERE, b"\4", bytes(32)),
        ("no entry, and a byte", 1, WHERE, b"\3\0"), ("no link", 1, WHERE), ("a place that is cut", 1, bytes(11)), ("status 2, cut", 2, bytes(3)),
        ("status 3 and a byte", 3, bytes(5)), ("status 4 and a byte", 4, b"\0"), ("status 5, cut", 5, bytes(7)), ("status 6, cut", 6, b"\0"),
             ("status 7, cut", 7),
        ("status 8 and a byte", 8, bytes(2)), ("status 9, cut", 9, bytes(3)), ("a journal of neither", 10, b"\2", bytes(12)), ("status 10, cut", 10, bytes(12)),
        ("status 11 and a byte", 11, b"\0"), ("status 12, cut", 12, bytes(4)), ("status 13, cut", 13, bytes(31)), ("status 14 and a byte", 14, bytes(6)),
    ]
    return [(title, sealed_reply(1, 1, status, *fields)) for title, status, *fields in table]


def replies():
    cases = [refused(f"no reply: {title}", "It is no reply, though it is sealed.", [BY_ONE, reply], "reply") for title,
           reply in no_proofs() + no_grants() + no_others()]
    whole = [("what ended", 1, WHERE, b"\1\0", bytes(32)), ("what is missing", 1, WHERE, b"\2\0", ALICE), ("no entry", 1, WHERE, b"\3"),
             ("what begins", 1, WHERE, b"\4\0", bytes(32)), ("status 2", 2, bytes(4)), ("status 3", 3, bytes(4)), ("status 4", 4), ("status 5", 5, bytes(8)),
             ("status 6", 6, b"\0\1"), ("status 7", 7, b"\x20"), ("status 8", 8, b"\0"), ("status 9", 9, bytes(4)), ("status 10, of an object", 10, bytes(13)),
             ("status 10, of a shard", 10, b"\1", bytes(12)), ("status 11", 11), ("status 12", 12, bytes(5)), ("status 13", 13, bytes(32)),
                  ("status 14", 14, bytes(5))]
    return cases + [refused(f"a reply: {title}", "It is a reply, and no grant.", [BY_ONE, sealed_reply(1, 1, status, *fields)], "status")
                    for title, status, *fields in whole]


def others():
    later = body(1, TWO, ALICE, 2**64 - 1, 1, begins=2**64 - 2)
    return [
        found("a grant by what has not begun", "No time is looked at.", [ask(2, 1), granted(2, 1, handed_proof(), bodies=[later])], (0, 4, 1)),
        found("a grant by what ended at once", "No time is looked at.",
               [ask(2, 1), granted(2, 1, handed_proof(), bodies=[body(1, TWO, ALICE, 0, 1)])], (0, 4, 1)),
        found("a grant that was kept", "It is the node's word.", [BY_ONE, granted(1, 1, ANCHORED, kept=1)]),
        refused("a hand-off by anchor 1", "Key 3's is another.", [ask(2, 1), granted(2, 1, in_place(handed_proof(), 27, 1), bodies=[C1])], "proof"),
        refused("the grant to channel 2 beside the request of channel 1", "Channel and number come before the seal.", [BY_ONE, HANDED], "echo"),
        Case("check by a file that fails behind the first read", "Nothing is looked at.", 3, ["check"], file=node(), input=[BY_ONE, GRANT], file_fails=[1],
             left=[BY_ONE, GRANT], faults=1, note="taos: read fault"),
    ]


def rules():
    return follows() + strays() + others()


THEMES = [
    ("rules", "What check says of proofs by each rule.", rules),
    ("no_replies", "What check says of replies that are none, and of those that are no grant.", replies),
]
