"""Looking over a request and its reply."""
from conversation import Case, Times
from formats import WRITE, Fields, anchor_proof, denied, frame, grant_front, grant_text, granted, key, key_of
from formats import list_of, name, opening, proof_of, quoting, request, same_proof, tagged, turned, u8, u16, u32
from .faults import READ_FAULT, WRITE_FAULT
from .nodes import ALICE, BOB, FOR_ALICE, HELLO, NODE, ask, by_anchor, handing, relayed

GRANTED = "granted entry {} lines {} certificates {}\n"


def node(entries=FOR_ALICE, shards=1):
    """Node 7 with the channels 1 and 2, the anchors of key 1 to alice and of key 3 to bob, and object 5."""
    anchors, objects = [(1, 10), (3, 30)], [(5, HELLO, entries)]
    return opening(NODE, key_of(NODE), shards, 3600, 16_384, [1, 2], anchors, [], objects)


BY_ONE, GRANT = ask(1, 1), by_anchor(1)
ANCHORED, C1 = anchor_proof(1, 10, 0), handing()
WRITING = frame(request(1, 1, WRITE, 5, [u16(3), b"new"]))
DENIED = denied(1, 1, 0, 0, u8(3))


def handed_proof(last=(u8(13), u16(2), u16(1), u32(2))):
    """Key 1 is alice's, says that key 2 speaks for alice, so alice says it, so key 2 does."""
    nodes = [key(1), name(10), key(2)]
    lines = [Fields(u8(9), u16(0), u16(1), u16(0)), Fields(u8(10), u16(0), u16(2), u16(1), u16(0)),
             Fields(u8(11), u16(1), u16(2), u16(1), u32(1), u32(0)), Fields(*last)]
    return proof_of(nodes, lines)


HANDED = granted(2, 1, handed_proof(), bodies=[C1])


def under(secret, channel=1, number=1, proof=ANCHORED, entry=0):
    text = grant_text(grant_front(channel, number, entry, 0, 0), proof, (), HELLO)
    return frame(tagged(secret, text))


def line(text):
    return [Fields(text.encode())]


def refused(title, about, frames, word, file=None, **lines):
    return Case(title, about, 11, ["check"], file=file or node(), input=frames, output=line(f"refused: {word}\n"),
                **lines)


def found(title, about, frames, counts=(0, 1, 0), file=None, **lines):
    return Case(title, about, 0, ["check"], file=file or node(), input=frames,
                output=line(GRANTED.format(*counts)), **lines)


def grants():
    of_two = node([(2, ALICE), (1, ALICE)])
    quoted = node([(1, quoting(ALICE, BOB))])
    anchored = Fields(u8(9), u16(0), u16(1), u16(0))
    lines = [anchored, Fields(u8(1), u16(2), u16(2)), Fields(u8(6), u16(3), u16(4), u32(0), u32(1))]
    nodes = [key(1), name(10), name(30), Fields(u8(4), u16(0), u16(2)), Fields(u8(4), u16(1), u16(2))]
    return [
        found("a grant by an anchor", "Of one line.", [BY_ONE, GRANT]),
        found("a grant by a hand-off", "Of four lines and a certificate.", [ask(2, 1, relayed(C1)), HANDED],
              (0, 4, 1)),
        found("a grant of what is held", "The request presented no certificate.", [ask(2, 1), HANDED], (0, 4, 1)),
        found("a grant of the second entry", "The first may not read.",
              [BY_ONE, granted(1, 1, ANCHORED, entry=1)], (1, 1, 0), of_two),
        found("a grant of a key to itself", "By Same.", [ask(2, 1), granted(2, 1, same_proof(key(2)))],
              file=node([(1, key(2))])),
        found("a grant to one who quotes", "By Quote.",
              [ask(1, 1, quoted=BOB), granted(1, 1, proof_of(nodes, lines))], (0, 3, 0), quoted),
        found("another shard and another place", "They are the node's word.",
              [BY_ONE, granted(1, 1, ANCHORED, shard=9, place=9)]),
        found("another content", "It is the node's word.", [BY_ONE, granted(1, 1, ANCHORED, content=b"other")]),
        found("a certificate that is not used", "It is counted.", [BY_ONE, granted(1, 1, ANCHORED, bodies=[C1])],
              (0, 1, 1)),
        found("a grant of a Write", "By an entry with the right.", [WRITING, GRANT]),
        found("a node of two shards", "The same is found.", [BY_ONE, GRANT], file=node(shards=2)),
        found("a byte behind the second frame", "It is not read.", [BY_ONE, GRANT, b"\x2a"], left=[b"\x2a"]),
        found("a frame behind the second frame", "It is not read.", [BY_ONE, GRANT, BY_ONE], left=[BY_ONE]),
    ]


def wrong_requests():
    about = "What is wrong with the request comes first."
    longer = frame(request(1, 1), b"\0")
    cut = Fields(*BY_ONE.parts[:-1])
    return [
        refused("no frame", about, [], "request"),
        refused("three bytes of a length", about, [bytes(3)], "request"),
        refused("a request that is cut", about, [cut], "request"),
        refused("the longest request that is not there", about, [u32(65_536)], "request"),
        refused("a longer request", about, [u32(65_537)], "request"),
        refused("a longer request, and bytes", "They are not read.", [u32(65_537), GRANT], "request",
                left=[GRANT]),
        refused("no request", "A reply is none.", [GRANT, GRANT], "request"),
        refused("an empty request", about, [bytes(4), GRANT], "request"),
        refused("a request with a byte behind it", about, [longer, GRANT], "request"),
        refused("channel 9", about, [ask(9, 1)], "channel"),
        refused("channel 9, and a reply", about, [ask(9, 1), GRANT], "channel"),
        refused("a request with another tag", about, [Fields(*BY_ONE.parts[:-1], bytes(32))], "request-seal"),
        refused("a request with a turned tag", about, [turned(BY_ONE), GRANT], "request-seal"),
    ]


def wrong_replies():
    about = "The first of the words that holds."
    foreign = anchor_proof(1, 10, 1)
    table = [
        ("no second frame", [], "reply"),
        ("three bytes of a second length", [bytes(3)], "reply"),
        ("a reply that is cut", [Fields(*GRANT.parts[:-1])], "reply"),
        ("a longer reply", [u32(67_108_865)], "reply"),
        ("the longest reply that is not there", [u32(67_108_864)], "reply"),
        ("an empty reply", [bytes(4)], "reply"),
        ("a request for a reply", [BY_ONE], "reply"),
        ("a grant to channel 2", [under(key_of(2), 2)], "echo"),
        ("a grant to another request", [under(key_of(1), 1, 2)], "echo"),
        ("a grant to channel 2 under the key of channel 1", [under(key_of(1), 2)], "echo"),
        ("a reply that nobody sealed", [frame(b"\4", bytes(12), u8(4), bytes(32))], "echo"),
        ("a grant under another key", [under(key_of(2))], "reply-seal"),
        ("a grant with a turned tag", [turned(GRANT)], "reply-seal"),
        ("a denial", [DENIED], "status"),
        ("a denial with a turned tag", [turned(DENIED)], "reply-seal"),
        ("an entry that is not there", [under(key_of(1), entry=1)], "entry"),
        ("another anchor", [under(key_of(1), proof=foreign)], "proof"),
        ("an anchor that is not there", [under(key_of(1), proof=anchor_proof(1, 10, 2))], "proof"),
        ("a proof of the key for itself", [under(key_of(1), proof=same_proof(key(1)))], "conclusion"),
        ("a proof that bob speaks for himself", [under(key_of(1), proof=same_proof(BOB))], "conclusion"),
        ("an entry that is not there, and another anchor", [under(key_of(1), proof=foreign, entry=1)], "entry"),
    ]
    return [refused(title, about, [BY_ONE, *frames], word) for title, frames, word in table]


def wrong_proofs():
    said = Fields(u8(10), u16(0), u16(2), u16(1), u16(0))
    nodes = [key(1), key(2), name(10)]
    stated = proof_of(nodes, [Fields(u8(10), u16(0), u16(1), u16(2), u16(0))])
    unlifted = (u8(13), u16(2), u16(1), u32(1))
    return [
        refused("object 6", "It is not in the opening.", [ask(1, 1, target=6), GRANT], "object"),
        refused("object 6, and a denial", "That it is no grant comes first.", [ask(1, 1, target=6), DENIED],
                "status"),
        refused("a request that quotes", "Its subject is another.", [ask(1, 1, quoted=BOB), GRANT], "conclusion"),
        refused("a hand-off without its certificate", "The second line does not follow.",
                [ask(2, 1), granted(2, 1, handed_proof())], "proof"),
        refused("a hand-off with another certificate", "It says another thing.",
                [ask(2, 1), granted(2, 1, handed_proof(), bodies=[handing(4)])], "proof"),
        refused("a hand-off by key 3", "Another speaker says it.",
                [ask(2, 1), granted(2, 1, handed_proof(), bodies=[handing(issuer=3)])], "proof"),
        refused("a hand-off that nobody lifted", "It is not alice who says it.",
                [ask(2, 1), granted(2, 1, handed_proof(unlifted), bodies=[C1])], "proof"),
        refused("a statement at the end", "It does not say that one speaks for another.",
                [ask(2, 1), granted(2, 1, stated, bodies=[C1])], "proof"),
        refused("no line", "There is no last one.", [BY_ONE, under(key_of(1), proof=proof_of([], []))], "proof"),
        refused("a Write by who may read alone", "The entry lacks the right.", [WRITING, GRANT], "entry",
                node([(1, ALICE)])),
        refused("a Read by who may do all but that", "The entry lacks the right.", [BY_ONE, GRANT], "entry",
                node([(14, ALICE)])),
        refused("an empty list", "There is no entry.", [BY_ONE, GRANT], "entry", node([])),
    ]


# A call, its first and last byte where the input comes byte by byte.
CALLS = [("the request's length", 0, (0, 3)), ("the request", 1, (4, 55)), ("the reply's length", 2, (56, 59)),
         ("the reply", 3, (60, 154))]


def ended():
    frames, file = [BY_ONE, GRANT], node()
    text = GRANTED.format(0, 1, 0)
    cases = [Case(f"reading {what} fails, at byte {byte}", "Nothing is written.", 3, ["check"], file=file,
                  input=frames, input_fails=[call], byte_fails=[byte], note=READ_FAULT, faults=1)
             for what, call, places in CALLS for byte in places]
    cases += [found("a read behind the reply would fail", "There is none.", frames, input_fails=[4],
                    byte_fails=[155])]
    cases += [refused("a read behind a longer request would fail", "There is none.", [u32(65_537), b"\0"],
                      "request",
                      input_fails=[1], byte_fails=[4], left=[b"\0"])]
    cases += [Case("the end of the input fails", "It is not known that there is no reply.", 3, ["check"],
                   file=file,
                   input=[BY_ONE], input_fails=[2], byte_fails=[56], note=READ_FAULT, faults=1)]
    cases += [Case(f"room for {room} bytes of the line", "A front of it is written.", 4, ["check"], file=file,
                   input=frames, output=line(text[:room]) if room else [], output_room=room, note=WRITE_FAULT,
                   faults=1) for room in (0, 10, len(text) - 1)]
    cases += [found("room for all of the line", "No write fails.", frames, output_room=len(text))]
    cases += [Case("writing the line fails", "Nothing is written.", 4, ["check"], file=file, input=frames,
                   output_fails=[0], note=WRITE_FAULT, faults=1)]
    cases += [Case("writing a refusal fails", "The status is that of the fault.", 4, ["check"], file=file,
                   output_fails=[0], note=WRITE_FAULT, faults=1)]
    cases += [found("a second write of the line would fail", "There is none.", frames, output_fails=[1])]
    cases += [found("no clock is read", "It would fail.", frames, clock_fails=[0])]
    cases += [refused("no note of a refusal", "It would fail.", [], "request", notes_fails=[0])]
    return cases + words()


def words():
    frames = [BY_ONE, GRANT]
    return [
        Case("check by a file of no bytes", "It is no opening.", 2, ["check"], input=frames, left=frames,
             note="taos: node file: line 1: first line"),
        Case("a longer word than check", "There is no such command.", 1, ["checks"], file=node(shards=2),
             input=frames, left=frames, note="taos: usage"),
        Case("a denial by a node of two shards", "It is refused, with no note.", 11, ["check"],
             file=node(shards=2), input=[BY_ONE, DENIED], output=line("refused: status\n")),
    ]


def checks():
    return grants() + wrong_requests() + wrong_replies() + wrong_proofs()


THEMES = [
    ("check", "Looking over a request and its reply.", checks),
    ("check_ends", "How a check ends where its file, its words, a read or a write fails.", ended),
]
