"""The other commands: a relay that serves lanes, an audit of a connection, and a drill."""
from conversation import Case, Times
from formats import LAST, Fields, journals, relay_refusal, turned, u16, u32
from .files import usage
from .nodes import ask, node
from .relaying import ANSWERS, FILE, MARK

LINE = b"connections 0 broken 0\n"
ASKED, ANSWERED = [each[1] for each in ANSWERS], [each[2] for each in ANSWERS]
# The words that mean the command.
RELAY_SERVE = [
    ["relay-serve"],
    ["relay-serve", "--connections", "2"],
    ["relay-serve", "--connections=4", "--frames", "3"],
    ["relay-serve", "--frames=3", "--connections=18446744073709551615"],
]
# Words that are no command.
NO_RELAY_SERVE = [
    ("no connections of a relay", ["relay-serve", "--connections", "0"], "At least one connection."),
    ("no frames of a relay's lanes", ["relay-serve", "--frames=0"], "At least one frame."),
    ("connections of a relay twice", ["relay-serve", "--connections", "1", "--connections=1"], "Each option at most once."),
    ("an issuer of a relay's lanes", ["relay-serve", "--issuer", "1"], "An option of another command."),
    ("a word behind", ["relay-serve", "relay"], "A command has options alone."),
]


def line(connections, broken):
    return f"connections {connections} broken {broken}\n".encode("ascii")


def doors(title, about, asked, output, connections=1, most=None, words=(), status=0, **lines):
    """A relay whose door has so many connections, each of which asks the same."""
    limit = [] if most is None else ["--connections", str(most)]
    return Case(title, about, status, ["relay-serve", *limit, *words], file=FILE, input=asked, connections=connections,
                output=output, **lines)


def relay_lanes():
    about = "The door has no connection."
    cases = [Case(f"no connection: {' '.join(words)}", about, words=words, file=[MARK], input=[b"\0"], left=[b"\0"], output=[LINE])
             for words in RELAY_SERVE]
    cases += [usage(*each, file=FILE) for each in NO_RELAY_SERVE]
    cases += [
        Case("a relay's line that is cut", "Writing the line fails after five bytes.", 4, ["relay-serve"], file=FILE, output=[LINE[:5]],
             output_room=5, faults=1, note="taos: write fault"),
        Case("a relay file that fails", "The lanes are not asked.", 3, ["relay-serve"], file=FILE, file_fails=[0], faults=1,
             note="taos: read fault"),
        Case("an empty file for a relay's lanes", "It is no relay file.", 2, ["relay-serve"], note="taos: node file: line 1: first line"),
        Case("a relay's line that is not written", "Writing it fails.", 4, ["relay-serve"], file=FILE, output_fails=[0], faults=1, note="taos: write fault"),
        Case("a node file for a relay's lanes", "It is no relay file.", 2, ["relay-serve"], file=node(),
             note="taos: node file: line 1: first line"),
    ]
    return cases + relayed() + failing()


def relayed():
    again = "A relay answers each connection alike."
    return [
        doors("one connection to a relay", "Each frame has one answer.", ASKED, ANSWERED + [line(1, 0)]),
        doors("two connections to a relay", again, ASKED, ANSWERED + ANSWERED + [line(2, 0)], 2, 2),
        doors("fewer connections than a relay may serve", again, ASKED, ANSWERED + ANSWERED + [line(2, 0)], 2, 3),
        doors("an empty connection to a relay", "It ends after a whole frame.", [], [line(1, 0)]),
        doors("two frames of one to a relay", "A byte is there after the first.", ASKED, ANSWERED[:1] + [line(1, 1)],
              words=["--frames", "1"]),
        doors("connections to a relay that end inside a frame", "Each breaks, and the lane goes on.", ASKED + [u16(0)],
              ANSWERED + ANSWERED + [line(2, 2)], 2, 2),
        doors("connections to a relay with a frame that is too long", "Each breaks, and the lane goes on.", ASKED + [u32(65_537), b"\0"],
              ANSWERED + ANSWERED + [line(2, 2)], 2, 2),
        doors("a connection to a relay whose second frame fails", "What came before it is answered.", ASKED, [ANSWERED[0], line(1, 1)], input_fails=[2],
              byte_fails=[len(ASKED[0])], faults=1),
        doors("connections to a relay with the longest frame", "Each is answered.", [u32(65_536), Times(b"\0", 65_536)],
               [relay_refusal(1)] * 2 + [line(2, 0)], 2, 2),
        doors("a connection to a relay whose first read fails", "Nothing is asked, and it breaks.", ASKED, [line(1, 1)], input_fails=[0],
              byte_fails=[0], faults=1),
        doors("connections to a relay whose first reads fail", "Each breaks, and the lane goes on.", ASKED, [line(2, 2)], 2, 2,
              input_fails=[0], byte_fails=[0], faults=2),
        doors("a connection to a relay that takes a byte too few", "It breaks behind a front of an answer.", ASKED,
              [Fields(bytes(ANSWERED[0])[:-1]), line(1, 1)], output_room=len(ANSWERED[0]) - 1, faults=1),
    ]


def failing():
    note = "taos: door fault at lane 0"
    return [
        doors("a relay's door that fails at once", "Nothing is served, and no line written.", ASKED, [], 1, door_fails=[0], status=9,
              faults=1, note=note),
        doors("a relay's door that fails behind a connection", "What was served is served, and no line written.", ASKED, ANSWERED,
              2, 2, door_fails=[1], status=9, faults=1, note=note),
        doors("the second lane's door of a relay fails", "The other lane's connection is served whole, and no line written.", ASKED,
              ANSWERED, second_door_fails=[0], status=9, faults=1, note="taos: door fault at lane 1"),
    ]


# ---- audits

def asks(place, number, came, reading=0):
    return f"shard 0 entry {place} ask channel 1 seq {number} reading {reading} certificates 0 right read -> {came}\n"


def text(*lines):
    return ["".join(lines).encode("ascii")]


KEEPS = f"shard 0 entry 1 keep ask 0 entry 0 lease {LAST} -> kept\n"
READS = "object 5 entry 0 ask 0/0 read -> granted 0\n"
HITS = "object 5 entry 1 ask 0/2 read -> granted 0\n"


def audit(title, about, asked, output, status=0, words=("audit",), **lines):
    return Case(title, about, status, words, file=node(), input=asked, output=output, **lines)


def audits():
    about = "A million frames where nothing is said."
    nothing = "No journal has an entry."
    one = text(asks(0, 1, "miss"), KEEPS, READS)
    both = text(asks(0, 1, "miss"), KEEPS, asks(2, 2, "hit 0"), READS, HITS)
    return [
        audit("the anchored read, audited", "An Ask, a Keep, and the object's entry. The reply is not written.", [ask(1, 1)], one),
        audit("two reads, audited", "The second is served from the cache.", [ask(1, 1), ask(1, 2)], both),
        audit("a read that is replayed, audited", "It comes to no ruling.", [ask(1, 1), ask(1, 1)],
              text(asks(0, 1, "miss"), KEEPS, asks(2, 1, "replayed 1"), READS)),
        audit("a denial, audited", "Nobody speaks for alice.", [ask(2, 1)],
              text("shard 0 entry 0 ask channel 2 seq 1 reading 0 certificates 0 right read -> miss\n",
                   "object 5 entry 0 ask 0/0 read -> denied\n")),
        audit("nothing to audit", nothing, [], []),
        audit("an audit with a clock", "The reading is the Ask's.", [ask(1, 1)],
              text(asks(0, 1, "miss", 70), KEEPS, READS), clock=[70]),
        audit("an audit that is cut", "Writing fails after seven bytes.", [ask(1, 1)], [one[0][:7]], 4, output_room=7, faults=1,
              note="taos: write fault"),
        audit("an audit of a frame too many", "No text is written.", [ask(1, 1), ask(1, 2)], [], 10, ("audit", "--frames", "1"),
              left=[bytes(ask(1, 2))[1:]], note="taos: frames spent: 1"),
        audit("an audit of as many frames", about, [ask(1, 1)], one, words=("audit", "--frames=1")),
        audit("an audit of an input that is cut", "No text is written.", [ask(1, 1), u16(0)], [], 7,
              note="taos: input ends inside a frame, 2 bytes kept"),
        audit("an audit whose clock fails", "No text is written.", [ask(1, 1)], [], 5, clock_fails=[0], faults=1,
              note="taos: clock fault"),
        audit("an audit whose input fails", "No text is written.", [ask(1, 1)], [], 3, input_fails=[0], byte_fails=[0], faults=1,
              left=[ask(1, 1)], note="taos: read fault"),
        *both_audits(),
        usage("no frames of an audit", ["audit", "--frames", "0"], "At least one frame.", file=node()),
        usage("connections of an audit", ["audit", "--connections", "1"], "It serves one connection.", file=node()),
        usage("a word behind an audit", ["audit", "1"], "A command has options alone.", file=node()),
    ]


def both_audits():
    """How either audit ends where it has no journals to write, and where it can't write them."""
    cases, asked = [], [ask(1, 1)]
    for words in (("audit",), ("audit-bytes",)):
        by = f", by {words[0]}"
        long = [*asked, Fields(b"\0\1\0\1"), b"\0"]
        unread = dict(input=asked, left=asked)
        cases += [
            audit(f"a frame that is too long{by}", "Nothing is written.", long, [], 8, words, left=[b"\0"], note="taos: frame too long: 65537"),
            audit(f"an input that is cut{by}", "Nothing is written.", [*asked, bytes(3)], [], 7, words, note="taos: input ends inside a frame, 3 bytes kept"),
            audit(f"an input that fails{by}", "Nothing is written.", asked, [], 3, words, input_fails=[1], byte_fails=[4], faults=1, note="taos: read fault"),
            audit(f"an input that fails at its end{by}", "It is not known to have ended.", asked, [], 3, words, input_fails=[2], byte_fails=[56], faults=1,
                  note="taos: read fault"),
            audit(f"a clock that fails{by}", "Nothing is written.", asked, [], 5, words, clock_fails=[0], faults=1, note="taos: clock fault"),
            audit(f"a write that fails{by}", "Nothing is written.", asked, [], 4, words, output_fails=[0], faults=1, note="taos: write fault"),
            audit(f"two frames of two{by}", "A frame that is no request leaves no entry.", [Fields(bytes(4)), turned(ask(1, 1))], NOTHING[words[0]],
                  0, [*words, "--frames", "2"]),
            Case(f"a file that fails{by}", "Nothing of the input is taken.", 3, words, file=node(), file_fails=[0], faults=1, note="taos: read fault",
                   **unread),
            Case(f"a file that is cut{by}", "Nothing of the input is taken.", 2, words, file=[b"\0\1"], note="taos: node file: byte 2: malformed", **unread),
            Case(f"a relay file{by}", "Nothing of the input is taken.", 2, words, file=[MARK], note="taos: node file: line 1: first line", **unread),
        ]
    return cases


# What has no entry.
NOTHING = {"audit": [], "audit-bytes": [journals([[]], [(5, [])])]}


# ---- drills

def drill(words, entries, grants, denials, about):
    told = f"requests {words[1]} entries {entries} grants {grants} denials {denials}\n"
    return Case(f"drill {' '.join(words)}", about, words=["drill", *words], input=[b"\0"], left=[b"\0"], output=[told.encode("ascii")])


NO_DRILL = [
    ("a drill of no words", [], "Three words are lacking."),
    ("a drill of two words", ["0", "8"], "The lanes are lacking."),
    ("a drill of four words", ["0", "8", "2", "1"], "There is no fourth word."),
    ("a drill of too many requests", ["0", "10001", "2"], "At most 10,000."),
    ("a drill of no lanes", ["0", "8", "0"], "At least one lane."),
    ("a drill of 17 lanes", ["0", "8", "17"], "At most 16."),
    ("a drill of a letter", ["x", "8", "2"], "A number is of digits."),
    ("a drill of a number with a zero in front", ["00", "8", "2"], "A number has no zero in front."),
    ("a drill of 2^64", [str(2**64), "8", "2"], "The largest number is one less."),
    ("a drill with frames", ["0", "8", "2", "--frames", "2"], "An option of another command."),
    ("a drill below zero", ["-1", "8", "2"], "No word begins with a dash but options."),
]


def drills():
    return [
        drill(["0", "8", "2"], 10, 5, 3, "Even, even, even, odd, odd, even, even, odd: each lane has a grant."),
        drill(["0", "3", "1"], 4, 3, 0, "The first three words are even."),
        drill(["0", "0", "16"], 0, 0, 0, "Nobody asks."),
        drill(["0", "5", "2"], 7, 3, 2, "Lanes 0 and 1 have the words of even and of odd places."),
        Case("a drill's line that is cut", "Writing the line fails after five bytes.", 4, ["drill", "0", "8", "2"], output=[b"reque"],
             output_room=5, faults=1, note="taos: write fault"),
    ] + [usage(title, ["drill", *words], about) for title, words, about in NO_DRILL]


THEMES = [
    ("relay_serve", "The command that serves lanes as a relay, of which there is one.", relay_lanes),
    ("audit", "The command that serves a connection and prints the journals.", audits),
    ("drill", "The command that serves a load that is made.", drills),
]
