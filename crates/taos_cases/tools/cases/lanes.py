"""The command that serves lanes, two of them: its words, its line, its connections, its faults."""
from conversation import Case, Times
from formats import Fields, malformed, replayed, u16, u32
from .files import usage
from .nodes import ask, by_anchor, no_alice, node

LINE = b"connections 0 broken 0 entries 0 grants 0 denials 0\n"
# The words that mean the command.
WORDS = [
    ["serve"],
    ["serve", "--connections", "2"],
    ["serve", "--connections=18446744073709551615"],
    ["serve", "--frames", "2"],
    ["serve", "--frames=3", "--connections", "4"],
    ["serve", "--connections", "4", "--frames=3"],
    ["serve", "--lemmas", "0"],
    ["serve", "--frames", "3", "--lemmas=1024", "--connections=4"],
]
# Words that are no command.
OTHERS = [
    ("no connections", ["serve", "--connections", "0"], "At least one connection."),
    ("connections of no number", ["serve", "--connections", "two"], "A number is decimal digits."),
    ("connections with a zero in front", ["serve", "--connections=02"], "A number has no zero in front."),
    ("more connections than a number has", ["serve", "--connections", "18446744073709551616"], "It is 2 to the 64th."),
    ("connections without a value", ["serve", "--connections"], "An option has a value."),
    ("connections of an empty word", ["serve", "--connections="], "No value is empty."),
    ("connections twice", ["serve", "--connections", "1", "--connections", "2"], "Each option at most once."),
    ("connections of one stream", ["run", "--connections", "1"], "It serves one connection."),
    ("connections of a relay", ["relay", "--connections", "1"], "It serves one connection."),
    ("lanes of an issuer", ["serve", "--issuer", "1"], "An option of another command."),
    ("a word behind", ["serve", "2"], "A command has options alone."),
    ("a lemma more than there may be", ["serve", "--lemmas", "1025"], "There is room for 1,024 at most."),
    ("lemmas of no number", ["run", "--lemmas", "all"], "A number is decimal digits."),
    ("lemmas with a zero in front", ["run", "--lemmas=064"], "A number has no zero in front."),
    ("lemmas twice", ["run", "--lemmas", "1", "--lemmas=1"], "Each option at most once."),
    ("lemmas of a relay's lanes", ["relay-serve", "--lemmas", "1"], "A relay decides nothing."),
    ("lemmas of an audit", ["audit", "--lemmas", "1"], "An option of another command."),
]


def lanes():
    about = "The door has no connection. Nothing of the input is taken."
    cases = [Case(f"no connection: {' '.join(words)}", about, words=words, file=node(), input=[b"\0"], left=[b"\0"], output=[LINE])
             for words in WORDS]
    cases += [usage(*each, file=node()) for each in OTHERS]
    cases += [
        Case("a line that is cut", "Writing the line fails after five bytes.", 4, ["serve"], file=node(), output=[LINE[:5]],
             output_room=5, faults=1, note="taos: write fault"),
        Case("a file that fails", "The lanes are not asked.", 3, ["serve"], file=node(), file_fails=[0], faults=1,
             note="taos: read fault"),
        Case("a file for lanes that is cut", "It is no opening.", 2, ["serve"], file=[b"\0\1"], note="taos: node file: byte 2: malformed"),
        Case("a relay file for lanes", "It is no node file.", 2, ["serve"], file=[b"taos-relay 1\n"], note="taos: node file: line 1: first line"),
        Case("a line that is not written", "Writing it fails.", 4, ["serve"], file=node(), output_fails=[0], faults=1, note="taos: write fault"),
        Case("no file for lanes", "No bytes are no opening.", 2, ["serve"], note="taos: node file: line 1: first line"),
    ]
    return cases + served() + broken() + failing()


def line(connections, broken, entries, grants, denials):
    return f"connections {connections} broken {broken} entries {entries} grants {grants} denials {denials}\n".encode("ascii")


def doors(title, about, asked, output, connections=1, most=None, words=(), status=0, **lines):
    """A door of so many connections, each of which asks the same."""
    limit = [] if most is None else ["--connections", str(most)]
    return Case(title, about, status, ["serve", *limit, *words], file=node(), input=asked, connections=connections,
                output=output, **lines)


ASKED = [ask(1, 1), ask(1, 2)]
ANSWERED = [by_anchor(1), by_anchor(2, 2, kept=1)]
REPLAYED = [replayed(1, 1, 2), replayed(1, 2, 2)]


def served():
    about = "Each connection asks the same: what the first was granted is replayed in the second."
    return [
        doors("one connection", "Two Asks and a Keep.", ASKED, ANSWERED + [line(1, 0, 3, 2, 0)]),
        doors("one connection to a lane that remembers", "Nothing shows it.", ASKED, ANSWERED + [line(1, 0, 3, 2, 0)],
              words=["--lemmas", "64"]),
        Case("a run that remembers", "Nothing shows it.", words=["run", "--lemmas", "64"], file=node(), input=ASKED, output=ANSWERED),
        doors("an empty connection", "It ends after a whole frame.", [], [line(1, 0, 0, 0, 0)]),
        doors("a denial", "Nobody speaks for alice.", [ask(2, 1)], [no_alice(2, 1), line(1, 0, 1, 0, 1)]),
        doors("two connections", about, ASKED, ANSWERED + REPLAYED + [line(2, 0, 5, 2, 0)], 2, 2),
        doors("fewer connections than may be", about, ASKED, ANSWERED + REPLAYED + [line(2, 0, 5, 2, 0)], 2, 3),
        doors("more connections than may be", "One is served where nothing is said.", ASKED,
              ANSWERED + [line(1, 0, 3, 2, 0)], 2),
    ]


def broken():
    cut = "The connection breaks, and the lane goes on."
    return [
        doors("two frames of one", "A byte is there after the first.", ASKED, [by_anchor(1), line(1, 1, 2, 1, 0)],
              words=["--frames", "1"]),
        doors("connections that end inside a frame", cut, [ask(1, 1), u16(0)],
              [by_anchor(1), replayed(1, 1, 1), line(2, 2, 3, 1, 0)], 2, 2),
        doors("connections with a frame that is too long", cut, [ask(1, 1), u32(65_537), b"\0"], [by_anchor(1), replayed(1, 1, 1), line(2, 2, 3, 1, 0)], 2, 2),
        doors("connections with the longest frame", "It is no request, and answered.", [u32(65_536), Times(b"\0", 65_536)],
               [malformed(0)] * 2 + [line(2, 0, 0, 0, 0)], 2, 2),
        doors("a clock that fails twice", cut, [ask(1, 1)], [line(2, 2, 0, 0, 0)], 2, 2, clock_fails=[0, 1], faults=2),
        doors("a connection whose end fails", "What came before it is answered.", ASKED, ANSWERED + [line(1, 1, 3, 2, 0)], input_fails=[4],
               byte_fails=[112], faults=1),
        doors("a clock that fails once", cut, [ask(1, 1)], [by_anchor(1), line(2, 1, 2, 1, 0)], 2, 2, clock_fails=[0], faults=1),
        doors("a connection whose first read fails", "Nothing is asked, and it breaks.", ASKED, [line(1, 1, 0, 0, 0)], input_fails=[0],
              byte_fails=[0], faults=1),
        doors("connections whose first reads fail", cut, ASKED, [line(2, 2, 0, 0, 0)], 2, 2, input_fails=[0], byte_fails=[0], faults=2),
        doors("a connection whose second frame fails", "What came before it is answered.", ASKED, [by_anchor(1), line(1, 1, 2, 1, 0)],
              input_fails=[2], byte_fails=[len(ASKED[0])], faults=1),
        doors("a connection that takes a byte too few", "Its entries stand all the same.", ASKED,
              [Fields(bytes(ANSWERED[0])[:-1]), line(1, 1, 2, 1, 0)], output_room=len(ANSWERED[0]) - 1, faults=1),
    ]


def failing():
    note = "taos: door fault at lane 0"
    return [
        doors("a door that fails at once", "Nothing is served, and no line written.", ASKED, [], 1, door_fails=[0], status=9,
              faults=1, note=note),
        doors("a door that fails behind a connection", "What was served is served, and no line written.", ASKED, ANSWERED, 2, 2,
              door_fails=[1], status=9, faults=1, note=note),
        doors("the second lane's door fails", "The other lane's connection is served whole, and no line written.", ASKED, ANSWERED,
              second_door_fails=[0], status=9, faults=1, note="taos: door fault at lane 1"),
        doors("both doors fail", "The first lane is told.", ASKED, [], door_fails=[0], second_door_fails=[0], status=9, faults=2,
              note=note),
        doors("the second lane's door would fail at call 1", "It ends at its first.", ASKED, ANSWERED + [line(1, 0, 3, 2, 0)],
              second_door_fails=[1]),
    ]


THEMES = [("serve", "The command that serves lanes, two of them; the second's door has no connection.", lanes)]
