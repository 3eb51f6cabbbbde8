"""The command of a relay: its words, its file, and the frames that it answers."""
from conversation import Case, Named, Times
from formats import Fields, asking, frame, key_of, relay_refusal, resealed, turned, u32
from .nodes import handing, issued, relayed

MARK = Fields(b"taos-relay 1\n")
ROLES = 256


def line(text):
    return Fields(text.encode("ascii") + b"\n")


def keyed(word, number, secret):
    return line(f"{word} {number} {key_of(secret).hex()}")


ISSUER, OF_NODE = keyed("issuer", 1, 1), keyed("node", 7, 7)
FILE = [MARK, ISSUER, OF_NODE]
OWN, SECOND = issued(1, handing()), issued(1, handing(serial=2))
NEW, NEW_SECOND = relayed(handing()), relayed(handing(serial=2))
ASKED = asking(7, OWN)
# What stands in a frame of 65,536 bytes behind its first six.
LONG = Times(b"\0", 65_530)


def served(title, about, told, status=0, words=("relay",), file=None, **lines):
    """What is asked and what is answered, in turn."""
    asked, answered = [each[0] for each in told], [each[1] for each in told]
    return Case(title, about, status, words, file=FILE if file is None else file, input=asked, output=answered, **lines)


def code(number):
    return relay_refusal(number)


# What is asked of the relay, and what it answers.
ANSWERS = [
    ("resealed", ASKED, resealed(NEW)),
    ("another issuer's", asking(7, issued(2, handing(issuer=2))), code(2)),
    ("a turned tag", asking(7, turned(OWN)), code(3)),
    ("one that a relay sealed", asking(7, NEW), code(4)),
    ("for another node", asking(8, OWN), code(5)),
    ("a certificate that is none", asking(7, Fields(b"\1")), code(1)),
    ("no certificate", asking(7, Fields()), code(1)),
    ("four bytes", frame(b"\5\0\0\0"), code(1)),
    ("no bytes", frame(b""), code(1)),
    ("another first byte", frame(b"\6", u32(7), OWN), code(1)),
    ("a carried one", asking(7, Fields(b"\3", OWN.parts[1])), code(1)),
    ("a turned tag, for another node", asking(8, turned(OWN)), code(3)),
    ("another issuer's, for another node", asking(8, issued(2, handing(issuer=2))), code(2)),
    ("one that a relay sealed, for another node", asking(8, NEW), code(4)),
    ("a byte behind the tag", asking(7, Fields(OWN, b"\0")), code(1)),
    ("all but the last byte", asking(7, OWN.front(64)), code(1)),
]


def serving():
    about = "A relay that knows issuer 1 and node 7. Each frame has one answer."
    empty = "A command, and nothing comes."
    cases = [served(title, about, [(asked, answer)]) for title, asked, answer in ANSWERS]
    cases += [served("all of them", about, [each[1:] for each in ANSWERS])]
    cases += [Case(f"the longest frame, of {title}", about, words=["relay"], file=FILE, input=[Fields(u32(65_536), b"\5", u32(7), kind), LONG],
           output=[code(number)])
              for title, kind, number in (("an issuer's kind", b"\1", 1), ("a relay's kind", b"\2", 4), ("no kind", b"\0", 1))]
    cases += [Case(f"nothing asked: {' '.join(words)}", empty, words=words, file=[MARK])
              for words in (["relay"], ["relay", "--frames=2"], ["relay", "--frames", "1"])]
    return cases + spent() + ends() + usages()


def spent():
    two = [(ASKED, resealed(NEW)), (asking(7, SECOND), resealed(NEW_SECOND))]
    more = dict(status=10, note="taos: frames spent: 1", left=[Fields(bytes(ASKED)[1:])])
    return [
        served("two frames of two", "Both are answered.", two, words=["relay", "--frames=2"]),
        Case("one frame of two", "One byte more is there, and is taken.", words=["relay", "--frames", "1"], file=FILE,
             input=[ASKED, ASKED], output=[resealed(NEW)], **more),
    ]


def ends():
    cut = [ASKED, Fields(bytes(ASKED)[:7])]
    long = [ASKED, u32(65_537), b"\0"]
    first = dict(file=FILE, words=["relay"], output=[resealed(NEW)])
    return [
        Case("the second frame is cut", "Three bytes of its payload came.", 7, input=cut,
             note="taos: input ends inside a frame, 7 bytes kept", **first),
        Case("the second frame is too long", "Nothing behind its length is taken.", 8, input=long, left=[b"\0"],
             note="taos: frame too long: 65537", **first),
        Case("a read of the input fails", "Nothing is answered.", 3, ["relay"], file=FILE, input=[ASKED], input_fails=[0], byte_fails=[0],
             note="taos: read fault", faults=1),
        Case("a read of the file fails", "Nothing is answered.", 3, ["relay"], file=FILE, input=[ASKED], file_fails=[0],
             note="taos: read fault", faults=1, left=[ASKED]),
        Case("a write of the output fails", "Nothing is written.", 4, ["relay"], file=FILE, input=[ASKED],
             output_fails=[0], note="taos: write fault", faults=1),
    ]


# Words that are no command line of a relay.
USAGES = [
    ["relay", "--frames=2", "--frames", "2"],
    ["relay", "--frames", "0"],
    ["relay", "--frames=02"],
    ["relay", "--frames"],
    ["relay", "--frames="],
    ["relay", "--frame=2"],
    ["relay", "2"],
    ["relay", "--"],
    ["--frames=2", "relay"],
    ["relays"],
    ["run", "relay"],
]


def usages():
    return [Case(f"usage: {' '.join(words)}", "The words are looked at before the file.", 1, words, note="taos: usage",
                 file=FILE, input=[ASKED], left=[ASKED]) for words in USAGES]


def refused(title, number, cause, *lines):
    return Case(title, "The file is refused, and nothing of the input is taken.", 2, ["relay"], file=list(lines),
                input=[ASKED], left=[ASKED], note=f"taos: node file: line {number}: {cause}")


def some_roles(count):
    return [line(f"role {each} r{each}") for each in range(count)]


KEY = key_of(7).hex()

# Each cause, and which of two comes first.
CAUSES = [
    ("an empty file", 1, "first line"),
    ("remarks alone", 4, "first line", line("# taos-relay 1"), line(""), line(" \t")),
    ("another version", 1, "first line", line("taos-relay 2")),
    ("a word behind the mark", 2, "first line", line("#"), line("taos-relay 1 1")),
    ("the mark of a node file", 1, "first line", line("taos 1"), ISSUER),
    ("no mark", 1, "first line", ISSUER, MARK),
    ("the mark again", 2, "unknown word", MARK, MARK),
    ("a line of node files", 3, "unknown word", MARK, ISSUER, line(f"channel 1 {KEY}")),
    ("a word that no line has", 2, "unknown word", MARK, Fields(b"nodes 7 \x80\n")),
    ("a key lacks", 2, "words", MARK, line("node 7")),
    ("a word too many", 2, "words", MARK, line(f"node 7 {KEY} 7")),
    ("a byte above 127", 2, "words", MARK, Fields(b"name 1 al\xefce\n")),
    ("a byte 7, and no number", 2, "words", MARK, Fields(b"name x \x07\n")),
    ("a leading zero", 2, "number", MARK, line(f"node 07 {KEY}")),
    ("a sign", 2, "number", MARK, line(f"issuer +7 {KEY}")),
    ("a number above 32 bits", 2, "number", MARK, line(f"node 4294967296 {KEY}")),
    ("no number and no digits", 2, "number", MARK, line("node seven key")),
    ("a digit too few", 2, "hex", MARK, line(f"node 7 {KEY[1:]}")),
    ("a byte too few", 2, "hex", MARK, line(f"node 7 {KEY[2:]}")),
    ("a byte too many", 2, "hex", MARK, line(f"node 7 {KEY}07")),
    ("a digit that is none", 2, "hex", MARK, line(f"node 7 g{KEY[1:]}")),
    ("a text with a capital", 2, "text", MARK, line("name 1 Alice")),
    ("a text that is a word of principals", 2, "text", MARK, line("role 1 and")),
    ("a text of 33 bytes", 2, "text", MARK, line(f"name 1 {'a' * 33}")),
    ("an issuer twice", 3, "twice", MARK, ISSUER, ISSUER),
    ("an issuer twice, with a key that is none", 3, "hex", MARK, ISSUER, line("issuer 1 0")),
    ("a node twice, a remark between", 5, "twice", MARK, OF_NODE, line("# again"), line(""), keyed("node", 7, 8)),
    ("a name's number twice", 3, "twice", MARK, line("name 1 alice"), line("name 1 bob")),
    ("a name's text twice", 3, "twice", MARK, line("name 1 alice"), line("name 2 alice")),
    ("a role too many", ROLES + 2, "limit", MARK, *some_roles(ROLES + 1)),
    ("a role too many, with a text that is there", ROLES + 2, "twice", MARK, *some_roles(ROLES), line("role 900 r0")),
    ("a byte too many", 0, "limit", Times(Fields(b"#" * 1023 + b"\n"), 4096), Fields(b"#")),
]


def causes():
    titles = {}
    cases = []
    for title, number, cause, *lines in CAUSES:
        titles[title] = titles.get(title, 0) + 1
        again = "" if titles[title] == 1 else f", {cause}"
        cases.append(refused(title + again, number, cause, *lines))
    return cases + taken() + tables()


def some(word, count):
    """So many lines of keys, whose digits stand under a name."""
    digits = Named("digits", Fields(key_of(9).hex().encode() + b"\n"))
    return [part for each in range(count) for part in (Fields(f"{word} {each} ".encode()), digits)]


def tables():
    """One line more than there may be."""
    names = [line(f"name {each} n{each}") for each in range(1025)]
    return [refused("a name too many", 1026, "limit", MARK, *names), refused("a node too many", 1026, "limit", MARK, *some("node", 1025)),
            refused("an issuer too many", 4098, "limit", MARK, *some("issuer", 4097))]


def taken():
    about = "What the lines say is known."
    odd = [Fields(b"\n  # a relay\r\n"), Fields(b"\ttaos-relay   1 \r\n"), Fields(f"node\t7  {KEY}\t\r\n".encode()),
           Fields(f" issuer 1 {key_of(1).hex()}".encode())]
    told = [(ASKED, resealed(NEW))]
    return [
        served("blanks, tabs, carriage returns and no last end", about, told, file=odd),
        served("upper case digits", about, [(asking(7, OWN), resealed(relayed(handing(), key_of(0xAB))))],
               file=[MARK, ISSUER, line(f"node 7 {'AB' * 32}")]),
        served("the largest number", about, [(asking(2**32 - 1, OWN), resealed(relayed(handing(), key_of(9))))],
               file=[MARK, ISSUER, keyed("node", 2**32 - 1, 9)]),
        served("one text for a name and for a role", about, told, file=FILE + [line("name 1 taos"), line("role 1 taos")]),
        served("a text of 32 bytes", about, told, file=FILE + [line(f"name 1 {'a' * 32}")]),
        served("as many roles as may be", about, told, file=FILE + some_roles(ROLES)),
    ]


THEMES = [
    ("relaying", "A relay that serves its frames.", serving),
    ("relay_files", "Relay files, and at which line and why they are refused.", causes),
]
