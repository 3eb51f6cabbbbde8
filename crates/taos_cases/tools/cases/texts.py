"""Node files as texts: each fault with its line and its first cause, and files that are served."""
from conversation import Case, talk
from formats import Fields, RELAYED, body, certificate, key, key_of, name
from .nodes import NODE, ask, by_anchor

FIRST, NODE_LINE = "taos 1", f"node {NODE} " + "07" * 32
HEAD = [FIRST, NODE_LINE]
DIGITS = "01" * 32


def text(lines, end="\n", last=True):
    """A file of these lines, as fields for its conversation."""
    parts = [(line + end).encode("latin-1") for line in lines]
    if not last:
        parts[-1] = lines[-1].encode("latin-1")
    return [Fields(part) for part in parts]


def refused(title, about, lines, number, cause, **how):
    return Case(title, about, 2, file=text(lines, **how), note=f"taos: node file: line {number}: {cause}")


def behind(title, about, line, cause, before=()):
    """The line behind a head and these lines is refused."""
    lines = HEAD + list(before) + [line]
    return refused(title, about, lines, len(lines), cause)


def served(title, about, lines, **how):
    return Case(title, about, file=text(lines, **how))


def common(serial, secret=key_of(7)):
    return bytes(certificate(RELAYED, secret, body(3, key(1), name(30), 5000, serial))).hex()


def first_lines():
    return [
        Case("no bytes", "A file of no bytes is a text without a first line.", 2, note="taos: node file: line 1: first line"),
        refused("remarks alone", "Where there is no first line, its number is the count of lines and one.", ["# taos 1", "", " \t"], 4, "first line"),
        refused("another mark", "The first line is that of a relay file.", ["taos-relay 1"], 1, "first line"),
        refused("another version", "There is no version 2.", ["taos 2"], 1, "first line"),
        refused("a word behind the version", "The first line has two words.", ["taos 1 1"], 1, "first line"),
        refused("a node line first", "The mark comes first.", [NODE_LINE, FIRST], 1, "first line"),
        refused("a carriage return at the end of the file", "It is dropped before a line feed alone.", ["taos 1\r"], 1, "first line", last=False),
        refused("two carriage returns", "One is dropped.", ["taos 1\r\r"], 1, "first line"),
        refused("the mark alone", "The number is the count of lines.", [FIRST], 1, "no node"),
        refused("no node line", "Remarks are counted.", [FIRST, "# one", "", "shards 2"], 4, "no node"),
    ]


ANCHORED = HEAD + ["name 10 alice", "name 30 bob"] + [f"channel {n} " + key_of(n).hex() for n in (1, 2, 3, 4)]
ANCHORED += ["anchor 1 alice", "anchor 3 name:30", "object 5", "content 5 " + b"hello".hex(), "allow 5 rwcm alice"]


def served_texts():
    upper = [FIRST, f"node {NODE} " + "0A" * 32, "channel 1 " + "aB" * 32]
    return [
        served("a short text", "The settings have their defaults.", HEAD),
        served("a text without its last end", "The last line may lack its end.", HEAD, last=False),
        served("a text with carriage returns", "One before a line feed is dropped.", HEAD, end="\r\n"),
        served("a text of remarks, blanks and tabs", "Lines without words and remarks are skipped; words stand between blanks and tabs.",
               ["", "# a remark, with a byte above 127: \xe9", " \ttaos \t1 ", "\t", f"\tnode  {NODE}\t" + "07" * 32 + " "]),
        served("digits of upper case", "They are read as those of lower case.", upper),
        served("one text for a name and a role", "They have texts of their own.", HEAD + ["name 1 a", "role 1 a"]),
        talk("an anchored read", "The anchor and the entry have alice by her text.", text(ANCHORED), [(ask(1, 1), by_anchor(1))]),
        served("the texts at their longest", "A text has 32 bytes at most.", HEAD + ["name 1 " + "a" * 32, "role 1 z-0_."]),
    ]


ONE_CAUSE = [
    ("a word of no line", "hold 1", "unknown word", []),
    ("the mark twice", FIRST, "unknown word", []),
    ("a line of a relay file", f"issuer 1 {DIGITS}", "unknown word", []),
    ("a word of upper case", "Shards 2", "unknown word", []),
    ("a byte above 127", "name 1 \xe9", "words", []),
    ("a byte below 32", "name 1 a\x0b", "words", []),
    ("a word too few", "channel 1", "words", []),
    ("a word too many", f"channel 1 {DIGITS} 2", "words", []),
    ("shards of two words", "shards 1 2", "words", []),
    ("shards of no number", "shards", "words", []),
    ("a list without a principal", "allow 5 r", "words", ["object 5"]),
    ("a list of blanks for a principal", "allow 5 r \t", "words", ["object 5"]),
    ("a content without digits", "content 5", "words", ["object 5"]),
    ("a number with a zero in front", f"channel 01 {DIGITS}", "number", []),
    ("a number with a sign", f"channel +1 {DIGITS}", "number", []),
    ("a number of 2^32", f"channel 4294967296 {DIGITS}", "number", []),
    ("a number of 2^64 seconds", "keep 18446744073709551616", "number", []),
    ("a number of 2^32 shards", "shards 4294967296", "number", []),
    ("an anchor to no number", "anchor 3 name:x", "number", []),
    ("an anchor to 2^32", "anchor 3 name:4294967296", "number", []),
    ("an odd count of digits", "content 5 000", "hex", ["object 5"]),
    ("a letter that is no digit", "content 5 0g", "hex", ["object 5"]),
    ("a key of 33 bytes", f"channel 1 {DIGITS}00", "hex", []),
    ("a key of 31 bytes", f"channel 1 {DIGITS[2:]}", "hex", []),
    ("rights in another order", "allow 5 wr key:1", "rights", ["object 5"]),
    ("a right twice", "allow 5 rr key:1", "rights", ["object 5"]),
    ("a letter of no right", "allow 5 x key:1", "rights", ["object 5"]),
    ("a content of no object", "content 6 00", "unknown object", ["object 5"]),
    ("a content before its object", "content 5 00", "unknown object", []),
    ("an entry of no object", "allow 6 r key:1", "unknown object", ["object 5"]),
    ("an anchor to no text", "anchor 3 alice", "unknown name", []),
    ("an anchor to the text of a role", "anchor 3 alice", "unknown name", ["role 1 alice"]),
    ("an entry of no text", "allow 5 r alice", "unknown name", ["object 5"]),
    ("an entry of no role", "allow 5 r key:1 as os", "unknown name", ["object 5", "name 1 os"]),
    ("an entry of two operators", "allow 5 r key:1 and key:2 and key:3", "principal", ["object 5"]),
    ("an entry of a long number", "allow 5 r key:4294967296", "principal", ["object 5"]),
    ("an entry of two principals", "allow 5 r key:1; r key:2", "principal", ["object 5"]),
    ("a reserved text", "name 1 as", "text", []),
    ("a text that begins with a digit", "name 1 1a", "text", []),
    ("a text of 33 bytes", "role 1 " + "a" * 33, "text", []),
    ("a certificate under another key", "common " + common(1, key_of(8)), "certificate", []),
    ("a certificate of one byte", "common 02", "certificate", []),
    ("shards twice", "shards 2", "twice", ["shards 2"]),
    ("keep twice", "keep 2", "twice", ["keep 2"]),
    ("journal twice", "journal 2", "twice", ["journal 2"]),
    ("a name's number twice", "name 1 b", "twice", ["name 1 a"]),
    ("a name's text twice", "name 2 a", "twice", ["name 1 a"]),
    ("a role's number twice", "role 1 b", "twice", ["role 1 a"]),
    ("a channel twice", f"channel 1 {DIGITS}", "twice", [f"channel 1 {DIGITS}"]),
    ("an anchor twice", "anchor 3 a", "twice", ["name 30 a", "anchor 3 name:30"]),
    ("a certificate twice", "common " + common(1), "twice", ["common " + common(1)]),
    ("an object twice", "object 5", "twice", ["object 5"]),
    ("a content twice", "content 5 01", "twice", ["object 5", "content 5 00"]),
    ("no shards", "shards 0", "limit", []),
    ("65 shards", "shards 65", "limit", []),
    ("no seconds", "keep 0", "limit", []),
    ("a second more than a year", "keep 31536001", "limit", []),
    ("no journal", "journal 0", "limit", []),
    ("an entry too many for a journal", "journal 1048577", "limit", []),
]

TWO_CAUSES = [
    ("words before number", f"channel 01 {DIGITS} 1", "words", []),
    ("number before hex", "channel 01 x", "number", []),
    ("hex before an unknown object", "content 6 0", "hex", []),
    ("rights before an unknown object", "allow 6 x key:1", "rights", []),
    ("an unknown object before an unknown name", "allow 6 r alice", "unknown object", []),
    ("an unknown name before a principal", "allow 5 r alice and (", "unknown name", ["object 5"]),
    ("a principal before an unknown name", "allow 5 r and alice", "principal", ["object 5"]),
    ("an unknown name before a text", "anchor 3 As", "unknown name", []),
    ("a text before a number twice", "name 1 as", "text", ["name 1 a"]),
    ("hex before twice", f"node {NODE} x", "hex", []),
    ("twice before a limit", "shards 65", "twice", ["shards 1"]),
    ("twice before a long content", "content 5 " + "00" * 4097, "twice", ["object 5", "content 5 00"]),
    ("an unknown name before a full list", "allow 5 r alice", "unknown name", ["object 5"] + ["allow 5 r key:1"] * 8),
]


def faults():
    cases = [refused("the node line again", "The line is there already.", HEAD + [NODE_LINE], 3, "twice")]
    cases += [refused("a certificate before the node line", "There is no key to open it.", [FIRST, "common " + common(1), NODE_LINE], 2, "node first"),
              refused("digits before a node line", "What the line says by itself is judged first.", [FIRST, "common 0", NODE_LINE], 2, "hex"),
              refused("the first of two lines", "The first that is refused is told.", HEAD + ["hold", "shards 0"], 3, "unknown word")]
    cases += [behind(title, f"The cause is the first that holds: {cause}.", line, cause, before) for title, line, cause, before in ONE_CAUSE]
    cases += [behind(f"two causes: {title}", "The first in the order of causes is told.", line, cause, before)
              for title, line, cause, before in TWO_CAUSES]
    return cases


def many(line, count):
    return [line(each) for each in range(1, count + 1)]


LIMITS = [
    ("names", 1024, lambda n: f"name {n} n{n}"),
    ("roles", 256, lambda n: f"role {n} r{n}"),
    ("channels", 1024, lambda n: f"channel {n} {DIGITS}"),
    ("anchors", 64, lambda n: f"anchor {n} name:1"),
    ("certificates in common", 32, lambda n: "common " + common(n)),
    ("objects", 256, lambda n: f"object {n}"),
]


def limits():
    cases = []
    for title, most, line in LIMITS:
        cases.append(served(f"{most} {title}", "As many as there may be.", HEAD + many(line, most)))
        cases.append(refused(f"{most + 1} {title}", "One more than there may be.", HEAD + many(line, most + 1), most + 3, "limit"))
    entries = ["object 5"] + ["allow 5 rwcm key:1"] * 8
    long = "content 5 " + "00" * 4096
    wide = " and ".join(["(" * 6 + "key:1"] + ["key:1)"] * 6 + ["key:1"])
    cases += [
        served("8 entries", "A list has 8 at most.", HEAD + entries),
        behind("9 entries", "A list has 8 at most.", "allow 5 r key:1", "limit", entries),
        served("a content of 4,096 bytes", "It has no more.", HEAD + ["object 5", long]),
        behind("a content of 4,097 bytes", "It has 4,096 at most.", long + "00", "limit", ["object 5"]),
        served("an entry of 15 nodes", "It has 16 at most.", HEAD + ["object 5", "allow 5 r " + wide]),
        behind("an entry of 17 nodes", "It has 16 at most.", f"allow 5 r ({wide}) and key:1", "principal", ["object 5"]),
        served("64 shards", "There are no more.", HEAD + ["shards 64", "journal 1"]),
        served("a year", "No longer.", HEAD + ["keep 31536000"]),
        served("journals of 8,388,608 entries", "No more together.", HEAD + ["shards 8", "journal 1048576"]),
        refused("journals of more entries", "It is looked at behind the last line.", HEAD + ["shards 8", "object 5", "journal 1048576", "# end"], 6, "limit"),
        refused("no node before journals", "The node line is looked for first.", [FIRST, "shards 9", "journal 1048576"], 3, "no node"),
    ]
    return cases


def texts():
    return first_lines() + served_texts() + faults() + limits()


THEMES = [("texts", "Node files as texts: each fault by its line and its first cause, and what is served.", texts)]
