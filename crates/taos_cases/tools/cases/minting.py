"""Certificates that are made by the words of a command line."""
from conversation import Case
from formats import Fields, body, key, key_of, name, quoting
from .nodes import handing, issued
from .relaying import ISSUER, MARK, keyed, line

FILE = [MARK, ISSUER, keyed("issuer", 0, 2), keyed("issuer", 2**32 - 1, 3), line("name 10 alice"), line("role 1 taos")]
GIVEN = {"issuer": "1", "serial": "1", "until": "1970-01-01T00:33:20Z", "left": "key:2", "right": "alice"}
ALL = ["issuer", "serial", "until", "quoted", "left", "right"]


def words_of(order=ALL, **given):
    """The words of these options, `None` for one that is not given."""
    told = {**GIVEN, **given}
    words = ["mint"]
    for option in order:
        if told.get(option) is not None:
            words += [f"--{option}", told[option]]
    return words


def printed(sealed):
    return Fields(bytes(sealed).hex().encode() + b"\n")


def minted(title, about, words, sealed):
    return Case(title, about, words=words, file=FILE, output=[printed(sealed)])


# A certificate of 31 parts, of which each is once: more than there may be.
PAIRS = [f"(key:{each}|key:{each + 1})" for each in range(1, 17, 2)]
FOURS = [f"({PAIRS[at]}|{PAIRS[at + 1]})" for at in range(0, 8, 2)]
WIDE = f"({FOURS[0]}|{FOURS[1]})|({FOURS[2]}|{FOURS[3]})"

UNTILS = [
    ("1970-01-01T00:00:00Z", 0),
    ("1970-01-01T02:00:00+02:00", 0),
    ("1970-01-01T00:33:20.000Z", 2000),
    ("2106-02-07T06:28:16Z", 2**32),
]
NO_TIMES = ["2000", "1970-01-01", "1970-01-01T00:33:20", "1970-01-01T00:33:20.5Z", "1969-12-31T23:59:59Z", "1969-12-31T23:59:59.5Z",
            "1970-01-01T00:33:61Z", "1970-13-01T00:00:00Z", "alice"]


def makes():
    about = "Key 1 says that key 2 speaks for alice, until 2000."
    own = issued(1, handing())
    mixed = ["mint", "--right=alice", "--until", GIVEN["until"], "--left=key:2", "--serial=1", "--issuer", "1"]
    quoted = issued(1, body(1, key(2), name(10), 2000, 1, quoted=name(10)))
    cases = [
        minted("the certificate of the anchored key", about, words_of(), own),
        minted("options in another order", about, words_of(ALL[::-1]), own),
        minted("options in one word or in two", about, mixed, own),
        minted("who is quoted", "Key 1 quotes alice.", words_of(quoted="alice"), quoted),
        minted("compounds", "Both sides are compounds.", words_of(left="key:2|name:3", right="(key:2)|key:2"),
               issued(1, body(1, quoting(key(2), name(3)), quoting(key(2), key(2)), 2000, 1))),
        minted("the largest numbers", "An issuer and a serial number at their limits.",
               words_of(issuer=str(2**32 - 1), serial=str(2**64 - 1)),
               issued_by(3, body(2**32 - 1, key(2), name(10), 2000, 2**64 - 1))),
        minted("the least numbers", "Zeros.", words_of(issuer="0", serial="0"), issued_by(2, body(0, key(2), name(10), 2000, 0))),
    ]
    cases += [minted(f"until {text}", "An instant in whole seconds.", words_of(until=text), issued(1, handing(until=until)))
              for text, until in UNTILS]
    return cases + sizes() + refusals() + ends() + usages()


def row(levels):
    """The text and the term of key 1 in so many levels, each of which quotes it."""
    text, term = "key:1", key(1)
    for _ in range(levels - 1):
        text, term = f"({text})|key:1", quoting(term, key(1))
    return text, term


def tree(levels):
    """The same with two of the level before."""
    text, term = "key:1", key(1)
    for _ in range(levels - 1):
        text, term = f"({text})|({text})", quoting(term, term)
    return text, term


def sizes():
    """Principals at their limits: 16 levels, 64 nodes, 16 parts with the speaker."""
    deep, wide = row(16), tree(6)
    own = dict(right="key:1")
    return [
        minted("16 levels, of 16 parts", "Key 1 is one of them.", words_of(left=deep[0], **own), issued(1, body(1, deep[1], key(1), 2000, 1))),
        minted("63 nodes, of 6 parts", "Key 1 is one of them.", words_of(left=wide[0], **own), issued(1, body(1, wide[1], key(1), 2000, 1))),
        minted("parentheses more than needed", "They say nothing.", words_of(left=f"{'(' * 20}key:2{')' * 20}"), issued(1, handing())),
        minted("the text of a number", "A name need not have a text.", words_of(right="name:10"), issued(1, handing())),
        minted("the largest numbers of principals", "Of 32 bits.", words_of(left="key:4294967295", right="name:4294967295"),
               issued(1, body(1, key(2**32 - 1), name(2**32 - 1), 2000, 1))),
        refused("17 levels", "left", words_of(left=row(17)[0], **own)),
        refused("65 nodes", "left", words_of(left=f"({wide[0]})|key:1", **own)),
        refused("16 levels, of 17 parts", "large", words_of(left=deep[0])),
        refused("16 levels, of 17 parts, and a right side that is wrong", "right", words_of(left=deep[0], right="x")),
        refused("a key of 2^32", "left", words_of(left="key:4294967296")),
        refused("a name with a sign", "right", words_of(right="name:+10")),
        refused("an operand that lacks", "left", words_of(left="key:2|")),
        refused("a parenthesis that lacks", "left", words_of(left="(key:2")),
        refused("a parenthesis too many", "left", words_of(left="key:2)")),
        refused("a word of principals", "right", words_of(right="and")),
        refused("a text of upper case", "right", words_of(right="Alice")),
        refused("who is quoted has 17 levels", "quoted", words_of(quoted=row(17)[0])),
    ]


def issued_by(secret, text):
    from formats import ISSUED, certificate
    return certificate(ISSUED, key_of(secret), text)


def refused(title, word, words):
    return Case(title, "The first word that is refused.", 12, words, file=FILE, note=f"taos: mint refused: {word}")


def refusals():
    cases = [refused(f"until {text}", "time", words_of(until=text)) for text in NO_TIMES]
    return cases + [
        refused("another issuer", "issuer", words_of(issuer="9")),
        refused("all are wrong", "issuer", words_of(issuer="9", until="x", quoted="x", left="x", right="x")),
        refused("all but the issuer are wrong", "time", words_of(until="x", quoted="x", left="x", right="x")),
        refused("all principals are wrong", "quoted", words_of(quoted="x", left="x", right="x")),
        refused("both sides are wrong", "left", words_of(left="x", right="x")),
        refused("the right side is wrong", "right", words_of(right="x")),
        refused("the left side has two operators", "left", words_of(left="key:1|key:2|key:3")),
        refused("the right side is a role", "right", words_of(right="taos")),
        refused("a key with a zero in front", "left", words_of(left="key:02")),
        refused("too many parts on the left", "large", words_of(left=WIDE)),
        refused("too many parts on the right", "large", words_of(right=WIDE)),
        refused("too many parts in who is quoted", "large", words_of(quoted=WIDE)),
    ]


def ends():
    asked = [Fields(b"\0\0\0\0")]
    return [
        Case("an empty file", "The file is refused before the words' meaning is looked at.", 2, words_of(issuer="9"), file=[],
             note="taos: node file: line 1: first line", input=asked, left=asked),
        Case("a read of the file fails", "Nothing is printed.", 3, words_of(), file=FILE, file_fails=[0], faults=1,
             note="taos: read fault"),
        Case("a write of the output fails", "Nothing is printed.", 4, words_of(), file=FILE, output_fails=[0], faults=1,
             note="taos: write fault"),
        Case("the input is not read", "Whatever stands there.", words=words_of(), file=FILE, input=asked, left=asked,
             output=[printed(issued(1, handing()))]),
    ]


# Words that are no command line of `mint`.
USAGES = [words_of(**{option: None}) for option in ("issuer", "serial", "until", "left", "right")] + [
    ["mint"],
    words_of(issuer="01"),
    words_of(issuer="+1"),
    words_of(issuer=str(2**32)),
    words_of(issuer="1.0"),
    words_of(serial=str(2**64)),
    words_of(serial="x"),
    words_of(order=["issuer", "serial", "until", "left", "right", "issuer"]),
    words_of() + ["--issuer=1"],
    words_of() + ["--quoted"],
    words_of() + ["--quoted="],
    words_of() + ["--quoted=-1"],
    words_of() + ["--frames=1"],
    words_of() + ["--who=alice"],
    words_of() + ["alice"],
    words_of() + ["--"],
    words_of(left=None) + ["--left=-x"],
    words_of(left=None) + ["--left", "--right", "alice"],
    ["--issuer", "1"] + words_of(issuer=None),
    ["run", "--issuer", "1"],
    ["relay", "--left=key:2"],
    ["check", "--until", "2000"],
]


def usages():
    return [Case(f"usage: {' '.join(words)}", "The words are looked at before the file.", 1, words, note="taos: usage",
                 file=FILE) for words in USAGES]


THEMES = [("minting", "Certificates by the words of a command line.", makes)]
