"""The words of the command, and files that are openings and that are none."""
from conversation import Case, Times, joined, talk
from formats import Fields, anchor_proof, granted, key_of, opening, opening_head, turned, u8, u16, u32
from .nodes import ALICE, NODE, NODES_16, NODES_17, SMALL, ask, by_anchor, handed, handing, issued, no_alice
from .nodes import node, relayed

MARK, NUMBER, RELAY_KEY, NUMBERS = b"\0\1", u32(NODE), key_of(NODE), [1, 3600, 16_384]
YEAR, LONGEST_JOURNAL = 31_536_000, 1_048_576

WORDS = [
    ("no words", [], "The command lacks."),
    ("another word", ["go"], "There is no such command."),
    ("two words", ["run", "run"], "A command has options alone."),
    ("a longer word", ["runs"], "There is no such command."),
    ("a shorter word", ["ru"], "There is no such command."),
    ("another case of a letter", ["Run"], "There is no such command."),
    ("run and check", ["run", "check"], "A command has options alone."),
    ("check and run", ["check", "run"], "A command has options alone."),
    ("a longer check", ["checks"], "There is no such command."),
    ("no frames", ["run", "--frames", "0"], "A number of frames is 1 at least."),
    ("no frames, in one word", ["run", "--frames=0"], "A number of frames is 1 at least."),
    ("frames of no number", ["run", "--frames"], "The option's value lacks."),
    ("frames of an empty number", ["run", "--frames="], "The option's value is empty."),
    ("frames of a letter", ["run", "--frames", "x"], "A number is of digits."),
    ("frames below zero", ["run", "--frames", "-1"], "No value begins with a dash."),
    ("frames below zero, in one word", ["run", "--frames=-1"], "No value begins with a dash."),
    ("frames with a plus", ["run", "--frames=+1"], "A number has no sign."),
    ("frames with a zero in front", ["run", "--frames", "01"], "A number has no zero in front."),
    ("2^64 frames", ["run", "--frames", str(2**64)], "The largest number is one less."),
    ("frames twice", ["run", "--frames=2", "--frames", "2"], "An option is given once."),
    ("frames twice, each in one word", ["run", "--frames=2", "--frames=2"], "An option is given once."),
    ("frames twice, each in two words", ["run", "--frames", "2", "--frames", "2"], "An option is given once."),
    ("frames of an option", ["run", "--frames", "--frames=2"], "No value begins with a dash."),
    ("a word behind the frames", ["run", "--frames", "2", "3"], "The option has one value."),
    ("a word before the frames", ["run", "2", "--frames", "2"], "A command has options alone."),
    ("frames before the command", ["--frames", "2", "run"], "The command comes first."),
    ("frames before the command, in one word", ["--frames=2", "run"], "The command comes first."),
    ("frames for a check", ["check", "--frames"], "The command has no option."),
    ("frames for a check, in one word", ["check", "--frames=2"], "The command has no option."),
    ("frames for a check, in two words", ["check", "--frames", "2"], "The command has no option."),
    ("a shorter option", ["run", "--frame", "2"], "There is no such option."),
    ("a longer option", ["run", "--framess", "2"], "There is no such option."),
    ("an option of one dash", ["run", "-frames", "2"], "There is no such option."),
    ("an option of one letter", ["run", "-f", "2"], "There is no such option."),
    ("another option", ["run", "--help"], "There is no such option of a command."),
    ("two dashes", ["--"], "They are no word of the table."),
    ("two dashes behind run", ["run", "--"], "They are no word of the table."),
    ("two dashes before run", ["--", "run"], "They are no word of the table."),
    ("two dashes behind check", ["check", "--"], "They are no word of the table."),
    ("two dashes behind the frames", ["run", "--frames", "2", "--"], "They are no word of the table."),
    ("two dashes for a number", ["run", "--frames", "--"], "They are no word of the table."),
    ("one dash", ["run", "-"], "A command has options alone."),
    ("help", ["help"], "There is no such command."),
    ("help of run", ["help", "run"], "There is no such command."),
]


def usage(title, words, about, **lines):
    return Case(title, about, 1, words, note="taos: usage", **lines)


def words():
    cases = [usage(*each, file=SMALL) for each in WORDS]
    cases += [usage("another word, and no file", ["go"], "The words are looked at before the file is read.")]
    cases += [usage("another word, and frames", ["runs"], "Nothing of the input is taken.", file=node(),
                    input=[ask(1, 1)], left=[ask(1, 1)])]
    cases += [Case("run alone", "A command.", file=SMALL)]
    cases += [Case(f"frames: {' '.join(line)}", "A command, with the most frames that it may have or fewer.", words=line,
                   file=SMALL) for line in TAKEN]
    return cases + frames()


TAKEN = [
    ["run", "--frames", "1"],
    ["run", "--frames=1"],
    ["run", "--frames", "1000001"],
    ["run", f"--frames={2**64 - 1}"],
]


def frames():
    """The anchored read's frame, once and more often than it is answered."""
    one, behind_one = [ask(1, 1)], [Fields(bytes(ask(1, 1))[1:])]
    cases = []
    for line in (["run", "--frames", "1"], ["run", "--frames=1"]):
        given = f", by {' '.join(line[1:])}"
        cases += [Case(f"one frame of one{given}", "It is answered, and nothing is behind it.", words=line, file=node(),
                       input=one, output=[by_anchor(1)])]
        cases += [Case(f"one frame of two{given}", "One byte more is there, and is taken.", 10, line, file=node(),
                       input=one + one, output=[by_anchor(1)], left=behind_one, note="taos: frames spent: 1")]
    cases += [Case("two frames of three", "The third frame is cut: its first byte tells that it is there.", 10,
                   ["run", "--frames=2"], file=node(), input=[ask(1, 1), ask(1, 2), Fields(b"\0\0")],
                   output=[by_anchor(1), by_anchor(2, place=2, kept=1)], left=[Fields(b"\0")],
                   note="taos: frames spent: 2")]
    cases += [Case("two frames of two", "Both are answered.", words=["run", "--frames", "2"], file=node(),
                   input=[ask(1, 1), ask(1, 2)], output=[by_anchor(1), by_anchor(2, place=2, kept=1)])]
    return cases


def refused_at(title, about, offset, lines, words=("run",)):
    return Case(title, about, 2, words, file=lines, note=f"taos: node file: byte {offset}: malformed")


def headed(shards=1, keep=3600, limit=16_384, rest=(b"\0\0", b"\0", b"\0", b"\0\0")):
    return opening_head(NODE, RELAY_KEY, shards, keep, limit) + [Fields(*rest)]


def behind(*rest):
    """The head, of 58 bytes, and other fields behind it."""
    return opening_head(NODE, RELAY_KEY, *NUMBERS) + [Fields(*rest)]


def counted(*rest):
    """No channels and no anchors: 61 bytes, and the certificates in common."""
    return behind(b"\0\0", b"\0", *rest)


def held(*rest):
    """Nothing before the objects either: 62 bytes."""
    return counted(b"\0", *rest)


def listing(*rest):
    """Object 5 without a content: 70 bytes, and its entries."""
    return held(u16(1), u32(5), u16(0), *rest)


CUTS = [1, 2, 5, 6, 37, 38, 41, 42, 49, 50, 57, 58, 59, 60, 61, 62, 63]

HEADS = [
    ("another mark in its second byte", 1, [Fields(b"\0\2"), Fields(joined(SMALL)[2:])]),
    ("no shard", 38, headed(shards=0)),
    ("65 shards", 38, headed(shards=65)),
    ("nothing is kept", 42, headed(keep=0)),
    ("a second more than a year", 42, headed(keep=YEAR + 1)),
    ("journals of no entry", 50, headed(limit=0)),
    ("journals of one entry too many", 50, headed(limit=LONGEST_JOURNAL + 1)),
]

TABLES = [
    ("1,025 channels", 58, behind(u16(1025))),
    ("1,024 channels that are not there", 60, behind(u16(1024))),
    ("a channel's number that is cut", 63, behind(u16(1), bytes(3))),
    ("a channel's key that is cut", 95, behind(u16(1), u32(1), bytes(31))),
    ("a channel that was there", 96, behind(u16(2), u32(1), key_of(1), u32(1))),
    ("65 anchors", 60, behind(u16(0), u8(65))),
    ("64 anchors that are not there", 61, behind(u16(0), u8(64))),
    ("an anchor that is cut", 68, behind(u16(0), u8(1), u32(1), bytes(3))),
    ("an anchor that was there", 69, behind(u16(0), u8(2), u32(1), u32(10), u32(1), u32(10))),
    ("half an anchor that was there", 73, behind(u16(0), u8(2), u32(1), u32(10), u32(1))),
    ("33 certificates in common", 61, counted(u8(33))),
    ("32 certificates that are not there", 62, counted(u8(32))),
    ("a certificate's length that is cut", 63, counted(u8(1), b"\0")),
    ("a certificate in common that is cut", 66, counted(u8(1), u16(65), b"\2\1")),
    ("a certificate in common of no bytes", 64, counted(u8(1), u16(0))),
    ("a turned certificate in common", 64, counted(u8(1), u16(65), turned(handed()))),
    ("a certificate in common under another key", 64, counted(u8(1), u16(65), relayed(handing(), key_of(8)))),
    ("a certificate in common under its issuer's seal", 64, counted(u8(1), u16(65), issued(1, handing()))),
    ("a byte behind the tag of one in common", 64, counted(u8(1), u16(66), handed(), b"\0")),
    ("a certificate in common that was there", 131, counted(u8(2), u16(65), handed(), u16(65), handed())),
    ("257 objects", 62, held(u16(257))),
    ("256 objects that are not there", 64, held(u16(256))),
    ("an object that was there", 71, held(u16(2), u32(5), u16(0), u8(0), u32(5))),
    ("a content of 4,097 bytes", 68, held(u16(1), u32(5), u16(4097))),
    ("a content that is not there", 70, held(u16(1), u32(5), u16(4096))),
    ("nine entries", 70, listing(u8(9))),
    ("eight entries that are not there", 71, listing(u8(8))),
    ("an entry of no rights", 71, listing(u8(1), u8(0), ALICE)),
    ("an entry of rights 16", 71, listing(u8(1), u8(16), ALICE)),
    ("an entry of no kind", 72, listing(u8(1), u8(1), b"\x09")),
    ("an entry that is cut", 75, listing(u8(1), u8(1), ALICE[:3])),
    ("an entry of 17 nodes", 120, listing(u8(1), u8(1), NODES_17)),
    ("an entry of 17 levels", 88, listing(u8(1), u8(1), b"\x05" * 16 + b"\1")),
    ("a byte behind the end", 64, held(u16(0), b"\0")),
    ("no room for the journals", 64, headed(shards=9, limit=LONGEST_JOURNAL)),
    ("no room for the journals of an object", 71,
     headed(shards=8, limit=LONGEST_JOURNAL, rest=(b"\0\0", b"\0", b"\0", u16(1), u32(5), u16(0), u8(0)))),
    ("no room, and a byte behind the end", 64, headed(9, 3600, LONGEST_JOURNAL,
                                                      (b"\0\0", b"\0", b"\0", b"\0\0", b"\0"))),
]


def no_openings():
    cases = [refused_at(f"cut behind {count} bytes", "A byte is lacking at the file's length.", count,
                        [Fields(joined(SMALL)[:count])]) for count in CUTS]
    cases += [Case("another mark", "A file whose first byte is not 0 is a text.", 2,
                   file=[Fields(b"\1\1"), Fields(joined(SMALL)[2:])], note="taos: node file: line 1: first line")]
    cases += [refused_at(title, f"At byte {offset}.", offset, lines) for title, offset, lines in HEADS + TABLES]
    large = "One byte more than a file may have."
    cases += [Case("a file that is too long", large, 2, file=[Times(b"\0", 4_194_305)],
                   note="taos: node file: line 0: limit")]
    cases += [refused_at("the longest file", "Of zeros: at the second byte there is another mark.", 1,
                         [Times(b"\0", 4_194_304)])]
    cases += [refused_at("check of a file that is cut", "It reads the file as run does.", 63,
                         [Fields(joined(SMALL)[:63])], ("check",))]
    cases += [Case("check of a file that is too long", large, 2, ("check",), file=[Times(b"\0", 4_194_305)],
                   note="taos: node file: line 0: limit")]
    cases += [Case("frames behind a file that is cut", "Nothing of the input is taken.", 2,
                   file=[Fields(joined(SMALL)[:63])], input=[ask(1, 1)], left=[ask(1, 1)],
                   note="taos: node file: byte 63: malformed")]
    return cases


def most(channels=(1,), anchors=(), commons=(), objects=()):
    return opening(NODE, RELAY_KEY, *NUMBERS, list(channels), list(anchors), list(commons), list(objects))


def openings():
    """Files at the limits, which are openings."""
    one = [(5, b"hello", [(15, ALICE)])]
    many = [handed(serial=number) for number in range(1, 33)]
    anchors = [(2, number) for number in range(100, 163)] + [(1, 10)]
    eight = [(5, b"hello", [(2, NODES_16)] * 7 + [(15, ALICE)])]
    objects = [(number, b"", []) for number in range(100, 355)] + one
    by_first = (ask(1, 1), by_anchor(1))
    of_64 = opening(NODE, RELAY_KEY, 64, YEAR, 16, [1], [(1, 10)], [], one)
    return [
        Case("64 shards, kept for a year", "The most of both.", file=headed(64, YEAR, 16)),
        Case("a shard, a second and an entry", "The least of all three.", file=headed(1, 1, 1)),
        talk("64 anchors", "The last is of key 1.", most(anchors=anchors, objects=one),
             [(ask(1, 1), granted(1, 1, anchor_proof(1, 10, 63)))]),
        talk("a certificate twice but for its serial", "32 certificates in common, no body twice.",
             most([1, 2], [(1, 10)], many, one), [by_first]),
        talk("256 objects", "The last is object 5.", most(anchors=[(1, 10)], objects=objects), [by_first]),
        talk("eight entries of 16 nodes", "The last of eight is granted.", most(anchors=[(1, 10)], objects=eight),
             [(ask(1, 1), by_anchor(1, entry=7))]),
        talk("the 64th shard", "Channel 1 of 64 shards is of shard 1.", of_64,
             [(ask(1, 1), by_anchor(1, shard=1))]),
        talk("one key of two names, one name of two keys", "No pair is there twice.",
             most([1, 2], [(1, 10), (1, 11), (2, 11)], [], one),
             [by_first, (ask(2, 1), no_alice(2, 1, place=2))]),
    ]


THEMES = [
    ("words", "The words of the command.", words),
    ("no_openings", "Files that are no opening, each refused at its first fault.", no_openings),
    ("openings", "Openings at their limits.", openings),
]
