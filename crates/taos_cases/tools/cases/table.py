"""One table of faults: a conversation of three requests with each call of each object failing, cut at each byte, and
with each length replaced."""
from conversation import Case, Grant, Named, joined
from formats import LAST, Fields, anchor_proof, granted, key_of, relay_failed, resealed
from .nodes import ask, handing, issued, node, relayed

# Channel 1 by its anchor, and channel 2 twice by a certificate under its issuer's own seal.
PRESENTED = issued(1, handing())
NAMED = [Named(name, each) for name, each in (("first", ask(1, 1)), ("second", ask(2, 1, PRESENTED)), ("third", ask(2, 2, PRESENTED)))]
SIZES = [len(each) for each in NAMED]
STARTS = [sum(SIZES[:at]) for at in range(4)]
ANSWERS = [granted(1, 1, anchor_proof(1, 10, 0)), Grant(2, 1, 1, place=2), Grant(2, 2, 1, place=4, kept=1)]
RELAY = dict(relay_node=(7, key_of(7)), relay_issuer=[(1, key_of(1))])
BY_LINK = dict(relay_says=[resealed(relayed(handing()))] * 2)
READ_FAULT, WRITE_FAULT, CLOCK_FAULT = "taos: read fault", "taos: write fault", "taos: clock fault"
ALL = STARTS[3]


def played(title, about, count=3, status=0, **lines):
    """The conversation, with the first so many of its replies."""
    lines = {"file": node(), "clock": [1000], "input": NAMED, "output": ANSWERS[:count], **RELAY, **lines}
    return Case(title, about, status, **lines)


def fronts(size):
    """The first so many bytes of the three frames."""
    whole = [each for each, start in zip(NAMED, STARTS[1:]) if start <= size]
    rest = joined(NAMED)[STARTS[len(whole)] : size]
    return whole + ([Fields(rest)] if rest else [])


def before(byte):
    """How many frames end before this byte of the input."""
    return sum(start <= byte for start in STARTS[1:])


def call_of(byte):
    """Which call reads this byte where the input comes whole: of each frame its length, and its payload."""
    frame = before(byte)
    return 2 * frame + (frame < 3 and byte - STARTS[frame] >= 4)


def failing():
    """Each call of each object but the input."""
    about = "As many calls as it has, each failing alone."
    cases = [played("no call fails", "Calls of the file 2, the output 3, the clock 3, the link 2.", file_fails=[2], output_fails=[3],
                    clock_fails=[3], relay_fails=[2])]
    cases += [played(f"the file fails at call {call}", about, 0, 3, file_fails=[call], note=READ_FAULT, faults=1, left=NAMED)
              for call in range(2)]
    cases += [played(f"the output fails at call {call}", about, call, 4, output_fails=[call], note=WRITE_FAULT, faults=1)
              for call in range(3)]
    cases += [played(f"the clock fails at call {call}", about, call, 5, clock_fails=[call], note=CLOCK_FAULT, faults=1,
                     left=NAMED[call + 1 :]) for call in range(3)]
    cases += [
        played("the link fails at call 0", "What it would have brought is not held.", relay_fails=[0], faults=1,
               output=[ANSWERS[0], relay_failed(2, 1, 0), Grant(2, 2, 1, place=2)]),
        played("the link fails at call 1", "The certificate that is held is not looked at.", relay_fails=[1], faults=1,
               output=[*ANSWERS[:2], relay_failed(2, 2, 0)]),
    ]
    spent = played("two frames of three", "One byte of the third is taken.", 2, 10, words=["run", "--frames", "2"], left=[Fields(bytes(NAMED[2])[1:])],
                   note="taos: frames spent: 2")
    return cases + [spent] + at_last()


def at_last():
    """The link's count stands at the largest number."""
    return [
        played("a count at its last value", "No call fails.", relay_faults=LAST, faults=LAST),
        played("the link fails at call 0, its count at its last value", "It fails as before, and the count stays.", relay_faults=LAST,
               relay_fails=[0], faults=LAST, output=[ANSWERS[0], relay_failed(2, 1, 0), Grant(2, 2, 1, place=2)]),
        played("the link fails at each call, its count before its last value", "The count stays at its last value.",
               relay_faults=LAST - 1, relay_fails=[0, 1], faults=LAST,
               output=[ANSWERS[0], relay_failed(2, 1, 0), relay_failed(2, 2, 0)]),
    ]


def by_streams():
    """The link over a stream, and with nobody at its end."""
    about = "A question is one write, an answer two reads. The next question is asked all the same."
    none = dict(relay_node=None, relay_issuer=None)
    first = dict(output=[ANSWERS[0], relay_failed(2, 1, 0), Grant(2, 2, 1, place=2)], faults=1)
    second = dict(output=[*ANSWERS[:2], relay_failed(2, 2, 0)], faults=1)
    cases = [played("by a stream", about, hears_fails=[2], says_fails=[4], **none, **BY_LINK)]
    cases += [played(f"{what} fails at call {call}", about, **{key: [call]}, **none, **BY_LINK, **come)
              for what, key, call, come in (("asking", "hears_fails", 0, first), ("asking", "hears_fails", 1, second),
                                            ("hearing", "says_fails", 0, first), ("hearing", "says_fails", 2, second))]
    cases += [played("no relay", "Each call fails.", output=[ANSWERS[0], relay_failed(2, 1, 0), relay_failed(2, 2, 0)], faults=2, **none)]
    return cases


def reading():
    """Each read of the input, byte by byte and whole."""
    about = "The replies are those to the frames that were whole."
    return [played(f"reading fails at byte {byte}", about, before(byte), 3, byte_fails=[byte], input_fails=[call_of(byte)],
                   note=READ_FAULT, faults=1) for byte in range(ALL + 1)]


def cut_at(size):
    kept = size - STARTS[before(size)]
    note = f"taos: input ends inside a frame, {kept} bytes kept"
    return dict(status=7, note=note) if kept else {}


def cut():
    about = "The replies are those to the whole frames."
    return [played(f"cut at byte {size}", about, before(size), input=fronts(size), **cut_at(size)) for size in range(ALL)]


def lengths():
    about = "Nothing behind the length is taken."
    cases = []
    for at, name in enumerate(("first", "second", "third")):
        rest = [Fields(bytes(NAMED[at])[4:]), *NAMED[at + 1 :]]
        cases += [played(f"a length of 65,537 for the {name}", about, at, 8, note="taos: frame too long: 65537",
                         input=[*NAMED[:at], Fields(bytes.fromhex("00010001")), *rest], left=rest)]
    return cases


def table():
    return failing() + by_streams() + lengths() + reading() + cut()


THEMES = [("table", "Three requests, with each call of each object failing, and cut at each byte.", table)]
