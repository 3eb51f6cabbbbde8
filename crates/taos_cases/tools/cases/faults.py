"""What ends a run: the end of the input, and each call that fails."""
from conversation import Case, Times, joined, talk
from formats import Fields, anchor_proof, granted, malformed, unsealed_reply
from .nodes import SMALL, ask, by_anchor, handed, node, three
from .paths import LARGE, three_replies

READ_FAULT, WRITE_FAULT, CLOCK_FAULT = "taos: read fault", "taos: write fault", "taos: clock fault"


def ends_inside(have):
    return f"taos: input ends inside a frame, {have} bytes kept"


# What stands behind a whole frame, the status, its note, and what is not taken.
TAILS = [
    ("nothing behind", "", 0, None, None),
    ("one byte of a length", "00", 7, ends_inside(1), None),
    ("three bytes of a length", "000000", 7, ends_inside(3), None),
    ("a length alone", "00000034", 7, ends_inside(4), None),
    ("a length and a byte", "00000034 03", 7, ends_inside(5), None),
    ("all but a byte", "00000003 0300", 7, ends_inside(6), None),
    ("the longest length alone", "00010000", 7, ends_inside(4), None),
    ("a length of 65,537", "00010001", 8, "taos: frame too long: 65537", None),
    ("the longest word", "ffffffff", 8, "taos: frame too long: 4294967295", None),
    ("a length of 65,537, and bytes", "00010001 0300", 8, "taos: frame too long: 65537", "0300"),
    ("a length of 65,537, and a frame", "00010001 00000000", 8, "taos: frame too long: 65537", "00000000"),
]


def digits(text):
    return [Fields(*map(bytes.fromhex, text.split()))]


def endings():
    about = "The whole frame is answered, whatever stands behind it."
    cases = [Case(title, about, status, file=node(), input=[ask(1, 1)] + digits(tail), output=[by_anchor(1)],
                  note=note, left=left and digits(left)) for title, tail, status, note, left in TAILS]
    alone = [Case(f"{title}, and no frame before", "Nothing is answered.", status, file=SMALL, input=digits(tail),
                  note=note, left=left and digits(left)) for title, tail, status, note, left in TAILS[1:]]
    return cases + alone


def pieces():
    """Three frames of 116 bytes in pieces of each size. No read asks for more than 52."""
    file, asked, answered = node(), three(), three_replies()
    about = "The replies are those to the whole."
    cases = [Case(f"in pieces of {size}", about, file=file, input=asked, output=answered,
                  pieces=[size] * (116 // size + 8)) for size in [*range(1, 57), 116]]
    rising = "A piece is cut where a read asks for less: no byte behind a frame is taken with it."
    cases += [Case("in rising pieces", rising, file=file, input=asked, output=answered, pieces=range(1, 30))]
    cases += [Case("in pieces, and cut", "The piece that lacks is found.", 7, file=file,
                   input=[Fields(joined(asked)[:100])], output=answered[:1], pieces=[7] * 30,
                   note=ends_inside(44))]
    return cases


# A call of reading the input, its first and last byte where it comes byte by byte, the replies before.
READS = [
    ("the first length", 0, (0, 3), 0),
    ("the first payload", 1, (4, 55), 0),
    ("the second length", 2, (56, 59), 1),
    ("the second payload", 3, (60, 111), 1),
    ("the third length", 4, (112, 115), 2),
    ("the end", 5, (116,), 3),
]


def reading():
    file, asked, answered = node(), three(), three_replies()
    about = "Whole, a frame is read by two calls, an empty one by one; byte by byte by as many as it has bytes."
    cases = []
    for what, call, places, count in READS:
        for byte in places:
            cases += [Case(f"reading {what} fails, at byte {byte}", about, 3, file=file, input=asked,
                           output=answered[:count], input_fails=[call], byte_fails=[byte], note=READ_FAULT,
                           faults=1)]
    cases += [Case("a read behind the end would fail", "There is none.", file=file, input=asked, output=answered,
                   input_fails=[6], byte_fails=[117])]
    cases += [Case("the first of two reads that fail", "No call comes behind a fault.", 3, file=file, input=asked,
                   output=answered[:1], input_fails=[2, 3], byte_fails=[57, 58], note=READ_FAULT, faults=1)]
    cases += [Case("reading the first length fails in a piece", "Two bytes of it had come.", 3, file=file,
                   input=asked, pieces=[2, 2, 52], input_fails=[1], byte_fails=[2], note=READ_FAULT, faults=1)]
    return cases + reading_files(file, asked, answered)


def reading_files(file, asked, answered):
    """One call gives a file, and one more that it has ended."""
    unread = dict(input=asked, left=asked, note=READ_FAULT, faults=1)
    cases = [Case(f"reading the file fails at call {call}", "Nothing of the input is taken.", 3, file=file,
                  file_fails=[call], **unread) for call in (0, 1)]
    cases += [Case(f"check fails at call {call} of reading the file", "As run does.", 3, ["check"], file=file,
                   file_fails=[call], **unread) for call in (0, 1)]
    cases += [Case("a read of the file behind its end would fail", "There is none.", file=file, input=asked,
                   output=answered, file_fails=[2])]
    cases += [Case("a read behind a file that is too long would fail", "The first call fills the room.", 2,
                   file=[Times(b"\0", 4_194_305)], file_fails=[1], note="taos: node file: line 0: limit")]
    cases += [Case("reading a file of no bytes fails", "It is not known to be empty.", 3, file_fails=[0],
                   note=READ_FAULT, faults=1)]
    return cases


def fronts(frames, count):
    """The first so many bytes of frames."""
    out = []
    for each in frames:
        if count > 0:
            out.append(each.front(count))
        count -= len(each)
    return out


def writing():
    """The three replies have 99, 69 and 54 bytes, and each is one call."""
    file, asked, answered = node(), three(), three_replies()
    cases = [Case(f"writing fails at call {call}", "Each reply is one call.", 4, file=file, input=asked,
                  output=answered[:call], output_fails=[call], note=WRITE_FAULT, faults=1) for call in range(3)]
    cases += [Case("writing would fail at call 3", "There is none.", file=file, input=asked, output=answered,
                   output_fails=[3])]
    about = "A front of the replies is written."
    cases += [Case(f"room for {room} bytes of output", about, 4, file=file, input=asked,
                   output=fronts(answered, room), output_room=room, note=WRITE_FAULT, faults=1)
              for room in (0, 1, 98, 99, 100, 168, 221)]
    cases += [Case("room for all 222 bytes of output", "No write fails.", file=file, input=asked, output=answered,
                   output_room=222)]
    cases += [Case("frames behind a write that failed", "They are not taken.", 4, file=file, input=asked,
                   output=[], output_fails=[0], left=asked[1:], note=WRITE_FAULT, faults=1)]
    return cases + writing_large()


def writing_large():
    """A reply of more than 512 bytes is written by two calls: its length, and its payload."""
    content = LARGE[:512]
    file, asked = node(content=content), [ask(1, 1), ask(1, 9)]
    large = [granted(1, number, anchor_proof(1, 10, 0), content=content, place=place, kept=kept)
             for number, place, kept in ((1, 0, 0), (9, 2, 1))]
    size = len(large[0])
    cuts = [0, 4, size, size + 4]
    cases = [Case(f"writing large replies fails at call {call}", "A length is a call of its own.", 4, file=file,
                  input=asked, output=fronts(large, cut), output_fails=[call], note=WRITE_FAULT, faults=1)
             for call, cut in enumerate(cuts)]
    cases += [Case(f"room for {room} bytes of a large reply", "A front of it is written.", 4, file=file,
                   input=asked[:1], output=fronts(large, room), output_room=room, note=WRITE_FAULT, faults=1)
              for room in (3, 4, 5, size - 1)]
    return cases


def noting():
    """A note is one call."""
    file, note = node(), "taos: node file: line 1: first line"
    cut = "The status is the same."
    return [
        Case("writing the note fails", cut, 2, notes_fails=[0], faults=1),
        Case("writing the note would fail at call 1", "There is none.", 2, notes_fails=[1], note=note),
        Case("room for five bytes of the note", cut, 2, notes_room=5, note_front="taos:", faults=1),
        Case("no room for the note", cut, 2, notes_room=0, faults=1),
        Case("room for all but the note's line feed", cut, 2, notes_room=len(note), note_front=note, faults=1),
        Case("room for all of the note", "No write fails.", 2, notes_room=len(note) + 1, note=note),
        Case("room for five bytes of a note on the words", cut, 1, [], notes_room=5, note_front="taos:",
             faults=1),
        Case("no room for a note on a frame that is cut", cut, 7, file=SMALL, input=[bytes(1)], notes_room=0,
             faults=1),
        Case("no room for a note on a frame that is too long", cut, 8, file=SMALL, input=digits("00010001"),
             notes_room=0, faults=1),
        Case("reading and the note fail", "Both are counted.", 3, file=file, input=[ask(1, 1)], input_fails=[0],
             byte_fails=[0], notes_fails=[0], faults=2),
        Case("writing and the note fail", "Both are counted.", 4, file=file, input=[ask(1, 1)], output_fails=[0],
             notes_fails=[0], faults=2),
        Case("the clock and the note fail", "Both are counted.", 5, file=file, input=[ask(1, 1)], clock_fails=[0],
             notes_fails=[0], faults=2),
        Case("no note, and none would do", "Success writes none.", file=file, notes_fails=[0]),
    ]


def clock_calls():
    """Who comes to an object reads the clock, and no other."""
    file, asked, answered = node(), three(), three_replies()
    cases = [Case(f"reading the clock fails at call {call}", "The requests before are answered.", 5, file=file,
                  input=asked, output=answered[:call], clock_fails=[call], note=CLOCK_FAULT, faults=1,
                  left=asked[call + 1 :]) for call in (0, 1)]
    cases += [Case("reading the clock would fail at call 2", "What is no request reads no clock.", file=file,
                   input=asked, output=answered, clock_fails=[2])]
    cases += [Case("the clock fails behind what is no request",
                   "The first reading is that of the second frame.", 5,
                   file=file, input=[Fields(bytes(4)), ask(1, 1)], output=[malformed(0)], clock_fails=[0],
                   note=CLOCK_FAULT, faults=1)]
    cases += [Case("the clock fails where a certificate was presented", "It was opened before.", 5, file=file,
                   input=[ask(2, 1, handed())], clock_fails=[0], note=CLOCK_FAULT, faults=1)]
    full = node(limit=1)
    cases += [Case("the clock fails at a journal that is full", "It is read before the journal is looked at.", 5,
                   file=full, input=[ask(1, 1), ask(1, 2)], output=[by_anchor(1)], clock_fails=[1],
                   note=CLOCK_FAULT, faults=1)]
    return cases


def million():
    replies = [Times(unsealed_reply(2, bytes(4)), 1_000_000)]
    frames, spent = Times(bytes(4), 1_000_000), "taos: frames spent: 1000000"
    about = "Each is empty and answered. Then one byte more is asked for"
    return [
        Case("a million frames", f"{about}, and there is none.", file=SMALL, input=[frames], output=replies),
        Case("a million frames and one", f"{about}, and taken.", 10, file=SMALL, input=[frames, bytes(4)],
             output=replies, note=spent, left=[bytes(3)]),
        Case("a million frames, and a read that fails", f"{about}, and that fails.", 3, file=SMALL,
             input=[frames],
             output=replies, input_fails=[1_000_000], byte_fails=[4_000_000], note=READ_FAULT, faults=1),
    ]


THEMES = [
    ("endings", "What stands behind the whole frames of the input.", endings),
    ("pieces", "The input in pieces.", pieces),
    ("reading", "Reads of the input and of the file that fail.", reading),
    ("writing", "Writes of the output that fail, and an output with little room.", writing),
    ("notes", "Notes that fail: they are cut or missing, and change no status.", noting),
    ("clock_calls", "Readings of the clock that fail.", clock_calls),
]
LAST = [("million", "A connection answers a million frames and no more.", million)]
