"""Conversations, and how a file of them is written."""
import textwrap

from formats import LAST, Fields, grant_front

WIDTH = 100
# A file of so many bytes or fewer is written where it stands.
SHORT = 16
NUMBERS = ["pieces", "clock"]
FAILS = ["file-fails", "input-fails", "byte-fails", "output-fails", "notes-fails", "clock-fails"]
FAILS += ["relay-fails", "says-fails", "hears-fails", "wallet-says-fails", "wallet-hears-fails", "door-fails", "second-door-fails"]
ROOMS = ["output-room", "notes-room", "hears-room"]
BYTES = ["file", "input", "relay-says", "wallet-says", "output", "hears", "wallet-hears", "left"]
# Bytes whose line says something where it has none.
EMPTY = ["relay-says", "wallet-hears"]
KEYS = ["words", "file", "input", "connections", "pieces", "clock", "relay-node", "relay-issuer", "relay-faults", "relay-says"]
KEYS += ["fetched", "wallet-says"] + FAILS + ROOMS + ["output", "hears", "wallet-hears", "left", "status", "note", "note-front", "faults"]


class Times:
    """The same bytes so many times."""

    def __init__(self, fields, count):
        self.fields, self.count = fields, count

    def __bytes__(self):
        return bytes(self.fields) * self.count

    def __len__(self):
        return len(self.fields) * self.count


class Named:
    """Bytes that stand in their file once, under a name."""

    def __init__(self, name, fields):
        self.name, self.fields = name, fields

    def __bytes__(self):
        return bytes(self.fields)

    def __len__(self):
        return len(self.fields)


class Grant:
    """The frame of a grant whose proof may be any. The first of its certificates ends as `until` says; their bodies are told
    where it counts which they are."""

    def __init__(self, channel, number, certificates, entry=0, shard=0, place=0, content=b"hello", kept=0, until=2000, cites=None):
        self.front = grant_front(channel, number, entry, shard, place, kept)
        self.certificates, self.content = certificates, content
        self.until = until if certificates else LAST
        self.cites = cites if certificates else []

    def line(self):
        content = f" content {self.content.hex()}".rstrip()
        return f"grant {spelled(self.front)} certificates {self.certificates}{content}"


class Case:
    """A name, what the case shows, and its lines by their keys, with `_` for `-`."""

    def __init__(self, title, about, status=0, words=("run",), **lines):
        self.title, self.about = title, about
        self.lines = {key.replace("_", "-"): value for key, value in lines.items() if value is not None}
        self.lines["status"] = status
        if words:
            self.lines["words"] = list(words)
        strange = set(self.lines) - set(KEYS)
        if strange:
            raise ValueError(f"{title}: {strange}")

    def text(self):
        out = [f"case {self.title}"]
        out += textwrap.wrap(self.about, WIDTH, initial_indent="# ", subsequent_indent="# ")
        for key in KEYS:
            if key in self.lines:
                out += lines_of(key, self.lines[key])
        return "\n".join(out) + "\n"


def talk(title, about, file, told, **lines):
    """A case of requests and their replies in turn."""
    asked, answered = [each[0] for each in told], [each[1] for each in told]
    return Case(title, about, file=file, input=asked, output=answered, **lines)


def joined(lines):
    return b"".join(map(bytes, lines))


def spelled(fields):
    return " ".join(part.hex() for part in fields.parts)


def filled(key, pieces):
    """Lines of this key, each as full as it may be."""
    out = []
    for piece in pieces:
        if out and len(out[-1]) + 1 + len(piece) <= WIDTH:
            out[-1] += " " + piece
        else:
            out.append(f"{key} {piece}")
    return out


def pieces_of(fields, width):
    """The digits of each field, cut where they are too long for a line."""
    width -= width % 16
    for part in fields.parts:
        digits = part.hex()
        for at in range(0, len(digits), width):
            yield digits[at : at + width]


def lines_of_bytes(key, value):
    if isinstance(value, Grant):
        return [value.line()]
    if isinstance(value, Named):
        return [f"{key} ${value.name}"]
    if isinstance(value, Times):
        return [f"{key} {bytes(value.fields).hex()} * {value.count}"]
    fields = value if isinstance(value, Fields) else Fields(value)
    return filled(key, pieces_of(fields, WIDTH - len(key) - 1))


def lines_of_name(named):
    """One line, however long: a name is given once."""
    return [f"bytes {named.name} " + " ".join(pieces_of(named.fields, WIDTH))]


def known_key(key, pair):
    number, secret = pair
    return f"{key} {number} {secret.hex()}"


def lines_of(key, value):
    if key in BYTES:
        lines = [line for each in value for line in lines_of_bytes(key, each)]
        # A relay that says nothing is there all the same, and so is a wallet that hears nothing.
        return lines or ([key] if key in EMPTY else [])
    if key == "fetched":
        return [f"{key} {' '.join(pieces_of(each, WIDTH))}".rstrip() for each in value]
    if key in NUMBERS or key in FAILS:
        return filled(key, map(str, value))
    if key == "relay-node":
        return [known_key(key, value)]
    if key == "relay-issuer":
        return [known_key(key, each) for each in value]
    if key == "words":
        return [f"{key} {' '.join(value)}"]
    return [f"{key} {value}"]


def file_of(case):
    """The case's file, if it has one whose bytes stand in full."""
    parts = case.lines.get("file", [])
    return None if any(isinstance(each, (Named, Times)) for each in parts) else joined(parts)


def shared_files(cases):
    """The files that stand in several of these cases, each under a name."""
    counts = {}
    for text in filter(None, map(file_of, cases)):
        counts[text] = counts.get(text, 0) + 1
    many = [text for text, count in counts.items() if count > 1 and len(text) > SHORT]
    return {text: "file" if len(many) == 1 else f"file-{at + 1}" for at, text in enumerate(many)}


def with_names(case, files):
    """The case, with the names of files that it shares."""
    text = file_of(case)
    if text in files:
        case.lines["file"] = [Named(files[text], Fields(*case.lines["file"]))]
    return case


def names_in(cases):
    """What stands under names in these cases, in the order in which it comes."""
    found = {}
    for case in cases:
        for key in BYTES:
            for each in case.lines.get(key, []):
                if isinstance(each, Named) and bytes(found.setdefault(each.name, each)) != bytes(each):
                    raise ValueError(f"{each.name} names two texts")
    return found.values()


def file_text(about, cases):
    """A file of conversations, with a comment and what has a name before the first."""
    titles = [case.title for case in cases]
    if len(set(titles)) != len(titles):
        raise ValueError(f"a name twice: {about}")
    files = shared_files(cases)
    cases = [with_names(case, files) for case in cases]
    head = textwrap.wrap(about, WIDTH, initial_indent="# ", subsequent_indent="# ")
    head += [line for each in names_in(cases) for line in lines_of_name(each)]
    text = "\n".join(head) + "\n\n" + "\n".join(case.text() for case in cases)
    text.encode("ascii")
    return text
