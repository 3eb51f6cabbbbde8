"""Reads files of conversations."""
import glob
import os
import re

DATA = os.path.join(os.path.dirname(os.path.dirname(os.path.abspath(__file__))), "data")
BYTES = ["file", "input", "relay-says", "fetched", "wallet-says", "hears", "wallet-hears", "left"]
KEYED = ["relay-node", "relay-issuer"]
# Lines in which `$` and a name stand for bytes.
SPELLED = BYTES + KEYED + ["output", "grant"]


class Conversation:
    """A name, its file, what its lines say by their keys, and what must be written in order."""

    def __init__(self, file, name):
        self.file, self.name, self.said, self.written = file, name, {}, []

    def words(self, key):
        return " ".join(self.said.get(key, [])).split()

    def numbers(self, key):
        return [int(word) for word in self.words(key)]

    def bytes(self, key):
        return b"".join(map(bytes_of, self.said.get(key, [])))

    def text(self, key):
        return self.said.get(key, [None])[0]

    def keys_of(self, key):
        """Numbers and their keys."""
        pairs = [text.split(" ", 1) for text in self.said.get(key, [])]
        return {int(number): bytes_of(digits) for number, digits in pairs}


class Granted:
    """The grant whose proof may be any."""

    def __init__(self, text):
        front, rest = text.split(" certificates ")
        count, content = rest.split(" content")
        self.front, self.certificates, self.content = bytes_of(front), int(count), bytes_of(content)


def bytes_of(text):
    digits, _, times = text.partition("*")
    return bytes.fromhex(digits) * (int(times) if times else 1)


def without_names(text, names):
    """A text of bytes, with digits in place of each name."""
    return re.sub(r"\$(\S+)", lambda found: names[found[1]].hex(), text)


def add(case, key, text):
    if key == "output":
        case.written.append(bytes_of(text))
    elif key == "grant":
        case.written.append(Granted(text))
    case.said.setdefault(key, []).append(text)


def read(path):
    """The conversations of a file."""
    cases, names = [], {}
    with open(path, encoding="ascii") as file:
        for line in file.read().splitlines():
            key, _, text = line.partition(" ")
            if not line.strip() or line.startswith("#"):
                continue
            if key in SPELLED:
                text = without_names(text, names)
            if key == "bytes" and not cases:
                name, _, digits = text.partition(" ")
                names[name] = bytes_of(without_names(digits, names))
            elif key == "case":
                cases.append(Conversation(os.path.basename(path), text))
            else:
                add(cases[-1], key, text)
    return cases


def all_files():
    return sorted(glob.glob(os.path.join(DATA, "*.txt")))
