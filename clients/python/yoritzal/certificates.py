"""Certificates: an issuer's word that one principal speaks for another."""
import hashlib
from dataclasses import dataclass

from .fields import Reader, number
from .tags import TAG_BYTES, is_tag, tagged
from .terms import STATED_NODES, And, As, For, Key, Quoting, read_term, term

MAX_PARTS = 16
# Under the issuer's own seal, and under the seal that a relay shares with a node.
ISSUED, RELAYED = 1, 2
# On its way, under the key that the domain which it visited last shares with the one that it comes to.
CARRIED = 3
MAX_VISITED = 3
# The versions of a body: without a beginning, and with one.
LASTING, BEGINNING = 1, 2


def read_quoted(fields, most_nodes):
    """The quoted principal, or None."""
    return read_term(fields, most_nodes) if fields.number(1, most=1) else None


def quoted_field(quoted, most_nodes):
    return b"\0" if quoted is None else b"\1" + term(quoted, most_nodes)


@dataclass(frozen=True)
class Body:
    """What an issuer says: that `left` speaks for `right`, from one second since 1970 on until another. The serial
    number tells certificates of one content apart."""

    issuer: int
    left: object
    right: object
    until: int
    serial: int
    quoted: object = None
    begins: int = 0

    @property
    def speaker(self):
        return Key(self.issuer) if self.quoted is None else Quoting(Key(self.issuer), self.quoted)

    def __bytes__(self):
        if len(parts(self.speaker, self.left, self.right)) > MAX_PARTS:
            raise ValueError(f"a certificate of more than {MAX_PARTS} distinct parts")
        version = LASTING if self.begins == 0 else BEGINNING
        head = number(version, 1) + number(self.issuer, 4) + quoted_field(self.quoted, STATED_NODES)
        stated = term(self.left, STATED_NODES) + term(self.right, STATED_NODES)
        begins = b"" if self.begins == 0 else number(self.begins, 8)
        return head + stated + begins + number(self.until, 8) + number(self.serial, 8)

    @property
    def digest(self):
        """What a denial and a Discard name it by."""
        return hashlib.sha256(bytes(self)).digest()


def parts(*principals):
    """The distinct principals in these, each of them included."""
    found, waiting = set(), list(principals)
    while waiting:
        part = waiting.pop()
        if part in found:
            continue
        found.add(part)
        if isinstance(part, (And, Quoting, For)):
            waiting += [part.left, part.right]
        elif isinstance(part, As):
            waiting.append(part.who)
    return found


def read_beginning(fields):
    """One that is named, and is not 0: a body without one has another version."""
    at = fields.at
    return fields.number(8) or fields.refuse("a beginning of 0", at)


def read_body(data):
    """The body that is spelled by all these bytes."""
    fields = Reader(data)
    version = fields.number(1)
    if version not in (LASTING, BEGINNING):
        fields.refuse("a certificate of another version", 0)
    issuer, quoted = fields.number(4), read_quoted(fields, STATED_NODES)
    left, right = read_term(fields, STATED_NODES), read_term(fields, STATED_NODES)
    body = Body(issuer, left, right, 0, 0, quoted)
    if len(parts(body.speaker, left, right)) > MAX_PARTS:
        fields.refuse("a certificate of too many distinct parts")
    begins = read_beginning(fields) if version == BEGINNING else 0
    until, serial = fields.number(8), fields.number(8)
    fields.end()
    return Body(issuer, left, right, until, serial, quoted, begins)


def sealed(key, body, kind=ISSUED):
    """The certificate as it is presented, under this key: that of its issuer, if the kind is ISSUED."""
    return tagged(key, number(kind, 1) + bytes(body))


def read_front(fields):
    """The domains that a certificate visited, by what stands before its body."""
    if fields.number(1) != CARRIED:
        return []
    at, count = fields.at, fields.number(1, most=MAX_VISITED)
    if not count:
        fields.refuse("no domain", at)
    return [fields.number(4) for _ in range(count)]


def visited(certificate):
    """The numbers of the domains that a certificate visited, in order; none, unless it is on its way."""
    return read_front(Reader(certificate))


def body_of(certificate):
    """What a certificate says, whoever sealed it."""
    fields = Reader(certificate[:-TAG_BYTES])
    read_front(fields)
    return read_body(fields.data[fields.at :])


def opens(certificate, key):
    """Whether it is sealed under this key."""
    return is_tag(certificate[-TAG_BYTES:], key, certificate[:-TAG_BYTES])
