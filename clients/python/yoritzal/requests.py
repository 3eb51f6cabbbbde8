"""Requests: what is asked of an object, under the key of a channel."""
from dataclasses import dataclass, field

from .certificates import quoted_field
from .fields import counted, number
from .tags import TAG_BYTES, tagged
from .terms import ENTRY_NODES, QUOTED_NODES, Key, Quoting, term

READ, WRITE, CONTROL, MANAGE = 1, 2, 4, 8
MAX_CONTENT, MAX_ENTRIES, MAX_PRESENTED, MAX_REQUEST = 4096, 8, 16, 65536
DIGEST_BYTES = 32
# Version, channel and number.
HEAD_BYTES = 13


@dataclass(frozen=True)
class Entry:
    """An entry of an access list: who has these rights, which are the sum of some of READ, WRITE, CONTROL and MANAGE."""

    rights: int
    who: object

    def __bytes__(self):
        if not 1 <= self.rights <= 15:
            raise ValueError(f"the rights {self.rights}")
        return number(self.rights, 1) + term(self.who, ENTRY_NODES)


class Operation:
    """What is asked for: a number, the right that it needs, and its fields."""

    code, right = 0, 0

    def fields(self):
        return b""


@dataclass(frozen=True)
class Read(Operation):
    """The content of the object."""

    code, right = 1, READ


@dataclass(frozen=True)
class Write(Operation):
    """The content becomes this one."""

    content: bytes
    code, right = 2, WRITE

    def fields(self):
        if len(self.content) > MAX_CONTENT:
            raise ValueError(f"a content of {len(self.content)} bytes")
        return counted(self.content, 2)


@dataclass(frozen=True)
class SetList(Operation):
    """The access list becomes this one, from the next request on."""

    entries: tuple
    code, right = 3, CONTROL

    def fields(self):
        if len(self.entries) > MAX_ENTRIES:
            raise ValueError(f"a list of {len(self.entries)} entries")
        return number(len(self.entries), 1) + b"".join(map(bytes, self.entries))


@dataclass(frozen=True)
class Hold(Operation):
    """What the request presents is held in common, for every channel."""

    code, right = 4, MANAGE


@dataclass(frozen=True)
class Discard(Operation):
    """The certificates of a digest are let go."""

    digest: bytes
    code, right = 5, MANAGE

    def fields(self):
        if len(self.digest) != DIGEST_BYTES:
            raise ValueError(f"a digest of {len(self.digest)} bytes")
        return bytes(self.digest)


@dataclass(frozen=True)
class Forget(Operation):
    """What a channel presented is let go."""

    channel: int
    code, right = 6, MANAGE

    def fields(self):
        return number(self.channel, 4)


@dataclass(frozen=True)
class Sweep(Operation):
    """What ended long enough ago is let go."""

    code, right = 7, MANAGE


@dataclass(frozen=True)
class Withdraw(Operation):
    """What an issuer issued is let go, and nothing of it is held from then on."""

    issuer: int
    code, right = 8, MANAGE

    def fields(self):
        return number(self.issuer, 4)


@dataclass(frozen=True)
class Request:
    """A request of a channel. Its number is above all others that the channel has used."""

    channel: int
    number: int
    object: int
    operation: Operation
    certificates: tuple = field(default=())
    quoted: object = None

    @property
    def subject(self):
        """Who asks."""
        return Key(self.channel) if self.quoted is None else Quoting(Key(self.channel), self.quoted)

    def spell(self):
        """Spells what stands before the number and behind it, once. What has no spelling is refused by ValueError."""
        if "spelled" not in self.__dict__:
            self.__dict__["spelled"] = b"\3" + number(self.channel, 4), self._asked()
        return self.spelled

    def _asked(self):
        if len(self.certificates) > MAX_PRESENTED:
            raise ValueError(f"{len(self.certificates)} certificates, more than {MAX_PRESENTED}")
        asked = quoted_field(self.quoted, QUOTED_NODES)
        asked += number(self.operation.code, 1) + number(self.object, 4) + self.operation.fields()
        asked += number(len(self.certificates), 1) + b"".join(counted(each, 2) for each in self.certificates)
        if HEAD_BYTES + len(asked) + TAG_BYTES > MAX_REQUEST:
            raise ValueError(f"a request of {HEAD_BYTES + len(asked) + TAG_BYTES} bytes")
        return asked

    def numbered(self, given):
        """The same under another number."""
        other = Request(self.channel, given, self.object, self.operation, self.certificates, self.quoted)
        other.__dict__["spelled"] = self.spell()
        return other

    def payload(self, key):
        """The request's bytes, under the channel's key. What has no spelling is refused by ValueError."""
        head, asked = self.spell()
        return tagged(key, head + number(self.number, 8) + asked)
