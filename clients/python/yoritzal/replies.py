"""Replies: what a node answers. Nothing of one is believed before its tag is found right."""
import functools
import struct
from dataclasses import dataclass

from .certificates import read_body
from .fields import Malformed, Reader
from .proofs import MOST_LINES, ProofFault, TooManyLines, read_proof
from .tags import TAG_BYTES, is_tag
from .terms import ENTRY_NODES, read_term

VERSION = 4
MAX_CITED, MAX_REPLY = 64, (1 << 26) - 1
DIGEST_BYTES = 32
# Version, channel, number and status; of a grant kept, entry, shard, place, and how long its proof is.
HEAD, GRANT = struct.Struct(">BIQB"), struct.Struct(">BBIQI")


@dataclass(frozen=True)
class Reply:
    """What is told of a request: it is answered by its channel and number. `status` is the byte of its sort."""

    channel: int
    number: int
    status = None


@dataclass(frozen=True)
class Granted(Reply):
    """The operation is done. `kept` tells whether the proof was made for an earlier request, `entry` which entry of the
    object's list has the right, shard and place where the request stands in the journals; `result` is what was read.
    The proof and the certificates that it cites are kept as they came: each is read when it is first asked for, and one
    that spells nothing is refused by Malformed then. `proof` is refused by TooManyLines where it has more than
    MOST_LINES: read_proof reads the `proof_bytes` of a longer one."""

    kept: bool
    entry: int
    shard: int
    place: int
    proof_bytes: bytes
    certificates_bytes: tuple
    result: bytes
    status = 0

    @functools.cached_property
    def proof(self):
        return read_proof(self.proof_bytes)

    @functools.cached_property
    def certificates(self):
        return tuple(map(read_body, self.certificates_bytes))

    def check(self, request, anchors, entries, most_lines=MOST_LINES):
        """Refuses the grant by ProofFault, or Malformed where it spells nothing, if its proof does not show that the one
        who asked speaks for its entry, by the anchors of the node's opening and the certificates that it cites. `entries`
        is the object's access list. A proof of more lines is refused by TooManyLines, a ProofFault, and is not looked at.
        Nothing is looked up about seals and ends of the certificates: a reply has none, and no clock is read."""
        entry = entries[self.entry] if self.entry < len(entries) else None
        if entry is None or not entry.rights & request.operation.right:
            raise ProofFault(f"entry {self.entry} does not have the right")
        proof = self._proof(most_lines)
        proof.follows(anchors, self.certificates)
        if not proof.concludes(request.subject, entry.who):
            raise ProofFault(f"the proof is of something else than entry {self.entry}")

    def _proof(self, most_lines):
        """The proof, once it is read kept, if it has no more lines."""
        if "proof" not in self.__dict__:
            self.__dict__["proof"] = read_proof(self.proof_bytes, most_lines)
        if len(self.proof.lines) > most_lines:
            raise TooManyLines(len(self.proof.lines), most_lines)
        return self.proof


@dataclass(frozen=True)
class Expired:
    """An entry would be reached but for the certificate of this digest, which has ended."""

    entry: int
    digest: bytes


@dataclass(frozen=True)
class Early:
    """An entry would be reached but for the certificate of this digest, which has not begun."""

    entry: int
    digest: bytes


@dataclass(frozen=True)
class Missing:
    """Nothing speaks for this part of the entry."""

    entry: int
    part: object


@dataclass(frozen=True)
class NoEntry:
    """No entry of the list has the right."""


@dataclass(frozen=True)
class Denied(Reply):
    """Nothing was done. The link is the first that is missing: Expired, Early, Missing or
    NoEntry."""

    shard: int
    place: int
    link: object
    status = 1


@dataclass(frozen=True)
class MalformedRequest(Reply):
    offset: int
    status = 2


@dataclass(frozen=True)
class UnknownChannel(Reply):
    unknown: int
    status = 3


@dataclass(frozen=True)
class BadSeal(Reply):
    status = 4


@dataclass(frozen=True)
class Replayed(Reply):
    """The channel's last number is as high."""

    last: int
    status = 5


@dataclass(frozen=True)
class CertificateRefused(Reply):
    """The presented certificate of this index, and the code that says why."""

    index: int
    code: int
    status = 6


@dataclass(frozen=True)
class ChannelFull(Reply):
    held: int
    status = 7


@dataclass(frozen=True)
class RelayFailed(Reply):
    """No relay answered for the certificate of this index, among the presented ones and what was fetched behind them."""

    index: int
    status = 8


@dataclass(frozen=True)
class UnknownObject(Reply):
    object: int
    status = 9


@dataclass(frozen=True)
class JournalFull(Reply):
    """The journal of an object (`which` 0) or of a shard (1) has no room."""

    which: int
    full: int
    length: int
    status = 10


@dataclass(frozen=True)
class OutOfMemory(Reply):
    status = 11


@dataclass(frozen=True)
class CommonsFull(Reply):
    held: int
    shard: int
    status = 12


@dataclass(frozen=True)
class NotHeld(Reply):
    """No shard held the certificate of this digest."""

    digest: bytes
    status = 13


@dataclass(frozen=True)
class WithdrawnFull(Reply):
    """The shard has as many withdrawn issuers as it may have."""

    held: int
    shard: int
    status = 14


@dataclass(frozen=True)
class PullFailed(Reply):
    """The node fetches certificates for each request, and could not for this one."""

    status = 15


# The widths of the numbers that each of these has.
NUMBERS = {MalformedRequest: [4], UnknownChannel: [4], BadSeal: [], Replayed: [8], CertificateRefused: [1, 1],
           ChannelFull: [1], RelayFailed: [1], UnknownObject: [4], JournalFull: [1, 4, 8], OutOfMemory: [],
           CommonsFull: [1, 4], WithdrawnFull: [1, 4], PullFailed: []}
BY_STATUS = {form.status: form for form in NUMBERS}
# These come without a seal, and OutOfMemory may.
UNSEALED = (MalformedRequest, UnknownChannel, BadSeal)


def _read_granted(fields, channel, number):
    at = fields.at
    kept, entry, shard, place, length = fields.numbers(GRANT)
    if kept > 1:
        fields.refuse(f"the number {kept}", at)
    proof = fields.take(length)
    bodies = tuple([fields.counted(2) for _ in range(fields.number(1, most=MAX_CITED))])
    return Granted(channel, number, kept == 1, entry, shard, place, proof, bodies, fields.counted(2))


def _read_link(fields):
    at = fields.at
    kind = fields.number(1)
    if kind == 1:
        return Expired(fields.number(1), fields.take(DIGEST_BYTES))
    if kind == 2:
        return Missing(fields.number(1), read_term(fields, ENTRY_NODES))
    if kind == 3:
        return NoEntry()
    if kind == 4:
        return Early(fields.number(1), fields.take(DIGEST_BYTES))
    return fields.refuse(f"a link of kind {kind}", at)


def _read_fields(fields, channel, number, status):
    at = fields.at - 1
    if status == Granted.status:
        return _read_granted(fields, channel, number)
    if status == Denied.status:
        return Denied(channel, number, fields.number(4), fields.number(8), _read_link(fields))
    if status == NotHeld.status:
        return NotHeld(channel, number, fields.take(DIGEST_BYTES))
    if status not in BY_STATUS:
        fields.refuse(f"a reply of status {status}", at)
    form = BY_STATUS[status]
    reply = form(channel, number, *[fields.number(width) for width in NUMBERS[form]])
    if form is JournalFull and reply.which > 1:
        fields.refuse(f"a journal of sort {reply.which}", at + 1)
    return reply


def read_reply(payload):
    """The reply that is spelled by the payload. Its tag is not looked at, nor the proof of a grant."""
    fields = Reader(payload[:-TAG_BYTES])
    if payload[:1] != VERSION.to_bytes(1, "big"):
        fields.refuse("a reply of another version", 0)
    _, channel, number, status = fields.numbers(HEAD)
    reply = _read_fields(fields, channel, number, status)
    fields.end()
    if isinstance(reply, UNSEALED) and not is_unsealed(payload):
        fields.refuse("a seal where there is none")
    return reply


def is_unsealed(payload):
    """Whether nobody sealed the reply: anyone can make such a one, and it tells nothing of any request."""
    return payload[1:13] == bytes(12) and payload[-TAG_BYTES:] == bytes(TAG_BYTES)


class Unbelieved(ValueError):
    """A payload that is no reply under the channel's key. `told` is what it says, if it is a reply that a node sends without
    a seal. What is neither is junk, and no node sends it."""

    def __init__(self, what, told=None):
        super().__init__(what)
        self.told = told

    @property
    def why(self):
        """Both, for a person."""
        return f"{self} ({self.told})" if self.told else str(self)


def believed(payload, channel, key):
    """The reply under the key of this channel. Any other payload is refused by Unbelieved."""
    if len(payload) <= TAG_BYTES:
        raise Unbelieved("no reply")
    if is_unsealed(payload):
        told = _told(payload)
        raise Unbelieved("a reply that nobody sealed" + _may_be(told, channel), told)
    if not is_tag(payload[-TAG_BYTES:], key, payload[:-TAG_BYTES]):
        raise Unbelieved(f"another tag than that of channel {channel}'s key: the node has another key for it, or somebody on the way changed the reply")
    try:
        reply = read_reply(payload)
    except Malformed as fault:
        raise Unbelieved(f"a sealed reply that spells nothing: {fault}") from fault
    if reply.channel != channel:
        raise Unbelieved(f"a reply to channel {reply.channel}")
    return reply


def _may_be(told, channel):
    """What may be the matter where an unsealed reply says so, if a node sent it."""
    if isinstance(told, BadSeal):
        return f": the node may have another key for channel {channel}, or somebody on the way changed the request"
    if isinstance(told, UnknownChannel):
        return f": the node may have no channel {told.unknown}"
    if isinstance(told, MalformedRequest):
        return f": the request may have been changed at byte {told.offset}, or the node reads another form"
    return ": the node may be out of memory" if isinstance(told, OutOfMemory) else ""


def _told(payload):
    try:
        reply = read_reply(payload)
    except Malformed:
        return None
    return reply if isinstance(reply, UNSEALED + (OutOfMemory,)) else None
