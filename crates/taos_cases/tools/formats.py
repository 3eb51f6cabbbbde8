"""The spellings of docs/FORMATS.md: terms, certificates, openings, requests, replies and what a relay is asked.

Each function gives fields, one behind the other; `bytes` of them is the text. Key n is 32 bytes of value n.
"""
import hashlib
import hmac
import struct

READ, WRITE, SET_LIST, HOLD, DISCARD, FORGET, SWEEP, WITHDRAW = range(1, 9)
ISSUED, RELAYED = 1, 2
LAST = 2**64 - 1


class Fields:
    """Bytes, as the fields that they are made of. Parts that have no bytes are left out."""

    def __init__(self, *parts):
        self.parts = []
        for part in parts:
            self.parts += part.parts if isinstance(part, Fields) else [bytes(part)]
        self.parts = [part for part in self.parts if part]

    def __bytes__(self):
        return b"".join(self.parts)

    def __len__(self):
        return sum(map(len, self.parts))

    def front(self, count):
        """The first so many bytes."""
        kept = []
        for part in self.parts:
            kept.append(part[:count])
            count -= len(kept[-1])
        return Fields(*kept)


def u8(number):
    return struct.pack(">B", number)


def u16(number):
    return struct.pack(">H", number)


def u32(number):
    return struct.pack(">I", number)


def u64(number):
    return struct.pack(">Q", number)


def key_of(number):
    return bytes([number]) * 32


def tag(secret, text):
    return hmac.new(secret, bytes(text), hashlib.sha256).digest()


def tagged(secret, *parts):
    return Fields(*parts, tag(secret, Fields(*parts)))


def turned(fields):
    """The same with the last bit turned."""
    last = fields.parts[-1]
    return Fields(*fields.parts[:-1], last[:-1] + bytes([last[-1] ^ 1]))


def frame(*payload):
    return Fields(u32(len(Fields(*payload))), *payload)


# Terms.


def key(number):
    return b"\x01" + u32(number)


def name(number):
    return b"\x02" + u32(number)


def both(left, right):
    return b"\x03" + left + right


def quoting(left, right):
    return b"\x04" + left + right


def in_role(whom, role):
    return b"\x05" + whom + u32(role)


def acting_for(left, right):
    return b"\x06" + left + right


def maybe_quoted(quoted):
    return b"\x00" if quoted is None else b"\x01" + quoted


# Certificates.


def body(issuer, left, right, until, serial, quoted=None, begins=0):
    """Of version 2 where it names a beginning, and else of version 1."""
    head = (b"\x02" if begins else b"\x01") + u32(issuer)
    return Fields(head, maybe_quoted(quoted), left, right, u64(begins) if begins else b"", u64(until), u64(serial))


def certificate(kind, secret, text):
    return tagged(secret, u8(kind), text)


def digest(text):
    return hashlib.sha256(bytes(text)).digest()


# Openings, as lines of fields.


def opening_head(node, relay_key, shards, keep, limit):
    return [Fields(b"\x00\x01", u32(node), relay_key), Fields(u32(shards), u64(keep), u64(limit))]


def channels_of(numbers):
    return [Fields(u16(len(numbers)))] + [Fields(u32(each), key_of(each)) for each in numbers]


def anchors_of(pairs):
    fields = [field for pair in pairs for field in map(u32, pair)]
    return [Fields(u8(len(pairs)), *fields)]


def commons_of(certificates):
    count = [Fields(u8(len(certificates)))]
    return count + [Fields(u16(len(each)), each) for each in certificates]


def list_of(entries):
    return Fields(u8(len(entries)), *[Fields(u8(rights), term) for rights, term in entries])


def objects_of(objects):
    """Of (number, content, entries)."""
    lines = [Fields(u16(len(objects)))]
    for number, content, entries in objects:
        lines += [Fields(u32(number), u16(len(content)), content, list_of(entries))]
    return lines


def opening(node, relay_key, shards, keep, limit, channels, anchors, commons, objects):
    lines = opening_head(node, relay_key, shards, keep, limit)
    lines += channels_of(channels) + anchors_of(anchors)
    return lines + commons_of(commons) + objects_of(objects)


# Requests.


def request_text(channel, number, operation, target, fields, certificates, quoted):
    """A request but for its tag."""
    head = Fields(b"\x03", u32(channel), u64(number), maybe_quoted(quoted), u8(operation), u32(target))
    shown = [Fields(u16(len(each)), each) for each in certificates]
    return Fields(head, *fields, u8(len(certificates)), *shown)


def request(channel, number, operation=READ, target=5, fields=(), certificates=(), quoted=None):
    """A request under its channel's key."""
    text = request_text(channel, number, operation, target, fields, certificates, quoted)
    return tagged(key_of(channel), text)


# Replies.


def reply_text(channel, number, status, *fields):
    return Fields(b"\x04", u32(channel), u64(number), u8(status), *fields)


def sealed_reply(channel, number, status, *fields):
    return frame(tagged(key_of(channel), reply_text(channel, number, status, *fields)))


def unsealed_reply(status, *fields):
    return frame(reply_text(0, 0, status, *fields), bytes(32))


def grant_front(channel, number, entry, shard, place, kept=0):
    """The payload up to the proof's length."""
    status_kept_entry = u8(0) + u8(kept) + u8(entry)
    return Fields(b"\x04", u32(channel), u64(number), status_kept_entry, u32(shard) + u64(place))


def grant_text(front, proof, bodies, content):
    cited = [Fields(u16(len(each)), each) for each in bodies]
    rest = Fields(u8(len(bodies)), *cited, u16(len(content)), content)
    return Fields(front, u32(len(proof)), proof, rest)


def granted(channel, number, proof, entry=0, shard=0, place=0, bodies=(), content=b"hello", kept=0):
    """The frame of a grant by this proof."""
    text = grant_text(grant_front(channel, number, entry, shard, place, kept), proof, bodies, content)
    return frame(tagged(key_of(channel), text))


def denied(channel, number, shard, place, link):
    return sealed_reply(channel, number, 1, u32(shard), u64(place), link)


def expired(channel, number, text, entry=0, shard=0, place=0):
    """The certificate of this body ended too early."""
    return denied(channel, number, shard, place, Fields(u8(1), u8(entry), digest(text)))


def early(channel, number, text, entry=0, shard=0, place=0):
    """The certificate of this body has not begun."""
    return denied(channel, number, shard, place, Fields(u8(4), u8(entry), digest(text)))


def missing(channel, number, part, entry=0, shard=0, place=0):
    """Nobody speaks for this part."""
    return denied(channel, number, shard, place, Fields(u8(2), u8(entry), part))


def no_right(channel, number, shard=0, place=0):
    return denied(channel, number, shard, place, u8(3))


def malformed(offset):
    return unsealed_reply(2, u32(offset))


def unknown_channel(channel):
    return unsealed_reply(3, u32(channel))


def bad_seal():
    return unsealed_reply(4)


def replayed(channel, number, last):
    return sealed_reply(channel, number, 5, u64(last))


def refused(channel, number, index, code):
    return sealed_reply(channel, number, 6, u8(index), u8(code))


def channel_full(channel, number, held):
    return sealed_reply(channel, number, 7, u8(held))


def relay_failed(channel, number, index):
    return sealed_reply(channel, number, 8, u8(index))


def unknown_object(channel, number, target):
    return sealed_reply(channel, number, 9, u32(target))


def journal_full(channel, number, shard, length):
    return sealed_reply(channel, number, 10, u8(1), u32(shard), u64(length))


def object_full(channel, number, target, length):
    return sealed_reply(channel, number, 10, u8(0), u32(target), u64(length))


def wants_memory(channel, number):
    return sealed_reply(channel, number, 11)


def commons_full(channel, number, shard, held=32):
    return sealed_reply(channel, number, 12, u8(held), u32(shard))


def not_held(channel, number, text):
    """No shard held the certificate of this body."""
    return sealed_reply(channel, number, 13, digest(text))


def withdrawn_full(channel, number, shard, held=64):
    return sealed_reply(channel, number, 14, u8(held), u32(shard))


def pull_failed(channel, number):
    return sealed_reply(channel, number, 15)


# Proofs.


def proof_of(nodes, lines):
    return Fields(u16(len(nodes)), *nodes, u32(len(lines)), *lines)


def same_proof(term):
    return proof_of([term], [Fields(u8(1), u16(0), u16(0))])


def anchor_proof(number, whom, place):
    """That the key speaks for the name, by the anchor of this place."""
    return proof_of([key(number), name(whom)], [Fields(u8(9), u16(0), u16(1), u16(place))])


# Which nodes the parts of a principal are, by its first byte.
OPERANDS = {1: 0, 2: 0, 3: 2, 4: 2, 5: 1, 6: 2}


def end_of(term, at=0):
    """Where the principal that begins there ends."""
    kind, at = term[at], at + 1
    for _ in range(OPERANDS[kind]):
        at = end_of(term, at)
    return at + 4 if kind in (1, 2, 5) else at


def operands(term):
    """The principals of which a principal is made, and its number, if it has one."""
    found, at = [], 1
    for _ in range(OPERANDS[term[0]]):
        found.append(term[at : end_of(term, at)])
        at += len(found[-1])
    return found, term[at:]


def enter(term, table):
    """The number of a principal in the table, behind those of its parts; each stands there once."""
    parts, number = operands(term)
    places = [enter(part, table) for part in parts]
    node = term[:1] + b"".join(map(u16, places)) + number
    if node not in table:
        table.append(node)
    return table.index(node)


def proved(*lines):
    """The proof of these lines, each the byte of a rule, the principals of its fact, and what the rule names."""
    table, spelled = [], []
    for rule, fact, *named in lines:
        spelled.append(Fields(u8(rule), *[u16(enter(term, table)) for term in fact], *named))
    return proof_of(table, spelled)


# What a relay is asked, and what it answers.


def asking(node, sealed):
    return frame(b"\x05", u32(node), sealed)


def resealed(sealed):
    return frame(b"\x06\x00", sealed)


def relay_refusal(code):
    return frame(b"\x06", u8(code))


# What a wallet is asked, and what it gives.


def fetching(channel, number):
    return frame(b"\x08", u32(channel), u64(number))


def giving(*certificates):
    """A payload."""
    return Fields(b"\x09", u8(len(certificates)), *[Fields(u16(len(each)), each) for each in certificates])
# Journals as bytes.

# What is told of an Ask.
MISSES = u8(0)


def hits(entry):
    return u8(1) + u8(entry)


def told_replayed(last):
    return u8(2) + u64(last)


def told_full(held):
    return u8(3) + u8(held)


def bodies_of(bodies):
    return Fields(u8(len(bodies)), *[Fields(u16(len(each)), each) for each in bodies])


def ask_entry(channel, number, subject, entries, reading=0, right=1, bodies=(), told=MISSES):
    return Fields(b"\x01", u32(channel), u64(number) + u64(reading), subject, list_of(entries), u8(right), bodies_of(bodies), told)


def keep_entry(place, proof, entry=0, bodies=(), told=u8(0)):
    """That a proof for the Ask at this place is kept."""
    return Fields(b"\x02", u64(place) + u8(entry), u32(len(proof)), proof, bodies_of(bodies), told)


# What is told of a Keep, besides that the proof is kept.


def not_kept(text):
    """The certificate of this body is not held."""
    return b"\x01" + digest(text)


def lapsed(clock, lease):
    return b"\x02" + u64(clock) + u64(lease)


# What is told of a Hold and of a withdrawal: how many, or how many there are where no more fit.


def added(count):
    return u8(0) + u8(count)


def no_room(held):
    return u8(1) + u8(held)


def hold_entry(bodies, told):
    return Fields(b"\x03", bodies_of(bodies), told)


def discard_entry(text, removed):
    """The certificates of this body are let go."""
    return Fields(b"\x04", digest(text), u32(removed))


def forget_entry(channel, removed):
    return Fields(b"\x05", u32(channel), u32(removed))


def expire_entry(reading, removed):
    return Fields(b"\x06", u64(reading), u32(removed))


def withdraw_entry(issuer, told=bytes(5)):
    return Fields(b"\x07", u32(issuer), told)


def object_entry(place, ruling, shard=0, operation=READ, fields=()):
    return Fields(u32(shard), u64(place), u8(operation), *fields, ruling)


DENIES = u8(0)


def grants(entry):
    return u8(1) + u8(entry)


def journals(shards, objects):
    """Of the entries of each shard, and of (number, entries) of each object."""
    told = [Fields(u64(len(entries)), *entries) for entries in shards]
    ruled = [Fields(u32(number) + u64(len(entries)), *entries) for number, entries in objects]
    return Fields(b"\x07\x01", u32(len(shards)), *told, u32(len(objects)), *ruled)
