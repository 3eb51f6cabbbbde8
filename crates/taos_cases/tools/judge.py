"""Journals as bytes, read and judged from docs/COURSE.md and the page of journal_bytes, by the shards of tools/shard.py.

It knows of the rules those of one line: Same, Left, Right, Role and anchors; `Unknown` is raised where a longer proof, or a
certificate, decides.
"""
from formats import LAST, key, operands, quoting, u8, u32
from shard import Kept, is_of, lease_of

SAME, LEFT, RIGHT, ROLE, ANCHOR = 1, 3, 4, 8, 9
NODES, LINES, TERM, BODY_TERM, DEPTH, PARTS = 1296, 1_762_560, 16, 64, 16, 16
# What stands behind the numbers of a line's fact, in bytes, and how many numbers a fact has.
BEHIND = {1: 0, 2: 8, 3: 0, 4: 0, 5: 8, 6: 8, 7: 8, 8: 0, 9: 2, 10: 2, 11: 8, 12: 8, 13: 4, 14: 4, 15: 4}
SAYS = {10, 11, 12}
OPERANDS = {1: 0, 2: 0, 3: 2, 4: 2, 5: 1, 6: 2}
READ, WRITE, SET_LIST, HOLD, DISCARD, FORGET, SWEEP, WITHDRAW = range(1, 9)
RIGHTS = {READ: 1, WRITE: 2, SET_LIST: 4, HOLD: 8, DISCARD: 8, FORGET: 8, SWEEP: 8, WITHDRAW: 8}


class Unknown(Exception):
    """A longer proof or a certificate decides."""


class Malformed(Exception):
    """The byte that can't stand."""


class Bytes:
    """Bytes up to an end, from the front."""

    def __init__(self, text, at=0, end=None):
        self.text, self.at, self.end = text, at, len(text) if end is None else end

    def take(self, count):
        if self.at + count > self.end:
            raise Malformed(self.end)
        self.at += count
        return self.text[self.at - count : self.at]

    def number(self, size, least=0, most=LAST):
        at, found = self.at, int.from_bytes(self.take(size), "big")
        if not least <= found <= most:
            raise Malformed(at)
        return found

    def within(self, size, read, *more):
        """What fills the bytes behind their length."""
        count = self.number(size)
        start = self.at
        self.take(count)
        inner = Bytes(self.text, start, self.at)
        found = read(inner, *more)
        if inner.at < inner.end:
            raise Malformed(inner.at)
        return found

    def term(self, most, depth=1, count=None):
        count, start = [0] if count is None else count, self.at
        kind = self.number(1, 1, 6)
        count[0] += 1
        if depth > DEPTH or count[0] > most:
            raise Malformed(start)
        for _ in range(OPERANDS[kind]):
            self.term(most, depth + 1, count)
        self.take(4 if kind in (1, 2, 5) else 0)
        return self.text[start : self.at]

    def entries(self):
        return [(self.number(1, 1, 15), self.term(TERM)) for _ in range(self.number(1, 0, 8))]

    def bodies(self, most):
        return [self.within(2, body_in) for _ in range(self.number(1, 0, most))]


def parts(term):
    return {term}.union(*map(parts, operands(term)[0]))


def body_in(inner):
    start, version, issuer = inner.at, inner.number(1, 1, 2), inner.take(4)
    speaker = key(int.from_bytes(issuer, "big"))
    if inner.number(1, 0, 1):
        speaker = quoting(speaker, inner.term(BODY_TERM))
    found = parts(speaker) | parts(inner.term(BODY_TERM)) | parts(inner.term(BODY_TERM))
    if len(found) > PARTS:
        raise Malformed(inner.at)
    if version == 2:
        inner.number(8, 1)
    inner.take(16)
    return inner.text[start : inner.at]


def proof_in(inner):
    """The spelling, the principals, and the lines: a rule, the numbers of its fact, and what it names."""
    start, terms, nodes = inner.at, [], []
    for place in range(inner.number(2, 0, NODES)):
        begun, kind = inner.at, inner.number(1, 1, 6)
        found = [terms[inner.number(2, 0, place - 1)] if place else inner.take(2) and refuse(inner.at - 2) for _ in range(OPERANDS[kind])]
        number = inner.take(4 if kind in (1, 2, 5) else 0)
        terms.append(u8(kind) + b"".join(found) + number)
        nodes.append(inner.text[begun : inner.at])
    lines = []
    for _ in range(inner.number(4, 0, LINES)):
        rule = inner.number(1, 1, 15)
        fact = [inner.number(2, 0, len(nodes) - 1) if nodes else inner.take(2) and refuse(inner.at - 2) for _ in range(3 if rule in SAYS else 2)]
        lines.append((rule, fact, inner.take(BEHIND[rule])))
    if not is_canonical(terms, lines):
        raise Malformed(start)
    return inner.text[start : inner.at], terms, lines


def refuse(at):
    raise Malformed(at)


def is_canonical(terms, lines):
    """Whether the table is that of the lines, in their order."""
    table = []

    def enter(term):
        for part in operands(term)[0]:
            enter(part)
        if term not in table:
            table.append(term)

    for _, fact, _ in lines:
        for number in fact:
            enter(terms[number])
    return table == terms


# ---- entries

def told_of(text):
    """How an Ask was answered, and by which number."""
    kind = text.number(1, 0, 3)
    return ("miss", None) if kind == 0 else (("hit", "replayed", "full")[kind - 1], text.number(8 if kind == 2 else 1))


def ask_in(text):
    asked = text.number(4), text.number(8), text.number(8), text.term(TERM), text.entries(), text.number(1)
    if asked[5] not in (1, 2, 4, 8):
        raise Malformed(text.at - 1)
    return "ask", (*asked, text.bodies(16)), told_of(text)


def keep_in(text):
    kept = text.number(8), text.number(1), text.within(4, proof_in), text.bodies(64)
    kind = text.number(1, 0, 2)
    return "keep", kept, ("kept", None) if kind == 0 else ("not held", text.take(32)) if kind == 1 else ("lapsed", (text.number(8), text.number(8)))


def entry_in(text):
    kind = text.number(1, 1, 7)
    if kind < 3:
        return ask_in(text) if kind == 1 else keep_in(text)
    if kind == 3:
        bodies = text.bodies(16)
        return "hold", bodies, ("commons full" if text.number(1, 0, 1) else "held", text.number(1))
    if kind == 7:
        issuer = text.number(4)
        return "withdraw", issuer, ("withdrawn full", text.number(1)) if text.number(1, 0, 1) else ("removed", text.number(4))
    what = {4: "discard", 5: "forget", 6: "expire"}[kind], text.take(32) if kind == 4 else text.number(4 if kind == 5 else 8)
    return *what, ("removed", text.number(4))


def ruled_in(text):
    where, kind = (text.number(4), text.number(8)), text.number(1, 1, 8)
    sizes = {DISCARD: lambda: text.take(32), FORGET: lambda: text.number(4), WITHDRAW: lambda: text.number(4), SET_LIST: text.entries,
             WRITE: lambda: text.take(text.number(2, 0, 4096))}
    fields = sizes.get(kind, tuple)()
    return *where, kind, fields, text.number(1) if text.number(1, 0, 1) else None


def many(text, size, read):
    """So many, however many are said to be there."""
    count, found = text.number(size), []
    while count:
        found.append(read(text))
        count -= 1
    return found


def journals_in(data):
    """The entries of shards, and of objects by their numbers."""
    text = Bytes(data)
    text.number(1, 7, 7), text.number(1, 1, 1)
    shards = many(text, 4, lambda text: many(text, 8, entry_in))
    objects, above = {}, [0]

    def object_in(text):
        number = text.number(4, above[0])
        above[0], objects[number] = number + 1, many(text, 8, ruled_in)

    many(text, 4, object_in)
    if text.at < len(data):
        raise Malformed(text.at)
    return shards, objects


# ---- judging

def follows(anchors, terms, line):
    """Whether the one line of a proof follows."""
    rule, fact, names = line
    if rule not in (SAME, LEFT, RIGHT, ROLE, ANCHOR):
        raise Unknown
    left, right = (terms[number] for number in fact)
    if rule == ANCHOR:
        return (left, right) in [(key(of), b"\2" + u32(name)) for of, name in anchors][int.from_bytes(names, "big") :][:1]
    if rule == ROLE:
        return right[:1] == b"\5" and operands(right)[0] == [left]
    return left == right if rule == SAME else left[:1] == b"\3" and operands(left)[0][rule == RIGHT] == right


def proves(node, proof, subject, who, cites):
    """Whether it proves, by what it cites, that the subject speaks for the principal."""
    _, terms, lines = proof
    if len(set(cites)) < len(cites) or not lines:
        return False
    if len(lines) > 1 or cites:
        raise Unknown
    return follows(node.anchors, terms, lines[0]) and (terms[lines[0][1][0]], terms[lines[0][1][1]]) == (subject, who)


def derives(node, subject, who, held):
    if subject == who or (subject, who) in [(key(of), b"\2" + u32(name)) for of, name in node.anchors]:
        return True
    if held or OPERANDS[subject[0]] or OPERANDS[who[0]]:
        raise Unknown
    return False


class Judge:
    """A node whose shards are stepped by the entries."""

    def __init__(self, node):
        self.node, self.dues = node, {}

    def said(self, data):
        try:
            shards, objects = journals_in(data)
        except Malformed as fault:
            return f"malformed byte {fault}"
        if (len(shards), sorted(objects)) != (len(self.node.shards), sorted(self.node.objects)):
            return "illegal shard 0 entry 0 cells"
        for number, entries in enumerate(shards):
            for place, entry in enumerate(entries):
                cause = self.shard_cause(number, place, entries, entry)
                if cause:
                    return f"illegal shard {number} entry {place} {cause}"
        return self.ruled(shards, objects) or f"legal entries {sum(map(len, [*shards, *objects.values()]))}"

    def shard_cause(self, number, place, entries, entry):
        shard, (what, of, told) = self.node.shards[number], entry
        if place >= self.node.limit:
            return "limit"
        if what == "ask":
            return self.ask_cause(number, place, of, told)
        if what == "keep":
            return self.keep_cause(shard, place, entries, of, told)
        return None if getattr(shard, what)(of) == told else "told"

    def ask_cause(self, number, place, of, told):
        channel, seq, reading, subject, listed, right, bodies = of
        shard = self.node.shards[number]
        if channel not in self.node.channels or channel % len(self.node.shards) != number or not is_of(subject, channel):
            return "told"
        with_right = [(at, who) for at, (rights, who) in enumerate(listed) if rights & right]
        word, what = shard.ask(channel, seq, reading, bodies, subject, with_right)
        if (word, what[0] if word == "hit" else what) != told:
            return "told"
        held = list(shard.own.get(channel, [])) + shard.commons
        self.dues[number, place] = lambda: told[1] if word == "hit" else next((at for at, who in with_right if derives(self.node, subject, who, held)), None)
        return None

    def keep_cause(self, shard, place, entries, of, told):
        at, entry, proof, cites = of
        if at >= place or entries[at][0] != "ask" or entry >= len(entries[at][1][4]):
            return "keep"
        asked = entries[at][1]
        subject, who = asked[3], asked[4][entry][1]
        if not proves(self.node, proof, subject, who, cites):
            return "keep"
        lease = lease_of(cites)
        word, what = shard.keep_proof(asked[0], Kept(subject, who, lease, cites, proof[0]))
        return None if (word, (what, lease) if word == "lapsed" else what) == told else "told"

    def ruled(self, shards, objects):
        named = set()
        for number, entries in sorted(objects.items()):
            for place, entry in enumerate(entries):
                cause = self.object_cause(shards, self.node.objects[number], place, entry, named)
                if cause:
                    return f"illegal object {number} entry {place} {cause}"
                named.add(entry[:2])
        return None

    def object_cause(self, shards, found, place, entry, named):
        shard, at, kind, fields, granted = entry
        if place >= self.node.limit:
            return "limit"
        asked = shards[shard][at] if shard < len(shards) and at < len(shards[shard]) else None
        if not asked or asked[0] != "ask" or asked[2][0] not in ("miss", "hit") or (asked[1][5], asked[1][4]) != (RIGHTS[kind], found.list):
            return "ask"
        if (shard, at) in named:
            return "again"
        if self.dues[shard, at]() != granted:
            return "ruling"
        if kind == SET_LIST and granted is not None:
            found.list = fields
        return None
