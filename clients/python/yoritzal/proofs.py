"""Proofs: lines by the rules of the calculus, over a table of principals."""
import struct
from dataclasses import dataclass
from typing import NamedTuple

from .fields import Reader
from .terms import ATOMS, PAIRS, ROLE, And, As, For, Key, Name, Quoting

MAX_NODES, MAX_LINES = 1296, 1762560
# A proof of more lines is not read, unless its reader allows it: the longest takes seconds.
MOST_LINES = 100000
(SAME, CHAIN, LEFT, RIGHT, BOTH, QUOTE, FOR, IN_ROLE, ANCHOR, SAID, LIFT, JOIN, HAND_OFF, DELEGATE,
 ROLE_UNDER) = range(1, 16)
# The rules whose facts say that somebody says something, and how many lines each rule names.
STATING = {SAID, LIFT, JOIN}
PREMISES = {CHAIN: 2, BOTH: 2, QUOTE: 2, FOR: 2, LIFT: 2, JOIN: 2, HAND_OFF: 1, DELEGATE: 1, ROLE_UNDER: 1}
CITING = {ANCHOR, SAID}
# A line of each rule: its byte, its fact, the lines that it names, its place among anchors or certificates.
FORMS = {rule: struct.Struct(">B" + "H" * (2 + (rule in STATING)) + "I" * PREMISES.get(rule, 0) + "H" * (rule in CITING))
         for rule in range(SAME, ROLE_UNDER + 1)}


class ProofFault(ValueError):
    """A proof that does not bear a grant out."""


class TooManyLines(ProofFault):
    """A proof of more lines than its reader allows. Nothing is said of them."""

    def __init__(self, count, most):
        super().__init__(f"a proof of {count} lines, more than the {most} that are looked at")
        self.count = count


class Node(NamedTuple):
    """A principal of the table: for a key or a name its number, else the numbers of its operands. `As` has the number
    of the one in the role, and then the role."""

    form: type
    parts: tuple

    @property
    def operands(self):
        """The numbers of the nodes under it."""
        if self.form in PAIRS.values():
            return self.parts
        return self.parts[:1] if self.form is As else ()


class Line(NamedTuple):
    """A fact and the rule that gives it: that `left` speaks for `right`, or that `who` says so. These are numbers of
    nodes. `premises` are the numbers of lines, and `cited` is the place of an anchor or a certificate."""

    rule: int
    who: object
    left: int
    right: int
    premises: tuple = ()
    cited: object = None


@dataclass(frozen=True)
class Proof:
    nodes: tuple
    lines: tuple

    def follows(self, anchors, certificates):
        """Refuses the proof by ProofFault where some line does not follow. Anchors are pairs of a key's and a name's
        numbers, in the order of the node's opening; certificates are bodies, in the order of the reply."""
        _Check(self, anchors, certificates).all_lines()

    def concludes(self, subject, principal):
        """Whether its last line says that the subject speaks for the principal."""
        last = self.lines[-1] if self.lines else None
        table = _Table(self.nodes)
        wanted = None, table.place(subject), table.place(principal)
        return last is not None and None not in wanted[1:] and (last.who, last.left, last.right) == wanted


class _Table:
    """Finds principals among nodes. Equal nodes have one number, so equal principals have."""

    def __init__(self, nodes):
        self.places = {node: place for place, node in enumerate(nodes)}

    def place(self, principal):
        """The number of a principal, or None."""
        form = type(principal)
        if form in ATOMS.values():
            return self.places.get(Node(form, (principal.number,)))
        if form is As:
            return self.places.get(Node(form, (self.place(principal.who), principal.role)))
        return self.places.get(Node(form, (self.place(principal.left), self.place(principal.right))))


def read_proof(data, most_lines=MOST_LINES):
    """The proof that is spelled by all these bytes. One of more lines is refused by TooManyLines before they are read."""
    fields = Reader(data)
    nodes = [_read_node(fields, place) for place in range(fields.number(2, most=MAX_NODES))]
    count = fields.number(4, most=MAX_LINES)
    if count > most_lines:
        raise TooManyLines(count, most_lines)
    lines = [_whole_line(fields, len(nodes)) or _read_line(fields, len(nodes)) for _ in range(count)]
    if not _is_canonical(nodes, lines):
        fields.refuse("a table that is not that of the lines", 0)
    fields.end()
    return Proof(tuple(nodes), tuple(lines))


def _below(fields, width, end):
    """A number that is less than `end`."""
    at = fields.at
    found = fields.number(width)
    if found >= end:
        fields.refuse(f"the number {found}, which nothing has", at)
    return found


def _read_node(fields, place):
    at = fields.at
    kind = fields.number(1)
    if kind in ATOMS:
        return Node(ATOMS[kind], (fields.number(4),))
    if kind in PAIRS:
        return Node(PAIRS[kind], (_below(fields, 2, place), _below(fields, 2, place)))
    if kind == ROLE:
        return Node(As, (_below(fields, 2, place), fields.number(4)))
    return fields.refuse(f"a node of kind {kind}", at)


def _whole_line(fields, nodes):
    """The next line, or None where something is the matter with it."""
    data, at = fields.data, fields.at
    form = FORMS.get(data[at]) if at < len(data) else None
    if form is None or at + form.size > len(data):
        return None
    found = form.unpack_from(data, at)
    rule = found[0]
    states = rule in STATING
    who, left, right = found[1:4] if states else (None, found[1], found[2])
    if left >= nodes or right >= nodes or (states and who >= nodes):
        return None
    fields.at = at + form.size
    if rule in CITING:
        return Line(rule, who, left, right, (), found[-1])
    return Line(rule, who, left, right, found[3 + states :])


def _read_line(fields, nodes):
    """The next line, field by field, so that the byte is named that can't stand there."""
    at = fields.at
    rule = fields.number(1)
    if not SAME <= rule <= ROLE_UNDER:
        fields.refuse(f"a line by rule {rule}", at)
    who = _below(fields, 2, nodes) if rule in STATING else None
    left, right = _below(fields, 2, nodes), _below(fields, 2, nodes)
    premises = tuple(fields.number(4) for _ in range(PREMISES.get(rule, 0)))
    return Line(rule, who, left, right, premises, fields.number(2) if rule in CITING else None)


def _is_canonical(nodes, lines):
    """Whether the nodes are those of the lines, in the order in which they come first: operands before what they are
    operands of, the left one before the right."""
    if len(set(nodes)) != len(nodes):
        return False
    seen = 0
    for _, who, left, right, _, _ in lines:
        if left < seen and right < seen and (who is None or who < seen):
            continue
        for root in (who, left, right):
            waiting = [] if root is None else [root]
            while waiting:
                place = waiting[-1]
                later = [each for each in nodes[place].operands if each >= seen]
                if place >= seen and later:
                    waiting += reversed(later)
                    continue
                if place > seen:
                    return False
                seen = max(seen, place + 1)
                waiting.pop()
    return seen == len(nodes)


class _Check:
    """The lines of a proof against the rules."""

    def __init__(self, proof, anchors, certificates):
        self.nodes, self.lines, self.anchors = proof.nodes, proof.lines, tuple(anchors)
        table = _Table(proof.nodes)
        self.said = [(table.place(each.speaker), table.place(each.left), table.place(each.right))
                     for each in certificates]

    def all_lines(self):
        lines = self.lines
        if not lines:
            raise ProofFault("a proof without lines")
        for place, line in enumerate(lines):
            named = line.premises
            if (named and max(named) >= place) or not RULES[line.rule](self, line, *[lines[each] for each in named]):
                raise ProofFault(f"line {place} does not follow")

    def is_pair(self, place, form, *parts):
        """Whether the node is a compound of that form and of these parts."""
        return self.nodes[place] == (form, parts)

    def chain(self, line, one, other):
        return speaks(one, other) and one.right == other.left and (line.left, line.right) == (one.left, other.right)

    def left(self, line):
        node = self.nodes[line.left]
        return node.form is And and node.parts[0] == line.right

    def right(self, line):
        node = self.nodes[line.left]
        return node.form is And and node.parts[1] == line.right

    def both(self, line, one, other):
        whole = self.is_pair(line.right, And, one.right, other.right)
        return speaks(one, other) and one.left == other.left == line.left and whole

    def by_parts(self, form, line, one, other):
        fits = self.is_pair(line.left, form, one.left, other.left)
        return speaks(one, other) and fits and self.is_pair(line.right, form, one.right, other.right)

    def role(self, line):
        node = self.nodes[line.right]
        return node.form is As and node.parts[0] == line.left

    def role_under(self, line, one):
        left, right = self.nodes[line.left], self.nodes[line.right]
        roles = left.form is As and right.form is As and left.parts[1] == right.parts[1]
        return speaks(one) and roles and (left.parts[0], right.parts[0]) == (one.left, one.right)

    def anchor(self, line):
        if line.cited >= len(self.anchors):
            return False
        key, name = self.anchors[line.cited]
        return self.is_pair(line.left, Key, key) and self.is_pair(line.right, Name, name)

    def cited(self, line):
        return line.cited < len(self.said) and self.said[line.cited] == (line.who, line.left, line.right)

    def lift(self, line, statement, one):
        lifted = statement.who == one.left and line.who == one.right
        return says(statement) and speaks(one) and lifted and is_said(line, statement)

    def join(self, line, one, other):
        whole = says(one, other) and self.is_pair(line.who, And, one.who, other.who)
        return whole and is_said(line, one) and is_said(line, other)

    def hand_off(self, line, statement):
        return says(statement) and statement.who == line.right and is_said(line, statement)

    def delegate(self, line, statement):
        left = self.nodes[line.left]
        if not says(statement) or left.form is not Quoting or not is_said(line, statement):
            return False
        return left.parts[1] == statement.who and self.is_pair(line.right, For, *left.parts)


def speaks(line, other=None):
    """Whether it says that one speaks for another, and so does the other line, if there is one."""
    return line.who is None and (other is None or other.who is None)


def says(line, other=None):
    """Whether it says that somebody says so, and so does the other line, if there is one."""
    return line.who is not None and (other is None or other.who is not None)


def is_said(line, statement):
    """Whether both are about one left and one right principal."""
    return line.left == statement.left and line.right == statement.right


# Each has the check, the line and the lines that it names.
RULES = {
    SAME: lambda check, line: line.left == line.right,
    CHAIN: _Check.chain,
    LEFT: _Check.left,
    RIGHT: _Check.right,
    BOTH: _Check.both,
    QUOTE: lambda check, *lines: check.by_parts(Quoting, *lines),
    FOR: lambda check, *lines: check.by_parts(For, *lines),
    IN_ROLE: _Check.role,
    ANCHOR: _Check.anchor,
    SAID: _Check.cited,
    LIFT: _Check.lift,
    JOIN: _Check.join,
    HAND_OFF: _Check.hand_off,
    DELEGATE: _Check.delegate,
    ROLE_UNDER: _Check.role_under,
}
