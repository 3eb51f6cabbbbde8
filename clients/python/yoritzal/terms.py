"""Principals: keys, names and compounds of them, and their spelling, which is called a term. Their `str` is the text by which
`mint` and node files name them."""
from dataclasses import dataclass

from .fields import number

MAX_DEPTH = 16
# The most nodes of a term, by where it stands.
ENTRY_NODES, QUOTED_NODES, STATED_NODES = 16, 14, 64


def _operand(principal):
    """The text of a principal inside of another one."""
    return str(principal) if isinstance(principal, (Key, Name)) else f"({principal})"


@dataclass(frozen=True)
class Key:
    number: int

    def __str__(self):
        return f"key:{self.number}"


@dataclass(frozen=True)
class Name:
    number: int

    def __str__(self):
        return f"name:{self.number}"


@dataclass(frozen=True)
class And:
    left: object
    right: object

    def __str__(self):
        return f"{_operand(self.left)} and {_operand(self.right)}"


@dataclass(frozen=True)
class Quoting:
    """`left` quoting `right`."""

    left: object
    right: object

    def __str__(self):
        return f"{_operand(self.left)} | {_operand(self.right)}"


@dataclass(frozen=True)
class As:
    """`who` in a role, which is a number."""

    who: object
    role: int

    def __str__(self):
        return f"{_operand(self.who)} as role:{self.role}"


@dataclass(frozen=True)
class For:
    """`left` on behalf of `right`."""

    left: object
    right: object

    def __str__(self):
        return f"{_operand(self.left)} for {_operand(self.right)}"


ATOMS = {1: Key, 2: Name}
PAIRS = {3: And, 4: Quoting, 6: For}
ROLE = 5
KINDS = {form: kind for kind, form in {**ATOMS, **PAIRS, ROLE: As}.items()}


def term(principal, most_nodes):
    """The term of a principal. One with more nodes, or deeper than a term may be, is refused by ValueError."""
    spelled, nodes = _term(principal, 1)
    if nodes > most_nodes:
        raise ValueError(f"a principal of {nodes} nodes, more than {most_nodes}")
    return spelled


def _term(principal, level):
    """The term, and how many nodes it has."""
    if type(principal) not in KINDS:
        raise ValueError(f"{principal!r} is no principal")
    if level > MAX_DEPTH:
        raise ValueError(f"a principal that is deeper than {MAX_DEPTH}")
    kind = KINDS[type(principal)]
    head = number(kind, 1)
    if kind in ATOMS:
        return head + number(principal.number, 4), 1
    if kind == ROLE:
        who, nodes = _term(principal.who, level + 1)
        return head + who + number(principal.role, 4), nodes + 1
    (left, some), (right, more) = _term(principal.left, level + 1), _term(principal.right, level + 1)
    return head + left + right, some + more + 1


def read_term(fields, most_nodes):
    """The principal that is spelled next."""
    return _Terms(fields, most_nodes).read(1)


class _Terms:
    """Reads a term, and counts its nodes."""

    def __init__(self, fields, most_nodes):
        self.fields, self.left = fields, most_nodes

    def read(self, level):
        fields, at = self.fields, self.fields.at
        kind = fields.number(1)
        if kind not in ATOMS and kind not in PAIRS and kind != ROLE:
            fields.refuse(f"a term of kind {kind}", at)
        if level > MAX_DEPTH:
            fields.refuse("a term that is too deep", at)
        if self.left == 0:
            fields.refuse("a term with too many nodes", at)
        self.left -= 1
        if kind in ATOMS:
            return ATOMS[kind](fields.number(4))
        if kind == ROLE:
            return As(self.read(level + 1), fields.number(4))
        left = self.read(level + 1)
        return PAIRS[kind](left, self.read(level + 1))
