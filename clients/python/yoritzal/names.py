"""Texts of principals, by a table of names and roles: as node files and `mint` have them, and a denial is told well."""
import re

from .terms import STATED_NODES, And, As, For, Key, Name, Quoting, term

TEXT = re.compile(r"[a-z][a-z0-9._-]{0,31}")
RESERVED = {"and", "as", "for", "key", "name", "role"}
OPERATORS = {"and": And, "|": Quoting, "for": For, "as": As}
# A word ends where no byte of one follows.
TOKEN = re.compile(r"[ \t]*((?:(?:key|name|role):[0-9]+|[a-z][a-z0-9._-]*)(?![a-z0-9:._-])|[()|])")
# Parentheses that do no harm may stand around others; so many are enough.
MOST_LEVELS = 200
PLAIN = re.compile(r"0|[1-9][0-9]{0,9}")


class NoPrincipal(ValueError):
    """A text that no principal has."""


class Names:
    """The texts of names and roles, each by its number. No text stands for two of a sort."""

    def __init__(self, names=(), roles=()):
        self.names, self.roles = dict(names), dict(roles)
        self.by_text = {Name: _turned(self.names), As: _turned(self.roles)}

    @classmethod
    def of_file(cls, lines):
        """Those of the lines `name N TEXT` and `role N TEXT` of a node or relay file, or of a file of these alone. Other
        lines are skipped."""
        found = {"name": {}, "role": {}}
        for line in lines:
            words = line.split()
            if len(words) == 3 and words[0] in found:
                found[words[0]][_number(words[1])] = words[2]
        return cls(found["name"], found["role"])

    def text(self, principal):
        """The principal's text."""
        if isinstance(principal, Name):
            return self.names.get(principal.number, str(principal))
        if isinstance(principal, Key):
            return str(principal)
        if isinstance(principal, As):
            return f"{self._operand(principal.who)} as {self.roles.get(principal.role, f'role:{principal.role}')}"
        word = {And: "and", Quoting: "|", For: "for"}[type(principal)]
        return f"{self._operand(principal.left)} {word} {self._operand(principal.right)}"

    def _operand(self, principal):
        text = self.text(principal)
        return text if isinstance(principal, (Key, Name)) else f"({text})"

    def principal(self, text):
        """The principal of a text. What none has is refused by NoPrincipal."""
        reading = _Reading(self, text)
        found = reading.principal(1)
        if reading.token is not None:
            raise NoPrincipal(f"{text!r}: {reading.token!r} follows")
        try:
            term(found, STATED_NODES)
        except ValueError as fault:
            raise NoPrincipal(f"{text!r}: {fault}") from fault
        return found


def _turned(texts):
    """The numbers by their texts."""
    turned = {}
    for number, text in texts.items():
        if not TEXT.fullmatch(text) or text in RESERVED:
            raise ValueError(f"{text!r} can be no text of a name or role")
        if turned.setdefault(text, number) != number:
            raise ValueError(f"{text!r} stands for two")
    return turned


def _number(digits):
    if not PLAIN.fullmatch(digits) or int(digits) >= 1 << 32:
        raise NoPrincipal(f"{digits!r} is no number")
    return int(digits)


class _Reading:
    """Reads the tokens of a text, one after the other."""

    def __init__(self, names, text):
        self.names, self.text, self.at, self.token = names, text, 0, None
        self.next()

    def refuse(self):
        raise NoPrincipal(f"{self.text!r}: {self.token!r} can't stand there" if self.token else f"{self.text!r}: something is lacking")

    def next(self):
        """Goes to the next token, or to None at the end, and gives the one before it."""
        taken, rest = self.token, self.text[self.at :]
        if not rest.strip(" \t"):
            self.token = None
            return taken
        found = TOKEN.match(rest)
        if not found:
            raise NoPrincipal(f"{self.text!r}: {rest.strip()!r} can't stand there")
        self.token, self.at = found.group(1), self.at + found.end()
        return taken

    def principal(self, level):
        left = self.operand(level)
        if self.token not in OPERATORS:
            return left
        operator = OPERATORS[self.next()]
        return As(left, self.role()) if operator is As else operator(left, self.operand(level))

    def operand(self, level):
        if level > MOST_LEVELS:
            raise NoPrincipal(f"{self.text!r}: too many parentheses")
        token = self.next()
        if token == "(":
            inside = self.principal(level + 1)
            if self.next() != ")":
                self.refuse()
            return inside
        for word, form in (("key:", Key), ("name:", Name)):
            if token and token.startswith(word):
                return form(_number(token[len(word) :]))
        if token not in self.names.by_text[Name]:
            raise NoPrincipal(f"{self.text!r}: no name is {token!r}")
        return Name(self.names.by_text[Name][token])

    def role(self):
        token = self.next()
        if token and token.startswith("role:"):
            return _number(token[5:])
        if token not in self.names.by_text[As]:
            raise NoPrincipal(f"{self.text!r}: no role is {token!r}")
        return self.names.by_text[As][token]
