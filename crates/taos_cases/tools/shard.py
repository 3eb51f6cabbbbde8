"""A shard as docs/COURSE.md has it: its clock, numbers, certificates, kept proofs and entries.

It decides nothing: who may ask whether the Ask was a miss states what comes of it. Certificates are bodies, principals
are spellings.
"""
from formats import LAST, digest, key

OWN, COMMONS, KEPT, WITHDRAWN = 32, 32, 64, 64


def until(text):
    """When the certificate of this body ends."""
    return int.from_bytes(text[-16:-8], "big")


def issuer_of(text):
    """Who issued the certificate of this body."""
    return int.from_bytes(text[1:5], "big")


def lease_of(cites):
    return min(map(until, cites), default=LAST)


def once(texts):
    """Each of them once, in the order in which they come first."""
    return list(dict.fromkeys(texts))


def is_of(subject, channel):
    """Whether the subject is the channel's key, alone or quoting."""
    return subject == key(channel) or subject.startswith(b"\x04" + key(channel))


class Kept:
    """A proof that is kept: for whom and what, its certificates (where they are known), its lease, and the proof."""

    def __init__(self, subject, who, lease, cites=None, proof=None):
        self.subject, self.who, self.lease, self.cites, self.proof = subject, who, lease, cites, proof


class Shard:
    """Its answers are a word and a number, or for a hit the entry and the proof; None where the journal is full."""

    def __init__(self, keep, limit, commons):
        self.keep, self.limit, self.commons = keep, limit, list(commons)
        self.clock, self.last, self.own, self.kept, self.length = 0, {}, {}, [], 0
        self.withdrawn = []

    def is_full(self):
        return self.length >= self.limit

    def enter(self):
        """The place of one entry more."""
        self.length += 1
        return self.length - 1

    def sweep(self, reading):
        """How many certificates are let go."""
        self.clock = max(self.clock, reading)
        self.kept = [each for each in self.kept if self.clock < each.lease]
        return self.let_go(lambda text: self.clock < until(text) or self.clock - until(text) < self.keep)

    def let_go(self, stays):
        before = len(self.commons) + sum(map(len, self.own.values()))
        self.commons = list(filter(stays, self.commons))
        self.own = {channel: list(filter(stays, texts)) for channel, texts in self.own.items()}
        return before - len(self.commons) - sum(map(len, self.own.values()))

    def new(self, presented, held):
        """Each once that is not held, of issuers that are not withdrawn."""
        return [text for text in once(presented) if text not in held and issuer_of(text) not in self.withdrawn]

    def ask(self, channel, number, reading, presented, subject, listed):
        """Of these principals that are listed with the right: (entry, principal)."""
        self.enter()
        self.sweep(reading)
        if number <= self.last.get(channel, 0):
            return "replayed", self.last.get(channel, 0)
        own = self.own.get(channel, [])
        new = self.new(presented, own + self.commons)
        if len(own) + len(new) > OWN:
            return "full", len(own)
        self.last[channel], self.own[channel] = number, own + new
        return self.look_up(subject, listed)

    def look_up(self, subject, listed):
        for entry, who in listed:
            for found in self.kept:
                if (found.subject, found.who) == (subject, who):
                    self.kept = [found] + [each for each in self.kept if each is not found]
                    return "hit", (entry, found)
        return "miss", None

    def keep_proof(self, channel, found):
        """The proof of a grant. Where its certificates are not known they are taken to be held."""
        self.enter()
        held = self.own.get(channel, []) + self.commons
        gone = [text for text in found.cites or [] if text not in held]
        if gone:
            return "not held", digest(gone[0])
        if self.clock >= found.lease:
            return "lapsed", self.clock
        others = [each for each in self.kept if (each.subject, each.who) != (found.subject, found.who)]
        self.kept = [found] + others[: KEPT - 1]
        return "kept", None

    def hold(self, presented):
        self.enter()
        new = self.new(presented, self.commons)
        if len(self.commons) + len(new) > COMMONS:
            return "commons full", len(self.commons)
        self.commons += new
        return "held", len(new)

    def discard(self, of):
        """A proof whose certificates are not known is taken to cite it."""
        self.enter()
        self.kept = [each for each in self.kept if each.cites is not None and of not in map(digest, each.cites)]
        return "removed", self.let_go(lambda text: digest(text) != of)

    def forget(self, channel):
        self.enter()
        self.kept = [each for each in self.kept if not is_of(each.subject, channel)]
        return "removed", len(self.own.pop(channel, []))

    def expire(self, reading):
        self.enter()
        return "removed", self.sweep(reading)

    def withdraw(self, issuer):
        """A proof whose certificates are not known is taken to cite one of the issuer."""
        self.enter()
        if issuer in self.withdrawn:
            return "removed", 0
        if len(self.withdrawn) >= WITHDRAWN:
            return "withdrawn full", len(self.withdrawn)
        self.withdrawn.append(issuer)
        self.kept = [each for each in self.kept if each.cites is not None and issuer not in map(issuer_of, each.cites)]
        return "removed", self.let_go(lambda text: issuer_of(text) != issuer)
