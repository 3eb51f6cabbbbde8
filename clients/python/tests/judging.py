"""What `replay` comes to, written from docs/COURSE.md (a shard, judging journals), docs/CALCULUS.md and docs/FORMATS.md alone."""
from deriving import speaks
from yoritzal import Key, Malformed, ProofFault, Quoting, SetList, body_of, read_journals
from yoritzal.journals import Ask, Keep

MAX_OWN, MAX_COMMONS, MAX_KEPT, MAX_WITHDRAWN = 32, 32, 64, 64


class Judge:
    """Journals beside an opening."""

    def __init__(self, opening):
        self.opening = opening

    def line(self, data):
        """The line of `replay` about these bytes."""
        try:
            journals = read_journals(data)
        except Malformed as fault:
            return f"malformed byte {fault.offset}"
        if len(journals.shards) != self.opening.shards or list(journals.objects) != sorted(self.opening.objects):
            return "illegal shard 0 entry 0 cells"
        shards = [Shard(self.opening, number) for number in range(self.opening.shards)]
        fault = _first("shard", enumerate(journals.shards), lambda number, entry: shards[number].cause(entry))
        return fault or self.of_objects(journals, shards) or f"legal entries {len(list(journals.lines()))}"

    def of_objects(self, journals, shards):
        """The line of the first entry of an object that fails, or None."""
        lists, left, named = dict(self.opening.objects), {number: self.opening.limit for number in journals.objects}, set()

        def cause(number, ruled):
            if left[number] == 0:
                return "limit"
            judged = shards[ruled.shard].judged.get(ruled.place) if ruled.shard < len(shards) else None
            if judged is None or (judged.ask.right, judged.ask.entries) != (ruled.operation.right, tuple(lists[number])):
                return "ask"
            if (ruled.shard, ruled.place) in named:
                return "again"
            if judged.due() != ruled.entry:
                return "ruling"
            left[number] -= 1
            named.add((ruled.shard, ruled.place))
            if ruled.entry is not None and isinstance(ruled.operation, SetList):
                lists[number] = ruled.operation.entries
            return None

        return _first("object", journals.objects.items(), cause)


def _first(cell, journals, cause_of):
    """The line of the first entry that has a cause, or None."""
    for number, entries in journals:
        for place, entry in enumerate(entries):
            cause = cause_of(number, entry)
            if cause:
                return f"illegal {cell} {number} entry {place} {cause}"
    return None


class Judged:
    """An Ask that is to be judged: by a proof that is kept for an entry, or by these certificates at this moment."""

    def __init__(self, ask, hit, anchors, bodies, moment):
        self.ask, self.hit, self.anchors = ask, hit, anchors
        self.bodies = [body for body in bodies if body.begins <= moment < body.until]

    def due(self):
        """The entry that grants, or None."""
        if self.hit is not None:
            return self.hit
        return next((place for place, entry in enumerate(self.ask.entries) if entry.rights & self.ask.right
                     and speaks(self.ask.subject, entry.who, self.anchors, self.bodies)), None)


class Kept:
    def __init__(self, subject, who, keep):
        self.subject, self.who, self.cites, self.lease = subject, who, keep.cites, keep.lease


class Shard:
    """What a shard holds, as its entries are told one after the other."""

    def __init__(self, opening, number):
        self.opening, self.journal, self.judged, self.moments = opening, [], {}, []
        self.last = {channel: 0 for channel in opening.keys if channel % opening.shards == number}
        self.own = {channel: [] for channel in self.last}
        self.commons = [body_of(each) for each in opening.commons]
        self.clock, self.withdrawn, self.kept = 0, [], []

    def cause(self, entry):
        """Why an entry fails, or None. Each that does not is taken."""
        if len(self.journal) >= self.opening.limit:
            return "limit"
        if isinstance(entry, Keep) and not self.is_proof(entry):
            return "keep"
        if isinstance(entry, Ask) and (entry.channel not in self.last or _channel_of(entry.subject) != entry.channel):
            return "told"
        told = self.tell(entry)
        self.journal.append(entry)
        self.moments.append(self.clock)
        other_lease = isinstance(entry, Keep) and entry.told_lease not in (None, entry.lease)
        return "told" if told != entry.told or other_lease else None

    def is_proof(self, keep):
        """Whether it is one for the Ask that it names, and the entry of its list."""
        ask = self.journal[keep.ask] if keep.ask < len(self.journal) else None
        if not isinstance(ask, Ask) or keep.entry >= len(ask.entries) or len(set(keep.cites)) < len(keep.cites):
            return False
        try:
            keep.proof.follows(self.opening.anchors, keep.cites)
        except ProofFault:
            return False
        begun = all(body.begins <= self.moments[keep.ask] for body in keep.cites)
        return begun and keep.proof.concludes(ask.subject, ask.entries[keep.entry].who)

    def tell(self, entry):
        if isinstance(entry, Ask):
            return self.ask(entry)
        if isinstance(entry, Keep):
            return self.keep(entry)
        word, rest = entry.what.split()
        if word == "hold":
            return self.hold(entry.bodies)
        if word == "discard":
            return self.let_go(lambda body: body.digest.hex() == rest)
        return {"forget": self.forget, "expire": self.advance, "withdraw": self.withdraw}[word](int(rest))

    def ask(self, ask):
        self.advance(ask.reading)
        own = self.own[ask.channel]
        if ask.number <= self.last[ask.channel]:
            return f"replayed {self.last[ask.channel]}"
        new = self.new(ask.presented, own)
        if len(own) + len(new) > MAX_OWN:
            return f"full {len(own)}"
        self.last[ask.channel] = ask.number
        own += new
        hit = self.hit(ask)
        self.judged[len(self.journal)] = Judged(ask, hit, self.opening.anchors, own + self.commons, self.clock)
        return "miss" if hit is None else f"hit {hit}"

    def hit(self, ask):
        """The first entry with the right for which a proof is kept: that is the latest used then."""
        for place, entry in enumerate(ask.entries):
            for kept in self.kept:
                if entry.rights & ask.right and (kept.subject, kept.who) == (ask.subject, entry.who):
                    self.kept.remove(kept)
                    self.kept.insert(0, kept)
                    return place
        return None

    def keep(self, keep):
        ask = self.journal[keep.ask]
        held = self.own[ask.channel] + self.commons
        lost = next((body for body in keep.cites if body not in held), None)
        if lost:
            return f"dropped not-held {lost.digest.hex()}"
        if self.clock >= keep.lease:
            return f"dropped lapsed {self.clock}"
        kept = Kept(ask.subject, ask.entries[keep.entry].who, keep)
        others = [each for each in self.kept if (each.subject, each.who) != (kept.subject, kept.who)]
        self.kept = [kept, *others][:MAX_KEPT]
        return "kept"

    def hold(self, bodies):
        new = self.new(bodies, [])
        if len(self.commons) + len(new) > MAX_COMMONS:
            return f"full {len(self.commons)}"
        self.commons += new
        return f"added {len(new)}"

    def withdraw(self, issuer):
        if issuer in self.withdrawn:
            return "removed 0"
        if len(self.withdrawn) >= MAX_WITHDRAWN:
            return f"full {len(self.withdrawn)}"
        self.withdrawn.append(issuer)
        return self.let_go(lambda body: body.issuer == issuer)

    def forget(self, channel):
        count = len(self.own.get(channel, []))
        if channel in self.own:
            self.own[channel] = []
        self.kept = [each for each in self.kept if _channel_of(each.subject) != channel]
        return f"removed {count}"

    def new(self, bodies, own):
        """Those of them, each once, that are held nowhere and whose issuer is not withdrawn."""
        found = []
        for body in bodies:
            if body.issuer not in self.withdrawn and body not in own + self.commons + found:
                found.append(body)
        return found

    def advance(self, reading):
        """The clock goes on, and what is gone then is let go."""
        self.clock = max(self.clock, reading)
        self.kept = [each for each in self.kept if self.clock < each.lease]
        return self.let_go(lambda body: body.until + self.opening.keep <= self.clock)

    def let_go(self, goes):
        """Lets certificates go with the proofs that cite one of them, and tells how many."""
        held = [*self.own.values(), self.commons]
        count = sum(goes(body) for bodies in held for body in bodies)
        for bodies in held:
            bodies[:] = [body for body in bodies if not goes(body)]
        self.kept = [each for each in self.kept if not any(map(goes, each.cites))]
        return f"removed {count}"


def _channel_of(subject):
    key = subject.left if isinstance(subject, Quoting) else subject
    return key.number if isinstance(key, Key) else None
