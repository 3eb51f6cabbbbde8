"""Journals with each kind of entry: as text, as bytes, and judged again.

A row has what is asked, and what the journals have of it. No proof that is kept has more than one line: which of several
longer ones is made is not laid down.
"""
from conversation import Case
from formats import DISCARD, FORGET, HOLD, LAST, SET_LIST, SWEEP, WITHDRAW, WRITE, DENIES, added, anchor_proof, ask_entry
from formats import digest, discard_entry, expire_entry, forget_entry, grants, hits, hold_entry, in_role, journals, keep_entry, key, lapsed
from formats import list_of, no_room, object_entry, quoting, told_full, u16, u32, withdraw_entry
from .beginning import CF, LATER
from .nodes import ALICE, BOB, FOR_ALICE, OBJECT, ask, handed, handing, node
from .objects import discard, forget, hold, set_list, sweep, withdraw, write

RIGHTS = {1: "read", 2: "write", 4: "control", 8: "manage"}
C1, SHOWN = handing(), handed()
PROOF = anchor_proof(1, 10, 0)


class Journal:
    """The entries of a shard, as bytes and as lines."""

    def __init__(self, shard=0):
        self.shard, self.entries, self.lines = shard, [], []

    def enter(self, entry, text):
        self.entries.append(entry)
        self.lines.append(f"shard {self.shard} entry {len(self.lines)} {text}")

    def asked(self, channel, number, right=1, bodies=(), listed=FOR_ALICE, quoted=None, reading=1000, hit=None, full=None):
        subject = key(channel) if quoted is None else quoting(key(channel), quoted)
        told, text = (b"\0", "miss") if hit is None else (hits(hit), f"hit {hit}")
        if full is not None:
            told, text = told_full(full), f"full {full}"
        entry = ask_entry(channel, number, subject, listed, reading, right, bodies, told)
        self.enter(entry, f"ask channel {channel} seq {number} reading {reading} certificates {len(bodies)} right {RIGHTS[right]} -> {text}")
        return self

    def kept(self, place=0, entry=0):
        self.enter(keep_entry(place, PROOF, entry), f"keep ask {place} entry {entry} lease {LAST} -> kept")
        return self

    def ended(self, clock, place=0):
        self.enter(keep_entry(place, PROOF, told=lapsed(clock, LAST)), f"keep ask {place} entry 0 lease {LAST} -> dropped lapsed {clock}")
        return self

    def held(self, bodies, count=None, full=None):
        told, text = (added(count), f"added {count}") if full is None else (no_room(full), f"full {full}")
        self.enter(hold_entry(bodies, told), f"hold {len(bodies)} -> {text}")
        return self

    def discarded(self, text, count):
        self.enter(discard_entry(text, count), f"discard {digest(text).hex()} -> removed {count}")
        return self

    def forgot(self, channel, count):
        self.enter(forget_entry(channel, count), f"forget {channel} -> removed {count}")
        return self

    def swept(self, reading, count):
        self.enter(expire_entry(reading, count), f"expire {reading} -> removed {count}")
        return self

    def withdrew(self, issuer, count=0, full=None):
        told, text = (b"\0" + u32(count), f"removed {count}") if full is None else (no_room(full), f"full {full}")
        self.enter(withdraw_entry(issuer, told), f"withdraw {issuer} -> {text}")
        return self


class Ruled:
    """The entries of an object, as bytes and as lines."""

    def __init__(self, number=OBJECT):
        self.number, self.entries, self.lines = number, [], []

    def ruled(self, place, entry=0, operation=1, fields=(), text="read", shard=0):
        """Granted by this entry of the list, or denied."""
        ruling, told = (DENIES, "denied") if entry is None else (grants(entry), f"granted {entry}")
        self.entries.append(object_entry(place, ruling, shard, operation, fields))
        self.lines.append(f"object {self.number} entry {len(self.lines)} ask {shard}/{place} {text} -> {told}")
        return self


def others(first, last):
    """Certificates that nobody needs, and their bodies."""
    return [handed(issuer=3, serial=each) for each in range(first, last + 1)], [handing(issuer=3, serial=each) for each in range(first, last + 1)]


def plain():
    """Writes, lists and reads."""
    new = [(1, BOB), (2, in_role(key(2), 3))]
    second = [(14, ALICE), (1, ALICE)]
    return [
        ("a Write", "Its bytes are counted.", node(), [write(b"new")], [Journal().asked(1, 1, 2).kept()],
         [Ruled().ruled(0, operation=WRITE, fields=[u16(3), b"new"], text="write 3")]),
        ("a Write that is denied", "Of no bytes.", node(), [write(b"", channel=2)], [Journal().asked(2, 1, 2)],
         [Ruled().ruled(0, None, WRITE, [u16(0)], "write 0")]),
        ("a SetList, and a Read by that list", "Names and roles have no texts.", node(), [set_list(new), ask(1, 2)],
         [Journal().asked(1, 1, 4).kept().asked(1, 2, listed=new)],
         [Ruled().ruled(0, operation=SET_LIST, fields=[list_of(new)], text="list r name:30; w key:2 as role:3").ruled(2, None)]),
        ("a SetList of no entry", "Nothing stands behind the blank.", node(), [set_list([])], [Journal().asked(1, 1, 4).kept()],
         [Ruled().ruled(0, operation=SET_LIST, fields=[list_of([])], text="list ")]),
        ("a Read by the second entry, and one more", "The first may not read.", node(second), [ask(1, 1), ask(1, 2)],
         [Journal().asked(1, 1, listed=second).kept(entry=1).asked(1, 2, listed=second, hit=1)], [Ruled().ruled(0, 1).ruled(2, 1)]),
        ("a Read by one who quotes", "Nobody speaks for alice.", node(), [ask(1, 1, quoted=BOB)], [Journal().asked(1, 1, quoted=BOB)],
         [Ruled().ruled(0, None)]),
        ("Reads of two objects", "The file has them in another order.", node(more=[4]), [ask(1, 1), ask(1, 2, target=4)],
         [Journal().asked(1, 1).kept().asked(1, 2, hit=0)], [Ruled(4).ruled(2), Ruled().ruled(0)]),
        ("one certificate twice", "What is presented is told as it came.", node(), [ask(3, 1, handed(issuer=3), handed(issuer=3))],
         [Journal().asked(3, 1, bodies=[handing(issuer=3)] * 2)], [Ruled().ruled(0, None)]),
        ("one that begins later", "Its body has 40 bytes.", node(), [ask(2, 1, LATER)], [Journal().asked(2, 1, bodies=[CF])], [Ruled().ruled(0, None)]),
    ]


def managed():
    """Operations that shards perform."""
    full, many = others(1, 32)
    by_hold = [Ruled().ruled(0, operation=HOLD, text="hold")]
    of_c1 = [Ruled().ruled(0, operation=DISCARD, fields=[digest(C1)], text=f"discard {digest(C1).hex()}")]
    return [
        ("a Hold", "What it presents is its channel's own too.", node(), [hold(SHOWN)],
         [Journal().asked(1, 1, 8, [C1]).kept().held([C1], 1)], by_hold),
        ("a Hold of what is common", "None is added.", node(commons=[SHOWN]), [hold(SHOWN)],
         [Journal().asked(1, 1, 8, [C1]).kept().held([C1], 0)], by_hold),
        ("a Hold of nothing", "None is added.", node(), [hold()], [Journal().asked(1, 1, 8).kept().held([], 0)], by_hold),
        ("a Hold with no room", "It is granted all the same.", node(commons=full), [hold(SHOWN)],
         [Journal().asked(1, 1, 8, [C1]).kept().held([C1], full=32)], by_hold),
        ("a Discard", "One is let go.", node(commons=[SHOWN]), [discard(C1)], [Journal().asked(1, 1, 8).kept().discarded(C1, 1)], of_c1),
        ("a Discard of what is nowhere held", "It is granted all the same.", node(), [discard(C1)],
         [Journal().asked(1, 1, 8).kept().discarded(C1, 0)], of_c1),
        ("a Forget", "Channel 2 presented one.", node(), [ask(2, 1, handed(issuer=3)), forget(2)],
         [Journal().asked(2, 1, bodies=[handing(issuer=3)]).asked(1, 1, 8).kept(1).forgot(2, 1)],
         [Ruled().ruled(0, None).ruled(1, operation=FORGET, fields=[u32(2)], text="forget 2")]),
        ("a Forget of no channel", "There is no channel 9.", node(), [forget(9)], [Journal().asked(1, 1, 8).kept().forgot(9, 0)],
         [Ruled().ruled(0, operation=FORGET, fields=[u32(9)], text="forget 9")]),
        ("a channel that is full", "It comes to no ruling.", node(), [ask(2, 1, *full[:16]), ask(2, 2, *full[16:]), ask(2, 3, SHOWN)],
         [Journal().asked(2, 1, bodies=many[:16]).asked(2, 2, bodies=many[16:]).asked(2, 3, bodies=[C1], full=32)],
         [Ruled().ruled(0, None).ruled(1, None)]),
        ("a withdrawal of what is common", "One is let go.", node(commons=[SHOWN]), [withdraw(1)],
         [Journal().asked(1, 1, 8).kept().withdrew(1, 1)], [Ruled().ruled(0, operation=WITHDRAW, fields=[u32(1)], text="withdraw 1")]),
    ]


def timed():
    """Operations where the clock goes on, and the readings."""
    ended = handing(until=500)
    manages = [Ruled().ruled(0, None).ruled(1, operation=WITHDRAW, fields=[u32(1)], text="withdraw 1")]
    return [
        ("a Sweep of two shards", "The shard of who asks was swept by the Ask.", node(shards=2, keep=10),
         [ask(2, 1, handed(issuer=3)), sweep()],
         [Journal().asked(2, 1, bodies=[handing(issuer=3)]).swept(2010, 1), Journal(1).asked(1, 1, 8, reading=2010).kept().swept(2010, 0)],
         [Ruled().ruled(0, None).ruled(0, operation=SWEEP, text="sweep", shard=1)], [1000, 2010]),
        ("a withdrawal of what begins and what ended", "Both are held until then.", node(), [ask(2, 1, LATER, handed(until=500)), withdraw(1)],
         [Journal().asked(2, 1, bodies=[CF, ended]).asked(1, 1, 8).kept(1).withdrew(1, 2)], manages, [1000]),
        ("a withdrawal of what is gone by then", "It went with the sweep.", node(keep=10), [ask(2, 1, handed(until=500)), withdraw(1)],
         [Journal().asked(2, 1, bodies=[ended], reading=505).asked(1, 1, 8).kept(1).withdrew(1, 0)], manages, [505, 1000]),
        ("a proof at the last moment", "It ends then, so it is not kept.", node(), [ask(1, 1)], [Journal().asked(1, 1, reading=LAST).ended(LAST)],
         [Ruled().ruled(0)], [LAST]),
    ]


def sixty_five():
    """Withdrawals of 100 to 163, and one more."""
    shard, found, asked = Journal(), Ruled(), []
    for number in range(1, 66):
        place, issuer = len(shard.entries), 99 + number
        shard.asked(1, number, 8, hit=None if number == 1 else 0)
        shard = shard.kept() if number == 1 else shard
        shard.withdrew(issuer, full=64 if number == 65 else None)
        found.ruled(place, operation=WITHDRAW, fields=[u32(issuer)], text=f"withdraw {issuer}")
        asked.append(withdraw(issuer, number=number))
    return [("a withdrawal of one issuer more", "It is granted all the same.", node(), asked, [shard], [found])]


def conversations(title, about, file, asked, shards, objects, clock=(1000,)):
    spelled = journals([each.entries for each in shards], [(each.number, each.entries) for each in objects])
    cells = [*shards, *objects]
    count = sum(len(each.entries) for each in cells)
    text = "".join(f"{line}\n" for each in cells for line in each.lines).encode("ascii")
    served = dict(file=file, input=asked, clock=clock)
    return [
        Case(f"{title}: as text", about, 0, ("audit",), output=[text], **served),
        Case(f"{title}: as bytes", about, 0, ("audit-bytes",), output=[spelled], **served),
        Case(f"{title}: judged again", about, 0, ("replay",), file=file, input=[spelled], output=[f"legal entries {count}\n".encode("ascii")]),
    ]


def journaled():
    rows = plain() + managed() + timed() + sixty_five()
    return [case for row in rows for case in conversations(*row)]


THEMES = [("journals", "Journals with each kind of entry: as text, as bytes, and judged again.", journaled)]
