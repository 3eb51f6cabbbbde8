"""Each operation, and each of what it may be refused for."""
from conversation import talk
from formats import channel_full, journal_full, object_full, pull_failed, refused, relay_failed, turned
from .nodes import ask, by_anchor, handed, handing, issued, node
from .objects import AT, discard, forget, hold, serials, set_list, sweep, withdraw, write

C1 = handing()
# An operation, and its frame by channel 1.
EACH = [
    ("a Write", lambda **whole: write(b"new", **whole)),
    ("a SetList", lambda **whole: set_list([], **whole)),
    ("a Hold", lambda certificates=(), **whole: hold(*certificates, **whole)),
    ("a Discard", lambda **whole: discard(C1, **whole)),
    ("a Forget", lambda **whole: forget(2, **whole)),
    ("a Sweep", lambda **whole: sweep(**whole)),
    ("a Withdraw", lambda **whole: withdraw(9, **whole)),
]


def filled(make):
    """32 are held, and one more is presented."""
    return [(ask(1, 1, *serials(1, 16)), by_anchor(1)), (ask(1, 2, *serials(17, 32)), by_anchor(2, 2, kept=1)),
            (make(number=3, certificates=serials(33, 33)), channel_full(1, 3, 32)), (ask(1, 4), by_anchor(4, 4, kept=1))]


def refused_for(title, make):
    """The operation, refused for each, and what stands as before behind it."""
    after = (ask(1, 2), by_anchor(2))
    only, more = node(limit=1), node(limit=1, more=[6])
    bad, own = turned(handed()), issued(1, C1)
    return [
        talk(f"{title} whose certificate is refused", "Its tag is turned: nothing is done.", node(),
             [(make(certificates=[bad]), refused(1, 1, 0, 3)), after], clock=AT),
        talk(f"{title} for which the link fails", "There is no relay: nothing is done.", node(),
             [(make(certificates=[own]), relay_failed(1, 1, 0)), after], clock=AT, faults=1),
        talk(f"{title} whose fetch fails", "There is no wallet: nothing is done.", node(), [(make(), pull_failed(1, 1))],
             words=("run", "--pull"), clock=AT, faults=1),
        talk(f"{title} by a channel that is full", "It takes an entry, and nothing is done.", node(), filled(make), clock=AT),
        talk(f"{title} where the object's journal is full", "A Read had its one entry.", only,
             [(ask(1, 1), by_anchor(1)), (make(number=2), object_full(1, 2, 5, 1))], clock=AT),
        talk(f"{title} where the shard's journal is full", "A Read of object 5 had its one entry.", more,
             [(ask(1, 1), by_anchor(1)), (make(number=2, target=6), journal_full(1, 2, 0, 1))], clock=AT),
    ]


def refusing():
    return [case for title, make in EACH for case in refused_for(title, make)]


THEMES = [("each_refused", "Each operation refused for its certificates, its channel, its fetch, and for want of room.", refusing)]
