"""What a shard remembers: its clock, numbers, certificates and journal."""
from conversation import Grant, talk
from formats import LAST, bad_seal, body, channel_full, expired, journal_full, object_full, refused, replayed
from formats import turned, unknown_object
from .nodes import ALICE, BOB, ask, by_anchor, handed, handing, no_alice, node, relayed

YEAR = 31_536_000
# The word of key 1 that key 2, 3 or 4 speaks for alice, until 2000; and that bob does.
C1, C3, C4 = handing(2), handing(3), handing(4)
BOBS = body(1, BOB, ALICE, 2000, 1)
SHOWN = relayed(C1)


def granted(channel, number, place=0, shard=0, kept=0, until=2000):
    """By one certificate."""
    return Grant(channel, number, 1, shard=shard, place=place, kept=kept, until=until)


def again(channel, number, place, shard=0):
    """By one certificate, and a proof that was kept."""
    return granted(channel, number, place, shard, kept=1)


def ended(number, place=0, until=2000, channel=2, text=None, shard=0):
    """The hand-off of channel 2, or another certificate, ended."""
    text = handing(until=until) if text is None else text
    return expired(channel, number, text, shard=shard, place=place)


def told(table):
    return [talk(title, about, file, pairs, clock=clock) for title, about, file, clock, pairs in table]


def clocks():
    ask_80, plain = ask(2, 1, handed(until=80)), node()
    return told([
        ("a certificate that ended between the readings", "A clock that goes back is not believed.", plain,
         [100, 50], [(ask_80, ended(1, 0, 80)), (ask(2, 2, handed(until=80)), ended(2, 1, 80))]),
        ("the end is no longer live", "A certificate is live where it ends after the moment.", plain, [80, 79],
         [(ask_80, ended(1, 0, 80)), (ask(2, 2), ended(2, 1, 80))]),
        ("both readings before the end", "The second is lower, and the moment is the first.", plain, [79, 78],
         [(ask_80, granted(2, 1, until=80)), (ask(2, 2), granted(2, 2, 2, kept=1))]),
        ("one reading before the end and one at it", "It ends in between.", plain, [79, 80],
         [(ask_80, granted(2, 1, until=80)), (ask(2, 2), ended(2, 2, 80))]),
        ("another channel's reading", "The clock is the shard's.", plain, [2000, 1000],
         [(ask(1, 1), by_anchor(1)), (ask(2, 1, SHOWN), ended(1, 2))]),
        ("the reading of a number that was there", "It is an entry, and so a moment.", plain, [1000, 2000, 1000],
         [(ask(2, 1, SHOWN), granted(2, 1)), (ask(2, 1), replayed(2, 1, 1)), (ask(2, 2), ended(2, 3))]),
        ("no reading for what has no object or no seal", "2000 is the reading of the fourth frame.", plain,
         [1000, 2000, 1000],
         [(ask(2, 1, SHOWN), granted(2, 1)), (ask(2, 2, target=9), unknown_object(2, 2, 9)),
          (turned(ask(2, 2)), bad_seal()), (ask(2, 2), ended(2, 2))]),
        ("no reading for a certificate that is refused", "2000 is the reading of the third frame.", plain,
         [1000, 2000, 1000],
         [(ask(2, 1, SHOWN), granted(2, 1)), (ask(2, 2, turned(SHOWN)), refused(2, 2, 0, 3)),
          (ask(2, 2), ended(2, 2))]),
        ("the reading for a journal that is full", "It is taken, and no moment: the third frame has the next.",
         node(limit=1, shards=2, more=[6, 7]), [1000, 2000, 1999],
         [(ask(1, 1), by_anchor(1, shard=1)), (ask(1, 2, target=6), journal_full(1, 2, 1, 1)),
          (ask(2, 1, SHOWN, target=7), granted(2, 1))]),
        ("the reading for an object whose journal is full", "It is taken, and no moment.",
         node(limit=1, shards=2, more=[6]), [1000, 2000, 1999],
         [(ask(1, 1), by_anchor(1, shard=1)), (ask(2, 1), object_full(2, 1, 5, 1)),
          (ask(2, 1, SHOWN, target=6), granted(2, 1))]),
    ]) + ends_of_time()


def ends_of_time():
    plain = node()
    return told([
        ("at the first moment", "A certificate until 1 is live at 0.", plain, [0],
         [(ask(2, 1, handed(until=1)), granted(2, 1, until=1)), (ask(1, 1), by_anchor(1, 2))]),
        ("ended at the first moment", "One until 0 is never live.", plain, [0],
         [(ask(2, 1, handed(until=0)), ended(1, 0, 0))]),
        ("before the last moment, and at it", "One until the last is not live at it; and 0 comes too late.",
         plain, [LAST - 1, LAST, 0],
         [(ask(2, 1, handed(until=LAST)), granted(2, 1, until=LAST)), (ask(2, 2), ended(2, 2, LAST)),
          (ask(1, 1), by_anchor(1, 3))]),
        ("swept at the last moment", "What ended long ago is let go.", plain, [1000, LAST],
         [(ask(2, 1, SHOWN), granted(2, 1)), (ask(2, 2), no_alice(2, 2, 2))]),
    ])


def numbers():
    plain, at = node(), [1000]
    return told([
        ("a number twice", "The second is replayed, and takes an entry.", plain, at,
         [(ask(1, 1), by_anchor(1)), (ask(1, 1), replayed(1, 1, 1)), (ask(1, 2), by_anchor(2, 3, kept=1))]),
        ("equal, lower, and with gaps up to the last", "Numbers rise, and may leave some out.", plain, at,
         [(ask(1, 5), by_anchor(5)), (ask(1, 5), replayed(1, 5, 5)), (ask(1, 4), replayed(1, 4, 5)),
          (ask(1, 6), by_anchor(6, 4, kept=1)), (ask(1, 1000), by_anchor(1000, 5, kept=1)),
          (ask(1, LAST), by_anchor(LAST, 6, kept=1)),
          (ask(1, LAST), replayed(1, LAST, LAST)), (ask(1, 1000), replayed(1, 1000, LAST))]),
        ("number 0", "It is not above the last number, which is 0 at first.", plain, at,
         [(ask(1, 0), replayed(1, 0, 0)), (ask(1, 1), by_anchor(1, 1))]),
        ("each channel by itself", "Channel 2 has numbers of its own.", plain, at,
         [(ask(1, 5), by_anchor(5)), (ask(2, 1), no_alice(2, 1, 2)), (ask(1, 4), replayed(1, 4, 5))]),
        ("what never came to its object takes no number", "Nor an entry.", plain, at,
         [(ask(1, 1, target=9), unknown_object(1, 1, 9)), (ask(1, 1), by_anchor(1))]),
        ("a number that was denied", "It was taken.", plain, at,
         [(ask(2, 1), no_alice(2, 1)), (ask(2, 1), replayed(2, 1, 1))]),
    ])


def held():
    plain, at = node(), [1000]
    return told([
        ("presented once and used again", "The second request presents none.", plain, at,
         [(ask(2, 1, SHOWN), granted(2, 1)), (ask(2, 2), again(2, 2, 2))]),
        ("presented by one who quotes", "The channel holds it, whoever was quoted.", plain, at,
         [(ask(2, 1, SHOWN, quoted=BOB), no_alice(2, 1)), (ask(2, 2), granted(2, 2, 1))]),
        ("presented for another channel", "That has to present it itself.", plain, at,
         [(ask(2, 1, relayed(C4)), no_alice(2, 1)), (ask(4, 1), no_alice(4, 1, 1)),
          (ask(4, 2, relayed(C4)), granted(4, 2, 2))]),
        ("presented with a number that was there", "It is not held.", plain, at,
         [(ask(2, 1), no_alice(2, 1)), (ask(2, 1, SHOWN), replayed(2, 1, 1)), (ask(2, 2), no_alice(2, 2, 2))]),
        ("presented to an object that is not there", "It is not held.", plain, at,
         [(ask(2, 1, SHOWN, target=9), unknown_object(2, 1, 9)), (ask(2, 1), no_alice(2, 1))]),
        ("presented before one that is refused", "It is not held.", plain, at,
         [(ask(2, 1, SHOWN, turned(SHOWN)), refused(2, 1, 1, 3)), (ask(2, 1), no_alice(2, 1))]),
        ("presented where the journal is full", "Nothing is done.", node(limit=1, more=[6]), at,
         [(ask(2, 1), no_alice(2, 1)), (ask(2, 2, SHOWN, target=6), journal_full(2, 2, 0, 1))]),
        ("presented where the object's journal is full", "It is not held.", node(limit=2, more=[6]), at,
         [(ask(2, 1), no_alice(2, 1)), (ask(2, 1), replayed(2, 1, 1)), (ask(2, 2), journal_full(2, 2, 0, 2))]),
        ("presented twice in one request", "It is held, and cited once.", plain, at,
         [(ask(2, 1, SHOWN, SHOWN), granted(2, 1)), (ask(2, 2), again(2, 2, 2))]),
    ])


def kept():
    ten, second, plain = node(keep=10), node(keep=1), node()
    shown = ask(2, 1, SHOWN)
    return told([
        ("kept for ten seconds", "It is gone at the tenth.", ten, [2009, 2010],
         [(shown, ended(1)), (ask(2, 2), no_alice(2, 2, 1))]),
        ("kept for one second", "It is gone at the next.", second, [2000, 2001],
         [(shown, ended(1)), (ask(2, 2), no_alice(2, 2, 1))]),
        ("kept for one second that is not over", "It is still named.", second, [2000],
         [(shown, ended(1)), (ask(2, 2), ended(2, 1))]),
        ("kept for an hour", "As most nodes here keep it.", plain, [5599, 5600],
         [(shown, ended(1)), (ask(2, 2), no_alice(2, 2, 1))]),
        ("kept for a year", "The most.", node(keep=YEAR), [2000 + YEAR - 1, 2000 + YEAR],
         [(shown, ended(1)), (ask(2, 2), no_alice(2, 2, 1))]),
        ("presented too late, and once more", "What is gone can be presented again, and is named.", ten, [2010],
         [(shown, ended(1)), (ask(2, 2), no_alice(2, 2, 1)), (ask(2, 3, SHOWN), ended(3, 2))]),
        ("swept for another channel", "Each entry lets go of what is gone.", ten, [1000, 2010, 1000],
         [(shown, granted(2, 1)), (ask(1, 1), by_anchor(1, 2)), (ask(2, 2), no_alice(2, 2, 4))]),
        ("swept for a number that was there", "That is an entry too.", ten, [1000, 2010, 1000],
         [(shown, granted(2, 1)), (ask(2, 1), replayed(2, 1, 1)), (ask(2, 2), no_alice(2, 2, 3))]),
    ])


def limits():
    at = [1000]
    return told([
        ("a journal of one entry", "It is full, whatever comes; but what has no object comes first.",
         node(limit=1, more=[6]), at,
         [(ask(1, 1), by_anchor(1)), (ask(1, 2), object_full(1, 2, 5, 1)), (ask(1, 2, target=6), journal_full(1, 2, 0, 1)),
          (ask(1, 1, target=6), journal_full(1, 1, 0, 1)), (ask(2, 1), object_full(2, 1, 5, 1)),
          (ask(2, 1, target=6), journal_full(2, 1, 0, 1)), (ask(1, 1, target=9), unknown_object(1, 1, 9))]),
        ("an object's journal of three entries", "Denials take them too; what has no ruling takes none.",
         node(limit=3, shards=2), at,
         [(ask(2, 1), no_alice(2, 1)), (ask(2, 1), replayed(2, 1, 1)), (ask(1, 1), by_anchor(1, shard=1)),
          (ask(2, 2), no_alice(2, 2, 2)), (ask(1, 2), object_full(1, 2, 5, 3))]),
        ("a journal of two entries", "One of them is of the proof that is kept.", node(limit=2), at,
         [(ask(1, 1), by_anchor(1)), (ask(1, 1), journal_full(1, 1, 0, 2)), (ask(1, 2), journal_full(1, 2, 0, 2))]),
        ("a journal of three entries", "The last of them is of a number that was there.", node(limit=3), at,
         [(ask(1, 1), by_anchor(1)), (ask(1, 1), replayed(1, 1, 1)), (ask(1, 2), journal_full(1, 2, 0, 3))]),
        ("each shard's own journal", "Each has its own length.", node(shards=2, limit=1, more=[6, 7]), at,
         [(ask(1, 1), by_anchor(1, shard=1)), (ask(1, 2, target=6), journal_full(1, 2, 1, 1)),
          (ask(2, 1, target=6), no_alice(2, 1)), (ask(2, 2, target=7), journal_full(2, 2, 0, 1)),
          (ask(1, 2, target=7), journal_full(1, 2, 1, 1)), (ask(1, 2, target=6), object_full(1, 2, 6, 1))]),
    ])


def shards():
    two, at = node(shards=2), [3000, 1000]
    return told([
        ("the higher reading at the other shard", "Each shard has its own clock and places.", two, at,
         [(ask(1, 1), by_anchor(1, shard=1)), (ask(2, 1, SHOWN), granted(2, 1)),
          (ask(1, 2), by_anchor(2, 2, shard=1, kept=1)), (ask(3, 1), no_alice(3, 1, 3, 1)),
          (ask(4, 1), no_alice(4, 1, 2)), (ask(2, 2), again(2, 2, 3))]),
        ("the higher reading at its own shard", "3000 is the moment of channel 3, which is of the same shard.",
         two, at,
         [(ask(1, 1), by_anchor(1, shard=1)), (ask(3, 1, relayed(C3)), ended(1, 2, channel=3, text=C3, shard=1)),
          (ask(2, 1, SHOWN), granted(2, 1))]),
        ("sixty-four shards", "Channels 18, 1 and 2 are of the shards of their numbers.",
         node(shards=64, limit=16, machines=True), [1000],
         [(ask(18, 1), no_alice(18, 1, 0, 18)), (ask(1, 1), by_anchor(1, shard=1)),
          (ask(2, 1, SHOWN), granted(2, 1, shard=2)), (ask(2, 2), again(2, 2, 2, 2))]),
        ("three shards", "Channels 3, 15 and 18 are of shard 0, 4 and 1 of shard 1.",
         node(shards=3, machines=True), [1000],
         [(ask(3, 1), no_alice(3, 1)), (ask(15, 1), no_alice(15, 1, 1)), (ask(18, 1), no_alice(18, 1, 2)),
          (ask(4, 1), no_alice(4, 1, 0, 1)), (ask(1, 1), by_anchor(1, 1, 1)), (ask(2, 1), no_alice(2, 1, 0, 2))]),
    ])


def commons():
    with_c1, both = node(commons=[SHOWN]), node(commons=[SHOWN, relayed(C4)])
    bobs, at = node(commons=[relayed(BOBS)]), [1000]
    split = node(shards=2, keep=10, commons=[SHOWN, relayed(C3)])
    return told([
        ("cited, and presented besides", "Who presents what is common does not own it.", with_c1, at,
         [(ask(2, 1), granted(2, 1)), (ask(2, 2, SHOWN), again(2, 2, 2))]),
        ("ended for each of two channels", "Each is told of its own.", both, [3000],
         [(ask(2, 1), ended(1)), (ask(4, 1), ended(1, 1, channel=4, text=C4)), (ask(3, 1), no_alice(3, 1, 2))]),
        ("ended for who is anchored", "Key 1 handed alice on to bob, until 2000.", bobs, [2000],
         [(ask(3, 1), ended(1, channel=3, text=BOBS)), (ask(2, 1), no_alice(2, 1, 1))]),
        ("swept", "What is common is let go as well.", node(keep=10, commons=[SHOWN]), [2009, 2010],
         [(ask(2, 1), ended(1)), (ask(2, 2), no_alice(2, 2, 1))]),
        ("swept at one shard alone", "Each shard has the common ones for itself.", split, [2010, 2009],
         [(ask(2, 1), no_alice(2, 1)), (ask(3, 1), ended(1, channel=3, text=C3, shard=1))]),
        ("the first of two is cited", "And no other.", both, at, [(ask(2, 1), granted(2, 1))]),
        ("the second of two is cited", "And no other.", both, at, [(ask(4, 1), granted(4, 1))]),
        ("cited for who is anchored", "Key 3 is bob's, and bob speaks for alice.", bobs, at,
         [(ask(3, 1), granted(3, 1))]),
        ("cited at the second shard", "Channel 3 is of shard 1.", split, at,
         [(ask(3, 1), granted(3, 1, shard=1))]),
        ("the anchor cites none", "No certificate comes with a proof that has no use for it.", both, at,
         [(ask(1, 1), by_anchor(1))]),
    ])


def idle(serials):
    """The word of key 3 that key 2 speaks for alice: nobody's word for it."""
    return [handed(issuer=3, serial=serial) for serial in serials]


def full():
    first, later = range(1, 17), range(17, 32)
    plain, at = node(), [1000]
    filled = [(ask(2, 1, *idle(first)), no_alice(2, 1)), (ask(2, 2, *idle(later)), no_alice(2, 2, 1))]
    both = node(commons=idle([40]))
    return told([
        ("no more than thirty-two", "What is more is not held, and its number is free. At 5600 all are let go.",
         plain, [1000] * 7 + [5600], filled + [
            (ask(2, 3, *idle([32, 33])), channel_full(2, 3, 31)),
            (ask(2, 3, *idle([31, 32, 32])), no_alice(2, 3, 3)),
            (ask(2, 4, *idle([33])), channel_full(2, 4, 32)),
            (ask(2, 4, *idle(first)), no_alice(2, 4, 5)),
            (ask(2, 4, *idle([33])), replayed(2, 4, 4)),
            (ask(2, 5, *idle([33])), no_alice(2, 5, 7))]),
        ("a hand-off that has no place", "It is not judged by: the channel is full.", plain, at, filled + [
            (ask(2, 3, *idle([32]), SHOWN), channel_full(2, 3, 31)), (ask(2, 3, SHOWN), granted(2, 3, 3)),
            (ask(2, 4), again(2, 4, 5))]),
        ("a common one takes no place", "Nor does one that is held, or one twice.", both, at, filled + [
            (ask(2, 3, *idle([40, 1, 32, 32])), no_alice(2, 3, 2)), (ask(2, 4, *idle([40])), no_alice(2, 4, 3)),
            (ask(2, 5, *idle([41])), channel_full(2, 5, 32))]),
        ("each channel has its own thirty-two", "Channel 4 holds none.", plain, at, filled + [
            (ask(4, 1, *idle(first)), no_alice(4, 1, 2)), (ask(4, 2, *idle(range(17, 33))), no_alice(4, 2, 3)),
            (ask(4, 3, *idle([33])), channel_full(4, 3, 32)), (ask(2, 3, *idle([32])), no_alice(2, 3, 5))]),
    ])


THEMES = [
    ("clocks", "The clock of a shard does not go back.", clocks),
    ("numbers", "The numbers of a channel rise.", numbers),
    ("held", "What was presented is held for its channel.", held),
    ("kept", "What ended is held for as long as the node keeps it.", kept),
    ("limits", "A journal at its limit takes no more.", limits),
    ("shards", "Each shard has its own clock and places.", shards),
    ("commons", "What is held in common serves every channel.", commons),
    ("full", "A channel holds no more than thirty-two certificates.", full),
]
