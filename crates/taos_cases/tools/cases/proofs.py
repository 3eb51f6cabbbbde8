"""Proofs that are kept: a later request of the same subject for the same principal is granted by one of them."""
from conversation import Grant, talk
from formats import LAST, Fields, anchor_proof, body, channel_full, expired, granted, in_role, journal_full
from formats import key, key_of, missing, no_right, opening, proof_of, quoting, replayed, u8, u16
from .logins import FOR_LOGIN, RELAYED, opened
from .nodes import ALICE, ANCHORS, BOB, CHANNELS, NODE, ask, by_anchor, handed, handing, no_alice, node, relayed
from .shards import again, ended, granted as by_one, told

SHOWN, LATER = handed(), handed(until=3000)
OTHER = b"other"


def of_objects(*lists, limit=16_384):
    """The node with an object from 5 on for each of these lists."""
    objects = [(number, OTHER, entries) for number, entries in enumerate(lists, 5)]
    return opening(NODE, key_of(NODE), 1, 3600, limit, CHANNELS, ANCHORS, [], objects)


def by_alice(number, place=0, entry=0, kept=0):
    """Channel 1 is granted by anchor 0, and reads the other content."""
    return granted(1, number, anchor_proof(1, 10, 0), entry=entry, place=place, kept=kept, content=OTHER)


def leases():
    plain = node()
    boot, of_channel, login, _ = opened(RELAYED[:4])
    session = body(14, key(15), key(14), 3000, 1)
    chain = [boot, of_channel, login, relayed(session)]
    whole = dict(quoted=BOB)
    return told([
        ("until a second before it ends", "A proof is kept for as long as each of its certificates is live.", plain,
         [1000, 1999, 2000], [(ask(2, 1, SHOWN), by_one(2, 1)), (ask(2, 2), again(2, 2, 2)), (ask(2, 3), ended(3, 3))]),
        ("the first of four to end", "Three of the login's certificates are live until 5000.",
         node(FOR_LOGIN, machines=True), [1000, 2999, 3000],
         [(ask(15, 1, *chain, **whole), Grant(15, 1, 4, until=3000)),
          (ask(15, 2, **whole), Grant(15, 2, 4, place=2, kept=1, until=3000)),
          (ask(15, 3, **whole), expired(15, 3, session, place=3))]),
        ("a later certificate", "The proof that is kept does not cite it. When that has ended, another one is made.",
         plain, [1000, 1500, 2000, 2500, 3000],
         [(ask(2, 1, SHOWN), by_one(2, 1)), (ask(2, 2, LATER), again(2, 2, 2)),
          (ask(2, 3), by_one(2, 3, 3, until=3000)), (ask(2, 4), again(2, 4, 5)), (ask(2, 5), ended(5, 6, 3000))]),
        ("without a certificate", "It ends at the last moment alone. There a proof takes an entry, and is not kept.",
         plain, [0, LAST - 1, LAST],
         [(ask(1, 1), by_anchor(1)), (ask(1, 2), by_anchor(2, 2, kept=1)), (ask(1, 3), by_anchor(3, 3)),
          (ask(1, 4), by_anchor(4, 5))]),
        ("a clock that goes back", "It ended at another channel's request.", plain, [1000, 2000, 1000],
         [(ask(2, 1, SHOWN), by_one(2, 1)), (ask(1, 1), by_anchor(1, 2)), (ask(2, 2), ended(2, 4))]),
    ])


def keys():
    """Whom a proof is kept for, and of what."""
    plain, at, named = node(), [1000], quoting(key(1), BOB)
    both = node([(1, named), (1, ALICE)])
    commons = node(commons=[SHOWN, handed(4)])
    own, first = of_objects([(1, key(1)), (1, ALICE)], [(1, ALICE)]), Fields(u8(1), u16(0), u16(0))
    by_itself = dict(proof=proof_of([key(1)], [first]), content=OTHER)
    return told([
        ("presented with each request", "The second is granted by the proof of the first.", plain, at,
         [(ask(2, 1, SHOWN), by_one(2, 1)), (ask(2, 2, SHOWN), again(2, 2, 2)), (ask(2, 3), again(2, 3, 3))]),
        ("alone, and quoting", "They are two subjects.", both, at,
         [(ask(1, 1, quoted=BOB), Grant(1, 1, 0)), (ask(1, 2), by_anchor(2, 2, entry=1)),
          (ask(1, 3, quoted=BOB), Grant(1, 3, 0, place=4, kept=1)), (ask(1, 4), by_anchor(4, 5, entry=1, kept=1)),
          (ask(1, 5, quoted=ALICE), missing(1, 5, BOB, place=6))]),
        ("of two channels", "Each has proofs of its own.", commons, at,
         [(ask(2, 1), by_one(2, 1)), (ask(4, 1), by_one(4, 1, 2)), (ask(2, 2), again(2, 2, 4)),
          (ask(4, 2), again(4, 2, 5)), (ask(3, 1), no_alice(3, 1, 6))]),
        ("on two lists", "A proof is kept for a principal, wherever that is listed.",
         of_objects([(1, ALICE)], [(1, BOB), (1, ALICE)]), at,
         [(ask(1, 1), by_alice(1)), (ask(1, 2, target=6), by_alice(2, 2, 1, kept=1))]),
        ("two entries of one principal", "The first with the right is granted.",
         of_objects([(2, ALICE), (1, ALICE), (1, ALICE)]), at,
         [(ask(1, 1), by_alice(1, entry=1)), (ask(1, 2), by_alice(2, 2, 1, kept=1))]),
        ("an entry behind one that is derivable", "The first for which a proof is kept is granted.", own, at,
         [(ask(1, 1, target=6), by_alice(1)), (ask(1, 2), by_alice(2, 2, 1, kept=1))]),
        ("an entry before one that is kept too", "The first for which a proof is kept is granted.", own, at,
         [(ask(1, 1), granted(1, 1, **by_itself)), (ask(1, 2, target=6), by_alice(2, 2)),
          (ask(1, 3), granted(1, 3, place=4, kept=1, **by_itself))]),
        ("on a list without the right", "A proof that is kept is no right.", of_objects([(1, ALICE)], [(14, ALICE)]),
         at, [(ask(1, 1), by_alice(1)), (ask(1, 2, target=6), no_right(1, 2, place=2))]),
        ("a number that was granted again", "It is taken.", plain, at,
         [(ask(1, 1), by_anchor(1)), (ask(1, 2), by_anchor(2, 2, kept=1)), (ask(1, 2), replayed(1, 2, 2)),
          (ask(1, 3), by_anchor(3, 4, kept=1))]),
    ])


def serials(first, last):
    return [handed(serial=serial) for serial in range(first, last + 1)]


def adopted(number, role, place, kept=0):
    """Channel 1 adopts a role: any key may."""
    proof = proof_of([key(1), Fields(u8(5), u16(0), bytes(3) + u8(role))], [Fields(u8(8), u16(0), u16(1))])
    return granted(1, number, proof, place=place, kept=kept, content=OTHER)


def many():
    """Sixty-five lists, each for another role of key 1; object n + 4 is for role n."""
    file = of_objects(*[[(1, in_role(key(1), role))] for role in range(1, 66)])
    roles = [*range(1, 65), 1, 65, 1, 3, 2, 4]
    kept = [0] * 64 + [1, 0, 1, 1, 0, 0]
    places = [sum(2 - each for each in kept[:at]) for at in range(len(kept))]
    pairs = [(ask(1, number, target=role + 4), adopted(number, role, place, again_kept))
             for number, (role, place, again_kept) in enumerate(zip(roles, places, kept), 1)]
    return talk("sixty-five proofs", "Of 64 the one that was used least lately goes: role 2, since role 1 was asked for"
                " again. Then it is role 4, since 3 was.", file, pairs, clock=[1000])


def rooms():
    at = [1000]
    return told([
        ("a journal with no room for the proof", "The request is granted all the same.", node(limit=3), at,
         [(ask(1, 1), by_anchor(1)), (ask(2, 1, SHOWN), by_one(2, 1, 2)), (ask(2, 2), journal_full(2, 2, 0, 3))]),
        ("a journal whose last entry is granted again", "It takes one entry.", node(limit=3), at,
         [(ask(1, 1), by_anchor(1)), (ask(1, 2), by_anchor(2, 2, kept=1)), (ask(1, 3), journal_full(1, 3, 0, 3))]),
        ("thirty-two certificates", "One more is refused, though a proof is kept. One that is held may come again.",
         node(), at,
         [(ask(2, 1, *serials(1, 16)), by_one(2, 1)), (ask(2, 2, *serials(17, 32)), again(2, 2, 2)),
          (ask(2, 3, *serials(33, 33)), channel_full(2, 3, 32)), (ask(2, 3, *serials(1, 1)), again(2, 3, 4))]),
    ]) + [many()]


THEMES = [
    ("leases", "A proof is kept until the first of its certificates ends.", leases),
    ("proofs", "A subject is granted again by a proof that is kept.", keys),
    ("rooms", "How many proofs are kept, and what a full journal is to them.", rooms),
]
