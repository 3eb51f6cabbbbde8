"""What operations do to objects and to shards, by who may ask for them."""
from conversation import Grant, talk
from formats import DISCARD, FORGET, HOLD, SET_LIST, SWEEP, WITHDRAW, WRITE, anchor_proof, commons_full, digest, expired, frame
from formats import granted, journal_full, key, list_of, missing, no_right, not_held, object_full, replayed, request
from formats import same_proof, u16, u32, unknown_object
from .nodes import ALICE, BOB, CHAIN_16, FOR_ALICE, NODES_16, ask, by_anchor, handed, handing, no_alice, node
from .shards import again, granted as by_one, told

LARGE = bytes(range(256)) * 16
SHOWN, C1 = handed(), handing()
AT = [1000]
EACH = [(15, key(each)) for each in (1, 2, 3, 4)]


def asked(operation, *fields, channel=1, number=1, target=5, certificates=()):
    """The frame of a request."""
    return frame(request(channel, number, operation, target, fields, certificates))


def write(content, **whole):
    return asked(WRITE, u16(len(content)), content, **whole)


def set_list(entries, **whole):
    return asked(SET_LIST, list_of(entries), **whole)


def hold(*certificates, **whole):
    return asked(HOLD, certificates=certificates, **whole)


def discard(text, **whole):
    return asked(DISCARD, digest(text), **whole)


def forget(whom, **whole):
    return asked(FORGET, u32(whom), **whole)


def sweep(**whole):
    return asked(SWEEP, **whole)


def withdraw(issuer, **whole):
    return asked(WITHDRAW, u32(issuer), **whole)


def did(number, place=0, shard=0, kept=0, entry=0, content=b""):
    """Channel 1 is granted by anchor 0; no content comes with what is done."""
    return granted(1, number, anchor_proof(1, 10, 0), entry=entry, shard=shard, place=place, kept=kept, content=content)


def by_key(channel, number, entry, place=0, shard=0, kept=0, content=b""):
    """A channel whose own key is listed is granted."""
    proof = same_proof(key(channel))
    return granted(channel, number, proof, entry=entry, shard=shard, place=place, kept=kept, content=content)


def serials(first, last):
    return [handed(serial=each) for each in range(first, last + 1)]


# The name of an operation, and its frame by a channel and a number.
OPERATIONS = [
    ("a Write of `new`", lambda **whole: write(b"new", **whole)),
    ("a Write of no bytes", lambda **whole: write(b"", **whole)),
    ("a Write of 4,096 bytes", lambda **whole: write(LARGE, **whole)),
    ("a SetList of no entry", lambda **whole: set_list([], **whole)),
    ("a SetList of eight entries", lambda **whole: set_list([(15, ALICE)] * 8, **whole)),
    ("a SetList of 16 levels", lambda **whole: set_list([(1, CHAIN_16)], **whole)),
    ("a SetList of 16 nodes", lambda **whole: set_list([(1, NODES_16)], **whole)),
    ("a Hold", lambda **whole: hold(**whole)),
    ("a Forget of channel 2", lambda **whole: forget(2, **whole)),
    ("a Sweep", lambda **whole: sweep(**whole)),
    ("a Discard", lambda **whole: discard(C1, **whole)),
    ("a Withdraw of key 9", lambda **whole: withdraw(9, **whole)),
]


def operations():
    """Each granted, denied, without an object and replayed."""
    hers = [(15, key(1)), (1, key(2))]
    cases = told([(title, "It is granted, and gives nothing.", node(commons=[SHOWN]), AT, [(make(), did(1))])
                  for title, make in OPERATIONS])
    cases += told([(f"{title} of object 6", "There is none: nothing is asked.", node(), AT,
                    [(make(target=6), unknown_object(1, 1, 6)), (ask(1, 1), by_anchor(1))])
                   for title, make in OPERATIONS])
    cases += told([(f"{title} that is denied", "Nothing changed: content, list and what is held.", node(hers), AT,
                    [(make(channel=2), missing(2, 1, key(1))), (ask(2, 2), by_key(2, 2, 1, 1, content=b"hello")),
                     (ask(1, 1), by_key(1, 1, 0, 3, content=b"hello"))]) for title, make in OPERATIONS])
    cases += told([(f"{title} that is replayed", "Its number was there: nothing is done.", node(), AT,
                    [(ask(1, 1), by_anchor(1)), (make(), replayed(1, 1, 1)), (ask(1, 2), by_anchor(2, 3, kept=1))])
                   for title, make in OPERATIONS])
    return cases


def writes():
    plain = node()
    two = node(EACH, more=[6])
    return told([
        ("written, then read", "Channel 2 reads what channel 1 wrote.", plain, AT,
         [(write(b"new"), did(1)), (ask(2, 1, SHOWN), Grant(2, 1, 1, place=2, content=b"new"))]),
        ("written twice", "The last counts.", plain, AT,
         [(write(b"new"), did(1)), (write(b"newer", number=2), did(2, 2, kept=1)),
          (ask(1, 3), did(3, 3, kept=1, content=b"newer"))]),
        ("emptied", "A content of no bytes is one.", plain, AT,
         [(write(b""), did(1)), (ask(1, 2), did(2, 2, kept=1))]),
        ("4,096 bytes", "The longest content.", plain, AT,
         [(write(LARGE), did(1)), (ask(1, 2), did(2, 2, kept=1, content=LARGE))]),
        ("the right to write alone", "It does not read.", node([(2, ALICE)]), AT,
         [(write(b"new"), did(1)), (ask(1, 2), no_right(1, 2, place=2))]),
        ("one object written, the other read", "Each has its own content.", two, AT,
         [(write(b"new", target=5), by_key(1, 1, 0)),
          (ask(1, 2, target=6), by_key(1, 2, 0, 2, kept=1, content=b"hello")),
          (ask(1, 3, target=5), by_key(1, 3, 0, 3, kept=1, content=b"new"))]),
        ("a proof that was made for another right", "It is kept for who asks and whom the entry names.", plain, AT,
         [(ask(1, 1), by_anchor(1)), (write(b"new", number=2), did(2, 2, kept=1))]),
    ])


def lists():
    bobs, plain = [(1, BOB)], node()
    return told([
        ("the list given to bob", "Who gave it may not read it any more.", plain, AT,
         [(set_list(bobs), did(1)), (ask(1, 2), missing(1, 2, BOB, place=2)),
          (ask(3, 1), granted(3, 1, anchor_proof(3, 30, 1), place=3))]),
        ("the list without the right to set it", "Who set it may not set it again; but may read.", plain, AT,
         [(set_list([(1, ALICE)]), did(1)), (set_list(FOR_ALICE, number=2), no_right(1, 2, place=2)),
          (ask(1, 3), by_anchor(3, 3, kept=1))]),
        ("eight entries", "The last of them is of who asks.", plain, AT,
         [(set_list([(1, BOB)] * 7 + [(1, ALICE)]), did(1)), (ask(1, 2), by_anchor(2, 2, entry=7, kept=1))]),
        ("no entry", "Nobody may do anything from then on.", plain, AT,
         [(set_list([]), did(1)), (ask(1, 2), no_right(1, 2, place=2)),
          (set_list(FOR_ALICE, number=3), no_right(1, 3, place=3))]),
        ("one list set, the other object's kept", "Each has its own.", node(more=[6]), AT,
         [(set_list([]), did(1)), (ask(1, 2, target=6), by_anchor(2, 2, kept=1))]),
    ])


def held_in_common():
    two = node(EACH, shards=2)
    plain = node()
    return told([
        ("held for every channel", "Channel 2 speaks for alice by what channel 1 had held.", plain, AT,
         [(hold(SHOWN), did(1)), (ask(2, 1), by_one(2, 1, 3))]),
        ("held in each shard", "Channel 1 is of shard 1, channel 2 of shard 0.", node(shards=2), AT,
         [(hold(SHOWN), did(1, shard=1)), (ask(2, 1), by_one(2, 1, 1))]),
        ("discarded in common", "And the proof that cites it.", node(commons=[SHOWN]), AT,
         [(ask(2, 1), by_one(2, 1)), (discard(C1), did(1, 2)), (ask(2, 2), no_alice(2, 2, 5)),
          (discard(C1, number=2), not_held(1, 2, C1))]),
        ("discarded where one shard holds it", "Channel 2 presented it to shard 0.", node(shards=2), AT,
         [(ask(2, 1, SHOWN), by_one(2, 1)), (discard(C1), did(1, shard=1)), (ask(2, 2), no_alice(2, 2, 3)),
          (discard(C1, number=2), not_held(1, 2, C1))]),
        ("discarded where the last shard holds it", "Channel 3 presented it to shard 1.", two, AT,
         [(ask(3, 1, SHOWN), by_key(3, 1, 2, shard=1, content=b"hello")), (discard(C1), by_key(1, 1, 0, 2, 1)),
          (discard(C1, number=2), not_held(1, 2, C1))]),
        ("forgotten", "The channel's own are let go, and no other channel's.", plain, AT,
         [(ask(2, 1, SHOWN), by_one(2, 1)), (forget(4), did(1, 2)), (ask(2, 2), again(2, 2, 5)),
          (forget(2, number=2), did(2, 6, kept=1)), (ask(2, 3), no_alice(2, 3, 8))]),
        ("forgotten at its own shard", "Channel 2 is of shard 0, and has its entry there.", node(shards=2), AT,
         [(ask(2, 1, SHOWN), by_one(2, 1)), (forget(2), did(1, shard=1)), (ask(2, 2), no_alice(2, 2, 3)),
          (ask(1, 2), by_anchor(2, 2, 1, kept=1))]),
        ("swept at the edge", "What ended at 2000 is kept for ten seconds.",
         node(keep=10), [1000, 2009, 2009, 2010, 2010],
         [(ask(2, 1, SHOWN), by_one(2, 1)), (sweep(), did(1, 2)), (ask(2, 2), expired(2, 2, C1, place=5)),
          (sweep(number=2), did(2, 6, kept=1)), (ask(2, 3), no_alice(2, 3, 8))]),
        ("swept in each shard", "Channel 2 is of shard 0.", node(shards=2, keep=10), [1000, 2010, 1000],
         [(ask(2, 1, SHOWN), by_one(2, 1)), (sweep(), did(1, shard=1)), (ask(2, 2), no_alice(2, 2, 3))]),
    ]) + full_commons()


def full_commons():
    plain = node(EACH)
    filled = [(hold(*serials(1, 16)), by_key(1, 1, 0)), (hold(*serials(17, 32), number=2), by_key(1, 2, 0, 3, kept=1))]
    # The channels are of shard 1: their Asks stand there, and what is held in both.
    both = [(hold(*serials(1, 16)), by_key(1, 1, 0, shard=1)),
            (hold(*serials(17, 32), number=2), by_key(1, 2, 0, 3, 1, kept=1))]
    return told([
        ("no more than thirty-two in common", "It was granted; and once one is let go there is room.",
         plain, AT, filled + [
            (hold(*serials(33, 33), channel=3), commons_full(3, 1, 0)),
            (hold(*serials(1, 1), number=3), by_key(1, 3, 0, 8, kept=1)),
            (discard(handing(serial=1), number=4), by_key(1, 4, 0, 10, kept=1)),
            (hold(*serials(33, 33), channel=3, number=2), by_key(3, 2, 2, 12, kept=1))]),
        ("no room in the second of two shards", "Shard 0 was swept by an Ask of channel 2; shard 1 was not.",
         node(EACH, shards=2, keep=10), [1000, 1000, 2010, 1000], both + [
            (ask(2, 1), by_key(2, 1, 1, 2, content=b"hello")),
            (hold(*serials(33, 33), channel=3), commons_full(3, 1, 1)),
            (hold(*serials(34, 34), channel=2, number=2), commons_full(2, 2, 1))]),
        ("forgotten and swept beside what is common", "Forget lets go of the channel's own alone.",
         plain, AT, filled + [
            (forget(1, number=3), by_key(1, 3, 0, 5, kept=1)), (sweep(number=4), by_key(1, 4, 0, 7)),
            (hold(*serials(33, 33), channel=3), commons_full(3, 1, 0))]),
    ])


def room():
    one = node(limit=1, more=[6])
    return told([
        ("an object's journal before the shard's", "Both are full; and object 6 is not.", one, AT,
         [(write(b"new"), did(1)), (ask(1, 2), object_full(1, 2, 5, 1)),
          (ask(1, 2, target=6), journal_full(1, 2, 0, 1))]),
        ("a Write that has the last entry", "It is done, and cannot be read any more.", node(limit=2, more=[6]), AT,
         [(write(b"new"), did(1)), (write(b"more", number=2), journal_full(1, 2, 0, 2))]),
        ("a Hold with no room for its step", "It is granted, and not done.", node(limit=2), AT,
         [(hold(SHOWN), journal_full(1, 1, 0, 2))]),
        ("a Hold with no room for its proof either", "It is granted, and not done.", node(limit=1), AT,
         [(hold(SHOWN), journal_full(1, 1, 0, 1))]),
        ("a Sweep with no room in the second shard", "Shard 0 has one entry of it.", node(shards=2, limit=2), AT,
         [(sweep(), journal_full(1, 1, 1, 2)), (ask(2, 1), no_alice(2, 1, 1))]),
        ("a Forget with no room for its step", "Channel 3 is of the shard of who asks.", node(shards=2, limit=2), AT,
         [(forget(3), journal_full(1, 1, 1, 2)), (ask(2, 1), no_alice(2, 1))]),
        ("an entry for what is denied", "It takes the object's last.", node([(1, ALICE)], limit=1, shards=2), AT,
         [(write(b"new"), no_right(1, 1, shard=1)), (ask(2, 1), object_full(2, 1, 5, 1))]),
    ])


THEMES = [
    ("operations", "Each operation granted, denied, without an object and with a number that was there.", operations),
    ("writes", "What is written is read.", writes),
    ("lists", "Who sets a list decides who may do what from then on.", lists),
    ("commons_held", "What is held in common, discarded, forgotten and swept.", held_in_common),
    ("object_room", "Journals of objects and shards at their limits.", room),
]
