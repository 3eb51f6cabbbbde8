"""Issuers that are withdrawn: nothing of theirs is held, and nothing that comes later."""
from conversation import Case, Grant, talk
from formats import Fields, anchor_proof, body, early, giving, granted, journal_full, key, key_of, no_right, not_held, object_full, quoting, refused
from formats import replayed, turned, withdrawn_full
from .beginning import CF, LATER
from .nodes import ALICE, BOB, ask, by_anchor, handed, handing, issued, no_alice, node, relayed
from .objects import did, discard, hold, set_list, withdraw
from .shards import granted as by_one

SHOWN, C1 = handed(), handing()
# The clock, where nothing else is said.
AT = [1000]
# 32 others, which speak for nobody of the list.
OTHERS = [handed(issuer=3, serial=each) for each in range(1, 33)]


def told(table):
    return [talk(title, about, file, pairs, clock=AT) for title, about, file, pairs in table]


def behind(number):
    """The place of the Ask of channel 1's withdrawal of this number, where each withdrawal is of a number one higher."""
    return 0 if number == 1 else 3 + 2 * (number - 2)


def many(issuers):
    """Withdrawals of these by channel 1, each granted."""
    return [(withdraw(issuer, number=at), did(at, behind(at), kept=int(at > 1))) for at, issuer in enumerate(issuers, 1)]


def what_goes():
    """What is held when an issuer is withdrawn."""
    plain = node()
    return told([
        ("withdrawn in common", "And the proof that cites it; that of another subject stays.", node(commons=[SHOWN]),
         [(ask(2, 1), by_one(2, 1)), (withdraw(1), did(1, 2)), (ask(2, 2, SHOWN), no_alice(2, 2, 5)),
          (ask(1, 2), by_anchor(2, 6, kept=1))]),
        ("withdrawn where a channel holds it", "Channel 2 presented it.", plain,
         [(ask(2, 1, SHOWN), by_one(2, 1)), (withdraw(1), did(1, 2)), (ask(2, 2), no_alice(2, 2, 5))]),
        ("withdrawn in each shard", "Channel 1 is of shard 1, channel 2 of shard 0.", node(shards=2, commons=[SHOWN]),
         [(ask(2, 1), by_one(2, 1)), (withdraw(1), did(1, shard=1)), (ask(2, 2, SHOWN), no_alice(2, 2, 3))]),
        ("withdrawn where it is held by nobody", "Nothing is removed, and it is granted.", plain,
         [(withdraw(1), did(1)), (ask(2, 1, SHOWN), no_alice(2, 1, 3))]),
        ("withdrawn with no room in the second shard", "Shard 0 withdrew it.", node(shards=2, limit=2),
         [(withdraw(1), journal_full(1, 1, 1, 2)), (ask(2, 1, SHOWN), no_alice(2, 1, 1))]),
        ("withdrawn by a number that was there", "It is not withdrawn.", plain,
         [(ask(1, 1), by_anchor(1)), (withdraw(1), replayed(1, 1, 1)), (ask(2, 1, SHOWN), by_one(2, 1, 3))]),
        ("withdrawn without the right to manage", "It is not withdrawn.", node([(7, ALICE)]),
         [(withdraw(1), no_right(1, 1)), (ask(2, 1, SHOWN), by_one(2, 1, 1))]),
    ]) + [
        talk("withdrawn before what it issued begins", "It never does.", plain,
             [(ask(2, 1, LATER), early(2, 1, CF)), (withdraw(1), did(1, 1)), (ask(2, 2), no_alice(2, 2, 4))], clock=[1499, 1499, 1500]),
        talk("withdrawn after what it issued ended", "It is missing, and ended no more.", node(keep=10),
             [(ask(2, 1, SHOWN), by_one(2, 1)), (withdraw(1), did(1, 2)), (ask(2, 2), no_alice(2, 2, 5))], clock=[1000, 2005]),
    ]


def what_comes():
    """What is presented and held later."""
    plain = node()
    full = [(ask(2, 1, *OTHERS[:16]), no_alice(2, 1, 3)), (ask(2, 2, *OTHERS[16:]), no_alice(2, 2, 4))]
    commons = [(hold(*OTHERS[:16], number=2), did(2, 3, kept=1)), (hold(*OTHERS[16:], number=3), did(3, 5, kept=1))]
    return told([
        ("presented after it", "Twice: it is not held between.", plain,
         [(withdraw(1), did(1)), (ask(2, 1, SHOWN), no_alice(2, 1, 3)), (ask(2, 2, SHOWN), no_alice(2, 2, 4)),
          (ask(2, 3), no_alice(2, 3, 5))]),
        ("presented after it by a channel that holds 32", "It is not added, so the channel is not full.", plain,
         [(withdraw(1), did(1)), *full, (ask(2, 3, SHOWN), no_alice(2, 3, 5))]),
        ("held after it", "Granted, and none is added.", plain,
         [(withdraw(1), did(1)), (hold(SHOWN, number=2), did(2, 3, kept=1)), (ask(2, 1), no_alice(2, 1, 5))]),
        ("held after it where 32 are", "It is not added, so there are not too many.", plain,
         [(withdraw(1), did(1)), *commons, (hold(SHOWN, number=4), did(4, 7, kept=1)), (ask(2, 1), no_alice(2, 1, 9))]),
        ("discarded after it", "No shard holds it.", node(commons=[SHOWN]),
         [(withdraw(1), did(1)), (discard(C1, number=2), not_held(1, 2, C1))]),
        ("withdrawn again", "Granted as before.", node(commons=[SHOWN]),
         [(withdraw(1), did(1)), (withdraw(1, number=2), did(2, 3, kept=1)), (ask(2, 1), no_alice(2, 1, 5))]),
    ])


def whose():
    """Whose certificates are meant."""
    bobs = node([(15, ALICE), (1, BOB)])
    by_quoting = relayed(body(1, key(2), quoting(key(1), BOB), 2000, 1, quoted=BOB))
    of_right = relayed(body(3, key(1), BOB, 2000, 1))
    return told([
        ("another issuer's", "Key 3 says it too, for bob.", bobs,
         [(withdraw(1), did(1)), (ask(2, 1, handed(issuer=3, to=BOB)), Grant(2, 1, 1, entry=1, place=3))]),
        ("an issuer that quotes", "The issuer is key 1, whom it quotes or not.", node([(15, ALICE), (1, quoting(key(1), BOB))]),
         [(ask(2, 1, by_quoting), Grant(2, 1, 1, entry=1)), (withdraw(1), did(1, 2)), (ask(2, 2, by_quoting), no_alice(2, 2, 5))]),
        ("an issuer on the left", "Key 3 says that key 1 speaks for bob.", node([(8, ALICE), (1, BOB)]),
         [(withdraw(1), did(1)), (ask(1, 2, of_right), Grant(1, 2, 1, entry=1, place=3))]),
        ("an issuer that is the channel of who asks", "Its own key and its anchor stay.", node(),
         [(withdraw(1), did(1)), (ask(1, 2), by_anchor(2, 3, kept=1)), (set_list([(15, ALICE)], number=3), did(3, 4, kept=1))]),
        ("issuer 0", "It is a number as any.", node(), [(withdraw(0), did(1)), (ask(2, 1, SHOWN), by_one(2, 1, 3))]),
        ("the highest issuer", "It is a number as any.", node(), [(withdraw(2**32 - 1), did(1)), (ask(2, 1, SHOWN), by_one(2, 1, 3))]),
    ])


def what_stays():
    """What others issued, what was kept for them, and what the relay knows."""
    bobs = node([(15, ALICE), (1, BOB)], more=[6])
    of_three = handed(issuer=3, to=BOB, whom=4)
    full = node(shards=2, limit=2, more=[6])
    by_relay = dict(relay_node=(7, key_of(7)), relay_issuer=[(1, key_of(1))])
    return told([
        ("kept proofs of others", "They are hit as before.", bobs,
         [(ask(2, 1, SHOWN), by_one(2, 1)), (ask(4, 1, of_three), Grant(4, 1, 1, entry=1, place=2, cites=[bytes(handing(4, issuer=3, to=BOB))])),
                (ask(3, 1), granted(3, 1, anchor_proof(3, 30, 1), entry=1, place=4)),
          (withdraw(1), did(1, 6)), (ask(4, 2), Grant(4, 2, 1, entry=1, place=9, kept=1)),
          (ask(3, 2), granted(3, 2, anchor_proof(3, 30, 1), entry=1, place=10, kept=1)), (ask(2, 2), no_alice(2, 2, 11))]),
        ("withdrawn where one who quotes presented it", "The channel holds it, whoever was quoted.", node(),
         [(ask(2, 1, SHOWN, quoted=BOB), no_alice(2, 1)), (withdraw(1), did(1, 1)), (ask(2, 2), no_alice(2, 2, 4))]),
        ("withdrawn with a full journal of the object", "It is not withdrawn.", full,
         [(ask(2, 1), no_alice(2, 1)), (ask(2, 2), no_alice(2, 2, 1)), (withdraw(1), object_full(1, 1, 5, 2)),
                (ask(3, 1, handed(3), target=6), Grant(3, 1, 1, shard=1))]),
        ("withdrawn with a full journal of its shard", "It is not withdrawn.", node(shards=2, limit=2, more=[6]),
         [(ask(1, 1, target=6), by_anchor(1, shard=1)), (withdraw(1, number=2), journal_full(1, 2, 1, 2)), (ask(2, 1, SHOWN), by_one(2, 1))]),
        ("withdrawn, where a channel holds it and it is common", "Both are let go.", node(),
         [(ask(2, 1, SHOWN), by_one(2, 1)), (hold(SHOWN), did(1, 2)), (withdraw(1, number=2), did(2, 5, kept=1)), (discard(C1, number=3), not_held(1, 3, C1)),
          (ask(2, 2), no_alice(2, 2, 9))]),
    ]) + [
        talk("presented after it under its issuer's seal", "The relay knows nothing of it, and reseals.", node(),
             [(withdraw(1), did(1)), (ask(2, 1, issued(1, C1)), no_alice(2, 1, 3))],
             clock=AT, **by_relay),
        talk("presented after it with a turned tag", "It is refused as before.", node(),
             [(withdraw(1), did(1)), (ask(2, 1, turned(SHOWN)), refused(2, 1, 0, 3))], clock=AT),
        talk("fetched after it", "It is not added.", node(), [(withdraw(1), did(1)), (ask(2, 1), no_alice(2, 1, 3))], clock=AT, words=["run", "--pull"],
             fetched=[giving(), giving(SHOWN)]),
    ]


def the_limit():
    """How many may be withdrawn."""
    sixty_four = many(range(100, 164))
    return told([
        ("64 of them, and one more", "The one more is refused; one that is withdrawn already is granted.", node(),
         [*sixty_four, (withdraw(164, number=65), withdrawn_full(1, 65, 0)), (withdraw(100, number=66), did(66, behind(66), kept=1))]),
        ("the one that was refused", "What it issued is held as before.", node(commons=[SHOWN]),
         [*sixty_four, (withdraw(1, number=65), withdrawn_full(1, 65, 0)), (ask(2, 1), by_one(2, 1, behind(66)))]),
        ("the 64th", "What it issued is held no more.", node(commons=[SHOWN]),
         [*many([*range(100, 163), 1]), (ask(2, 1), no_alice(2, 1, behind(65)))]),
        ("refused in each of two shards", "Shard 0 comes first, and shard 1 is not stepped.", node(shards=2),
         [*[(frame, at_shard(number)) for number, (frame, _) in enumerate(sixty_four, 1)],
          (withdraw(164, number=65), withdrawn_full(1, 65, 0)), (ask(1, 66), by_anchor(66, behind(65) + 1, 1, kept=1))]),
    ])


def at_shard(number):
    """The grant of the same by channel 1 of shard 1."""
    return did(number, behind(number), shard=1, kept=int(number > 1))


def withdrawn():
    return what_goes() + what_comes() + whose() + what_stays() + the_limit()


def lines(*texts):
    return [Fields("".join(f"{each}\n" for each in texts).encode("ascii"))]


def audited():
    """Journals with a withdrawal, as text."""
    asks = "shard 0 entry {} ask channel {} seq {} reading 1000 certificates 0 right {} -> {}".format
    lease = "shard 0 entry {} keep ask {} entry 0 lease {} -> kept".format
    filled = [line for at in range(1, 65) for line in
              ([asks(behind(at), 1, at, "manage", "miss" if at == 1 else "hit 0")] + ([lease(1, 0, 2**64 - 1)] if at == 1 else [])
               + [f"shard 0 entry {behind(at) + (2 if at == 1 else 1)} withdraw {99 + at} -> removed 0"])]
    last = [asks(129, 1, 65, "manage", "hit 0"), "shard 0 entry 130 withdraw 164 -> full 64"]
    ruled = [f"object 5 entry {at - 1} ask 0/{behind(at)} withdraw {99 + at} -> granted 0" for at in range(1, 66)]
    about = "Each copy counts, and each step is an entry."
    return [
        Case("a withdrawal, audited", about, 0, ("audit",), file=node(commons=[SHOWN]), clock=AT, input=[ask(2, 1), withdraw(1)],
             output=lines(asks(0, 2, 1, "read", "miss"), lease(1, 0, 2000), asks(2, 1, 1, "manage", "miss"), lease(3, 2, 2**64 - 1),
                          "shard 0 entry 4 withdraw 1 -> removed 1", "object 5 entry 0 ask 0/0 read -> granted 0",
                          "object 5 entry 1 ask 0/2 withdraw 1 -> granted 0")),
        Case("a withdrawal of what is own and of what is common, audited", about, 0, ("audit",), file=node(commons=[SHOWN]), clock=AT,
             input=[ask(2, 1, handed(serial=2)), withdraw(1)],
             output=lines(asks(0, 2, 1, "read", "miss").replace("certificates 0", "certificates 1"), lease(1, 0, 2000),
                          asks(2, 1, 1, "manage", "miss"), lease(3, 2, 2**64 - 1), "shard 0 entry 4 withdraw 1 -> removed 2",
                          "object 5 entry 0 ask 0/0 read -> granted 0", "object 5 entry 1 ask 0/2 withdraw 1 -> granted 0")),
        Case("a withdrawal in two shards, audited", "Shard 0 holds what channel 2 presented, shard 1 nothing.", 0, ("audit",),
             file=node(shards=2), clock=AT, input=[ask(2, 1, SHOWN), withdraw(1)],
             output=lines(asks(0, 2, 1, "read", "miss").replace("certificates 0", "certificates 1"), lease(1, 0, 2000),
                          "shard 0 entry 2 withdraw 1 -> removed 1",
                          *(each.replace("shard 0", "shard 1") for each in (asks(0, 1, 1, "manage", "miss"), lease(1, 0, 2**64 - 1))),
                          "shard 1 entry 2 withdraw 1 -> removed 0", "object 5 entry 0 ask 0/0 read -> granted 0",
                          "object 5 entry 1 ask 1/0 withdraw 1 -> granted 0")),
        Case("a withdrawal that is refused, audited", "It is granted all the same.", 0, ("audit",), file=node(), clock=AT,
             input=[withdraw(99 + at, number=at) for at in range(1, 66)], output=lines(*filled, *last, *ruled)),
    ]


THEMES = [
    ("withdrawn", "Issuers that are withdrawn, and what they issued.", withdrawn),
    ("withdrawn_lines", "Withdrawals in journals.", audited),
]
