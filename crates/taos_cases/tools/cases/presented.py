"""What is denied, and by which link."""
from conversation import Grant, talk
from formats import Fields, acting_for, body, both, expired, in_role, key, key_of, malformed, missing
from formats import no_right, quoting, refused, turned
from .logins import A, FOR_LOGIN, RELAYED, ROLE_ONE, opened
from .nodes import ALICE, BOB, CHAIN_16, FOR_ALICE, WS1, ask, handed, handing, issued, no_alice, node, relayed

ENDED = 3000
FIRST = relayed(handing())


def word(issuer, whom, of, until, serial):
    """That one key speaks for another, or for a name."""
    return body(issuer, key(whom), of, until, serial)


def denials():
    boot, of_channel, login, session = opened(RELAYED[:4])
    third = [word(8, 2, key(8), 2700, 4), word(2, 9, key(2), 2900, 2), word(1, 8, ALICE, 2800, 3)]
    idle = word(2, 9, key(2), 2500, 2)
    quoted, sixteen = dict(quoted=BOB), [(1, CHAIN_16)]
    table = [
        ("a hand-off by the wrong key", None, 1000, ask(2, 1, handed(issuer=3)), no_alice(2, 1)),
        ("one who is quoted does not read for the channel", None, 1000, ask(1, 1, **quoted), no_alice(1, 1)),
        ("a login under the relay's key without the session", FOR_LOGIN, 1000,
         ask(15, 1, boot, of_channel, login, **quoted), missing(15, 1, A)),
        ("a login under the relay's key without the boot", FOR_LOGIN, 1000,
         ask(15, 1, of_channel, login, session, **quoted), missing(15, 1, WS1)),
        ("a role is not its holder", [(1, BOB)], 1000, ask(4, 1, *opened([ROLE_ONE])), missing(4, 1, BOB)),
        ("a certificate with a turned tag", None, 1000, ask(2, 1, turned(FIRST)), refused(2, 1, 0, 3)),
        ("a certificate of one byte", None, 1000, ask(2, 1, b"\2"), refused(2, 1, 0, 1)),
        ("the second certificate, of an unknown object", None, 1000, ask(2, 1, FIRST, turned(FIRST), target=6),
         refused(2, 1, 1, 3)),
        ("one under its issuer's own seal, behind one that opens to none", None, 1000,
         ask(2, 1, b"\2", issued(1, handing())), refused(2, 1, 0, 1)),
        ("the second and the third of three that ended, together", None, ENDED,
         ask(2, 1, *map(relayed, third)), expired(2, 1, third[0])),
        ("of two with one end that with the lesser digest", None, ENDED, ask(2, 1, FIRST, handed(serial=2)),
         expired(2, 1, handing(serial=2))),
        ("the other way round, the same", None, ENDED, ask(2, 1, handed(serial=2), FIRST),
         expired(2, 1, handing(serial=2))),
        ("of two with two ends the later one", None, ENDED, ask(2, 1, FIRST, handed(until=2001)),
         expired(2, 1, handing(until=2001))),
        ("one that ended, twice", None, ENDED, ask(2, 1, FIRST, FIRST), expired(2, 1, handing())),
        ("one that ended behind one that is live", None, 2000, ask(2, 1, handed(until=2001), FIRST),
         Grant(2, 1, 1)),
        ("the innermost of sixteen", sixteen, 1000, ask(2, 1), no_alice(2, 1)),
        ("the whole of sixteen, which a part of the subject reaches", sixteen, 1000, ask(1, 1, **quoted),
         missing(1, 1, CHAIN_16)),
        ("the right part, where the left is reached", [(1, quoting(ALICE, BOB))], 1000, ask(1, 1),
         missing(1, 1, BOB)),
        ("the first entry with the right", [(2, ALICE), (1, BOB), (1, WS1)], 1000, ask(1, 1),
         missing(1, 1, BOB, entry=1)),
    ]
    about = "A request of object 5, and what it is answered."
    cases = [talk(title, about, node(entries or FOR_ALICE, machines=True), [(asked, reply)], clock=[moment])
             for title, entries, moment, asked, reply in table]
    asked = ask(2, 1, FIRST, relayed(idle))
    for moment, reply in ((1999, Grant(2, 1, 1)), (2000, expired(2, 1, handing())),
                          (3000, expired(2, 1, handing()))):
        cases += [talk(f"dead, and another that was not needed, at {moment}", "It is named where it was needed.",
                       node(), [(asked, reply)], clock=[moment])]
    return cases


def links():
    """The walk of a missing link, and which entry an expired one names."""
    pair, swapped = both(ALICE, BOB), quoting(BOB, ALICE)
    inner = acting_for(pair, WS1)
    shown, quoted = [FIRST], dict(quoted=BOB)
    # A name, what it shows, the list, the moment, the request and its reply.
    table = [
        ("both operands are missing", "The walk goes left first.", [(1, pair)], 1000, ask(2, 1), no_alice(2, 1)),
        ("both operands are missing, the other way round", "The walk goes left first.", [(1, both(BOB, ALICE))],
         1000, ask(2, 1), missing(2, 1, BOB)),
        ("the left operand is missing", "The right one is reached.", [(1, both(BOB, ALICE))], 1000, ask(1, 1),
         missing(1, 1, BOB)),
        ("the right operand is missing", "The left one is reached.", [(1, pair)], 1000, ask(1, 1),
         missing(1, 1, BOB)),
        ("both operands are reached, and not the whole", "Quoting does not turn round: the entry is named.",
         [(1, swapped)], 1000, ask(1, 1, **quoted), missing(1, 1, swapped)),
        ("both operands are reached, and nobody acts for", "Quoting alone is no login: the entry is named.",
         [(1, acting_for(ALICE, BOB))], 1000, ask(1, 1, **quoted), missing(1, 1, acting_for(ALICE, BOB))),
        ("a compound on the left, of which both operands are reached", "It is named, not the missing right one.",
         [(1, inner)], 1000, ask(1, 1, **quoted), missing(1, 1, pair)),
        ("a compound on the right, of which the right operand is missing", "The walk goes down twice.",
         [(1, quoting(ALICE, both(BOB, WS1)))], 1000, ask(1, 1, **quoted), missing(1, 1, WS1)),
        ("a role of one who is missing", "The role is no part: who has it is named.", [(1, in_role(BOB, 2))],
         1000, ask(1, 1), missing(1, 1, BOB)),
        ("a role of one who is reached", "Anybody may adopt a role.", [(1, in_role(ALICE, 2))], 1000, ask(1, 1),
         Grant(1, 1, 0)),
        ("a key that is not the subject's", "A key is its own part.", [(1, key(3))], 1000, ask(1, 1),
         missing(1, 1, key(3))),
        ("another key that quotes the same", "The quoted part is reached.",
         [(1, quoting(key(3), BOB))], 1000, ask(1, 1, **quoted), missing(1, 1, key(3))),
        ("reached by one that ended", "What ended reaches a part, and the other one is named.", [(1, pair)], 2000,
         ask(2, 1, *shown), missing(2, 1, BOB)),
        ("ended, for the second entry with the right", "The first is not derivable by any.",
         [(1, BOB), (1, ALICE)],
         2000, ask(2, 1, *shown), expired(2, 1, handing(), entry=1)),
        ("ended, and the first entry may not read", "The first entry with the right is the second.",
         [(14, ALICE), (1, ALICE)], 2000, ask(2, 1, *shown), expired(2, 1, handing(), entry=1)),
        ("ended, and the right is nowhere", "No entry has the right: that comes first.", [(14, ALICE)], 2000,
         ask(2, 1, *shown), no_right(2, 1)),
        ("a hand-off to a hand-off", "Two certificates in a row.", [(1, ALICE)], 1000,
         ask(2, 1, relayed(word(3, 2, key(3), 5000, 1)), relayed(word(1, 3, ALICE, 5000, 1))), Grant(2, 1, 2)),
        ("the one that ended of two in a row", "The live one is not named.", [(1, ALICE)], 2000,
         ask(2, 1, relayed(word(3, 2, key(3), 5000, 1)), relayed(word(1, 3, ALICE, 2000, 1))),
         expired(2, 1, word(1, 3, ALICE, 2000, 1))),
        ("both of one name by two keys", "Each key may hand on its own.", [(1, pair)], 1000,
         ask(2, 1, *shown, relayed(word(3, 2, BOB, 5000, 1))), Grant(2, 1, 2)),
    ]
    return [talk(title, about, node(entries), [(asked, reply)], clock=[moment])
            for title, about, entries, moment, asked, reply in table]


def chain(parts):
    """Alice in one role after another, of so many parts."""
    return b"\5" * (parts - 1) + ALICE + bytes([0, 0, 0, 1]) * (parts - 1)


def tree(levels):
    """One key in so many levels, of one part each."""
    return both(tree(levels - 1), tree(levels - 1)) if levels > 1 else key(9)


def saying(left, right):
    return relayed(body(1, left, right, 2000, 1))


def certificates():
    """What is a certificate, and how many a request may have."""
    # Kind, version and issuer, quoted, left, right, until, serial, tag.
    parts = FIRST.parts
    table = [
        ("of kind 0", Fields(b"\0", *parts[1:]), 1),
        ("of kind 3", Fields(b"\3", *parts[1:]), 1),
        ("of no bytes", b"", 1),
        ("of another version", relayed(Fields(b"\2" + parts[1][1:], *parts[2:7])), 1),
        ("neither quoted nor not", relayed(Fields(parts[1], b"\2", *parts[3:7])), 1),
        ("whose left term is none", relayed(Fields(*parts[1:3], b"\0", *parts[4:7])), 1),
        ("whose end is cut", FIRST.front(20), 1),
        ("whose tag is cut", FIRST.front(64), 1),
        ("with a byte behind its tag", Fields(FIRST, b"\0"), 1),
        ("of 17 parts", saying(key(2), chain(15)), 1),
        ("of a term of 65 nodes", saying(key(2), both(tree(6), key(9))), 1),
        ("of a term of 17 levels", saying(key(2), chain(17)), 1),
        ("under another key", relayed(handing(), key_of(8)), 3),
        ("with another end under the same tag", Fields(*parts[:5], bytes(8), *parts[6:]), 3),
    ]
    cases = [talk(f"a certificate {title}", f"Code {code}.", node(), [(ask(2, 1, shown), refused(2, 1, 0, code))])
             for title, shown, code in table]
    whole = [("of 16 parts", saying(key(2), chain(14))), ("of a term of 64 nodes",
                                                          saying(key(2), in_role(tree(6), 1))),
             ("of a term of 63 nodes", saying(tree(6), ALICE))]
    cases += [talk(f"a certificate {title}", "It opens, and grants nothing here.", node(),
                   [(ask(2, 1, shown), no_alice(2, 1))], clock=[1000]) for title, shown in whole]
    many = [handed(issuer=3, serial=serial) for serial in range(1, 16)]
    cases += [
        talk("16 certificates", "The most that a request has. The last one is needed.", node(),
             [(ask(2, 1, *many, FIRST), Grant(2, 1, 1))], clock=[1000]),
        talk("17 certificates", "The count is refused at its byte.", node(),
             [(ask(2, 1, *many, FIRST, FIRST), malformed(19)), (ask(2, 1), no_alice(2, 1))]),
        talk("the 16th certificate is turned", "It is named by its place among the presented ones.", node(),
             [(ask(2, 1, *many, turned(FIRST)), refused(2, 1, 15, 3))]),
        talk("the first of two that are refused", "The first decides.", node(),
             [(ask(2, 1, turned(FIRST), b"\2"), refused(2, 1, 0, 3))]),
    ]
    return cases


THEMES = [
    ("denials", "What is denied or refused, of one request.", denials),
    ("links", "What a denial names.", links),
    ("certificates", "What is a certificate, and how many there may be.", certificates),
]
