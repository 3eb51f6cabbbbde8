"""Logins, roles and delegations, by the forms of docs/CALCULUS.md.

Machine 11 boots taos with key 12, whose channel is key 15; bob logs in by key 13 with the session key 14.
Machine 16 boots taos with key 17, whose channel is key 18.
"""
from conversation import Grant, talk
from formats import acting_for, body, both, digest, expired, in_role, key, key_of, missing, name, quoting
from .nodes import BOB, READER, TAOS, WS1, WS2, ask, issued, node, relayed

END = 5000
W, T = in_role(WS1, TAOS), in_role(WS2, TAOS)
SEAT, A = both(W, key(14)), acting_for(W, BOB)
FOR_LOGIN, FOR_SECOND, FOR_ROLE = [(1, A)], [(1, acting_for(T, A))], [(1, in_role(BOB, READER))]
SIGNERS = [3, 11, 12, 13, 14, 15, 16, 17]


def forms(serials):
    """Issuers and bodies: a boot, a channel, a login and a session; a second boot and channel, a delegation."""
    made = [
        (11, key(12), W, None),
        (12, key(15), key(12), None),
        (13, quoting(SEAT, BOB), acting_for(SEAT, BOB), None),
        (14, key(15), key(14), None),
        (16, key(17), T, None),
        (17, key(18), key(17), None),
        (15, quoting(T, A), acting_for(T, A), BOB),
    ]
    return [(issuer, body(issuer, left, right, END, serial, quoted))
            for serial, (issuer, left, right, quoted) in zip(serials, made)]


ISSUED = forms(range(1, 8))
RELAYED = forms([1] * 7)
ROLE = (3, body(3, key(4), in_role(BOB, READER), END, 8))
ROLE_ONE = (3, body(3, key(4), in_role(BOB, READER), END, 1))


def own(chain):
    return [issued(issuer, text) for issuer, text in chain]


def opened(chain):
    return [relayed(text) for _, text in chain]


def last(chain):
    """All ended together, and each was needed: the greatest digest is named."""
    return max((text for _, text in chain), key=digest)


def over(title, about, entries, told, moment):
    known = [(each, key_of(each)) for each in SIGNERS]
    return talk(title, about, node(entries, machines=True), told, clock=[moment], relay_node=(7, key_of(7)),
                relay_issuer=known)


# A name, the list, the channel, who is quoted, and the certificates.
CHAINS = [
    ("a login", FOR_LOGIN, 15, BOB, ISSUED[:4]),
    ("a delegation", FOR_SECOND, 18, A, ISSUED),
    ("a role", FOR_ROLE, 4, None, [ROLE]),
]


def logins():
    cases = []
    for title, entries, channel, quoted, chain in CHAINS:
        asked = ask(channel, 1, *own(chain), quoted=quoted)
        cases += [over(f"{title}, a second before it ends", "Each certificate is needed and cited.", entries,
                       [(asked, Grant(channel, 1, len(chain), until=END))], END - 1)]
        cases += [over(f"{title}, as it ends", "The certificate with the greatest digest is named.", entries,
                       [(asked, expired(channel, 1, last(chain)))], END)]
    cases += without_one() + directly()
    return cases


def without(index, count=4):
    return [each for at, each in enumerate(ISSUED[:count]) if at != index]


def without_one():
    """What is the first part that nobody reaches without one of the certificates."""
    parts = [("its boot", 0, WS1), ("its channel", 1, WS1), ("its login", 2, A), ("its session", 3, A)]
    cases = [over(f"a login without {what}", "The entry, or the machine, is what nobody speaks for.", FOR_LOGIN,
                  [(ask(15, 1, *own(without(index)), quoted=BOB), missing(15, 1, part))], 1000)
             for what, index, part in parts]
    cases += [over("a login that quotes nobody", "The channel is not bob's word.", FOR_LOGIN,
                   [(ask(15, 1, *own(ISSUED[:4])), missing(15, 1, BOB))], 1000)]
    cases += [over("a login that quotes another", "It is bob's.", FOR_LOGIN,
                   [(ask(15, 1, *own(ISSUED[:4]), quoted=name(10)), missing(15, 1, BOB))], 1000)]
    cases += [over("a delegation without its word", "The second machine speaks for itself.", FOR_SECOND,
                   [(ask(18, 1, *own(ISSUED[:6]), quoted=A), missing(18, 1, acting_for(T, A)))], 1000)]
    cases += [over("a login, and then its channel's own", "The channel holds the login.", FOR_LOGIN,
                   [(ask(15, 1, *own(ISSUED[:4]), quoted=BOB), Grant(15, 1, 4, until=END)),
                    (ask(15, 2, quoted=BOB), Grant(15, 2, 4, place=2, kept=1, until=END))], 1000)]
    return cases


def directly():
    """Under the node's own key no relay is asked."""
    chain = RELAYED
    return [
        talk("a login under the relay's key", "It was resealed before.", node(FOR_LOGIN, machines=True),
             [(ask(15, 1, *opened(chain[:4]), quoted=BOB), Grant(15, 1, 4, until=END))], clock=[1000]),
        talk("a delegation under the relay's key", "It was resealed before.", node(FOR_SECOND, machines=True),
             [(ask(18, 1, *opened(chain), quoted=A), Grant(18, 1, 7, until=END))], clock=[1000]),
        talk("a role under the relay's key", "It was resealed before.", node(FOR_ROLE, machines=True),
             [(ask(4, 1, *opened([ROLE_ONE])), Grant(4, 1, 1, until=END))], clock=[1000]),
    ]


THEMES = [("logins", "Logins, roles and delegations.", logins)]
