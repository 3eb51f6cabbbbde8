"""Certificates under their issuers' own seals, which a relay has to see."""
from conversation import Grant, talk
from formats import Fields, asking, bad_seal, certificate, expired, key_of, refused, relay_failed, relay_refusal
from formats import resealed, turned, wants_memory
from .nodes import ask, by_anchor, handed, handing, issued, no_alice, node, relayed

C1 = handing()
OWN, NEW = issued(1, C1), relayed(C1)
ASKED, ASKING, RESEALED = ask(2, 1, OWN), asking(7, OWN), resealed(NEW)
LONGER = Fields(OWN, b"\0")
FAILED = relay_failed(2, 1, 0)
GRANTED = Grant(2, 1, 1)

# What is presented, the issuer and the node that the relay knows, the node's key there, and what is told.
BY_TABLE = [
    ("resealed", [OWN], 1, 7, 7, GRANTED),
    ("a turned tag", [turned(OWN)], 1, 7, 7, refused(2, 1, 0, 3)),
    ("a byte behind the tag", [LONGER], 1, 7, 7, refused(2, 1, 0, 1)),
    ("a byte behind the tag, of another issuer", [LONGER], 2, 7, 7, refused(2, 1, 0, 1)),
    ("a byte behind the tag, for another node", [LONGER], 1, 8, 7, refused(2, 1, 0, 1)),
    ("all but the last byte", [OWN.front(64)], 1, 7, 7, refused(2, 1, 0, 1)),
    ("the first byte alone", [Fields(b"\1")], 1, 7, 7, refused(2, 1, 0, 1)),
    ("another issuer", [OWN], 2, 7, 7, refused(2, 1, 0, 2)),
    ("a turned tag of another issuer", [turned(OWN)], 2, 7, 7, refused(2, 1, 0, 2)),
    ("another issuer and another node", [OWN], 2, 8, 7, refused(2, 1, 0, 2)),
    ("another node", [OWN], 1, 8, 7, refused(2, 1, 0, 5)),
    ("a turned tag for another node", [turned(OWN)], 1, 8, 7, refused(2, 1, 0, 3)),
    ("the node under another key", [OWN], 1, 7, 8, refused(2, 1, 0, 6)),
    ("the second of two", [NEW, turned(OWN)], 1, 7, 7, refused(2, 1, 1, 3)),
    ("the first of two", [turned(OWN), Fields(b"\2")], 1, 7, 7, refused(2, 1, 0, 3)),
    ("behind one that was resealed", [OWN, turned(NEW)], 1, 7, 7, refused(2, 1, 1, 3)),
    ("one that was resealed, behind one that opens", [NEW, OWN], 1, 7, 7, GRANTED),
    ("a kind that is none", [Fields(b"\3", *NEW.parts[1:])], 1, 7, 7, refused(2, 1, 0, 1)),
    ("no bytes", [Fields()], 1, 7, 7, refused(2, 1, 0, 1)),
]


def table(issuers, number, secret):
    return dict(relay_node=(number, key_of(secret)), relay_issuer=[(each, key_of(each)) for each in issuers])


def by_table():
    about = "A relay knows an issuer and a node. It reseals, or says why not."
    cases = [talk(title, about, node(), [(ask(2, 1, *shown), reply)], clock=[1000],
                  **table([issuer], number, secret))
             for title, shown, issuer, number, secret, reply in BY_TABLE]
    return cases + by_calls()


def by_calls():
    known, second = table([1, 3], 7, 7), issued(1, handing(serial=2))
    by_three = [issued(3, handing(issuer=3, serial=serial)) for serial in (1, 2)]
    again = [(ASKED, GRANTED), (ask(2, 2, second), relay_failed(2, 2, 0)), (ask(2, 2), Grant(2, 2, 1, place=2, kept=1))]
    both = [(ask(2, 1, *by_three), relay_failed(2, 1, 1)), (ask(2, 1, *by_three), no_alice(2, 1))]
    unseen = [(ask(2, 1, *by_three), no_alice(2, 1)), (ask(2, 2, *by_three), no_alice(2, 2, 1))]
    return [
        talk("resealed, and then not", "The second call fails; what the first one brought is held.", node(),
             again, clock=[1000], relay_fails=[1], faults=1, **known),
        talk("resealed, failed, and no third call", "Two certificates came under their issuer's seal.", node(),
             again, clock=[1000], relay_fails=[1, 2], faults=1, **known),
        talk("the second of two, and both once more", "None of the first request is held. There are four calls.",
             node(), both, clock=[1000], relay_fails=[1, 4], faults=1, **known),
        talk("two and two calls, and no fifth", "What is held is asked for again.", node(), unseen, clock=[1000],
             relay_fails=[4], **known),
        talk("the first call fails", "And the next one does not.", node(), [(ASKED, FAILED), (ASKED, GRANTED)],
             clock=[1000], relay_fails=[0], faults=1, **known),
        talk("no certificate, and no call", "The relay is asked for certificates alone.", node(),
             [(ask(2, 1, NEW), GRANTED)], clock=[1000], relay_fails=[0], **known),
        talk("a request that is refused before its certificates", "The relay is not asked.", node(),
             [(turned(ASKED), bad_seal())], relay_fails=[0], **known),
    ]


def no_relay():
    opened = ask(2, 1, NEW, OWN)
    stranger = [handed(issuer=3), OWN]
    return [
        talk("the places go on", "A link that fails leaves no entry.", node(),
             [(ask(1, 1), by_anchor(1)), (ASKED, FAILED), (ask(2, 1), no_alice(2, 1, 2)),
              (ask(1, 2), by_anchor(2, 3, kept=1))], clock=[1000], faults=1),
        talk("what was opened before is not held", "The second of two has to go to the relay.", node(),
             [(opened, relay_failed(2, 1, 1)), (ask(2, 1), no_alice(2, 1))], clock=[1000], faults=1),
        talk("no reading is taken", "1999 is the reading of the second frame.", node(),
             [(ASKED, FAILED), (ask(2, 1, NEW), GRANTED), (ask(2, 2), expired(2, 2, C1, place=2))],
             clock=[1999, 2000], faults=1),
        talk("a link that fails, and an object that is not there", "The certificates come first.", node(),
             [(ask(2, 1, OWN, target=6), FAILED)], faults=1),
        talk("one that is refused, before one for the relay", "The relay is not asked.", node(),
             [(ask(2, 1, turned(NEW), OWN), refused(2, 1, 0, 3))]),
        talk("one that fails, before one that is refused", "The first that comes to nothing decides.", node(),
             [(ask(2, 1, OWN, turned(NEW)), FAILED)], faults=1),
        talk("a link that fails at each call", "Each is a fault.", node(),
             [(ask(2, 1, *stranger), relay_failed(2, 1, 1))] * 3 + [(ask(2, 1, NEW), GRANTED)], clock=[1000],
             faults=3),
    ]


# What the relay says to the first certificate of channel 2, and what is told.
ANSWERS = [
    ("a new certificate", RESEALED, GRANTED),
    ("another body", resealed(relayed(handing(serial=2))), refused(2, 1, 0, 6)),
    ("for another node", resealed(relayed(C1, key_of(8))), refused(2, 1, 0, 6)),
    ("as it was presented", resealed(OWN), refused(2, 1, 0, 6)),
    ("under the node's key, and the issuer's kind", resealed(certificate(1, key_of(7), C1)), refused(2, 1, 0, 6)),
    ("under its own turned tag", resealed(turned(NEW)), refused(2, 1, 0, 6)),
    ("behind its tag a byte", resealed(Fields(NEW, b"\0")), refused(2, 1, 0, 6)),
    ("a certificate of no bytes", resealed(Fields()), refused(2, 1, 0, 6)),
    ("code 1", relay_refusal(1), refused(2, 1, 0, 1)),
    ("code 2", relay_refusal(2), refused(2, 1, 0, 2)),
    ("code 3", relay_refusal(3), refused(2, 1, 0, 3)),
    ("code 4", relay_refusal(4), refused(2, 1, 0, 4)),
    ("code 5", relay_refusal(5), refused(2, 1, 0, 5)),
    ("want of memory", relay_refusal(11), wants_memory(2, 1)),
    ("a certificate of 2,048 bytes", resealed(bytes(2048)), refused(2, 1, 0, 6)),
]

NO_ANSWERS = [
    ("no answer", ""),
    ("a length that is cut", "000000"),
    ("a length alone", "00000002"),
    ("a frame that is cut", "00000002 06"),
    ("a length that is too long", "00010001 06 03"),
    ("an empty payload", "00000000"),
    ("a payload of one byte", "00000001 06"),
    ("a byte behind the code", "00000003 06 03 00"),
    ("another first byte", "00000002 05 03"),
    ("code 6", "00000002 06 06"),
    ("code 7", "00000002 06 07"),
    ("code 10", "00000002 06 0a"),
    ("code 12", "00000002 06 0c"),
    ("code 255", "00000002 06 ff"),
]


def answer(title, about, says, reply, faults=None, **lines):
    return talk(title, about, node(), [(ASKED, reply)], clock=[1000], relay_says=says, hears=[ASKING],
                faults=faults, **lines)


def answers():
    about = "What a relay answers is opened or told. It heard one frame."
    cases = [answer(title, about, [says], reply) for title, says, reply in ANSWERS]
    about = "That is no answer, and the link has failed."
    cases += [answer(title, about, [Fields(*map(bytes.fromhex, says.split()))], FAILED, 1)
              for title, says in NO_ANSWERS]
    cases += [answer("a certificate of 2,049 bytes", about, [resealed(bytes(2049))], FAILED, 1)]
    other = issued(1, handing(serial=2))
    cases += [talk("the frame behind one that is no answer", "It is the answer to the next call.", node(),
                   [(ASKED, FAILED), (ASKED, GRANTED)], clock=[1000], hears=[ASKING, ASKING],
                   relay_says=[relay_refusal(7), RESEALED], faults=1)]
    cases += [talk("two frames for two certificates", "Each answer is that to its own question.", node(),
                   [(ask(2, 1, OWN, other), GRANTED)], clock=[1000], hears=[ASKING, asking(7, other)],
                   relay_says=[RESEALED, resealed(relayed(handing(serial=2)))])]
    cases += [talk("two frames in another order", "They are not those that were asked for.", node(),
                   [(ask(2, 1, OWN, other), refused(2, 1, 0, 6))], hears=[ASKING],
                   relay_says=[resealed(relayed(handing(serial=2))), RESEALED])]
    for title, says, reply in (("want of memory", 11, wants_memory(2, 1)), ("a refusal", 3, refused(2, 1, 0, 3))):
        cases += [talk(f"{title} leaves no entry", "Nor does it take a number.", node(),
                       [(ASKED, reply), (ask(2, 1), no_alice(2, 1))], relay_says=[relay_refusal(says)],
                       hears=[ASKING])]
    return cases + ends()


def ends():
    """A frame is read by two calls, and what is asked is written by one. A fault of an end is one of the link."""
    about = "A fault of either end is a failed link."
    says = [RESEALED]
    cases = [answer(f"reading the answer fails at call {call}", about, says, FAILED, 1, says_fails=[call])
             for call in (0, 1)]
    cases += [answer("a read behind the answer would fail", "There is none.", says, GRANTED, says_fails=[2])]
    cases += [unheard("writing to the relay fails", about, 0, hears_fails=[0])]
    cases += [answer("a write behind the question would fail", "There is none.", says, GRANTED, hears_fails=[1])]
    cases += [unheard(f"the relay has room for {room} bytes", about, room, hears_room=room) for room in (0, 40,
                                                                                                         73)]
    cases += [answer("the relay has room for all 74 bytes", "No write fails.", says, GRANTED, hears_room=74)]
    return cases + second_ends()


def second_ends():
    """The same at the second of two questions."""
    other = handing(serial=2)
    asked, asking_other = ask(2, 1, OWN, issued(1, other)), asking(7, issued(1, other))
    about, told = "The first certificate was resealed, and is not held.", [(asked, relay_failed(2, 1, 1))]
    both = dict(clock=[1000], relay_says=[RESEALED, resealed(relayed(other))], faults=1)
    told += [(ask(2, 1), no_alice(2, 1))]
    cases = [talk(f"reading the second answer fails at call {call}", about, node(), told, says_fails=[call],
                  hears=[ASKING, asking_other], **both) for call in (2, 3)]
    cases += [talk("writing the second question fails", about, node(), told, hears_fails=[1], hears=[ASKING],
                   **both)]
    cases += [talk("the relay has room for 100 bytes", about, node(), told, hears_room=100,
                   hears=[ASKING, asking_other.front(26)], **both)]
    return cases


def unheard(title, about, count, **lines):
    return talk(title, about, node(), [(ASKED, FAILED)], clock=[1000], relay_says=[RESEALED],
                hears=[ASKING.front(count)] if count else [], faults=1, **lines)


THEMES = [
    ("relay_table", "A relay that knows issuers and nodes.", by_table),
    ("no_relay", "A link that fails at each call leaves no entry.", no_relay),
    ("relay_answers", "What a relay at the other end of the link says and hears.", answers),
]
