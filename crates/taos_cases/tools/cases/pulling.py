"""Certificates that a node fetches for a request, and the wallet that gives them."""
from conversation import Case, Grant, Named, Times, talk
from formats import Fields, anchor_proof, asking, bad_seal, body, channel_full, early as begins, expired, fetching, frame, giving, granted, key, key_of
from formats import malformed, object_full, pull_failed, refused, relay_failed, relay_refusal, replayed, resealed, turned, u8, u16, u32
from formats import unknown_channel, unknown_object, wants_memory
from .files import usage
from .lanes import line as lanes_line
from .nodes import ALICE, ask, by_anchor, handed, handing, issued, no_alice, node, relayed
from .objects import hold

C1 = handing()
OWN, NEW = issued(1, C1), relayed(C1)
PULLS = ("run", "--pull")
# Sixteen that nobody needs, each of another body.
OTHERS = [handed(9, serial=serial) for serial in range(1, 17)]
OTHERS_17 = [handed(9, serial=serial) for serial in range(17, 33)]
FAILED, GRANTED, DENIED = pull_failed(2, 1), Grant(2, 1, 1), no_alice(2, 1)
RELAYS = dict(relay_node=(7, key_of(7)), relay_issuer=[(1, key_of(1))])
HEARD = [fetching(2, 1)]


def pulled(title, about, shown, fetched, reply, **lines):
    """Channel 2 asks for object 5, and these are given: one answer, or none."""
    answers = [] if fetched is None else [giving(*fetched)]
    return talk(title, about, node(), [(ask(2, 1, *shown), reply)], words=PULLS, clock=[1000], fetched=answers, wallet_hears=HEARD, **lines)


def taken():
    """Which of what is given are taken."""
    by_relay = dict(hears=[asking(7, OWN)], relay_says=[resealed(NEW)])
    table = [
        ("one is fetched", "Under the relay's seal; nobody is asked.", [], [NEW], GRANTED, {}),
        ("one is fetched under its issuer's seal", "The relay reseals it.", [], [OWN], GRANTED, RELAYS),
        ("what the relay hears of it", "It is asked once.", [], [OWN], GRANTED, by_relay),
        ("none is given", "Nobody speaks for alice.", [], [], DENIED, {}),
        ("none is given, and one is presented", "It does as without.", [NEW], [], GRANTED, {}),
        ("the same is presented and fetched", "It is held once.", [NEW], [NEW], GRANTED, {}),
        ("one that is refused is skipped", "Its tag is turned.", [], [turned(NEW), NEW], GRANTED, {}),
        ("one that the relay refuses is skipped", "Its tag is turned.", [], [turned(OWN), NEW], GRANTED, RELAYS),
        ("one of no bytes is skipped", "It is no certificate.", [], [Fields(), NEW], GRANTED, {}),
        ("one of a kind that there is not is skipped", "It is no certificate.", [], [Fields(b"\3", *NEW.parts[1:]), NEW], GRANTED, {}),
        ("one of 2,049 bytes is skipped", "The relay is not asked, and there is none.", [], [Fields(b"\1" * 2049), NEW], GRANTED, {}),
        ("one of 65,535 bytes is skipped", "As long as one may be that is given.", [], [Fields(b"\1" * 65535), NEW], GRANTED, {}),
        ("all are skipped", "Nothing is added.", [], [turned(NEW), Fields(b"\2")], DENIED, {}),
        ("beside 15 the first of two", "They are at most 16.", OTHERS[:15], [NEW, OTHERS[15]], GRANTED, {}),
        ("beside 15 not the second of two", "They are at most 16.", OTHERS[:15], [OTHERS[15], NEW], DENIED, {}),
        ("beside 15 not the second, where the first is skipped", "The first is looked at.", OTHERS[:15], [turned(NEW), NEW], DENIED, {}),
        ("beside 16 none", "The wallet is asked all the same.", OTHERS, [NEW], DENIED, {}),
        ("16 are given", "The last is needed.", [], [*OTHERS[:15], NEW], GRANTED, {}),
        ("a relay that lacks memory", "It is said in the reply.", [], [OWN], wants_memory(2, 1), dict(relay_says=[relay_refusal(11)])),
        ("an answer of the relay that is no certificate", "The certificate is skipped.", [], [OWN, NEW], GRANTED,
         dict(relay_says=[resealed(relayed(handing(serial=2)))])),
    ]
    return [pulled(title, about, shown, fetched, reply, **lines) for title, about, shown, fetched, reply, lines in table]


def order():
    """What is refused, and when it is fetched."""
    bad = turned(NEW)
    table = [
        ("the link fails at the first that is given", "It is counted from 0.", [], [OWN], relay_failed(2, 1, 0), dict(faults=1)),
        ("the link fails behind one that is presented", "It is counted behind it.", [NEW], [OWN], relay_failed(2, 1, 1), dict(faults=1)),
        ("the link fails behind one that is given", "It is counted behind it.", [NEW], [NEW, OWN], relay_failed(2, 1, 2), dict(faults=1)),
        ("a presented one that is refused, where the link fails at a fetched one", "What is fetched is opened first.", [bad], [OWN],
         relay_failed(2, 1, 1), dict(faults=1)),
        ("a presented one that is refused", "It is as without.", [bad], [NEW], refused(2, 1, 0, 3), {}),
    ]
    cases = [pulled(title, about, shown, fetched, reply, **lines) for title, about, shown, fetched, reply, lines in table]
    silent = dict(words=PULLS, fetched=[giving(NEW)], wallet_hears=[])
    unsealed = [("no request", frame(b"\3"), malformed(1)), ("channel 9", ask(9, 1), unknown_channel(9)), ("a turned tag", turned(ask(2, 1)), bad_seal())]
    cases += [talk(f"nothing is fetched for {title}", "The wallet hears nothing.", node(), [(asked, reply)], **silent)
              for title, asked, reply in unsealed]
    cases += [
        talk("it is not told to fetch", "The wallet hears nothing.", node(), [(ask(2, 1), DENIED)], clock=[1000], fetched=[giving(NEW)],
             wallet_hears=[]),
        talk("object 6", "What is fetched is looked at before the object.", node(), [(ask(2, 1, target=6), unknown_object(2, 1, 6))], words=PULLS,
             fetched=[giving(NEW)], wallet_hears=HEARD),
        talk("a number that was there", "It is fetched again.", node(), [(ask(2, 1), GRANTED), (ask(2, 1), replayed(2, 1, 1))], words=PULLS,
             clock=[1000], fetched=[giving(NEW), giving(NEW)], wallet_hears=HEARD * 2),
        talk("a channel that needs none", "It is fetched for each request.", node(), [(ask(1, 1), by_anchor(1)), (ask(2, 1), Grant(2, 1, 1, place=2))],
             words=PULLS, clock=[1000], fetched=[giving(), giving(NEW)], wallet_hears=[fetching(1, 1), fetching(2, 1)]),
    ]
    return cases


def held():
    """What is fetched is held as what is presented is."""
    return [
        talk("what was fetched is held", "The second request is given none.", node(), [(ask(2, 1), GRANTED), (ask(2, 2), Grant(2, 2, 1, place=2, kept=1))],
             words=PULLS, clock=[1000], fetched=[giving(NEW), giving()], wallet_hears=[fetching(2, 1), fetching(2, 2)]),
        talk("what was fetched is held for its channel alone", "Channel 3 is given none.", node(), [(ask(2, 1), GRANTED), (ask(3, 1), no_alice(3, 1, 2))],
             words=PULLS, clock=[1000], fetched=[giving(NEW), giving()]),
        talk("what is fetched for a Hold", "It is held for all channels.", node(), [(hold(number=1), did(1)), (ask(2, 1), Grant(2, 1, 1, place=3))],
             words=PULLS, clock=[1000], fetched=[giving(NEW), giving()], wallet_hears=[fetching(1, 1), fetching(2, 1)]),
    ]


def did(number):
    """Channel 1's grant of a Hold."""
    return granted(1, number, anchor_proof(1, 10, 0), content=b"")


# Payloads that give no certificates, however many.
NO_GIVING = [
    ("no bytes", Fields()),
    ("the first byte alone", Fields(b"\x09")),
    ("another first byte", Fields(b"\x08\0")),
    ("a reply of the old form", Fields(b"\x06\0")),
    ("a byte behind none", Fields(giving(), b"\0")),
    ("a byte behind one", Fields(giving(NEW), b"\0")),
    ("one that is not there", Fields(b"\x09\1")),
    ("a length that is cut", Fields(b"\x09\1\0")),
    ("one that is cut", Fields(b"\x09\1", u16(2), b"\0")),
    ("17", Fields(b"\x09", u8(17), *[Fields(u16(1), b"\0")] * 17)),
]

# What a wallet says that is no frame.
NO_FRAMES = [
    ("a frame's length that is cut", Fields(bytes(3))),
    ("a length alone", Fields(u32(2))),
    ("a frame that is cut", Fields(u32(2), b"\x09")),
    ("a length above the longest", Fields(u32(1_048_595), giving())),
]


def failing():
    """A fetch that fails, and what is heard behind it."""
    about = "That gives none, and the fetch has failed."
    both = [(ask(2, 1), FAILED), (ask(2, 2), Grant(2, 2, 1))]
    plain = dict(words=PULLS, clock=[1000], faults=1)
    cases = [pulled("no wallet", "The fetch fails at each call.", [], None, FAILED, faults=1)]
    cases += [pulled("no wallet, and one that is presented", "Nothing is decided.", [NEW], None, FAILED, faults=1)]
    cases += [talk(f"a wallet that says {title}", about, node(), both, fetched=[payload, giving(NEW)], wallet_hears=[fetching(2, 1), fetching(2, 2)],
                   **plain) for title, payload in NO_GIVING]
    cases += [talk(f"a wallet that says {title}", about, node(), [(ask(2, 1), FAILED)], wallet_says=[says], wallet_hears=HEARD, **plain)
              for title, says in NO_FRAMES]
    cases += [talk(f"reading what a wallet says fails at call {call}", about, node(), [(ask(2, 1), FAILED)], fetched=[giving(NEW)],
                   wallet_says_fails=[call], wallet_hears=HEARD, **plain) for call in (0, 1)]
    cases += [
        talk("a read behind what a wallet says would fail", "There is none.", node(), [(ask(2, 1), GRANTED)], words=PULLS, clock=[1000],
             fetched=[giving(NEW)], wallet_says_fails=[2]),
        talk("writing to a wallet fails", about, node(), [(ask(2, 1), FAILED)], fetched=[giving(NEW)], wallet_hears_fails=[0], wallet_hears=[], **plain),
        talk("a fetch that failed leaves no entry", "Nor does it take a number.", node(), [(ask(2, 1), FAILED), (ask(2, 1), GRANTED)],
             fetched=[Fields(), giving(NEW)], **plain),
        talk("no reading is taken for a fetch that failed", "1999 is the reading of the second frame.", node(),
             [(ask(2, 1), FAILED), (ask(2, 1), GRANTED)], words=PULLS, clock=[1999, 2000], fetched=[Fields(), giving(NEW)], faults=1),
    ]
    return cases


def by_lanes():
    """The same by lanes."""
    words = ["serve", "--pull"]
    return [
        Case("a lane that fetches", "It has a fetch of its own.", 0, words, file=node(), input=[ask(2, 1)], connections=1, clock=[1000],
             fetched=[giving(NEW)], wallet_hears=HEARD, output=[GRANTED, lanes_line(1, 0, 2, 1, 0)]),
        Case("a lane whose fetch fails", "It goes on.", 0, words, file=node(), input=[ask(2, 1)], connections=1, clock=[1000],
             wallet_hears=HEARD, output=[FAILED, lanes_line(1, 0, 0, 0, 0)], faults=1),
        Case("no connection to lanes that fetch", "Nothing is fetched.", 0, words, file=node(), wallet_hears=[], output=[lanes_line(0, 0, 0, 0, 0)]),
    ]


def more():
    """What is fetched, of other channels and for other operations; and answers at their limits."""
    whom, long = handed(4), Fields(b"\1" * 2048)
    ended, early = handed(until=500), relayed(body(1, key(2), ALICE, 2000, 1, begins=1500))
    hears = dict(hears=[asking(7, long)], relay_says=[relay_refusal(1)])
    table = [
        ("one of another channel is fetched", "Nobody says that key 2 speaks for alice.", [], [whom], DENIED, {}),
        ("one of another channel is fetched, and one of its own", "The second is cited.", [], [whom, NEW], GRANTED, {}),
        ("one that ended is fetched", "It is taken, and named.", [], [ended], expired(2, 1, handing(until=500)), {}),
        ("one that begins later is fetched", "It is taken, and named.", [], [early], begins(2, 1, Fields(*early.parts[1:-1])), {}),
        ("one is fetched twice", "It is held once.", [], [NEW, NEW], GRANTED, {}),
        ("one is fetched in both kinds", "It is held once.", [], [OWN, NEW], GRANTED, RELAYS),
        ("one of 2,048 bytes is skipped", "The relay is asked, and refuses it.", [], [long, NEW], GRANTED, hears),
        ("one under another node's key is skipped", "It opens to nothing.", [], [relayed(C1, key_of(8))], DENIED, {}),
        ("one of another issuer is skipped", "The relay does not know issuer 3.", [], [issued(3, handing(issuer=3)), NEW], GRANTED, RELAYS),
        ("one for another node is skipped", "The relay does not know node 7.", [], [OWN, NEW], GRANTED, dict(RELAYS, relay_node=(8, key_of(8)))),
        ("what the relay gives is for another node", "The certificate is skipped.", [], [OWN, NEW], GRANTED, dict(RELAYS, relay_node=(7, key_of(8)))),
        ("one of a carried kind is skipped", "It opens to nothing.", [], [Fields(b"\3\1", u32(70), C1, bytes(32)), NEW], GRANTED, {}),
        ("16 that are skipped", "Nothing is added.", [], [turned(NEW)] * 16, DENIED, {}),
        ("beside 15 one under its issuer's seal", "It is the 16th.", OTHERS[:15], [OWN], GRANTED, RELAYS),
        ("the link fails at the 16th", "It is counted from 0.", [], [*OTHERS[:15], OWN], relay_failed(2, 1, 15), dict(faults=1)),
        ("the link fails behind 15 that are presented", "It is counted behind them.", OTHERS[:15], [OWN], relay_failed(2, 1, 15), dict(faults=1)),
        ("the link would fail behind 16 that are presented", "It is not asked.", OTHERS, [OWN], DENIED, {}),
        ("the link would fail at one of 2,049 bytes", "It is not asked.", [], [Fields(b"\1" * 2049)], DENIED, {}),
    ]
    cases = [pulled(title, about, shown, fetched, reply, **lines) for title, about, shown, fetched, reply, lines in table]
    return cases + more_runs() + longest()


def more_runs():
    fill, filled = [OTHERS, OTHERS_17], [(ask(2, 1), no_alice(2, 1)), (ask(2, 2), no_alice(2, 2, 1))]
    return [
        talk("what is fetched fills the channel", "33 are too many; the third request's are not held.", node(),
             [*filled, (ask(2, 3), channel_full(2, 3, 32)), (ask(2, 4), no_alice(2, 4, 3))],
             words=PULLS, clock=[1000], fetched=[*[giving(*each) for each in fill], giving(NEW), giving()],
                    wallet_hears=[fetching(2, each) for each in (1, 2, 3, 4)]),
        talk("what is fetched for a number that was there is not held", "The third request is given none.", node(),
             [(ask(2, 1), DENIED), (ask(2, 1), replayed(2, 1, 1)), (ask(2, 2), no_alice(2, 2, 2))], words=PULLS, clock=[1000],
             fetched=[giving(), giving(NEW), giving()], wallet_hears=[fetching(2, 1), fetching(2, 1), fetching(2, 2)]),
        talk("what is fetched for no object is not held", "The second request is given none.", node(),
             [(ask(2, 1, target=6), unknown_object(2, 1, 6)), (ask(2, 1), DENIED)],
             words=PULLS, clock=[1000], fetched=[giving(NEW), giving()], wallet_hears=HEARD * 2),
        talk("what is fetched for a full journal is not held", "It is fetched all the same.", node(limit=1),
             [(ask(2, 1), DENIED), (ask(2, 2), object_full(2, 2, 5, 1))],
             words=PULLS, clock=[1000], fetched=[giving(), giving(NEW)], wallet_hears=[fetching(2, 1), fetching(2, 2)]),
        talk("a fetch for one who quotes", "The channel is asked for, and not who is quoted.", node(), [(ask(2, 1, NEW, quoted=ALICE), no_alice(2, 1))],
             words=PULLS, clock=[1000], fetched=[giving()], wallet_hears=HEARD),
        talk("a fetch that fails between two", "The third is granted by what was fetched for it.", node(),
             [(ask(2, 1), DENIED), (ask(2, 2), pull_failed(2, 2)), (ask(2, 2), Grant(2, 2, 1, place=1))],
             words=PULLS, clock=[1000], fetched=[giving(), Fields(b"\x09"), giving(NEW)], faults=1,
                    wallet_hears=[fetching(2, 1), fetching(2, 2), fetching(2, 2)]),
        Case("the clock fails behind a fetch", "Nothing is answered.", 5, PULLS, file=node(), input=[ask(2, 1)], clock_fails=[0], faults=1,
               note="taos: clock fault",
             fetched=[giving(NEW)], wallet_hears=HEARD),
    ]


def longest():
    """The longest answer that gives: 16 certificates of 65,535 bytes, of which each is skipped."""
    one = Named("long", Fields(u16(65_535), b"\1" * 65_535))
    head = Fields(u32(1_048_594), b"\x09", u8(16))
    return [
        talk("a wallet that says the longest frame", "16 of 65,535 bytes, which are skipped.", node(), [(ask(2, 1), DENIED)], words=PULLS, clock=[1000],
             wallet_says=[head, *[one] * 16], wallet_hears=HEARD),
        talk("a wallet that says a frame of one byte more", "Nothing behind the length is taken.", node(), [(ask(2, 1), FAILED)], words=PULLS, clock=[1000],
             wallet_says=[Fields(u32(1_048_595), b"\x09", u8(16)), *[one] * 16, b"\0"], wallet_hears=HEARD, faults=1),
    ]


def pull_words():
    about = "A flag has no value, and stands at most once."
    table = [("a flag with a value", ["run", "--pull=1"]), ("a flag with a word", ["run", "--pull", "1"]), ("a flag with an empty value", ["run", "--pull="]),
             ("a flag twice", ["run", "--pull", "--pull"]), ("a flag of an audit", ["audit", "--pull"]), ("a flag of a relay", ["relay", "--pull"]),
             ("a flag of a wallet", ["wallet", "--pull"]), ("a flag that is cut", ["run", "--pul"]), ("a flag before the command", ["--pull", "run"])]
    cases = [usage(title, words, about, file=node()) for title, words in table]
    return cases + [Case(f"words: {' '.join(words)}", "A flag may stand anywhere among the options.", words=words, file=node())
                    for words in (["run", "--pull"], ["run", "--frames", "2", "--pull"], ["run", "--pull", "--lemmas=3", "--frames=2"])]


def pulls():
    return taken() + order() + held() + failing() + more() + by_lanes() + pull_words()


# ---- the wallet

MARK = Fields(b"taos-wallet 1\n")


def cert(channel, text):
    return Fields(f"cert {channel} {bytes(text).hex()}\n".encode("ascii"))


WALLET = ("wallet",)
OF_TWO = cert(2, OWN)
FILE = [MARK, OF_TWO, cert(3, b"\5"), cert(2, b"\6\7")]


def gives(*certificates):
    return frame(giving(*certificates))


def served(title, about, asked, answered, file=None, words=WALLET, status=0, **lines):
    return Case(title, about, status, words, file=FILE if file is None else file, input=asked, output=answered, **lines)


def wallets():
    about = "A request's number is not looked at."
    none = "It asks for no channel's certificates."
    table = [
        ("the certificates of a channel", "In the order of the file.", fetching(2, 1), gives(OWN, b"\6\7")),
        ("of another channel", "It has one.", fetching(3, 1), gives(b"\5")),
        ("of a channel that has none", "It has no line.", fetching(4, 1), gives()),
        ("of channel 0", "It has no line.", fetching(0, 1), gives()),
        ("of the request 0", about, fetching(2, 0), gives(OWN, b"\6\7")),
        ("of the last request", about, fetching(2, 2**64 - 1), gives(OWN, b"\6\7")),
        ("12 bytes", none, frame(bytes(fetching(2, 1))[4:-1]), gives()),
        ("14 bytes", none, frame(bytes(fetching(2, 1))[4:], b"\0"), gives()),
        ("another first byte", none, frame(b"\7", bytes(fetching(2, 1))[5:]), gives()),
        ("no bytes", none, frame(), gives()),
        ("a request", none, ask(2, 1), gives()),
        ("what gives", none, gives(OWN), gives()),
    ]
    cases = [served(title, about, [asked], [reply]) for title, about, asked, reply in table]
    cases += [served("all of them in turn", "Each frame has one answer.", [each[2] for each in table], [each[3] for each in table])]
    return cases + many() + ends() + wallet_files() + wallet_words()


def many():
    short = [cert(2, bytes([each])) for each in range(17)]
    long = [bytes([each]) * 1024 for each in range(16)]
    return [
        served("17 of one channel", "The first 16 are given.", [fetching(2, 1)], [gives(*[bytes([each]) for each in range(16)])], [MARK, *short]),
        served("16 of 1,024 bytes", "The longest answer.", [fetching(2, 1)], [gives(*long)], [MARK, *[cert(2, each) for each in long]]),
        served("a wallet of no line", "It gives none.", [fetching(2, 1)], [gives()], [MARK]),
        served("blank lines and comments", "They say nothing.", [fetching(3, 1)], [gives(b"\5")],
               [MARK, Fields(b"\n"), Fields(b"# cert 3 06\n"), cert(3, b"\5")]),
        served("the highest channel", "It is a number as any.", [fetching(2**32 - 1, 1)], [gives(b"\5")], [MARK, cert(2**32 - 1, b"\5")]),
    ]


def ends():
    first, asked = [gives(OWN, b"\6\7")], fetching(2, 1)
    more = dict(status=10, note="taos: frames spent: 1", left=[Fields(bytes(asked)[1:])])
    return [
        served("nothing asked of a wallet", "A command, and nothing comes.", [], []),
        served("two frames of two to a wallet", "Both are answered.", [asked] * 2, first * 2, words=["wallet", "--frames=2"]),
        served("one frame of two to a wallet", "One byte more is there, and is taken.", [asked] * 2, first, words=["wallet", "--frames", "1"], **more),
        served("a frame to a wallet that is cut", "Three bytes of its payload came.", [asked, Fields(bytes(asked)[:7])], first, status=7,
               note="taos: input ends inside a frame, 7 bytes kept"),
        served("a frame to a wallet that is too long", "Nothing behind its length is taken.", [asked, u32(65_537), b"\0"], first, status=8, left=[b"\0"],
               note="taos: frame too long: 65537"),
        served("reading for a wallet fails", "Nothing is given.", [asked], [], status=3, input_fails=[0], byte_fails=[0], note="taos: read fault", faults=1),
        served("writing for a wallet fails", "Nothing is given.", [asked], [], status=4, output_fails=[0], note="taos: write fault", faults=1),
        served("reading a wallet file fails", "Nothing of the input is taken.", [asked], [], status=3, file_fails=[0], note="taos: read fault", faults=1,
               left=[asked]),
        served("the longest frame to a wallet", "It asks for no channel's certificates.", [u32(65_536), Times(b"\0", 65_536)], [gives()]),
        served("a length to a wallet that is cut", "Three bytes of it came.", [asked, bytes(3)], first, status=7,
               note="taos: input ends inside a frame, 3 bytes kept"),
        served("reading for a wallet fails behind a frame", "The first is answered.", [asked, asked], first, status=3, input_fails=[3], byte_fails=[21],
               note="taos: read fault", faults=1),
        served("writing for a wallet fails behind an answer", "A front of the second is written.", [asked, asked], [*first, bytes(first[0])[:3]], status=4,
               output_room=len(first[0]) + 3, note="taos: write fault", faults=1),
        served("a wallet reads no clock", "It would fail.", [asked], first, clock_fails=[0]),
    ]


def wallet_files():
    about = "The first line that is refused, and its first cause."
    table = [
        ("a certificate of 1,025 bytes", cert(2, bytes(1025)), "limit"), ("no certificate", Fields(b"cert 2\n"), "words"),
        ("another word", Fields(b"card 2 00\n"), "unknown word"), ("a channel of no number", Fields(b"cert x 00\n"), "number"),
        ("too large a channel", Fields(b"cert 4294967296 00\n"), "number"), ("a zero in front", Fields(b"cert 02 00\n"), "number"),
        ("half a byte", Fields(b"cert 2 000\n"), "hex"), ("no digits", Fields(b"cert 2 xy\n"), "hex"), ("a third word", Fields(b"cert 2 00 00\n"), "words"),
        ("a first line again", MARK, "unknown word"),
    ]
    cases = [Case(f"line 5: {title}", about, 2, WALLET, file=[*FILE, more], input=[fetching(2, 1)], left=[fetching(2, 1)],
                  note=f"taos: node file: line 5: {cause}") for title, more, cause in table]
    full = [MARK, Times(cert(2, b"\0"), 4097)]
    return cases + more_wallet_files() + [
        Case("4,097 certificates", "There are 4,096 at most.", 2, WALLET, file=full, note="taos: node file: line 4098: limit"),
        Case("no bytes for a wallet file", about, 2, WALLET, note="taos: node file: line 1: first line"),
        Case("a relay file for a wallet file", about, 2, WALLET, file=[Fields(b"taos-relay 1\n")], note="taos: node file: line 1: first line"),
        Case("a node file for a wallet file", about, 2, WALLET, file=node(), note="taos: node file: line 1: first line"),
    ]


def more_wallet_files():
    """Which of two causes comes first, and what is a wallet all the same."""
    about = "The first cause of the line."
    table = [
        ("words before a number", Fields(b"cert x\n"), "words"), ("a number before digits", Fields(b"cert x xy\n"), "number"),
        ("digits before their limit", Fields(b"cert 2 " + b"0" * 2051 + b"\n"), "hex"), ("a byte above 127", Fields(b"cert 2 \x8000\n"), "words"),
        ("a byte below 32", Fields(b"cert 2 00\x07\n"), "words"), ("a sign", Fields(b"cert +2 00\n"), "number"),
             ("no word but the first", Fields(b"cert\n"), "words"),
        ("a word of upper case", Fields(b"Cert 2 00\n"), "unknown word"), ("a node's line", Fields(b"node 7 00\n"), "unknown word"),
        ("a channel of 2^64", Fields(b"cert 18446744073709551616 00\n"), "number"),
             ("an unknown word before a byte above 127", Fields(b"card \x80\n"), "unknown word"),
    ]
    cases = [Case(f"line 5, two causes: {title}", about, 2, WALLET, file=[*FILE, more], note=f"taos: node file: line 5: {cause}") for title, more,
           cause in table]
    asked, first = [fetching(2, 1)], [gives(OWN, b"\6\7")]
    upper = Fields(f"cert 2 {bytes(OWN).hex().upper()}\n".encode("ascii"))
    odd = [Fields(b"\n\t# one\r\n"), Fields(b" taos-wallet  1\t\r\n"), Fields(b"\tcert   2\t" + bytes(OWN).hex().encode("ascii") + b" \r\n"),
           Fields(b"cert 2 0607")]
    return cases + [
        Case("remarks alone for a wallet file", "There is no first line.", 2, WALLET, file=[Fields(b"# taos-wallet 1\n\n")],
               note="taos: node file: line 3: first line"),
        Case("another version of a wallet file", "There is one.", 2, WALLET, file=[Fields(b"taos-wallet 2\n")], note="taos: node file: line 1: first line"),
        Case("a word behind a wallet's first line", "It has two.", 2, WALLET, file=[Fields(b"taos-wallet 1 1\n")], note="taos: node file: line 1: first line"),
        Case("too long a wallet file", "One byte more than a file may have.", 2, WALLET, file=[Times(b"\0", 4_194_305)], note="taos: node file: line 0: limit"),
        served("4,096 certificates", "As many as there may be.", asked, [gives(*[b"\0"] * 16)], [MARK, Times(cert(2, b"\0"), 4096)]),
        served("certificates of upper case", "Digits are of either case.", asked, [gives(OWN)], [MARK, upper]),
        served("blanks, tabs, carriage returns and no last end of a wallet", "They part words.", asked, first, odd),
        served("one certificate twice in a wallet", "It is given twice.", asked, [gives(b"\6", b"\6")], [MARK, cert(2, b"\6"), cert(2, b"\6")]),
        served("a certificate of one byte", "It is not looked at.", asked, [gives(b"\0")], [MARK, cert(2, b"\0")]),
        served("channel 0 of a wallet", "It is a number as any.", [fetching(0, 1)], [gives(b"\6")], [MARK, cert(0, b"\6")]),
    ]


def wallet_words():
    table = [("no frames", ["wallet", "--frames", "0"]), ("frames with a zero in front", ["wallet", "--frames=02"]),
           ("frames of no number", ["wallet", "--frames", "x"]),
             ("frames twice", ["wallet", "--frames=2", "--frames", "2"]), ("frames without a value", ["wallet", "--frames"]),
             ("lemmas of a wallet", ["wallet", "--lemmas", "1"]), ("connections of a wallet", ["wallet", "--connections", "1"]),
             ("a word behind a wallet", ["wallet", "2"])]
    return [usage(f"{title}: wallet", words, "A wallet has frames alone.", file=FILE) for title, words in table]


THEMES = [
    ("pulls", "Certificates that a node fetches for a request.", pulls),
    ("wallets", "A wallet that gives certificates to a node.", wallets),
]
