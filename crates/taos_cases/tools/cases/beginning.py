"""Certificates that begin later: before their moment they are held, and named where only they keep a request from its grant."""
from conversation import Case, Grant, talk
from formats import DISCARD, FORGET, HOLD, SWEEP, Fields, anchor_proof, body, channel_full, digest, early, expired, frame, granted, key, key_of, refused
from formats import replayed, request, u8, u16, u32, u64
from .files import counted, refused_at
from .minting import FILE, minted, words_of
from .nodes import ALICE, BOB, ask, handed, handing, issued, no_alice, node, relayed
from .texts import HEAD, behind, served

LAST = 2**64 - 1


def word(until=2000, begins=1500, serial=1, issuer=1, left=2, right=ALICE):
    """That one key speaks for a name or a key, from a moment on."""
    return body(issuer, key(left), right, until, serial, begins=begins)


CF = word()
LATER = relayed(CF)


def managed(number, operation, fields=(), certificates=()):
    return frame(request(1, number, operation, fields=fields, certificates=certificates))


def moments():
    """One certificate, at moments before, at and after its beginning and its end."""
    about = "It holds from its beginning on, until its end."
    twice = word(until=1500)
    never, last = word(until=1500, begins=2000), word(until=LAST, begins=LAST)
    return [
        talk("it begins at 1500", "Held before; the grant's proof is kept as any.", node(),
             [(ask(2, 1, LATER), early(2, 1, CF)), (ask(2, 2), Grant(2, 2, 1, place=1)), (ask(2, 3), Grant(2, 3, 1, place=3, kept=1))],
             clock=[1499, 1500, 1501]),
        talk("it begins at the moment", about, node(), [(ask(2, 1, LATER), Grant(2, 1, 1))], clock=[1500]),
        talk("it holds at one moment alone", about, node(),
             [(ask(2, 1, relayed(word(until=1501))), early(2, 1, word(until=1501))), (ask(2, 2), Grant(2, 2, 1, place=1, until=1501)),
              (ask(2, 3), expired(2, 3, word(until=1501), place=3))], clock=[1499, 1500, 1501]),
        talk("it begins when it ends", "It never holds.", node(),
             [(ask(2, 1, relayed(twice)), early(2, 1, twice)), (ask(2, 2), expired(2, 2, twice, place=1))], clock=[1499, 1500]),
        talk("it begins after it ends", "It ended, whenever it would have begun.", node(),
             [(ask(2, 1, relayed(never)), early(2, 1, never)), (ask(2, 2), expired(2, 2, never, place=1)),
              (ask(2, 3), expired(2, 3, never, place=2)), (ask(2, 4), no_alice(2, 4, place=3))], clock=[1499, 1500, 2000, 1500 + 3600]),
        talk("it begins at the last moment", "There it has ended.", node(),
             [(ask(2, 1, relayed(last)), early(2, 1, last)), (ask(2, 2), expired(2, 2, last, place=1))], clock=[LAST - 1, LAST]),
        talk("a clock that goes back", "That of the shard does not.", node(),
             [(ask(2, 1, LATER), Grant(2, 1, 1)), (ask(2, 2), Grant(2, 2, 1, place=2, kept=1))], clock=[1500, 10]),
        talk("a replayed request reads the clock", "The shard's clock is past the beginning.", node(),
             [(ask(2, 5, LATER), early(2, 5, CF)), (ask(2, 5), replayed(2, 5, 5)), (ask(2, 6), Grant(2, 6, 1, place=2))],
             clock=[1000, 1500, 1000]),
    ]


# A says that key 9 speaks for alice, and B that key 2 speaks for key 9: both are needed.
def first(until=2000, begins=0):
    return word(until, begins, left=9)


def second(until=2000, begins=0):
    return word(until, begins, issuer=9, right=key(9))


def named():
    """Which of several is named: those that ended come first, the latest end first; then those that begin, the earliest first."""
    about = "Both are needed. Those that ended are taken up first."
    ended, later = first(until=500), second(begins=1500)
    begun, over = first(begins=1500), second(until=500)
    serials = [word(serial=serial) for serial in range(1, 6)]
    least = min(serials, key=digest)
    sixteen = word(begins=1600)
    far = handing(serial=2, until=5000), word(until=5000, begins=4000, serial=2)
    two = [(1, BOB), (1, ALICE)]
    by_bob = word(right=BOB, issuer=3)
    return [
        talk("one that ended, and one that begins", about, node(), [(ask(2, 1, relayed(ended), relayed(later)), early(2, 1, later))], clock=[1000]),
        talk("one that begins, and one that ended", about, node(), [(ask(2, 1, relayed(begun), relayed(over)), early(2, 1, begun))], clock=[1000]),
        talk("one that ended is enough, and one that begins", "Those that ended come first.", node(),
             [(ask(2, 1, handed(), relayed(far[1])), expired(2, 1, handing()))], clock=[3000]),
        talk("one that begins is enough, before one that ended", "Their order does not count.", node(),
             [(ask(2, 1, relayed(far[1]), handed()), expired(2, 1, handing()))], clock=[3000]),
        talk("five with one beginning", "The least digest.", node(), [(ask(2, 1, *map(relayed, serials)), early(2, 1, least))], clock=[1000]),
        talk("the earliest beginning", "It is before the least digest.", node(),
             [(ask(2, 1, relayed(sixteen), LATER), early(2, 1, CF))], clock=[1000]),
        talk("the earliest beginning, behind", "It is before the least digest.", node(),
             [(ask(2, 1, LATER, relayed(sixteen)), early(2, 1, CF))], clock=[1000]),
        talk("the first entry decides", "A later one has a certificate that ended.", node(two),
             [(ask(2, 1, relayed(by_bob), handed(until=500)), early(2, 1, by_bob))], clock=[1000]),
        talk("the first entry lacks a part", "The second one is derivable by all.", node(two),
             [(ask(2, 1, LATER), early(2, 1, CF, entry=1))], clock=[1000]),
    ]


def kept():
    """Proofs that cite one that begins later."""
    a, b = first(until=2000), second(until=1600, begins=1500)
    return [talk("a proof's lease", "The least end of what it cites, and no beginning.", node(),
                 [(ask(2, 1, relayed(a), relayed(b)), Grant(2, 1, 2, until=1600)), (ask(2, 2), Grant(2, 2, 2, place=2, kept=1, until=1600)),
                  (ask(2, 3), expired(2, 3, b, place=3))], clock=[1500, 1599, 1600])]


def held():
    """Operations on those that have not begun."""
    about = "It is held as any other."
    many = [word(serial=serial) for serial in range(33)]
    fill = [(ask(2, 1, *map(relayed, many[:16])), early(2, 1, min(many[:16], key=digest))),
            (ask(2, 2, *map(relayed, many[16:32])), early(2, 2, min(many[:32], key=digest), place=1))]
    return [
        talk("held in common", about, node(),
             [(managed(1, HOLD, certificates=[LATER]), did(1)), (ask(2, 1), early(2, 1, CF, place=3)),
              (ask(2, 2), Grant(2, 2, 1, place=4))], clock=[1499, 1499, 1500]),
        talk("let go by its digest", about, node(),
             [(ask(2, 1, LATER), early(2, 1, CF)), (managed(1, DISCARD, [digest(CF)]), did(1, place=1)),
              (ask(2, 2), no_alice(2, 2, place=4))], clock=[1499]),
        talk("a sweep before it begins", about, node(),
             [(ask(2, 1, LATER), early(2, 1, CF)), (managed(1, SWEEP), did(1, place=1)), (ask(2, 2), early(2, 2, CF, place=4))],
             clock=[1499]),
        talk("a sweep when it begins", "It moves the clock of the shard.", node(),
             [(ask(2, 1, LATER), early(2, 1, CF)), (managed(1, SWEEP), did(1, place=1)), (ask(2, 2), Grant(2, 2, 1, place=4))],
             clock=[1000, 1500, 1000]),
        talk("forgotten before it begins", about, node(),
             [(ask(2, 1, LATER), early(2, 1, CF)), (managed(1, FORGET, [u32(2)]), did(1, place=1)), (ask(2, 2), no_alice(2, 2, place=4))],
                    clock=[1499, 1499, 1500]),
        talk("common, and presented besides", "It is held once, and named once.", node(commons=[LATER]),
             [(ask(2, 1, LATER), early(2, 1, CF)), (ask(2, 2), Grant(2, 2, 1, place=1))], clock=[1499, 1500]),
        talk("presented, and then common", "The channel's own comes first.", node(),
             [(ask(2, 1, LATER), early(2, 1, CF)), (managed(1, HOLD, certificates=[LATER]), did(1, place=1)), (ask(2, 2), early(2, 2, CF, place=4)),
              (managed(2, DISCARD, [digest(CF)]), granted(1, 2, anchor_proof(1, 10, 0), place=5, kept=1, content=b"")),
                   (ask(2, 3), no_alice(2, 3, place=7))], clock=[1499]),
        talk("a Hold when it begins", "Its reading is that of the Ask.", node(),
             [(managed(1, HOLD, certificates=[LATER]), did(1)), (ask(2, 1), Grant(2, 1, 1, place=3))], clock=[1500, 1499]),
        talk("32 of them fill a channel", about, node(), [*fill, (ask(2, 3, relayed(many[32])), channel_full(2, 3, 32))], clock=[1000]),
    ]


def did(number, place=0):
    """Channel 1's grant of an operation, which gives nothing."""
    return granted(1, number, anchor_proof(1, 10, 0), place=place, content=b"")


def zero(version=2, begins=0):
    """A body of version 2 that names this beginning."""
    return Fields(bytes([version]) + b"\0\0\0\1\0", key(2), ALICE, u64(begins), u64(2000), u64(1))


def malformed_bodies():
    """Bodies that are none. Where they are presented the code is 1."""
    about = "A beginning of 0 is spelled by version 1 alone."
    bodies = [("a beginning of 0", zero()), ("version 0", zero(version=0, begins=1500)), ("version 3", zero(version=3, begins=1500)),
              ("no end", zero(begins=1500).front(32)), ("half of a beginning", zero(begins=1500).front(20))]
    cases = [talk(f"presented: {title}", about, node(), [(ask(2, 1, relayed(text)), refused(2, 1, 0, 1))], clock=[1600]) for title, text in bodies]
    relay = dict(relay_node=(7, key_of(7)), relay_issuer=[(1, key_of(1))])
    cases += [talk(f"under its issuer's seal: {title}", about, node(), [(ask(2, 1, issued(1, text)), refused(2, 1, 0, 1))], clock=[1600], **relay)
              for title, text in bodies]
    cases += [talk("under its issuer's seal, and resealed", "The relay reads both versions.", node(), [(ask(2, 1, issued(1, CF)), Grant(2, 1, 1))],
                   clock=[1600], **relay)]
    return cases


def opened():
    """Certificates in common that begin later, and bodies that are none."""
    bad = [("a beginning of 0", zero()), ("version 0", zero(version=0, begins=1500)), ("version 3", zero(version=3, begins=1500)),
           ("no end", zero(begins=1500).front(32)), ("half of a beginning", zero(begins=1500).front(20))]
    about = "It does not open."
    cases = [refused_at(f"in an opening: {title}", about, 64, counted(u8(1), u16(len(relayed(text))), relayed(text))) for title, text in bad]
    cases += [behind(f"in a node file: {title}", about, f"common {bytes(relayed(text)).hex()}", "certificate") for title, text in bad]
    return cases + [
        talk("in an opening", "It is common from the first moment on.", node(commons=[LATER]),
             [(ask(2, 1), early(2, 1, CF)), (ask(2, 2), Grant(2, 2, 1, place=1))],
             clock=[1499, 1500]),
        served("in a node file", "A line of `common` may have it.", [*HEAD, f"common {bytes(LATER).hex()}"]),
        behind("in a node file, twice", "No body twice.", f"common {bytes(LATER).hex()}", "twice", [f"common {bytes(LATER).hex()}"]),
        served("in a node file, and one that has begun", "They are two bodies.", [*HEAD, f"common {bytes(LATER).hex()}", f"common {bytes(handed()).hex()}"]),
    ]


def mints():
    told = words_of() + ["--from", "1970-01-01T00:25:00Z"]
    refusal = "taos: mint refused: time"
    wrong = [("a beginning with a fraction of a second", words_of() + ["--from", "1970-01-01T00:25:00.5Z"]),
             ("a beginning before 1970", words_of() + ["--from", "1969-12-31T23:59:59Z"]), ("a beginning that is a number", words_of() + ["--from", "1500"]),
             ("a beginning that is no instant", words_of() + ["--from", "x"]), ("neither is one", words_of(until="y") + ["--from", "x"])]
    cases = [minted("with a beginning", "Key 1 says so from 1500 on.", told, issued(1, CF)),
             minted("a beginning of 0", "As without.", words_of() + ["--from=1970-01-01T00:00:00Z"], issued(1, handing())),
             minted("a beginning after the end", "It is made all the same.", words_of() + ["--from", "1970-01-01T01:00:00Z"],
                    issued(1, word(begins=3600)))]
    cases += [minted("a beginning in another zone", "An instant.", words_of() + ["--from", "1970-01-01T01:25:00+01:00"], issued(1, CF)),
              minted("a beginning at the end", "It is made all the same.", words_of() + ["--from", "1970-01-01T00:33:20Z"], issued(1, word(begins=2000)))]
    cases += [Case(title, "Both times have one word.", 12, words, file=FILE, note=refusal) for title, words in wrong]
    cases += [Case(title, "An option is given once, with a value.", 1, words, file=FILE, note="taos: usage")
              for title, words in (("two beginnings", told + ["--from", "1970-01-01T00:25:00Z"]), ("a beginning without a value", words_of() + ["--from"]))]
    return cases


def beginnings():
    return moments() + named() + kept() + held() + malformed_bodies() + opened() + mints()


THEMES = [("beginnings", "Certificates that begin later.", beginnings)]
