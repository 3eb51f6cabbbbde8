"""The command of a path: a certificate that travels from domain to domain, each of which checks and seals it again."""
from conversation import Case, Named, Times, joined
from formats import ISSUED, Fields, body, certificate, frame, key, key_of, tagged, turned, u8, u32
from .files import usage
from .nodes import ALICE, handing, issued, relayed

C1 = handing()
OWN = issued(1, C1)
LINK = bytes([0x99]) * 32


def line(text):
    return Fields(text.encode("ascii") + b"\n")


def linked(first, second, secret=LINK):
    return line(f"link {first} {second} {secret.hex()}")


MARK = line("taos-path 1")
DOMAIN_70, DOMAIN_71 = line("domain 70"), line("domain 71")
ISSUER, NODE = line(f"issuer 70 1 {key_of(1).hex()}"), line(f"node 71 7 {key_of(7).hex()}")
LINKED = linked(70, 71)
FILE = [MARK, DOMAIN_70, DOMAIN_71, ISSUER, NODE, LINKED]


def carried(text, visited, secret=LINK):
    """The form of a body that visited these domains, under the key of the last one and the next."""
    return tagged(secret, u8(3), u8(len(visited)), *map(u32, visited), text)


def printed(*forms):
    return [Fields(bytes(form).hex().encode("ascii") + b"\n") for form in forms]


def words(route, node=7):
    return ["path", "--node", str(node), "--route", route]


def done(title, about, route, forms, shown=OWN, file=None):
    return Case(title, about, words=words(route), file=file or FILE, input=[frame(shown)], output=printed(*forms))


def refused(title, route, hop, code, shown=None, file=None, node=7):
    about = "The first domain that refuses it is named, and why."
    shown = [frame(OWN)] if shown is None else shown
    return Case(title, about, 13, words(route, node), file=file or FILE, input=shown, note=f"taos: path refused: hop {hop} code {code}")


FORMS = [carried(C1, [70]), relayed(C1)]
# Four domains in a row, each linked to the next.
ROW = [MARK] + [line(f"domain {each}") for each in (1, 2, 3, 4, 5)] + [line(f"issuer 1 1 {key_of(1).hex()}")]
ROW += [line(f"node {each} 7 {key_of(7).hex()}") for each in (4, 5)] + [linked(each, each + 1, bytes([each]) * 32) for each in (1, 2, 3, 4)]
ROW_FORMS = [carried(C1, [1], bytes([1]) * 32), carried(C1, [1, 2], bytes([2]) * 32), carried(C1, [1, 2, 3], bytes([3]) * 32)]


def routes():
    return [
        done("two domains", "The first knows the issuer, the second the node.", "70,71", FORMS),
        done("four domains", "As many as there may be.", "1,2,3,4", [*ROW_FORMS, relayed(C1)], file=ROW),
        done("one domain", "It knows both.", "70", [relayed(C1)], file=[*FILE, line(f"node 70 7 {key_of(7).hex()}")]),
        Case("bytes behind the frame", "They are not read.", words=words("70,71"), file=FILE, input=[frame(OWN), b"\0"], output=printed(*FORMS),
             left=[b"\0"]),
    ]


def refusals():
    cases = [refused(title, route, hop, code) for title, route, hop, code in (
        ("a domain without the node", "70", 0, 5), ("a domain without the issuer", "71,70", 0, 2), ("a domain without the issuer, alone", "71", 0, 2),
        ("back to the first", "70,71,70", 1, 8), ("to itself", "70,70", 0, 8), ("no such domain", "72", 0, 11),
        ("no such domain behind", "70,72", 1, 11), ("no such domain, behind one that would refuse", "71,72", 1, 11))]
    cases += [refused("a node that the last does not have", "70,71", 1, 5, node=8)]
    cases += [refused(title, "70,71", 0, code, shown) for title, code, shown in (
        ("no frame", 1, []), ("a frame that is cut", 1, [bytes(frame(OWN))[:-1]]), ("a frame of 2,049 bytes", 1, [frame(bytes(2049))]),
        ("an empty frame", 1, [frame()]), ("one under a relay's seal", 4, [frame(relayed(C1))]), ("one that is carried", 4, [frame(FORMS[0])]),
        ("all but the last byte", 1, [frame(OWN.front(64))]), ("a turned tag", 3, [frame(turned(OWN))]),
        ("under another key", 3, [frame(certificate(ISSUED, key_of(2), C1))]))]
    cases += [refused("domains that are not linked", "70,71", 0, 10, file=[MARK, DOMAIN_70, DOMAIN_71, ISSUER, NODE])]
    return cases + places() + first_bytes()


def places():
    """Where a route over several domains stops."""
    first, turn = [frame(OWN)], [frame(turned(OWN))]
    alone = [*ROW, line(f"issuer 4 1 {key_of(1).hex()}")]
    table = [
        ("the second domain, to the first again", "1,2,1", 1, 8), ("the third domain, to the first again", "1,2,3,1", 2, 8),
        ("the third domain, to the second again", "1,2,3,2", 2, 8), ("the first domain, to itself", "1,1,2,3", 0, 8),
             ("the second domain, to itself", "1,2,2,3", 1, 8),
        ("the third domain, to itself", "1,2,3,3", 2, 8), ("the first domain, not linked", "1,3", 0, 10), ("the second domain, not linked", "1,2,4", 1, 10),
        ("the third domain, not linked", "1,2,3,5", 2, 10), ("the second domain, without the node", "1,2", 1, 5),
             ("the third domain, without the node", "1,2,3", 2, 5),
        ("no such domain at the fourth place", "1,2,3,9", 3, 11), ("no such domain at two places", "9,8", 0, 11),
             ("no such domain behind a loop", "1,1,9", 2, 11),
        ("no such domain behind one without the issuer", "2,9", 1, 11)]
    cases = [refused(title, route, hop, code, first, ROW) for title, route, hop, code in table]
    return cases + [
        refused("the fourth domain, without the node", "1,2,3,4", 3, 5, first, ROW, node=9),
        refused("a turned tag, to itself", "1,1", 0, 3, turn, ROW), refused("a turned tag, not linked", "1,3", 0, 3, turn, ROW),
        refused("a turned tag, without the node", "1", 0, 3, turn, ROW), refused("a turned tag, without the issuer", "2,3", 0, 2, turn, ROW),
        refused("a byte behind the tag, without the issuer", "2,3", 0, 1, [frame(OWN, b"\0")], ROW),
        refused("to itself, without the link", "3,3", 0, 2, first, ROW), refused("an issuer of the last alone", "4,4", 0, 8, first, alone),
    ]


def first_bytes():
    """Frames at their longest, and what their first bytes say."""
    cases = [refused(title, "70,71", 0, code, shown) for title, code, shown in (
        ("a frame of 2,048 bytes", 1, [frame(b"\1", bytes(2047))]), ("2,048 bytes of a relay's kind", 4, [frame(b"\2", bytes(2047))]),
        ("2,049 bytes of a relay's kind", 1, [frame(b"\2", bytes(2048))]), ("2,048 bytes of the carried kind", 4, [frame(b"\3", bytes(2047))]),
        ("the first byte of a relay's kind", 4, [frame(b"\2")]), ("the first byte of the carried kind", 4, [frame(b"\3")]),
        ("the first byte of an issuer's kind", 1, [frame(b"\1")]), ("kind 0", 1, [frame(b"\0", bytes(OWN)[1:])]), ("kind 4", 1, [frame(b"\4", bytes(OWN)[1:])]),
        ("three bytes of a length", 1, [bytes(3)]), ("a length of 65,537", 1, [u32(65_537)]),
        ("a certificate, cut, of a relay's kind", 1, [bytes(frame(relayed(C1)))[:-1]]))]
    zero = Fields(b"\2", bytes(C1)[1:16], bytes(8), bytes(C1)[16:])
    later = body(1, key(2), ALICE, 2000, 1, begins=1500)
    return cases + [
        refused("a beginning of 0", "70,71", 0, 1, [frame(issued(1, zero))]),
        done("a certificate that begins later", "Its body has 40 bytes.", "70,71", [carried(later, [70]), relayed(later)], issued(1, later)),
    ]


def ends():
    """Reads and writes that fail."""
    text = joined(printed(*FORMS))
    given = dict(file=FILE, words=words("70,71"))
    return [
        Case("a path file that fails", "Nothing of the input is taken.", 3, input=[frame(OWN)], left=[frame(OWN)], file_fails=[0], faults=1,
             note="taos: read fault", **given),
        Case("a path whose input fails at its length", "It is not known whether a frame stands first.", 3, input=[frame(OWN)], input_fails=[0], byte_fails=[0],
             faults=1, note="taos: read fault", **given),
        Case("a path whose input fails in its frame", "It is not known whether a frame stands first.", 3, input=[frame(OWN)], input_fails=[1], byte_fails=[4],
             faults=1, note="taos: read fault", **given),
        Case("a path whose input would fail behind its frame", "There is no such read.", 0, input=[frame(OWN)], output=[text], input_fails=[2], byte_fails=[69],
             **given),
        Case("a path that writes nothing", "The lines fail.", 4, input=[frame(OWN)], output_fails=[0], faults=1, note="taos: write fault", **given),
        Case("a path that writes seven bytes", "A front of the lines is written.", 4, input=[frame(OWN)], output=[text[:7]], output_room=7, faults=1,
             note="taos: write fault", **given),
        Case("a path that writes all but a byte", "A front of the lines is written.", 4, input=[frame(OWN)], output=[text[:-1]],
               output_room=len(text) - 1, faults=1,
             note="taos: write fault", **given),
        Case("a path that stops, and its note fails", "The status is the same.", 13, input=[], notes_fails=[0], faults=1, **given),
        Case("a path reads no clock", "It would fail.", 0, input=[frame(OWN)], output=[text], clock_fails=[0], **given),
    ]


def files():
    about = "The first line that is refused, and its first cause."
    table = [
        ("a link with itself", linked(70, 70), "unknown domain"), ("a link to no domain above", linked(70, 72), "unknown domain"),
        ("an issuer of no domain above", line(f"issuer 72 1 {key_of(1).hex()}"), "unknown domain"),
        ("a node of no domain above", line(f"node 72 1 {key_of(1).hex()}"), "unknown domain"),
        ("a link twice", linked(71, 70), "twice"), ("a domain twice", DOMAIN_70, "twice"), ("an issuer twice", ISSUER, "twice"),
        ("a node twice", NODE, "twice"), ("a key of 31 bytes", linked(70, 71, LINK[:31]), "hex"), ("no key", line("issuer 70 1"), "words"),
        ("a number that is none", line(f"link 70 x {LINK.hex()}"), "number"), ("another word", line("peer 1 2"), "unknown word"),
        ("too large a number", line("domain 4294967296"), "number"),
    ]
    cases = [Case(f"line 7: {title}", about, 2, words("70,71"), file=[*FILE, more], input=[frame(OWN)], left=[frame(OWN)],
                  note=f"taos: node file: line 7: {cause}") for title, more, cause in table]
    many = [MARK] + [line(f"domain {each}") for each in range(17)]
    cases += [Case("17 domains", about, 2, words("0"), file=many, note="taos: node file: line 18: limit"),
              Case("no bytes for a path file", about, 2, words("70"), note="taos: node file: line 1: first line"),
              Case("a relay file for a path file", about, 2, words("70"), file=[line("taos-relay 1")], note="taos: node file: line 1: first line")]
    return cases + two_causes() + tables()


def two_causes():
    """Which of two causes comes first, and files that are no text of a path."""
    about = "The first cause of the line."
    table = [
        ("words before a number", line("link 70 x"), "words"), ("a number before digits", line("link 70 x 99"), "number"),
        ("digits before an unknown domain", linked(70, 72, LINK[:31]), "hex"), ("digits before a link with itself", linked(70, 70, LINK[:31]), "hex"),
        ("an unknown domain before an issuer", line(f"issuer 72 1 {key_of(9).hex()}"), "unknown domain"),
             ("digits before an issuer twice", line("issuer 70 1 00"), "hex"),
        ("a fifth word", line(f"link 70 71 {LINK.hex()} 1"), "words"), ("a third word", line("domain 72 1"), "words"), ("no number", line("domain"), "words"),
        ("a zero in front of a number", line("domain 072"), "number"), ("a sign before a number", line("domain +72"), "number"),
        ("a key of 33 bytes", linked(70, 71, LINK + b"\0"), "hex"), ("a key with a letter that is no digit", line(f"link 70 71 {'9' * 63}g"), "hex"),
        ("a byte above 127", Fields(b"domain 7\x80\n"), "words"), ("the first line again", MARK, "unknown word"),
             ("a name", line("name 10 alice"), "unknown word"),
        ("the same link with another key", linked(70, 71, bytes(32)), "twice"),
    ]
    cases = [Case(f"line 7, two causes: {title}", about, 2, words("70,71"), file=[*FILE, more], note=f"taos: node file: line 7: {cause}") for title,
           more, cause in table]
    return cases + [
        Case("remarks alone for a path file", "There is no first line.", 2, words("70"), file=[line("# taos-path 1"), line("")],
               note="taos: node file: line 3: first line"),
        Case("another version of a path file", "There is one.", 2, words("70"), file=[line("taos-path 2")], note="taos: node file: line 1: first line"),
        Case("too long a path file", "One byte more than a file may have.", 2, words("70"), file=[Times(b"\0", 4_194_305)],
               note="taos: node file: line 0: limit"),
        Case("a path file of blanks, tabs and carriage returns", "They part words.", words=words("70,71"), input=[frame(OWN)], output=printed(*FORMS),
             file=[Fields(b" taos-path\t1 \r\n"), line("# one"), DOMAIN_71, DOMAIN_70, NODE, ISSUER, Fields(bytes(LINKED)[:-1])]),
    ]


def tables():
    """As many domains, issuers and nodes as there may be."""
    about = "There may be one less."
    secret = Named("digits", Fields(key_of(9).hex().encode("ascii") + b"\n"))
    cases = [Case("16 domains", "As many as there may be.", words=words("0,15"), input=[frame(OWN)], output=printed(carried(C1, [0]), relayed(C1)),
                  file=[MARK, *[line(f"domain {each}") for each in range(16)], line(f"issuer 0 1 {key_of(1).hex()}"), line(f"node 15 7 {key_of(7).hex()}"),
                        *[linked(15, each) for each in range(15)]])]
    for word in ("issuer", "node"):
        many = [part for each in range(1025) for part in (Fields(f"{word} 70 {each} ".encode("ascii")), secret)]
        cases += [Case(f"1,025 of the lines of `{word}` of a domain", about, 2, words("70"), file=[MARK, DOMAIN_70, *many],
               note="taos: node file: line 1027: limit")]
    return cases


def path_words():
    table = [("no route", ["path", "--node", "7"]), ("no node", ["path", "--route", "70"]), ("an empty route", words("")),
             ("five domains", words("1,2,3,4,5")), ("an empty part", words("70,,71")), ("a comma behind", words("70,")),
             ("a route of words", words("a,b")), ("a zero in front", words("070")), ("too large a number", words("4294967296")),
             ("a node of no number", ["path", "--node", "x", "--route", "70"]), ("two routes", words("70") + ["--route", "71"])]
    cases = [usage(title, told, "A route is 1 to 4 numbers, joined by commas.", file=FILE) for title, told in table]
    cases += [Case("a route in one word", "An option's value may stand in its word.", words=["path", "--route=70,71", "--node=7"], file=FILE,
                   input=[frame(OWN)], output=printed(*FORMS))]
    return cases


def paths():
    return routes() + refusals() + ends() + files() + path_words()


THEMES = [("paths", "A path of a certificate over domains of relays.", paths)]
