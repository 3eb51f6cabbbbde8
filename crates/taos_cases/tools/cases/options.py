"""The options of each command: the numbers that each takes, the words that each refuses, and the options of other commands."""
from conversation import Case
from formats import frame, journals, key_of
from .carrying import FILE as PATH_FILE, MARK as PATH_MARK, OWN, line, printed
from .files import SMALL, usage
from .lanes import LINE
from .minting import words_of
from .nodes import relayed, handing
from .pulling import MARK as WALLET_MARK
from .relaying import MARK as RELAY_MARK

MOST, MOST_NUMBER = 2**64 - 1, 2**32 - 1
# Each command with the words that it needs.
COMMANDS = {
    "run": ["run"], "check": ["check"], "relay": ["relay"], "serve": ["serve"], "relay-serve": ["relay-serve"], "wallet": ["wallet"], "audit": ["audit"],
    "audit-bytes": ["audit-bytes"], "replay": ["replay"], "drill": ["drill", "0", "0", "1"], "mint": words_of(),
    "path": ["path", "--node", "7", "--route", "70"],
}
# The options of numbers that each has, with the least and the most. Those of `run --frames` are among the words of the command.
NUMBERS = [
    ("run", "lemmas", 0, 1024), ("serve", "connections", 1, MOST), ("serve", "frames", 1, MOST), ("serve", "lemmas", 0, 1024), ("relay", "frames", 1, MOST),
    ("relay-serve", "connections", 1, MOST), ("relay-serve", "frames", 1, MOST), ("wallet", "frames", 1, MOST), ("audit", "frames", 1, MOST),
    ("audit-bytes", "frames", 1, MOST), ("path", "node", 0, MOST_NUMBER),
]
OWN_OPTIONS = {
    "run": {"frames", "lemmas", "pull"}, "serve": {"connections", "frames", "lemmas", "pull"}, "relay": {"frames"}, "relay-serve": {"connections", "frames"},
    "wallet": {"frames"}, "audit": {"frames"}, "audit-bytes": {"frames"}, "mint": {"issuer", "from"}, "path": {"node", "route"},
}
STRANGE = {"frames": "1", "connections": "1", "lemmas": "1", "pull": None, "issuer": "1", "from": "1970-01-01T00:25:00Z", "node": "7", "route": "70"}
# Files of which each command that may be taken makes nothing.
FILES = {"relay": [RELAY_MARK], "relay-serve": [RELAY_MARK], "wallet": [WALLET_MARK]}
LINES = {"serve": [LINE], "relay-serve": [b"connections 0 broken 0\n"], "audit-bytes": [journals([[]], [])]}


def without(command, option):
    """The command's words without this option."""
    return ["path", "--route", "70"] if (command, option) == ("path", "node") else COMMANDS[command]


def refused_numbers(command, option, least, most):
    words, name = without(command, option), f"--{option}"
    forms = [[name], [f"{name}="], [name, "x"], [name, "-1"], [f"{name}=-1"], [name, "+1"], [name, "01"], [name, "1.0"], [name, "0x1"],
           [f"{name}=1", name, "1"],
             [name, str(most + 1)], [name, "1", "1"], [name[1:], "1"], [f"{name}s", "1"]]
    forms += [[name, "0"]] if least else []
    return [words + form for form in forms]


def numbers():
    about = "A number is decimal digits, and no option stands twice."
    return [usage(f"usage: {' '.join(words)}", words, about) for each in NUMBERS for words in refused_numbers(*each)]


def strange():
    """Options of other commands, and words that no command has."""
    cases = []
    for command, words in COMMANDS.items():
        told = [[f"--{option}"] + ([] if value is None else [value]) for option, value in STRANGE.items() if option not in OWN_OPTIONS.get(command, ())]
        cases += [usage(f"usage: {' '.join(words + more)}", words + more, "It is an option of other commands.") for more in told]
        cases += [usage(f"usage: {' '.join(words + [more])}", words + [more], "No command has such a word.") for more in ("--", "-", "-x", "--help", "word")]
        cases += [usage(f"usage: {' '.join([more, *words])}", [more, *words], "The command comes first.") for more in ("--frames=1", "--pull")]
    return cases


def taken():
    """The least and the most that each takes, and nothing to do."""
    cases = []
    for command, option, least, most in NUMBERS:
        if command != "path":
            words = [[*COMMANDS[command], f"--{option}", str(least)], [*COMMANDS[command], f"--{option}={most}"]]
            cases += [Case(f"taken: {' '.join(each)}", "It is a number of the option.", words=each, file=FILES.get(command, SMALL),
                   output=LINES.get(command, []))
                      for each in words]
    return cases + routes() + drills()


def routes():
    """The least and the most number of a domain and of a node."""
    def file(domain, node):
        return [PATH_MARK, line(f"domain {domain}"), line(f"issuer {domain} 1 {key_of(1).hex()}"), line(f"node {domain} {node} {key_of(7).hex()}")]
    table = [(0, 0), (MOST_NUMBER, MOST_NUMBER)]
    cases = [Case(f"taken: path --node {node} --route {domain}", "They are numbers as any.", words=["path", "--node", str(node), f"--route={domain}"],
                  file=file(domain, node), input=[frame(OWN)], output=printed(relayed(handing()))) for domain, node in table]
    forms = [["--route"], ["--route="], ["--route", "-70"], ["--route", "+70"], ["--route", "70,071"], ["--route", ",70"], ["--route", "70;71"],
             ["--route", "70,71,72,73,74"], ["--route", "70,4294967296"], ["--route", "70", "71"], ["--route=70", "--route=70"], ["--routes", "70"], []]
    cases += [usage(f"usage: {' '.join(['path', '--node', '7', *form])}", ["path", "--node", "7", *form], "A route is 1 to 4 numbers, joined by commas.",
                    file=PATH_FILE) for form in forms]
    return cases


def stream(seed, last):
    """The words of ChaCha20 with no nonce, under the seed's eight bytes, 23 zeros and a last byte."""
    key = [int.from_bytes((seed.to_bytes(8, "big") + bytes(23) + bytes([last]))[at : at + 4], "little") for at in range(0, 32, 4)]
    counter = 0
    while True:
        state = [0x61707865, 0x3320646E, 0x79622D32, 0x6B206574, *key, counter % 2**32, counter >> 32, 0, 0]
        yield from mixed(state)
        counter += 1


def mixed(state):
    """A block of ChaCha20."""
    now = list(state)
    for _ in range(10):
        for at in range(4):
            quarter(now, at, at + 4, at + 8, at + 12)
        for at in range(4):
            quarter(now, at, 4 + (at + 1) % 4, 8 + (at + 2) % 4, 12 + (at + 3) % 4)
    return [(first + second) % 2**32 for first, second in zip(state, now)]


def quarter(now, a, b, c, d):
    for to, of, changed, by in ((a, b, d, 16), (c, d, b, 12), (a, b, d, 8), (c, d, b, 7)):
        now[to] = (now[to] + now[of]) % 2**32
        word = now[changed] ^ now[to]
        now[changed] = (word << by | word >> 32 - by) % 2**32


def load(seed, count, lanes):
    """How many requests of a drill are granted, and how many lanes have a grant."""
    words = stream(seed, 0)
    even = [at % lanes for at in range(count) if next(words) % 2 == 0]
    return len(even), len(set(even))


def drills():
    about = "A word of the load grants where it is even, and each lane that has a grant keeps one proof."
    cases = []
    for seed, count, lanes in ((0, 0, 1), (0, 1, 1), (0, 3, 3), (1, 8, 2), (MOST, 64, 16), (7, 1000, 5), (0, 10_000, 16)):
        granted, having = load(seed, count, lanes)
        told = f"requests {count} entries {count + having} grants {granted} denials {count - granted}\n"
        cases += [Case(f"taken: drill {seed} {count} {lanes}", about, words=["drill", str(seed), str(count), str(lanes)], output=[told.encode("ascii")])]
    words = [["0", "x", "2"], ["0", "8", "x"], ["0", "+8", "2"], ["0", "08", "2"], ["0", "8", "02"], ["0", "8", "-2"], ["0", "8", str(2**64)],
           ["0", str(2**64), "2"],
             ["0"], ["+0", "8", "2"]]
    cases += [usage(f"usage: drill {' '.join(each)}", ["drill", *each], "Three numbers.") for each in words]
    return cases + [Case("a drill reads no file", "It would fail.", words=["drill", "0", "0", "1"], file=[b"\0"], file_fails=[0],
                         output=[b"requests 0 entries 0 grants 0 denials 0\n"])]


def options():
    return numbers() + strange() + taken()


THEMES = [("options", "The options of each command, the numbers that each takes, and the words that each refuses.", options)]
