#!/usr/bin/env python3
"""Tries the built program on the conversations in which nothing is made to fail.

    try.py PROGRAM [FILE..]

Each has its node file, its input and its relay, which listens on 127.0.0.1. The readings of its clock come
from tools/clock.c, which `cc` compiles and which is preloaded; where that has no effect, conversations with
readings are left out, and so are audits that tell a reading which none says. What is written, the exit status and the
note have to be as the conversation says.
One run more has little memory, and has to end with 6; two are given journals as long as they may be, and a byte longer;
in one more a frame is sent only once the reply to the one before has come; and in another such a signal cuts short each
wait for a frame, by tools/signals.c, where that is compiled.
Files are those of data/ where none is named. Ends with 1 where one is not as it should be.
"""
import concurrent.futures
import contextlib
import os
import resource
import signal
import select
import subprocess
import sys
import tempfile
import time

from reading import Granted, all_files, bytes_of, read
from relay import Relay
from wallet import Wallet

HERE = os.path.dirname(os.path.abspath(__file__))
UNFIT = ["connections", "pieces", "relay-faults", "relay-says", "wallet-says", "note-front", "output-room", "notes-room", "hears-room"]
FAILING = ["file", "input", "byte", "output", "notes", "clock", "relay", "says", "hears", "wallet-says", "wallet-hears", "door", "second-door"]
UNFIT += [f"{each}-fails" for each in FAILING]
MOST_SECONDS = 2**63 - 1
WORKERS, LIMIT, TAG, FRONT = 4, 120, 32, 28
# How long a reply may take, and the most frames that are sent one by one.
SECONDS, MOST_TURNS = 20, 1000
# So many frames wait behind a signal, each so long that the program waits for it.
SIGNALS, WAIT = 20, 0.02
# So many bytes are too few for the room that is taken before the first frame is read.
LITTLE_MEMORY = 8 * 1024 * 1024
# The most bytes of journals that are judged.
MOST_JOURNALS = 268_435_456


class Program:
    """The program, where its files lie, and the clock that is preloaded."""

    def __init__(self, path, folder):
        self.path, self.folder, self.clock = os.path.abspath(path), folder, None

    def env(self, readings):
        env = dict(os.environ)
        if readings and self.clock:
            env.update(LD_PRELOAD=self.clock, CLOCK_READINGS=" ".join(map(str, readings)))
        return env

    def run(self, words, given, readings=None, before=None):
        return subprocess.run([self.path, *words], input=given, capture_output=True, env=self.env(readings),
                              timeout=LIMIT, cwd=self.folder, preexec_fn=before)

    def start(self, words, readings, preloaded=None):
        pipe, env = subprocess.PIPE, self.env(readings)
        if preloaded:
            env["LD_PRELOAD"] = " ".join(filter(None, [env.get("LD_PRELOAD"), preloaded]))
        return subprocess.Popen([self.path, *words], stdin=pipe, stdout=pipe, stderr=subprocess.DEVNULL,
                                bufsize=0, env=env, cwd=self.folder)


def frames_of(data):
    """Whole frames, each with its length."""
    at, found = 0, []
    while at + 4 <= len(data):
        end = at + 4 + int.from_bytes(data[at : at + 4], "big")
        found.append(data[at:end])
        at = end
    return found


def content_of(payload):
    """The result of a grant."""
    at = FRONT + 4 + int.from_bytes(payload[FRONT : FRONT + 4], "big")
    count, at = payload[at], at + 1
    for _ in range(count):
        at += 2 + int.from_bytes(payload[at : at + 2], "big")
    return payload[at + 2 : -TAG]


def grant_fault(program, path, granted, asked, frame):
    """What is wrong with the frame of a grant, if anything is."""
    payload = frame[4:]
    if not payload.startswith(granted.front):
        return f"a grant begins {payload[:FRONT].hex()}"
    if content_of(payload) != granted.content:
        return "another content"
    run = program.run([path, "-", "-", "check"], asked + frame)
    counts = run.stdout.decode().split()
    wanted = ["granted", "entry", str(granted.front[15]), "lines", "certificates", str(granted.certificates)]
    if run.returncode != 0 or counts[:4] + counts[5:] != wanted:
        return f"check says {run.stdout.decode().strip()}"
    return None


def output_fault(program, path, case, output):
    """What is wrong with what was written."""
    asked, at, place = frames_of(case.bytes("input")), 0, 0
    for part in case.written:
        if isinstance(part, Granted):
            end = at + 4 + int.from_bytes(output[at : at + 4], "big")
            frame = output[at:end]
            fault = grant_fault(program, path, part, asked[len(frames_of(output[:at]))], frame)
            if fault:
                return fault
            at = end
        elif output[at : at + len(part)] != part:
            return f"output from byte {at}: {output[at : at + min(len(part), 80)].hex()}"
        else:
            at += len(part)
        place += 1
    return None if at == len(output) else f"{len(output) - at} bytes more of output"


def fault(program, path, case, relay, wallet):
    """What is wrong with a run, if anything is."""
    words = [path, "-", f"{relay},{wallet}" if wallet else relay, *case.words("words")]
    run = program.run(words, case.bytes("input"), case.numbers("clock"))
    note = "" if case.text("note") is None else case.text("note") + "\n"
    if run.returncode != int(case.text("status")):
        return f"status {run.returncode}"
    # Lines of the program's own part, as warnings of equal keys, stand before the note.
    told = "".join(line for line in run.stderr.decode().splitlines(True) if not line.startswith("taosd: "))
    if told != note:
        return f"note {told.strip()}"
    return output_fault(program, path, case, run.stdout)


def relay_of(case):
    nodes, issuers = case.keys_of("relay-node"), case.keys_of("relay-issuer")
    return Relay(nodes, issuers) if nodes or issuers else contextlib.nullcontext("-")


def wallet_of(case):
    """What gives what is fetched, if anything does."""
    return Wallet(map(bytes_of, case.said["fetched"])) if "fetched" in case.said else None


def heard_fault(case, wallet):
    """What is wrong with what the wallet heard, if anything is."""
    if wallet and "wallet-hears" in case.said and wallet.heard != case.bytes("wallet-hears"):
        return f"the wallet hears {wallet.heard.hex()}"
    return None


def tried(program, case):
    """The case, and what is wrong."""
    with tempfile.NamedTemporaryFile(dir=program.folder) as file:
        file.write(case.bytes("file"))
        file.flush()
        wallet = wallet_of(case)
        try:
            with relay_of(case) as relay, wallet or contextlib.nullcontext() as at:
                return case, fault(program, file.name, case, relay, at) or heard_fault(case, wallet)
        except subprocess.TimeoutExpired:
            return case, "it does not end"


def compiled(folder, name="clock"):
    """A library of tools/, where there is a compiler."""
    library = os.path.join(folder, f"{name}.so")
    words = [os.environ.get("CC", "cc"), "-O2", "-shared", "-fPIC", "-o", library, os.path.join(HERE, f"{name}.c")]
    try:
        return library if subprocess.run(words, capture_output=True).returncode == 0 else None
    except OSError:
        return None


def takes_clock(program, cases):
    """Whether the first conversation of two readings comes out as it should."""
    probe = [case for case in cases if len(set(case.numbers("clock"))) > 1]
    return bool(probe) and tried(program, probe[0])[1] is None


def has_readings(case):
    """Whether the system's clock could have them."""
    return max(case.numbers("clock"), default=0) <= MOST_SECONDS


def tells_readings(case):
    """Whether what is written has readings of a clock that the conversation does not say."""
    written = case.bytes("output")
    told = {"audit": b" reading " in written, "audit-bytes": bool(written and case.bytes("input"))}
    return any(told.get(word, False) for word in case.words("words")[:1]) and not case.numbers("clock")


def is_behind(case):
    """Whether something is fetched where a call fails, behind which a real fetch rests."""
    return "fetched" in case.said and "faults" in case.said


def chosen(program, cases):
    """The conversations that are tried; it says how many are left out."""
    fit = [case for case in cases if not any(key in case.said for key in UNFIT) and not tells_readings(case) and not is_behind(case)]
    print(f"{len(cases) - len(fit)} left out: something is made to fail or comes in pieces")
    timely = [case for case in fit if has_readings(case)]
    print(f"{len(fit) - len(timely)} left out: the system's clock has no such readings")
    program.clock = compiled(program.folder)
    if program.clock and takes_clock(program, timely):
        return timely
    print(f"{sum('clock' in case.said for case in timely)} left out: the program does not take the clock")
    return [case for case in timely if "clock" not in case.said]


def little_memory():
    resource.setrlimit(resource.RLIMIT_AS, (LITTLE_MEMORY, LITTLE_MEMORY))


def memory_fault(program, case):
    """What is wrong with the conversation's run that has little memory, if anything is."""
    with tempfile.NamedTemporaryFile(dir=program.folder) as file:
        file.write(case.bytes("file"))
        file.flush()
        run = program.run([file.name, "-", "-", "run"], case.bytes("input"), before=little_memory)
    if (run.returncode, run.stderr, run.stdout) != (6, b"taos: no memory\n", b""):
        return f"status {run.returncode}, note {run.stderr.decode().strip()}"
    return None


def length_fault(program, case):
    """What is wrong where journals of zeros are as long as they may be, or a byte longer, if anything is."""
    with tempfile.NamedTemporaryFile(dir=program.folder) as file:
        file.write(case.bytes("file"))
        file.flush()
        for size, line in ((MOST_JOURNALS, b"malformed byte 0\n"), (MOST_JOURNALS + 1, b"too large\n")):
            run = program.run([file.name, "-", "-", "replay"], bytes(size))
            if (run.returncode, run.stderr, run.stdout) != (14, b"", line):
                return f"{size} bytes: status {run.returncode}, {run.stdout.decode().strip()}"
    return None


def next_frame(stream, seconds):
    """The next frame of a pipe, or less where no more comes in time."""
    frame, wanted = b"", 4
    while len(frame) < wanted and select.select([stream], [], [], seconds)[0]:
        piece = os.read(stream.fileno(), wanted - len(frame))
        if not piece:
            break
        frame += piece
        if len(frame) == 4:
            wanted += int.from_bytes(frame, "big")
    return frame


def cut_short(run):
    """Sends a signal that is handled, once the program waits, and once more."""
    for _ in range(2):
        time.sleep(WAIT)
        run.send_signal(signal.SIGUSR1)


def turn_fault(program, case, signals=None):
    """What is wrong where each frame is sent only once the one before is answered, if anything is. With the library of
    signals each of the first waits is cut short."""
    wanted = frames_of(b"".join(case.written))
    with tempfile.NamedTemporaryFile(dir=program.folder) as file:
        file.write(case.bytes("file"))
        file.flush()
        with program.start([file.name, "-", "-", "run"], case.numbers("clock"), signals) as run:
            try:
                for place, (asked, reply) in enumerate(zip(frames_of(case.bytes("input")), wanted)):
                    if signals and place < SIGNALS:
                        cut_short(run)
                    run.stdin.write(asked)
                    run.stdin.flush()
                    if next_frame(run.stdout, SECONDS) != reply:
                        return f"frame {place} is not answered before the next is sent"
                run.stdin.close()
                return None if run.wait(LIMIT) == 0 else f"status {run.returncode}"
            except BrokenPipeError:
                return f"it ends with status {run.wait(LIMIT)}"
            finally:
                run.kill()


def served(cases):
    """Conversations that succeed."""
    return [case for case in cases if case.words("words") == ["run"] and case.text("status") == "0"]


def replayed(cases):
    """Conversations that judge journals."""
    return [case for case in cases if case.words("words") == ["replay"]]


def longest(cases):
    """The one of most frames whose replies are all laid down, as a list."""
    whole = [case for case in served(cases) if not any(isinstance(part, Granted) for part in case.written)]
    counted = [(len(frames_of(case.bytes("input"))), place) for place, case in enumerate(whole)]
    return [whole[place] for count, place in sorted(counted) if count <= MOST_TURNS][-1:]


def tell(case, wrong, how=""):
    """Whether something is wrong. It says so."""
    if wrong is not None:
        print(f"{case.file}: {case.name}{how}: {wrong}", flush=True)
    return wrong is not None


def main(words):
    if not words:
        print(__doc__, end="", file=sys.stderr)
        return 2
    cases = [case for path in words[1:] or all_files() for case in read(path)]
    with tempfile.TemporaryDirectory() as folder:
        program = Program(words[0], folder)
        fit = chosen(program, cases)
        with concurrent.futures.ThreadPoolExecutor(WORKERS) as pool:
            told = [tell(*each) for each in pool.map(lambda case: tried(program, case), fit)]
        told += [tell(case, memory_fault(program, case), ", with little memory") for case in served(fit)[:1]]
        told += [tell(case, length_fault(program, case), ", of many bytes") for case in replayed(fit)[:1]]
        told += [tell(case, turn_fault(program, case), ", in turn") for case in longest(fit)]
        signals = compiled(folder, "signals")
        told += [tell(case, turn_fault(program, case, signals), ", with signals") for case in longest(fit) if signals]
    failed = sum(told)
    print(f"{len(told) - failed} passed, {failed} failed")
    return 1 if failed else 0


if __name__ == "__main__":
    sys.exit(main(sys.argv[1:]))
