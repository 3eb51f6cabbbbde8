"""Journals judged again: the program's `replay` beside a judge in Python, which was written from the documents; and what is said of the
entry that it names."""
import functools
import os
import re
import subprocess
import sys
import tempfile
import unittest
from concurrent.futures import ThreadPoolExecutor

from judging import Judge
from test_journals import LOGIN, READ
from vectors import TOP, conversations, key_of, opening_of, turned
from yoritzal import (Channel, Discard, Entry, Forget, Hold, Key, Name, Quoting, Read, SetList, Sweep, TimeNumbers, Withdraw, Write,
                      read_journals)
from yoritzal.explain import explained
from yoritzal.journals import WAS_DUE

PROGRAM = os.environ.get("PROGRAM")
PATIENCE, AT_ONCE = 60, 4
# The least conversations that are judged, so that a test which no longer finds them fails.
LEAST = 30
ILLEGAL = re.compile(r"illegal (shard|object) (\d+) entry (\d+) (\w+)")
# Each operation, by somebody who may and by somebody who may not, as lines of an audit.
NODE = "\n".join(
    ["taos 1", f"node 7 {key_of(7).hex()}", "shards 2"] + [f"channel {each} {key_of(each).hex()}" for each in (1, 2)]
    + ["anchor 1 name:10", "object 5", "allow 5 rwcm name:10", "object 6", "allow 6 r (name:20 as role:1) for name:10", ""])


@functools.lru_cache
def replays():
    """The conversations of a `replay` that reads all its input and writes all its line, each with its opening and that line."""
    found = []
    for case in conversations():
        is_line = len(case.written) == 1 and case.words("words") == ["replay"] and case.written[0].endswith(b"\n")
        if is_line and opening_of(case):
            found.append((case, opening_of(case), case.written[0].decode("ascii").rstrip("\n")))
    return found


class Judged(unittest.TestCase):
    def test_the_judge_says_what_the_conversations_lay_down(self):
        count, causes = 0, set()
        for case, opening, line in replays():
            self.assertEqual(Judge(opening).line(case.bytes("input")), line, case.name)
            causes.add(line.split()[-1] if line.startswith("illegal") else line.split()[0])
            count += 1
        self.assertGreater(count, LEAST)
        self.assertEqual(causes, {"legal", "malformed", *WAS_DUE})

    def test_what_a_line_names_is_told_in_words(self):
        count = 0
        for case, _, line in replays():
            found = ILLEGAL.fullmatch(line)
            if not found:
                continue
            cell, number, place, cause = found.groups()
            journals = read_journals(case.bytes("input"))
            told, lines = journals.explained(line), set(journals.lines())
            self.assertEqual(told[-1], WAS_DUE[cause], case.name)
            if cause != "cells":
                self.assertTrue(told[0].startswith(f"{cell} {number} entry {place} "), case.name)
                self.assertLessEqual(set(told[:-1]), lines, case.name)
            count += 1
        self.assertGreater(count, LEAST // 2)

    def test_the_command_says_the_same(self):
        ruling, malformed = "illegal object 5 entry 1 ruling", "malformed byte 47"
        for data, line, wanted in [(LOGIN, ruling, read_journals(LOGIN).explained(ruling)), (LOGIN, "legal entries 6", ["legal entries 6"]),
                                   (READ[:47] + b"\3" + READ[48:], malformed, [malformed, "the number 3 at byte 47"])]:
            self.assertEqual(explained(data, line), wanted)
            with tempfile.NamedTemporaryFile() as file:
                file.write(data)
                file.flush()
                words = [sys.executable, "-m", "yoritzal.explain", file.name]
                run = subprocess.run(words, input=f"{line}\n", capture_output=True, text=True, cwd=os.path.join(TOP, "clients", "python"),
                                     check=False, timeout=PATIENCE)
            self.assertEqual((run.returncode, run.stdout.splitlines(), run.stderr), (0, wanted, ""))


@unittest.skipUnless(PROGRAM, "no PROGRAM is named")
class Program(unittest.TestCase):
    def file(self, data):
        with tempfile.NamedTemporaryFile(delete=False) as file:
            file.write(data)
        self.addCleanup(os.remove, file.name)
        return file.name

    def left_of(self, path, command, data):
        """The status of a command, and what it writes."""
        run = subprocess.run([PROGRAM, path, "-", "-", command], input=data, capture_output=True, check=False, timeout=PATIENCE)
        return run.returncode, run.stdout

    def agree(self, case, all_journals):
        """The program about each of these journals, a few at a time, as the judge."""
        judge, path, causes = Judge(opening_of(case)), self.file(case.bytes("file")), set()
        with ThreadPoolExecutor(AT_ONCE) as pool:
            told = pool.map(lambda data: self.left_of(path, "replay", data), all_journals)
            for data, (status, line) in zip(all_journals, told):
                due = judge.line(data)
                self.assertEqual((status, line.decode("ascii")), (0 if due.startswith("legal") else 14, f"{due}\n"), data.hex())
                causes.add(due.split()[-1] if due.startswith("illegal") else due.split()[0])
        return causes

    def test_the_anchored_read_with_each_bit_turned(self):
        case = next(case for case, _, _ in replays() if case.bytes("input") == READ)
        causes = self.agree(case, [turned(READ, bit) for bit in range(8 * len(READ))])
        self.assertEqual(causes, {"legal", "malformed", "cells", "keep", "told", "ask", "ruling"})

    def test_a_login_with_a_bit_of_each_byte_turned(self):
        case = next(case for case, _, _ in replays() if case.bytes("input") == LOGIN)
        self.agree(case, [turned(LOGIN, 8 * at + at * 5 % 8) for at in range(len(LOGIN))])

    def test_the_words_of_journals_as_bytes_are_those_of_an_audit(self):
        channels = [Channel(number, key_of(number), TimeNumbers()) for number in (1, 2)]
        new = (Entry(15, Name(10)), Entry(1, Quoting(Key(2), Name(30))))
        asked = [(5, Read()), (5, Write(b"new")), (5, SetList(new)), (5, Hold()), (5, Discard(bytes(32))), (5, Forget(2)), (5, Sweep()),
                 (5, Withdraw(164)), (5, Read()), (6, Read()), (5, SetList(()))]
        payloads = [channel.request(place, operation).payload(channel.key) for place, operation in asked for channel in channels]
        frames = b"".join(len(each).to_bytes(4, "big") + each for each in payloads)
        path = self.file(NODE.encode("ascii"))
        # Of either the clock is read anew.
        said, read = (re.sub(r"(reading|expire) \d+", r"\1 T", text) for text in self.both(path, frames))
        self.assertEqual(said, read)
        for word in "read", "write 3", "list r", "hold", "discard", "forget 2", "sweep", "withdraw 164", "list  ->", "denied", "granted 0":
            self.assertIn(word, said)

    def both(self, path, frames):
        """The journals of these frames as text, and those as bytes in words."""
        (status, text), (other, data) = (self.left_of(path, command, frames) for command in ("audit", "audit-bytes"))
        self.assertEqual((status, other), (0, 0))
        return text.decode("ascii"), "".join(f"{line}\n" for line in read_journals(data).lines())


if __name__ == "__main__":
    unittest.main()
