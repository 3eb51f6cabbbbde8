"""The clock: a jump ahead is not believed, however low the clock was; and each moment up to the year 9999 is told as a date."""
import json
import os
import shutil
import subprocess

import peers
from nodes import TOP, Case, node_text

SOURCE = os.path.join(TOP, "crates", "taos_cases", "tools", "clock.c")
DAY = 86_400
# The last second of which the form of instants has a date.
LAST = 253_402_300_799
CLOCK_FAULT = 5


class Clock(Case):
    """The clock is preloaded: each reading is the next of a list."""

    def setUp(self):
        super().setUp()
        if not shutil.which("cc"):
            self.skipTest("there is no compiler for the clock")
        self.library = os.path.join(self.folder, "clock.so")
        subprocess.run(["cc", "-shared", "-fPIC", "-o", self.library, SOURCE], check=True)
        if self.told_at(1000)[:1] != ["taosd: 1970-01-01T00:16:40Z"]:
            self.skipTest("the clock can't be preloaded")

    def run_at(self, readings, asked, *options):
        env = {**os.environ, "LD_PRELOAD": self.library, "CLOCK_READINGS": " ".join(map(str, readings))}
        return self.ran(*options, self.file(node_text()), "-", "-", "run", input=asked, env=env)

    def told_at(self, *readings, options=()):
        """How the notices begin of frames that are no requests."""
        run = self.run_at(readings, peers.frame(b"") * len(readings), "--tell-refusals", *options)
        return [" ".join(line.split(" ", 2)[:2]) for line in run.stderr.decode("ascii").splitlines()]

    def granted_at(self, *readings):
        """The status of a run whose clock has these readings, and how many of its requests were answered."""
        run = self.run_at(readings, peers.reads(1, range(1, len(readings) + 1)))
        count, replies = 0, run.stdout
        while replies:
            replies = replies[4 + int.from_bytes(replies[:4], "big"):]
            count += 1
        return run.returncode, count

    def test_a_jump_of_more_than_a_day_is_not_believed_however_low_the_clock(self):
        for first in 0, 1, 10, 500, 1_800_000_000:
            for ahead in DAY + 60, 87_000:
                self.assertEqual(self.granted_at(first, first + ahead), (CLOCK_FAULT, 1), (first, ahead))
            self.assertEqual(self.granted_at(first, first + DAY), (0, 2), first)

    def test_a_clock_that_goes_back_low_is_held_against_what_was_read(self):
        self.assertEqual(self.granted_at(1_800_000_000, 10, 10 + DAY, 1_800_000_000), (0, 4))
        self.assertEqual(self.granted_at(100, 10, 100 + DAY), (0, 3))
        self.assertEqual(self.granted_at(100, 10, 100 + DAY + 60), (CLOCK_FAULT, 2))

    def test_the_last_day_of_9999_is_a_date(self):
        for reading, date in (LAST, "9999-12-31T23:59:59Z"), (LAST - DAY + 1, "9999-12-31T00:00:00Z"), (LAST - DAY, "9999-12-30T23:59:59Z"):
            self.assertEqual(self.told_at(reading), [f"taosd: {date}"])

    def test_as_json_it_is_seconds(self):
        run = self.run_at([LAST], peers.frame(b""), "--tell-refusals", "--notices", "json")
        self.assertEqual([json.loads(line)["time"] for line in run.stderr.splitlines()], [LAST])
