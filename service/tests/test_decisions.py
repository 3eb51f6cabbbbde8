"""The log of decisions where its file takes no more, or is gone: no granted ruling is without a line of its own, and no line is glued to
the part of another."""
import json
import os
import resource
import shutil
import subprocess

from nodes import HERE, KIB, PATIENCE, PROGRAM, Case, channels, node_text, waits_for
from yoritzal import Granted, Read

# The greatest size of a file, in which some 40 lines have room, and not a whole number of them.
LIMIT = 8000
WRITE_FAULT, NOT_BEGUN = 4, 9
MANY = 100
# A file system of so many bytes in a place of its own, that nobody else sees. Its folder and the program's words follow.
MOUNTED = ["unshare", "--user", "--map-root-user", "--mount", "sh", "-c",
           'mount -t tmpfs -o size=64k none "$1" && shift && exec "$@"', "sh"]


def limited():
    resource.setrlimit(resource.RLIMIT_FSIZE, (LIMIT, resource.RLIM_INFINITY))


def can_mount(folder):
    if not shutil.which("unshare"):
        return False
    return subprocess.run([*MOUNTED, folder, "true"], capture_output=True, check=False).returncode == 0


class Decisions(Case):
    def setUp(self):
        super().setUp()
        self.path = os.path.join(self.folder, "log", "decisions")
        os.mkdir(os.path.dirname(self.path))
        self.channel = channels()[0]

    def logging(self, options=(), is_many=True, **how):
        clients = ["--clients", "20"] if is_many else []
        node = self.serving(options=["--decisions", self.path, *clients, *options], **how)
        self.assert_is_ready(node, self.channel)
        return node

    def granted(self, node, count=MANY):
        """The numbers of the requests that an honest client was granted, one after the other, until it is answered no more."""
        numbers = []
        client = node.client(self.channel)
        for _ in range(count):
            answer = client.ask(5, Read())
            if client.failed:
                break
            if isinstance(answer.reply, Granted):
                numbers.append(answer.reply.number)
        client.connection.close()
        return numbers

    def lines(self, path=None):
        """The numbers of the rulings whose lines are whole, and the lines that are not."""
        with open(path or self.path, "rb") as file:
            rows = file.read().split(b"\n")
        numbers, broken = [], []
        for row in filter(None, rows):
            try:
                numbers.append(json.loads(row)["number"])
            except ValueError:
                broken.append(row)
        return numbers, broken

    def assert_each_has_its_line(self, granted, path=None):
        numbers, broken = self.lines(path)
        self.assertEqual([each for each in granted if numbers.count(each) != 1], [], broken)
        # What could not be written whole is the begin of a line, and nothing stands behind it.
        self.assertEqual([row for row in broken if row.count(b"{") > 1], [])

    def is_told(self, node):
        return any(line.startswith(f"taosd: {self.path}: ") for line in node.told)

    def ends_by_a_write_fault(self, node):
        self.assertIsNotNone(node.seconds_to_end())
        self.assertEqual(node.process.returncode, WRITE_FAULT, node.told)
        self.assertTrue(self.is_told(node), node.told)


class Full(Decisions):
    def test_a_file_that_is_full_ends_it_and_the_next_start_glues_nothing(self):
        # The signal of a file at its limit is ignored where a full device is meant.
        for is_ignored in True, False:
            for is_many in True, False:
                with self.subTest(is_ignored=is_ignored, is_many=is_many):
                    self.fills_and_starts_again(is_ignored, is_many)

    def fills_and_starts_again(self, is_ignored, is_many):
        if os.path.exists(self.path):
            os.remove(self.path)
        node = self.logging(is_many=is_many, preexec_fn=limited, restore_signals=not is_ignored)
        granted = self.granted(node)
        self.assertGreater(len(granted), 10)
        self.ends_by_a_write_fault(node)
        self.assert_each_has_its_line(granted)
        again = self.logging(is_many=is_many)
        more = self.granted(again, 5)
        self.assertEqual(len(more), 5)
        again.asked_to_stop()
        self.assertIsNotNone(again.seconds_to_end())
        self.assert_each_has_its_line(granted + more)

    def test_a_limit_of_sizes_is_a_fault_that_is_served_on_where_lines_may_be_dropped(self):
        node = self.logging(["--decisions-may-drop"], preexec_fn=limited)
        self.assertEqual(len(self.granted(node)), MANY)
        self.assertTrue(waits_for(lambda: self.is_told(node), PATIENCE), node.told)
        node.asked_to_stop()
        self.assertIsNotNone(node.seconds_to_end())
        self.assertEqual(node.process.returncode, 0)
        self.assert_each_has_its_line([])

    def test_another_file_has_the_lines_once_one_is_full(self):
        node = self.logging(["--decisions-may-drop"], preexec_fn=limited, restore_signals=False)
        self.granted(node)
        os.rename(self.path, self.path + ".1")
        self.assertTrue(waits_for(lambda: os.path.exists(self.path), PATIENCE))
        self.assert_each_has_its_line(self.granted(node, 20))
        self.assert_each_has_its_line([], self.path + ".1")

    def test_a_device_that_has_room_again_has_whole_lines(self):
        folder = os.path.dirname(self.path)
        if not can_mount(folder):
            self.skipTest("no file system can be mounted here")
        listen = f"{HERE}:0"
        words = [PROGRAM, "--tell-addresses", "--stop-at-end", "--decisions", self.path, "--decisions-may-drop", "--clients", "20",
                 self.file(node_text()), listen, "-", "serve", "--connections", "1000"]
        node = self.process([*MOUNTED, folder, *words])
        node.is_begun.wait(PATIENCE)
        inside = f"/proc/{node.pid}/root{folder}"
        with open(os.path.join(inside, "other"), "wb") as other:
            other.truncate(0)
            os.posix_fallocate(other.fileno(), 0, 52 * KIB)
        self.assertEqual(len(self.granted(node)), MANY)
        self.assertTrue(waits_for(lambda: self.is_told(node), PATIENCE), node.told)
        os.remove(os.path.join(inside, "other"))
        self.assert_each_has_its_line(self.granted(node, 20), os.path.join(inside, "decisions"))


class Gone(Decisions):
    """The file's path is gone, and can't be made again."""

    def takes_the_folder(self):
        shutil.rmtree(os.path.dirname(self.path))

    def renames_the_folder(self):
        os.rename(os.path.dirname(self.path), os.path.dirname(self.path) + ".old")

    def puts_a_folder_in_its_place(self):
        os.rename(self.path, self.path + ".1")
        os.mkdir(self.path)

    def after(self, happens, options=()):
        """A node to which it happened, a while ago."""
        node = self.logging(options)
        self.assertEqual(len(self.granted(node, 5)), 5)
        happens()
        self.assertTrue(waits_for(lambda: self.is_told(node), PATIENCE), "nothing is told")
        return node

    def each(self, holds):
        for happens in self.takes_the_folder, self.renames_the_folder, self.puts_a_folder_in_its_place:
            shutil.rmtree(self.folder)
            os.makedirs(os.path.dirname(self.path))
            with self.subTest(happens.__name__):
                holds(happens)

    def grants_nothing(self, happens):
        node = self.after(happens)
        self.assertEqual(self.granted(node, 5), [])
        self.ends_by_a_write_fault(node)

    def writes_once_it_can(self, happens):
        node = self.after(happens, ["--decisions-may-drop"])
        self.assertEqual(len(self.granted(node, 5)), 5)
        shutil.rmtree(self.path, ignore_errors=True)
        os.makedirs(os.path.dirname(self.path), exist_ok=True)
        self.assertTrue(waits_for(lambda: os.path.isfile(self.path), PATIENCE))
        # Lines go there a moment after it was made.
        self.assertTrue(waits_for(lambda: self.granted(node, 1)[0] in self.lines()[0], PATIENCE))
        self.assert_each_has_its_line(self.granted(node, 5))

    def test_nothing_more_is_granted(self):
        self.each(self.grants_nothing)

    def test_it_serves_on_where_lines_may_be_dropped_and_writes_once_it_can(self):
        self.each(self.writes_once_it_can)


class Begins(Decisions):
    def test_a_pipe_without_a_reader_holds_no_start_up(self):
        os.mkfifo(self.path)
        words = [PROGRAM, "--tell-addresses", "--stop-at-end", "--decisions", self.path, self.file(node_text()), f"{HERE}:0", "-", "serve"]
        node = self.process(words)
        self.assertTrue(node.is_begun.wait(PATIENCE), "it neither listens nor ends")
        if node.port is None:
            self.assertEqual(node.process.wait(PATIENCE), NOT_BEGUN)
            return
        node.asked_to_stop()
        self.assertIsNotNone(node.seconds_to_end())

    def test_a_log_that_others_may_read_is_warned_of(self):
        for mode, is_warned in (0o600, False), (0o400, False), (0o200, False), (0o644, True), (0o640, True), (0o604, True), (0o666, True):
            with open(self.path, "wb"):
                os.chmod(self.path, mode)
            node = self.logging()
            self.assertEqual(f"taosd: {self.path}: others may read it" in node.told, is_warned, (oct(mode), node.told))
            node.asked_to_stop()
            self.assertIsNotNone(node.seconds_to_end())
            os.remove(self.path)
