"""The log of decisions where its file has no room, is gone, or is a pipe; and what is told of files that others may change. With the program
that PROGRAM names."""
import json
import os
import resource
import shutil
import socket
import subprocess
import tempfile
import time
import unittest

from test_service import HERE, NODE, PATIENCE, Case, frames_of, reads

LOST = b"a decision can't be written\n"
# The seconds within which a path is looked at again.
SOON = 1


class Log(Case):
    def setUp(self):
        self.folder = tempfile.mkdtemp()
        self.addCleanup(shutil.rmtree, self.folder, ignore_errors=True)
        self.path = os.path.join(self.folder, "decisions")

    def asked(self, node, numbers):
        """How many of these requests are answered, until one is not."""
        count = 0
        with socket.create_connection(("127.0.0.1", node.port), PATIENCE) as stream:
            for number in numbers:
                stream.sendall(reads(number))
                if frames_of(stream, 1) == [b""]:
                    break
                count += 1
        return count

    def lines(self, path=None):
        with open(path or self.path, "rb") as file:
            return file.read().split(b"\n")

    def numbers(self, path=None):
        """The numbers of the lines, each of which is whole."""
        *lines, last = self.lines(path)
        self.assertEqual(last, b"")
        return [json.loads(line)["number"] for line in lines]


class Room(Log):
    def limited(self):
        resource.setrlimit(resource.RLIMIT_FSIZE, (8192, 8192))

    def mounted(self, size):
        how = ["-o", f"size={size}"] if not os.path.ismount(self.folder) else ["-o", f"remount,size={size}"]
        if subprocess.run(["mount", "-t", "tmpfs", *how, "none", self.folder], capture_output=True, check=False).returncode:
            self.skipTest("nothing can be mounted")
        self.addCleanup(subprocess.run, ["umount", self.folder], capture_output=True, check=False)

    def test_a_limit_of_the_size_of_files_is_as_a_full_device(self):
        node = self.node(options=["--decisions", self.path], preexec_fn=self.limited)
        count = self.asked(node, range(1, 200))
        self.assertEqual(node.wait(PATIENCE), 4)
        self.assertEqual(self.numbers(), list(range(1, count + 1)))
        self.assertLess(8192 - 300, os.path.getsize(self.path))
        self.assertIn(LOST, self.ends(node)[1])

    def test_within_a_limit_of_the_size_of_files_lines_may_be_dropped(self):
        node = self.node(options=["--decisions", self.path, "--decisions-may-drop"], preexec_fn=self.limited)
        self.assertEqual(self.asked(node, range(1, 200)), 199)
        self.assertEqual(self.ends(node)[0], 0)
        numbers = self.numbers()
        self.assertEqual(numbers, list(range(1, len(numbers) + 1)))

    def test_each_line_is_whole_on_a_device_that_is_full(self):
        self.mounted("16k")
        node = self.node(options=["--decisions", self.path], listen=f"{HERE},{HERE}")
        count = self.asked(node, range(1, 200))
        self.assertEqual(node.wait(PATIENCE), 4)
        self.assertEqual(self.numbers(), list(range(1, count + 1)))

    def test_lines_are_whole_again_once_a_device_has_room(self):
        self.mounted("16k")
        node = self.node(options=["--decisions", self.path, "--decisions-may-drop", "--clients", "10"], listen=f"{HERE},{HERE}")
        self.assertEqual(self.asked(node, range(1, 200)), 199)
        before = self.numbers()
        self.assertLess(len(before), 199)
        self.mounted("64k")
        self.assertEqual(self.asked(node, range(200, 220)), 20)
        self.assertEqual(self.ends(node)[0], 0)
        self.assertEqual(self.numbers(), before + list(range(200, 220)))


class Ends(Log):
    def test_a_last_line_that_is_open_is_closed_first(self):
        for text, closed in (b'{"a":1', [b'{"a":1']), (b'{"a":1}\n', [b'{"a":1}']), (b"", []):
            with open(self.path, "wb") as file:
                file.write(text)
            node = self.node(options=["--decisions", self.path])
            self.assertEqual(self.asked(node, [1, 2]), 2)
            self.assertEqual(self.ends(node)[0], 0)
            *before, one, two, last = self.lines()
            self.assertEqual((before, last), (closed, b""))
            self.assertEqual([json.loads(line)["number"] for line in (one, two)], [1, 2])

    def test_where_the_path_is_gone_it_is_told_and_no_line_can_be_written(self):
        for option in [], ["--decisions-may-drop"]:
            os.makedirs(self.folder, exist_ok=True)
            node = self.node(options=["--decisions", self.path, *option])
            self.assertEqual(self.asked(node, [1]), 1)
            shutil.rmtree(self.folder)
            time.sleep(SOON)
            self.assertEqual(self.asked(node, [2, 3]), 2 if option else 0)
            if option:
                # It is made again once that is possible.
                os.makedirs(self.folder)
                time.sleep(SOON)
                self.assertEqual(self.asked(node, [4]), 1)
            else:
                self.assertEqual(node.wait(PATIENCE), 4)
            status, notes = self.ends(node)
            self.assertEqual(status, 0 if option else 4)
            self.assertEqual(notes.count(b": No such file or directory"), 1, notes)
            self.assertIn(LOST, notes)
            if option:
                self.assertEqual(self.numbers(), [4])

    def test_a_pipe_that_nobody_reads_holds_up_no_start(self):
        os.mkfifo(self.path)
        node = self.node(options=["--decisions", self.path])
        reader = os.open(self.path, os.O_RDONLY | os.O_NONBLOCK)
        self.assertEqual(self.asked(node, [1]), 1)
        self.assertEqual(json.loads(os.read(reader, 65536))["number"], 1)
        os.close(reader)
        self.assertEqual(self.asked(node, [2]), 0)
        self.assertEqual(node.wait(PATIENCE), 4)
        self.assertIn(LOST, self.ends(node)[1])


class Others(Log):
    def told(self, path, *words):
        run = self.ran(*words, path, "-", "-", "run", input=b"", stdout=subprocess.PIPE)
        self.assertEqual(run.returncode, 0)
        return [line for line in run.stderr.decode().splitlines() if "others" in line]

    def test_who_else_may_read_or_write_a_file_or_its_folders_is_told(self):
        path = os.path.join(self.folder, "inner", "node")
        os.mkdir(os.path.dirname(path))
        with open(path, "w", encoding="ascii") as file:
            file.write(NODE)
        for mode, words in (0o600, []), (0o640, ["read"]), (0o604, ["read"]), (0o620, ["write"]), (0o602, ["write"]), (0o666, ["read", "write"]):
            os.chmod(path, mode)
            self.assertEqual(self.told(path), [f"taosd: {path}: others may {word} it" for word in words], oct(mode))
        os.chmod(path, 0o600)
        inner = os.path.dirname(path)
        for folder in inner, self.folder:
            for mode, tells in (0o755, False), (0o775, True), (0o757, True), (0o1777, False):
                os.chmod(folder, mode)
                self.assertEqual(self.told(path), [f"taosd: {folder}: others may write it"] * tells, oct(mode))
            os.chmod(folder, 0o700)

    def test_who_else_may_read_or_write_the_log_is_told(self):
        node = self.file()
        for mode, words in (0o600, []), (0o644, ["read"]), (0o622, ["write"]):
            with open(self.path, "wb"):
                os.chmod(self.path, mode)
            self.assertEqual(self.told(node, "--decisions", self.path), [f"taosd: {self.path}: others may {word} it" for word in words], oct(mode))


if __name__ == "__main__":
    unittest.main()
