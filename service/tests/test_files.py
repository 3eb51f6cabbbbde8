"""Files of keys that others than their owner may change: each is warned of, and served all the same."""
import os

from nodes import PATIENCE, Case, node_text, relay_text, waits_for

TEXTS = {"run": node_text(), "relay": relay_text()}
# Whether others than the owner may write.
MODES = {0o600: False, 0o400: False, 0o640: False, 0o644: False, 0o620: True, 0o602: True, 0o622: True, 0o660: True, 0o666: True}
# One with 1 before it lets each change what is its own alone, as /tmp.
FOLDER_MODES = {0o700: False, 0o755: False, 0o1777: False, 0o777: True, 0o775: True, 0o722: True}


def told_by(process):
    """The lines that it told of who may write."""
    return [line for line in process.told if "write" in line]


class Warnings(Case):
    def warned(self, path, command):
        """The lines that a run with no input tells of who may write."""
        run = self.ran(path, "-", "-", command, input=b"")
        self.assertEqual(run.returncode, 0, run.stderr)
        return [line for line in run.stderr.decode("utf-8").splitlines() if "write" in line]

    def test_a_file_that_others_may_write_is_warned_of(self):
        for command, text in TEXTS.items():
            for mode, is_warned in MODES.items():
                path = self.file(text, mode=mode)
                lines = self.warned(path, command)
                self.assertEqual(len(lines), is_warned, (command, oct(mode), lines))
                self.assertTrue(all(line.startswith(f"taosd: {path}: ") for line in lines), lines)

    def test_a_folder_that_others_may_write_is_warned_of(self):
        folder = os.path.join(self.folder, "keys")
        os.mkdir(folder)
        for command, text in TEXTS.items():
            path = self.file(text, os.path.join("keys", command))
            for mode, is_warned in FOLDER_MODES.items():
                os.chmod(folder, mode)
                lines = self.warned(path, command)
                self.assertEqual(len(lines), is_warned, (command, oct(mode), lines))
                self.assertTrue(all(line.startswith(f"taosd: {folder}") for line in lines), lines)

    def test_a_folder_above_is_warned_of(self):
        os.makedirs(os.path.join(self.folder, "above", "keys"))
        path = self.file(TEXTS["run"], os.path.join("above", "keys", "node"))
        self.assertEqual(self.warned(path, "run"), [])
        os.chmod(os.path.join(self.folder, "above"), 0o777)
        self.assertEqual(len(self.warned(path, "run")), 1)

    def test_who_serves_is_warned_too(self):
        for text, command in (TEXTS["run"], "serve"), (TEXTS["relay"], "relay-serve"):
            for mode, count in (0o600, 0), (0o622, 1):
                process = self.serving(text, command=command, mode=mode)
                # It listens before it reads the file.
                waits_for(lambda: len(told_by(process)) >= count, PATIENCE)
                self.assertEqual(len(told_by(process)), count, process.told)
