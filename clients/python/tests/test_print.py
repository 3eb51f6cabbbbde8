"""Prints what node files and relay files mean by the program that PROGRAM names."""
import os
import subprocess
import tempfile
import unittest

from vectors import key_of

PROGRAM = os.environ.get("PROGRAM")
# A node as a person writes it, and in the binary form: its settings, then its channels, anchors, certificates in common and
# objects, each list behind its count.
WRITTEN = f"""# who is who

\ttaos  1
object 9
object 5
allow 5 rwcm ( name:10 )
content 5 68656C6C6F
anchor 1 name:10
channel 2 {key_of(2).hex()}
channel 1 {key_of(1).hex()}
node 7 {key_of(7).hex()}
shards 2
"""
BINARY = (
    bytes.fromhex("0001") + (7).to_bytes(4, "big") + key_of(7)
    + b"".join(number.to_bytes(width, "big") for number, width in [(2, 4), (3600, 8), (16384, 8), (2, 2)])
    + (2).to_bytes(4, "big") + key_of(2) + (1).to_bytes(4, "big") + key_of(1)
    + bytes.fromhex("01 00000001 0000000a" "00" "0002" "00000009 0000 00" "00000005 0005 68656c6c6f 01 0f 02 0000000a")
)
PRINTED = f"""taos 1
node 7 {key_of(7).hex()}
shards 2
keep 3600
journal 16384
channel 1 {key_of(1).hex()}
channel 2 {key_of(2).hex()}
anchor 1 name:10
object 5
content 5 68656c6c6f
allow 5 rwcm name:10
object 9
""".encode("ascii")


@unittest.skipUnless(PROGRAM, "no PROGRAM is named")
class Print(unittest.TestCase):
    def printed(self, data, word="--print"):
        """The status, what is printed of a file of these bytes, and the note."""
        with tempfile.NamedTemporaryFile(delete=False) as file:
            file.write(data)
        self.addCleanup(os.remove, file.name)
        done = subprocess.run([PROGRAM, word, file.name], stdin=subprocess.DEVNULL, capture_output=True, timeout=60)
        return done.returncode, done.stdout, done.stderr

    def test_both_forms_are_printed_by_their_one_text(self):
        for data in (WRITTEN.encode("ascii"), BINARY, PRINTED):
            self.assertEqual(self.printed(data), (0, PRINTED, b""))

    def test_a_file_is_looked_over_in_a_line(self):
        node = (0, b"node file: node 7 channels 2 objects 2 shards 2 journal 16384\n", b"")
        relay = f"taos-relay 1\nnode 7 {key_of(7).hex()}\nissuer 1 {key_of(1).hex()}\nissuer 2 {key_of(2).hex()}\n".encode("ascii")
        for data, wanted in (
            (WRITTEN.encode("ascii"), node), (BINARY, node), (relay, (0, b"relay file: issuers 2 nodes 1\n", b"")),
            (b"taos 1\nshards 65\n", (2, b"", b"taos: node file: line 2: limit\n")),
            (relay + b"issuer 1 00\n", (2, b"", b"taos: node file: line 5: hex\n")),
            (b"node 7\n", (2, b"", b"taos: node file: line 1: first line\n")),
        ):
            self.assertEqual(self.printed(data, "--check-file"), wanted, data)

    def test_a_file_that_is_refused_prints_nothing(self):
        self.assertEqual(self.printed(b"taos 1\nshards 65\n"), (2, b"", b"taos: node file: line 2: limit\n"))
        self.assertEqual(self.printed(BINARY[:-1]), (2, b"", b"taos: node file: byte %d: malformed\n" % (len(BINARY) - 1)))

    def test_a_file_that_is_not_there_is_a_read_fault(self):
        status, output, note = self.printed(b"")
        self.assertEqual((status, output, note), (2, b"", b"taos: node file: line 1: first line\n"))
        done = subprocess.run([PROGRAM, "--print", os.devnull + "/none"], stdin=subprocess.DEVNULL, capture_output=True, timeout=60)
        self.assertEqual((done.returncode, done.stdout, done.stderr.splitlines()[-1]), (3, b"", b"taos: read fault"))

    def test_an_output_that_takes_nothing_is_a_write_fault(self):
        with tempfile.NamedTemporaryFile(delete=False) as file, open("/dev/full", "wb") as full:
            file.write(PRINTED)
            file.flush()
            self.addCleanup(os.remove, file.name)
            done = subprocess.run([PROGRAM, "--print", file.name], stdin=subprocess.DEVNULL, stdout=full, stderr=subprocess.PIPE, timeout=60)
        self.assertEqual((done.returncode, done.stderr), (4, b"taos: write fault\n"))


if __name__ == "__main__":
    unittest.main()
