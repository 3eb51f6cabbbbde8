"""Journals as bytes: those of an anchored read, and of a Write and a Read by a certificate."""
import unittest

from vectors import turned
from yoritzal import Malformed, read_journals

C1 = "01 00000001 00 0100000002 020000000a 00000000000007d0 0000000000000001"
ANCHORED = "0002 0100000001 020000000a 00000001 09 0000 0001 0000"
HANDED = """0003 0100000001 020000000a 0100000002 00000004 09 0000 0001 0000 0a 0000 0002 0001 0000
    0b 0001 0002 0001 00000001 00000000 0d 0002 0001 00000002"""
READ = bytes.fromhex(f"""0701 00000001 0000000000000002
    01 00000001 0000000000000001 00000000000003e8 0100000001 01 0f 020000000a 01 00 00
    02 0000000000000000 00 00000017 {ANCHORED} 00 00
    00000001 00000005 0000000000000001 00000000 0000000000000000 01 01 00""")
LOGIN = bytes.fromhex(f"""0701 00000001 0000000000000004
    01 00000001 0000000000000001 00000000000003e8 0100000001 01 0f 020000000a 02 00 00
    02 0000000000000000 00 00000017 {ANCHORED} 00 00
    01 00000002 0000000000000001 00000000000003e8 0100000002 01 0f 020000000a 01 01 0020 {C1} 00
    02 0000000000000002 00 0000003d {HANDED} 01 0020 {C1} 00
    00000001 00000005 0000000000000002
    00000000 0000000000000000 02 0003 6e6577 01 00
    00000000 0000000000000002 01 01 00""")
WITHDRAWN = bytes.fromhex("""0701 00000001 0000000000000002 07 00000001 00 00000001 07 000000a4 01 40
    00000001 00000005 0000000000000001 00000000 0000000000000000 08 00000001 01 00""")
WITHDRAWALS = [
    "shard 0 entry 0 withdraw 1 -> removed 1",
    "shard 0 entry 1 withdraw 164 -> full 64",
    "object 5 entry 0 ask 0/0 withdraw 1 -> granted 0",
]
LINES = [
    "shard 0 entry 0 ask channel 1 seq 1 reading 1000 certificates 0 right write -> miss",
    "shard 0 entry 1 keep ask 0 entry 0 lease 18446744073709551615 -> kept",
    "shard 0 entry 2 ask channel 2 seq 1 reading 1000 certificates 1 right read -> miss",
    "shard 0 entry 3 keep ask 2 entry 0 lease 2000 -> kept",
    "object 5 entry 0 ask 0/0 write 3 -> granted 0",
    "object 5 entry 1 ask 0/2 read -> granted 0",
]


def place_of(data):
    """Where the bytes are refused, or None."""
    try:
        read_journals(data)
    except Malformed as fault:
        return fault.offset
    return None


class Journals(unittest.TestCase):
    def test_they_are_read_as_the_lines_of_an_audit(self):
        self.assertEqual((len(READ), len(list(read_journals(READ).lines()))), (120, 3))
        self.assertEqual(list(read_journals(LOGIN).lines()), LINES)
        self.assertEqual(list(read_journals(WITHDRAWN).lines()), WITHDRAWALS)

    def test_what_a_replay_names_is_told_with_its_ask_and_what_was_due(self):
        journals = read_journals(LOGIN)
        self.assertEqual(journals.explained("illegal object 5 entry 1 ruling"), [LINES[5], LINES[2], "another ruling was due to this Ask"])
        self.assertEqual(journals.explained("illegal shard 0 entry 3 keep")[:-1], [LINES[3], LINES[2]])
        self.assertEqual(journals.explained("illegal shard 0 entry 0 told")[:-1], [LINES[0]])
        self.assertEqual(len(journals.explained("illegal shard 0 entry 0 cells")), 1)
        self.assertEqual(journals.explained("legal entries 6"), ["legal entries 6"])

    def test_the_first_byte_that_cannot_stand_is_named(self):
        for at, other in [(0, 8), (1, 2), (14, 0), (14, 8), (40, 9), (41, 16), (47, 3), (48, 17), (49, 4), (117, 9), (118, 2)]:
            self.assertEqual(place_of(READ[:at] + bytes([other]) + READ[at + 1:]), at)
        self.assertEqual(place_of(READ + b"\0"), 120)
        self.assertEqual(place_of(bytes.fromhex("0701 00000001 0000010000000000")), 14)
        self.assertEqual(place_of(bytes.fromhex("0701 00000000 00000002" + 2 * "00000005 0000000000000000")), 22)

    def test_those_that_are_cut_are_refused_at_the_cut(self):
        for data in (READ, LOGIN, WITHDRAWN):
            for end in range(len(data)):
                self.assertEqual(place_of(data[:end]), end)

    def test_a_bit_that_is_turned_is_refused_or_read_as_other_journals(self):
        journals = read_journals(READ)
        for bit in range(8 * len(READ)):
            other = turned(READ, bit)
            self.assertTrue(place_of(other) is not None or read_journals(other) != journals, f"at {bit}")
