"""Texts of principals, as docs/FORMATS.md has them."""
import unittest

import vectors  # noqa: F401, for the path of the package
from yoritzal import And, As, For, Key, Name, Names, NoPrincipal, Quoting

NAMES = Names({10: "alice", 20: "ws1"}, {1: "taos", 2: "alice"})
SEAT = And(As(Name(20), 1), Key(14))
TEXTS = [
    ("key:15 | alice", Quoting(Key(15), Name(10))),
    ("(ws1 as taos) and key:14", SEAT),
    ("((ws1 as taos) and key:14) for alice", For(SEAT, Name(10))),
    ("alice as alice", As(Name(10), 2)),
    ("name:11 as role:7", As(Name(11), 7)),
    ("key:4294967295", Key(4294967295)),
]
SPACED = [("((alice))", Name(10)), ("\t key:15|alice ", Quoting(Key(15), Name(10))), ("(alice)and(ws1)", And(Name(10), Name(20)))]
NONE = ["", "alice ws1", "alice and", "alice and ws1 and alice", "(alice", "alice)", "bob", "alice as ws1", "key:01", "key:4294967296",
        "key:", "and", "alice andws1", "key:14and alice", "Alice", "alice as key:1", "role:1", "(" * 1000 + "alice" + ")" * 1000,
        " and ".join(["(alice"] * 16) + " and alice" + ")" * 16]


class Texts(unittest.TestCase):
    def test_principals_have_their_texts(self):
        for text, principal in TEXTS:
            self.assertEqual((NAMES.text(principal), NAMES.principal(text)), (text, principal))

    def test_blanks_and_parentheses_may_stand_between(self):
        for text, principal in SPACED:
            self.assertEqual(NAMES.principal(text), principal)

    def test_other_texts_are_none(self):
        for text in NONE:
            with self.assertRaises(NoPrincipal, msg=text):
                NAMES.principal(text)

    def test_without_a_table_each_has_its_number(self):
        for principal in [each for _, each in TEXTS]:
            self.assertEqual(Names().principal(str(principal)), principal)
            self.assertEqual(Names().text(principal), str(principal))

    def test_a_file_has_the_table(self):
        lines = ["taos 1", "# name 7 none", " name 10\talice", "name 20 ws1", "role 1 taos", "channel 1 00", "role 2 alice"]
        self.assertEqual((Names.of_file(lines).names, Names.of_file(lines).roles), (NAMES.names, NAMES.roles))

    def test_a_table_is_refused_that_a_node_would_refuse(self):
        for texts in [{1: "and"}, {1: "Alice"}, {1: ""}, {1: "a" * 33}, {1: "a", 2: "a"}]:
            with self.assertRaises(ValueError):
                Names(texts)
            with self.assertRaises(ValueError):
                Names((), texts)


if __name__ == "__main__":
    unittest.main()
