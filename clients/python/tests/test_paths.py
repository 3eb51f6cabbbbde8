"""Certificates on their way over domains, as the conversations of `path` print them."""
import unittest

from vectors import conversations, payloads_of
from yoritzal import CARRIED, RELAYED, Malformed, body_of, opens, visited


def keys_in(text):
    """The keys that a path file names: by the two domains of a link, and by the domain of a node and its number."""
    links, nodes = {}, {}
    for words in (line.split() for line in text.splitlines()):
        if words[:1] in (["link"], ["node"]):
            first, second, key = int(words[1]), int(words[2]), bytes.fromhex(words[3])
            if words[0] == "node":
                nodes[first, second] = key
            else:
                links[first, second] = links[second, first] = key
    return links, nodes


def routes():
    """The bodies that came, the numbers of the route, the lines that were printed, and the key of each."""
    for case in conversations("paths.txt"):
        lines = case.bytes("output").split()
        if lines and case.text("status") == "0":
            words = " ".join(case.words("words")).replace("=", " ").split()
            numbers = [int(number) for number in words[words.index("--route") + 1].split(",")]
            links, nodes = keys_in(case.bytes("file").decode("ascii"))
            keys = [links[pair] for pair in zip(numbers, numbers[1:])]
            keys.append(nodes[numbers[-1], int(words[words.index("--node") + 1])])
            yield payloads_of(case.bytes("input"))[0], numbers, [bytes.fromhex(line.decode("ascii")) for line in lines], keys


class Paths(unittest.TestCase):
    def test_each_line_has_the_body_that_came_and_the_domains_before(self):
        count = 0
        for came, numbers, lines, keys in routes():
            self.assertEqual(len(lines), len(numbers))
            for place, (line, key) in enumerate(zip(lines, keys), 1):
                last = place == len(lines)
                self.assertEqual((line[0], visited(line)), (RELAYED, []) if last else (CARRIED, numbers[:place]))
                self.assertEqual(body_of(line), body_of(came))
                self.assertTrue(opens(line, key))
                count += 1
        self.assertGreater(count, 8)

    def test_a_certificate_on_its_way_visited_one_to_three_domains(self):
        for front in (b"", b"\0", b"\4" + bytes(16), b"\1" + bytes(3)):
            with self.assertRaises(Malformed, msg=front):
                visited(bytes([CARRIED]) + front)


if __name__ == "__main__":
    unittest.main()
