"""The worked frames of docs/FORMATS.md."""
import unittest

from vectors import key_of, payloads_of, turned, worked
from yoritzal import (And, As, Body, Denied, Entry, For, Granted, Key, Malformed, Missing, Name, ProofFault, Quoting, Read,
                      Request, Unbelieved, believed, body_of, opens, read_proof, sealed)

ALICE = Name(10)
LIST = [Entry(15, ALICE)]
ANCHORS = [(1, 10)]
ANCHORED, REPLY, DENIAL, LATER = (payloads_of(block)[0] for block in worked("An anchored read")[1:])
HANDED, HANDED_REPLY = (payloads_of(block)[0] for block in worked("A hand-off"))
MINTED = worked("Certificates")[-1]
HAND_OFF = Body(1, Key(2), ALICE, 4102444800, 1)
FIRST = Request(1, 1, 5, Read())
SECOND = Request(2, 1, 5, Read())
WITH_HAND_OFF = Request(2, 1, 5, Read(), (sealed(key_of(7), HAND_OFF, 2),))


class Worked(unittest.TestCase):
    def test_requests_are_written_as_they_stand_there(self):
        for request, payload in [(FIRST, ANCHORED), (WITH_HAND_OFF, HANDED)]:
            self.assertEqual(request.payload(key_of(request.channel)), payload)

    def test_principals_have_the_texts_of_node_files(self):
        seat = And(As(Name(20), 1), Key(14))
        self.assertEqual(str(Quoting(seat, Name(30))), "((name:20 as role:1) and key:14) | name:30")
        self.assertEqual(str(For(seat, Name(30))), "((name:20 as role:1) and key:14) for name:30")

    def test_a_certificate_is_sealed_as_mint_prints_it(self):
        self.assertEqual(sealed(key_of(1), HAND_OFF), MINTED)
        self.assertEqual(body_of(MINTED), HAND_OFF)

    def test_a_certificate_with_a_bit_turned_does_not_open(self):
        self.assertTrue(opens(MINTED, key_of(1)))
        for bit in range(8 * len(MINTED)):
            self.assertFalse(opens(turned(MINTED, bit), key_of(1)), f"at {bit}")

    def test_grants_are_read_and_checked(self):
        for request, payload, lines, bodies in [(FIRST, REPLY, 1, ()), (WITH_HAND_OFF, HANDED_REPLY, 4, (HAND_OFF,))]:
            reply = believed(payload, request.channel, key_of(request.channel))
            self.assertIsInstance(reply, Granted)
            self.assertEqual((reply.kept, reply.entry, reply.shard, reply.place, reply.result), (False, 0, 0, 0, b"hello"))
            self.assertEqual((len(reply.proof.lines), reply.certificates), (lines, bodies))
            reply.check(request, ANCHORS, LIST)

    def test_denials_are_read(self):
        for payload, place in [(DENIAL, 0), (LATER, 2)]:
            self.assertEqual(believed(payload, 2, key_of(2)), Denied(2, 1, 0, place, Missing(0, ALICE)))

    def test_replies_with_a_bit_turned_are_not_believed(self):
        for channel, payload in [(1, REPLY), (2, DENIAL), (2, LATER), (2, HANDED_REPLY)]:
            for bit in range(8 * len(payload)):
                with self.assertRaises(Unbelieved, msg=f"at {bit}"):
                    believed(turned(payload, bit), channel, key_of(channel))

    def test_replies_that_are_cut_are_not_believed(self):
        for end in range(len(HANDED_REPLY)):
            with self.assertRaises(Unbelieved, msg=f"at {end}"):
                believed(HANDED_REPLY[:end], 2, key_of(2))

    def test_a_reply_under_the_key_of_another_channel_is_not_believed(self):
        for channel, key in [(1, key_of(1)), (1, key_of(2)), (3, key_of(2))]:
            with self.assertRaises(Unbelieved):
                believed(DENIAL, channel, key)

    def test_proofs_with_a_bit_turned_show_nothing(self):
        """Each bit of these proofs is needed: no other proof of the same is one bit away."""
        for request, payload in [(FIRST, REPLY), (WITH_HAND_OFF, HANDED_REPLY)]:
            at = 28
            end = at + 4 + int.from_bytes(payload[at : at + 4], "big")
            reply = believed(payload, request.channel, key_of(request.channel))
            for bit in range(8 * (end - at - 4)):
                with self.assertRaises((Malformed, ProofFault), msg=f"at {bit}"):
                    proof = read_proof(turned(payload[at + 4 : end], bit))
                    proof.follows(ANCHORS, reply.certificates)
                    if not proof.concludes(request.subject, ALICE):
                        raise ProofFault("another conclusion")

    def test_a_grant_is_refused_by_other_anchors_and_lists(self):
        reply = believed(HANDED_REPLY, 2, key_of(2))
        for anchors in [], [(2, 10)], [(1, 11)], [(3, 30), (1, 10)]:
            with self.assertRaises(ProofFault):
                reply.check(WITH_HAND_OFF, anchors, LIST)
        for entries in [], [Entry(14, ALICE)], [Entry(15, Name(11))], [Entry(15, Key(2))]:
            with self.assertRaises(ProofFault):
                reply.check(WITH_HAND_OFF, ANCHORS, entries)
        with self.assertRaises(ProofFault):
            reply.check(Request(2, 1, 5, Read(), (), ALICE), ANCHORS, LIST)


if __name__ == "__main__":
    unittest.main()
