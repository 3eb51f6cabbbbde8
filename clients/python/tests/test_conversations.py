"""The conversations of crates/taos_cases: requests are written as they came, and replies are taken as they are meant."""
import functools
import unittest

from vectors import asked, conversations, opening_of, payloads_of, turned
from yoritzal import (Discard, Forget, Granted, Hold, MalformedRequest, Read, SetList, Sweep, Unbelieved, Withdraw, Write,
                      believed, is_tag, is_unsealed, read_reply)

MOST_BYTES = 200_000
TAG = 32
# How many there are at least: so that a test which no longer finds its vectors fails.
LEAST, LEAST_GRANTS = 700, 200


@functools.lru_cache
def served():
    """The conversations of a node that serves, each with its opening."""
    cases = [case for case in conversations() if case.words("words")[:1] == ["run"] and len(case.bytes("input")) <= MOST_BYTES]
    return [(case, opening_of(case)) for case in cases if opening_of(case)]


def sound_request(payload, opening):
    """The request of a payload that is one under its channel's key, or None."""
    try:
        request = asked(payload)
    except (ValueError, KeyError):
        return None
    key = opening.keys.get(request.channel)
    return request if key and is_tag(payload[-TAG:], key, payload[:-TAG]) else None


def replies(case):
    """The payloads of the output that the conversation lays down, each with its place among all. Those of grants whose
    proof may be any are left out."""
    place, laid = 0, b""
    for part in [*case.written, None]:
        if isinstance(part, bytes):
            laid += part
            continue
        for payload in payloads_of(laid):
            yield place, payload
            place += 1
        place, laid = place + 1, b""


def channel_of(payload):
    return int.from_bytes(payload[1:5], "big")


class Conversations(unittest.TestCase):
    def test_requests_are_written_as_they_came(self):
        count, operations = 0, set()
        for case, opening in served():
            answers = dict(replies(case))
            for place, payload in enumerate(payloads_of(case.bytes("input"))):
                request = sound_request(payload, opening)
                if request is None:
                    continue
                try:
                    written = request.payload(opening.keys[request.channel])
                except ValueError:
                    # What the client does not write the node does not read either.
                    self.assertEqual(read_reply(answers[place]).status, MalformedRequest.status, f"{case.file}: {case.name}")
                    continue
                self.assertEqual(written, payload, f"{case.file}: {case.name}")
                count += 1
                operations.add(type(request.operation))
        self.assertEqual(operations, {Read, Write, SetList, Hold, Discard, Forget, Sweep, Withdraw})
        self.assertGreater(count, LEAST)

    def test_replies_are_believed_as_they_are_sealed(self):
        count, statuses = 0, set()
        for case, opening in served():
            for _, payload in replies(case):
                if is_unsealed(payload):
                    with self.assertRaises(Unbelieved) as told:
                        believed(payload, 1, opening.keys.get(1, bytes(32)))
                    self.assertEqual(told.exception.told, read_reply(payload))
                else:
                    reply = believed(payload, channel_of(payload), opening.keys[channel_of(payload)])
                    self.assertEqual((reply.number, reply.status), (int.from_bytes(payload[5:13], "big"), payload[13]))
                    count += 1
                statuses.add(payload[13])
        self.assertEqual(statuses, set(range(16)))
        self.assertGreater(count, LEAST)

    def test_replies_with_a_bit_turned_are_not_believed(self):
        """One bit of each, another one in each."""
        count = 0
        for case, opening in served():
            for _, payload in replies(case):
                key = opening.keys.get(channel_of(payload))
                if key is None:
                    continue
                count += 1
                with self.assertRaises(Unbelieved, msg=f"{case.file}: {case.name}"):
                    believed(turned(payload, count * 31 % (8 * len(payload))), channel_of(payload), key)
        self.assertGreater(count, LEAST)

    def test_grants_are_borne_out(self):
        """By the lists of the opening, so where no list was set."""
        count = 0
        for case, opening in served():
            requests = [sound_request(payload, opening) for payload in payloads_of(case.bytes("input"))]
            if any(request and isinstance(request.operation, SetList) for request in requests):
                continue
            for place, payload in replies(case):
                if payload[13] == Granted.status:
                    request = requests[place]
                    reply = believed(payload, request.channel, opening.keys[request.channel])
                    reply.check(request, opening.anchors, opening.objects[request.object])
                    count += 1
        self.assertGreater(count, LEAST_GRANTS)


if __name__ == "__main__":
    unittest.main()
