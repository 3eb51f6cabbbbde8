"""What `check` says of a request and its reply, the client says too: by its conversations, and by the program that PROGRAM
names, of grants that were changed and sealed again."""
import os
import random
import subprocess
import tempfile
import unittest

from vectors import asked, conversations, opening_of, payloads_of
from yoritzal import Granted, Malformed, ProofFault, is_tag, read_proof, read_reply, tag
from yoritzal.proofs import MAX_LINES

PROGRAM = os.environ.get("PROGRAM")
TAG = 32
LEAST = 40
# How many grants are changed, and where a grant says what it says: behind version, channel and number.
CHANGES, BEGIN = 200, 13
# What is looked at before the reply; the client made the request itself.
OF_REQUEST = {"request", "channel", "request-seal"}


def found(request, payload, opening):
    """What is wrong first, in the words of `check`, or how many lines and certificates a grant has."""
    try:
        reply = read_reply(payload)
        if isinstance(reply, Granted):
            read_proof(reply.proof_bytes, MAX_LINES), reply.certificates
    except Malformed:
        return "refused: reply"
    key = opening.keys[request.channel]
    if (reply.channel, reply.number) != (request.channel, request.number):
        return "refused: echo"
    if not is_tag(payload[-TAG:], key, payload[:-TAG]):
        return "refused: reply-seal"
    if not isinstance(reply, Granted):
        return "refused: status"
    if request.object not in opening.objects:
        return "refused: object"
    try:
        reply.check(request, opening.anchors, opening.objects[request.object], MAX_LINES)
    except ProofFault as fault:
        return f"refused: {fault}"
    return f"granted entry {reply.entry} lines {len(reply.proof.lines)} certificates {len(reply.certificates)}"


def agrees(said, verdict):
    """The client tells of an entry, a proof and a conclusion in words of its own."""
    if verdict == "refused: entry":
        return said.endswith("does not have the right")
    if verdict == "refused: conclusion":
        return "is of something else" in said
    if verdict == "refused: proof":
        return "does not follow" in said or "without lines" in said or "is of something else" in said
    return said == verdict


def pairs():
    """The pairs of a request and a reply that `check` is handed, each with its file's bytes, its opening and the verdict."""
    for case in conversations("check.txt", "check_ends.txt", "logins.txt"):
        verdict = b"".join(part for part in case.written if isinstance(part, bytes)).decode("ascii", "replace")
        opening, payloads = opening_of(case), payloads_of(case.bytes("input"))
        if case.words("words") == ["check"] and verdict.endswith("\n") and opening and len(payloads) == 2:
            yield case, opening, *payloads, verdict.strip()


def changed(reply, key, chance):
    """The reply with one byte behind its number changed, or two, under a tag that is right."""
    text = bytearray(reply[:-TAG])
    for _ in range(chance.choice([1, 1, 2])):
        at = chance.randrange(BEGIN, len(text))
        text[at] = chance.choice([text[at] ^ 1, text[at] ^ 1 << chance.randrange(8), chance.randrange(16)])
    return bytes(text) + tag(key, bytes(text))


class Check(unittest.TestCase):
    def test_it_says_the_same_of_each_pair(self):
        count, words = 0, set()
        for case, opening, request, reply, verdict in pairs():
            word = verdict.split()[1]
            if verdict.startswith("refused") and word in OF_REQUEST:
                continue
            said = found(asked(request), reply, opening)
            self.assertTrue(agrees(said, verdict), f"{case.file}: {case.name}: {verdict}, and the client says {said}")
            count += 1
            words.add(word)
        self.assertEqual(words, {"entry", "reply", "echo", "reply-seal", "status", "object", "proof", "conclusion"})
        self.assertGreater(count, LEAST)

    @unittest.skipUnless(PROGRAM, "no PROGRAM is named")
    def test_it_says_the_same_of_grants_that_were_changed(self):
        chance = random.Random(0)
        grants = [pair for pair in pairs() if pair[4].startswith("granted")]
        with tempfile.NamedTemporaryFile() as file:
            for _ in range(CHANGES):
                case, opening, request, reply, _ = chance.choice(grants)
                key = opening.keys[asked(request).channel]
                other = changed(reply, key, chance)
                file.seek(0)
                file.truncate()
                file.write(case.bytes("file"))
                file.flush()
                frames = b"".join(len(each).to_bytes(4, "big") + each for each in (request, other))
                told = subprocess.run([PROGRAM, file.name, "-", "-", "check"], input=frames, capture_output=True, check=False)
                verdict, said = told.stdout.decode("ascii").strip(), found(asked(request), other, opening)
                self.assertTrue(agrees(said, verdict), f"{case.name}: {other.hex()}: {verdict}, and the client says {said}")


if __name__ == "__main__":
    unittest.main()
