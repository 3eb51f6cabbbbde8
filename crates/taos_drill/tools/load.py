"""The load of a drill, made from docs/FORMATS.md alone: what the node is opened with, as text, and what each lane sends.

    python3 load.py SEED REQUESTS LANES          the opening, then each lane's bytes as a line of hex
    python3 load.py --sum SEED REQUESTS LANES    the SHA-256 of that text
    python3 load.py --check                      the words against those that the format states
"""
import hashlib
import hmac
import sys

WORDS = 0xFFFFFFFF
# The last byte of a generator's seed: of the words of requests, and of those of keys.
REQUESTS, KEYS = 0, 1
ISSUER, NAME = 1000, 1
UNTIL = 4294967296


def be(number, size):
    return number.to_bytes(size, "big")


def turned(word, count):
    return (word << count | word >> 32 - count) & WORDS


def quarter(state, a, b, c, d):
    for first, second, third, count in ((a, b, d, 16), (c, d, b, 12), (a, b, d, 8), (c, d, b, 7)):
        state[first] = state[first] + state[second] & WORDS
        state[third] = turned(state[third] ^ state[first], count)


def block(key, counter):
    """Sixteen words of the stream of ChaCha with 20 rounds, whose nonce is zero."""
    start = [0x61707865, 0x3320646E, 0x79622D32, 0x6B206574, *key, counter & WORDS, counter >> 32, 0, 0]
    state = list(start)
    for _ in range(10):
        for column in range(4):
            quarter(state, column, 4 + column, 8 + column, 12 + column)
        for at in range(4):
            quarter(state, at, 4 + (at + 1) % 4, 8 + (at + 2) % 4, 12 + (at + 3) % 4)
    return [word + more & WORDS for word, more in zip(state, start)]


def words(seed, last):
    """The words that a generator gives, in order."""
    text = be(seed, 8) + bytes(23) + bytes([last])
    key = [int.from_bytes(text[at : at + 4], "little") for at in range(0, 32, 4)]
    counter = 0
    while True:
        yield from block(key, counter)
        counter += 1


def keys(seed, count):
    drawn = words(seed, KEYS)
    return [b"".join(next(drawn).to_bytes(4, "little") for _ in range(8)) for _ in range(count)]


def tag(key, text):
    return hmac.new(key, text, hashlib.sha256).digest()


def certificate(relay, channel):
    """The relay's seal on: key 1000 says that the channel's key speaks for name 1."""
    body = b"\x01" + be(ISSUER, 4) + b"\x00" + b"\x01" + be(channel, 4) + b"\x02" + be(NAME, 4) + be(UNTIL, 8)
    text = b"\x02" + body + be(channel, 8)
    return text + tag(relay, text)


def request(relay, key, channel, number, word):
    target = 100 + channel if word & 1 else channel
    presented = certificate(relay, channel)
    text = b"\x03" + be(channel, 4) + be(number, 8) + b"\x00" + b"\x01" + be(target, 4)
    text += b"\x01" + be(len(presented), 2) + presented
    return text + tag(key, text)


def lanes_of(seed, requests, lanes):
    """What each lane sends."""
    relay, *channels = keys(seed, lanes + 1)
    streams, drawn = [b""] * lanes, words(seed, REQUESTS)
    for i in range(requests):
        lane = i % lanes
        payload = request(relay, channels[lane], lane + 1, i // lanes + 1, next(drawn))
        streams[lane] += be(len(payload), 4) + payload
    return streams


def opening(seed, requests, lanes):
    """What the node is opened with, as the text of a node file."""
    relay, *channels = keys(seed, lanes + 1)
    lines = ["taos 1", f"node 1 {relay.hex()}", "shards 4", "keep 3600", f"journal {2 * requests + 16}"]
    lines += [f"channel {at + 1} {key.hex()}" for at, key in enumerate(channels)]
    lines.append("anchor 1000 name:1")
    for number in range(1, lanes + 1):
        lines += [f"object {number}", f"allow {number} r name:1"]
    lines += [f"object {100 + number}" for number in range(1, lanes + 1)]
    return "\n".join(lines) + "\n"


def counts(seed, requests):
    """How many of the words are even, and how many odd."""
    drawn = words(seed, REQUESTS)
    odd = sum(next(drawn) & 1 for _ in range(requests))
    return requests - odd, odd


def check():
    drawn = words(0, REQUESTS)
    stated = "ade0b876 903df1a0 e56a5d40 28bd8653 b819d2bd 1aed8da0 ccef36a8 c70d778b"
    assert [next(drawn) for _ in range(8)] == [int(word, 16) for word in stated.split()]
    assert counts(0, 8) == (5, 3)
    assert all(len(stream) % 123 == 0 for stream in lanes_of(0, 10, 3))


def load(seed, requests, lanes):
    """The opening's text, then each lane's bytes as a line of hex."""
    return opening(seed, requests, lanes) + "".join(stream.hex() + "\n" for stream in lanes_of(seed, requests, lanes))


def main(arguments):
    if arguments == ["--check"]:
        check()
        return
    in_sum = arguments[0] == "--sum"
    text = load(*map(int, arguments[1:] if in_sum else arguments))
    print(hashlib.sha256(text.encode()).hexdigest() if in_sum else text, end="\n" if in_sum else "")


if __name__ == "__main__":
    main(sys.argv[1:])
