"""The nodes and certificates of most cases.

Node 7 has the channels 1, 2, 3 and 4, and object 5 with the content `hello`. Keys 1 and 3 are anchored to
alice and bob. Where machines come in it has the channels 15 and 18 too, and keys 11, 13 and 16 are anchored
to ws1, bob and ws2. Key n is 32 bytes of value n.
"""
from formats import ISSUED, RELAYED, Fields, anchor_proof, body, both, certificate, frame, granted, in_role, key
from formats import key_of, missing, name, opening, request, same_proof, u32

NODE, OBJECT, HELLO = 7, 5, b"hello"
ALICE, WS1, WS2, BOB = name(10), name(20), name(21), name(30)
TAOS, READER = 1, 2
CHANNELS, MORE_CHANNELS = [1, 2, 3, 4], [1, 2, 3, 4, 15, 18]
ANCHORS, MORE_ANCHORS = [(1, 10), (3, 30)], [(1, 10), (3, 30), (11, 20), (13, 30), (16, 21)]
FOR_ALICE = [(15, ALICE)]
# Terms at the limits of an access list: of 16 levels, of 16 nodes, and of one node more.
CHAIN_16 = b"\x05" * 15 + ALICE + u32(TAOS) * 15
KEYS_4 = both(both(key(1), key(1)), both(key(1), key(1)))
NODES_16 = in_role(both(KEYS_4, KEYS_4), READER)
NODES_17 = both(both(KEYS_4, KEYS_4), key(1))
SMALL = opening(NODE, key_of(NODE), 1, 3600, 16_384, [], [], [], [])


def node(entries=FOR_ALICE, shards=1, keep=3600, limit=16_384, commons=(), content=HELLO, machines=False, more=()):
    """The node with this access list of object 5, and with more objects of that content and list."""
    channels, anchors = (MORE_CHANNELS, MORE_ANCHORS) if machines else (CHANNELS, ANCHORS)
    objects = [(number, content, entries) for number in (OBJECT, *more)]
    return opening(NODE, key_of(NODE), shards, keep, limit, channels, anchors, list(commons), objects)


def relayed(text, secret=key_of(NODE)):
    """A certificate under the key that the relay shares with the node."""
    return certificate(RELAYED, secret, text)


def issued(issuer, text):
    """A certificate under its issuer's own seal."""
    return certificate(ISSUED, key_of(issuer), text)


def handing(whom=2, until=2000, serial=1, issuer=1, to=ALICE):
    """The word of a key that another one speaks for a name."""
    return body(issuer, key(whom), to, until, serial)


def handed(whom=2, **fields):
    return relayed(handing(whom, **fields))


def ask(channel, number, *certificates, target=OBJECT, quoted=None):
    """The frame of a Read."""
    return frame(request(channel, number, target=target, certificates=certificates, quoted=quoted))


def by_anchor(number, place=0, shard=0, entry=0, kept=0):
    """Channel 1 is granted by anchor 0."""
    return granted(1, number, anchor_proof(1, 10, 0), entry=entry, shard=shard, place=place, kept=kept)


def by_itself(channel, number, place=0):
    """A channel is granted whose key is listed."""
    return granted(channel, number, same_proof(key(channel)), place=place)


def no_alice(channel, number, place=0, shard=0):
    """Nobody speaks for alice, who is all of entry 0."""
    return missing(channel, number, ALICE, shard=shard, place=place)


def three():
    """Three frames, of 56, 56 and 4 bytes: a grant, a denial, and what is no request."""
    return [ask(1, 1), ask(2, 1), Fields(bytes(4))]
