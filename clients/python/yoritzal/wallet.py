"""A wallet: what gives the certificates of channels to a node that fetches them, one frame for each frame."""
from .fields import Malformed, Reader, counted, number

FETCHES, GIVES = 8, 9
# A wallet gives so many certificates at once, and its file has so many, each of so many bytes.
MOST_GIVEN, MOST_LINES, MOST_BYTES = 16, 4096, 1024
FIRST, WORD = ["taos-wallet", "1"], "cert"


class NoWallet(ValueError):
    """A text that is no wallet file: its first line that can't stand there, counted from 1, and why."""

    def __init__(self, line, why):
        super().__init__(f"line {line}: {why}")
        self.line = line


class Wallet:
    """Channels with certificates, in order: pairs of a number and the bytes as a request would present them."""

    def __init__(self, pairs=()):
        self.pairs = []
        for channel, certificate in pairs:
            self.add(channel, certificate)

    def add(self, channel, certificate):
        """One more. What a file has no room for is refused by ValueError."""
        number(channel, 4)
        if not 1 <= len(certificate) <= MOST_BYTES or len(self.pairs) == MOST_LINES:
            raise ValueError("limit")
        self.pairs.append((channel, bytes(certificate)))

    @classmethod
    def of_file(cls, lines):
        """That of the lines of a wallet file."""
        wallet, has_begun, at = cls(), False, 0
        for at, line in enumerate(lines, 1):
            words = line.split()
            if not words or words[0].startswith("#"):
                continue
            try:
                if has_begun:
                    wallet.add(*_certificate(words))
                elif words != FIRST:
                    raise ValueError("first line")
            except ValueError as fault:
                raise NoWallet(at, fault) from fault
            has_begun = True
        if not has_begun:
            raise NoWallet(at + 1, "first line")
        return wallet

    def lines(self):
        """Those of its file."""
        return [" ".join(FIRST)] + [f"{WORD} {channel} {certificate.hex()}" for channel, certificate in self.pairs]

    def given(self, channel):
        """What is given for a channel: the first of its certificates."""
        return [certificate for whose, certificate in self.pairs if whose == channel][:MOST_GIVEN]

    def answer(self, payload):
        """The payload that answers one: what is given for the channel that it asks for, and else none."""
        asked = fetched(payload)
        return giving(self.given(asked[0]) if asked else [])

    def serve(self, connection):
        """Answers each frame of a connection until that ends, and gives how many there were. Who may connect sees what
        the wallet has."""
        count = 0
        while True:
            payload = connection.receive()
            if payload is None:
                return count
            connection.send([self.answer(payload)])
            count += 1


def _certificate(words):
    """The channel and the certificate of a line."""
    if words[0] != WORD:
        raise ValueError("unknown word")
    if len(words) != 3:
        raise ValueError("words")
    _, channel, digits = words
    if not (channel.isascii() and channel.isdigit()) or channel != str(int(channel)) or int(channel) >= 1 << 32:
        raise ValueError("number")
    return int(channel), bytes.fromhex(digits)


def fetched(payload):
    """The channel and the number of the request that a payload asks for, or None."""
    fields = Reader(payload)
    try:
        found = fields.number(1), fields.number(4), fields.number(8)
        fields.end()
    except Malformed:
        return None
    return found[1:] if found[0] == FETCHES else None


def giving(certificates):
    """The payload that gives these."""
    return number(GIVES, 1) + number(len(certificates), 1) + b"".join(counted(each, 2) for each in certificates)
