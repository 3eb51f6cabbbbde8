"""A relay on 127.0.0.1, as docs/FORMATS.md has its frames. It knows issuers and nodes by their keys."""
import hmac
import socket
import struct
import threading

LONGEST, TAG, MAX_DEPTH, MAX_NODES, MAX_PARTS = 65_536, 32, 16, 64, 16
ASKS, BRINGS, ISSUED, RELAYED = 5, 6, 1, 2
MALFORMED, NO_ISSUER, BAD_SEAL, WRONG_KIND, NO_NODE = 1, 2, 3, 4, 5


class NoCertificate(Exception):
    """The bytes spell none."""


class Text:
    """Bytes that are read from left to right."""

    def __init__(self, data):
        self.data, self.at = data, 0

    def take(self, count):
        if self.at + count > len(self.data):
            raise NoCertificate
        self.at += count
        return self.data[self.at - count : self.at]

    def number(self, width):
        return int.from_bytes(self.take(width), "big")

    def term(self, parts, depth=1, nodes=None):
        """The bytes of a term. Its parts are added to the set."""
        nodes, start = nodes if nodes is not None else [], self.at
        kind = self.number(1)
        nodes.append(kind)
        if not 1 <= kind <= 6 or depth > MAX_DEPTH or len(nodes) > MAX_NODES:
            raise NoCertificate
        if kind <= 2:
            self.take(4)
        else:
            self.term(parts, depth + 1, nodes)
            if kind == 5:
                self.take(4)
            else:
                self.term(parts, depth + 1, nodes)
        parts.add(self.data[start : self.at])
        return self.data[start : self.at]


def issuer_of(body):
    """The issuer, where the bytes are a body and nothing else."""
    text, parts = Text(body), set()
    version = text.number(1)
    if version not in (1, 2):
        raise NoCertificate
    issuer = text.number(4)
    key = b"\1" + struct.pack(">I", issuer)
    quotes = text.number(1)
    if quotes > 1:
        raise NoCertificate
    parts.add(key)
    if quotes:
        parts.add(b"\4" + key + text.term(parts))
    text.term(parts)
    text.term(parts)
    if version == 2 and text.number(8) == 0:
        raise NoCertificate
    text.take(16)
    if len(parts) > MAX_PARTS or text.at != len(body):
        raise NoCertificate
    return issuer


def sealed(secret, text):
    return text + hmac.digest(secret, text, "sha256")


def answer(nodes, issuers, payload):
    """What the relay answers to a payload."""
    if len(payload) < 5 or payload[0] != ASKS:
        return bytes([BRINGS, MALFORMED])
    node, shown = struct.unpack_from(">I", payload, 1)[0], payload[5:]
    if shown[:1] == bytes([RELAYED]):
        return bytes([BRINGS, WRONG_KIND])
    try:
        if shown[:1] != bytes([ISSUED]) or len(shown) < 1 + TAG:
            raise NoCertificate
        body = shown[1:-TAG]
        issuer = issuer_of(body)
    except NoCertificate:
        return bytes([BRINGS, MALFORMED])
    if issuer not in issuers:
        return bytes([BRINGS, NO_ISSUER])
    if shown != sealed(issuers[issuer], shown[:-TAG]):
        return bytes([BRINGS, BAD_SEAL])
    if node not in nodes:
        return bytes([BRINGS, NO_NODE])
    return bytes([BRINGS, 0]) + sealed(nodes[node], bytes([RELAYED]) + body)


def taken(stream, count):
    """So many bytes, or fewer where the other side closed."""
    got = b""
    while len(got) < count:
        piece = stream.recv(count - len(got))
        if not piece:
            break
        got += piece
    return got


class Relay:
    """Listens on a free port while it is entered, and answers each frame of one connection."""

    def __init__(self, nodes, issuers):
        self.nodes, self.issuers = nodes, issuers

    def __enter__(self):
        self.listener = socket.create_server(("127.0.0.1", 0))
        self.thread = threading.Thread(target=self.serve, daemon=True)
        self.thread.start()
        return f"127.0.0.1:{self.listener.getsockname()[1]}"

    def __exit__(self, *_):
        try:
            self.listener.shutdown(socket.SHUT_RDWR)
        except OSError:
            pass
        self.listener.close()
        self.thread.join(5)

    def serve(self):
        try:
            stream, _ = self.listener.accept()
            with stream:
                self.answer_all(stream)
        except OSError:
            pass

    def answer(self, payload):
        return answer(self.nodes, self.issuers, payload)

    def answer_all(self, stream):
        while True:
            word = taken(stream, 4)
            length = int.from_bytes(word, "big")
            if len(word) < 4 or length > LONGEST:
                return
            payload = taken(stream, length)
            if len(payload) < length:
                return
            brought = self.answer(payload)
            if brought is None:
                return
            stream.sendall(struct.pack(">I", len(brought)) + brought)
