"""The link between a hub and a leaf as bytes, for trials: the handshake of either side, and sealed records."""
import hashlib
import hmac
import os
import struct

FRAMES, BEAT = 1, 2
MOST = 16_383  # bytes of a record's content
BEGUN = "0" * 16  # the digits of an eight-byte number


def mac(key, text):
    return hmac.new(key, text, hashlib.sha256).digest()


def code(key, *words):
    """The code of some words: 64 digits."""
    return mac(key, " ".join(str(word) for word in words).encode()).hex()


def leaf_key(secret, leaf):
    """The key of a leaf, made of the net's secret."""
    return mac(secret, f"eggnet leaf {leaf}".encode())


def link_keys(key, leaf_code, hub_code):
    """The keys of the records to the leaf, and of those to the hub."""
    return tuple(mac(key, f"{way} {leaf_code} {hub_code}".encode()) for way in ("hub to leaf", "leaf to hub"))


def tag(key, count, body):
    return mac(key, struct.pack(">Q", count) + body)[:16]


class Sealer:
    """Writes the records of one direction."""

    def __init__(self, key, count=0):
        self.key, self.count = key, count

    def seal(self, content, kind=FRAMES):
        """The next records, of this content."""
        records = b""
        for start in range(0, len(content), MOST):
            body = bytes([kind]) + content[start:start + MOST]
            records += struct.pack(">H", len(body)) + body + tag(self.key, self.count, body)
            self.count += 1
        return records

    def beat(self, version, records, held=0, bits=bytes(11)):
        """The next record, a beat: a version, the digits of the sum of its records, and the parts held of a snapshot."""
        return self.seal(struct.pack(">I", version) + bytes.fromhex(records) + struct.pack(">I", held) + bits, BEAT)


class Opener:
    """Reads the records of one direction, in pieces of any size."""

    def __init__(self, key):
        self.key, self.count, self.held, self.fault = key, 0, b"", None

    def feed(self, piece):
        """The bodies of the records that end in a piece. After the first fault there are none."""
        bodies = []
        self.held += piece
        while self.fault is None and len(self.held) >= 2:
            length = int.from_bytes(self.held[:2], "big")
            if not 1 <= length <= MOST + 1:
                self.fault = "length"
            elif len(self.held) < 2 + length + 16:
                break
            else:
                body, shown = self.held[2:2 + length], self.held[2 + length:2 + length + 16]
                if not hmac.compare_digest(shown, tag(self.key, self.count, body)):
                    self.fault = "tag"
                    break
                bodies.append(body)
                self.count += 1
                self.held = self.held[2 + length + 16:]
        return bodies


def cut_records(stream):
    """The whole records at the front of a stream, and what stands after them, as anybody sees them."""
    records = []
    while len(stream) >= 2:
        length = 2 + int.from_bytes(stream[:2], "big") + 16
        if len(stream) < length:
            break
        records.append(stream[:length])
        stream = stream[length:]
    return records, stream


class Copy:
    """What a bot says of its copy of the records, and of its requests."""

    def __init__(self, version=0, records=None, last=0):
        # (the sum of no records, as all bots compute it)
        self.version, self.records, self.last = version, records or hashlib.sha256(b"").hexdigest()[:16], last


def leaf_line(key, nonce, leaf, count, net, made, copy, own=None):
    """A leaf's line, and its code, for the nonce of a hub's greeting."""
    own = own or os.urandom(16).hex()
    words = ["leaf", leaf, count, net, made, copy.version, copy.records, copy.last, own]
    shown = code(key, *words, nonce)
    return " ".join(str(word) for word in [*words, shown]), own, shown


def hub_line(key, nonce, net, copy, may="asks"):
    """A hub's answer, and its code, for the nonce of a leaf's line."""
    words = ["hub", net, copy.version, copy.records, copy.last, may]
    shown = code(key, *words, nonce[0], nonce[1])
    return " ".join(str(word) for word in [*words, shown]), shown


# ---- frames of packets (docs/FORMATS.md)

def frame(body):
    return struct.pack(">H", len(body)) + body


def hello(leaf, version, layout=4):
    """The frame of a leaf's hello."""
    return frame(struct.pack(">BBHI", 8, layout, leaf, version))


def adduser(leaf, request, handle):
    """The frame of a leaf's request to add a user."""
    name = handle.encode()
    return frame(struct.pack(">BHI", 4, leaf, request) + struct.pack(">BB", 1, len(name)) + name)
