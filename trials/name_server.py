"""A name server (RFC 1035, over UDP) in the trial's own process. The first part of a name says how it answers for it."""
import socket
import struct
import threading

A, ALIAS, AAAA = 1, 5, 28
RIGHT, RIGHT_SIX, WRONG, WRONG_SIX = "127.0.0.1", "::1", "127.0.0.66", "fd00::66"


def spelled(name):
    """A name as a message has it."""
    return b"".join(bytes([len(it)]) + it.encode() for it in name.split(".")) + b"\0"


class Query:
    """A query for a name: its number, the name and the kind of records."""

    def __init__(self, message):
        self.number, at, parts = message[:2], 12, []
        while message[at]:
            parts.append(message[at + 1:at + 1 + message[at]].decode(errors="replace"))
            at += 1 + message[at]
        self.name = ".".join(parts).lower()
        # (as it was asked for, capitals and all)
        self.question, self.kind = message[12:at + 5], struct.unpack(">H", message[at + 1:at + 3])[0]

    def reply(self, *records, number=None, question=None, owner=b"\xc0\x0c"):
        """A reply with these records, each a kind and its data, to it or to another query. The last is the owner's."""
        asked, answers = question or self.question, b""
        for place, (kind, data) in enumerate(records, 1):
            name = owner if place == len(records) else b"\xc0\x0c"
            answers += name + struct.pack(">HHIH", kind, 1, 60, len(data)) + data
        return (number or self.number) + struct.pack(">HHHHH", 0x8180, 1, len(records), 0, 0) + asked + answers

    def address(self, four=RIGHT, six=None):
        """The record of its kind: an address, or none where there is no such one."""
        if self.kind == A and four:
            return [(A, socket.inet_aton(four))]
        if self.kind == AAAA and six:
            return [(AAAA, socket.inet_pton(socket.AF_INET6, six))]
        return []


class NameServer:
    """Answers each query by the method that the name's first part names. All but `six` have an IPv4 address alone."""

    def __init__(self, address):
        self.socket = socket.socket(socket.AF_INET, socket.SOCK_DGRAM)
        self.socket.bind((address, 53))
        self.asked = []
        threading.Thread(target=self.serve, daemon=True).start()

    def serve(self):
        while True:
            message, peer = self.socket.recvfrom(4096)
            query = Query(message)
            self.asked.append((query.name, query.kind))
            for reply in getattr(self, query.name.split(".")[0], self.nobody)(query):
                self.socket.sendto(reply, peer)

    def times(self, query):
        """How often this was asked, with this time."""
        return self.asked.count((query.name, query.kind))

    @staticmethod
    def nobody(query):
        """There is no such name."""
        reply = bytearray(query.reply())
        reply[3] |= 3
        return [bytes(reply)]

    @staticmethod
    def silent(_query):
        """No answer."""
        return []

    def lost(self, query):
        """The first two queries are lost."""
        return [query.reply(*query.address())] if self.times(query) > 2 else []

    @staticmethod
    def number(query):
        """Replies with other numbers come first."""
        wrong = [bytes([query.number[0] ^ 1, query.number[1]]), bytes([query.number[0], query.number[1] ^ 1])]
        forged = [query.reply(*query.address(WRONG, WRONG_SIX), number=it) for it in wrong]
        return [*forged, query.reply(*query.address())]

    @staticmethod
    def question(query):
        """Replies to other questions come first: of another name, and of another kind."""
        name = spelled("other.trial") + query.question[-4:]
        kind = query.question[:-4] + struct.pack(">HH", 16, 1)
        forged = [query.reply(*query.address(WRONG, WRONG_SIX), question=it) for it in (name, kind)]
        return [*forged, query.reply(*query.address())]

    @staticmethod
    def rubbish(query):
        """Datagrams that are no replies come first."""
        whole = query.reply(*query.address(WRONG, WRONG_SIX))
        return [b"", b"\xff" * 40, query.number, whole[:-1], whole[:14], query.reply(*query.address())]

    @staticmethod
    def six(query):
        """The name has an IPv6 address alone."""
        return [query.reply(*query.address(None, RIGHT_SIX))]

    @staticmethod
    def alias(query):
        """The name stands for another one, whose address comes with it."""
        alias, address = (ALIAS, spelled("real.trial")), query.address()
        return [query.reply(alias, *address, owner=spelled("real.trial") if address else b"\xc0\x0c")]
