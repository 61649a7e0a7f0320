#!/usr/bin/env python3
"""Attacks the link between a hub and a leaf from the midst of the network.

    trials/attacker.py [PROGRAM]      ends within some minutes

PROGRAM is the program to try, else what EGGNET names, else ours. A program between the two passes their handshake on as it
is, and cuts what follows into records, as anybody on the way can. Then it changes, forges, repeats, drops, swaps, reflects or
replays records, or words of the handshake. After each attack a log names a fault, no bot's records have changed, and the
bots are linked again. Others speak with the key of another leaf, with an old release's lines, or as the hub.
The last line is 'N well, M bad'; the status is 1 where any is bad.
"""
import os
import re
import socket
import sys
import tempfile
import threading
import time

sys.dont_write_bytecode = True
from bots import Bot, Nowhere, Tally, comes, end_all, free_port, program_of, shut
from nets import SECRET, records_of, version_of
from sealed import Copy, Sealer, adduser, code, cut_records, hello, leaf_key, leaf_line

TO_LEAF, TO_HUB = 0, 1
CHANGED = r"not the one that the other bot sent|has a bad length"
TOP = 2 ** 32 - 1


class Middle:
    """Passes on what a leaf and its hub say. An act gets each record, and returns what goes on in its place."""

    def __init__(self, hub_port):
        self.door, self.hub_port = socket.create_server(("127.0.0.1", 0)), hub_port
        self.port, self.lines, self.kept = self.door.getsockname()[1], [], [[], []]
        self.act = lambda way, record: [record]
        self.word = lambda way, line: line
        self.ends = None
        threading.Thread(target=self.run, daemon=True).start()

    def run(self):
        while True:
            try:
                leaf, _ = self.door.accept()
                hub = socket.create_connection(("127.0.0.1", self.hub_port))
            except OSError:
                time.sleep(0.1)
                continue
            self.ends, self.lines, self.kept = (leaf, hub), [], [[], []]
            for way, source, sink in ((TO_LEAF, hub, leaf), (TO_HUB, leaf, hub)):
                threading.Thread(target=self.carry, args=(way, source, sink), daemon=True).start()

    def carry(self, way, source, sink):
        """Two lines come from the hub before its records, and one from the leaf."""
        held, lines = b"", 1 + (way == TO_LEAF)
        try:
            while True:
                came = source.recv(65536)
                if not came:
                    break
                held += came
                while lines and b"\n" in held:
                    line, _, held = held.partition(b"\n")
                    lines -= 1
                    self.lines.append(line.decode())
                    sink.sendall(self.word(way, line.decode()).encode() + b"\n")
                if not lines:
                    records, held = cut_records(held)
                    for record in records:
                        self.kept[way].append(record)
                        for it in self.act(way, record):
                            sink.sendall(it)
        except OSError:
            pass
        shut(source, sink)

    def cut(self):
        """Ends both connections."""
        shut(*self.ends)

    def put(self, way, data):
        """Says something of its own, to the leaf or to the hub."""
        self.ends[way].sendall(data)

    def rests(self):
        """Passes all on again as it is."""
        self.act = lambda way, record: [record]
        self.word = lambda way, line: line


class Field:
    """A hub and a leaf with an attacker between them."""

    def __init__(self, tally, program, room):
        self.tally, self.secret = tally, f"{room}/secret"
        with open(self.secret, "wb") as file:
            file.write(SECRET + b"\n")
        self.port = free_port()
        hub = ["bot 0 of 2", f"listen 127.0.0.1 {self.port}", f"secret {self.secret}"]
        self.hub = Bot(program, room, "hub", [Nowhere()], hub, nick="egg0")
        self.middle = Middle(self.port)
        leaf = ["bot 1 of 2", f"hub 127.0.0.1 {self.middle.port}", f"secret {self.secret}"]
        self.leaf = Bot(program, room, "leaf1", [Nowhere()], leaf, nick="egg1")
        self.bots, self.users = [self.hub, self.leaf], 0

    def is_level(self):
        shown = [bot.answers("show") for bot in self.bots]
        return version_of(shown[0]) == version_of(shown[1]) is not None and records_of(shown[0]) == records_of(shown[1])

    def is_linked(self):
        return "linked leaves 1\n" in (self.hub.answers("status") or "") and \
            "linked to the hub" in (self.leaf.answers("status") or "")

    def settle(self, seconds=60):
        """Waits until both are linked and level. Whether they are."""
        return bool(comes(lambda: self.is_linked() and self.is_level(), seconds, 0.1))

    def adds(self):
        """Has the hub add a user, and returns the handle."""
        self.users += 1
        self.hub.answers(f"adduser bobby{self.users}")
        return f"bobby{self.users}"

    def attack(self, what, does, named=CHANGED, seconds=45):
        """An attack. A log names it, the records stay those that were asked for, and the bots are linked again."""
        if not self.settle():
            self.tally.note(what, False, "not linked before it")
            return
        places = [len(bot.logged()) for bot in self.bots]
        does(self)
        said = comes(lambda: re.search(named, "\n".join(self.heard(places))), seconds, 0.05)
        self.middle.rests()
        users = self.users
        back = self.settle()
        shown = self.hub.answers("show") or ""
        right = [it for it in records_of(shown)] == [it for it in records_of(shown) if it.startswith("user bobby")]
        well = said and back and right and version_of(shown) == users
        self.tally.note(what, bool(well), "" if well else f"named {bool(said)}, back {back}, {shown!r} {self.heard(places)}")

    def heard(self, places):
        """What the logs have said since these places."""
        return [bot.logged()[place:] for bot, place in zip(self.bots, places)]


# ---- records

def once(change):
    """An act that does this to the first record that goes some way, and passes on the others."""
    done = []

    def act(way, record):
        if done:
            return [record]
        came = change(way, record)
        if came is None:
            return [record]
        done.append(True)
        return came
    return act


def rewrites(field):
    field.middle.act = once(lambda way, it: [it.replace(b"bobby", b"mally")] if way == TO_LEAF and b"bobby" in it else None)
    field.adds()


def flips_the_tag(field):
    field.middle.act = once(lambda way, it: [it[:-1] + bytes([it[-1] ^ 1])] if way == TO_LEAF else None)
    field.adds()


def repeats(field):
    field.middle.act = once(lambda way, it: [it, it] if way == TO_LEAF else None)
    field.adds()


def drops(field):
    field.middle.act = once(lambda way, it: [] if way == TO_LEAF else None)
    field.adds()
    time.sleep(0.5)
    field.adds()


def swaps(field):
    held = []

    def act(way, record):
        if way != TO_LEAF:
            return [record]
        if not held:
            held.append(record)
            return []
        return [record, held[0]] if len(held) == 1 and not held.append(None) else [record]
    field.middle.act = act
    field.adds()
    time.sleep(0.5)
    field.adds()


def reflects(field):
    seen = len(field.middle.kept[TO_LEAF])
    field.adds()
    comes(lambda: len(field.middle.kept[TO_LEAF]) > seen, 5)
    field.middle.put(1, field.middle.kept[TO_LEAF][-1])


def asks_as_the_leaf(field):
    last = int(field.middle.lines[1].split()[7])
    field.middle.put(1, Sealer(os.urandom(32)).seal(adduser(1, last + 1, "mallory")))


def tells_a_version(field):
    field.middle.put(1, Sealer(os.urandom(32)).seal(hello(1, TOP)))


def beats_a_version(field):
    field.middle.put(0, Sealer(os.urandom(32)).beat(TOP, "f" * 16))


def with_the_secret_of_no_key(field):
    # (who knows the key of leaf 2 knows none of leaf 1's keys)
    key = leaf_key(SECRET, 2)
    field.middle.put(1, Sealer(key, 1).seal(adduser(1, 1, "mallory")))


def says_no_length(field):
    field.middle.put(TO_LEAF, b"\0\0")


def says_a_long_length(field):
    field.middle.put(TO_HUB, b"\x60\0")


def replays(field):
    old = b"".join(field.middle.kept[TO_HUB])
    lines = list(field.middle.lines)
    field.middle.cut()
    if comes(lambda: field.middle.lines[:1] != lines[:1] and len(field.middle.lines) >= 3, 40):
        time.sleep(1)
        field.middle.put(1, old)


# ---- the handshake

def with_word(way, first, place, word):
    """An attack that changes one word of a line, then cuts the connection, so that the line is said again."""
    def does(field):
        def change(there, line):
            words = line.split(" ")
            if there == way and words[0] == first:
                words[place] = word(words[place]) if callable(word) else word
                field.middle.word = lambda _, it: it
            return " ".join(words)
        field.middle.word = change
        field.middle.cut()
    return does


def up(word):
    return str(int(word) + 1)


def turned(word):
    return ("1" if word[0] != "1" else "2") + word[1:]


def forged_refusal(field):
    def change(way, line):
        if way == TO_LEAF and line.startswith("hub "):
            field.middle.word = lambda _, it: it
            return "no ahead " + "0" * 64
        return line
    field.middle.word = change
    field.middle.cut()


RECORDS = {
    "a change is rewritten": rewrites, "a tag is changed in its last bit": flips_the_tag, "a record is repeated": repeats,
    "a record is dropped": drops, "two records are swapped": swaps, "a record of the hub goes back to it": reflects,
    "a request as the leaf": asks_as_the_leaf, "a hello of version 4294967295": tells_a_version,
    "a heartbeat of version 4294967295": beats_a_version, "a record under another leaf's key": with_the_secret_of_no_key,
    "a record of no byte": says_no_length, "a record of 24,576 bytes": says_a_long_length,
    "the records of an earlier connection": replays,
}
WRONG = r"the code is wrong"
WORDS = {
    "the leaf's number": (TO_HUB, "leaf", 1, "2"), "the number of leaves": (TO_HUB, "leaf", 2, up),
    "the leaf's net": (TO_HUB, "leaf", 3, turned), "the number of its folder": (TO_HUB, "leaf", 4, turned),
    "its version": (TO_HUB, "leaf", 5, up), "its sum": (TO_HUB, "leaf", 6, turned), "its last request": (TO_HUB, "leaf", 7, up),
    "its nonce": (TO_HUB, "leaf", 8, turned), "its code": (TO_HUB, "leaf", 9, turned),
    "the hub's nonce": (TO_LEAF, "eggnet", 2, turned), "the hub's net": (TO_LEAF, "hub", 1, turned),
    "its version, at the leaf": (TO_LEAF, "hub", 2, up), "its sum, at the leaf": (TO_LEAF, "hub", 3, turned),
    "its last reply": (TO_LEAF, "hub", 4, up), "what the leaf may": (TO_LEAF, "hub", 5, "reads"),
    "the hub's code": (TO_LEAF, "hub", 6, turned),
}


# ---- others

class Other:
    """Somebody who connects to the hub by a bare socket."""

    def __init__(self, field):
        self.socket = socket.create_connection(("127.0.0.1", field.port), 15)
        self.heard = b""
        self.nonce = self.line().split()[2]

    def line(self):
        while b"\n" not in self.heard:
            came = self.socket.recv(4096)
            if not came:
                return None
            self.heard += came
        line, _, self.heard = self.heard.partition(b"\n")
        return line.decode()

    def asks(self, line):
        self.socket.sendall(line.encode() + b"\n")
        return self.line()


def others(tally, field):
    """Who knows another key than the leaf's, or speaks as an earlier release did."""
    with open(f"{field.hub.folder}/net", encoding="utf-8") as file:
        net = file.read().strip()
    for what, key in {"the key of leaf 2": leaf_key(SECRET, 2), "the net's secret": SECRET, "no key": os.urandom(32)}.items():
        # (the log has at most one line a second of such connections)
        time.sleep(1.1)
        it, place = Other(field), len(field.hub.logged())
        line, _, _ = leaf_line(key, it.nonce, 1, 2, net, "a" * 16, Copy())
        answer = it.asks(line)
        said = comes(lambda place=place: re.search(WRONG, field.hub.logged()[place:]), 5)
        tally.note(f"a line of leaf 1 under {what}", answer is None and bool(said), answer)
    time.sleep(1.1)
    it, place = Other(field), len(field.hub.logged())
    own = os.urandom(16).hex()
    answer = it.asks(f"leaf 1 {net} {own} {code(SECRET, 'leaf', 1, net, own, it.nonce)}")
    said = comes(lambda: re.search("earlier release", field.hub.logged()[place:]), 5)
    tally.note("a leaf of an earlier release is named at the hub", answer is None and bool(said),
               field.hub.logged()[place:] if not said else "")


def old_hub(tally, field):
    """A hub of an earlier release, and one that knows another leaf's key alone, where the leaf looks for its own."""
    def change(way, line):
        return line.replace("eggnet 2", "eggnet 1") if way == TO_LEAF else line
    field.settle()
    place = len(field.leaf.logged())
    field.middle.word = change
    field.middle.cut()
    said = comes(lambda: re.search("another version of the link", field.leaf.logged()[place:]), 40)
    field.middle.rests()
    tally.note("a hub of an earlier release is named at the leaf", bool(said), field.leaf.logged()[place:] if not said else "")
    tally.note("both are linked again", field.settle())


def main():
    tally, program = Tally(), program_of(sys.argv[1:])
    with tempfile.TemporaryDirectory() as room:
        field = Field(tally, program, room)
        try:
            tally.note("the hub starts", field.hub.start())
            tally.note("the leaf starts", field.leaf.start())
            field.adds()
            tally.note("both are linked and level", field.settle())
            for what, does in RECORDS.items():
                field.attack(what, does)
            for what, (way, first, place, word) in WORDS.items():
                field.attack(f"on the way, another word for {what}", with_word(way, first, place, word),
                             rf"{WRONG}|no leaf of that number|disagree|greets as no hub|answers as no")
            field.attack("a refusal that the hub did not make", forged_refusal, WRONG)
            others(tally, field)
            old_hub(tally, field)
            field.adds()
            tally.note("a change arrives afterwards", field.settle())
        finally:
            end_all(*field.bots)
    return tally.end()


if __name__ == "__main__":
    sys.exit(main())
