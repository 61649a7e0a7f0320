"""An independent model of a bot's journal on two disks in memory.

It reads the steps of a journal, as the program `stepcases` takes them, on standard input and prints what they answer. So it
says what the part Journals of that crate's file `stdout` has to be; `trials/step_cases` compares the two.

It was written from the format (docs/FORMATS.md has it), and from no code of this repository.
"""
import os
import sys

sys.path.insert(0, os.path.join(os.path.dirname(os.path.realpath(__file__)), ".."))
import seals
from stopping import Disk, Fault

LAYOUT = 4    # what is written; layouts 1 to 3 are read
WINDOW = 8    # how many replies to a leaf, and how many requests that are out, a base has at most
LAST = 4294967295
FLAGS = 1 << 52


class Bad(Exception):
    """Bytes that spell nothing."""


class Code(Exception):
    """A refusal, by its letter and number."""


# ---- texts

def fold(text):
    """The lower case of RFC 2812."""
    return bytes(b + 32 if 65 <= b <= 93 else 94 if b == 126 else b for b in text)


def is_handle(text):
    return 1 <= len(text) <= 32 and all(33 <= b <= 126 and b not in b"*,:@" for b in text)


def is_mask(text):
    bang = text.find(b"!")
    is_short = 0 < len(text) <= 120 and all(b > 32 for b in text)
    return is_short and (bang >= 0 and b"@" in text[bang + 1:] or is_account(text))


def is_account(text):
    """$a:NAME, an account of the network."""
    return text[:3] == b"$a:" and len(text) > 3 and not any(b in b"!@*?" for b in text[3:])


def is_person(text):
    """nick!user@host, or $a:NAME."""
    return is_mask(text) and not any(b in b"*?" for b in text)


def is_channel(text):
    return 1 <= len(text) <= 100 and text[0] in b"&#+!" and not any(b in b" ,\x07\0\r\n:" for b in text[1:])


def is_line(text, most):
    return len(text) <= most and not any(b in b"\0\r\n" for b in text)


def num(value, width):
    return value.to_bytes(width, "big")


def sized(text):
    return num(len(text), 1) + text


# ---- values, from their bytes

class Reader:
    """Takes fields off the front of some bytes, as a layout spells them."""

    def __init__(self, data, layout):
        self.data, self.layout = data, layout

    def take(self, count):
        if count > len(self.data):
            raise Bad
        front, self.data = self.data[:count], self.data[count:]
        return front

    def num(self, width, below=None):
        value = int.from_bytes(self.take(width), "big")
        if below is not None and value >= below:
            raise Bad
        return value

    def text(self, is_good):
        text = self.take(self.num(1))
        if not is_good(text):
            raise Bad
        return text

    def handle(self):
        return self.text(is_handle)

    def mask(self):
        return self.text(is_mask)

    def channel(self):
        return self.text(is_channel)

    def ban_channel(self):
        return self.text(lambda text: not text or is_channel(text))

    def info(self):
        return self.text(lambda text: is_line(text, 80))

    def flags(self):
        return self.num(8, FLAGS)

    def ban(self):
        return [self.ban_channel(), self.mask(), self.handle(), self.num(8), self.text(lambda text: is_line(text, 100))]

    def change(self):
        """Who asks, none for a change in nobody's name, and the kind and the fields of the edit."""
        kind = self.num(1)
        if kind != 12 or self.layout < 4:
            return None, *self.edit(kind)
        asker = self.text(is_person), self.num(1, 3)
        return asker, *self.edit(self.num(1))

    def edit(self, kind):
        if kind in (10, 11) and self.layout == 1:
            raise Bad
        fields = {
            1: lambda: [self.handle()],
            2: lambda: [self.handle()],
            3: lambda: [self.handle(), self.mask()],
            4: lambda: [self.handle(), self.mask()],
            5: lambda: [self.handle(), self.flags()],
            6: lambda: [self.handle(), self.channel(), self.flags()],
            7: lambda: [self.handle(), self.flags()],
            8: self.ban,
            9: lambda: [self.ban_channel(), self.mask()],
            10: lambda: [self.handle(), self.info()],
            11: lambda: [self.ban_channel(), self.mask(), self.num(1, 2)],
        }.get(kind)
        if fields is None:
            raise Bad
        return kind, fields()

    def record(self):
        """A user, as a dictionary, or a ban, as a list."""
        kind = self.num(1)
        user, ban = (1, 2) if self.layout == 1 else (3, 4)
        if kind == ban:
            fields = self.ban()
            return fields + [0 if self.layout == 1 else self.num(1, 2)]
        if kind != user:
            raise Bad
        found = {"handle": self.handle(), "masks": [], "channels": []}
        for _ in range(self.num(1, 17)):
            found["masks"].append(self.mask())
            new(found["masks"])
        found["global"] = self.flags()
        for _ in range(self.num(1, 17)):
            found["channels"].append((self.channel(), self.flags()))
            new([name for name, _ in found["channels"]])
            if not found["channels"][-1][1]:
                raise Bad
        found["bot"] = self.flags()
        found["info"] = b"" if self.layout == 1 else self.info()
        return found

    def code(self):
        """The number of a code; layouts 1 to 3 had none for a right."""
        return self.num(1, 13 if self.layout == LAYOUT else 12)

    def answer(self):
        code = self.code()
        return (code, self.num(4)) if code == 0 else (code,)

    def done(self):
        if self.data:
            raise Bad


def new(names):
    """The last of these names is none of those before it."""
    if fold(names[-1]) in [fold(name) for name in names[:-1]]:
        raise Bad


def read_base(data, layout):
    reader = Reader(data, layout)
    base = {"bot": reader.num(2), "version": reader.num(4)}
    base["records"] = [reader.record() for _ in range(reader.num(2))]
    base["replies"] = [(reader.num(2), reader.num(4), reader.answer()) for _ in range(reader.num(2))]
    base["last"] = reader.num(4)
    if layout >= 3:
        base["out"] = [(reader.num(4), reader.change()) for _ in range(reader.num(1, WINDOW + 1))]
    else:
        base["out"] = [(base["last"], reader.change()) for _ in range(reader.num(1, 2))]
    reader.done()
    if not are_in_turn(base["replies"], WINDOW if layout >= 3 else 1) or not are_within(base["last"], base["out"]):
        raise Bad
    if base["last"] or base["out"] if base["bot"] == 0 else base["replies"]:
        raise Bad
    return base


def are_in_turn(replies, most):
    """Whether the leaves of replies rise, at most so many replies are to a leaf, and the requests of each follow each
    other."""
    leaves = [leaf for leaf, _, _ in replies]
    follow = all(after[1] == before[1] + 1 for before, after in zip(replies, replies[1:]) if before[0] == after[0])
    return leaves == sorted(leaves) and all(leaves.count(leaf) <= most for leaf in leaves) and follow


def are_within(last, out):
    """Whether the numbers of requests that are out rise, up to the last one at most, which is at most 7 above the lowest."""
    numbers = [number for number, _ in out]
    return numbers == sorted(set(numbers)) and (not numbers or numbers[-1] <= last <= numbers[0] + WINDOW - 1)


def read_entry(data, layout):
    reader = Reader(data, layout)
    kind = reader.num(1)
    if kind == 1:
        entry = kind, reader.num(2), reader.num(4), reader.change()
    elif kind == 2:
        entry = kind, reader.num(2), reader.num(4), reader.code()
        if entry[3] == 0:
            raise Bad
    elif kind in (3, 4):
        entry = kind, reader.num(4), reader.change()
    elif kind == 5:
        entry = kind, reader.num(4)
    else:
        raise Bad
    reader.done()
    return entry


# ---- values as bytes, as they are written now

def ban_bytes(ban):
    return b"".join(map(sized, ban[:3])) + num(ban[3], 8) + sized(ban[4])


def change_bytes(change):
    asker, kind, fields = change
    if asker:
        return b"\x0c" + sized(asker[0]) + num(asker[1], 1) + change_bytes((None, kind, fields))
    if kind == 8:
        return b"\x08" + ban_bytes(fields)
    width = 1 if kind == 11 else 8
    return num(kind, 1) + b"".join(num(f, width) if isinstance(f, int) else sized(f) for f in fields)


def record_bytes(record):
    if isinstance(record, list):
        return b"\x04" + ban_bytes(record) + num(record[5], 1)
    channels = b"".join(sized(name) + num(flags, 8) for name, flags in record["channels"])
    return (b"\x03" + sized(record["handle"]) + num(len(record["masks"]), 1) + b"".join(map(sized, record["masks"]))
            + num(record["global"], 8) + num(len(record["channels"]), 1) + channels + num(record["bot"], 8)
            + sized(record["info"]))


def base_bytes(base):
    data = num(base["bot"], 2) + num(base["version"], 4)
    data += num(len(base["records"]), 2) + b"".join(map(record_bytes, base["records"]))
    data += num(len(base["replies"]), 2)
    for leaf, request, answer in base["replies"]:
        data += num(leaf, 2) + num(request, 4) + num(answer[0], 1) + b"".join(num(n, 4) for n in answer[1:])
    data += num(base["last"], 4) + num(len(base["out"]), 1)
    return data + b"".join(num(number, 4) + change_bytes(change) for number, change in base["out"])


def entry_bytes(entry):
    kind = entry[0]
    if kind == 1:
        return b"\1" + num(entry[1], 2) + num(entry[2], 4) + change_bytes(entry[3])
    if kind == 2:
        return b"\2" + num(entry[1], 2) + num(entry[2], 4) + num(entry[3], 1)
    return num(kind, 1) + num(entry[1], 4) + b"".join(map(change_bytes, entry[2:]))


# ---- a journal

def read_disk(data):
    """What a disk holds: None where its first gate is closed or missing."""
    if data[:1] != b"\1":
        return None
    reader = Reader(data[1:], None)
    if reader.take(4) != b"EGGJ":
        raise Bad
    held = {"layout": reader.num(1), "generation": reader.num(4)}
    if held["layout"] not in range(1, LAYOUT + 1):
        raise Bad
    held["seal"] = seals.first(held["layout"], held["generation"])
    held["base"] = read_base(read_value(reader, held), held["layout"])
    held["entries"] = []
    while reader.data[:1] == b"\1":
        reader.take(1)
        held["entries"].append(read_entry(read_value(reader, held), held["layout"]))
    held["gate"] = len(data) - len(reader.data)
    return held


def read_value(reader, held):
    """The next value of a disk. In layout 4 it carries its sum."""
    text = reader.take(reader.num(4))
    if held["layout"] < 4:
        return text
    body, held["seal"] = seals.opened(held["seal"], text)
    if body is None:
        raise Bad
    return body


class Journal:
    def __init__(self, disks):
        self.disks, self.spent = disks, False
        try:
            data = [disk.read() for disk in disks]
        except Fault:
            raise Code("J1")
        try:
            held = [read_disk(one) for one in data]
        except Bad:
            raise Code("J2")
        generations = [one["generation"] if one else 0 for one in held]
        if held == [None, None] or (None not in held and generations[0] == generations[1]):
            raise Code("J2")
        self.active = 0 if held[1] is None or (held[0] and generations[0] > generations[1]) else 1
        found = held[self.active]
        self.layout, self.generation, self.gate = found["layout"], found["generation"], found["gate"]
        self.idle_open = held[1 - self.active] is not None
        self.base, self.entries, self.seal = found["base"], found["entries"], found["seal"]
        gates = [one["gate"] if one else 0 for one in held]
        self.whole = all(gate < len(one) for gate, one in zip(gates, data))

    def put(self, calls):
        try:
            for disk, at, data in calls:
                disk.write(at, data)
                disk.sync()
        except Fault:
            self.spent = True
            raise Code("J1")

    def append(self, entry):
        if self.spent:
            raise Code("J3")
        disk, (text, self.seal) = self.disks[self.active], seals.sealed(self.seal, entry_bytes(entry))
        self.put([(disk, self.gate + 1, num(len(text), 4) + text + b"\0"), (disk, self.gate, b"\1")])
        self.gate += 5 + len(text)

    def rebase(self, base):
        if self.spent:
            raise Code("J3")
        if self.generation == LAST:
            raise Code("J4")
        disk, head, text, seal = self.disks[1 - self.active], *written(self.generation + 1, base)
        closing = [(disk, 0, b"\0")] if self.idle_open else []
        self.put(closing + [(disk, 1, head + text + b"\0"), (disk, 0, b"\1")])
        self.active, self.idle_open, self.layout, self.seal = 1 - self.active, True, LAYOUT, seal
        self.generation, self.gate = self.generation + 1, 14 + len(text)


def written(generation, base):
    """What is written of a base: the head of its disk, its text, and the seal behind it."""
    text, seal = seals.sealed(seals.first(LAYOUT, generation), base_bytes(base))
    return b"EGGJ" + num(LAYOUT, 1) + num(generation, 4) + num(len(text), 4), text, seal


def create(disks, base):
    first, second = disks
    head, text, _ = written(1, base)
    try:
        for disk, at, data in [(second, 0, b"\0"), (first, 0, b"\0"), (first, 1, head + text + b"\0"), (first, 0, b"\1")]:
            disk.write(at, data)
            disk.sync()
    except Fault:
        raise Code("J1")


# ---- steps

def bytes_of(word):
    return b"" if word == "-" else bytes.fromhex(word)


def shown(data):
    return bytes(data).hex() or "-"


class Case:
    def __init__(self):
        self.disks, self.journal = [Disk(), Disk()], None

    def leave(self):
        """Takes the disks from a journal, which a crash ends."""
        if self.journal is not None:
            self.crash()

    def crash(self):
        self.journal = None
        for disk in self.disks:
            disk.crash()

    def opened(self):
        """What an opening answers."""
        try:
            self.journal = Journal(self.disks)
        except Code as code:
            self.crash()
            return code.args[0]
        told = [base_bytes(self.journal.base)] + [entry_bytes(entry) for entry in self.journal.entries]
        line = " ".join(map(shown, told))
        if self.journal.whole:
            return line
        self.crash()
        return line + " a gate is missing"

    def disk(self, name):
        self.leave()
        return self.disks[{"first": 0, "second": 1}[name]]

    def play(self, step, words):
        if step == "disks":
            self.disks, self.journal = [Disk(bytes_of(word)) for word in words], None
        elif step == "fail":
            disk = self.disk(words[0])
            disk.works = int(words[1]) - 1
            disk.tear = words[2] if words[2] in ("old", "new") else int(words[2])
        elif step == "misread":
            self.disk(words[0]).reads = int(words[1]) - 1
        elif step == "open":
            self.leave()
            return self.opened()
        elif step == "restart":
            self.crash()
            return self.opened()
        elif step == "create":
            self.leave()
            create(self.disks, read_base(bytes_of(words[0]), LAYOUT))
            self.opened()
            return "ok"
        elif step == "append":
            entry = read_entry(bytes_of(words[0]), LAYOUT)
            if self.journal.layout != LAYOUT:
                return "older layout"
            self.journal.append(entry)
            return "ok"
        elif step == "rebase":
            self.journal.rebase(read_base(bytes_of(words[0]), LAYOUT))
            return "ok"
        elif step == "spent":
            return "spent" if self.journal.generation == LAST else "left"
        elif step == "layout":
            return str(self.journal.layout)
        elif step == "bytes":
            self.leave()
            line = " ".join(shown(disk.read()) for disk in self.disks)
            self.crash()
            return line
        else:
            raise ValueError(step)
        return None


def main():
    case = Case()
    for line in sys.stdin.read().splitlines():
        if not line:
            continue
        if line.startswith("#"):
            print(line)
            continue
        step, *words = line.split(" ")
        try:
            answer = case.play(step, words)
        except Code as code:
            answer = code.args[0]
        if answer is not None:
            print(answer)


if __name__ == "__main__":
    main()
