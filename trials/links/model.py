"""An independent model of the sharing link's ends over disks in memory that stop.

It reads the steps of a net of links, as the program `stepcases` takes them, on standard input and prints what they answer.
It was written from the rules of the link, of a journal on two disks and of a userfile (docs/FORMATS.md has the formats), and
from no code of this repository. `scripts.py` beside it writes the steps.
"""
import os
import re
import sys

sys.path.insert(0, os.path.join(os.path.dirname(os.path.realpath(__file__)), ".."))
import seals
from stopping import Disk, Fault

LAST = 4294967295
LAYOUT = 4    # what is written; layouts 1 to 3 are read, and put anew where a link is opened
WINDOW = 8    # how many requests of a leaf are out at most, and how many replies to a leaf are kept


# ---- text

MAPPINGS = ["ascii", "strict-rfc1459", "rfc1459"]


def fold(text, mapping=2):
    """The lower case of a casemapping, of RFC 2812 where none is said."""
    last = 90 if mapping == 0 else 93
    return bytes(b + 32 if 65 <= b <= last else 94 if b == 126 and mapping == 2 else b for b in text)


def good_handle(text):
    return 1 <= len(text) <= 32 and all(33 <= b <= 126 and b not in b"*,:@" for b in text)


def good_mask(text):
    if not text or len(text) > 120 or any(b <= 32 for b in text):
        return False
    bang = text.find(b"!")
    return bang >= 0 and b"@" in text[bang + 1:] or is_account(text)


def is_account(text):
    """$a:NAME, an account of the network."""
    return text[:3] == b"$a:" and len(text) > 3 and not any(b in b"!@*?" for b in text[3:])


def good_person(text):
    """nick!user@host, or $a:NAME."""
    return good_mask(text) and not any(b in b"*?" for b in text)


def good_channel(text):
    return 1 <= len(text) <= 100 and text[0] in b"&#+!" and not any(b in b" ,\x07" for b in text)


# ---- changes and records

# An edit is a tuple of its kind and its fields. A change in nobody's name is an edit; one in a person's name is a tuple of 12,
# nick!user@host, the number of the casemapping, and the edit.

class Refused(Exception):
    """A change that is refused, by its code's number."""


def shape(change):
    """The number of the first fault of a change's shape, or 0."""
    kind = change[0]
    if kind == 12:
        return shape(change[3]) if good_person(change[1]) else 4
    handle = change[3] if kind == 8 else None if kind in (9, 11) else change[1]
    mask = change[2] if kind in (3, 4, 8, 9, 11) else None
    channel = change[2] if kind == 6 else change[1] if kind in (8, 9, 11) else None
    if handle is not None and not good_handle(handle):
        return 1
    if mask is not None and not good_mask(mask):
        return 4
    if channel is not None and channel and not good_channel(channel):
        return 7
    if kind == 8 and (len(change[5]) > 100 or any(b in b"\0\r\n" for b in change[5])):
        return 10
    if kind == 10 and (len(change[2]) > 80 or any(b in b"\0\r\n" for b in change[2])):
        return 10
    return 0


class User:
    def __init__(self, handle, masks=(), glob=0, chans=(), bot=0, info=b""):
        self.handle, self.masks, self.glob, self.chans, self.bot = handle, tuple(masks), glob, tuple(chans), bot
        self.info = info


def user_at(users, handle):
    for place, user in enumerate(users):
        if fold(user.handle) == fold(handle):
            return place
    return None


def mask_at(masks, mask):
    for place, held in enumerate(masks):
        if fold(held) == fold(mask):
            return place
    return None


def ban_at(bans, channel, mask):
    for place, ban in enumerate(bans):
        if fold(ban[0]) == fold(channel) and fold(ban[1]) == fold(mask):
            return place
    return None


def with_channel(chans, channel, flags):
    """The flags of one channel set: at its place, or last; without flags the channel is gone."""
    place = mask_at([name for name, _ in chans], channel)
    held = ((channel if place is None else chans[place][0], flags),) if flags else ()
    if place is None:
        return chans + held
    return chans[:place] + held + chans[place + 1:]


# ---- who asks, and for what

MASTER, OWNER, OP = (1 << "abcdefghijklmnopqrstuvwxyz".index(letter) for letter in "mno")


def mask_items(mask):
    """What a hostmask has one after the other: bytes that stand for themselves, and the wildcards as texts."""
    found = []
    while mask:
        if mask[0] == 92 and mask[1:2] and mask[1] in b"?*%~\\":
            mask = mask[1:]
            found.append(mask[0])
        else:
            found.append({42: "*", 63: "?"}.get(mask[0], mask[0]))
        mask = mask[1:]
    return found


def is_match(items, person, mapping):
    pattern = b"".join({"*": b".*", "?": b"."}.get(it) or re.escape(fold(bytes([it]), mapping)) for it in items)
    return re.fullmatch(pattern, fold(person, mapping), re.DOTALL) is not None


def user_for(users, person, mapping):
    """Who has the matching hostmask of most literals, the earliest of equals; none where no mask matches."""
    most, found = -1, None
    for user in users:
        for items in map(mask_items, user.masks):
            literals = sum(isinstance(it, int) for it in items)
            if is_match(items, person, mapping) and literals > most:
                most, found = literals, user
    return found


def may(users, who, edit):
    """Whether this user, or nobody whom the records know, may ask for an edit."""
    kind, flags = edit[0], who.glob if who else 0
    if kind == 10:
        return who is not None and fold(who.handle) == fold(edit[1])
    if kind in (8, 9):
        there = [held for name, held in who.chans if fold(name) == fold(edit[1])] if who else []
        return any(held & (OP | MASTER | OWNER) for held in [flags, *there])
    if kind == 11:
        return bool(flags & (MASTER | OWNER))
    place = user_at(users, edit[1])
    held = 0 if place is None else users[place].glob
    given = edit[2] if kind == 5 else 0
    owners = [user for user in users if user.glob & OWNER]
    if kind in (2, 5) and held & OWNER and len(owners) == 1 and not given & OWNER:
        return False
    return bool(flags & (OWNER if (held | given) & (MASTER | OWNER) else MASTER | OWNER))


def apply(records, change):
    """The records after a change; or Refused."""
    fault = shape(change)
    if fault:
        raise Refused(fault)
    if change[0] != 12:
        return edited(records, change)
    users, bans = records
    _, person, mapping, edit = change
    if not may(users, user_for(users, person, mapping), edit):
        raise Refused(12)
    after = edited(records, edit)
    if edit[0] == 8 and edit[1] and sum(fold(ban[0]) == fold(edit[1]) for ban in bans) >= 100:
        raise Refused(11)
    return after


def edited(records, change):
    """The records after an edit of good shape; or Refused."""
    users, bans = records
    kind = change[0]
    if kind == 1:
        if user_at(users, change[1]) is not None:
            raise Refused(2)
        if len(users) >= 500:
            raise Refused(11)
        return users + (User(change[1]),), bans
    if kind == 8:
        if ban_at(bans, change[1], change[2]) is not None:
            raise Refused(8)
        if len(bans) >= 200:
            raise Refused(11)
        return users, bans + (change[1:6] + (False,),)
    if kind in (9, 11):
        place = ban_at(bans, change[1], change[2])
        if place is None:
            raise Refused(9)
        held = () if kind == 9 else (bans[place][:5] + (change[3],),)
        return users, bans[:place] + held + bans[place + 1:]
    place = user_at(users, change[1])
    if place is None:
        raise Refused(3)
    if kind == 2:
        return users[:place] + users[place + 1:], bans
    user = users[place]
    if kind in (5, 6, 7):
        glob, chans, bot = user.glob, user.chans, user.bot
        if kind == 5:
            glob = change[2]
        elif kind == 6:
            chans = with_channel(chans, change[2], change[3])
            if len(chans) > 16:
                raise Refused(11)
        else:
            bot = change[2]
        new = User(user.handle, user.masks, glob, chans, bot, user.info)
        return users[:place] + (new,) + users[place + 1:], bans
    if kind == 10:
        new = User(user.handle, user.masks, user.glob, user.chans, user.bot, change[2])
        return users[:place] + (new,) + users[place + 1:], bans
    held = mask_at(user.masks, change[2])
    if kind == 3:
        if held is not None:
            raise Refused(5)
        if len(user.masks) >= 16:
            raise Refused(11)
        masks = user.masks + (change[2],)
    else:
        if held is None:
            raise Refused(6)
        masks = user.masks[:held] + user.masks[held + 1:]
    new = User(user.handle, masks, user.glob, user.chans, user.bot, user.info)
    return users[:place] + (new,) + users[place + 1:], bans


def refusal(records, change):
    try:
        apply(records, change)
    except Refused as fault:
        return fault.args[0]
    return 0


def stand_together(records):
    """Whether records are those of a userfile."""
    users, bans = records
    for place, user in enumerate(users):
        if user_at(users[:place], user.handle) is not None:
            return False
        for at, mask in enumerate(user.masks):
            if mask_at(user.masks[:at], mask) is not None:
                return False
    for place, ban in enumerate(bans):
        if ban_at(bans[:place], ban[0], ban[1]) is not None:
            return False
    return len(users) <= 500 and len(bans) <= 200


# ---- bytes

def num(value, width):
    return value.to_bytes(width, "big")


def text_bytes(text):
    return num(len(text), 1) + text


def change_bytes(change):
    kind = change[0]
    if kind == 12:
        return num(12, 1) + text_bytes(change[1]) + num(change[2], 1) + change_bytes(change[3])
    if kind in (1, 2):
        return num(kind, 1) + text_bytes(change[1])
    if kind in (3, 4, 9, 10):
        return num(kind, 1) + text_bytes(change[1]) + text_bytes(change[2])
    if kind in (5, 7):
        return num(kind, 1) + text_bytes(change[1]) + num(change[2], 8)
    if kind == 6:
        return num(kind, 1) + text_bytes(change[1]) + text_bytes(change[2]) + num(change[3], 8)
    if kind == 11:
        return num(kind, 1) + text_bytes(change[1]) + text_bytes(change[2]) + num(change[3], 1)
    channel, mask, creator, expires, comment = change[1:]
    return num(8, 1) + text_bytes(channel) + text_bytes(mask) + text_bytes(creator) + num(expires, 8) + text_bytes(comment)


def user_bytes(user, layout=LAYOUT):
    masks = b"".join(text_bytes(mask) for mask in user.masks)
    chans = b"".join(text_bytes(name) + num(flags, 8) for name, flags in user.chans)
    tag, info = (b"\1", b"") if layout == 1 else (b"\3", text_bytes(user.info))
    return (tag + text_bytes(user.handle) + num(len(user.masks), 1) + masks + num(user.glob, 8)
            + num(len(user.chans), 1) + chans + num(user.bot, 8) + info)


def ban_bytes(ban, layout=LAYOUT):
    tag, mark = (b"\2", b"") if layout == 1 else (b"\4", num(ban[5], 1))
    return tag + change_bytes((8,) + ban[:5])[1:] + mark


class Bad(Exception):
    """Bytes that spell nothing."""


class Reader:
    def __init__(self, data, layout=LAYOUT):
        self.data, self.at, self.layout = data, 0, layout

    def take(self, count):
        if self.at + count > len(self.data):
            raise Bad
        self.at += count
        return self.data[self.at - count:self.at]

    def num(self, width):
        return int.from_bytes(self.take(width), "big")

    def text(self):
        return self.take(self.num(1))

    def done(self):
        if self.at != len(self.data):
            raise Bad

    def change(self):
        kind = self.num(1)
        if kind == 12 and self.layout >= 4:
            person, mapping = self.text(), self.num(1)
            if not good_person(person) or mapping > 2:
                raise Bad
            return (12, person, mapping, self.edit(self.num(1)))
        return self.edit(kind)

    def edit(self, kind):
        if kind in (1, 2):
            change = (kind, self.text())
        elif kind in (3, 4, 9):
            change = (kind, self.text(), self.text())
        elif kind in (5, 7):
            change = (kind, self.text(), self.num(8))
        elif kind == 6:
            change = (kind, self.text(), self.text(), self.num(8))
        elif kind == 8:
            change = (kind, self.text(), self.text(), self.text(), self.num(8), self.text())
        elif kind == 10 and self.layout != 1:
            change = (kind, self.text(), self.text())
        elif kind == 11 and self.layout != 1:
            change = (kind, self.text(), self.text(), self.mark())
        else:
            raise Bad
        if shape(change):
            raise Bad
        return change

    def code(self):
        """The number of a code; layouts 1 to 3 had none for a right."""
        code = self.num(1)
        if code > (12 if self.layout >= 4 else 11):
            raise Bad
        return code

    def mark(self):
        mark = self.num(1)
        if mark > 1:
            raise Bad
        return bool(mark)

    def record(self):
        kind = self.num(1)
        if kind == (2 if self.layout == 1 else 4):
            ban = (self.text(), self.text(), self.text(), self.num(8), self.text())
            if shape((8,) + ban):
                raise Bad
            return ban + (self.layout != 1 and self.mark(),)
        if kind != (1 if self.layout == 1 else 3):
            raise Bad
        handle = self.text()
        masks = tuple(self.text() for _ in range(self.num(1)))
        glob = self.num(8)
        chans = tuple((self.text(), self.num(8)) for _ in range(self.num(1)))
        return User(handle, masks, glob, chans, self.num(8), b"" if self.layout == 1 else self.info())

    def info(self):
        info = self.text()
        if len(info) > 80 or any(b in b"\0\r\n" for b in info):
            raise Bad
        return info


def items_of(records):
    return list(records[0]) + list(records[1])


def records_from(items):
    return tuple(i for i in items if isinstance(i, User)), tuple(i for i in items if not isinstance(i, User))


def item_bytes(item, layout=LAYOUT):
    return user_bytes(item, layout) if isinstance(item, User) else ban_bytes(item, layout)


class Base:
    """Replies are lists of a request's number and its answer, by leaves; requests are changes by their numbers."""

    def __init__(self, bot, version, records, replies, last, out):
        self.bot, self.version, self.records, self.replies, self.last, self.out = bot, version, records, replies, last, out

    def spell(self, layout=LAYOUT):
        items = items_of(self.records)
        out = num(self.bot, 2) + num(self.version, 4) + num(len(items), 2) + b"".join(item_bytes(i, layout) for i in items)
        replies = [(leaf,) + reply for leaf, kept in sorted(self.replies.items()) for reply in kept]
        out += num(len(replies), 2)
        for leaf, request, (kind, value) in replies:
            out += num(leaf, 2) + num(request, 4) + (b"\0" + num(value, 4) if kind == "Accepted" else num(value, 1))
        out += num(self.last, 4) + num(len(self.out), 1)
        for request, change in sorted(self.out.items()):
            out += (num(request, 4) if layout >= 3 else b"") + change_bytes(change)
        return out


def read_base(data, layout):
    r = Reader(data, layout)
    bot, version = r.num(2), r.num(4)
    records = records_from([r.record() for _ in range(r.num(2))])
    replies, before = {}, 0
    for _ in range(r.num(2)):
        leaf, request, code = r.num(2), r.num(4), r.code()
        kept = replies.setdefault(leaf, [])
        if leaf < before or (kept and request != kept[-1][0] + 1):
            raise Bad
        kept.append((request, ("Accepted", r.num(4)) if code == 0 else ("Refused", code)))
        before = leaf
    if any(len(kept) > (WINDOW if layout >= 3 else 1) for kept in replies.values()):
        raise Bad
    last, out, count = r.num(4), {}, r.num(1)
    if count > (WINDOW if layout >= 3 else 1):
        raise Bad
    for _ in range(count):
        request = r.num(4) if layout >= 3 else last
        if (out and request <= max(out)) or request > last:
            raise Bad
        out[request] = r.change()
    r.done()
    if out and last > min(out) + WINDOW - 1:
        raise Bad
    return Base(bot, version, records, replies, last, out)


def spell_entry(entry):
    kind = entry[0]
    if kind == 1:
        return b"\1" + num(entry[1], 2) + num(entry[2], 4) + change_bytes(entry[3])
    if kind == 2:
        return b"\2" + num(entry[1], 2) + num(entry[2], 4) + num(entry[3], 1)
    if kind in (3, 4):
        return num(kind, 1) + num(entry[1], 4) + change_bytes(entry[2])
    return b"\5" + num(entry[1], 4)


def read_entry(data, layout):
    r = Reader(data, layout)
    kind = r.num(1)
    if kind == 1:
        entry = (kind, r.num(2), r.num(4), r.change())
    elif kind == 2:
        entry = (kind, r.num(2), r.num(4), r.code())
    elif kind in (3, 4):
        entry = (kind, r.num(4), r.change())
    elif kind == 5:
        entry = (kind, r.num(4))
    else:
        raise Bad
    r.done()
    return entry


def read_frame(data):
    r = Reader(data)
    length, kind = r.num(2), r.num(1)
    if length != len(data) - 2:
        raise Bad
    if kind == 1:
        packet = ("Hello", 1, r.num(2), r.num(4))
    elif kind == 8:
        packet = ("Hello", r.num(1), r.num(2), r.num(4))
        if packet[1] < 2:
            raise Bad
    elif kind == 2:
        packet = ("Change", r.num(4), r.num(2), r.num(4), r.change())
    elif kind == 3:
        version, part, count = r.num(4), r.num(1), r.num(1)
        packet = ("Part", version, part, count, [r.record() for _ in range(r.num(1))])
    elif kind == 4:
        packet = ("Request", r.num(2), r.num(4), r.change())
    elif kind == 5:
        packet = ("Accepted", r.num(2), r.num(4), r.num(4))
    elif kind == 6:
        packet = ("Refused", r.num(2), r.num(4), r.num(1))
    elif kind == 7:
        packet = ("BotText", r.num(2), r.num(2), r.take(r.num(2)))
    else:
        raise Bad
    r.done()
    return packet


# ---- a journal

class Code(Exception):
    """A refusal, by its letter and number."""


def read_disk(data):
    """Generation, base, entries, the place of the last gate, the layout and the last seal; None where the first gate is
    closed."""
    if data[:1] != b"\1":
        return None
    r = Reader(data)
    r.take(1)
    try:
        if r.take(4) != b"EGGJ":
            raise Bad
        layout = r.num(1)
        if not 1 <= layout <= LAYOUT:
            raise Bad
        generation = r.num(4)
        body, seal = read_value(r, layout, seals.first(layout, generation))
        base = read_base(body, layout)
        entries = []
        while data[r.at:r.at + 1] == b"\1":
            r.take(1)
            body, seal = read_value(r, layout, seal)
            entries.append(read_entry(body, layout))
    except Bad:
        raise Code("J2")
    return generation, base, entries, r.at, layout, seal


def read_value(r, layout, seal):
    """The next value of a disk, and the seal behind it. In layout 4 it carries its sum."""
    text = r.take(r.num(4))
    if layout < 4:
        return text, seal
    body, seal = seals.opened(seal, text)
    if body is None:
        raise Bad
    return body, seal


def image(bodies, generation=1, layout=LAYOUT):
    """What a disk holds that has these values, each with its sum in layout 4, and counts."""
    out, seal = b"\1EGGJ" + num(layout, 1) + num(generation, 4), seals.first(layout, generation)
    for body in bodies:
        text, seal = seals.sealed(seal, body) if layout >= 4 else (body, seal)
        out += num(len(text), 4) + text + b"\1"
    return out[:-1] + b"\0"


class Journal:
    def __init__(self, disks):
        self.disks = disks

    def create(self, base):
        first, second = self.disks
        second.write(0, b"\0")
        second.sync()
        body, _ = seals.sealed(seals.first(LAYOUT, 1), base.spell())
        first.write(0, b"\0EGGJ" + num(LAYOUT, 1) + num(1, 4) + num(len(body), 4) + body + b"\0")
        first.sync()
        first.write(0, b"\1")
        first.sync()
        self.open()

    def open(self):
        """The base and the entries; J1 or J2."""
        data = []
        for disk in self.disks:
            try:
                data.append(disk.read())
            except Fault:
                raise Code("J1")
        found = [read_disk(d) for d in data]
        if found[0] is None and found[1] is None:
            raise Code("J2")
        if found[0] and found[1] and found[0][0] == found[1][0]:
            raise Code("J2")
        self.active = 0 if found[1] is None or (found[0] and found[0][0] > found[1][0]) else 1
        self.generation, base, entries, self.gate, self.layout, self.seal = found[self.active]
        return base, entries

    def append(self, entry):
        disk, (body, self.seal) = self.disks[self.active], seals.sealed(self.seal, spell_entry(entry))
        try:
            disk.write(self.gate + 1, num(len(body), 4) + body + b"\0")
            disk.sync()
            disk.write(self.gate, b"\1")
            disk.sync()
        except Fault:
            raise Code("S5")
        self.gate += 5 + len(body)

    def rebase(self, base):
        disk, before = self.disks[1 - self.active], seals.first(LAYOUT, self.generation + 1)
        body, self.seal = seals.sealed(before, base.spell())
        try:
            if disk.seen[:1] == b"\1":
                disk.write(0, b"\0")
                disk.sync()
            disk.write(1, b"EGGJ" + num(LAYOUT, 1) + num(self.generation + 1, 4) + num(len(body), 4) + body + b"\0")
            disk.sync()
            disk.write(0, b"\1")
            disk.sync()
        except Fault:
            raise Code("S5")
        self.active, self.generation, self.gate = 1 - self.active, self.generation + 1, 14 + len(body)
        self.layout = LAYOUT


# ---- bots

class Bot:
    """What both ends have. A row answers a note and the packets with their addressees."""

    def __init__(self, number, leaves, disks, new):
        self.number, self.leaves, self.journal = number, leaves, Journal(disks)
        self.down = False
        if new:
            self.journal.create(Base(number, 0, ((), ()), {}, 0, {}))
        self.read()

    def read(self):
        base, entries = self.journal.open()
        state = self.fold(base, entries)
        self.__dict__.update(state)
        self.waiting, self.down = [], False
        self.parts = None
        if self.journal.layout != LAYOUT:
            self.put_anew()

    def put_anew(self):
        """The state alone, by the present layout, before anything is answered."""
        if self.journal.generation == LAST:
            raise Code("J4")
        try:
            self.journal.rebase(self.base())
        except Code:
            raise Code("J1")
        self.compacted()

    def up(self):
        if self.down:
            raise Code("S2")

    def kept(self, call, *args):
        """A journal call, after which the bot is down where it failed."""
        try:
            call(*args)
        except Code:
            self.down = True
            raise

    def ask(self, change):
        self.up()
        fault = shape(change)
        if fault:
            raise Code("U%d" % fault)
        if len(self.waiting) >= 64:
            raise Code("S1")
        self.waiting.append(change)
        return "Queued", []

    def compact(self):
        self.up()
        if self.journal.generation == LAST:
            raise Code("S4")
        self.kept(self.journal.rebase, self.base())
        self.compacted()
        return "Compacted", []

    def restart(self):
        for disk in self.journal.disks:
            disk.crash()
        try:
            self.read()
        except Code:
            self.down = True
            raise
        return "Restarted %d" % self.version, []

    def take(self, packet):
        self.up()
        return getattr(self, "take_" + packet[0].lower())(*packet[1:])

    def stray(self, *_):
        return "Stray", []


def last_of(kept):
    """The number of the last request that was answered, of the replies that are kept of a leaf."""
    return kept[-1][0] if kept else 0


def with_reply(kept, request, answer):
    """The replies that are kept after one more."""
    return ((kept or []) + [(request, answer)])[-WINDOW:]


class Hub(Bot):
    def fold(self, base, entries):
        if base.bot != 0 or any(not 1 <= leaf <= self.leaves for leaf in base.replies) or not stand_together(base.records):
            raise Code("J2")
        if base.last or base.out:
            raise Code("J2")
        version, records, replies, tail = base.version, base.records, dict(base.replies), []
        for entry in entries:
            if entry[0] not in (1, 2):
                raise Code("J2")
            origin, request = entry[1], entry[2]
            if origin > self.leaves or (origin == 0) != (request == 0) or (origin == 0 and entry[0] == 2):
                raise Code("J2")
            if origin and request != last_of(replies.get(origin)) + 1:
                raise Code("J2")
            if entry[0] == 2:
                replies[origin] = with_reply(replies.get(origin), request, ("Refused", entry[3]))
                continue
            if refusal(records, entry[3]) or version == LAST:
                raise Code("J2")
            records, version = apply(records, entry[3]), version + 1
            tail.append(entry[1:])
            if origin:
                replies[origin] = with_reply(replies.get(origin), request, ("Accepted", version))
        return dict(floor=base.version, version=version, records=records, replies=replies, tail=tail)

    def base(self):
        return Base(0, self.version, self.records, self.replies, 0, {})

    def compacted(self):
        self.floor, self.tail = self.version, []

    def accept(self, origin, request, change, first):
        if self.version == LAST:
            raise Code("S4")
        self.kept(self.journal.append, (1, origin, request, change))
        self.records, self.version = apply(self.records, change), self.version + 1
        self.tail.append((origin, request, change))
        if origin:
            self.replies[origin] = with_reply(self.replies.get(origin), request, ("Accepted", self.version))
            first = [(origin, ("Accepted", origin, request, self.version))]
        packet = ("Change", self.version, origin, request, change)
        return "Accepted %d" % self.version, first + [(leaf, packet) for leaf in range(1, self.leaves + 1)]

    def pump(self):
        self.up()
        if not self.waiting:
            return "Idle", []
        change = self.waiting[0]
        fault = refusal(self.records, change)
        answer = ("Refused U%d" % fault, []) if fault else self.accept(0, 0, change, [])
        self.waiting.pop(0)
        return answer

    def take_request(self, leaf, request, change):
        if not 1 <= leaf <= self.leaves or request == 0:
            return self.stray()
        kept = self.replies.get(leaf, [])
        for number, answer in kept:
            if number == request:
                return "Repeat", [(leaf, (answer[0], leaf, request, answer[1]))]
        if request <= last_of(kept):
            return "Old", []
        if request > last_of(kept) + 1:
            return "Gap", []
        fault = refusal(self.records, change)
        if not fault:
            return self.accept(leaf, request, change, [])
        self.kept(self.journal.append, (2, leaf, request, fault))
        self.replies[leaf] = with_reply(kept, request, ("Refused", fault))
        return "Refused U%d" % fault, [(leaf, ("Refused", leaf, request, fault))]

    def take_hello(self, layout, leaf, version):
        if layout != LAYOUT:
            raise Code("S8")
        if not 1 <= leaf <= self.leaves or version > self.version:
            return self.stray()
        if version >= self.floor:
            packets = []
            for n in range(version + 1, min(self.version, version + 16) + 1):
                packets.append((leaf, ("Change", n) + self.tail[n - 1 - self.floor]))
        else:
            items = items_of(self.records)
            count = max(1, (len(items) + 7) // 8)
            packets = [(leaf, ("Part", self.version, i, count, items[8 * i - 8:8 * i])) for i in range(1, count + 1)]
        return "Served %d" % len(packets), packets

    def take_bottext(self, source, to, text):
        if source > self.leaves or to > self.leaves:
            return self.stray()
        if to == 0:
            return "Text %d %s" % (source, text.decode("latin-1")), []
        return "Relayed", [(to, ("BotText", source, to, text))]

    take_change = take_part = take_accepted = take_refused = Bot.stray


def has_room(last, out):
    """Whether the request after the last one may go out: its number is below the lowest that is out, plus 8."""
    return not out or last + 1 < min(out) + WINDOW


class Leaf(Bot):
    def fold(self, base, entries):
        if base.bot != self.number or base.replies or not stand_together(base.records):
            raise Code("J2")
        version, records, last, out = base.version, base.records, base.last, dict(base.out)
        for entry in entries:
            if entry[0] == 3:
                if entry[1] != version + 1 or refusal(records, entry[2]):
                    raise Code("J2")
                records, version = apply(records, entry[2]), version + 1
            elif entry[0] == 4:
                if entry[1] != last + 1 or not has_room(last, out):
                    raise Code("J2")
                last = entry[1]
                out[last] = entry[2]
            elif entry[0] == 5:
                if entry[1] not in out:
                    raise Code("J2")
                del out[entry[1]]
            else:
                raise Code("J2")
        return dict(version=version, records=records, last=last, out=out)

    def base(self):
        return Base(self.number, self.version, self.records, {}, self.last, self.out)

    def compacted(self):
        pass

    def pump(self):
        self.up()
        if self.waiting and has_room(self.last, self.out):
            if self.last < LAST:
                self.kept(self.journal.append, (4, self.last + 1, self.waiting[0]))
                self.last += 1
                self.out[self.last] = self.waiting.pop(0)
            elif not self.out:
                raise Code("S4")
        packets = [(0, ("Hello", LAYOUT, self.number, self.version))]
        packets += [(0, ("Request", self.number, request, change)) for request, change in sorted(self.out.items())]
        return "Sent %d" % max(self.out) if self.out else "Idle", packets

    def take_change(self, n, origin, request, change):
        if n <= self.version:
            return "Old", []
        if n > self.version + 1:
            return "Early", []
        if refusal(self.records, change):
            self.parts = None
            raise Code("S3")
        self.kept(self.journal.append, (3, n, change))
        self.records, self.version = apply(self.records, change), n
        return "Applied %d" % n, []

    def take_part(self, version, part, count, items):
        if not 1 <= part <= count:
            return self.stray()
        if version <= self.version or (self.parts and version < self.parts[0]):
            return "Old", []
        held = dict(self.parts[2]) if self.parts and self.parts[:2] == (version, count) else {}
        held[part] = items
        if len(held) < count:
            self.parts = (version, count, held)
            return "Kept %d" % part, []
        records = records_from([item for i in range(1, count + 1) for item in held[i]])
        if not stand_together(records):
            self.parts = None
            raise Code("S3")
        if self.journal.generation == LAST:
            raise Code("S4")
        self.kept(self.journal.rebase, Base(self.number, version, records, {}, self.last, self.out))
        self.version, self.records, self.parts = version, records, None
        return "Installed %d" % version, []

    def replied(self, leaf, request, note):
        if leaf != self.number or request == 0:
            return self.stray()
        if request not in self.out:
            return "Old", []
        self.kept(self.journal.append, (5, request))
        del self.out[request]
        return note, []

    def take_accepted(self, leaf, request, n):
        return self.replied(leaf, request, "Accepted %d" % n)

    def take_refused(self, leaf, request, fault):
        return self.replied(leaf, request, "Refused U%d" % fault)

    def take_bottext(self, source, to, text):
        if source > self.leaves or to != self.number:
            return self.stray()
        return "Text %d %s" % (source, text.decode("latin-1")), []

    take_hello = take_request = Bot.stray


# ---- the net

LETTERS = "abcdefghijklmnopqrstuvwxyzABCDEFGHIJKLMNOPQRSTUVWXYZ"


def flags_text(flags):
    return "".join(c for i, c in enumerate(LETTERS) if flags >> i & 1) or "-"


def flags_from(text):
    return 0 if text == b"-" else sum(1 << LETTERS.index(letter) for letter in set(text.decode()))


def text_of(data):
    return data.decode("latin-1")


def record_lines(records):
    lines = []
    for user in records[0]:
        words = [" user", text_of(user.handle), flags_text(user.glob), flags_text(user.bot)]
        words += map(text_of, user.masks)
        for name, flags in user.chans:
            words += [text_of(name), flags_text(flags)]
        lines.append(" ".join(words))
        if user.info:
            lines.append(" ".join([" info", text_of(user.handle), text_of(user.info)]))
    for channel, mask, creator, expires, comment, sticky in records[1]:
        words = [" ban", text_of(channel) or "*", text_of(mask), text_of(creator), str(expires)]
        lines.append(" ".join(words + ([text_of(comment)] if comment else [])))
        if sticky:
            lines.append(" ".join([" sticky", text_of(channel) or "*", text_of(mask)]))
    return lines


def detail(packet):
    kind = packet[0]
    if kind == "Hello":
        words = [packet[3]]
    elif kind == "Change":
        words = [packet[1]]
    elif kind == "Part":
        words = packet[1:4]
    elif kind == "Request":
        words = [packet[2]]
    elif kind == "Accepted":
        words = packet[2:4]
    elif kind == "Refused":
        words = [packet[2], "U%d" % packet[3]]
    else:
        words = [packet[1], packet[2], text_of(packet[3])]
    return " ".join([kind] + [str(w) for w in words])


def change_from(words):
    """The change of the words `EDIT`, or `as PERSON EDIT`, or `as PERSON CASEMAPPING EDIT`."""
    if not words.startswith(b"as "):
        return edit_from(words)
    _, person, rest = words.split(b" ", 2)
    first, _, edit = rest.partition(b" ")
    names = [name.encode() for name in MAPPINGS]
    mapping, edit = (names.index(first), edit) if first in names else (2, rest)
    return 12, person, mapping, edit_from(edit)


def edit_from(words):
    """The edit of the words `KIND FIELD..`."""
    kind, _, rest = words.partition(b" ")
    first, _, second = rest.partition(b" ")
    if kind == b"adduser":
        return 1, rest
    if kind == b"deluser":
        return 2, rest
    if kind == b"addhost":
        return 3, first, second
    if kind == b"delhost":
        return 4, first, second
    if kind == b"info":
        return 10, first, second
    if kind in (b"global", b"bot"):
        return 5 if kind == b"global" else 7, first, flags_from(second)
    if kind == b"chan":
        channel, flags = second.split(b" ")
        return 6, first, channel, flags_from(flags)
    channel = b"" if first == b"*" else first
    if kind == b"delban":
        return 9, channel, second
    if kind == b"sticky":
        mask, on = second.split(b" ")
        return 11, channel, mask, on == b"1"
    assert kind == b"addban"
    mask, creator, expires = second.split(b" ")
    return 8, channel, mask, creator, int(expires), b""


class Net:
    """The bots of a net; a bot is its disks alone where no link opened on them."""

    def __init__(self, leaves):
        self.leaves, self.packets, self.seen, self.breaches = leaves, [], {}, []
        self.bots = [self.link(b, [Disk(), Disk()], True) for b in range(leaves + 1)]
        self.out = []

    def link(self, b, disks, new):
        return (Leaf if b else Hub)(b, self.leaves, disks, new)

    def say(self, line):
        self.out.append(line)

    def see(self, b, before):
        bot = self.bots[b]
        if not isinstance(bot, Bot):
            return
        if bot.version < before:
            self.breaches.append("%d went back to %d" % (b, bot.version))
        lines = record_lines(bot.records)
        if self.seen.setdefault(bot.version, lines) != lines:
            self.breaches.append("%d differs at %d" % (b, bot.version))

    def call(self, b, row, *args):
        if b > self.leaves:
            return self.say("world O2")
        bot = self.bots[b]
        if not isinstance(bot, Bot):
            return self.say("%d apart" % b)
        before = bot.version
        try:
            note, packets = getattr(bot, row)(*args)
        except Code as code:
            self.say("%d refused %s" % (b, code.args[0]))
        else:
            for to, packet in packets:
                self.packets.append((to, packet))
                self.say("send %d %d>%d %s" % (len(self.packets), b, to, detail(packet)))
            self.say("%d %s" % (b, note))
        self.see(b, before)

    def open(self, b, disks, before):
        try:
            self.bots[b] = self.link(b, disks, False)
            self.say("%d Restarted %d" % (b, self.bots[b].version))
        except Code as code:
            self.bots[b] = disks
            self.say("%d refused %s" % (b, code.args[0]))
        self.see(b, before)

    def disks(self, b):
        bot = self.bots[b]
        disks = bot.journal.disks if isinstance(bot, Bot) else bot
        for disk in disks:
            disk.crash()
        return disks, bot.version if isinstance(bot, Bot) else 0

    def step(self, line):
        word, _, rest = line.partition(b" ")
        first, _, rest = rest.partition(b" ")
        word = word.decode()
        if word == "check":
            for breach in self.breaches or ["same"]:
                self.say(breach)
            return
        b = int(first)
        if word == "deliver":
            if not 1 <= b <= len(self.packets):
                return self.say("world O3")
            return self.call(self.packets[b - 1][0], "take", self.packets[b - 1][1])
        if b > self.leaves:
            return self.say("world O2")
        if word in ("pump", "compact", "restart"):
            self.call(b, word)
        elif word == "ask":
            self.call(b, "ask", change_from(rest))
        elif word == "give":
            self.call(b, "take", read_frame(bytes.fromhex(rest.decode())))
        elif word == "show":
            bot = self.bots[b]
            if not isinstance(bot, Bot):
                return self.say("world O2")
            self.say("%d version %d users %d bans %d" % (b, bot.version, len(bot.records[0]), len(bot.records[1])))
            self.out += record_lines(bot.records)
        elif word == "plan":
            disk, call, tear = rest.decode().split(" ")
            disks, before = self.disks(b)
            disks[int(disk) - 1].plan(int(call), tear if tear in ("old", "new") else int(tear))
            self.open(b, disks, before)
        elif word == "planread":
            disks, before = self.disks(b)
            disks[int(rest) - 1].reads = 1
            self.open(b, disks, before)
        elif word in ("hold", "stop"):
            words = rest.decode().split(" ")
            disks = [Disk(b"" if w == "-" else bytes.fromhex(w)) for w in words[:2]]
            if word == "stop":
                disk, call, tear = words[2:]
                disks[int(disk) - 1].plan(int(call), tear if tear in ("old", "new") else int(tear))
            self.open(b, disks, 0)
        elif word == "again":
            disks, before = self.disks(b)
            self.open(b, disks, before)
        else:
            raise ValueError(word)


def play(lines):
    """What the steps print, line by line."""
    net, out = Net(0), []
    for line in lines:
        if not line:
            continue
        if line.startswith(b"#"):
            out.append(text_of(line))
            continue
        if line.startswith(b"leaves "):
            net = Net(int(line[7:]))
            continue
        net.step(line)
        out += net.out
        net.out = []
    return out


if __name__ == "__main__":
    for told in play(sys.stdin.buffer.read().split(b"\n")):
        print(told)
