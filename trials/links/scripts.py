"""Writes steps for the program `stepcases`, and what the model says that they answer.

    python3 scripts.py FOLDER [--further N] [--runs N] [--steps N] [--openings N] [--seed N] [--outs all] [--rows FIRST LAST]
                       [--bare]

writes FOLDER/stdin and FOLDER/stdout: the worked examples, whose answers stand here and were worked out by hand; then each
device call of each row stopped with each outcome, a restart, and `--further` random steps; then each of an opening of an
older journal, whose answers stand here too, and `--openings` that are stopped twice; then `--runs` random runs of `--steps`
steps. A row has one to eight requests of a leaf out: one number of them in turn, or each with `--outs all`. A call of an opening
leaves old bytes, new ones, and one other byte in turn, or each with `--outs all`. What is too long for one run of the program
goes on in FOLDER/stdin.2 and FOLDER/stdout.2, and so on. `--rows` takes some of the stopped rows alone, `--bare` leaves the
worked examples and the openings out. It tells how often each note and code comes, on standard error.
"""
import argparse
import random
import sys

from journals import FIRST_HUB, FIRST_LEAF, FIRST_LEAF_COMPACTED, SECOND_HUB, SECOND_LEAF, SECOND_LEAF_COMPACTED
from journals import THIRD_HUB, THIRD_LEAF, THIRD_LEAF_COMPACTED
from model import Base, Bot, LAST, LAYOUT, Net, User, WINDOW, change_bytes, image, num, spell_entry, user_bytes

TEARS = ["old", "new", "0", "1", "7"]


class Script:
    """Steps, played by the model as they are written."""

    def __init__(self):
        # The steps, what all of them tell, and how many lines each tells; how many rows were stopped so far.
        self.lines, self.told, self.each, self.net, self.turn = [], [], [], None, 0

    def __call__(self, line):
        before = len(self.told)
        self.play(line)
        self.each.append(len(self.told) - before)

    def play(self, line):
        self.lines.append(line)
        if line.startswith("#"):
            self.told.append(line)
        elif line.startswith("leaves "):
            self.net = Net(int(line[7:]))
        else:
            self.net.step(line.encode("latin-1"))
            self.told += self.net.out
            self.net.out = []

    def last(self, kind):
        """The number of the last packet of a kind."""
        return max(k for k, (_, packet) in enumerate(self.net.packets, 1) if packet[0] == kind)

    def deliver(self, kind):
        self("deliver %d" % self.last(kind))


# ---- worked examples, with the answers by hand

def disk(base, entries=(), generation=1, layout=LAYOUT):
    return image([base.spell(layout), *map(spell_entry, entries)], generation, layout).hex()


def changed_base(base, old, new):
    """A disk that holds a base in whose spelling bytes are others, which are given in hexadecimal."""
    spelled = base.spell().hex()
    assert spelled.count(old) == 1
    return image([bytes.fromhex(spelled.replace(old, new))]).hex()


def said_as(held, layout):
    """The same bytes, said to be of another layout."""
    return held[:10] + "%02x" % layout + held[12:]


def base(bot, version, users=(), replies={}, last=0, out={}, bans=()):
    people = tuple(u if isinstance(u, User) else User(u) for u in users)
    return Base(bot, version, (people, tuple(bans)), replies, last, out)


def frame(body):
    return (num(len(body), 2) + body).hex()


def hello(leaf, version, layout=LAYOUT):
    kind = b"\1" if layout == 1 else b"\10" + num(layout, 1)
    return frame(kind + num(leaf, 2) + num(version, 4))


def part(version, i, k, handles):
    return frame(b"\3" + num(version, 4) + num(i, 1) + num(k, 1) + num(len(handles), 1)
                 + b"".join(user_bytes(User(h)) for h in handles))


ALICE = (1, b"alice")
M, N, O = (1 << "abcdefghijklmno".index(letter) for letter in "mno")
BOSS, MAL = User(b"boss", [b"boss!*@*"], N), User(b"mal", [b"mal!*@*"], M)
BY_BOSS = (12, b"boss!b@h", 2, (1, b"alice"))    # in an owner's name
THREE = ["leaves 1", "ask 0 adduser alice", "pump 0", "ask 0 adduser bob", "pump 0", "ask 0 adduser carl", "pump 0"]
THREE_TOLD = ["0 Queued", "send 1 0>1 Change 1", "0 Accepted 1", "0 Queued", "send 2 0>1 Change 2", "0 Accepted 2",
              "0 Queued", "send 3 0>1 Change 3", "0 Accepted 3"]

WORKED = [
    ("a refused request, a restart, the repeat with its kept refusal",
     ["leaves 1", "ask 0 adduser alice", "pump 0", "ask 1 adduser alice", "pump 1", "deliver 3", "restart 0",
      "ask 0 deluser alice", "pump 0", "deliver 3", "deliver 6", "deliver 4", "show 0", "show 1"],
     ["0 Queued", "send 1 0>1 Change 1", "0 Accepted 1", "1 Queued", "send 2 1>0 Hello 0", "send 3 1>0 Request 1",
      "1 Sent 1", "send 4 0>1 Refused 1 U2", "0 Refused U2", "0 Restarted 1", "0 Queued", "send 5 0>1 Change 2",
      "0 Accepted 2", "send 6 0>1 Refused 1 U2", "0 Repeat", "1 Refused U2", "1 Old",
      "0 version 2 users 0 bans 0", "1 version 0 users 0 bans 0"]),
    ("two users reach a leaf out of order",
     ["leaves 1", "ask 0 adduser alice", "pump 0", "ask 0 adduser bob", "pump 0", "deliver 2", "deliver 1", "deliver 1",
      "deliver 2", "show 0", "show 1"],
     ["0 Queued", "send 1 0>1 Change 1", "0 Accepted 1", "0 Queued", "send 2 0>1 Change 2", "0 Accepted 2", "1 Early",
      "1 Applied 1", "1 Old", "1 Applied 2", "0 version 2 users 2 bans 0", " user alice - -", " user bob - -",
      "1 version 2 users 2 bans 0", " user alice - -", " user bob - -"]),
    ("an ask that the records refuse, and one of bad shape",
     ["leaves 0", "ask 0 deluser carol", "pump 0", "ask 0 adduser a*b", "pump 0", "deliver 9", "pump 1", "show 0"],
     ["0 Queued", "0 Refused U3", "0 refused U1", "0 Idle", "world O3", "world O2", "0 version 0 users 0 bans 0"]),
    ("a hub at the last version: the ask waits",
     ["leaves 1", "hold 0 %s 00" % disk(base(0, LAST)), "ask 0 adduser alice", "pump 0", "pump 0", "show 0"],
     ["0 Restarted 4294967295", "0 Queued", "0 refused S4", "0 refused S4", "0 version 4294967295 users 0 bans 0"]),
    ("a hub at the last version: a request",
     ["leaves 1", "hold 0 %s 00" % disk(base(0, LAST)), "give 0 %s" % frame(b"\4" + num(1, 2) + num(1, 4) + b"\1\1a")],
     ["0 Restarted 4294967295", "0 refused S4"]),
    ("a leaf at the last request number: the ask waits",
     ["leaves 1", "hold 1 %s 00" % disk(base(1, 3, last=LAST)), "ask 1 adduser alice", "pump 1", "pump 1"],
     ["1 Restarted 3", "1 Queued", "1 refused S4", "1 refused S4"]),
    ("the last generation: no compaction",
     ["leaves 1", "hold 0 %s 00" % disk(base(0, 3), generation=LAST), "compact 0", "hold 1 00 %s" %
      disk(base(1, 3), generation=LAST), "compact 1", "give 1 %s" % part(4, 1, 1, [b"al"]), "show 1"],
     ["0 Restarted 3", "0 refused S4", "1 Restarted 3", "1 refused S4", "1 refused S4", "1 version 3 users 0 bans 0"]),
    ("parts of two versions, out of order",
     ["leaves 1", "hold 1 %s 00" % disk(base(1, 3)), "give 1 %s" % part(9, 1, 2, [b"a"]), "give 1 %s" %
      part(12, 1, 2, [b"b"]), "give 1 %s" % part(9, 2, 2, [b"c"]), "give 1 %s" % part(12, 2, 2, [b"d"]), "give 1 %s" %
      part(2, 1, 1, [b"e"]), "show 1"],
     ["1 Restarted 3", "1 Kept 1", "1 Kept 1", "1 Old", "1 Installed 12", "1 Old", "1 version 12 users 2 bans 0",
      " user b - -", " user d - -"]),
    ("parts that are no userfile: the kept ones are dropped",
     ["leaves 1", "give 1 %s" % part(5, 2, 2, [b"a"]), "give 1 %s" % part(5, 1, 2, [b"A"]), "give 1 %s" %
      part(5, 1, 2, [b"b"]), "show 1", "give 1 %s" % part(5, 2, 2, [b"a"]), "show 1"],
     ["1 Kept 2", "1 refused S3", "1 Kept 1", "1 version 0 users 0 bans 0", "1 Installed 5",
      "1 version 5 users 2 bans 0", " user b - -", " user a - -"]),
    ("a restart loses kept parts and waiting asks",
     ["leaves 1", "give 1 %s" % part(5, 1, 2, [b"a"]), "ask 1 adduser b", "restart 1", "give 1 %s" %
      part(5, 2, 2, [b"b"]), "pump 1", "show 1"],
     ["1 Kept 1", "1 Queued", "1 Restarted 0", "1 Kept 2", "send 1 1>0 Hello 0", "1 Idle", "1 version 0 users 0 bans 0"]),
    ("a compaction, then hellos below the floor and at it",
     THREE + ["compact 0", "pump 1", "deliver 4", "deliver 5", "pump 1", "deliver 6", "show 1"],
     THREE_TOLD + ["0 Compacted", "send 4 1>0 Hello 0", "1 Idle", "send 5 0>1 Part 3 1 1", "0 Served 1", "1 Installed 3",
                   "send 6 1>0 Hello 3", "1 Idle", "0 Served 0", "1 version 3 users 3 bans 0", " user alice - -",
                   " user bob - -", " user carl - -"]),
    ("a hub's journal is no leaf's",
     ["leaves 1", "hold 1 %s 00" % disk(base(0, 0), [(1, 0, 0, ALICE)]), "pump 1", "show 1", "hold 0 %s 00" %
      disk(base(0, 0), [(1, 0, 0, ALICE)]), "show 0", "hold 1 %s 00" % disk(base(1, 0)), "pump 1"],
     ["1 refused J2", "1 apart", "world O2", "0 Restarted 1", "0 version 1 users 1 bans 0", " user alice - -",
      "1 Restarted 0", "send 1 1>0 Hello 0", "1 Idle"]),
    ("journals that are not this bot's, or do not fold",
     ["leaves 2", "hold 0 %s 00" % disk(base(0, 7, replies={2: [(3, ("Refused", 2))]})), "hold 0 %s 00" %
      disk(base(0, 7, replies={3: [(3, ("Refused", 2))]})), "hold 2 %s 00" % disk(base(1, 0)), "hold 1 %s 00" %
      disk(base(1, 0), [(3, 2, ALICE)]), "hold 1 %s 00" % disk(base(1, 0), [(3, 1, ALICE), (4, 2, ALICE)]),
      "hold 1 %s 00" % disk(base(1, 0), [(5, 1)]), "hold 0 %s 00" % disk(base(0, 0), [(1, 1, 2, ALICE)]),
      "hold 0 %s 00" % disk(base(0, 0), [(1, 0, 0, ALICE), (1, 0, 0, ALICE)]), "hold 0 00 00", "hold 0 %s %s" %
      (disk(base(0, 1)), disk(base(0, 2))), "hold 0 %s 00" % disk(base(0, 0, [b"a", b"A"])), "hold 0 %s %s" %
      (disk(base(0, 1)), disk(base(0, 2), generation=2))],
     ["0 Restarted 7", "0 refused J2", "2 refused J2", "1 refused J2", "1 refused J2", "1 refused J2", "0 refused J2",
      "0 refused J2", "0 refused J2", "0 refused J2", "0 refused J2", "0 Restarted 2"]),
    ("a hub stopped at its third device call: old",
     ["leaves 1", "plan 0 1 3 old", "ask 0 adduser alice", "pump 0", "pump 0", "show 0", "restart 0", "pump 1", "deliver 1"],
     ["0 Restarted 0", "0 Queued", "0 refused S5", "0 refused S2", "0 version 0 users 0 bans 0", "0 Restarted 0",
      "send 1 1>0 Hello 0", "1 Idle", "0 Served 0"]),
    ("a hub stopped at its third device call: new",
     ["leaves 1", "plan 0 1 3 new", "ask 0 adduser alice", "pump 0", "pump 0", "show 0", "restart 0", "pump 1", "deliver 1"],
     ["0 Restarted 0", "0 Queued", "0 refused S5", "0 refused S2", "0 version 0 users 0 bans 0", "0 Restarted 1",
      "send 1 1>0 Hello 0", "1 Idle", "send 2 0>1 Change 1", "0 Served 1"]),
    ("a compaction stopped at its third device call: old",
     THREE + ["plan 0 2 3 old", "compact 0", "ask 0 adduser dan", "compact 0", "restart 0", "pump 1", "deliver 4"],
     THREE_TOLD + ["0 Restarted 3", "0 refused S5", "0 refused S2", "0 refused S2", "0 Restarted 3", "send 4 1>0 Hello 0",
                   "1 Idle", "send 5 0>1 Change 1", "send 6 0>1 Change 2", "send 7 0>1 Change 3", "0 Served 3"]),
    ("a compaction stopped at its third device call: new",
     THREE + ["plan 0 2 3 new", "compact 0", "give 0 %s" % hello(1, 0), "restart 0", "pump 1",
              "deliver 4"],
     THREE_TOLD + ["0 Restarted 3", "0 refused S5", "0 refused S2", "0 Restarted 3", "send 4 1>0 Hello 0", "1 Idle",
                   "send 5 0>1 Part 3 1 1", "0 Served 1"]),
    ("a read that fails in a restart",
     THREE + ["planread 0 1", "restart 0", "pump 0", "show 0", "restart 0", "planread 0 2", "restart 0", "restart 0",
              "pump 0"],
     THREE_TOLD + ["0 Restarted 3", "0 refused J1", "0 refused S2", "0 version 3 users 3 bans 0", " user alice - -",
                   " user bob - -", " user carl - -", "0 Restarted 3", "0 Restarted 3", "0 refused J1", "0 Restarted 3",
                   "0 Idle"]),
    ("twenty changes: sixteen, then four",
     ["leaves 1", "hold 0 %s 00" % disk(base(0, 0), [(1, 0, 0, (1, b"u%d" % n)) for n in range(20)]),
      "give 0 %s" % hello(1, 0), "give 0 %s" % hello(1, 16),
      "give 0 %s" % hello(1, 20), "give 0 %s" % hello(1, 21)],
     ["0 Restarted 20"] + ["send %d 0>1 Change %d" % (n, n) for n in range(1, 17)] + ["0 Served 16"]
     + ["send %d 0>1 Change %d" % (n, n) for n in range(17, 21)] + ["0 Served 4", "0 Served 0", "0 Stray"]),
    ("nine users are two parts, and seventeen three",
     ["leaves 2", "hold 0 %s 00" % disk(base(0, 9, [b"u%d" % n for n in range(9)])),
      "give 0 %s" % hello(2, 0), "deliver 2", "restart 2", "deliver 1", "deliver 2",
      "hold 0 %s 00" % disk(base(0, 17, [b"u%d" % n for n in range(17)])),
      "give 0 %s" % hello(1, 16), "deliver 5", "deliver 4", "deliver 5", "deliver 3", "show 2"],
     ["0 Restarted 9", "send 1 0>2 Part 9 1 2", "send 2 0>2 Part 9 2 2", "0 Served 2", "2 Kept 2", "2 Restarted 0",
      "2 Kept 1", "2 Installed 9", "0 Restarted 17", "send 3 0>1 Part 17 1 3", "send 4 0>1 Part 17 2 3",
      "send 5 0>1 Part 17 3 3", "0 Served 3", "1 Kept 3", "1 Kept 2", "1 Kept 3", "1 Installed 17",
      "2 version 9 users 9 bans 0"] + [" user u%d - -" % n for n in range(9)]),
    ("sixty-four asks wait, and no more",
     ["leaves 0"] + ["ask 0 adduser u%d" % n for n in range(65)] + ["pump 0", "ask 0 adduser u65", "ask 0 adduser u66"],
     ["0 Queued"] * 64 + ["0 refused S1", "0 Accepted 1", "0 Queued", "0 refused S1"]),
    ("packets that are not for this bot",
     ["leaves 2", "give 1 %s" % hello(1, 0), "give 1 %s" %
      frame(b"\4" + num(1, 2) + num(1, 4) + b"\1\1a"), "give 0 %s" % frame(b"\2" + num(1, 4) + bytes(6) + b"\1\1a"),
      "give 0 %s" % frame(b"\5" + num(1, 2) + num(1, 4) + num(1, 4)), "give 0 %s" % part(1, 1, 1, [b"a"]), "give 1 %s" %
      part(1, 0, 1, [b"a"]), "give 1 %s" % part(1, 2, 1, [b"a"]), "give 1 %s" %
      frame(b"\6" + num(2, 2) + num(1, 4) + b"\2"), "give 1 %s" % frame(b"\6" + num(1, 2) + num(0, 4) + b"\2"),
      "give 1 %s" % frame(b"\6" + num(1, 2) + num(1, 4) + b"\2"), "give 0 %s" % hello(0, 0),
      "give 0 %s" % hello(3, 0), "give 0 %s" % hello(1, 1),
      "give 0 %s" % frame(b"\4" + num(1, 2) + num(0, 4) + b"\1\1a"), "give 0 %s" %
      frame(b"\4" + num(3, 2) + num(1, 4) + b"\1\1a"), "give 0 %s" % frame(b"\4" + num(1, 2) + num(2, 4) + b"\1\1a"),
      "give 0 %s" % frame(b"\7" + num(1, 2) + num(0, 2) + num(2, 2) + b"hi"), "give 0 %s" %
      frame(b"\7" + num(1, 2) + num(2, 2) + num(2, 2) + b"hi"), "give 0 %s" %
      frame(b"\7" + num(1, 2) + num(3, 2) + num(2, 2) + b"hi"), "deliver 1", "give 1 %s" %
      frame(b"\7" + num(1, 2) + num(2, 2) + num(2, 2) + b"hi"), "show 0", "show 1"],
     ["1 Stray", "1 Stray", "0 Stray", "0 Stray", "0 Stray", "1 Stray", "1 Stray", "1 Stray", "1 Stray", "1 Old",
      "0 Stray", "0 Stray", "0 Stray", "0 Stray", "0 Stray", "0 Gap", "0 Text 1 hi", "send 1 0>2 BotText 1 2 hi",
      "0 Relayed", "0 Stray", "2 Text 1 hi", "1 Stray", "0 version 0 users 0 bans 0", "1 version 0 users 0 bans 0"]),
    ("one version with two sets of records is seen",
     ["leaves 1", "check", "hold 1 %s 00" % disk(base(1, 2, [b"a"])), "hold 0 %s 00" % disk(base(0, 2, [b"b"])), "check"],
     ["same", "1 Restarted 2", "0 Restarted 2", "0 differs at 2"]),
]


# ---- journals of older layouts

# the records of the journals that a program of layout 1 wrote, one of layout 2, and one of layout 3
FIRST_RECORDS = [" user alice mo - *!*alice@home.example #egg ao", " user bob - -", " user carol - -", " user dave - -",
                 " user erin - -", " ban #egg *!*@worse.net bob 2000000000 later"]
SECOND_RECORDS = [" user alice mo - *!*alice@home.example #egg ao", " info alice the first of us", " user bob - -", " user carol - -",
                  " info carol of the first leaf", " user dave - -", " user erin - -", " ban * *!*@bad.net alice 0 go away",
                  " sticky * *!*@bad.net", " ban #egg *!*@worse.net bob 2000000000 later", " sticky #egg *!*@worse.net"]
THIRD_RECORDS = [*SECOND_RECORDS[:2], " user bob - s", *SECOND_RECORDS[3:5], *SECOND_RECORDS[6:]]

ONE = disk(base(0, 0), [(1, 0, 0, ALICE)], layout=1)
OUT = disk(base(1, 3), [(4, 1, ALICE)], layout=1)

WORKED += [
    ("a hello of another layout",
     ["leaves 1", "give 0 %s" % hello(1, 0, layout=1), "give 0 %s" % hello(1, 0, layout=3), "give 0 %s" % hello(9, 5, layout=5), "give 0 %s" %
      hello(1, 0), "give 1 %s" % hello(1, 0, layout=1), "plan 0 1 1 old", "ask 0 adduser alice", "pump 0",
      "give 0 %s" % hello(1, 0, layout=1)],
     ["0 refused S8", "0 refused S8", "0 refused S8", "0 Served 0", "1 Stray", "0 Restarted 0", "0 Queued", "0 refused S5",
      "0 refused S2"]),
    ("infos and marks",
     ["leaves 1", "ask 0 adduser alice", "pump 0", "ask 0 info alice the first of us", "pump 0", "ask 0 info bob hi", "pump 0",
      "ask 0 info alice %s" % ("x" * 81), "ask 0 addban #a *!*@b alice 0", "pump 0", "ask 0 sticky #A *!*@B 1", "pump 0",
      "ask 0 sticky * *!*@b 1", "pump 0", "deliver 1", "deliver 2", "deliver 3", "deliver 4", "restart 1", "show 1",
      "compact 0", "restart 0", "show 0", "check"],
     ["0 Queued", "send 1 0>1 Change 1", "0 Accepted 1", "0 Queued", "send 2 0>1 Change 2", "0 Accepted 2", "0 Queued",
      "0 Refused U3", "0 refused U10", "0 Queued", "send 3 0>1 Change 3", "0 Accepted 3", "0 Queued", "send 4 0>1 Change 4",
      "0 Accepted 4", "0 Queued", "0 Refused U9", "1 Applied 1", "1 Applied 2", "1 Applied 3", "1 Applied 4", "1 Restarted 4",
      "1 version 4 users 1 bans 1", " user alice - -", " info alice the first of us", " ban #a *!*@b alice 0",
      " sticky #a *!*@b", "0 Compacted", "0 Restarted 4", "0 version 4 users 1 bans 1", " user alice - -",
      " info alice the first of us", " ban #a *!*@b alice 0", " sticky #a *!*@b", "same"]),
    ("a hub of layout 1: what it accepted is no longer kept one by one",
     ["leaves 1", "hold 0 %s 00" % ONE, "show 0", "give 0 %s" % hello(1, 0), "deliver 1", "ask 0 info alice hi", "pump 0",
      "deliver 2", "restart 0", "show 0", "show 1", "check"],
     ["0 Restarted 1", "0 version 1 users 1 bans 0", " user alice - -", "send 1 0>1 Part 1 1 1", "0 Served 1", "1 Installed 1",
      "0 Queued", "send 2 0>1 Change 2", "0 Accepted 2", "1 Applied 2", "0 Restarted 2", "0 version 2 users 1 bans 0",
      " user alice - -", " info alice hi", "1 version 2 users 1 bans 0", " user alice - -", " info alice hi", "same"]),
    ("a hub of layout 1 keeps the last reply",
     ["leaves 1", "hold 0 %s 00" % disk(base(0, 7, replies={1: [(3, ("Refused", 2))]}), layout=1), "give 0 %s" %
      frame(b"\4" + num(1, 2) + num(3, 4) + b"\1\1a"), "restart 0", "give 0 %s" %
      frame(b"\4" + num(1, 2) + num(3, 4) + b"\1\1a"), "give 0 %s" % frame(b"\4" + num(1, 2) + num(4, 4) + b"\1\1a")],
     ["0 Restarted 7", "send 1 0>1 Refused 3 U2", "0 Repeat", "0 Restarted 7", "send 2 0>1 Refused 3 U2", "0 Repeat",
      "send 3 0>1 Accepted 4 8", "send 4 0>1 Change 8", "0 Accepted 8"]),
    ("a leaf of layout 1 keeps the request that is out",
     ["leaves 1", "hold 1 %s 00" % OUT, "pump 1", "restart 1", "pump 1", "deliver 4", "deliver 5", "pump 1"],
     ["1 Restarted 3", "send 1 1>0 Hello 3", "send 2 1>0 Request 1", "1 Sent 1", "1 Restarted 3", "send 3 1>0 Hello 3",
      "send 4 1>0 Request 1", "1 Sent 1", "send 5 0>1 Accepted 1 1", "send 6 0>1 Change 1", "0 Accepted 1", "1 Accepted 1",
      "send 7 1>0 Hello 3", "1 Idle"]),
    ("an older layout in the last generation can't be put anew",
     ["leaves 1", "hold 0 %s 00" % disk(base(0, 3), generation=LAST, layout=1), "pump 0", "again 0", "hold 1 00 %s" %
      disk(base(1, 3), generation=LAST, layout=1), "hold 1 00 %s" % disk(base(1, 3), generation=LAST, layout=2), "pump 1",
      "hold 1 00 %s" % disk(base(1, 3), generation=LAST)],
     ["0 refused J4", "0 apart", "0 refused J4", "1 refused J4", "1 refused J4", "1 apart", "1 Restarted 3"]),
    ("each disk is read by its own layout",
     ["leaves 1", "stop 0 %s %s 1 1 old" % (ONE, disk(base(0, 2), generation=2)), "stop 0 %s %s 2 1 old" %
      (disk(base(0, 2), generation=2), ONE), "stop 0 %s %s 1 1 old" % (disk(base(0, 2)), ONE),
      "hold 0 %s %s" % (disk(base(0, 2)), disk(base(0, 3), generation=2, layout=1)),
      "hold 0 %s %s" % (disk(base(0, 2), layout=1), disk(base(0, 3), generation=2, layout=2)),
      "hold 0 %s 00" % said_as(disk(base(0, 2), layout=1), 5), "hold 0 %s 00" % said_as(disk(base(0, 2, [b"a"]), layout=1), 2),
      "hold 0 %s 00" % said_as(disk(base(0, 2, [b"a"]), layout=3), 1),
      "hold 0 %s 00" % said_as(disk(base(0, 2, [b"a"]), layout=3), 2),
      "hold 1 %s 00" % said_as(disk(base(1, 2, last=4, out={4: ALICE}), layout=2), 3),
      "hold 1 %s 00" % said_as(disk(base(1, 2, last=4, out={4: ALICE}), layout=3), 2),
      "hold 0 %s 00" % disk(base(0, 2, [b"a"]), [(1, 0, 0, (10, b"a", b"hi"))], layout=1),
      "hold 0 %s 00" % disk(base(0, 2, [b"a"]), [(1, 0, 0, (10, b"a", b"hi"))], layout=2),
      "hold 0 %s 00" % disk(base(0, 2, [b"a"]), [(1, 0, 0, (10, b"a", b"hi"))], layout=3),
      "hold 0 %s 00" % disk(base(0, 2, [b"a"]), [(1, 0, 0, (10, b"a", b"hi"))]),
      # layout 3 has no sums, and no changes in a person's name
      "hold 0 %s 00" % said_as(disk(base(0, 2), layout=3), 4), "hold 0 %s 00" % said_as(disk(base(0, 2)), 3),
      "hold 0 %s 00" % disk(base(0, 2, [BOSS]), [(1, 0, 0, BY_BOSS)], layout=3),
      "hold 0 %s 00" % disk(base(0, 2, [BOSS]), [(1, 0, 0, BY_BOSS)])],
     ["0 Restarted 2", "0 Restarted 2", "0 refused J2", "0 Restarted 3", "0 Restarted 3", "0 refused J2", "0 refused J2",
      "0 refused J2", "0 Restarted 2", "1 refused J2", "1 refused J2", "0 refused J2", "0 Restarted 3", "0 Restarted 3",
      "0 Restarted 3", "0 refused J2", "0 refused J2", "0 refused J2", "0 Restarted 3"]),
]

# ---- eight requests at once

def request(leaf, number, handle):
    return frame(b"\4" + num(leaf, 2) + num(number, 4) + b"\1" + num(len(handle), 1) + handle)


def accepted(leaf, number, version):
    return frame(b"\5" + num(leaf, 2) + num(number, 4) + num(version, 4))


def refused(leaf, number, code):
    return frame(b"\6" + num(leaf, 2) + num(number, 4) + num(code, 1))


def asking(numbers):
    """Requests that are out, each for a user of its own."""
    return {number: (1, b"q%d" % number) for number in numbers}


def answers(numbers):
    """Replies that are kept: each of these requests was accepted, under 100 and its number's last digit."""
    return [(number, ("Accepted", 100 + number % 10)) for number in numbers]


def pumps(at, version, lists):
    """What a leaf's pumps send, the first packet under this number, and tell: each a hello, and requests of these numbers."""
    told = []
    for numbers in lists:
        told.append("send %d 1>0 Hello %d" % (at, version))
        told += ["send %d 1>0 Request %d" % (at + place, number) for place, number in enumerate(numbers, 1)]
        told.append("1 Sent %d" % numbers[-1])
        at += len(numbers) + 1
    return told


# nine pumps of a leaf with ten asks, of which nothing is delivered: pump K sends requests 1 to K, and the ninth 1 to 8
NINE_PUMPS_TOLD = pumps(1, 0, [[*range(1, min(pump, 8) + 1)] for pump in range(1, 10)])

WORKED += [
    ("two requests are out; the second comes first",
     ["leaves 1", "ask 1 adduser a", "ask 1 adduser b", "pump 1", "pump 1", "deliver 5", "deliver 2", "deliver 5", "deliver 4",
      "deliver 8", "deliver 8"],
     ["1 Queued", "1 Queued", "send 1 1>0 Hello 0", "send 2 1>0 Request 1", "1 Sent 1", "send 3 1>0 Hello 0",
      "send 4 1>0 Request 1", "send 5 1>0 Request 2", "1 Sent 2", "0 Gap", "send 6 0>1 Accepted 1 1", "send 7 0>1 Change 1",
      "0 Accepted 1", "send 8 0>1 Accepted 2 2", "send 9 0>1 Change 2", "0 Accepted 2", "send 10 0>1 Accepted 1 1",
      "0 Repeat", "1 Accepted 2", "1 Old"]),
    ("ten asks and nine pumps: eight are out, and two wait until the first is answered; the hub keeps the last eight replies",
     ["leaves 1"] + ["ask 1 adduser u%d" % n for n in range(1, 11)] + ["pump 1"] * 9
     + ["deliver %d" % k for k in (46, 47, 48, 49, 50, 51, 52, 53)]
     + ["deliver %d" % k for k in (68, 66, 64, 62, 60, 58, 56)]
     + ["pump 1", "deliver 71", "deliver 72", "deliver 54", "pump 1", "pump 1", "pump 1", "deliver 77", "deliver 74",
        "deliver 2", "deliver 47", "deliver 77", "deliver 47", "deliver 48", "deliver 83", "compact 0", "deliver 48",
        "restart 0", "deliver 47", "deliver 48", "deliver 77", "compact 1", "restart 1", "pump 1", "deliver 84", "restart 1",
        "pump 1", "deliver 81", "pump 1", "show 0", "show 1"],
     ["1 Queued"] * 10 + NINE_PUMPS_TOLD + [
         "send 54 0>1 Accepted 1 1", "send 55 0>1 Change 1", "0 Accepted 1",
         "send 56 0>1 Accepted 2 2", "send 57 0>1 Change 2", "0 Accepted 2",
         "send 58 0>1 Accepted 3 3", "send 59 0>1 Change 3", "0 Accepted 3",
         "send 60 0>1 Accepted 4 4", "send 61 0>1 Change 4", "0 Accepted 4",
         "send 62 0>1 Accepted 5 5", "send 63 0>1 Change 5", "0 Accepted 5",
         "send 64 0>1 Accepted 6 6", "send 65 0>1 Change 6", "0 Accepted 6",
         "send 66 0>1 Accepted 7 7", "send 67 0>1 Change 7", "0 Accepted 7",
         "send 68 0>1 Accepted 8 8", "send 69 0>1 Change 8", "0 Accepted 8",
         # the first alone is out: the ninth would not be below 1 and 8
         "1 Accepted 8", "1 Accepted 7", "1 Accepted 6", "1 Accepted 5", "1 Accepted 4", "1 Accepted 3", "1 Accepted 2",
         "send 70 1>0 Hello 0", "send 71 1>0 Request 1", "1 Sent 1", "send 72 0>1 Accepted 1 1", "0 Repeat", "1 Accepted 1",
         "1 Old", "send 73 1>0 Hello 0", "send 74 1>0 Request 9", "1 Sent 9", "send 75 1>0 Hello 0",
         "send 76 1>0 Request 9", "send 77 1>0 Request 10", "1 Sent 10", "send 78 1>0 Hello 0", "send 79 1>0 Request 9",
         "send 80 1>0 Request 10", "1 Sent 10",
         # the replies to 2 to 9 are kept, then those to 3 to 10
         "0 Gap", "send 81 0>1 Accepted 9 9", "send 82 0>1 Change 9", "0 Accepted 9", "0 Old", "send 83 0>1 Accepted 2 2",
         "0 Repeat", "send 84 0>1 Accepted 10 10", "send 85 0>1 Change 10", "0 Accepted 10", "0 Old",
         "send 86 0>1 Accepted 3 3", "0 Repeat", "1 Old", "0 Compacted", "send 87 0>1 Accepted 3 3", "0 Repeat",
         "0 Restarted 10", "0 Old", "send 88 0>1 Accepted 3 3", "0 Repeat", "send 89 0>1 Accepted 10 10", "0 Repeat",
         "1 Compacted", "1 Restarted 0", "send 90 1>0 Hello 0", "send 91 1>0 Request 9", "send 92 1>0 Request 10",
         "1 Sent 10", "1 Accepted 10", "1 Restarted 0", "send 93 1>0 Hello 0", "send 94 1>0 Request 9", "1 Sent 9",
         "1 Accepted 9", "send 95 1>0 Hello 0", "1 Idle", "0 version 10 users 10 bans 0"]
     + [" user u%d - -" % n for n in range(1, 11)] + ["1 version 0 users 0 bans 0"]),
    ("requests that are out end in any order, refused ones too",
     ["leaves 1", "ask 0 adduser alice", "pump 0", "ask 1 adduser alice", "ask 1 deluser alice", "ask 1 adduser ALICE",
      "pump 1", "pump 1", "pump 1", "deliver 10", "deliver 3", "deliver 10", "deliver 6", "deliver 5", "deliver 10",
      "deliver 8", "restart 0", "deliver 9", "deliver 15", "deliver 14", "deliver 17", "restart 1", "pump 1", "deliver 12",
      "deliver 18", "pump 1", "show 0"],
     ["0 Queued", "send 1 0>1 Change 1", "0 Accepted 1", "1 Queued", "1 Queued", "1 Queued", "send 2 1>0 Hello 0",
      "send 3 1>0 Request 1", "1 Sent 1", "send 4 1>0 Hello 0", "send 5 1>0 Request 1", "send 6 1>0 Request 2", "1 Sent 2",
      "send 7 1>0 Hello 0", "send 8 1>0 Request 1", "send 9 1>0 Request 2", "send 10 1>0 Request 3", "1 Sent 3", "0 Gap",
      "send 11 0>1 Refused 1 U2", "0 Refused U2", "0 Gap", "send 12 0>1 Accepted 2 2", "send 13 0>1 Change 2",
      "0 Accepted 2", "send 14 0>1 Refused 1 U2", "0 Repeat", "send 15 0>1 Accepted 3 3", "send 16 0>1 Change 3",
      "0 Accepted 3", "send 17 0>1 Refused 1 U2", "0 Repeat", "0 Restarted 3", "send 18 0>1 Accepted 2 2", "0 Repeat",
      "1 Accepted 3", "1 Refused U2", "1 Old", "1 Restarted 0", "send 19 1>0 Hello 0", "send 20 1>0 Request 2", "1 Sent 2",
      "1 Accepted 2", "1 Old", "send 21 1>0 Hello 0", "1 Idle", "0 version 3 users 1 bans 0", " user ALICE - -"]),
    ("each leaf has a window of its own",
     ["leaves 2", "give 0 %s" % request(1, 1, b"a"), "give 0 %s" % request(2, 2, b"b"), "give 0 %s" % request(2, 1, b"c"),
      "give 0 %s" % request(1, 2, b"d"), "give 0 %s" % request(2, 1, b"c"), "give 0 %s" % request(1, 1, b"a"), "give 0 %s" %
      request(1, 4, b"e"), "give 0 %s" % request(2, 2, b"A")],
     ["send 1 0>1 Accepted 1 1", "send 2 0>1 Change 1", "send 3 0>2 Change 1", "0 Accepted 1", "0 Gap",
      "send 4 0>2 Accepted 1 2", "send 5 0>1 Change 2", "send 6 0>2 Change 2", "0 Accepted 2", "send 7 0>1 Accepted 2 3",
      "send 8 0>1 Change 3", "send 9 0>2 Change 3", "0 Accepted 3", "send 10 0>2 Accepted 1 2", "0 Repeat",
      "send 11 0>1 Accepted 1 1", "0 Repeat", "0 Gap", "send 12 0>2 Refused 2 U2", "0 Refused U2"]),
    ("the last request numbers: what is out goes again, and no ask goes out",
     ["leaves 1", "hold 1 %s 00" % disk(base(1, 3, last=LAST, out=asking([LAST - 1, LAST]))), "ask 1 adduser a", "pump 1",
      "give 1 %s" % accepted(1, LAST, 9), "pump 1", "give 1 %s" % refused(1, LAST - 1, 2), "pump 1", "compact 1", "pump 1",
      "hold 1 %s 00" % disk(base(1, 3, last=LAST - 1)), "ask 1 adduser a", "ask 1 adduser b", "pump 1", "pump 1",
      "give 1 %s" % accepted(1, LAST, 9), "pump 1"],
     ["1 Restarted 3", "1 Queued", "send 1 1>0 Hello 3", "send 2 1>0 Request 4294967294", "send 3 1>0 Request 4294967295",
      "1 Sent 4294967295", "1 Accepted 9", "send 4 1>0 Hello 3", "send 5 1>0 Request 4294967294", "1 Sent 4294967294",
      "1 Refused U2", "1 refused S4", "1 Compacted", "1 refused S4", "1 Restarted 3", "1 Queued", "1 Queued",
      "send 6 1>0 Hello 3", "send 7 1>0 Request 4294967295", "1 Sent 4294967295", "send 8 1>0 Hello 3",
      "send 9 1>0 Request 4294967295", "1 Sent 4294967295", "1 Accepted 9", "1 refused S4"]),
    ("replies to the last request numbers",
     ["leaves 1", "hold 0 %s 00" % disk(base(0, 7, replies={1: answers(range(LAST - 8, LAST))})), "give 0 %s" %
      request(1, LAST - 8, b"a"), "give 0 %s" % request(1, LAST, b"a"), "give 0 %s" % request(1, LAST - 8, b"a"), "give 0 %s" %
      request(1, LAST - 7, b"a"), "give 0 %s" % request(1, LAST, b"a")],
     ["0 Restarted 7", "send 1 0>1 Accepted 4294967287 107", "0 Repeat", "send 2 0>1 Accepted 4294967295 8",
      "send 3 0>1 Change 8", "0 Accepted 8", "0 Old", "send 4 0>1 Accepted 4294967288 108", "0 Repeat",
      "send 5 0>1 Accepted 4294967295 8", "0 Repeat"]),
    ("a hub at the last version: nothing is kept of a request, and the next one comes early",
     ["leaves 1", "hold 0 %s 00" % disk(base(0, LAST)), "give 0 %s" % request(1, 1, b"a"), "give 0 %s" % request(1, 2, b"b"),
      "give 0 %s" % request(1, 1, b"a")],
     ["0 Restarted 4294967295", "0 refused S4", "0 Gap", "0 refused S4"]),
    ("a window that its lowest request closes, and one that a reply opens",
     ["leaves 1", "hold 1 %s 00" % disk(base(1, 3, last=8, out=asking([1, 8]))), "ask 1 adduser a", "pump 1", "give 1 %s" %
      refused(1, 1, 2), "pump 1", "hold 1 %s 00" % disk(base(1, 3, last=8, out=asking([2]))), "ask 1 adduser a", "pump 1",
      "ask 1 adduser b", "pump 1", "give 1 %s" % accepted(1, 9, 5), "give 1 %s" % accepted(1, 9, 5), "pump 1",
      "hold 1 %s 00" % disk(base(1, 3, last=8)), "ask 1 adduser a", "pump 1"],
     ["1 Restarted 3", "1 Queued", "send 1 1>0 Hello 3", "send 2 1>0 Request 1", "send 3 1>0 Request 8", "1 Sent 8",
      "1 Refused U2", "send 4 1>0 Hello 3", "send 5 1>0 Request 8", "send 6 1>0 Request 9", "1 Sent 9", "1 Restarted 3",
      "1 Queued", "send 7 1>0 Hello 3", "send 8 1>0 Request 2", "send 9 1>0 Request 9", "1 Sent 9", "1 Queued",
      "send 10 1>0 Hello 3", "send 11 1>0 Request 2", "send 12 1>0 Request 9", "1 Sent 9", "1 Accepted 5", "1 Old",
      "send 13 1>0 Hello 3", "send 14 1>0 Request 2", "1 Sent 2", "1 Restarted 3", "1 Queued", "send 15 1>0 Hello 3",
      "send 16 1>0 Request 9", "1 Sent 9"]),
    ("bases of a leaf with requests that are out",
     ["leaves 1"] + ["hold 1 %s 00" % disk(base(1, 3, last=last, out=asking(numbers))) for last, numbers in (
         (8, range(1, 9)), (9, range(1, 10)), (9, range(2, 10)), (8, [1]), (9, [1]), (9, [2]), (3, [4]), (4, [2, 4]),
         (LAST, [LAST - 7]), (LAST, [LAST - 8]))]
     + ["hold 1 %s 00" % changed_base(base(1, 3, last=9, out=asking([5, 7])), "0000000701027137", "0000000501027137"),
        "hold 1 %s 00" % changed_base(base(1, 3, last=9, out=asking([5, 7])), "0000000501027135", "0000000801027135"),
        "hold 1 %s 00" % disk(base(1, 3, replies={1: answers([1])})), "hold 0 %s 00" % disk(base(0, 3, last=1)),
        "hold 0 %s 00" % disk(base(0, 3, last=1, out=asking([1])))],
     ["1 Restarted 3", "1 refused J2", "1 Restarted 3", "1 Restarted 3", "1 refused J2", "1 Restarted 3", "1 refused J2",
      "1 Restarted 3", "1 Restarted 3", "1 refused J2", "1 refused J2", "1 refused J2", "1 refused J2", "0 refused J2",
      "0 refused J2"]),
    ("bases of a hub with replies",
     ["leaves 2"] + ["hold 0 %s 00" % disk(base(0, 200, replies=replies)) for replies in (
         {1: answers(range(1, 9)), 2: answers(range(4, 12))}, {1: answers(range(1, 10))}, {1: answers([4, 6])},
         {1: answers([5, 5])}, {1: answers([6, 5])}, {2: answers([7])}, {2: answers([7]), 3: answers([1])})]
     # leaf 2's before leaf 1's
     + ["hold 0 %s 00" % changed_base(base(0, 200, replies={1: answers([7]), 2: answers([7])}),
         "00010000000700" "0000006b" "00020000000700" "0000006b", "00020000000700" "0000006b" "00010000000700" "0000006b")],
     ["0 Restarted 200", "0 refused J2", "0 refused J2", "0 refused J2", "0 refused J2", "0 Restarted 200", "0 refused J2",
      "0 refused J2"]),
    ("a leaf's entries behind a base with requests that are out",
     ["leaves 1"] + ["hold 1 %s 00" % disk(base(1, 3, last=1, out=asking([1])), entries) for entries in (
         [(4, n, ALICE) for n in range(2, 9)], [(4, n, ALICE) for n in range(2, 10)],
         [(4, n, ALICE) for n in range(2, 9)] + [(5, 1), (4, 9, ALICE)],
         [(4, n, ALICE) for n in range(2, 9)] + [(5, 2), (4, 9, ALICE)], [(5, 1), (5, 1)], [(5, 2)],
         [(4, 2, ALICE), (4, 3, ALICE), (5, 2), (5, 3), (5, 1), (4, 4, ALICE)], [(4, 3, ALICE)], [(4, 1, ALICE)])]
     + ["pump 1", "hold 1 %s 00" % disk(base(1, 3, last=1, out=asking([1])), [(4, n, (1, b"q%d" % n)) for n in range(2, 9)]
                                       + [(5, 3), (3, 4, ALICE), (5, 1), (4, 9, ALICE), (5, 9)]), "pump 1"],
     ["1 Restarted 3", "1 refused J2", "1 Restarted 3", "1 refused J2", "1 refused J2", "1 refused J2", "1 Restarted 3",
      "1 refused J2", "1 refused J2", "1 apart", "1 Restarted 4", "send 1 1>0 Hello 4", "send 2 1>0 Request 2",
      "send 3 1>0 Request 4", "send 4 1>0 Request 5", "send 5 1>0 Request 6", "send 6 1>0 Request 7",
      "send 7 1>0 Request 8", "1 Sent 8"]),
    ("a hub's entries behind a base with eight replies",
     ["leaves 1"] + ["hold 0 %s 00" % disk(base(0, 200, replies={1: answers(range(3, 11))}), entries) for entries in (
         [(2, 1, 10, 2)], [(2, 1, 12, 2)], [(2, 1, 11, 2)])]
     + ["give 0 %s" % request(1, n, b"a") for n in (3, 4, 11, 10, 13, 12)]
     + ["hold 0 %s 00" % disk(base(0, 200, replies={1: answers(range(3, 11))}),
                              [(2, 1, n, 3) for n in range(11, 18)] + [(1, 1, 18, ALICE), (2, 1, 19, 2)])]
     + ["give 0 %s" % request(1, n, b"a") for n in (11, 12, 18, 19, 21)],
     ["0 refused J2", "0 refused J2", "0 Restarted 200", "0 Old", "send 1 0>1 Accepted 4 104", "0 Repeat",
      "send 2 0>1 Refused 11 U2", "0 Repeat", "send 3 0>1 Accepted 10 100", "0 Repeat", "0 Gap",
      "send 4 0>1 Accepted 12 201", "send 5 0>1 Change 201", "0 Accepted 201", "0 Restarted 201", "0 Old",
      "send 6 0>1 Refused 12 U3", "0 Repeat", "send 7 0>1 Accepted 18 201", "0 Repeat", "send 8 0>1 Refused 19 U2",
      "0 Repeat", "0 Gap"]),
    ("a hub of layout 2 keeps the last reply, and further ones beside it",
     ["leaves 1", "hold 0 %s 00" % disk(base(0, 200, replies={1: [(3, ("Refused", 2))]}), layout=2)]
     + ["give 0 %s" % request(1, n, b"a%d" % n) for n in (2, 3, 4, 5, 3, 2, 7)] + ["restart 0"]
     + ["give 0 %s" % request(1, n, b"a%d" % n) for n in (3, 2, 6, 7, 8, 9, 10, 3, 4, 11, 3)],
     ["0 Restarted 200", "0 Old", "send 1 0>1 Refused 3 U2", "0 Repeat", "send 2 0>1 Accepted 4 201", "send 3 0>1 Change 201",
      "0 Accepted 201", "send 4 0>1 Accepted 5 202", "send 5 0>1 Change 202", "0 Accepted 202", "send 6 0>1 Refused 3 U2",
      "0 Repeat", "0 Old", "0 Gap", "0 Restarted 202", "send 7 0>1 Refused 3 U2", "0 Repeat", "0 Old",
      "send 8 0>1 Accepted 6 203", "send 9 0>1 Change 203", "0 Accepted 203", "send 10 0>1 Accepted 7 204",
      "send 11 0>1 Change 204", "0 Accepted 204", "send 12 0>1 Accepted 8 205", "send 13 0>1 Change 205", "0 Accepted 205",
      "send 14 0>1 Accepted 9 206", "send 15 0>1 Change 206", "0 Accepted 206", "send 16 0>1 Accepted 10 207",
      "send 17 0>1 Change 207", "0 Accepted 207",
      # the replies to 3 to 10 are eight
      "send 18 0>1 Refused 3 U2", "0 Repeat", "send 19 0>1 Accepted 4 201", "0 Repeat", "send 20 0>1 Accepted 11 208",
      "send 21 0>1 Change 208", "0 Accepted 208", "0 Old"]),
    ("a leaf of layout 2 whose request is out gets seven more out",
     ["leaves 1", "hold 1 %s 00" % disk(base(1, 3, last=4, out={4: ALICE}), layout=2)]
     + ["ask 1 adduser u%d" % n for n in range(5, 13)] + ["pump 1"] * 7 + ["restart 1", "ask 1 adduser u12", "pump 1",
                                                                          "give 1 %s" % accepted(1, 4, 4), "pump 1"],
     ["1 Restarted 3"] + ["1 Queued"] * 8 + pumps(1, 3, [[*range(4, last + 1)] for last in range(5, 12)])
     + ["1 Restarted 3", "1 Queued"] + pumps(43, 3, [[*range(4, 12)]]) + ["1 Accepted 4"] + pumps(52, 3, [[*range(5, 13)]])),
    ("a hub's journal that a program of layout 1 wrote",
     ["leaves 2", "hold 0 %s %s" % FIRST_HUB, "show 0", "give 0 %s" % request(1, 1, b"a"), "give 0 %s" % request(1, 2, b"a"),
      "give 0 %s" % request(1, 3, b"a"), "give 0 %s" % request(1, 5, b"a"), "give 0 %s" % request(2, 2, b"a"), "give 0 %s" %
      request(1, 4, b"alice"), "restart 0", "give 0 %s" % request(1, 2, b"a"), "give 0 %s" % request(1, 3, b"a"), "give 0 %s" %
      request(1, 4, b"a"), "compact 0", "give 0 %s" % request(1, 2, b"a"), "show 0"],
     ["0 Restarted 11", "0 version 11 users 5 bans 1"] + FIRST_RECORDS
     + ["0 Old", "send 1 0>1 Refused 2 U2", "0 Repeat", "send 2 0>1 Accepted 3 11", "0 Repeat", "0 Gap", "0 Gap",
        "send 3 0>1 Refused 4 U2", "0 Refused U2", "0 Restarted 11", "send 4 0>1 Refused 2 U2", "0 Repeat",
        "send 5 0>1 Accepted 3 11", "0 Repeat", "send 6 0>1 Refused 4 U2", "0 Repeat", "0 Compacted",
        "send 7 0>1 Refused 2 U2", "0 Repeat", "0 version 11 users 5 bans 1"] + FIRST_RECORDS),
    ("a leaf's journal that a program of layout 1 wrote",
     ["leaves 2", "hold 1 %s %s" % FIRST_LEAF, "show 1", "pump 1", "ask 1 adduser gina", "pump 1", "restart 1", "pump 1",
      "give 1 %s" % accepted(1, 5, 13), "pump 1", "give 1 %s" % accepted(1, 4, 12), "pump 1", "show 1"],
     ["1 Restarted 11", "1 version 11 users 5 bans 1"] + FIRST_RECORDS
     + ["send 1 1>0 Hello 11", "send 2 1>0 Request 4", "1 Sent 4", "1 Queued", "send 3 1>0 Hello 11", "send 4 1>0 Request 4",
        "send 5 1>0 Request 5", "1 Sent 5", "1 Restarted 11", "send 6 1>0 Hello 11", "send 7 1>0 Request 4",
        "send 8 1>0 Request 5", "1 Sent 5", "1 Accepted 13", "send 9 1>0 Hello 11", "send 10 1>0 Request 4", "1 Sent 4",
        "1 Accepted 12", "send 11 1>0 Hello 11", "1 Idle", "1 version 11 users 5 bans 1"] + FIRST_RECORDS),
    ("another leaf's journal that a program of layout 1 wrote: its base has the request that is out",
     ["leaves 2", "hold 2 %s %s" % FIRST_LEAF_COMPACTED, "show 2", "pump 2", "ask 2 adduser hal", "pump 2", "compact 2",
      "restart 2", "give 2 %s" % refused(2, 2, 2), "pump 2", "hold 0 %s %s" % FIRST_HUB, "deliver 7", "pump 2", "give 2 %s" %
      accepted(2, 1, 12), "pump 2"],
     ["2 Restarted 11", "2 version 11 users 5 bans 1"] + FIRST_RECORDS
     + ["send 1 2>0 Hello 11", "send 2 2>0 Request 1", "2 Sent 1", "2 Queued", "send 3 2>0 Hello 11", "send 4 2>0 Request 1",
        "send 5 2>0 Request 2", "2 Sent 2", "2 Compacted", "2 Restarted 11", "2 Refused U2", "send 6 2>0 Hello 11",
        "send 7 2>0 Request 1", "2 Sent 1", "0 Restarted 11", "send 8 0>2 Accepted 1 12", "send 9 0>1 Change 12",
        "send 10 0>2 Change 12", "0 Accepted 12", "send 11 2>0 Hello 11", "send 12 2>0 Request 1", "2 Sent 1", "2 Accepted 12",
        "send 13 2>0 Hello 11", "2 Idle"]),
    ("a hub's journal that a program of layout 2 wrote",
     ["leaves 2", "hold 0 %s %s" % SECOND_HUB, "show 0", "give 0 %s" % hello(1, 13), "give 0 %s" % hello(1, 14), "give 0 %s" %
      request(1, 1, b"a"), "give 0 %s" % request(1, 2, b"a"), "give 0 %s" % request(1, 3, b"a"), "give 0 %s" %
      request(1, 4, b"a"), "give 0 %s" % request(1, 6, b"a"), "give 0 %s" % request(2, 1, b"a"), "give 0 %s" %
      request(2, 2, b"a"), "give 0 %s" % request(2, 4, b"a"), "give 0 %s" % request(1, 5, b"ALICE"), "restart 0", "give 0 %s" %
      request(1, 2, b"a"), "give 0 %s" % request(1, 5, b"a"), "show 0"],
     ["0 Restarted 14", "0 version 14 users 5 bans 2"] + SECOND_RECORDS
     + ["send 1 0>1 Part 14 1 1", "0 Served 1", "0 Served 0", "0 Old", "send 2 0>1 Refused 2 U2", "0 Repeat",
        "send 3 0>1 Accepted 3 14", "0 Repeat", "send 4 0>1 Refused 4 U6", "0 Repeat", "0 Gap", "0 Old",
        "send 5 0>2 Refused 2 U3", "0 Repeat", "0 Gap", "send 6 0>1 Refused 5 U2", "0 Refused U2", "0 Restarted 14",
        "send 7 0>1 Refused 2 U2", "0 Repeat", "send 8 0>1 Refused 5 U2", "0 Repeat", "0 version 14 users 5 bans 2"]
     + SECOND_RECORDS),
    ("leaves' journals that a program of layout 2 wrote",
     ["leaves 2", "hold 1 %s %s" % SECOND_LEAF, "show 1", "pump 1", "hold 2 %s %s" % SECOND_LEAF_COMPACTED, "show 2", "pump 2",
      "ask 2 adduser hal", "pump 2", "give 2 %s" % accepted(2, 3, 15), "compact 2", "restart 2", "pump 2", "hold 0 %s %s" %
      SECOND_HUB, "deliver 2", "deliver 8", "deliver 4", "deliver 8", "deliver 13", "deliver 12", "show 2"],
     ["1 Restarted 14", "1 version 14 users 5 bans 2"] + SECOND_RECORDS
     + ["send 1 1>0 Hello 14", "send 2 1>0 Request 5", "1 Sent 5", "2 Restarted 14", "2 version 14 users 5 bans 2"]
     + SECOND_RECORDS
     + ["send 3 2>0 Hello 14", "send 4 2>0 Request 3", "2 Sent 3", "2 Queued", "send 5 2>0 Hello 14", "send 6 2>0 Request 3",
        "send 7 2>0 Request 4", "2 Sent 4", "2 Accepted 15", "2 Compacted", "2 Restarted 14", "send 8 2>0 Hello 14",
        "send 9 2>0 Request 4", "2 Sent 4", "0 Restarted 14", "send 10 0>1 Accepted 5 15", "send 11 0>1 Change 15",
        "send 12 0>2 Change 15", "0 Accepted 15", "send 13 0>2 Change 15", "0 Served 1", "send 14 0>2 Accepted 3 16",
        "send 15 0>1 Change 16", "send 16 0>2 Change 16", "0 Accepted 16", "send 17 0>2 Change 15", "send 18 0>2 Change 16",
        "0 Served 2", "2 Applied 15", "2 Old", "2 version 15 users 6 bans 2"] + SECOND_RECORDS[:7] + [" user frank - -"]
     + SECOND_RECORDS[7:]),
]


# ---- changes in a person's name

def asked_change(number, change):
    """An accepted change of the hub's own."""
    return frame(b"\2" + num(number, 4) + bytes(6) + change_bytes(change))


def asking_as(leaf, number, change):
    """A leaf's request for this change."""
    return frame(b"\4" + num(leaf, 2) + num(number, 4) + change_bytes(change))


def asks(bot, *lines):
    """Each of these is asked, and handled at once."""
    return [step for line in lines for step in ("ask %d %s" % (bot, line), "pump %d" % bot)]


def answered(at, *codes):
    """What a hub with one leaf tells of such asks, the first packet under this number: a code, or the change's number."""
    told = []
    for code in codes:
        told.append("0 Queued")
        if isinstance(code, int):
            told.append("send %d 0>1 Change %d" % (at, code))
            at += 1
        told.append("0 Accepted %d" % code if isinstance(code, int) else "0 Refused " + code)
    return told


def user_of(handle, mask, flags=0, chans=()):
    return User(handle, [mask], flags, chans)


# an owner and a master, and what is asked for by both, by a stranger and by nobody
RANKS = ["adduser boss", "addhost boss boss!*@*", "global boss n", "adduser mal", "addhost mal mal!*@*", "global mal m"]
ASKS = [
    # a stranger has no right, whatever the records hold
    ("as who!w@h adduser bob", "U12"), ("as who!w@h adduser boss", "U12"), ("as who!w@h deluser nobody", "U12"),
    # a master may add and change users, but neither masters nor owners, and gives no rank
    ("as mal!m@h adduser bob", 7), ("as mal!m@h adduser boss", "U12"), ("as mal!m@h adduser BOB", "U2"),
    ("as mal!m@h deluser nobody", "U3"),
    ("as mal!m@h addhost bob bob!*@*", 8), ("as mal!m@h addhost bob BOB!*@*", "U5"), ("as mal!m@h global bob o", 9),
    ("as mal!m@h chan bob #egg f", 10),
    ("as mal!m@h bot bob s", 11), ("as mal!m@h global bob m", "U12"), ("as mal!m@h global mal n", "U12"),
    ("as mal!m@h addhost boss mal!*@*", "U12"), ("as mal!m@h addhost mal x!*@*", "U12"), ("as mal!m@h chan mal #egg o", "U12"),
    ("as mal!m@h deluser mal", "U12"), ("as mal!m@h delhost mal mal!*@*", "U12"), ("as mal!m@h bot boss b", "U12"),
    # bob is op everywhere: bans alone, and his own info
    ("as bob!b@h addban * bad!*@* bob 0", 12), ("as bob!b@h addban #egg bad!*@* bob 0", 13), ("as bob!b@h delban #EGG bad!*@*", 14),
    ("as bob!b@h sticky * bad!*@* 1", "U12"), ("as mal!m@h sticky * bad!*@* 1", 15), ("as bob!b@h info BOB hi there", 16),
    ("as boss!b@h info bob no", "U12"), ("as who!w@h info nobody x", "U12"), ("as bob!b@h adduser eve", "U12"),
    # op on a channel alone: its bans
    ("as boss!b@h global bob -", 17), ("as boss!b@h chan bob #egg o", 18), ("as bob!b@h addban #Egg bad!*@* bob 0", 19),
    ("as bob!b@h addban * worse!*@* bob 0", "U12"), ("as bob!b@h addban #other bad!*@* bob 0", "U12"),
    ("as bob!b@h delban * bad!*@*", "U12"),
    # an owner may do all, except that the last one stays; who asks in nobody's name may do that, too
    ("as boss!b@h deluser boss", "U12"), ("as boss!b@h global boss m", "U12"), ("as boss!b@h global boss no", 20),
    ("as boss!b@h global mal n", 21), ("as mal!m@h deluser boss", 22), ("as boss!b@h adduser eve", "U12"),
    ("as mal!m@h global mal -", "U12"), ("global mal -", 23), ("as mal!m@h adduser eve", "U12"),
]
RECORDS_THEN = [" user mal - - mal!*@*", " user bob - s bob!*@* #egg o", " info bob hi there", " ban * bad!*@* bob 0",
                " sticky * bad!*@*", " ban #Egg bad!*@* bob 0"]

WORKED += [
    ("who may ask for what at a hub; its leaf applies all that was accepted",
     ["leaves 1"] + asks(0, *RANKS, *[line for line, _ in ASKS]) + ["show 0"] + ["deliver %d" % k for k in range(1, 24)]
     + ["restart 1", "show 1", "restart 0", "compact 0", "restart 0", "pump 1", "deliver 24", "check"],
     answered(1, *range(1, 7), *[code for _, code in ASKS]) + ["0 version 23 users 2 bans 2"] + RECORDS_THEN
     + ["1 Applied %d" % n for n in range(1, 24)] + ["1 Restarted 23", "1 version 23 users 2 bans 2"] + RECORDS_THEN
     + ["0 Restarted 23", "0 Compacted", "0 Restarted 23", "send 24 1>0 Hello 23", "1 Idle", "0 Served 0", "same"]),
    ("the shape of who asks comes before that of the edit",
     ["leaves 1"] + asks(0, *RANKS[:3]) + ["ask %s" % line for line in (
         "0 as boss adduser al", "0 as *!b@h adduser al", "0 as bos?!b@h ascii adduser al", "1 as boss!bh adduser al",
         "1 as %s!b@h adduser al" % ("b" * 117), "0 as a*!b@h adduser a*b", "0 as $a:bo*s adduser al", "0 as boss!b@h adduser a*b",
         "0 as who!w@h addhost boss x", "1 as %s!b@h adduser al" % ("b" * 116))] + ["pump 1", "deliver 5"],
     answered(1, 1, 2, 3) + ["0 refused U4"] * 3 + ["1 refused U4"] * 2 + ["0 refused U4"] * 2 + ["0 refused U1", "0 refused U4",
      "1 Queued", "send 4 1>0 Hello 0", "send 5 1>0 Request 1", "1 Sent 1", "send 6 0>1 Refused 1 U12", "0 Refused U12"]),
    ("a leaf asks in the name of a master, whom the hub has made none meanwhile",
     ["leaves 1"] + asks(0, *RANKS) + ["deliver %d" % k for k in range(1, 7)]
     + ["ask 1 as mal!m@h adduser eve", "pump 1", "ask 0 as boss!b@h global mal -", "pump 0", "ask 1 as mal!m@h global mal m",
        "pump 1", "deliver 8", "deliver 12", "restart 0", "compact 0", "restart 0", "deliver 8", "deliver 13", "deliver 15",
        "pump 1", "deliver 9", "ask 1 as boss!b@h adduser eve", "pump 1", "deliver 19", "deliver 21", "restart 1", "show 1",
        "check"],
     answered(1, *range(1, 7)) + ["1 Applied %d" % n for n in range(1, 7)]
     + ["1 Queued", "send 7 1>0 Hello 6", "send 8 1>0 Request 1", "1 Sent 1", "0 Queued", "send 9 0>1 Change 7", "0 Accepted 7",
        "1 Queued", "send 10 1>0 Hello 6", "send 11 1>0 Request 1", "send 12 1>0 Request 2", "1 Sent 2",
        "send 13 0>1 Refused 1 U12", "0 Refused U12", "send 14 0>1 Refused 2 U12", "0 Refused U12", "0 Restarted 7",
        "0 Compacted", "0 Restarted 7", "send 15 0>1 Refused 1 U12", "0 Repeat", "1 Refused U12", "1 Old",
        "send 16 1>0 Hello 6", "send 17 1>0 Request 2", "1 Sent 2", "1 Applied 7", "1 Queued", "send 18 1>0 Hello 7",
        "send 19 1>0 Request 2", "send 20 1>0 Request 3", "1 Sent 3", "send 21 0>1 Refused 2 U12", "0 Repeat", "1 Refused U12",
        "1 Restarted 7", "1 version 7 users 2 bans 0", " user boss n - boss!*@*", " user mal - - mal!*@*", "same"]),
    ("who asks is found by the casemapping that the change names",
     ["leaves 1", "hold 0 %s 00" % disk(base(0, 5, [user_of(b"one", b"boss[!*@*", N), user_of(b"two", b"a^!*@H", M)]))]
     + asks(0, "as boss{!b@h ascii adduser u1", "as BOSS[!b@h ascii adduser u1", "as boss{!b@h strict-rfc1459 adduser u2",
            "as boss{!b@h rfc1459 adduser u3", "as boss{!b@h adduser u4", "as A~!b@h strict-rfc1459 adduser u5",
            "as A~!b@h rfc1459 adduser u5", "as a^!b@h ascii adduser u6"),
     ["0 Restarted 5"] + answered(1, "U12", 6, 7, 8, 9, "U12", 10, 11)),
    ("who asks is the user whose mask has most literals, the earliest of equals",
     ["leaves 1", "hold 0 %s 00" % disk(base(0, 5, [
         user_of(b"wide", b"*!*@*", N), user_of(b"mal", b"mal!*@*", O), user_of(b"same", b"*ad!*@h*", M),
         user_of(b"later", b"b*d!*@?*h", N), user_of(b"slash", b"w\\\\!*@*", M)]))]
     + asks(0, "as any!a@b global wide no", "as mal!a@b adduser u1", "as mal!a@b info mal hi", "delhost mal mal!*@*",
            "as mal!a@b info wide ho", "as bad!a@hh info same one", "as bad!a@hh info later two", "as bed!a@hh info later three",
            "as w\\!a@b ascii info slash x", "as w|!a@b ascii info slash y", "as w|!a@b info slash z"),
     ["0 Restarted 5"] + answered(1, 6, "U12", 7, 8, 9, 10, "U12", 11, 12, "U12", 13)),
    ("an account of the network is a mask, and nobody's name",
     ["leaves 1"] + asks(0, "adduser al", "addhost al $a:Al", "addhost al $a:aL", "delhost al $a:AL", "addhost al $a:[x]\\y")
     + ["ask 0 addhost al %s" % mask for mask in ("$A:AL", "$a:", "$a:a*", "$a:a@b", "$b:ab")] + ["show 0"],
     answered(1, 1, 2, "U5", 3, 4) + ["0 refused U4"] * 5
     + ["0 version 4 users 1 bans 0", " user al - - $a:[x]\\y"]),
    ("a person bans from a channel only up to a hundred bans; bans of all channels have no such limit",
     ["leaves 1", "hold 0 %s 00" % disk(base(0, 9, [user_of(b"op", b"op!*@*", O)], bans=[
         (b"#a", b"u%d!*@*" % n, b"op", 0, b"", False) for n in range(100)]))]
     + asks(0, "as op!o@h addban #A u99!*@* op 0", "as op!o@h addban #A more!*@* op 0", "as op!o@h addban #b more!*@* op 0",
            "as op!o@h addban * more!*@* op 0", "addban #a more!*@* op 0", "as op!o@h delban #a u5!*@*",
            "as op!o@h addban #a u5!*@* op 0", "as op!o@h delban #a u6!*@*", "as op!o@h addban #a u5!*@* op 0")
     + ["hold 0 %s 00" % disk(base(0, 9, [user_of(b"op", b"op!*@*", O)], bans=[
         (b"", b"u%d!*@*" % n, b"op", 0, b"", False) for n in range(100)]))]
     + asks(0, "as op!o@h addban * more!*@* op 0", "as op!o@h addban #a more!*@* op 0"),
     ["0 Restarted 9"] + answered(1, "U8", "U11", 10, 11, 12, 13, "U11", 14, 15) + ["0 Restarted 9"] + answered(7, 10, 11)),
    ("a hub's journal that a program of layout 3 wrote",
     ["leaves 2", "hold 0 %s %s" % THIRD_HUB, "show 0", "give 0 %s" % hello(1, 13), "give 0 %s" % hello(1, 14)]
     + ["give 0 %s" % request(leaf, number, b"a") for leaf, number in (
         (1, 1), (1, 2), (1, 3), (1, 4), (1, 6), (2, 1), (2, 2), (2, 4))]
     + ["give 0 %s" % request(1, 5, b"ALICE"), "give 0 %s" % asking_as(2, 3, (12, b"who!w@h", 2, (2, b"alice"))), "restart 0",
        "give 0 %s" % request(1, 1, b"a"), "give 0 %s" % request(2, 3, b"a"), "show 0"],
     ["0 Restarted 14", "0 version 14 users 4 bans 2"] + THIRD_RECORDS
     + ["send 1 0>1 Part 14 1 1", "0 Served 1", "0 Served 0", "send 2 0>1 Accepted 1 9", "0 Repeat", "send 3 0>1 Refused 2 U2",
        "0 Repeat", "send 4 0>1 Accepted 3 14", "0 Repeat", "send 5 0>1 Refused 4 U6", "0 Repeat", "0 Gap",
        "send 6 0>2 Accepted 1 8", "0 Repeat", "send 7 0>2 Refused 2 U3", "0 Repeat", "0 Gap", "send 8 0>1 Refused 5 U2",
        "0 Refused U2", "send 9 0>2 Refused 3 U12", "0 Refused U12", "0 Restarted 14", "send 10 0>1 Accepted 1 9", "0 Repeat",
        "send 11 0>2 Refused 3 U12", "0 Repeat", "0 version 14 users 4 bans 2"] + THIRD_RECORDS),
    ("leaves' journals that a program of layout 3 wrote",
     ["leaves 2", "hold 1 %s %s" % THIRD_LEAF, "show 1", "pump 1", "hold 2 %s %s" % THIRD_LEAF_COMPACTED, "show 2", "pump 2",
      "ask 2 as al!alice@home.example adduser jo", "pump 2", "compact 2", "restart 2", "pump 2", "hold 0 %s %s" % THIRD_HUB]
     + ["deliver %d" % k for k in (3, 2, 12, 13, 14, 17, 26, 20, 23, 26, 24)] + ["show 2"],
     ["1 Restarted 14", "1 version 14 users 4 bans 2"] + THIRD_RECORDS
     + ["send 1 1>0 Hello 14", "send 2 1>0 Request 5", "send 3 1>0 Request 6", "1 Sent 6", "2 Restarted 14",
        "2 version 14 users 4 bans 2"] + THIRD_RECORDS
     + ["send 4 2>0 Hello 14", "send 5 2>0 Request 3", "send 6 2>0 Request 4", "2 Sent 4", "2 Queued", "send 7 2>0 Hello 14",
        "send 8 2>0 Request 3", "send 9 2>0 Request 4", "send 10 2>0 Request 5", "2 Sent 5", "2 Compacted", "2 Restarted 14",
        "send 11 2>0 Hello 14", "send 12 2>0 Request 3", "send 13 2>0 Request 4", "send 14 2>0 Request 5", "2 Sent 5",
        "0 Restarted 14", "0 Gap", "send 15 0>1 Accepted 5 15", "send 16 0>1 Change 15", "send 17 0>2 Change 15",
        "0 Accepted 15", "send 18 0>2 Accepted 3 16", "send 19 0>1 Change 16", "send 20 0>2 Change 16", "0 Accepted 16",
        "send 21 0>2 Accepted 4 17", "send 22 0>1 Change 17", "send 23 0>2 Change 17", "0 Accepted 17",
        "send 24 0>2 Accepted 5 18", "send 25 0>1 Change 18", "send 26 0>2 Change 18", "0 Accepted 18", "2 Applied 15", "2 Early",
        "2 Applied 16", "2 Applied 17", "2 Applied 18", "2 Accepted 18", "2 version 18 users 8 bans 2"] + THIRD_RECORDS[:6]
     + [" user %s - -" % name for name in ("frank", "hal", "ida", "jo")] + THIRD_RECORDS[6:]),
    ("a change that nobody had the right to diverges, and is no entry",
     ["leaves 1", "give 1 %s" % asked_change(1, BY_BOSS), "show 1", "hold 1 %s 00" % disk(base(1, 0, [BOSS])), "give 1 %s" %
      asked_change(1, (12, b"mal!m@h", 2, (1, b"alice"))), "give 1 %s" % asked_change(1, BY_BOSS), "restart 1", "show 1",
      "hold 0 %s 00" % disk(base(0, 0, [BOSS]), [(1, 0, 0, BY_BOSS)]),
      "hold 0 %s 00" % disk(base(0, 0, [MAL]), [(1, 0, 0, BY_BOSS)]), "hold 1 %s 00" % disk(base(1, 0, [MAL]), [(3, 1, BY_BOSS)]), "hold 1 %s 00" % disk(base(1, 0), [(4, 1, BY_BOSS)]), "pump 1"],
     ["1 refused S3", "1 version 0 users 0 bans 0", "1 Restarted 0", "1 refused S3", "1 Applied 1", "1 Restarted 1",
      "1 version 1 users 2 bans 0", " user boss n - boss!*@*", " user alice - -", "0 Restarted 1", "0 refused J2", "1 refused J2",
      "1 Restarted 0", "send 1 1>0 Hello 0", "send 2 1>0 Request 1", "1 Sent 1"]),
]


def worked(s):
    for name, steps, told in WORKED:
        begin = len(s.told)
        s("# " + name)
        for step in steps:
            s(step)
        mine = s.told[begin + 1:]
        assert mine == told, (name, [(a, b) for a, b in zip(mine + ["-"], told + ["-"]) if a != b])


# ---- each device call of each row, stopped

def put_out(s, count):
    """Puts so many requests of the first leaf out. Each third one is for what the hub refuses."""
    for n in range(1, count + 1):
        s("ask 1 adduser %s" % ("ALICE" if n % 3 == 2 else "o%d" % n))
        s("pump 1")


def request_of(s, number):
    """The last packet that is the first leaf's request of this number."""
    return max(k for k, (_, packet) in enumerate(s.net.packets, 1) if packet[:3] == ("Request", 1, number))


def reply_to(s, number):
    """The last packet that is a reply to the first leaf's request of this number."""
    return max(k for k, (_, packet) in enumerate(s.net.packets, 1)
               if packet[0] in ("Accepted", "Refused") and packet[1:3] == (1, number))


def take_requests(s, first, last):
    """The hub takes the first leaf's requests of these numbers."""
    for number in range(first, last + 1):
        s("deliver %d" % request_of(s, number))


def hub_accepts(s, plan, out):
    put_out(s, out)
    take_requests(s, 1, out)
    plan(0, 1)
    s("ask 0 adduser bob")
    s("pump 0")
    yield 0
    take_requests(s, 1, out)


def hub_accepts_a_request(s, plan, out):
    put_out(s, out - 1)
    s("ask 1 adduser bob")
    s("pump 1")
    take_requests(s, 1, out - 1)
    plan(0, 1)
    take_requests(s, out, out)
    yield 0
    take_requests(s, 1, out)


def hub_refuses_a_request(s, plan, out):
    put_out(s, out - 1)
    s("ask 1 adduser alicE")
    s("pump 1")
    take_requests(s, 1, out - 1)
    plan(0, 1)
    take_requests(s, out, out)
    yield 0
    s("ask 0 deluser alice")
    s("pump 0")
    take_requests(s, 1, out)


def hub_compacts(s, plan, out):
    put_out(s, out)
    take_requests(s, 1, out)
    plan(0, 2)
    s("compact 0")
    yield 0
    take_requests(s, 1, out)


def hub_compacts_again(s, plan, out):
    s("compact 0")
    put_out(s, out)
    take_requests(s, 1, out)
    plan(0, 1)
    s("compact 0")
    yield 0
    take_requests(s, 1, out)


def leaf_puts_out(s, plan, out):
    put_out(s, out - 1)
    plan(1, 1)
    s("ask 1 adduser bob")
    s("pump 1")
    yield 1
    s("ask 1 adduser carl")
    s("pump 1")
    s("pump 1")


def leaf_applies(s, plan, out):
    put_out(s, out)
    plan(1, 1)
    s("deliver 1")
    yield 1
    s("deliver 1")


def leaf_ends_a_request(s, plan, out):
    put_out(s, out)
    take_requests(s, 1, out)
    which = 1 + s.turn % out
    plan(1, 1)
    s("deliver %d" % reply_to(s, which))
    yield 1
    s("deliver %d" % reply_to(s, which))
    for number in range(out, 0, -1):
        s("deliver %d" % reply_to(s, number))


def leaf_installs(s, plan, out):
    put_out(s, out)
    s("compact 0")
    s("pump 1")
    s.deliver("Hello")
    plan(1, 2)
    s.deliver("Part")
    yield 1
    s.deliver("Part")


def leaf_installs_again(s, plan, out):
    s("compact 1")
    put_out(s, out)
    s("compact 0")
    s("pump 1")
    s.deliver("Hello")
    plan(1, 1)
    s.deliver("Part")
    yield 1
    s.deliver("Part")


def leaf_compacts(s, plan, out):
    put_out(s, out)
    plan(1, 2)
    s("compact 1")
    yield 1
    take_requests(s, 1, out)


def leaf_compacts_again(s, plan, out):
    s("compact 1")
    put_out(s, out)
    plan(1, 1)
    s("compact 1")
    yield 1
    take_requests(s, 1, out)


# the row, how many device calls it has, and whose they are
ROWS = [(hub_accepts, 4, 0), (hub_accepts_a_request, 4, 0), (hub_refuses_a_request, 4, 0), (hub_compacts, 4, 0),
        (hub_compacts_again, 6, 0), (leaf_puts_out, 4, 1), (leaf_applies, 4, 1), (leaf_ends_a_request, 4, 1),
        (leaf_installs, 4, 1), (leaf_installs_again, 6, 1), (leaf_compacts, 4, 1), (leaf_compacts_again, 6, 1)]


def stopped(s, row, call, tear, out, bot, rng, further):
    """One row, with so many requests of the first leaf out, and one device call stopped; a restart, and so many random
    steps."""
    s("# %s with %d out, call %d, %s" % (row.__name__, out, call, tear))
    s("leaves 2")
    s("ask 0 adduser alice")
    s("pump 0")
    begin = len(s.told)
    rest = row(s, lambda b, d: s("plan %d %d %d %s" % (b, d, call, tear)), out)
    next(rest)
    assert "%d refused S5" % bot in s.told[begin:], s.lines[-9:]
    s("restart %d" % bot)
    s("show %d" % bot)
    s("pump %d" % bot)
    for _ in rest:
        pass
    steps(s, rng, further)
    s("check")
    assert s.told[-1] == "same", s.lines[-30:]


def stopped_rows(s, rows, outs, rng, further):
    """Each device call of these rows with each outcome: with one to eight requests out, or with one of these numbers in
    turn."""
    for row, calls, bot in rows:
        for call in range(1, calls + 1):
            for tear in TEARS:
                for out in range(1, WINDOW + 1) if outs == "all" else [1 + s.turn % WINDOW]:
                    s.turn += 1
                    stopped(s, row, call, tear, out, bot, rng, further)


# ---- each device call of an opening that puts a journal of an older layout anew, stopped

# of which layout it is, whose it is, the disks of all bots of its net that have been in use, the disk that is written, how many
# device calls there are, the version, the records, and what the hub answers to a hello at version 0, or the leaf to a pump
FIRST = {0: FIRST_HUB, 1: FIRST_LEAF, 2: FIRST_LEAF_COMPACTED}
SECOND = {0: SECOND_HUB, 1: SECOND_LEAF, 2: SECOND_LEAF_COMPACTED}
THIRD = {0: THIRD_HUB, 1: THIRD_LEAF, 2: THIRD_LEAF_COMPACTED}
OPENINGS = [(1, 0, {0: (ONE, "00")}, 2, 4, 1, [" user alice - -"], "0 Served 1"),
            (1, 1, {0: (disk(base(0, 3), layout=1), "00"), 1: (OUT, "00")}, 2, 4, 3, [], "1 Sent 1"),
            (1, 0, FIRST, 1, 6, 11, FIRST_RECORDS, "0 Served 1"), (1, 1, FIRST, 2, 4, 11, FIRST_RECORDS, "1 Sent 4"),
            (1, 2, FIRST, 1, 6, 11, FIRST_RECORDS, "2 Sent 1"),
            (2, 0, SECOND, 1, 6, 14, SECOND_RECORDS, "0 Served 1"), (2, 1, SECOND, 2, 4, 14, SECOND_RECORDS, "1 Sent 5"),
            (2, 2, SECOND, 1, 6, 14, SECOND_RECORDS, "2 Sent 3"),
            (3, 0, THIRD, 1, 6, 14, THIRD_RECORDS, "0 Served 1"), (3, 1, THIRD, 2, 4, 14, THIRD_RECORDS, "1 Sent 6"),
            (3, 2, THIRD, 1, 6, 14, THIRD_RECORDS, "2 Sent 4")]


def stopped_opening(s, opening, call, tear, again, rng, further):
    """One opening with one device call stopped, once more where `again` names a call, and so many random steps. Where they are
    many the other bots of its net are opened before, since a new hub would come to the version with other records."""
    layout, bot, disks, written, calls, version, records, next_answer = opening
    s("# layout %d of bot %d at version %d, call %d, %s" % (layout, bot, version, call, tear))
    s("leaves 2")
    for other in disks if further > 20 else ():
        if other != bot:
            s("hold %d %s %s" % ((other,) + disks[other]))
    begin = len(s.told)
    s("stop %d %s %s %d %d %s" % ((bot,) + disks[bot] + (written, call, tear)))
    assert s.told[begin:] == ["%d refused J1" % bot if call <= calls else "%d Restarted %d" % (bot, version)], s.told[begin:]
    if again:
        s("plan %d %d %d %s" % ((bot, written) + again))
    begin = len(s.told)
    s("again %d" % bot)
    assert s.told[begin:] == ["%d Restarted %d" % (bot, version)], s.told[begin:]
    begin = len(s.told)
    s("show %d" % bot)
    assert s.told[begin + 1:] == records and s.told[begin].startswith("%d version %d " % (bot, version)), s.told[begin:]
    s("pump %d" % bot if bot else "give 0 %s" % hello(1, 0))
    assert s.told[-1] == next_answer, s.told[-9:]
    steps(s, rng, further)
    s("check")
    assert s.told[-1] == "same", s.lines[-30:]


def stopped_openings(s, outs, rng, further, more):
    turn = 0
    for opening in OPENINGS:
        for call in range(1, opening[4] + 2):
            turn += 1
            for tear in TEARS if outs == "all" else [*TEARS[:2], TEARS[2 + turn % 3]]:
                stopped_opening(s, opening, call, tear, None, rng, 0)
    for _ in range(more):
        opening = rng.choice(OPENINGS)
        again = (rng.randrange(1, opening[4] + 2), rng.choice(TEARS))
        stopped_opening(s, opening, rng.randrange(1, opening[4] + 1), rng.choice(TEARS), again, rng, further)


# ---- random steps

HANDLES = ["alice", "Alice", "bob", "carl", "dan", "eve", "fred", "gus", "hal", "ida", "jo", "kim", "lou", "max[", "MAX{", "ned"]
MASKS = ["*!*@a.net", "*!*@A.net", "bob!*@*", "*!x@b"]
PEOPLE = ["bob!b@a.net", "BOB!x@b", "who!x@b", "who!w@h", "max[!m@a.net", "bob"]

# how much of the steps are asks, pumps and deliveries; the rest are of all the other kinds
MOODS = [(0.2, 0.25, 0.39), (0.3, 0.35, 0.2), (0.1, 0.2, 0.6), (0.15, 0.15, 0.2)]


def random_change(rng):
    """An edit, which a person asks for a third of the time."""
    edit = random_edit(rng)
    if rng.random() < 0.67:
        return edit
    return " ".join(["as", rng.choice(PEOPLE), *rng.choice([[], ["ascii"], ["strict-rfc1459"], ["rfc1459"]]), edit])


def random_edit(rng):
    kind = rng.choice(["adduser"] * 9 + ["deluser"] * 2 + ["addhost"] * 3 + ["delhost", "addban", "addban", "delban", "bad"]
                      + ["global"] * 3 + ["chan", "bot"])
    handle, mask = rng.choice(HANDLES), rng.choice(MASKS)
    if kind in ("global", "bot"):
        return "%s %s %s" % (kind, handle, rng.choice(["n", "m", "o", "-", "mno"]))
    if kind == "chan":
        return "chan %s %s %s" % (handle, rng.choice(["#a", "#A"]), rng.choice(["o", "-", "n"]))
    if kind in ("adduser", "deluser"):
        return "%s %s" % (kind, handle)
    if kind in ("addhost", "delhost"):
        return "%s %s %s" % (kind, handle, mask)
    channel = rng.choice(["*", "#a", "#A"])
    if kind == "addban":
        return "addban %s %s %s %d" % (channel, mask, handle, rng.choice([0, 100, 1 << 40]))
    if kind == "delban":
        return "delban %s %s" % (channel, mask)
    return rng.choice(["adduser a*b", "addhost alice nomask", "delban x *!*@a.net", "addban * *!*@a.net b:c 0"])


def packet_number(s, rng):
    count, draw = len(s.net.packets), rng.random()
    if draw < 0.8:
        return max(1, count - rng.randrange(12 if draw < 0.5 else 40))
    return rng.randrange(1, count + 2)


def random_step(s, rng, mood):
    bot = rng.choice([0] * 2 + list(range(s.net.leaves + 1)))
    asks, pumps, deliveries = mood
    # What is down, or whose link didn't open, is soon brought up again.
    if not isinstance(s.net.bots[bot], Bot):
        return s("again %d" % bot)
    if s.net.bots[bot].down and rng.random() < 0.4:
        return s("restart %d" % bot)
    draw = rng.random() - asks
    if draw < 0:
        return s("ask %d %s" % (bot, random_change(rng)))
    if draw < pumps:
        return s("pump %d" % bot)
    if draw < pumps + deliveries:
        return s("deliver %d" % packet_number(s, rng))
    draw = rng.random()
    if draw < 0.25:
        s("compact %d" % bot)
    elif draw < 0.5:
        s("restart %d" % bot)
    elif draw < 0.8:
        s("plan %d %d %d %s" % (bot, rng.choice([1, 2]), rng.randrange(1, 7), rng.choice(TEARS)))
    elif draw < 0.85:
        s("planread %d %d" % (bot, rng.choice([1, 2])))
    elif draw < 0.9:
        s("show %d" % bot)
    else:
        leaves = s.net.leaves
        s("give %d %s" % (bot, rng.choice([
            hello(leaves + 1, 0), hello(1, LAST), hello(1, 0, layout=2), request(0, 1, b"a"), request(1, LAST, b"a"),
            part(LAST, 3, 2, [b"a"]), frame(b"\7" + num(0, 2) + num(1, 2) + num(2, 2) + b"hi"), accepted(bot, LAST, 1)])))


def steps(s, rng, count):
    """So many random steps, of one mood for 40 steps."""
    for at in range(count):
        if at % 40 == 0:
            mood = rng.choice(MOODS)
        random_step(s, rng, mood)


def random_run(s, rng, count):
    leaves = rng.randrange(0, 5)
    s("# a random run")
    s("leaves %d" % leaves)
    steps(s, rng, count)
    for bot in range(leaves + 1):
        s("show %d" % bot)
    s("check")
    assert s.told[-1] == "same", s.lines[-30:]


# ---- what is written

MOST = 1000000    # bytes: the program reads no more than 1,048,576


def pieces(s):
    """The cases in lists of lines that the program reads at one time, and what they tell."""
    said, told, at = [[]], [[]], 0
    size = 0
    for line, answers in zip(s.lines, s.each):
        if line.startswith("#") and size > MOST - 60000:
            said.append([])
            told.append([])
            size = 0
        said[-1].append(line)
        told[-1] += s.told[at:at + answers]
        at += answers
        size += len(line) + 1
        assert size < MOST
    return zip(said, told)


def counts(told):
    """How often each note and code was told, the commonest first."""
    seen = {}
    for line in told:
        words = line.split(" ")
        if words[0].isdigit():
            note = words[2] if words[1] == "refused" else words[1]
            seen[note] = seen.get(note, 0) + 1
    return ", ".join("%s %d" % (note, seen[note]) for note in sorted(seen, key=seen.get, reverse=True))


def main():
    words = argparse.ArgumentParser()
    words.add_argument("folder")
    words.add_argument("--further", type=int, default=4)
    words.add_argument("--runs", type=int, default=12)
    words.add_argument("--steps", type=int, default=150)
    words.add_argument("--openings", type=int, default=80)
    words.add_argument("--seed", type=int, default=1)
    words.add_argument("--outs", choices=["turn", "all"], default="turn")
    words.add_argument("--rows", type=int, nargs=2, default=[0, len(ROWS)])
    words.add_argument("--bare", action="store_true")
    given = words.parse_args()
    rng, s = random.Random(given.seed), Script()
    if not given.bare:
        worked(s)
    stopped_rows(s, ROWS[given.rows[0]:given.rows[1]], given.outs, rng, given.further)
    stops = s.turn
    if not given.bare:
        stopped_openings(s, given.outs, rng, given.further, given.openings)
    for _ in range(given.runs):
        random_run(s, rng, given.steps)
    for place, (said, told) in enumerate(pieces(s), 1):
        for name, lines in (("stdin", said), ("stdout", told)):
            with open("%s/%s%s" % (given.folder, name, "" if place == 1 else ".%d" % place), "w", encoding="latin-1") as file:
                file.write("\n".join(lines) + "\n")
    print("%d stops of rows, %d lines; %s" % (stops, len(s.lines), counts(s.told)), file=sys.stderr)


if __name__ == "__main__":
    main()
