#!/usr/bin/env python3
"""Bots whose folders are lost, made again, copied, or given back from an older copy.

    trials/copies.py [PROGRAM]      ends within some minutes

PROGRAM is the program to try, else what EGGNET names, else ours. A leaf's folder is lost and made again; two machines show
one leaf's number; a leaf, and then the hub, gets an older copy of its folder back; bots of one net differ in the number of
leaves. Each is refused by name, in both logs, and nobody is told that a change was accepted that nobody made. Then what the
texts advise is done, and the net goes on.
The last line is 'N well, M bad'; the status is 1 where any is bad.
"""
import re
import shutil
import sys
import tempfile
from pathlib import Path

sys.dont_write_bytecode = True
from bots import Bot, Nowhere, Tally, comes, end_all, free_port, program_of
from nets import SECRET, Net, records_of, version_of


class Field:
    """A hub and two leaves, whose folders are copied and given back."""

    def __init__(self, program, room):
        self.program, self.room, self.port, self.secret = program, room, free_port(), f"{room}/secret"
        Path(self.secret).write_bytes(SECRET + b"\n")
        self.hub = self.bot("hub", 0)
        self.leaves = [self.bot(f"leaf{number}", number) for number in (1, 2)]
        self.bots = [self.hub, *self.leaves]

    def bot(self, name, number, count=2):
        side = f"hub 127.0.0.1 {self.port}" if number else f"listen 127.0.0.1 {self.port}"
        lines = [f"bot {number} of {count}", side, f"secret {self.secret}"]
        return Bot(self.program, self.room, name, [Nowhere()], lines, nick=name)

    def is_level(self, *bots):
        shown = [bot.answers("show") for bot in bots or self.bots]
        versions = {version_of(it) for it in shown}
        return len(versions) == 1 and None not in versions and len({records_of(it) for it in shown}) == 1

    def settles(self, *bots):
        return bool(comes(lambda: self.is_level(*bots), 60, 0.1))

    def keep(self, bot):
        """Keeps a copy of a stopped bot's folder."""
        shutil.rmtree(f"{bot.folder}.copy", ignore_errors=True)
        shutil.copytree(bot.folder, f"{bot.folder}.copy", ignore=lambda _, names: [it for it in names if it == "control"])

    def give_back(self, bot):
        shutil.rmtree(bot.folder)
        shutil.copytree(f"{bot.folder}.copy", bot.folder)


def names(tally, what, pattern, *bots, seconds=45, since=None):
    """Whether each log says it."""
    places = since or [0] * len(bots)
    said = [bool(comes(lambda bot=bot, place=place: re.search(pattern, bot.logged()[place:]), seconds, 0.1))
            for bot, place in zip(bots, places)]
    tally.note(what, all(said), "" if all(said) else [bot.logged()[place:][-600:] for bot, place in zip(bots, places)])


def ends(*bots):
    return [len(bot.logged()) for bot in bots]


def asked(tally, what, bot, line, pattern, count=2):
    """What an operator is told, on one connection."""
    try:
        told = Net.ask(bot, line, count)
    except OSError as error:
        told = [str(error)]
    tally.note(what, bool(told and re.search(pattern, str(told[-1]))), told)


def made_again(tally, field):
    """A leaf that has asked for changes loses its folder."""
    hub, leaf = field.hub, field.leaves[0]
    for user in ("one", "two", "three"):
        asked(tally, f"leaf 1 asks for {user}", leaf, f"adduser {user}", r"^accepted \d+")
    tally.note("all are level", field.settles())
    leaf.kill()
    shutil.rmtree(leaf.folder)
    since = ends(hub, leaf)
    tally.note("leaf 1 starts in a new folder", leaf.start())
    names(tally, "both logs say that another folder shows leaf 1's number", r"renew 1|another folder|another machine", hub, leaf,
          since=since)
    shown = leaf.answers("show") or ""
    tally.note("it has taken nothing", version_of(shown) == 0, shown)
    asked(tally, "it may not ask before it is linked", leaf, "adduser early", r"^refused", 1)
    status, out, err = hub.tell("renew", "1")
    tally.note("tell renew 1", status == 0, out + err)
    tally.note("leaf 1 is level", field.settles())
    asked(tally, "leaf 1 asks for four", leaf, "adduser four", r"^accepted \d+")
    asked(tally, "leaf 1 asks for one, which is there", leaf, "adduser one", r"^refused U2 ")
    tally.note("all are level again", field.settles())
    handles = [it.split()[1] for it in records_of(hub.answers("show"))]
    tally.note("each user is there once", sorted(handles) == sorted({*handles}) and "four" in handles, handles)


def twins(tally, field):
    """A second machine shows leaf 2's number, with the same secret and a folder of its own, and then with a copy."""
    hub, leaf = field.hub, field.leaves[1]
    twin = field.bot("twin", 2)
    since = ends(hub, twin)
    tally.note("a second leaf 2 starts", twin.start())
    names(tally, "both logs say that it is another folder", r"renew 2|another folder|another machine", hub, twin, since=since)
    tally.note("leaf 2 is still level", field.settles())
    asked(tally, "leaf 2 asks", leaf, "adduser fromtwo", r"^accepted \d+")
    asked(tally, "its twin asks, and is refused", twin, "adduser fromtwin", r"^refused", 1)
    twin.kill()
    tally.note("nothing came of the twin", "fromtwin" not in (hub.answers("show") or ""))


def older_leaf(tally, field):
    """Leaf 1 gets an older copy of its folder back."""
    hub, leaf = field.hub, field.leaves[0]
    leaf.kill()
    field.keep(leaf)
    tally.note("leaf 1 starts", leaf.start())
    for user in ("five", "six"):
        asked(tally, f"leaf 1 asks for {user}", leaf, f"adduser {user}", r"^accepted \d+")
    tally.note("all are level", field.settles())
    leaf.kill()
    field.give_back(leaf)
    since = ends(hub, leaf)
    tally.note("leaf 1 starts on its older copy", leaf.start())
    names(tally, "both logs say that it is an older copy", r"older copy", hub, leaf, since=since)
    asked(tally, "it asks, and is told no acceptance", leaf, "adduser seven", r"^queued", 1)
    leaf.kill()
    shutil.rmtree(leaf.folder)
    status, out, err = hub.tell("renew", "1")
    tally.note("tell renew 1", status == 0, out + err)
    tally.note("leaf 1 starts in a new folder", leaf.start())
    tally.note("all are level", field.settles())
    asked(tally, "leaf 1 asks for eight", leaf, "adduser eight", r"^accepted \d+")


def older_hub(tally, field):
    """The hub gets an older copy of its folder back."""
    hub = field.hub
    hub.kill()
    field.keep(hub)
    tally.note("the hub starts", hub.start())
    status, out, err = hub.tell("adduser", "nine")
    tally.note("a change that the copy lacks", status == 0, out + err)
    tally.note("all are level", field.settles())
    hub.kill()
    field.give_back(hub)
    since = ends(hub, *field.leaves)
    tally.note("the hub starts on its older copy", hub.start())
    names(tally, "all logs say that a leaf is ahead", r"older copy", hub, *field.leaves, since=since)
    status, out, err = hub.tell("adduser", "ten")
    tally.note("the hub takes no change", status != 0 or out.startswith("refused"), out + err)
    tally.note("the leaves still hold what they held", all("nine" in (it.answers("show") or "") for it in field.leaves))
    hub.kill()
    for leaf in field.leaves:
        leaf.kill()
    tally.note("the hub starts once more, alone", hub.start())
    status, out, err = hub.tell("adduser", "ten")
    tally.note("it is in doubt still", out.startswith("refused in doubt"), out + err)
    status, out, err = hub.tell("trust-this-copy")
    tally.note("tell trust-this-copy", status == 0, out + err)
    status, out, err = hub.tell("adduser", "ten")
    tally.note("the hub takes changes again", out.startswith("accepted"), out + err)
    hub.kill()
    tally.note("the hub starts again", hub.start())
    status, out, err = hub.tell("adduser", "and")
    tally.note("and takes changes", out.startswith("accepted"), out + err)
    for leaf in field.leaves:
        shutil.rmtree(leaf.folder)
    for number, leaf in enumerate(field.leaves, 1):
        status, out, err = hub.tell("renew", str(number))
        tally.note(f"tell renew {number}", status == 0, out + err)
        tally.note(f"leaf {number} starts in a new folder", leaf.start())
    tally.note("all are level, without the change that the copy lacked",
               field.settles() and "nine" not in (hub.answers("show") or ""))


def same_version(tally, field):
    """The hub's older copy reaches the leaves' version by changes of its own: other records at one version."""
    hub, leaf = field.hub, field.leaves[0]
    hub.kill()
    field.keep(hub)
    hub.start()
    hub.tell("adduser", "eleven")
    tally.note("all are level", field.settles())
    for it in field.leaves:
        it.kill()
    hub.kill()
    field.give_back(hub)
    hub.start()
    status, out, err = hub.tell("adduser", "other")
    tally.note("the hub's older copy accepts another change first", out.startswith("accepted"), out + err)
    since = ends(hub, leaf)
    leaf.start()
    names(tally, "both logs say that the records differ", r"differ|different records|other records", hub, leaf, since=since)
    status, out, err = hub.tell("adduser", "twelve")
    tally.note("the hub takes no change", status != 0 or out.startswith("refused"), out + err)
    leaf.kill()


def counts(tally, room, program):
    """A leaf of a net of three at a hub of a net of two."""
    field = Field(program, f"{room}")
    odd = field.bot("odd", 1, 3)
    field.hub.start()
    odd.start()
    names(tally, "both logs say that the numbers of leaves differ", r"disagree on the number of leaves|number of leaves", field.hub, odd)
    end_all(field.hub, odd)


def main():
    tally, program = Tally(), program_of(sys.argv[1:])
    with tempfile.TemporaryDirectory() as room, tempfile.TemporaryDirectory() as other:
        field = Field(program, room)
        try:
            for bot in field.bots:
                tally.note(f"{bot.name} starts", bot.start())
            tally.note("all are linked and level", field.settles())
            made_again(tally, field)
            twins(tally, field)
            older_leaf(tally, field)
            older_hub(tally, field)
            same_version(tally, field)
            counts(tally, other, program)
        finally:
            end_all(*field.bots)
    return tally.end()


if __name__ == "__main__":
    sys.exit(main())
