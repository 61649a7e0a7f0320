#!/usr/bin/env python3
"""A hub whose disk is full: it refuses changes by name and goes on, and takes them again when there is room.

    trials/full_disk.py [PROGRAM]

PROGRAM is the program to try, else what EGGNET names, else ours. The hub's folder is on a tmpfs of 4 MB, which root may
mount, and another file fills it. A leaf's changes wait, an administrator at the hub is refused, an owner's changes on IRC
are accepted, and the hub is killed and started on the full disk. Then the other file goes, and the leaf's changes are
accepted, each with its line in the hub's log. The last line is 'N well, M bad'; the status is 1 where any is bad.
"""
import os
import sys
import tempfile
import time
from pathlib import Path

sys.dont_write_bytecode = True
from bots import Guest, Ours, Tally, comes, end_all, program_of, ran
from nets import Net, Operator, records_of, version_of

NO_ROOM = "refused no room: free some on the disk of the bot's folder, then say it again\n"
BEGAN, ENDED = " no room for changes: free some on the disk of the bot's folder\n", " room for changes again\n"

# More bytes of records than the rest of a page that a journal has begun.
WAITING = [f"addban * *!*@{number}.{'x' * 80} ann 0 it waits" for number in range(40)]
HOSTS = [f"+host {user} *!*@{number}.{'y' * 60}" for user in ("carol", "dave", "erin") for number in range(15)]


def fill(path, hub):
    """Fills the disk until the hub says so, or for some seconds: each look of the hub takes 64 KiB for a moment. A hub
    that has nothing to do looks once a minute."""
    def fills():
        hub.answers("status")
        with open(path, "ab", buffering=0) as filler:
            try:
                while filler.write(b"x" * 4_096):
                    pass
            except OSError:
                pass
        return BEGAN in hub.logged()
    return comes(fills, 5, 0.5)


def begins(tally, net, ann):
    """The hub and its leaf are up and linked, and ann is an owner."""
    for bot in net.bots:
        tally.note(f"{bot.name} starts", bot.start(), bot.logged()[-200:])
    hub, leaf = net.bots
    told = [hub.answers(line) for line in ("adduser ann", "addhost ann *!*ann@*", "global ann n")]
    tally.note("the hub has an owner", told[-1] == "accepted 3\n", told)
    tally.note("its leaf is linked", comes(lambda: version_of(leaf.answers("show")) == 3, 60), leaf.logged()[-200:])
    tally.note("ann sees the hub", ann.hears(r"^:egg0!\S+ JOIN ", 0, 60) or ann.asks("NAMES #egg", "egg0"))


def hears_nothing(operator):
    """Whether an operator hears nothing for a second."""
    operator.socket.settimeout(1)
    try:
        return operator.hears()
    except TimeoutError:
        return "nothing"


def waits(tally, net, operator):
    """A leaf's changes wait while the hub's disk is full. Whether the hub stays up."""
    hub, _ = net.bots
    queued = []
    for line in WAITING:
        operator.say(line)
        queued.append(operator.hears())
    tally.note(f"{len(WAITING)} changes at the leaf are queued", set(queued) == {"queued\n"}, set(queued))
    time.sleep(20)
    is_up = hub.process.poll() is None
    tally.note("the hub stays up", is_up, f"status {hub.process.poll()}: {hub.logged()[-160:]}")
    heard = hears_nothing(operator)
    tally.note("the leaf's operator is told nothing yet", heard == "nothing", heard)
    return is_up


def refused(tally, hub):
    """An administrator is refused by name."""
    for words in (["adduser", "bob"], ["compact"]):
        seen = hub.tell(*words)
        tally.note(f"tell {words[0]} at the hub", seen[:2] == (1, NO_ROOM), seen)
    tally.note("tell status at the hub", hub.tell("status")[0] == 0)
    tally.note("the log says once that there is no room", hub.logged().count(BEGAN) == 1, hub.logged()[-200:])


def asks_on_irc(tally, hub, ann):
    """An owner's changes on IRC are accepted, and a hub that is started again has them."""
    seen = ann.asks("PRIVMSG egg0 :+user carol", r"^:egg0!\S+ NOTICE ann :accepted under number 4$")
    tally.note("an owner's change on IRC", seen is not None, seen)
    for line in ("+user dave", "+user erin", *HOSTS):
        ann.say(f"PRIVMSG egg0 :{line}")
        time.sleep(0.05)
    most = 6 + len(HOSTS)
    tally.note("and many more", comes(lambda: version_of(hub.answers("show")) == most), f"{most} wanted")
    before = hub.answers("show")
    hub.kill()
    tally.note("the hub is killed and starts again", hub.start(), hub.logged()[-200:])
    tally.note("it has the same records", before is not None and hub.answers("show") == before)
    seen = hub.tell("adduser", "bob")
    tally.note("tell adduser at the hub", seen[:2] == (1, NO_ROOM), seen)


def room_again(tally, net, operator):
    """With room, the leaf's changes are accepted."""
    hub, leaf = net.bots
    operator.socket.settimeout(60)
    began = time.monotonic()
    told = []
    try:
        told = [operator.hears() for _ in WAITING]
    except OSError:
        pass
    accepted = [line for line in told if (line or "").startswith("accepted ")]
    tally.note("the leaf's changes are accepted", len(accepted) == len(WAITING),
               f"{len(accepted)} after {time.monotonic() - began:.1f} s")
    unlogged = [line for line in accepted if f" change {line.split()[1]} accepted\n" not in hub.logged()]
    tally.note("the hub's log has a line for each of them", bool(accepted) and not unlogged, unlogged)
    tally.note("the hub's log says that there is room again", hub.logged().count(ENDED) == 1, hub.logged()[-200:])
    seen = hub.tell("adduser", "bob")
    tally.note("tell adduser at the hub", seen[0] == 0, seen)
    def are_level():
        shown = [bot.answers("show") for bot in net.bots]
        return None not in shown and len({records_of(it) for it in shown}) == 1
    tally.note("hub and leaf have the same records", comes(are_level, 60, 0.2))
    held = Path(f"{hub.folder}/room").stat().st_size if os.path.exists(f"{hub.folder}/room") else 0
    tally.note("a megabyte is set aside", held >= 1_048_576, held)


def full_disk(tally, program, room, small):
    """All steps."""
    server = Ours(room, program)
    net = Net(program, room, server, 1)
    hub, leaf = net.bots
    hub.move_to(f"{small}/egg")
    with open(hub.config, "a", encoding="utf-8") as config:
        config.write("bind msg - +host +host\n")
    ann = None
    try:
        server.start()
        ann = Guest(server, "ann")
        ann.asks("JOIN #egg", r" 366 ")
        begins(tally, net, ann)
        said = fill(f"{small}/filler", hub)
        tally.note("the hub says that there is no room", said, os.statvfs(small).f_bfree)
        with Operator(leaf) as operator:
            if not waits(tally, net, operator):
                return
            refused(tally, hub)
            asks_on_irc(tally, hub, ann)
            os.remove(f"{small}/filler")
            room_again(tally, net, operator)
    finally:
        end_all(*net.bots, *([ann] if ann else []), server)


def main():
    program = program_of(sys.argv[1:])
    tally = Tally()
    with tempfile.TemporaryDirectory(prefix="full-disk-") as room:
        os.chmod(room, 0o755)
        small = f"{room}/small"
        os.mkdir(small)
        if os.getuid() or ran(["mount", "-t", "tmpfs", "-o", "size=4m,mode=0700", "tmpfs", small])[0]:
            tally.say("this user mounts no tmpfs: nothing is tried")
            return tally.end()
        try:
            full_disk(tally, program, room, small)
        finally:
            ran(["umount", "-l", small])
    return tally.end()


if __name__ == "__main__":
    sys.exit(main())
