#!/usr/bin/env python3
"""Gives bots the names of servers, and a name server that does not answer, or answers late, or lets others answer first.

    trials/names.py [PROGRAM] [SECONDS]      30 seconds without a name server if they aren't said; needs root

PROGRAM is the program to try, else what EGGNET names, else ours. The trial enters a network and mounts of its own, where
/etc/resolv.conf and /etc/hosts are files of the trial. While no name server answers, a hub whose server has a name, its leaf,
and a leaf whose hub has a name answer admins within 2 seconds, and changes are accepted within 2. Then come bots whose
servers have names for which the name server answers in its own ways (name_server.py), and one whose name stands in /etc/hosts
alone: each connects to the right address, and none to a forged one.
The last line is 'N well, M bad'; the status is 1 where any is bad.
"""
import os
import subprocess
import sys
import tempfile
import threading
import time
from pathlib import Path

sys.dont_write_bytecode = True
from bots import Bot, Tally, comes, counts_of, end_all, free_port, program_of
from name_server import RIGHT, RIGHT_SIX, WRONG, WRONG_SIX, NameServer
from nets import SECRET, Net
from small_server import SmallServer
from spaces import Namespaces

RESOLVER = "127.0.0.53"
WAYS = {
    "number": "replies with other numbers come first",
    "question": "replies to other questions come first",
    "rubbish": "datagrams that are no replies come first",
    "alias": "the name stands for another",
    "six": "the name has an IPv6 address alone",
    "lost": "two queries are lost",
}
SOON = 2  # seconds


class Named:
    """A server as a bot's configuration names it."""

    password = ""

    def __init__(self, host, port):
        self.host, self.port = host, port


def mount(room, name, text):
    """Puts a file of the trial in the place of one in /etc, in the trial's own mounts. The file."""
    file = f"{room}/{name}"
    Path(file).write_text(text, encoding="utf-8")
    os.chmod(file, 0o644)
    subprocess.run(["mount", "--bind", file, os.path.realpath(f"/etc/{name}")], check=True)
    return file


class Meter:
    """How long answers took that are asked for again and again, and which did not come in time."""

    def __init__(self, what, ask):
        self.what, self.ask, self.worst, self.count, self.late = what, ask, 0.0, 0, []
        self.goes_on = True
        self.thread = threading.Thread(target=self.run, daemon=True)
        self.thread.start()

    def run(self):
        while self.goes_on:
            began = time.monotonic()
            is_right = self.ask(self.count)
            took = time.monotonic() - began
            self.worst, self.count = max(self.worst, took), self.count + 1
            if not is_right or took > SOON:
                self.late.append(f"{took:.2f} s, {'right' if is_right else 'wrong'}")
            time.sleep(0.2)

    def end(self, tally):
        """Ends it, and tells what it saw."""
        self.goes_on = False
        self.thread.join(60)
        tally.note(f"no name server answers: {self.what}", self.count and not self.late,
                   f"{self.count} times, {self.worst:.2f} s at most {self.late[:3]}")


def asked(leaf, number):
    """Whether a leaf's change is accepted."""
    try:
        told = Net.ask(leaf, f"adduser u{number}")
    except OSError:
        return False
    return (told[-1] or "").startswith("accepted ")


def no_answer(tally, program, room, right, seconds):
    """Nobody answers for the names of a server and of a hub."""
    Path(f"{room}/secret").write_bytes(SECRET + b"\n")
    port, rest = free_port(), [f"secret {room}/secret", "channel #egg"]
    named = Named("silent.trial", right.port)
    hub, leaf, lonely = bots = [
        Bot(program, room, "hub", [named], ["bot 0 of 2", f"listen 127.0.0.1 {port}", *rest], nick="hub"),
        Bot(program, room, "leaf", [right], ["bot 1 of 2", f"hub 127.0.0.1 {port}", *rest], nick="leaf"),
        Bot(program, room, "lonely", [right], ["bot 2 of 2", f"hub silent.trial {port}", *rest], nick="lonely")]
    meters = []
    try:
        for bot in bots:
            bot.begin()
        comes(lambda: all(os.path.exists(f"{bot.folder}/control") for bot in bots))
        for what, bot in (("a hub whose server has a name", hub), ("its leaf", leaf), ("a leaf whose hub has a name", lonely)):
            meters.append(Meter(f"{what} answers an admin", lambda _, bot=bot: bot.answers("status", 15) is not None))
        linked = comes(lambda: "linked to the hub" in (leaf.answers("status") or ""), 60)
        tally.note("no name server answers: a hub lets a leaf in", bool(linked), leaf.logged()[-200:] if not linked else "")
        meters.append(Meter("a leaf's change is accepted", lambda number: asked(leaf, number)))
        time.sleep(seconds)
        for meter in meters:
            meter.end(tally)
    finally:
        end_all(*bots)


def answers(tally, program, room, right, names):
    """The name server answers, in each of its ways, to a bot of its own."""
    bots = {way: Bot(program, room, way, [Named(f"{way}.trial", right.port)], nick=way) for way in names}
    try:
        for bot in bots.values():
            bot.begin()
        began = time.monotonic()
        for way, bot in bots.items():
            seen = right.visitor(way, max(1, began + 60 - time.monotonic()))
            told = bot.logged().strip().splitlines()
            tally.note(names[way], bool(seen), f"{time.monotonic() - began:.1f} s; {told[-3:] if not seen else ''}")
    finally:
        end_all(*bots.values())


def tried(tally, program, room, seconds):
    """All of it, in the trial's own network and mounts."""
    resolv = mount(room, "resolv.conf", f"# of a trial\nnameserver {RESOLVER}\n")
    mount(room, "hosts", f"127.0.0.1 localhost\n# {WRONG} here.trial\n{RIGHT}\tother.trial here.trial # of a trial\n")
    server, right = NameServer(RESOLVER), SmallServer(RIGHT)
    here, forged = [right], [SmallServer(WRONG, right.port)]
    if os.path.exists("/proc/net/if_inet6"):
        subprocess.run(["ip", "address", "add", f"{WRONG_SIX}/128", "dev", "lo", "nodad"], check=True)
        here.append(SmallServer(RIGHT_SIX, right.port))
        forged.append(SmallServer(WRONG_SIX, right.port))
        here[1].visitors = right.visitors
    else:
        tally.say("this machine has no IPv6: its addresses are left out")
        WAYS.pop("six")
    try:
        no_answer(tally, program, room, right, seconds)
        answers(tally, program, room, right, WAYS)
        wrong = [visitor.nick for it in forged for visitor in it.visitors]
        tally.note("no bot goes to a forged address", not wrong, wrong)
        asks = [it for it in server.asked if it[0] == "silent.trial"]
        tally.say(f"{len(asks)} queries were not answered, of {len(server.asked)}")
        Path(resolv).write_text("", encoding="utf-8")
        answers(tally, program, room, right, {"here": "the name stands in /etc/hosts, and there is no name server"})
    finally:
        end_all(*here, *forged)


def main():
    program = program_of(sys.argv[1:])
    [seconds] = counts_of(sys.argv[1:], 30)
    tally = Tally()
    tally.say(f"{program}, {seconds} s without a name server")
    if not Namespaces.may_be_made() or not all(os.path.exists(f"/etc/{it}") for it in ("resolv.conf", "hosts")):
        tally.say("this user may make no network of its own: names are left out")
        return tally.end()
    Namespaces(0)
    with tempfile.TemporaryDirectory(prefix="names-") as room:
        os.chmod(room, 0o755)
        tried(tally, program, room, seconds)
    return tally.end()


if __name__ == "__main__":
    sys.exit(main())
