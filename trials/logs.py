#!/usr/bin/env python3
"""The log of a bot: in a file that is renamed, on a full disk, in a full pipe, as JSON, and with control bytes in it.

    trials/logs.py [PROGRAM] [LINES]      2,000 lines of a server, if they aren't said

PROGRAM is the program to try, else what EGGNET names, else ours. The server says lines while the log's file is renamed three
times, each time with `eggnet tell FOLDER reopen` after it: each line is in one of the files, once and in order. A log on a
tmpfs that is full, which root may mount, and one in /dev/full don't stop their bots; when the tmpfs has room again, the log
goes on. A log of JSON goes into a pipe that is read late. No line has a control byte, whatever people say, and the log names
who asked for a change. The last line is 'N well, M bad'; the status is 1 where any is bad.
"""
import json
import os
import re
import sys
import tempfile
import time
from pathlib import Path

sys.dont_write_bytecode = True
from bots import Bot, Tally, comes, counts_of, end_all, program_of, ran
from nets import Net
from pipes import PipedBot, told
from small_server import SmallServer

ROUNDS = 3
# A terminal's commands: ESC, DEL, and CSI as one character of UTF-8 and as a byte that is none.
COMMANDS = "\x1b[2J red \x7f \u009b2J"
CONTROLS = re.compile(rb"[\x00-\x09\x0b-\x1f\x7f]|\xc2[\x80-\x9f]")


class FiledBot(Bot):
    """A bot whose log goes into a file that its configuration names."""

    def __init__(self, program, room, name, servers, lines=(), path=None, nick="egg"):
        self.filed = path or f"{room}/{name}.filed"
        super().__init__(program, room, name, servers, [*lines, f"log file {self.filed}"], nick)

    def logged(self):
        try:
            return Path(self.filed).read_text(encoding="utf-8", errors="replace")
        except OSError:
            return ""


def visitor_of(tally, bot, server, channel="#egg"):
    """The bot's connection at the server, once it is on its channel."""
    visitor = server.visitor(bot.nick) if bot.start() else None
    there = visitor and comes(lambda: visitor.said(f"^JOIN {channel}$"))
    tally.note(f"{bot.name} is on its channel", bool(there), "" if there else Path(bot.log).read_text(encoding="utf-8"))
    return visitor


def fill(tally, where, visitor, count):
    """The server says so many long lines, and a PING after each 100. Each is answered."""
    waits = []
    for number in range(1, count + 1):
        visitor.say(f":ann!ann@host.trial PRIVMSG #egg :number {number} {'x' * 140}")
        if number % 100 == 0 or number == count:
            waits.append(visitor.asks(f"PING :{number}", rf"^PONG :?{number}$", 60))
    tally.note(f"{where}: it answers each PING of {count} lines", None not in waits,
               f"{len(waits)} PINGs, {max((it for it in waits if it), default=0):.2f} s at most")


def fill_disk(path):
    """Fills the disk of this file, to its last byte."""
    with open(path, "ab", buffering=0) as it:
        for piece in (4_096, 1):
            try:
                while it.write(b"x" * piece):
                    pass
            except OSError:
                pass


def is_done(answer):
    """Whether a bot did what it was told."""
    return bool(answer) and not re.match("refused|fault", answer)


def numbers_in(text):
    return [int(it) for it in re.findall(r" PRIVMSG #egg :number (\d+)$", text, re.M)]


def is_rotated(tally, program, room, server, count):
    """The file is renamed while the server speaks."""
    bot = FiledBot(program, room, "rotated", [server], ["channel #egg", "log lines"])
    try:
        visitor, files = visitor_of(tally, bot, server), []
        for number in range(1, count + 1):
            visitor.say(f":ann!ann@host.trial PRIVMSG #egg :number {number}")
            if number % (count // (ROUNDS + 1)) == 0 and len(files) < ROUNDS:
                # The server speaks faster than the bot logs, so some line of this file is waited for.
                comes(lambda: numbers_in(bot.logged()))
                files.append(f"{bot.filed}.{len(files) + 1}")
                os.rename(bot.filed, files[-1])
                out = bot.answers("reopen")
                if not tally.note(f"round {len(files)}: it opens its log again", is_done(out) and os.path.isfile(bot.filed), out):
                    return
        comes(lambda: count in numbers_in(bot.logged()))
        texts = [Path(it).read_text(encoding="utf-8") for it in files] + [bot.logged()]
        numbers = [it for text in texts for it in numbers_in(text)]
        tally.note("each line is in one of the files, once and in order", numbers == [*range(1, count + 1)],
                   f"{[len(numbers_in(it)) for it in texts]} of {count}")
        tally.note("each file has lines", all(numbers_in(it) for it in texts))
        torn = [line for text in texts for line in text.splitlines() if not re.match(r"\d{10} \S", line)]
        tally.note("each line is whole", not torn and all(it.endswith("\n") for it in texts), torn[:2])
        modes = {oct(os.stat(it).st_mode & 0o777) for it in [*files, bot.filed]}
        tally.note("the files are for their owner alone", modes == {"0o600"}, modes)
        cannot_reopen(tally, bot, visitor)
    finally:
        end_all(bot)


def cannot_reopen(tally, bot, visitor):
    """The file can't be opened again, as a folder stands at its path: the log goes on in the old one."""
    old = f"{bot.filed}.old"
    os.rename(bot.filed, old)
    os.mkdir(bot.filed)
    out = bot.answers("reopen")
    tally.note("a file that can't be opened again: it says so", out and not is_done(out), out)
    visitor.say(":ann!ann@host.trial PRIVMSG #egg :number 999999")
    went_on = comes(lambda: 999_999 in numbers_in(Path(old).read_text(encoding="utf-8")))
    tally.note("and the log goes on in the old one", went_on)


def is_starved(tally, program, room, server):
    """A log in /dev/full, to which each write fails."""
    bot = FiledBot(program, room, "starved", [server], ["channel #egg", "log lines"], "/dev/full")
    try:
        visitor = visitor_of(tally, bot, server)
        fill(tally, "/dev/full", visitor, 2_000)
        out, took = told(bot, "adduser", "me")
        tally.note("/dev/full: tell adduser", out == "accepted 1\n", f"{out} {took:.2f} s")
        _, status, took = bot.end()
        tally.note("/dev/full: it ends as it is told", status == 0, f"status {status} after {took:.1f} s")
    finally:
        end_all(bot)


def is_full(tally, program, room, server, small):
    """A log on a full disk, which has room again later."""
    bot = FiledBot(program, room, "full", [server], ["channel #egg", "log lines"], f"{small}/log")
    try:
        visitor = visitor_of(tally, bot, server)
        visitor.say(":ann!ann@host.trial PRIVMSG #egg :number 1")
        comes(lambda: 1 in numbers_in(bot.logged()))
        filler = f"{small}/filler"
        fill_disk(filler)
        for number in range(2, 301):
            visitor.say(f":ann!ann@host.trial PRIVMSG #egg :number {number}")
        waits = visitor.asks("PING :full", "^PONG :?full$", 10)
        tally.note("a full disk: it answers", waits is not None, waits)
        tally.note("a full disk: the last line is not in the log yet", 300 not in numbers_in(bot.logged()))
        os.remove(filler)
        visitor.say(":ann!ann@host.trial PRIVMSG #egg :number 301")
        comes(lambda: 301 in numbers_in(bot.logged()))
        numbers = numbers_in(bot.logged())
        tally.note("with room again, each line is there, once and in order", numbers == [*range(1, 302)], len(numbers))
        many_wait(tally, bot, visitor, filler)
    finally:
        end_all(bot)


def many_wait(tally, bot, visitor, filler):
    """More lines than may wait: the log says how many it lost."""
    count = 2_000
    fill_disk(filler)
    fill(tally, "a full disk for long", visitor, count)
    os.remove(filler)
    time.sleep(1)
    visitor.say(":ann!ann@host.trial PRIVMSG #egg :the last one")
    comes(lambda: " :the last one\n" in bot.logged())
    dropped = sum(int(it) for it in re.findall(r"^\d+ log: .*dropped: (\d+)$", bot.logged(), re.M))
    there = [int(it) for it in re.findall(r" :number (\d+) x+$", bot.logged(), re.M)]
    tally.note("a full disk for long: each line is there or counted as dropped",
               dropped > 0 and there == sorted({*there}) and len(there) + dropped >= count,
               f"{len(there)} of {count} are there, {dropped} dropped")
    torn = [line for line in bot.logged().splitlines() if not re.match(r"\d{10} \S", line)]
    tally.note("a full disk for long: each line is whole", not torn, torn[:2])


def is_json(tally, program, room, server, count):
    """A log of JSON in a pipe that is read late."""
    bot = PipedBot(program, room, "json", [server], ["channel #egg", "log lines", "log json"], nick="json")
    try:
        visitor = visitor_of(tally, bot, server)
        fill(tally, "JSON", visitor, count)
        bot.read_on()
        comes(lambda: "dropped" in bot.logged(), 3)
        visitor.say(f':ann!ann@host.trial PRIVMSG #egg :"quoted" \\ {COMMANDS} \u00e4')
        comes(lambda: "quoted" in bot.logged())
        lines, bad = bot.logged().splitlines(), []
        for line in lines:
            try:
                it = json.loads(line)
                if [*it] != ["time", "entry"] or type(it["time"]) is not int or type(it["entry"]) is not str:
                    bad.append(line)
            except ValueError:
                bad.append(line)
        tally.note("JSON: each line is an object with a time and an entry", lines and not bad, f"{len(lines)} lines {bad[:2]}")
        numbers = [int(it) for it in re.findall(r" :number (\d+) ", bot.logged())]
        dropped = sum(int(it) for it in re.findall(r"dropped: (\d+)\"", bot.logged()))
        tally.note("JSON: each line of the server is there or dropped", len(numbers) + dropped >= count,
                   f"{len(numbers)} of {count} are there, {dropped} dropped")
        tally.note("JSON: no control byte is shown", not CONTROLS.search(bot.read), CONTROLS.findall(bot.read)[:3])
    finally:
        end_all(bot)


def is_harmless(tally, program, room, server):
    """What people and admins say with control bytes, and who asked for changes."""
    binds = ["channel #egg", "log lines", "bind msg n +user +user", "bind msg - echo hello"]
    bot = FiledBot(program, room, "shown", [server], binds)
    try:
        visitor = visitor_of(tally, bot, server)
        told_first = [bot.answers(line) for line in ("adduser ann", "addhost ann *!ann@host.trial", "global ann n")]
        tally.note("ann is an owner", told_first[-1] == "accepted 3\n", told_first)
        bot.answers(f"addban * *!*@bad.trial ann 0 {COMMANDS}")
        visitor.say(f":{COMMANDS.replace(' ', '')}!a@b PRIVMSG egg :hello {COMMANDS}")
        visitor.socket.sendall(b":ann!ann@host.trial PRIVMSG #egg :\x9b2J \xff \x85\r\n")
        visitor.say(":ann!ann@host.trial PRIVMSG egg :+user carol")
        comes(lambda: "adduser carol" in bot.logged())
        bytes_logged = Path(bot.filed).read_bytes()
        tally.note("no control byte is shown", bytes_logged.count(b" red ") > 1 and not CONTROLS.search(bytes_logged),
                   re.findall(rb"^.* red .*$", bytes_logged, re.M))
        try:
            bytes_logged.decode()
            tally.note("the log is UTF-8", True)
        except UnicodeDecodeError as fault:
            tally.note("the log is UTF-8", False, fault)
        log = bot.logged()
        tally.note("the log has an admin's line", " admin: addhost ann *!ann@host.trial\n" in log)
        tally.note("the log says who asked on IRC",
                   " asked on IRC by ann!ann@host.trial, handle ann: adduser carol\n" in log,
                   re.findall(r"^.*asked on.*$", log, re.M))
        bot.answers("say PRIVMSG NickServ :IDENTIFY hunter2")
        tally.note("no password of a line say", "hunter2" not in bot.logged())
    finally:
        end_all(bot)


def is_audited(tally, program, room, server):
    """A hub's log has what a leaf asked for."""
    net = Net(program, room, server, 1)
    try:
        hub, leaf = net.bots
        tally.note("a hub and a leaf start", hub.start() and leaf.start())
        linked = comes(lambda: " linked to the hub at " in leaf.logged(), 60)
        tally.note("the leaf is linked", linked, leaf.logged()[-200:])
        heard = Net.ask(leaf, "adduser bob")
        tally.note("the leaf's change is accepted", heard[-1] == "accepted 1\n", heard)
        found = comes(lambda: " change 1, asked by bot 1: adduser bob\n" in hub.logged())
        tally.note("the hub's log has the change and the bot", found, re.findall(r"^.* change .*$", hub.logged(), re.M))
        tally.note("the leaf's log has the admin's line", " admin: adduser bob\n" in leaf.logged())
    finally:
        end_all(*net.bots, *net.doors)


def main():
    program = program_of(sys.argv[1:])
    [count] = counts_of(sys.argv[1:], 2_000)
    tally = Tally()
    tally.say(f"{program}, {count} lines")
    server = SmallServer()
    with tempfile.TemporaryDirectory(prefix="logs-") as room:
        small = f"{room}/small"
        os.mkdir(small)
        mounted = not os.getuid() and not ran(["mount", "-t", "tmpfs", "-o", "size=1m,mode=0700", "tmpfs", small])[0]
        try:
            is_harmless(tally, program, room, server)
            is_audited(tally, program, room, server)
            is_starved(tally, program, room, server)
            if mounted:
                is_full(tally, program, room, server, small)
            else:
                tally.say("this user mounts no tmpfs: a disk that is full for a while is not tried")
            is_json(tally, program, room, server, count)
            is_rotated(tally, program, room, server, count)
        finally:
            if mounted:
                ran(["umount", "-l", small])
            end_all(server)
    return tally.end()


if __name__ == "__main__":
    sys.exit(main())
