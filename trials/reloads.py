#!/usr/bin/env python3
"""Reads a bot's configuration again while it works, has it join and leave channels, and copies its journal.

    trials/reloads.py [PROGRAM] [RELOADS]      200 reloads if they aren't said

PROGRAM is the program to try, else what EGGNET names, else ours. While people on IRC talk and ask a proc, the file is changed and
read again: no line is lost, each question is answered once, a channel that is still named is never left, and binds come and go with the file,
and so do the keys of channels. A faulty file is refused whole, with the words of `eggnet check`; so is one that changes what can't change. Then the nick and the
servers change. Last, the journal of a bot that takes changes is copied: `eggnet show` of each copy shows the records of its
version, and no bot of a net starts there. A folder that is a link or another user's is refused. The last line is
'N well, M bad'; the status is 1 where any is bad.
"""
import os
import re
import subprocess
import sys
import tempfile
import threading
import time
from pathlib import Path

sys.dont_write_bytecode = True
from bots import KINDS, Bot, Tally, change_after, comes, counts_of, end_all, free_port, program_of, ran, records_at
from nets import SECRET
from small_server import SmallServer

CHANNELS = (["#egg", "#spam"], ["#egg", "#bacon"])
COPIES = 10
NOBODY = 65534


def write(bot, servers, channels, lines=(), nick="egg"):
    """Writes the bot's configuration."""
    said = [f"data {bot.folder}", f"nick {nick}", *(f"server {it.host} {it.port}" for it in servers)]
    said += [*(f"channel {it}" for it in channels), "bind pub - echo !echo", "log lines", *lines]
    said += [f"flood-{kind} 0:0" for kind in KINDS]  # people say more lines here than the usual limits let them
    Path(bot.config).write_text("\n".join(said) + "\n", encoding="utf-8")


def reloads(tally, bot, what, answer="reloaded\n"):
    out = bot.answers("reload")
    return tally.note(what, out == answer, out)


def channels_of(bot):
    return re.findall(r"^channel (\S+) on$", bot.answers("status") or "", re.M)


def is_on(bot, channels):
    return comes(lambda: sorted(channels_of(bot)) == sorted(channels), 60, 0.2)


class Asker(threading.Thread):
    """Says lines on the channel, 50 a second, and asks the bot's proc now and then, until it is ended."""

    def __init__(self, visitor):
        super().__init__(daemon=True)
        self.visitor, self.count, self.lines, self.ends = visitor, 0, 0, threading.Event()

    def run(self):
        while not self.ends.wait(0.02):
            self.lines += 1
            self.visitor.say(f":ann!ann@host.trial PRIVMSG #egg :line {self.lines}")
            if self.lines % 200 == 0:  # the bot sends a line each two seconds
                self.count += 1
                self.visitor.say(f":ann!ann@host.trial PRIVMSG #egg :!echo number {self.count}.")

    def answered(self):
        return [int(it) for _, line in [*self.visitor.lines] for it in re.findall(r"^PRIVMSG #egg :.*number (\d+)\.", line)]


def under_load(tally, bot, server, visitor, count):
    """So many reloads while people ask. Binds change each time, channels now and then."""
    asker, side, refused = Asker(visitor), 0, 0
    asker.start()
    for number in range(count):
        if number % max(1, count // 8) == 0:
            side = 1 - side
        extra = ["bind pub - echo !again"] if number % 2 else []
        write(bot, [server], CHANNELS[side], extra)
        refused += bot.answers("reload") != "reloaded\n"
        time.sleep(0.1)
    tally.note(f"{count} reloads while people ask", not refused, f"{refused} refused")
    tally.note("it is on the channels of the last file", is_on(bot, CHANNELS[side]), channels_of(bot))
    asker.ends.set()
    asker.join()
    comes(lambda: len(asker.answered()) >= asker.count, 60)
    tally.note("each question is answered once, in order", asker.answered() == [*range(1, asker.count + 1)],
               f"{len(asker.answered())} of {asker.count}")
    heard = lambda: [int(it) for it in re.findall(r" PRIVMSG #egg :line (\d+)$", bot.logged(), re.M)]
    comes(lambda: len(heard()) >= asker.lines, 60, 1)
    tally.note("no line is lost", heard() == [*range(1, asker.lines + 1)], f"{len(heard())} of {asker.lines}")
    tally.note("a channel that is still named is never left", not visitor.said(r"^PART #egg\b"))
    tally.note("one that is no longer named is left", bool(visitor.said(r"^PART #(spam|bacon)\b")))
    return side


def binds_follow(tally, bot, server, visitor, side):
    """A bind that the file names is made, and one that it no longer names is removed."""
    write(bot, [server], CHANNELS[side], ["bind pub - echo !again"])
    reloads(tally, bot, "a file with one more bind")
    took = visitor.asks(":ann!ann@host.trial PRIVMSG #egg :!again one.", r"^PRIVMSG #egg :.*one\.")
    tally.note("the bind is called", took is not None, took)
    bot.answers("bind pub - echo !mine")
    write(bot, [server], CHANNELS[side])
    reloads(tally, bot, "and without it")
    took = visitor.asks(":ann!ann@host.trial PRIVMSG #egg :!again two.", r"^PRIVMSG #egg :.*two\.", 4)
    tally.note("the bind is gone", took is None, took)
    took = visitor.asks(":ann!ann@host.trial PRIVMSG #egg :!mine three.", r"^PRIVMSG #egg :.*three\.")
    tally.note("one that an operator made stays", took is not None, took)


def is_refused_whole(tally, bot, server, side):
    """A faulty file changes nothing, and is refused with the words of `eggnet check`."""
    good = Path(bot.config).read_text(encoding="utf-8")
    before = bot.answers("status")
    bad = {"an unknown word": "channel #new\nbott 1 of 2", "a bind of an unknown proc": "channel #new\nbind pub - no !no",
           "a bind of an unknown type": "channel #new\nbind pbu - echo !no", "no channel": "channel new"}
    for what, lines in bad.items():
        Path(bot.config).write_text(f"{good}{lines}\n", encoding="utf-8")
        _, _, said = ran([bot.program, "check", bot.config])
        reloads(tally, bot, f"a file with {what}", said.replace("eggnet: ", "refused ", 1))
    fixed = {"data": (f"data {bot.folder}\n", f"data {bot.folder}2\n"), "zone": ("nick ", "zone CET-1CEST,M3.5.0,M10.5.0/3\nnick "),
             "exclusive": ("nick ", "exclusive\nnick "), "listen": None, "bot": None}
    for word, pair in fixed.items():
        if pair:
            Path(bot.config).write_text(good.replace(*pair, 1), encoding="utf-8")
            reloads(tally, bot, f"another {word}", f"refused reload: '{word}' can't change while the bot runs: restart it\n")
    os.unlink(bot.config)
    out = bot.answers("reload")
    tally.note("no file", (out or "").startswith(f"refused {bot.config} can't be read"), out)
    Path(bot.config).write_text(good, encoding="utf-8")
    strip = lambda text: re.sub(r"^(unsent|lines|admins|answers) .*\n", "", text or "", flags=re.M)
    after = bot.answers("status")
    tally.note("nothing has changed", strip(before) == strip(after), after)


def takes_keys(tally, bot, server, visitor, side):
    """A channel's key in the file: the bot joins by it, and by another one once it has read the file again."""
    write(bot, [server], [*CHANNELS[side], "#keyed sesame"])
    reloads(tally, bot, "a file with a key")
    tally.note("it joins by the key", bool(comes(lambda: visitor.said(r"^JOIN #keyed sesame$"))) and is_on(bot, [*CHANNELS[side], "#keyed"]))
    write(bot, [server], [*CHANNELS[side], "#keyed poppy"])
    reloads(tally, bot, "a file with another key")
    time.sleep(3)
    tally.note("it stays on the channel", not visitor.said(r"^(PART|JOIN) #keyed( poppy)?$"))
    visitor.say(":ann!ann@host.trial KICK #keyed egg :out")
    tally.note("after a KICK it joins by the other key", bool(comes(lambda: visitor.said(r"^JOIN #keyed poppy$"), 20)))
    tally.note("the log shows no key", not re.search("sesame|poppy", bot.logged()))
    write(bot, [server], CHANNELS[side])
    reloads(tally, bot, "the file without the channel")
    tally.note("it leaves the channel", bool(comes(lambda: visitor.said(r"^PART #keyed$"))))


def joins_and_leaves(tally, bot, visitor, side):
    """+chan and -chan, until the file is read again."""
    out = bot.answers("+chan #more sesame")
    tally.note("+chan with a key", out == "joining\n", out)
    tally.note("it says the key", bool(comes(lambda: visitor.said(r"^JOIN #more sesame$"))))
    out = bot.answers("+chan #more")
    tally.note("+chan again", (out or "").startswith("refused listed"), out)
    out = bot.answers("-chan #egg")
    tally.note("-chan", out == "leaving\n" and comes(lambda: visitor.said(r"^PART #egg$")), out)
    out = bot.answers("-chan #none")
    tally.note("-chan of a channel that isn't listed", (out or "").startswith("refused not listed"), out)
    reloads(tally, bot, "the file again")
    tally.note("it is on the file's channels", is_on(bot, CHANNELS[side]), channels_of(bot))


def changes_nick_and_servers(tally, bot, server, visitor, side):
    """The nick changes at once; a server that still stands in the list is kept, another one is left."""
    write(bot, [server], CHANNELS[side], nick="yolk")
    reloads(tally, bot, "a file with another nick")
    tally.note("it asks for the nick", bool(comes(lambda: visitor.said(r"^NICK yolk$"))))
    other = SmallServer()
    write(bot, [other, server], CHANNELS[side], nick="yolk")
    reloads(tally, bot, "a file with a server more")
    time.sleep(1)
    tally.note("it stays where it is", visitor.is_open and f"server {server.host} {server.port}\n" in bot.answers("status"))
    write(bot, [other], CHANNELS[side], nick="yolk")
    reloads(tally, bot, "a file without its server")
    there = comes(lambda: other.visitors and other.visitors[-1].said(r"^JOIN #egg$"), 30)
    tally.note("it goes to the other, and joins there", bool(there) and not visitor.is_open)
    named = there and comes(lambda: other.visitors[-1].said(r"^NICK yolk$"))
    tally.note("it asks for the nick there", bool(named))


def reloaded(tally, program, room, count):
    server = SmallServer()
    bot = Bot(program, room, "reloaded", [server])
    write(bot, [server], CHANNELS[1])
    try:
        visitor = server.visitor("egg") if bot.start() else None
        tally.note("a bot starts", bool(visitor) and is_on(bot, CHANNELS[1]))
        side = under_load(tally, bot, server, visitor, count)
        binds_follow(tally, bot, server, visitor, side)
        is_refused_whole(tally, bot, server, side)
        takes_keys(tally, bot, server, visitor, side)
        joins_and_leaves(tally, bot, visitor, side)
        changes_nick_and_servers(tally, bot, server, visitor, side)
        status = bot.end()[1]
        tally.note("it ends as it is told", status == 0, status)
    finally:
        end_all(bot)


class Changer(threading.Thread):
    """Asks for changes, one after another, until it is ended."""

    def __init__(self, bot):
        super().__init__(daemon=True)
        self.bot, self.version, self.ends = bot, 0, threading.Event()

    def run(self):
        while not self.ends.is_set():
            if self.bot.answers(change_after(self.version)) != f"accepted {self.version + 1}\n":
                return
            self.version += 1


def copied(tally, program, room):
    """Copies of a hub's journal while changes come."""
    secret = f"{room}/secret"
    Path(secret).write_bytes(SECRET + b"\n")
    hub = ["bot 0 of 1", f"listen 127.0.0.1 {free_port()}", f"secret {secret}"]
    bot = Bot(program, room, "copied", [SmallServer()], hub)
    try:
        tally.note("a bot starts", bot.start())
        changer, slowest = Changer(bot), 0
        changer.start()
        for number in range(COPIES):
            copy = f"{room}/copy{number}"
            began = time.monotonic()
            out = bot.answers(f"backup {copy}") or ""
            slowest = max(slowest, time.monotonic() - began)
            found = re.fullmatch(r"copied version (\d+)\n", out)
            shown = ran([program, "show", copy])
            same = found and shown == (0, records_at(int(found.group(1))), "")
            tally.note(f"copy {number}", same, out if same else f"{out} {shown}")
            time.sleep(0.3)
        tally.say(f"the slowest copy took {slowest * 1000:.0f} ms; changes so far: {changer.version}")
        changer.ends.set()
        changer.join()
        modes = {oct(os.stat(f"{room}/copy0{it}").st_mode & 0o777) for it in ("", "/journal")}
        tally.note("the copy is for its owner alone", modes == {"0o700"}, modes)
        names = sorted(os.listdir(f"{room}/copy0"))
        tally.note("it has the journal and nothing else", names == ["journal"], names)
        out = bot.answers(f"backup {room}/copy0")
        tally.note("a folder that exists", (out or "").startswith(f"refused {room}/copy0 exists already"), out)
        out = bot.answers(f"backup {room}/none/copy")
        tally.note("a folder below none", (out or "").startswith(f"refused {room}/none/copy can't be made"), out)
        out = bot.answers("backup copy")
        tally.note("a path that does not begin at the root", (out or "").startswith("fault say backup FOLDER"), out)
        end_all(bot)
        bot.move_to(f"{room}/copy1")
        _, _, said = ran([program, "run", bot.config])
        tally.note("no bot of a net starts in a copy by mistake", "bring back the file net" in said, said)
    finally:
        end_all(bot)


def large_copy(tally, program, room, users=400):
    """How long a copy takes of records whose info lines are long."""
    bot = Bot(program, room, "large", [SmallServer()])
    try:
        tally.note("a bot with many users starts", bot.start())
        for number in range(users):
            bot.answers(f"adduser u{number}")
            bot.answers(f"info u{number} {'x' * 400}")
        began = time.monotonic()
        out = bot.answers(f"backup {room}/large_copy", 60)
        took = time.monotonic() - began
        size = sum(os.path.getsize(f"{room}/large_copy/journal/{it}") for it in ("first", "second"))
        tally.note("a large journal is copied", (out or "").startswith("copied version "), out)
        tally.say(f"{size / 1e6:.1f} MB took {took * 1000:.0f} ms, in which the bot stands still")
    finally:
        end_all(bot)


def is_refused_by_name(tally, program, room):
    """A folder that is a link, or another user's."""
    bot = Bot(program, room, "own", [SmallServer()])
    try:
        tally.note("a bot starts", bot.start())
        link = f"{room}/link"
        os.symlink(bot.folder, link)
        for words in (["tell", link, "status"], ["show", link], ["tell", f"{link}/", "status"]):
            status, _, said = ran([program, *words])
            tally.note(f"{words[0]} through a link", status and "is a symbolic link" in said, said)
        end_all(bot)
        bot.move_to(link)
        status, _, said = ran([program, "run", bot.config])
        tally.note("run through a link", status and "is a symbolic link" in said, said)
        if os.getuid() == 0:
            os.chmod(room, 0o755)
            mine = f"{room}/own"
            out = subprocess.run([program, "show", mine], user=NOBODY, capture_output=True, text=True, check=False)
            tally.note("show of another user's", out.returncode and "belongs to another user" in out.stderr, out.stderr)
            out = subprocess.run([program, "tell", mine, "status"], user=NOBODY, capture_output=True, text=True, check=False)
            tally.note("tell to another user's", out.returncode and "belongs to another user" in out.stderr, out.stderr)
            os.chown(mine, NOBODY, NOBODY)
            bot.move_to(mine)
            status, _, said = ran([program, "run", bot.config])
            tally.note("run in another user's", status and "belongs to another user" in said, said)
            status, _, said = ran([program, "show", mine])
            tally.note("root may show it", status == 0, said)
    finally:
        end_all(bot)


def main():
    program = program_of(sys.argv[1:])
    count, = counts_of(sys.argv[1:], 200)
    tally = Tally()
    with tempfile.TemporaryDirectory() as room:
        reloaded(tally, program, room, count)
        copied(tally, program, room)
        large_copy(tally, program, room)
        is_refused_by_name(tally, program, room)
    return tally.end()


if __name__ == "__main__":
    sys.exit(main())
