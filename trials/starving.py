#!/usr/bin/env python3
"""Whether somebody can starve a bot: what others say holds up nobody's answers for long. Beside Eggdrop.

    trials/starving.py [PROGRAM]      ends within fifteen minutes
    apt-get install eggdrop ngircd inspircd

PROGRAM is the program to try, else what EGGNET names, else ours. At ngircd and InspIRCd our bot and an Eggdrop are op, each on two
channels of its own. Somebody with voice alone says `!voice` a hundred times on the first channel, a stranger sends the bot two
hundred messages, and sixty strangers under one recorded ban join. Each time an op's KICK on the second channel comes within four
seconds after the flood, and no mask is banned twice. Eighteen people ask for voice at once: the lines that wait go together, and
each has it within ten seconds. At the small server a PING comes in the middle of such a flood: the bot
answers at once. Eggdrop's times are told, and count as nothing, except that our bot kicks the strangers no slower.
The last line is 'N well, M bad'; the status is 1 where any is bad.
"""
import re
import shutil
import sys
import tempfile
import time
from pathlib import Path

sys.dont_write_bytecode = True
sys.path.insert(0, str(Path(__file__).resolve().parent.parent / "benchmarks"))
from bots import Bot, Guest, Inspircd, Ngircd, Tally, comes, end_all, program_of
from eggdrops import Eggdrop
from small_server import NAME, SmallServer

VOICES, MESSAGES, CLONES, CROWD = 100, 200, 60, 18
SOON = 4  # seconds until an op's KICK
SLOWER = 1.1  # how much longer our bot may take for a kick
AT_ONCE = 2.5  # seconds until a PONG: the pace lets one line go in two
ROOM = 12  # seconds in which a bot's pace has its room again
CLONES_TAKE = 200  # seconds for all kicks
TOGETHER = 10  # seconds for the voice of all, where one by one would take 26

RECORDS = [["adduser", "ann"], ["addhost", "ann", "ann!*@*"], ["chan", "ann", "{one}", "v"], ["adduser", "crowd"], ["addhost", "crowd", "crowd*!*@*"], ["chan", "crowd", "{one}", "v"],
           ["adduser", "bob"], ["addhost", "bob", "bob!*@*"],
           ["chan", "bob", "{two}", "o"], ["addban", "{one}", "clone*!*@*", "bob", "0", "a clone"]]
BINDS = ["bind pub - voice !voice", "bind pub - kick !kick", "bind msg - seen !seen"]

# Its limits of floods, and its wait before a line, are those that it has by itself.
DROP = """
set msg-rate 2
proc voice {{nick address handle channel text}} {{pushmode $channel +v $nick; return 1}}
proc out {{nick address handle channel text}} {{putkick $channel [lindex [split $text] 0] out; return 1}}
proc where {{nick address handle text}} {{puthelp "NOTICE $nick :I don't know."; return 1}}
bind pub v|v !voice voice
bind pub o|o !kick out
bind msg - !seen where
proc known {{args}} {{
  adduser ann ann!*@*
  adduser bob bob!*@*
  adduser crowd crowd*!*@*
  chattr ann |+v {one}
  chattr crowd |+v {one}
  chattr bob |+o {two}
  newchanban {one} clone*!*@* bob clone
}}
bind evnt - loaded known
"""


class Ours:
    """Our bot, on two channels."""

    name, nick, one, two = "ours", "egg", "#egg", "#egg2"

    def __init__(self, program, room, server):
        lines = [f"channel {self.one}", f"channel {self.two}", *BINDS, "flood-msg 5:60"]
        self.bot = Bot(program, room, f"egg-{server.port}", [server], lines)

    def start(self):
        return self.bot.start() and all(self.bot.tell(*[it.format(one=self.one, two=self.two) for it in words])[0] == 0
                                        for words in RECORDS)

    def end(self):
        end_all(self.bot)


class Theirs:
    """An Eggdrop, on two channels."""

    name, nick, one, two = "Eggdrop", "drop", "#drop", "#drop2"

    def __init__(self, room, server):
        text = DROP.format(one=self.one, two=self.two)
        if server.password:
            text += f"\nset servers {{127.0.0.1:{server.port}:guest}}\n"
        self.bot = Eggdrop(room, f"drop-{server.port}", server, [self.one, self.two], text)

    def start(self):
        self.bot.begin()
        return True

    def end(self):
        end_all(self.bot)


def waits_for_kick(chief, bob, bot, nick):
    """The seconds until an op's KICK has come, or None."""
    since, began = len(chief.lines), time.monotonic()
    bob.say(f"PRIVMSG {bot.two} :!kick {nick}")
    came = chief.hears(rf"^:{bot.nick}!\S+ KICK {bot.two} {nick}\b", since, 60)
    return time.monotonic() - began if came else None


def kicks_soon(tally, chief, bob, server, bot, what):
    """Has an op have somebody kicked, after a flood."""
    victim = Guest(server, "eve")
    try:
        victim.asks(f"JOIN {bot.two}", r" 366 ")
        took = waits_for_kick(chief, bob, bot, "eve")
        told = "never" if took is None else f"{took:.1f} s later"
        if bot.name == "ours":
            tally.note(f"{server.name}: {what}: an op's KICK comes within {SOON} s", took is not None and took <= SOON, told)
        else:
            tally.say(f"{server.name}: {what}: Eggdrop's KICK comes {told}")
    finally:
        victim.leave()


def voices(tally, chief, bob, server, bot):
    ann = Guest(server, "ann")
    try:
        ann.asks(f"JOIN {bot.one}", r" 366 ")
        since = len(chief.lines)
        for _ in range(VOICES):
            ann.say(f"PRIVMSG {bot.one} :!voice ann")
            time.sleep(0.01)
        kicks_soon(tally, chief, bob, server, bot, f"{VOICES} times !voice")
        time.sleep(ROOM)
        gave = [it for it in chief.lines[since:] if re.search(rf"^:{bot.nick}!\S+ MODE {bot.one} \+v+ ", it)]
        tally.say(f"{server.name}: {bot.name} gave voice {len(gave)} times")
    finally:
        ann.leave()


def crowd(tally, chief, bob, server, bot):
    """Has many people ask for voice at once."""
    them = [Guest(server, f"crowd{number}") for number in range(CROWD)]
    try:
        for it in them:
            it.asks(f"JOIN {bot.one}", r" 366 ")
        since, began = len(chief.lines), time.monotonic()
        for it in them:
            it.say(f"PRIVMSG {bot.one} :!voice")

        def given():
            return [it for it in chief.lines[since:] if re.match(rf":{bot.nick}!\S+ MODE {bot.one} \+v+ ", it)]
        voiced = lambda: {word for it in given() for word in it.split()[4:] if word.lstrip(":").startswith("crowd")}
        came = comes(lambda: len(voiced()) == CROWD, 60)
        took = time.monotonic() - began
        told = f"{len(voiced())} within {took:.1f} s, by {len(given())} lines"
        if bot.name == "ours":
            tally.note(f"{server.name}: {CROWD} people who ask at once get voice within {TOGETHER} s", came and took <= TOGETHER, told)
        else:
            tally.say(f"{server.name}: {CROWD} people who ask at once: Eggdrop gives voice to {told}")
    finally:
        for it in them:
            it.leave()


def messages(tally, chief, bob, server, bot):
    mallory = Guest(server, "mallory")
    try:
        for number in range(MESSAGES):
            mallory.say(f"PRIVMSG {bot.nick} :!seen nobody{number}")
            time.sleep(0.005)
        kicks_soon(tally, chief, bob, server, bot, f"{MESSAGES} messages of a stranger")
    finally:
        mallory.leave()


def clones(tally, chief, server, bot):
    """The seconds for each stranger who got in until all are out again, and how many lines ban their mask."""
    them = [Guest(server, f"clone{number}") for number in range(CLONES)]
    try:
        since, began = len(chief.lines), time.monotonic()
        for it in them:
            it.say(f"JOIN {bot.one}")

        def heard(pattern):
            return [it for it in chief.lines[since:] if re.search(pattern, it)]
        time.sleep(1)
        entered = len(heard(rf"^:clone\d+!\S+ JOIN :?{bot.one}$"))
        out = comes(lambda: len(heard(rf"^:{bot.nick}!\S+ KICK {bot.one} clone\d+")) >= entered, CLONES_TAKE)
        took = time.monotonic() - began
        bans = heard(rf"^:{bot.nick}!\S+ MODE {bot.one} \+b+ ")
        tally.say(f"{server.name}: {bot.name}: {entered} clones got in, and all are out after {took:.0f} s; {len(bans)} lines MODE +b")
        return took / max(entered, 1) if out else None, len(bans)
    finally:
        for it in them:
            it.leave()


def tried(tally, program, room, server):
    if not server.start():
        tally.note(f"{server.name} starts", False)
        return
    bots, people = [Ours(program, room, server), Theirs(room, server)], []
    try:
        chief, bob = Guest(server, "chief"), Guest(server, "bob")
        people += [chief, bob]
        for bot in bots:
            for channel in (bot.one, bot.two):
                chief.asks(f"JOIN {channel}", r" 366 ")
            bob.asks(f"JOIN {bot.two}", r" 366 ")
            tally.note(f"{server.name}: {bot.name} starts", bot.start())
        for bot in bots:
            for channel in (bot.one, bot.two):
                tally.note(f"{server.name}: {bot.name} is on {channel}", bool(chief.hears(rf"^:{bot.nick}!\S+ JOIN :?{channel}$", 0, 90)))
                chief.say(f"MODE {channel} +o {bot.nick}")
        time.sleep(ROOM)
        for scene in (crowd, voices, messages):
            for bot in bots:
                scene(tally, chief, bob, server, bot)
                time.sleep(ROOM)
        (ours, bans), (theirs, _) = [clones(tally, chief, server, bot) for bot in bots]
        tally.note(f"{server.name}: one MODE +b for the mask", bans == 1, bans)
        tally.note(f"{server.name}: the clones are out as fast as Eggdrop's", ours is not None and (theirs is None or ours <= SLOWER * theirs),
                   f"{ours} and {theirs} s for each")
    finally:
        for it in people:
            it.leave()
        for bot in bots:
            bot.end()
        end_all(server)


def answers_pings(tally, program, room):
    """Has the small server ask for a PONG while many lines wait."""
    server = SmallServer()
    bot = Bot(program, room, "egg-small", [server], ["channel #egg", "bind pub - voice !voice", "bind msg - echo !echo"])
    try:
        tally.note("small server: the bot starts", bot.start())
        visitor = server.visitor("egg")
        comes(lambda: visitor.said(r"^JOIN #egg"))
        for number in range(MESSAGES):
            visitor.say(f":mallory{number}!mallory@host{number}.trial PRIVMSG egg :!echo word{number}")
        time.sleep(0.5)
        took = visitor.asks(f"PING :{NAME}", r"^PONG ", 30)
        tally.note(f"small server: a PONG comes within {AT_ONCE} s in the middle of {MESSAGES} messages", took is not None and took <= AT_ONCE, took)
    finally:
        end_all(bot, server)


def main(words):
    tally, program = Tally(), program_of(words)
    tally.say(program)
    with tempfile.TemporaryDirectory(prefix="starving-") as room:
        Path(room).chmod(0o755)
        answers_pings(tally, program, room)
        if not shutil.which("eggdrop"):
            tally.say("Eggdrop isn't here")
            return tally.end() or 1
        for server in (Ngircd(room), Inspircd(room)):
            if server.is_there:
                tried(tally, program, room, server)
            else:
                tally.say(f"{server.name} isn't here")
    return tally.end()


if __name__ == "__main__":
    sys.exit(main(sys.argv[1:]))
