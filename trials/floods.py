#!/usr/bin/env python3
"""Who floods a bot is ignored, and nobody waits for him.

    trials/floods.py [PROGRAM]      ends within two minutes

PROGRAM is the program to try, else what EGGNET names, else ours. At ngircd, or else at `eggnet serve`, a stranger sends 200 lines to
a bot and 200 to its channel, as fast as he can. The owner's line after that is answered within four seconds. The stranger is
ignored, the log and `status` say so, and `unignore` ends it. The owner sends as many lines, and is never ignored.
The last line is 'N well, M bad'; the status is 1 where any is bad.
"""
import json
import re
import sys
import tempfile
import time

sys.dont_write_bytecode = True
from bots import Bot, Guest, Ngircd, Ours, Tally, comes, end_all, program_of

LINES = 200
SOON = 4  # seconds
CONFIG = ["channel #egg", "bind pub - echo !echo", "bind msg - echo echo", "flood-chan 4:60", "ignore-time 5"]


def waited(guest, word, seconds=10):
    """The seconds until the answer to a line on the channel, or None if it doesn't come."""
    began, since = time.monotonic(), len(guest.lines)
    guest.say(f"PRIVMSG #egg :!echo {word}")
    answer = guest.hears(rf" PRIVMSG #egg :?{word}$", since, seconds)
    return time.monotonic() - began if answer else None


def ignored(bot):
    """The keys that `status` shows as ignored."""
    return re.findall(r"^0? ?ignored (\S+) for \d+$", bot.answers("status") or "", re.M)


def is_ignored(tally, bot, nick):
    keys = ignored(bot)
    tally.note("status shows the stranger alone", len(keys) == 1 and nick in keys[0], str(keys))
    shown = json.loads(bot.answers("status json"))["ignored"]
    tally.note("and so does status json", [it["key"] for it in shown] == keys and 0 < shown[0]["seconds"] <= 300, str(shown))
    tally.note("the log says it once", len(re.findall(r" ignores \S+ for 300 s: more than \d+ (?:messages|lines) in 60 s$", bot.logged(), re.M)) == 1)
    return keys[0] if keys else "nobody@nowhere"


def floods(tally, bot, bob, ann, target, line):
    """The stranger sends many lines, and the owner one."""
    for number in range(LINES):
        bob.say(f"PRIVMSG {target} :{line} flood{number}")
    time.sleep(0.5)
    took = waited(ann, f"after-{target.strip('#')}", 60)
    tally.note(f"after {LINES} lines to {target} the owner is answered within {SOON} s", took is not None and took <= SOON, f"{took} s")


def forgiven(tally, bot, bob, key):
    tally.note("who is ignored gets no answer", waited(bob, "unheard", 3) is None)
    tally.note("unignore of another key says so", "refused nobody" in (bot.answers("unignore nobody@nowhere") or ""))
    tally.note("unignore ends an ignore", bot.answers(f"unignore {key}") == "no longer ignored\n")
    tally.note("and status shows nobody", ignored(bot) == [])
    tally.note("then the answer comes", waited(bob, "heard-again") is not None)


def owner_floods(tally, bot, ann):
    for number in range(40):
        ann.say(f"PRIVMSG #egg :line {number}")
        ann.say(f"PRIVMSG {bot.nick} :line {number}")
    time.sleep(1)
    tally.note("the owner is never ignored", ignored(bot) == [], str(ignored(bot)))
    tally.note("and is still answered", waited(ann, "owner") is not None)


def tried(tally, program, room, server):
    bot = Bot(program, room, "bot", [server], CONFIG)
    guests = []
    try:
        tally.note(f"{server.name} and the bot start", server.start() and bot.start(), bot.logged()[-200:])
        for line in ("adduser ann", "addhost ann *!*ann@*", "global ann n"):
            bot.answers(line)
        ann, bob = Guest(server, "ann"), Guest(server, "bob")
        guests += [ann, bob]
        for guest in guests:
            guest.asks("JOIN #egg", r" 366 ")
        comes(lambda: "channel #egg on" in (bot.answers("status") or ""), 30)
        time.sleep(8)  # the pace has room again
        floods(tally, bot, bob, ann, bot.nick, "echo")
        forgiven(tally, bot, bob, is_ignored(tally, bot, "bob"))
        time.sleep(12)
        floods(tally, bot, bob, ann, "#egg", "!echo")
        tally.note("the stranger is ignored again", len(ignored(bot)) == 1)
        owner = [key for key in ignored(bot)]
        bot.answers(f"unignore {owner[0]}" if owner else "status")
        owner_floods(tally, bot, ann)
        tally.note("the bot is still there", bot.process.poll() is None)
    finally:
        end_all(bot, server, *guests)


def main(words):
    tally, program = Tally(), program_of(words)
    with tempfile.TemporaryDirectory(prefix="floods-") as room:
        tried(tally, program, room, Ngircd(room) if Ngircd.is_there else Ours(room, program))
    return tally.end()


if __name__ == "__main__":
    sys.exit(main(sys.argv[1:]))
