#!/usr/bin/env python3
"""What a person on IRC is told about the changes that they ask for, and in which order.

    trials/outcomes.py [PROGRAM]      ends within a minute

PROGRAM is the program to try, else what EGGNET names, else ours. An owner asks for changes at a hub and at its leaf, which sit
at `eggnet serve`. The hub says the outcome, and nothing before or after it. The leaf says first that the change is queued, also
while its hub is down, and then the outcome. A refusal that the bot knows at once is a sentence with its code, and a loose
hostmask leads to a warning. The last line is 'N well, M bad'; the status is 1 where any is bad.
"""
import re
import sys
import tempfile
import time

sys.dont_write_bytecode = True
from bots import Guest, Ours, Tally, comes, end_all, program_of
from nets import Net, version_of

QUEUED, ACCEPTED = r"queued: the hub has not answered yet", r"accepted under number \d+"
NONE, LOOSE = r"there is no such user \(U3\)", r"warning: .*"


def told(ann, nick, line, seconds=4):
    """The words of all NOTICEs with which a bot answers a line within so many seconds."""
    since = len(ann.lines)
    ann.say(f"PRIVMSG {nick} :{line}")
    time.sleep(seconds)
    found = (re.match(rf":{nick}!\S+ NOTICE ann :(.*)", it) for it in ann.lines[since:])
    return [it.group(1) for it in found if it]


def says(tally, what, heard, *wanted):
    holds = len(heard) == len(wanted) and all(re.fullmatch(one, other) for one, other in zip(wanted, heard))
    tally.note(what, holds, heard)


def main():
    tally, program = Tally(), program_of(sys.argv[1:])
    with tempfile.TemporaryDirectory() as room:
        server = Ours(room, program)
        net, ann = None, None
        try:
            tally.note("the server starts", server.start())
            net = Net(program, room, server, 1)
            hub, leaf = net.bots
            for bot in net.bots:
                with open(bot.config, "a", encoding="utf-8") as config:
                    config.write("bind msg - -user -user\nbind msg - +host +host\n")
            ann = Guest(server, "ann")
            ann.say("JOIN #egg")
            tally.note("hub and leaf start", hub.start() and leaf.start())
            for line in ("adduser ann", "addhost ann *!*ann@*", "global ann n"):
                hub.answers(line)
            tally.note("the leaf knows the owner", comes(lambda: version_of(leaf.answers("show")) == 3, 60))
            tally.note("both are on the server", all(ann.hears(rf"^:egg{it}!\S+ JOIN ", 0, 60) for it in (0, 1)))
            says(tally, "a change at the hub", told(ann, "egg0", "+user bob"), ACCEPTED)
            says(tally, "a change at the leaf", told(ann, "egg1", "+user carol"), QUEUED, ACCEPTED)
            says(tally, "an unknown user, at the leaf", told(ann, "egg1", "-user nobody"), NONE)
            says(tally, "a loose hostmask, at the hub", sorted(told(ann, "egg0", "+host bob *!*bob@*")), ACCEPTED, LOOSE)
            hub.kill()
            says(tally, "a change at the leaf while the hub is down", told(ann, "egg1", "+user dave"), QUEUED)
            since = len(ann.lines)
            tally.note("the hub starts again", hub.start())
            tally.note("then the leaf says the outcome", ann.hears(rf"^:egg1!\S+ NOTICE ann :{ACCEPTED}$", since, 60))
        finally:
            end_all(*(it for it in (ann,) if it), *(net.bots if net else ()), *(net.doors if net else ()), server)
    return tally.end()


if __name__ == "__main__":
    sys.exit(main())
