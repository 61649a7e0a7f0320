#!/usr/bin/env python3
"""Has five bots of a net sit in one channel, and counts how many of them act.

    trials/one_acts.py [PROGRAM]      ends within three minutes

PROGRAM is the program to try, else what EGGNET names, else ours. A hub and four leaves are op on a channel of `eggnet serve`,
and the records know each by the flag b. People with the flag a and an info line join: one bot gives op to each, and one greets.
Then the first bot is stopped, so that it hears nothing: the second one gives op within ten seconds, and nobody greets.
The last line is 'N well, M bad'; the status is 1 where any is bad.
"""
import re
import signal
import sys
import tempfile
import time
from pathlib import Path

sys.dont_write_bytecode = True
from bots import Guest, Ours, Tally, comes, end_all, program_of
from nets import Net, version_of

LEAVES = 4
BINDS = ["bind join - autoop *", "bind join - greet *", "bind join - opall *", "bind mode - opall *"]
QUIET = 8  # seconds in which a second bot would act


def heard(guest, since, pattern):
    """The lines since a place that have this pattern."""
    return [line for line in guest.lines[since:] if re.search(pattern, line)]


def records(net):
    """Tells the hub of the bots and of two people. Whether all bots know them."""
    hub = net.bots[0]
    said = [["adduser", it.nick] for it in net.bots] + [["addhost", it.nick, f"{it.nick}!*@*"] for it in net.bots]
    said += [["global", it.nick, "b"] for it in net.bots]
    for name in ("ann", "bob"):
        said += [["adduser", name], ["addhost", name, f"{name}!*@*"], ["global", name, "a"], ["info", name, f"hello from {name}"]]
    told = [hub.tell(*words) for words in said]
    last = f"accepted {len(said)}"
    return last in told[-1][1] and bool(comes(lambda: all(version_of(it.show()[1]) == len(said) for it in net.bots), 20))


def joins(tally, chief, server, name, what, actor, slowest):
    """Has somebody join, and counts the acts."""
    since, began = len(chief.lines), time.monotonic()
    person = Guest(server, name)
    person.say("JOIN #egg")
    given = comes(lambda: heard(chief, since, rf"MODE #egg \+o {name}\b"), slowest)
    took = time.monotonic() - began
    time.sleep(QUIET)
    gave = heard(chief, since, rf"MODE #egg \+o {name}\b")
    tally.note(f"{what}: one bot gives op, {actor}", bool(given) and len(gave) == 1 and gave[0].startswith(f":{actor}!"), f"{took:.1f} s {gave}")
    return person, heard(chief, since, rf"PRIVMSG #egg :.*hello from {name}")


def tried(tally, server, net):
    chief = Guest(server, "chief")
    people = [chief]
    try:
        tally.note("chief is op", chief.asks("JOIN #egg", r" 366 ") is not None)
        for bot in net.bots:
            with open(bot.config, "a", encoding="utf-8") as config:
                config.write("\n".join(BINDS) + "\n")
        tally.note("the bots start", all([it.start() for it in net.bots]), net.bots[0].logged()[-200:])
        on = comes(lambda: all(heard(chief, 0, rf"^:{it.nick}!\S+ JOIN") for it in net.bots), 60)
        tally.note("all are on the channel", bool(on))
        tally.note("all know the records", records(net))
        for bot in net.bots:
            chief.say(f"MODE #egg +o {bot.nick}")
        time.sleep(3)
        ann, greetings = joins(tally, chief, server, "ann", "ann joins", "egg0", 10)
        people.append(ann)
        tally.note("one bot greets her", len(greetings) == 1, str(greetings))
        net.bots[0].process.send_signal(signal.SIGSTOP)
        bob, greetings = joins(tally, chief, server, "bob", "bob joins while egg0 hears nothing", "egg1", 10)
        people.append(bob)
        tally.note("nobody greets him later", not greetings, str(greetings))
        net.bots[0].process.send_signal(signal.SIGCONT)
    finally:
        end_all(*people)


def main(words):
    tally, program = Tally(), program_of(words)
    with tempfile.TemporaryDirectory(prefix="one-acts-") as room:
        server = Ours(room, program)
        tally.note("eggnet serve starts", server.start())
        net = Net(program, room, server, LEAVES)
        try:
            tried(tally, server, net)
        finally:
            end_all(*net.bots, server)
    return tally.end()


if __name__ == "__main__":
    sys.exit(main(sys.argv[1:]))
