#!/usr/bin/env python3
"""Whether the bots of a net keep a channel that strangers try to take over, and do each thing once. Beside Eggdrop.

    trials/keeping.py [PROGRAM]      ends within thirteen minutes
    apt-get install eggdrop ngircd inspircd      what isn't here is left out, with a sentence

PROGRAM is the program to try, else what EGGNET names, else ours. At ngircd and InspIRCd a hub and four leaves are op on a channel,
and an Eggdrop is op on another one. The same happens on each: three ops of the records join; an op gives a stranger op; a stranger
with op takes op from three ops, bans a bot and an op, changes modes and sets a key; twenty strangers under one recorded ban join;
a bot is left alone on a channel without op; strangers flood the channel by lines, nicks, joins and kicks; an op bans somebody for
a minute, and all bots are killed and started again in that minute. Of our net, a leaf loses op too, and the bot that acts first is
stopped. Each time the bots answer soon, and all their logs together have one MODE or KICK for each thing to do.

The twenty strangers are more than the first bot can kick in the five seconds after which the next one looks, so several bots kick
them: none sends a line twice. Where most get in, at Eggdrop's channel too, they are out as fast as from there. What else Eggdrop
does is told, and counts as nothing. So does what none of our procs promises: to take off the op that a master gave a stranger.
The last line is 'N well, M bad'; the status is 1 where any is bad.
"""
import re
import shutil
import signal
import sys
import tempfile
import threading
import time
from collections import Counter
from pathlib import Path

sys.dont_write_bytecode = True
from bots import Guest, Inspircd, Ngircd, Tally, comes, end_all, program_of
from keepers import BACK, OPS, QUIET, SOON, Ours, Theirs

CLONES = 20
TOOK = {}  # the seconds in which a side kicked the clones at a server, for each who got in
SLOWER = 1.1  # how much longer our bots may take for a kick


def deops(side):
    """Op for people of the records, and none for a stranger."""
    side.tried("three ops join", lambda: [side.on_channel(it) for it in OPS], lambda _: [f"+o {it}" for it in side.ops])
    mallory = side.on_channel("mallory")
    side.tried("an op gives a stranger op", lambda: side.person("bob").say(f"MODE {side.channel} +o {mallory.nick}"),
               lambda _: [f"-o {mallory.nick}"])
    since = len(side.chief.lines)
    side.stranger()
    side.tried("a stranger takes op from three ops", lambda: mallory.say(f"MODE {side.channel} -ooo {' '.join(side.ops)}"),
               lambda _: [f"+o {it}" for it in side.ops])
    lost = [it for it in side.seen(since) if it in (f"-o {mallory.nick}", f"KICK {mallory.nick}")]
    side.say(f"the stranger to whom a master gave op {'loses it: ' + lost[0] if lost else 'keeps it'}")


def bans(side):
    mallory, masks = side.stranger(), [f"{side.nicks[-1]}!*@*", f"*!*ann{side.end}@*"]
    side.tried("a stranger bans a bot and an op", lambda: mallory.say(f"MODE {side.channel} +bb {' '.join(masks)}"),
               lambda _: [f"-b {it}" for it in masks])


def modes(side):
    mallory = side.stranger()
    side.tried("a stranger changes three modes, and sets a key", lambda: [mallory.say(f"MODE {side.channel} {it}") for it in BACK],
               lambda _: [*BACK.values()])


def clones(side):
    """Strangers under a recorded ban join: who gets in is kicked. How many seconds each of these takes stands in TOOK, where most
    get in: if the ban is there before them, what counts is mostly the time in which they try."""
    them = [Guest(side.server, f"clone{number}{side.end}") for number in range(CLONES)]

    def join():
        for it in them:
            it.say(f"JOIN {side.channel}")
        comes(lambda: all(it.hears(r" (366|474) ", 0, 0) for it in them), 3)

    def wanted(since):
        joins = [re.match(rf":(clone\w+)!\S+ JOIN :?{side.channel}$", line) for line in side.chief.lines[since:]]
        return ["+b clone*!*@*", *[f"KICK {it[1]}" for it in joins if it]]
    try:
        before = len(side.chief.lines)
        took = side.tried(f"{CLONES} clones join", join, wanted, 60, by_each=True)
        got_in = len(wanted(before)) - 1
        side.say(f"{got_in} clones got in")
        if took is None or got_in > CLONES / 2:
            TOOK[side.server.name, side.name] = took and took / got_in
    finally:
        end_all(*them)


def floods(side):
    """Strangers flood the channel: by lines, by nicks, by joins, and one with op by kicks."""
    loud, nick = side.on_channel("loud"), f"nix{side.end}x6"
    side.tried("a stranger says 20 lines", lambda: [loud.say(f"PRIVMSG {side.channel} :line {it}") for it in range(20)],
               lambda _: [f"KICK {loud.nick}"])
    nix = side.on_channel("nix")
    side.tried("a stranger takes seven nicks", lambda: [nix.say(f"NICK {nick[:-1]}{it}") for it in range(7)], lambda _: [f"KICK {nick}"])
    hopper = side.on_channel("hopper")
    joined = next(it for it in reversed(side.chief.lines) if re.match(rf":{hopper.nick}!\S+ JOIN", it))
    address = joined.split()[0].partition("!")[2].lower()

    def hop():
        for _ in range(7):
            hopper.say(f"PART {side.channel}")
            hopper.say(f"JOIN {side.channel}")
    side.tried("a stranger joins eight times", hop, lambda _: [f"+b *!{address}", f"KICK {hopper.nick}"], by_each=True)
    mallory, them = side.stranger(), [side.on_channel(f"poor{it}") for it in range(5)]
    side.tried("a stranger with op kicks five people", lambda: [mallory.say(f"KICK {side.channel} {it.nick}") for it in them],
               lambda _: [f"KICK {mallory.nick}"])


def leaf_loses_op(side):
    mallory = side.stranger()
    side.tried("a leaf loses op", lambda: mallory.say(f"MODE {side.channel} -o egg3"), lambda _: ["+o egg3"], 15)


def first_stopped(side):
    """The bot that acts first hears nothing for a while."""
    mallory, first = side.stranger(), side.bots[0].process
    first.send_signal(signal.SIGSTOP)
    try:
        side.tried("the first bot is stopped", lambda: mallory.say(f"MODE {side.channel} -o ann"), lambda _: ["+o ann"], quiet=7)
    finally:
        mark = side.mark()
        first.send_signal(signal.SIGCONT)
    time.sleep(QUIET)
    side.say(f"once the first bot goes on, the bots send {side.sent(mark) or 'nothing'}")


def alone(side):
    """The founder of a channel leaves a bot alone there, which has no op."""
    there, nick = side.enter_alone(), side.nicks[-1]
    time.sleep(QUIET)
    side.founder.say(f"PART {side.lone}")
    began = time.monotonic()
    op = there and comes(lambda: side.founder.asks(f"NAMES {side.lone}", r" 366 ", 1) and any(
        re.search(rf" 353 .*{side.lone} :.*@{nick}\b", it) for it in side.founder.lines[-3:]), 30, 0.5)
    side.judge("a bot alone without op has it again", [] if op else ["op"], time.monotonic() - began, SOON, [], Counter())


def timed_ban(side):
    """An op bans somebody for a minute. All bots are killed, and start again."""
    side.gives_op(side.ops[0])
    began, mask = time.monotonic(), f"bad{side.end}!*@*"
    side.tried("an op bans for a minute", lambda: side.person("ann").say(f"PRIVMSG {side.channel} :!ban {mask} 1 away"),
               lambda _: [f"+b {mask}"], quiet=5)
    mark, since = side.mark(), len(side.chief.lines)
    side.restart()
    comes(lambda: f"-b {mask}" in side.seen(since), 150 - (time.monotonic() - began))
    took, lacking = time.monotonic() - began, {f"-b {mask}"} - set(side.seen(since))
    time.sleep(2)  # until it stands in the logs
    sent = [it for it in side.sent(mark) if it[1].startswith("-b")]
    side.judge("a ban of a minute ends, though all bots were killed", lacking, took, 125, sent, Counter([f"-b {mask}"]))
    if side.name == "ours":
        side.note("and it is in no bot's records", comes(lambda: not any(mask in it.show()[1] for it in side.bots)))
        lost = [f"{it.nick}: {line}" for it in side.bots for line in re.findall("server says ERROR.*", it.logged())]
        side.note("no bot loses its server", not lost, ", ".join(lost))


def tries(side):
    """Has everything happen to one side, and ends what it started."""
    own = [leaf_loses_op, first_stopped] if side.name == "ours" else []
    try:
        side.start()
        for scene in [deops, bans, modes, clones, floods, *own, alone, timed_ban]:
            scene(side)
    except (OSError, RuntimeError) as error:
        side.tally.note(f"{side.server.name}: {side.name}", False, repr(error))
    finally:
        end_all(*side.people.values(), *side.bots)


def main(words):
    tally, program, servers, sides = Tally(), program_of(words), [], []
    tally.say(program)
    with tempfile.TemporaryDirectory(prefix="keeping-") as room:
        Path(room).chmod(0o755)
        for kind in (Ngircd, Inspircd):
            if not kind.is_there:
                tally.say(f"{kind.name} isn't here")
                continue
            place = Path(room, kind.name)
            place.mkdir()
            server = kind(str(place))
            servers.append(server)
            tally.note(f"{kind.name} starts", server.start())
            sides.append(Ours(tally, server, program, str(place)))
            if shutil.which("eggdrop"):
                sides.append(Theirs(tally, server, str(place)))
        threads = [threading.Thread(target=tries, args=(it,)) for it in sides]
        for it in threads:
            it.start()
        for it in threads:
            it.join()
        for it in servers:
            names = [(it.name, side) for side in ("ours", "Eggdrop")]
            ours, theirs = map(TOOK.get, names)
            if theirs and names[0] in TOOK:
                shown = " and ".join("never" if took is None else f"{took:.2f} s" for took in (ours, theirs))
                tally.note(f"{it.name}: the clones are out as fast as Eggdrop's", bool(ours) and ours <= theirs * SLOWER, f"{shown} for each")
            elif shutil.which("eggdrop"):
                tally.say(f"{it.name}: the kicks don't compare: too few clones got in, or Eggdrop left some there")
        end_all(*servers)
    return tally.end()


if __name__ == "__main__":
    sys.exit(main(sys.argv[1:]))
