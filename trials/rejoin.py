#!/usr/bin/env python3
"""Runs bots at servers that refuse their JOINs, take them off their channels, or have given their nick to somebody else.

    trials/rejoin.py [PROGRAM]      ends within six minutes
    apt-get install ngircd inspircd     without one of these its steps are left out, with a sentence

PROGRAM is the program to try, else what EGGNET names, else ours. A small server refuses channels twice, by 403, 405, 437, 475,
477, 480, 489 and 520, takes the bot off one by a PART in its name and off another by a KICK, twice each, sends it on from one,
and does not answer the first two JOINs of another. The bot asks for each of them again within 70 seconds, each time; it waits
longer after each refusal, PART and KICK; and at last it is on all of them. It keeps to the pace of RFC 1459: a line in two
seconds, and some in advance. While it has its nick it sends no ISON and no NICK.

At ngircd and at InspIRCd somebody has the nick of a bot and leaves, at a channel of the bot or elsewhere: the bot takes its
nick back, and at InspIRCd, which has MONITOR, at once. At InspIRCd an operator takes the bot off its channels by SAPART and
REMOVE, and a channel is for the registered alone for a while (477) or for operators alone (520): the bot is back each time. One
is for the invited alone (473): once the bot waits long, twenty invitations have it join once, within six seconds. A bot whose
nick InspIRCd takes from nobody (432) is not asked for each minute.
The last line is 'N well, M bad'; the status is 1 where any is bad.
"""
import os
import re
import sys
import tempfile
import threading
import time

sys.dont_write_bytecode = True
from bots import Bot, Guest, Inspircd, Ngircd, Tally, comes, end_all, program_of
from small_server import NAME, SmallServer

REFUSED = {"#none": (403, "No such channel"), "#many": (405, "You have joined too many channels"),
           "#held": (437, "Nick/channel is temporarily unavailable"), "#keyed": (475, "Cannot join channel (+k)"),
           "#members": (477, "You need to be registered to join that channel"), "#often": (480, "Cannot join channel (+j)"),
           "#sealed": (489, "Cannot join channel; TLS users only (+z)"), "#opers": (520, "Only server operators may join")}
# The channels of a bot: few enough that the pace does not hide how long it waits.
FIRST = ["#many", "#held", "#members", "#parted", "#kicked", "#unanswered"]
SECOND = ["#none", "#keyed", "#often", "#sealed", "#opers", "#moved"]
LONGER = [*REFUSED, "#parted", "#kicked"]  # the bot waits longer the second time
NAMES = {"#parted": "a PART in its name", "#kicked": "a KICK", "#unanswered": "no answer to a JOIN", "#moved": "470"}
TIMES = 2  # each is refused, and the bot is taken off, so often
LONG = 5  # after so many refusals the bot waits for 32 seconds
INVITATIONS = 20
SOON = 70  # seconds
IN_ADVANCE = 12  # lines
REST = 8  # seconds before the welcome, so that the lines of a registration no longer count for the pace


class Refusing(SmallServer):
    """Lets the bot onto a channel for good at the third JOIN."""

    def __init__(self):
        super().__init__()
        self.joins = {}

    def answer(self, visitor, line):
        if line.startswith("USER "):
            time.sleep(REST)
        super().answer(visitor, line)

    def join(self, visitor, channel):
        joins = self.joins.setdefault(channel, [])
        joins.append(time.monotonic())
        is_last, nick = len(joins) > TIMES, visitor.nick
        if channel in REFUSED and not is_last:
            code, text = REFUSED[channel]
            visitor.say(f":{NAME} {code} {nick} {channel} :{text}")
        elif channel == "#unanswered" and not is_last:
            return
        elif channel == "#moved" and not is_last:
            visitor.say(f":{NAME} 470 {nick} {channel} ##moved :Forwarding to another channel")
            super().join(visitor, "##moved")
        else:
            super().join(visitor, channel)
        if channel == "#parted" and not is_last:
            visitor.say(f":{nick}!{nick}@host.trial PART {channel}")
        elif channel == "#kicked" and not is_last:
            visitor.say(f":ann!ann@host.trial KICK {channel} {nick} :out")


def rests(tally, server, channel):
    """The seconds between the JOINs of a channel."""
    what = str(REFUSED[channel][0]) if channel in REFUSED else NAMES[channel]
    joins = server.joins.get(channel, [])
    gaps = [after - before for before, after in zip(joins, joins[1:])]
    seen = ", ".join(f"{it:.1f}" for it in gaps) + " s later"
    tally.note(f"{what}: it asks again, each time within {SOON} s", len(gaps) == TIMES and max(gaps) <= SOON, seen)
    if channel in LONGER:
        tally.note(f"{what}: it waits longer the second time", len(gaps) == TIMES and gaps[1] > gaps[0] + 0.5, seen)


def is_paced(lines):
    """Whether no lines come faster than one in two seconds, but for some in advance."""
    times = [when for when, _ in lines]
    return all(later - place <= (times[later] - times[place]) / 2 + IN_ADVANCE
               for place in range(len(times)) for later in range(place, len(times)))


def tried(tally, program, room, channels):
    server = Refusing()
    bot = Bot(program, room, f"egg{channels[0][1:]}", [server], [f"channel {it}" for it in channels], nick="egg")
    try:
        tally.note("the bot starts", bot.start(), bot.logged()[-300:])
        visitor = server.visitor("egg")
        tally.note("it asks for each channel", visitor and bool(comes(lambda: all(it in server.joins for it in channels))))
        for count in range(2, TIMES + 2):
            comes(lambda count=count: all(len(server.joins[it]) >= count for it in channels), SOON + 3)
        for channel in channels:
            rests(tally, server, channel)
        comes(lambda: (bot.answers("status") or "").count(" on\n") == len(channels), 3)
        off = re.findall(r"^channel (\S+) off$", bot.answers("status") or "", re.M)
        tally.note("it is on all of them", not off, off)
        time.sleep(3)
        more = {channel: len(it) for channel, it in server.joins.items() if len(it) > TIMES + 1}
        tally.note("where it is, it does not ask again", not more, more)
        tally.note("it keeps to the pace", is_paced(visitor.lines), f"{len(visitor.lines)} lines")
        if "#moved" in channels:
            tally.note("its log names both channels of a 470", "sent on from #moved to ##moved" in bot.logged())
        nicks = [line for _, line in visitor.lines if line.startswith(("ISON", "NICK"))]
        tally.note("it sends one NICK and no ISON while it has its nick", nicks == ["NICK egg"], nicks)
    finally:
        end_all(bot, server)


class Modules(Inspircd):
    """InspIRCd with what takes others off channels, keeps all but the registered or operators off, and takes no nick `badegg`."""

    def words(self):
        words = super().words()
        with open(f"{self.room}/inspircd.conf", "a", encoding="utf-8") as conf:
            conf.write("""
<module name="sapart"><module name="remove"><module name="services_account"><module name="operchans"><module name="monitor">
<class name="all" commands="*" privs="*" usermodes="*" chanmodes="*">
<type name="boss" classes="all">
<oper name="boss" password="boss" host="*@*" type="boss">
<badnick nick="badegg" reason="reserved">
""")
        return words


class Trial:
    """Bots at one real server."""

    def __init__(self, tally, program, room, server):
        self.tally, self.program, self.room, self.server, self.running = tally, program, room, server, []

    def note(self, what, holds, seen=""):
        self.tally.note(f"{self.server.name}: {what}", holds, seen)

    def guest(self, nick):
        guest = Guest(self.server, nick)
        self.running.append(guest)
        return guest

    def bot(self, nick, channels):
        bot = Bot(self.program, self.room, nick, [self.server], [f"channel {it}" for it in channels], nick=nick)
        self.running.append(bot)
        bot.start()
        return bot

    def tries(self):
        try:
            self.note("it starts", self.server.start())
            acts = [self.nick_back_elsewhere, self.nick_back_at_a_channel]
            if isinstance(self.server, Modules):
                acts += [self.taken_off, self.kept_off, self.invited, self.nick_of_nobody]
            threads = [threading.Thread(target=self.one, args=(it,)) for it in acts]
            for it in threads:
                it.start()
            for it in threads:
                it.join()
        finally:
            end_all(*self.running, self.server)

    def one(self, act):
        try:
            act()
        except OSError as error:
            self.note(act.__name__, False, repr(error))

    def has(self, bot, nick, seconds=SOON):
        """How many seconds pass until the bot has a nick; none where it does not in time."""
        began = time.monotonic()
        found = comes(lambda: re.findall(r"(?:welcome as|nick is) (\S+)", bot.logged())[-1:] == [nick], seconds)
        return f"{time.monotonic() - began:.0f} s later" if found else None

    def nick_back_elsewhere(self):
        """Somebody whom the bot does not see has its nick."""
        ghost = self.guest("egg")
        bot = self.bot("egg", ["#eggs"])
        self.note("somebody has its nick, so the bot takes another", self.has(bot, "egg_"), bot.logged()[-200:])
        time.sleep(65)  # it has asked once
        self.note("while somebody has the nick, it does not ask for it", " 433 " not in bot.logged().partition("welcome as")[2])
        ghost.leave()
        took = self.has(bot, "egg", 3 if isinstance(self.server, Modules) else SOON)
        self.note("the nick is free, and the bot takes it back", took, took or bot.logged()[-300:])

    def nick_back_at_a_channel(self):
        """Somebody with the nick quits a channel of the bot."""
        ghost = self.guest("hen")
        ghost.asks("JOIN #hens", "366")
        bot = self.bot("hen", ["#hens"])
        self.note("somebody on its channel has its nick", self.has(bot, "hen_") and ghost.hears(":hen_!.* JOIN"))
        ghost.say("QUIT :bye")
        took = self.has(bot, "hen", 10)
        self.note("the bot hears that he quits, and takes it back at once", took, took or bot.logged()[-300:])

    def back(self, watcher, nick, channel, what, line):
        """The bot is back on a channel after a line that takes it off."""
        since = len(watcher.lines)
        watcher.say(line)
        gone = watcher.hears(rf"(PART|KICK) {channel}", since)
        began = time.monotonic()
        back = watcher.hears(rf"^:{nick}!\S+ JOIN :?{channel}", since, 20)
        self.note(f"{what} takes it off, and it is back", gone and back, f"{gone}; {time.monotonic() - began:.0f} s later")

    def taken_off(self):
        boss = self.guest("boss")
        boss.asks("OPER boss boss", " 381 ")
        boss.asks("JOIN #off", "366")
        bot = self.bot("duck", ["#off"])
        self.note("it comes", boss.hears("^:duck!.* JOIN"), bot.logged()[-200:])
        for what, line in (("SAPART", "SAPART duck #off :out"), ("REMOVE", "REMOVE #off duck :out"), ("KICK", "KICK #off duck :out")):
            self.back(boss, "duck", "#off", what, line)

    def kept_off(self):
        owner, closed = self.guest("owner"), {"#registered": "R", "#opers": "O"}
        owner.asks("OPER boss boss", " 381 ")
        for channel, mode in closed.items():
            owner.asks(f"JOIN {channel}", "366")
            owner.asks(f"MODE {channel} +{mode}", f"MODE {channel} ")
        bot = self.bot("goose", [*closed])
        refused = comes(lambda: all(f"not let onto {it}" in bot.logged() for it in closed))
        self.note("477 and 520 keep it off", refused, re.findall("not let onto .*|server says .*|on #.*", bot.logged()))
        for channel, mode in closed.items():
            since = len(owner.lines)
            owner.say(f"MODE {channel} -{mode}")
            began = time.monotonic()
            back = owner.hears(rf"^:goose!\S+ JOIN :?{channel}", since, 40)
            self.note(f"{channel} is open again, and it comes", back, f"{time.monotonic() - began:.0f} s later")

    def invited(self):
        owner = self.guest("host")
        owner.asks("JOIN #closed", "366")
        owner.asks("MODE #closed +i", "MODE #closed ")
        bot = self.bot("swan", ["#closed"])
        refused = comes(lambda: bot.logged().count("not let onto #closed") >= LONG, SOON)
        self.note("473 keeps it off", refused, bot.logged()[-300:])
        since, began = len(owner.lines), time.monotonic()
        for _ in range(INVITATIONS):
            owner.say("INVITE swan #closed")
        came = owner.hears(r"^:swan!\S+ JOIN :?#closed", since, 20)
        seconds = time.monotonic() - began
        self.note("it is invited, and comes within six seconds", came and seconds < 6, f"{seconds:.1f} s later")
        self.note("its log tells of the invitation once", bot.logged().count("invited to #closed") == 1, bot.logged()[-300:])

    def nick_of_nobody(self):
        bot = self.bot("badegg", ["#bad"])
        self.note("the server takes its nick from nobody, so the bot takes another", comes(lambda: "on #bad" in bot.logged()), bot.logged()[-300:])
        time.sleep(150)
        refusals = re.findall(" 432 ", bot.logged().partition("welcome as")[2])
        self.note("it asks for that nick once, and not each minute", len(refusals) <= 1, f"{len(refusals)} refusals after the welcome")


def main():
    tally = Tally()
    program = program_of(sys.argv[1:])
    tally.say(program)
    with tempfile.TemporaryDirectory(prefix="rejoin-") as room:
        works = [threading.Thread(target=tried, args=(tally, program, room, it)) for it in (FIRST, SECOND)]
        for number, kind in enumerate((Ngircd, Modules)):
            if not kind.is_there:
                tally.say(f"{kind.name} is not installed: its steps are left out")
                continue
            place = f"{room}/{number}"
            os.mkdir(place)
            works.append(threading.Thread(target=Trial(tally, program, place, kind(place)).tries))
        for it in works:
            it.start()
        for it in works:
            it.join()
    return tally.end()


if __name__ == "__main__":
    sys.exit(main())
