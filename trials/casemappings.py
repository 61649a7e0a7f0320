#!/usr/bin/env python3
"""Runs a bot at servers that compare names by ascii, and by rfc1459: who is who, and which channel is which.

    trials/casemappings.py [PROGRAM [SERVER..]]      as root; ends within an hour; SERVER begins the name of a server
    apt-get install inspircd libident libltdl7 m4     without inspircd its steps are left out, with a sentence

PROGRAM is the program to try, else what EGGNET names, else ours. The servers are Debian's: ngircd, ircd-hybrid, ircd-irc2, and
inspircd with either casemapping. Of the first three only one can be installed, so the trial has apt fetch those that are not,
and unpacks them into its folder. Where the server says CASEMAPPING=ascii, `boss[` and `boss{` are two people, and `#x[` and
`#x{` two channels; where it says rfc1459 they are one. The attacks:

- a mask: the userfile knows the owner by `boss[!*@*`, and `boss{` comes;
- the own nick: the bot is `egg[b]`, and `egg{b}` joins, changes his nick, leaves, is kicked, quits, gets op and loses it;
- a late owner: `boss[`, known by his user, and `boss{` are on a channel, and then the bot gets op;
- two channels: the bot is on `#x[` and on `#x{`, and leaves one;
- bans of `bad[!*@*`, and `bad{` comes;
- the same: spellings that are one at each server.

After them the small server of the trials announces each casemapping, known or not, another one after a JOIN, and none after a
reconnect. Each line has what was done, what was wanted, and what came. Last comes a table of the lines that were bad. The last
line is 'N well, M bad'; the status is 1 where any is bad.
"""
import os
import re
import sys
import tempfile
import time

sys.dont_write_bytecode = True
from announced import ANNOUNCEMENTS
from bots import Bot, Guest, Tally, comes, end_all, program_of
from packaged import Hybrid, Irc2, MappedInspircd, PackagedNgircd, is_apart

NICK = "egg[b]"
BINDS = ["bind pub - op !op", "bind pub - echo !echo", "bind msg - echo echo", "bind pub - seen !seen", "bind msg - whois whois",
         "bind msg - +user +user", "bind join - autoop *", "bind join - opall *", "bind mode - opall *", "bind mode - enforcebans *"]
OWNER = [["adduser", "boss"], ["addhost", "boss", "boss[!*@*"], ["global", "boss", "nao"]]
KNOWN_BY_USER = [["adduser", "boss"], ["addhost", "boss", "*!*good@*"], ["global", "boss", "nao"]]
SOON = 15  # seconds for what a bot says at once, if at all
LONG = 60  # seconds for a fence, which waits until a server has read what was said too fast


class Lacking(Exception):
    """The bot or somebody whom an attack needs doesn't come: the attack ends."""


class Rows:
    """The rows of a server, counted for each attack."""

    def __init__(self, tally, program, room, name):
        self.tally, self.program, self.room, self.name = tally, program, room, name
        self.count, self.attack, self.counts = 0, "", {}

    def number(self):
        """Another number, for a folder, a nick or a channel."""
        self.count += 1
        return self.count

    def row(self, what, wanted, came, holds):
        """Counts what was done, what was wanted of it, and what came."""
        shown = " | ".join(map(str, came)) if isinstance(came, list) else came
        well = self.tally.note(f"{self.name}, {self.attack}: {what}; wanted: {wanted}; came", holds, shown or "nothing")
        self.counts.setdefault(self.attack, [0, 0])[0 if well else 1] += 1

    def skip(self, what):
        """Tells what the server does not allow."""
        self.tally.say(f"{self.name}, {self.attack}: {what}")

    def tries(self, attacks):
        """Makes attacks, one after the other. How many rows of each were well, and how many bad."""
        for self.attack, attack in attacks:
            try:
                attack(self)
            except (OSError, Lacking) as error:
                self.row("the attack", "no error", repr(error), False)
        return self.counts


class Trial(Rows):
    """A server, and chief, who is op on each channel of the attacks."""

    def __init__(self, tally, program, room, server):
        super().__init__(tally, program, room, server.name)
        self.server = server
        self.chief = Guest(server, "chief")
        self.chief.hears(" (376|422) ")
        said = [re.search(r" 005 .*\bCASEMAPPING=(\S*)", line) for line in self.chief.lines]
        self.mapping = next((it.group(1) for it in said if it), "rfc1459")
        self.is_one = self.mapping in ("rfc1459", "strict-rfc1459")


class Stage:
    """A fresh bot on channels where chief is op, and the people of an attack. `records` are words for `tell`."""

    def __init__(self, trial, channels, records, is_op=True, begins=True):
        self.trial, self.chief, self.channels, self.records = trial, trial.chief, channels, records
        self.people, self.is_op, self.begins = [], is_op, begins
        lines = [*BINDS, "log lines", *[f"channel {it}" for it in channels]]
        first = "egg" if trial.server.is_strict else NICK
        self.bot = Bot(trial.program, trial.room, f"bot{trial.number()}", [trial.server], lines, nick=first)

    def __enter__(self):
        for it in self.channels:
            self.chief.asks(f"JOIN {it}", " 366 ", SOON)
        if self.begins:
            try:
                self.begin()
            except Lacking:
                self.__exit__()
                raise
        return self

    def begin(self):
        """Starts the bot, which chief gives op on its channels if it is to have it."""
        since = len(self.chief.lines)
        is_up = self.bot.start()
        told = [self.bot.tell(*it) for it in self.records] if is_up else []
        there = [comes(self.is_welcome, LONG)]
        there += [self.chief.hears(rf"^:{re.escape(self.bot.nick)}!\S+ JOIN :?{re.escape(it)}$", since, LONG) for it in self.channels]
        if is_up and self.bot.nick != NICK:
            there.append(self.renames())
        if not (is_up and all(there) and all("accepted" in it[1] for it in told)):
            self.trial.row("a bot begins", "it joins, and takes its records", [*told, *there, *self.bot.logged().splitlines()[-8:]], False)
            raise Lacking(NICK)
        for it in self.channels if self.is_op else []:
            self.chief.say(f"MODE {it} +o {NICK}")
        self.fence(self.chief)

    def is_welcome(self):
        """Whether a server has let the bot in."""
        status = self.bot.answers("status") or ""
        return "\nnick " in status and "\nnot welcomed" not in status

    def renames(self):
        """Gives the bot its nick. Whether it has it then."""
        with open(self.bot.config, encoding="utf-8") as it:
            text = it.read()
        with open(self.bot.config, "w", encoding="utf-8") as it:
            it.write(text.replace("nick egg\n", f"nick {NICK}\n"))
        self.bot.tell("reload")
        return comes(lambda: f"nick {NICK}\n" in (self.bot.answers("status") or ""), LONG)

    def __exit__(self, *_):
        since = len(self.chief.lines)
        for it in self.people:
            it.say("QUIT")
        if self.bot.process:
            self.bot.end("bye")
            self.chief.hears(rf"^:{re.escape(NICK)}!\S+ QUIT", since, SOON)
        end_all(*self.people, self.bot)
        for it in self.channels:
            self.chief.asks(f"PART {it}", f" PART :?{re.escape(it)}", SOON)

    def person(self, nick, user="someone"):
        """Somebody of this nick; none if the server does not let him have it, which is told."""
        first = f"guest{self.trial.number()}"
        it = Guest(self.trial.server, first, user)
        self.people.append(it)
        heard = it.asks(f"NICK {nick}", rf"( 43\d )|(^:{first}!\S+ NICK )", LONG)
        if heard and " NICK " in heard:
            it.nick = nick
            return it
        self.trial.skip(f"the server doesn't let anybody be {nick} now: {heard}")
        it.leave()
        return None

    def owner(self, nick):
        """Somebody of this nick, without whom the attack makes no sense."""
        it = self.person(nick)
        if not it:
            raise Lacking(nick)
        return it

    def fence(self, person):
        """Waits until the bot has done what it does after all that a person said: it answers him last."""
        word = f"fence {self.trial.number()}"
        answer = person.asks(f"PRIVMSG {NICK} :echo {word}", rf"^:\S+ PRIVMSG \S+ :?{word}$", LONG)
        if not answer:
            self.trial.row("a private message", "an answer", self.bot.logged().splitlines()[-4:], False)
        self.chief.asks(f"PING :{word}", rf" PONG .*{word}$", LONG)

    def after(self, person, *lines):
        """What chief hears until the bot has done what it does after these lines of a person."""
        since = len(self.chief.lines)
        for it in lines:
            person.say(it)
        self.fence(person)
        return self.chief.lines[since:]

    def ops(self, heard, channel=None):
        """To whom the bot gives op among what chief heard, on a channel, the first if none is said."""
        place = re.escape(channel or self.channels[0])
        found = [re.match(rf":{re.escape(NICK)}!\S+ MODE {place} (\S+) :?(.*)$", it, re.I) for it in heard]
        return [nick for it in found if it and it.group(1).startswith("+o") for nick in it.group(2).split()]

    def kicks(self, heard):
        """Whom the bot kicks among what chief heard."""
        found = [re.match(rf":{re.escape(NICK)}!\S+ KICK \S+ (\S+)", it) for it in heard]
        return [it.group(1) for it in found if it]

    def status(self):
        """The lines of the bot's status about its nick and its channels."""
        lines = (self.bot.answers("status") or "no status").splitlines()
        return [it for it in lines if it.startswith(("nick", "channel", "no"))]

    def is_known_to_itself(self):
        """Whether the bot has its nick and is on its channels, by its status."""
        return self.status() == [f"nick {NICK}", *[f"channel {it} on" for it in self.channels]]

    def takes_op(self, nick, channel=None):
        """Has chief take op from a nick."""
        self.chief.asks(f"MODE {channel or self.channels[0]} -o {nick}", rf" MODE \S+ -o :?{re.escape(nick)}$", SOON)


def named(trial):
    """A channel that nobody was on before."""
    return f"{trial.server.mark}egg{trial.number()}"


def gets(stage, what, nick, wanted, heard, channel=None):
    """A row: who got op of the bot; wanted is that this nick did, or nobody."""
    came = stage.ops(heard, channel)
    shown = f"op for {' '.join(came)}" if came else "no op"
    stage.trial.row(what, f"op for {nick}" if wanted else "no op", shown, came == ([nick] if wanted else []))


def masks(trial):
    """The owner's mask is boss[!*@*."""
    with Stage(trial, [named(trial)], OWNER) as stage:
        for nick, is_owner in (("boss{", trial.is_one), ("BOSS[", True), ("bOsS{", trial.is_one)):
            person = stage.person(nick)
            if not person:
                continue
            channel = stage.channels[0]
            gets(stage, f"{nick} joins", nick, is_owner, stage.after(person, f"JOIN {channel}"))
            stage.takes_op(nick)
            gets(stage, f"{nick} says !op", nick, is_owner, stage.after(person, f"PRIVMSG {channel} :!op"))
            heard = person.asks(f"PRIVMSG {NICK} :whois boss", rf"^:{re.escape(NICK)}!\S+ NOTICE ", LONG) or ""
            told = heard.partition(" NOTICE ")[2]
            wanted = "the flags" if is_owner else "he is no master"
            trial.row(f"{nick} says whois boss", wanted, told, ("has the flags" if is_owner else "only masters") in told)
            eve = f"eve{trial.number()}"
            stage.after(person, f"PRIVMSG {NICK} :+user {eve}")
            is_there = bool(comes(lambda eve=eve: f" user {eve} " in stage.bot.show()[1], SOON if is_owner else 1))
            wanted, came = (f"{'a' if it else 'no'} user {eve}" for it in (is_owner, is_there))
            trial.row(f"{nick} says +user {eve}", wanted, came, is_there == is_owner)
            person.say("QUIT")
            trial.chief.hears(rf"^:{re.escape(nick)}!\S+ QUIT", 0, SOON)


# What becomes of egg{b}: what it is called, who says it, the line, and what chief hears then.
FATES = [
    ("stays", None, None, None),
    ("takes the nick stray", "stranger", "NICK stray", r"^:egg\{b\}!\S+ NICK :?stray$"),
    ("parts", "stranger", "PART {channel}", r"^:egg\{b\}!\S+ PART "),
    ("is kicked", "chief", "KICK {channel} egg{{b}} :out", r" KICK \S+ egg\{b\} "),
    ("quits", "stranger", "QUIT", r"^:egg\{b\}!\S+ QUIT"),
    ("gets op and loses it", "chief", "MODE {channel} +o egg{{b}}\r\nMODE {channel} -o egg{{b}}", r" MODE \S+ -o :?egg\{b\}$"),
]


def own_nick(trial):
    """The bot is egg[b], and a stranger is egg{b}."""
    for what, who, line, pattern in FATES:
        with Stage(trial, [named(trial)], OWNER) as stage:
            channel, stranger, owner = stage.channels[0], stage.person("egg{b}"), stage.owner("boss[")
            if not stranger:
                return
            stage.after(owner, f"JOIN {channel}")
            stage.after(stranger, f"JOIN {channel}")
            if line:
                since = len(trial.chief.lines)
                (trial.chief if who == "chief" else stranger).say(line.format(channel=channel))
                trial.chief.hears(pattern, since, LONG)
                stage.fence(trial.chief)
            knows_itself(stage, f"egg{{b}} joins and {what}", channel, owner)


def knows_itself(stage, what, channel, owner):
    """Rows: the bot has its nick, is on its channel, answers there, and gives op there."""
    trial = stage.trial
    trial.row(f"{what}: status", f"nick {NICK}, on {channel}", stage.status(), stage.is_known_to_itself())
    heard = trial.chief.asks(f"PRIVMSG {channel} :!echo here", rf"^:{re.escape(NICK)}!\S+ PRIVMSG {re.escape(channel)} :?here$", SOON)
    trial.row(f"{what}: !echo here on the channel", "an answer", heard, heard is not None)
    stage.takes_op(owner.nick)
    gets(stage, f"{what}: {owner.nick} says !op", owner.nick, True, stage.after(owner, f"PRIVMSG {channel} :!op"))


# Who comes in which order: nicks, or (nick, the nick that he takes then). The bot comes last where it says so.
ORDERS = [
    ("boss{ joins, then the owner boss[", ["boss{", "boss["], False),
    ("the owner boss[ joins, then boss{", ["boss[", "boss{"], False),
    ("boss{ and the owner boss[ are there when the bot joins", ["boss{", "boss["], True),
    ("the owner boss[ joins, then stray, who calls himself boss{", ["boss[", "stray"], False),
]


def late_owner(trial):
    """The owner boss[ is known by his user, and a stranger is boss{."""
    for what, nicks, is_last in ORDERS:
        with Stage(trial, [named(trial)], KNOWN_BY_USER, is_op=False, begins=not is_last) as stage:
            there = []
            for nick in nicks:
                person = stage.person(nick, "good" if nick == "boss[" else "bad")
                if person:
                    there.append(nick)
                    person.asks(f"JOIN {stage.channels[0]}", " 366 ", LONG)
                    if nick == "stray" and not person.asks("NICK boss{", r"^:stray!\S+ NICK ", SOON):
                        trial.skip("the server doesn't let stray be boss{")
            if is_last:
                stage.begin()
                time.sleep(3)  # the bot asks who is there
            stage.fence(trial.chief)
            heard = stage.after(trial.chief, f"MODE {stage.channels[0]} +o {NICK}")
            gets(stage, f"{what}; the bot gets op", "boss[", "boss[" in there, heard)


def two_channels(trial):
    """The bot is on #x[ and on #x{, with op on the first alone, and leaves it."""
    if trial.is_one:
        return one_channel(trial)
    place = named(trial)
    one, other = f"{place}[", f"{place}{{"
    with Stage(trial, [one, other], OWNER, is_op=False) as stage:
        chief, owner = trial.chief, stage.owner("boss[")
        trial.row(f"the bot is for {one} and {other}: status", "on both", stage.status(), stage.is_known_to_itself())
        chief.say(f"MODE {one} +o {NICK}")
        stage.fence(chief)
        for it in (one, other):
            stage.after(owner, f"JOIN {it}")
        stage.takes_op(owner.nick, one)
        heard = stage.after(owner, f"PRIVMSG {other} :!op")
        asked = stage.ops(heard, other) + re.findall(r"server says 482 .*", stage.bot.logged())
        trial.row(f"the bot has op on {one}, and boss[ says !op on {other}", "no MODE", asked, not asked)
        gets(stage, f"boss[ says !op on {one}", owner.nick, True, stage.after(owner, f"PRIVMSG {one} :!op"), one)
        stage.after(owner, f"PART {one}")
        heard = owner.asks(f"PRIVMSG {other} :!seen boss[", rf"^:{re.escape(NICK)}!\S+ NOTICE ", SOON) or ""
        came = heard.partition(" NOTICE ")[2]
        trial.row(f"boss[ parts {one}, and says !seen boss[ on {other}", f"he is on {other}", came, f"is on {other} now" in came)
        leaves_one(stage, one, other, owner)
    return None


def leaves_one(stage, one, other, owner):
    """Rows: the bot is kicked off one channel and comes back, and leaves it; it stays on the other."""
    trial, chief = stage.trial, stage.trial.chief
    since = len(chief.lines)
    chief.say(f"KICK {one} {NICK} :out")
    joins = lambda: [it.rpartition(" ")[2].lstrip(":") for it in chief.lines[since:] if re.match(rf":{re.escape(NICK)}!\S+ JOIN ", it)]
    comes(joins, SOON)
    time.sleep(3)
    is_well = joins() == [one] and stage.is_known_to_itself()
    trial.row(f"the bot is kicked off {one}", f"it joins {one} alone, and is on both", [*joins(), *stage.status()], is_well)
    since = len(chief.lines)
    told = stage.bot.tell("-chan", one)
    time.sleep(3)
    parts = [it.split()[2].lstrip(":") for it in chief.lines[since:] if re.match(rf":{re.escape(NICK)}!\S+ PART ", it)]
    trial.row(f"tell -chan {one}", f"it parts {one} alone, and is on {other}", [told[1].strip(), f"parts {parts}", *stage.status()],
              parts == [one] and f"channel {other} on" in stage.status())
    heard = chief.asks(f"PRIVMSG {other} :!echo here", rf"^:{re.escape(NICK)}!\S+ PRIVMSG {re.escape(other)} :?here$", SOON)
    trial.row(f"!echo here on {other}", "an answer", heard, heard is not None)
    chief.say(f"MODE {other} +o {NICK}")
    stage.fence(chief)
    stage.takes_op(owner.nick, other)
    gets(stage, f"the bot has op on {other}, and boss[ says !op there", owner.nick, True, stage.after(owner, f"PRIVMSG {other} :!op"), other)


def one_channel(trial):
    """#x[ and #x{ are one channel, which the bot has by the other name."""
    place = named(trial)
    one, other = f"{place}[", f"{place}{{"
    trial.chief.asks(f"JOIN {one}", " 366 ", SOON)
    with Stage(trial, [], OWNER, is_op=False) as stage:
        since = len(trial.chief.lines)
        stage.bot.tell("+chan", other)
        joined = trial.chief.hears(rf"^:{re.escape(NICK)}!\S+ JOIN ", since, LONG)
        stage.fence(trial.chief)
        came = [joined, *stage.status()]
        trial.row(f"chief is on {one}, and the bot joins {other}: status", f"on {other}", came, f"channel {other} on" in came)
        trial.chief.say(f"MODE {one} +o {NICK}")
        owner = stage.owner("boss{")
        gets(stage, f"boss{{ joins {one}", "boss{", True, stage.after(owner, f"JOIN {one}"), one)
        stage.takes_op("boss{", one)
        gets(stage, f"boss{{ says !op on {other}", "boss{", True, stage.after(owner, f"PRIVMSG {other} :!op"), one)
    trial.chief.say(f"PART {one}")


def bans(trial):
    """The records ban bad[!*@* and q[!*@*, the second one sticky."""
    channel = named(trial)
    records = [*OWNER, *[["addban", channel, it, "boss", "0", "why"] for it in ("bad[!*@*", "q[!*@*")], ["sticky", channel, "q[!*@*", "1"]]
    with Stage(trial, [channel], records) as stage:
        for nick, is_bad in (("bad{", trial.is_one), ("BAD[", True)):
            person = stage.person(nick)
            if not person:
                continue
            kicked = stage.kicks(stage.after(person, f"JOIN {channel}"))
            trial.row(f"{nick} joins", f"a KICK of {nick}" if is_bad else "no KICK", kicked, kicked == ([nick] if is_bad else []))
            stage.after(trial.chief, f"MODE {channel} -b bad[!*@*")
            person.say("QUIT")
        for mask, is_sticky in (("q{!*@*", trial.is_one), ("q[!*@*", True)):
            stage.after(trial.chief, f"MODE {channel} +b {mask}")
            heard = stage.after(trial.chief, f"MODE {channel} -b {mask}")
            again = [it for it in heard if re.match(rf":{re.escape(NICK)}!\S+ MODE \S+ \+b ", it)]
            trial.row(f"chief takes {mask} off", "q[!*@* is set again" if is_sticky else "no MODE", again, bool(again) == is_sticky)
        there = [it for it in ("vile[", "vile{") if (person := stage.person(it)) and stage.after(person, f"JOIN {channel}")]
        kicked = stage.kicks(stage.after(trial.chief, f"MODE {channel} +b vile{{!*@*"))
        wanted = [it for it in there if it == "vile{" or trial.is_one]
        trial.row(f"{' and '.join(there)} are there, and chief bans vile{{!*@*", f"a KICK of {wanted}", kicked, kicked == wanted)


def the_same(trial):
    """What differs by the case of letters alone is one at each server."""
    channel = named(trial)
    great = channel.replace("egg", "EGG")
    trial.chief.asks(f"JOIN {great}", " 366 ", SOON)
    with Stage(trial, [], OWNER, is_op=False) as stage:
        since = len(trial.chief.lines)
        stage.bot.tell("+chan", channel)
        trial.chief.hears(rf"^:{re.escape(NICK)}!\S+ JOIN ", since, LONG)
        trial.chief.say(f"MODE {great} +o EGG[B]")
        stage.fence(trial.chief)
        trial.row(f"the bot joins {channel}, which is {great}: status", f"on {channel}", stage.status(), f"channel {channel} on" in stage.status())
        owner = stage.owner("BoSS[")
        gets(stage, f"BoSS[ joins {channel}", "BoSS[", True, stage.after(owner, f"JOIN {channel}"), channel)
        stage.after(owner, "NICK boss[")
        stage.takes_op("boss[", channel)
        gets(stage, f"he calls himself boss[, and says !op on {great}", "boss[", True, stage.after(owner, f"PRIVMSG {great} :!op"), channel)
        heard = owner.asks("PRIVMSG EGG[B] :whois BOSS", rf"^:{re.escape(NICK)}!\S+ NOTICE ", SOON) or ""
        trial.row("he says whois BOSS to EGG[B]", "the flags", heard.partition(" NOTICE ")[2], "has the flags" in heard)
        heard = owner.asks(f"PRIVMSG {great} :!seen BOSS[", rf"^:{re.escape(NICK)}!\S+ NOTICE ", SOON) or ""
        trial.row(f"he says !seen BOSS[ on {great}", "he is there", heard.partition(" NOTICE ")[2], " now" in heard)
        stage.takes_op("boss[", channel)
        trial.chief.asks(f"MODE {great} -o EGG[B]", r" MODE \S+ -o ", SOON)
        gets(stage, "chief takes op from EGG[B], and gives it again", "boss[", True, stage.after(trial.chief, f"MODE {great} +o Egg[B]"), channel)
        since = len(trial.chief.lines)
        trial.chief.say(f"KICK {great} EGG[B] :out")
        heard = trial.chief.hears(rf"^:{re.escape(NICK)}!\S+ JOIN ", since, LONG)
        trial.row(f"chief kicks EGG[B] off {great}", "it comes back", heard, heard is not None)
    trial.chief.say(f"PART {great}")


ATTACKS = [("a mask", masks), ("the own nick", own_nick), ("a late owner", late_owner), ("two channels", two_channels), ("bans", bans),
           ("the same", the_same)]


def at_server(tally, program, room, server):
    """All attacks at one server: for each, how many lines were well, and how many bad. None if the server isn't there."""
    if not server.is_there:
        tally.say(f"{server.name} is not installed, and apt can't fetch it: its steps are left out")
        return None
    trial = None
    try:
        if not tally.note(f"{server.name} starts", server.start()):
            return {}
        trial = Trial(tally, program, room, server)
        tally.say(f"{server.name} says CASEMAPPING={trial.mapping}")
        return trial.tries(ATTACKS)
    finally:
        end_all(*([trial.chief] if trial else []), server)


def servers_of(room, words):
    """The servers, each with a folder of its own; those whose names begin with one of the words, if any are said."""
    made = [("ngircd", PackagedNgircd), ("ircd-hybrid", Hybrid), ("ircd-irc2", Irc2), ("inspircd, ascii", "ascii"), ("inspircd, rfc1459", "rfc1459")]
    for number, (name, kind) in enumerate(made):
        if not words or name.startswith(tuple(words)):
            own = f"{room}/server{number}"
            os.mkdir(own)
            yield MappedInspircd(own, kind) if isinstance(kind, str) else kind(own, f"{room}/packages")


def table(tally, results):
    """Tells how many lines of each attack were bad at each server."""
    tally.say(f"{'bad of all':<16}" + "".join(f"{it:>20}" for it in results))
    for attack, _ in [*ATTACKS, *ANNOUNCEMENTS]:
        cells = [counts.get(attack) for counts in results.values()]
        tally.say(f"{attack:<16}" + "".join(f"{f'{it[1]} of {it[0] + it[1]}' if it else '-':>20}" for it in cells))


def main(words):
    tally, began = Tally(), time.monotonic()
    program = program_of(words)
    if not is_apart():
        sys.exit("this trial wants root, apt-get, dpkg, setpriv and unshare")
    with tempfile.TemporaryDirectory(prefix="casemappings-") as room:
        os.chmod(room, 0o755)
        results = {}
        for server in servers_of(room, words[1:]):
            counts = at_server(tally, program, server.room, server)
            if counts is not None:
                results[server.name] = counts
        if len(words) < 2 or "small server" in words[1:]:
            results["small server"] = Rows(tally, program, room, "small server").tries(ANNOUNCEMENTS)
    table(tally, results)
    tally.say(f"it took {time.monotonic() - began:.0f} s")
    return tally.end()


if __name__ == "__main__":
    sys.exit(main(sys.argv[1:]))
