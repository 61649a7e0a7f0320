#!/usr/bin/env python3
"""Runs a bot that knows people by their accounts at the services of a network, and at servers without accounts.

    trials/accounts.py [PROGRAM [PART..]]      as root; ends within half an hour; PART begins the name of a part
    apt-get install inspircd atheme-services ngircd libident libltdl7 m4

PROGRAM is the program to try, else what EGGNET names, else ours. The parts:

- services: InspIRCd with Atheme. The records know an owner by `$a:boss` alone. People log in to this account from two hosts,
  before they join and later; they log out, change their nick and their host, and leave their nick to others. A stranger
  has the owner's nick. They are there before the bot, they ask for changes, also at a leaf, and the bot and the hub tell in
  whose name. A user is also known by an address that another account has. Procs are bound to `account`. Nobody ignores the
  owner, who says much.
- ngircd, ircd-hybrid, ircd-irc2: servers without such accounts, as Debian has them (casemappings.py says how). A bot that asks
  them for capabilities registers, knows who is there, and asks by WHOX only where a server has it, and ACCOUNT too. The
  trial has each line.
- small server: a server of the trial says names, JOINs, ACCOUNT, CHGHOST, 354 and tags with and without each capability.

Each line has what was done, what was wanted, and what came. Last comes a table of the lines that were bad. The last line is 'N
well, M bad'; the status is 1 where any is bad.
"""
import os
import re
import shutil
import sys
import tempfile
import time
from pathlib import Path

sys.dont_write_bytecode = True
from bots import Bot, Tally, comes, end_all, free_port, program_of, ran
from casemappings import Rows
from memberships import at_server
from packaged import Hybrid, Irc2, PackagedNgircd, is_apart
from services import Network, Services, registers
from stages import LONG, SOON, Part, pace
from telling import TELLINGS, kicks_of, modes_of

OWNER = [["adduser", "boss"], ["addhost", "boss", "$a:boss"], ["global", "boss", "nao"]]


class People(Network):
    """The network of services.py, with what tells of members, and an operator who changes hosts. Guests may say much."""

    password = "please"
    more = """<module name="namesx"><module name="uhnames"><module name="ircv3_chghost"><module name="chghost">
<class name="all" commands="*" privs="*" usermodes="*" chanmodes="*">
<type name="chief" classes="all">
<oper name="chief" password="chief" host="*@*" type="chief">
<connect name="guests" allow="*" password="guest" timeout="60" pingfreq="20" softsendq="1048576" hardsendq="4194304"
  recvq="1048576" threshold="100000" commandrate="1000000" fakelag="no" localmax="100" globalmax="100"
  resolvehostnames="no" useident="no">
"""


def two_hosts(part):
    """The owner is known by his account alone."""
    with part.stage(OWNER) as stage:
        for what, nick, user, address, account, is_owner in (
                ("ann, who is logged in as boss,", "ann", "one", "127.0.0.1", "boss", True),
                ("zed of another host, who is logged in as boss,", "zed", "two", "127.0.0.2", "boss", True),
                ("a stranger of the nick boss", "boss", "boss", "127.0.0.1", None, False),
                ("one of the nick boss, who is logged in as mallory,", "boss", "boss", "127.0.0.2", "mallory", False)):
            person = stage.person(nick, user, address, account)
            stage.joins(what, person, is_owner)
            person.asks("QUIT", "ERROR", SOON)
            person.leave()


def later(part):
    """People who log in and out while they are there, and who change their nick."""
    with part.stage(OWNER) as stage:
        person = stage.person("late")
        stage.joins("late, who is not logged in,", person, False)
        stage.logs_in(person, "boss")
        stage.asks("late, who is logged in now,", person, True)
        stage.logs_out(person)
        stage.asks("late, who is logged out now,", person, False)
        stage.logs_in(person, "mallory")
        stage.asks("late, who is logged in as mallory now,", person, False)
        stage.logs_in(person, "boss")
        person.asks("NICK other", r"^:late!\S+ NICK ", SOON)
        person.nick = "other"
        stage.asks("other, who was late and is logged in,", person, True)
        stranger = stage.person("late")
        stage.joins("a stranger of the nick late", stranger, False)
        person.asks("QUIT", "ERROR", SOON)
        person.leave()
        stranger.asks("NICK other", r"^:late!\S+ NICK ", SOON)
        stranger.nick = "other"
        stage.asks("the stranger, who has the nick other now,", stranger, False)


def there_first(part):
    """People who are there before the bot, and say nothing before it has op."""
    with part.stage(OWNER, begins=False) as stage:
        people = [stage.person("ann", "one", "127.0.0.2", "boss"), stage.person("boss", "boss"), stage.person("eve", "two", account="mallory")]
        for it in people:
            it.asks(f"JOIN {stage.channel}", " 366 ", SOON)
        stage.is_op = False
        stage.begin()
        stage.row("the bot joins; asked by WHOX", [f"WHO {stage.channel} %tcuhna,152"], part.tap.said(rf"^WHO {stage.channel} %"))
        came = modes_of(stage.after(stage.chief, f"MODE {stage.channel} +o {stage.nick}"), stage.channel)
        stage.row("the bot gets op where ann is, who is logged in as boss, and strangers; mode", ["+o ann"], came)
        stage.takes_op("ann")
        for it, what, is_owner in zip(people, ("ann", "the stranger of the nick boss", "eve, who is logged in as mallory,"), (True, False, False)):
            stage.asks(what, it, is_owner)
        stage.logs_out(people[0])
        stage.asks("ann, who is logged out now,", people[0], False)


def changes(part):
    """The owner changes the records."""
    with part.stage(OWNER) as stage:
        person = stage.person("ann", "one", "127.0.0.2", "boss")
        joins = lambda: stage.after(person, f"JOIN {stage.channel}")
        leaves = lambda: stage.logs_out(person)
        for what, nick, act, is_owner in (("ann, who is on no channel of the bot,", "eve1", None, False),
                                          ("ann, who is logged in,", "eve2", joins, True),
                                          ("ann, who is logged out now,", "eve3", leaves, False)):
            if act:
                act()
            person.say(f"PRIVMSG {stage.nick} :+user {nick}")
            is_there = bool(comes(lambda nick=nick: f" user {nick} " in stage.bot.show()[1], SOON if is_owner else 3))
            stage.fence(person)
            stage.row(f"{what} says +user {nick}; users", [nick] if is_owner else [], [nick] if is_there else [])
        logged = [it.partition(" ")[2] for it in stage.bot.logged().splitlines() if "asked on IRC by" in it]
        shown = r"asked on IRC by ann!one@127\.0\.0\.2, handle boss, .*\$a:boss.*: adduser eve2"
        part.row("the log", "in whose name the change was asked", logged, len(logged) == 1 and bool(re.fullmatch(shown, logged[0])))
        told = [it for it in stage.bot.tell("changes", "1")[1].splitlines() if "eve" in it]
        part.row("tell changes", "a change in the name of $a:boss", told, len(told) == 1 and "in the name of $a:boss: adduser eve2" in told[0])


def new_hosts(part):
    """An operator changes the hosts of members."""
    records = [*OWNER, ["adduser", "cat"], ["addhost", "cat", "*!*@cat.host"], ["global", "cat", "o"]]
    with part.stage(records) as stage:
        part.row("chief becomes an operator", "381", "", stage.chief.asks("OPER chief chief", " (381|491) ", SOON))
        people = {nick: stage.person(nick, nick, address, account) for nick, address, account in
                  (("cat", "127.0.0.2", None), ("dan", "127.0.0.3", None), ("ann", "127.0.0.4", "boss"))}
        for it in people.values():
            stage.after(it, f"JOIN {stage.channel}")
        stage.takes_op("ann")
        stage.asks("cat, whose host nobody knows,", people["cat"], False)
        for nick in people:
            stage.chief.asks(f"CHGHOST {nick} {nick}.host", rf"^:{nick}!\S+ (CHGHOST|QUIT)|NOTICE.*{nick}", SOON)
        came = [it for it in part.tap.heard if " CHGHOST " in it]
        part.row("the server tells of new hosts", "CHGHOST of three", came, len(came) == 3)
        stage.asks("cat, who has the host that the records know now,", people["cat"], True)
        stage.asks("ann, who is logged in as boss and has another host now,", people["ann"], True)
        for mask, wanted in (("*!*@127.0.0.3", []), ("*!*@dan.host", ["dan"])):
            stage.row(f"chief bans {mask}; kicked", wanted, kicks_of(stage.after(stage.chief, f"MODE {stage.channel} +b {mask}")))


def claims(part):
    """Somebody is known by an account and by an address."""
    records = [*OWNER, ["adduser", "carl"], ["addhost", "carl", "ann!*@*"], ["addhost", "carl", "dora!*@*"], ["global", "carl", "o"],
               ["adduser", "nobody"], ["addhost", "nobody", "eve!*@*"]]
    with part.stage(records) as stage:
        people = [stage.person("ann", account="mallory"), stage.person("eve", account="boss"), stage.person("dora")]
        for it in people:
            stage.after(it, f"JOIN {stage.channel}")
        stage.takes_op("eve")
        stage.asks("ann, whose address has the flag o, and whose account no record knows,", people[0], True)
        stage.asks("eve, whose address has no flags, and who is logged in as boss,", people[1], True)
        stage.asks("dora, whose address has the flag o, and who is not logged in,", people[2], True)
        for it, handle in zip(people, ("carl", "boss", "carl")):
            wanted = "has the flags" if handle == "boss" else "only masters"
            heard = it.asks(f"PRIVMSG {stage.nick} :whois boss", rf"^:{stage.nick}!\S+ NOTICE ", LONG) or ""
            part.row(f"{it.nick} says whois boss", wanted, heard.partition(" NOTICE ")[2], wanted in heard)


TIMERS = 200  # a bot has no more


def masks(text, count):
    """Masks that match a text: in each, other letters of it are wildcards."""
    letters = [place for place, it in enumerate(text) if it.isalpha()]
    for number in range(count):
        wild = {place for bit, place in enumerate(letters) if number >> bit & 1}
        yield "".join("?" if place in wild else it for place, it in enumerate(text))


def binds(part):
    """The bind type `account`. Each call of `tick` asks for a timer, and the bot leaves out those beyond what it can have."""
    many = [f"bind account - tick {it}" for it in masks("*!someone@* boss", TIMERS + 5)]
    with part.stage(OWNER, binds=many) as stage:
        count = lambda: len(re.findall("left out: C3", stage.bot.logged()))
        person = stage.person("ann", account="mallory")
        stage.after(person, f"JOIN {stage.channel}")
        stage.row("205 binds; ann joins, who is logged in as mallory; calls", [], ["some"] if count() else [])
        stage.logs_in(person, "boss")
        stage.fence(person)
        stage.row("ann logs in as boss; calls beyond 200", ["5"], [str(count())])
        time.sleep(12)  # the timers are over
        stage.logs_out(person)
        stage.fence(person)
        stage.row("ann logs out; calls beyond 200", ["5"], [str(count())])


def autoop(part):
    """`autoop` gives op to who joins, so it gives none to who logs in. He has the right to `!op` from then on."""
    with part.stage(OWNER, binds=["bind account - autoop *"]) as stage:
        person = stage.person("ann")
        stage.gets("ann joins, who is not logged in; mode", person, False, f"JOIN {stage.channel}")
        since = len(stage.chief.lines)
        stage.logs_in(person, "boss")
        stage.gets("ann logs in as boss; mode", person, False, since=since)
        stage.asks("ann", person, True)
        since = len(stage.chief.lines)
        stage.logs_out(person)
        stage.gets("ann logs out; mode", person, False, since=since)


def floods(part):
    """Somebody who has the flag o everywhere is never ignored, and a stranger is after four lines."""
    with part.stage(OWNER, binds=["flood-msg 0:0", "flood-ctcp 0:0", "flood-chan 4:60", "flood-join 0:0"]) as stage:
        people = [stage.person("ann", "one", "127.0.0.2", "boss"), stage.person("eve", "two", "127.0.0.3", "mallory")]
        for it in people:
            stage.after(it, f"JOIN {stage.channel}")
            it.asks("\r\n".join([*[f"PRIVMSG {stage.channel} :line {number}" for number in range(6)], "PING :said"]), " PONG .*said$", LONG)
        stage.fence(stage.chief)
        came = re.findall(r"^ignored (\S+) ", stage.bot.answers("status"), re.M)
        stage.row("ann, who is logged in as boss, and eve say six lines, of which four are free; ignored", ["two@127.0.0.3"], came)


def at_a_leaf(part):
    """A leaf asks its hub for changes of the owner."""
    secret, key, door = f"{part.room}/secret", f"{part.room}/key", free_port()
    Path(secret).write_text("a secret of the bots of this trial\n", encoding="utf-8")
    os.chmod(secret, 0o600)
    Path(key).write_text(ran([part.program, "key", secret, "1"])[1], encoding="utf-8")
    os.chmod(key, 0o600)
    hub = Bot(part.program, part.room, "hub", [part.tap], ["bot 0 of 2", f"listen 127.0.0.1 {door}", f"secret {secret}"], nick="hub")
    try:
        told = [hub.start(), *(hub.tell(*it) for it in OWNER)]
        with part.stage([], binds=["bot 1 of 2", f"hub 127.0.0.1 {door}", f"secret {key}"]) as stage:
            linked = comes(lambda: f"{OWNER[1][2]}" in (stage.bot.answers("show") or ""), LONG)
            part.row("a leaf is linked", "it has the owner's records", [linked, *told], linked)
            person = stage.person("ann", "one", "127.0.0.2", "boss")
            stage.joins("ann, who is logged in as boss, at a leaf,", person, True)
            outcome = rf"^:{stage.nick}!\S+ NOTICE ann :.*(accepted|refused|may do that)"
            heard = person.asks(f"PRIVMSG {stage.nick} :+user eve1", outcome, LONG) or ""
            part.row("she says +user eve1 to the leaf; its NOTICE", "accepted", heard.partition(" NOTICE ")[2], "accepted" in heard)
            came = [it for it in hub.tell("changes", "1")[1].splitlines() if "eve1" in it]
            part.row("the hub: tell changes", "a change of bot 1 in the name of $a:boss", came,
                     len(came) == 1 and "asked by bot 1, in the name of $a:boss: adduser eve1" in came[0])
            hub.tell("delhost", "boss", "$a:boss")
            comes(lambda: "$a:boss" not in (stage.bot.answers("show") or ""), LONG)
            stage.asks("the hub no longer knows the account; ann", person, False)
    finally:
        end_all(hub)


AT_SERVICES = [("two hosts", two_hosts), ("later", later), ("there first", there_first), ("changes", changes),
               ("new hosts", new_hosts), ("account and address", claims), ("bind account", binds), ("autoop", autoop),
               ("floods", floods), ("a leaf", at_a_leaf), ("pace", pace)]


def at_services(tally, program, room):
    """The part with InspIRCd and Atheme."""
    lacking = [it for it in ("inspircd", "atheme-services", "setpriv") if not shutil.which(it)]
    if lacking:
        tally.say(f"{' and '.join(lacking)} is not installed: the steps with services are left out")
        return None
    network = People(room)
    network.name = "services"
    services, part = Services(room, network), None
    try:
        if not tally.note("the network starts", network.start()) or not tally.note("the services join it", services.start(), network.logged()[-300:]):
            return {}
        for it in ("boss", "mallory"):
            registers(tally, network, it)
        part = Part(tally, program, room, network)
        return part.tries(AT_SERVICES)
    finally:
        end_all(*([part] if part else []), services, network)


def table(tally, results):
    """Tells how many lines of each attack were bad in each part."""
    for name, counts in results.items():
        cells = "  ".join(f"{attack}: {bad} of {well + bad}" for attack, (well, bad) in counts.items())
        tally.say(f"bad of all, {name:<16} {cells}")


def main(words):
    tally, began = Tally(), time.monotonic()
    program = program_of(words)
    if not is_apart():
        sys.exit("this trial wants root, apt-get, dpkg, setpriv and unshare")
    with tempfile.TemporaryDirectory(prefix="accounts-") as room:
        os.chmod(room, 0o755)
        parts = {"services": lambda own: at_services(tally, program, own),
                 "small server": lambda own: Rows(tally, program, own, "small server").tries(TELLINGS)}
        parts |= {it.name: lambda own, it=it: at_server(tally, program, own, it, f"{room}/packages") for it in (PackagedNgircd, Hybrid, Irc2)}
        results = {}
        for number, (name, tries) in enumerate(parts.items()):
            if not words[1:] or name.startswith(tuple(words[1:])):
                own = f"{room}/part{number}"
                os.mkdir(own)
                os.chmod(own, 0o755)
                counts = tries(own)
                if counts is not None:
                    results[name] = counts
    table(tally, results)
    tally.say(f"it took {time.monotonic() - began:.0f} s")
    return tally.end()


if __name__ == "__main__":
    sys.exit(main(sys.argv[1:]))
