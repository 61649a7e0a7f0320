"""What a bot with capabilities knows of members at servers without services, for `accounts.py`."""
import re

from bots import end_all
from stages import LONG, SOON, Part, pace
from telling import ASKED, modes_of

# cat gets op of the bot, and ann voice, as soon as their addresses are known.
BY_ADDRESS = [["adduser", "cat"], ["addhost", "cat", "*!*cat@*"], ["global", "cat", "a"],
              ["adduser", "ann"], ["addhost", "ann", "*!*ann@*"], ["global", "ann", "g"]]


def offered(tap):
    """The capabilities that the server offers by LS, those that the bot asks for, and the tokens that the server announces."""
    listed = [it.rpartition(" :")[2].split() for it in tap.heard if re.match(r"\S+ CAP \S+ LS ", it)]
    wanted = [it.partition(":")[2].split() for it in tap.said("^CAP REQ ")]
    tokens = [it.split(" ", 3)[3].split() for it in tap.heard if re.match(r"\S+ 005 ", it)]
    return [[word.partition("=")[0] for it in some for word in it] for some in (listed, wanted, tokens)]


def who_is_there(stage, what, asker, nicks, there):
    """A row: whom the bot says to be on the channel, of these nicks."""
    since = len(asker.lines)
    stage.after(asker, *(f"PRIVMSG {stage.channel} :!seen {it}" for it in nicks))
    said = [it.partition(f" NOTICE {asker.nick} ")[2].lstrip(":") for it in asker.lines[since:]]
    came = [it for it in nicks if f"{it} is on {stage.channel} now" in said]
    stage.row(f"{what}; who is there of {' '.join(nicks)}", there, came)


def members(part):
    """A bot that asks for capabilities, where some are there before it."""
    stage = part.stage(BY_ADDRESS, begins=False)
    with stage:
        channel, chief = stage.channel, stage.chief
        for nick in ("ann", "bob", "cat"):
            stage.person(nick, nick).asks(f"JOIN {channel}", " 366 ", LONG)
        chief.asks(f"MODE {channel} +ov ann ann", " MODE ", SOON)
        chief.asks(f"MODE {channel} +v bob", r" MODE \S+ \+v", SOON)
        stage.is_op = False
        stage.begin()
        first = part.tap.lines[0]
        part.row("the bot registers; its first line, and its CAP END", "CAP LS 302, and one at most", [first, *part.tap.said("^CAP END")],
                 first == "CAP LS 302" and len(part.tap.said("^CAP END")) <= 1)
        listed, wanted, tokens = offered(part.tap)
        part.row(f"offered: {' '.join(listed) or 'nothing'}; asked for", " ".join(sorted(set(ASKED) & set(listed))) or "nothing", wanted,
                 sorted(wanted) == sorted(set(ASKED) & set(listed)))
        whox = [f"WHO {channel} %tcuhna,152"] if "WHOX" in tokens and "account-notify" in wanted else []
        stage.row(f"the server has {'' if whox else 'no '}WHOX with account-notify; asked", whox, part.tap.said("^WHO .*%"))
        knows(stage, bool(whox) or "userhost-in-names" in wanted, "multi-prefix" in wanted)


def knows(stage, has_addresses, has_signs):
    """Rows: what a bot knows of members. With addresses it knows who cat and ann are, and with all signs that ann has voice
    beside op."""
    channel, chief, people = stage.channel, stage.chief, {it.nick: it for it in stage.people}
    asker = stage.person("dan", "dan")
    stage.after(asker, f"JOIN {channel}")
    who_is_there(stage, "the bot joins, and then dan", asker, ["chief", "ann", "bob", "cat", "dan", "eve"], ["chief", "ann", "bob", "cat", "dan"])
    stage.takes_op("ann")
    given = lambda: modes_of(stage.after(chief, f"MODE {channel} +o {stage.nick}"), channel)
    by_address = ([] if has_signs else ["+v ann"]) + ["+o cat"]
    stage.row(f"ann has no more op but voice, and the bot gets op, which has {'' if has_addresses else 'no '}addresses by itself; modes",
              by_address if has_addresses else [], given())
    stage.part.row("more", "opall is bound to joins", "", stage.bot.tell("bind", "join", "-", "opall", "*")[0] == 0)
    chief.asks(f"MODE {channel} -ov cat ann", " MODE ", SOON)
    since = len(chief.lines)
    chief.say(f"KICK {channel} {stage.nick} :out")
    chief.hears(rf"^:{stage.nick}!\S+ JOIN ", since, LONG)
    stage.fence(chief)
    stage.row("the bot joins again, asks by WHO, and gets op; modes", ["+v ann", "+o cat"], sorted(given(), reverse=True))
    people["bob"].asks("NICK bert", r"^:bob!\S+ NICK ", SOON)
    people["cat"].say(f"PART {channel}")
    people["ann"].say("QUIT")
    chief.hears(r"^:ann!\S+ QUIT", 0, SOON)
    stage.fence(chief)
    who_is_there(stage, "bob is bert, cat parts and ann quits", asker, ["ann", "bob", "bert", "cat", "dan"], ["bert", "dan"])


def at_server(tally, program, room, kind, packages):
    """The part at a server without services; none if it isn't there."""
    server, part = kind(room, packages), None
    if not server.is_there:
        tally.say(f"{server.name} is not installed, and apt can't fetch it: its steps are left out")
        return None
    try:
        if not tally.note(f"{server.name} starts", server.start()):
            return {}
        part = Part(tally, program, room, server)
        return part.tries([("members", members), ("pace", pace)])
    finally:
        end_all(*([part] if part else []), server)
