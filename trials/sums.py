"""The sums of records in the logs of bots, for trials/net."""
import hashlib
import re
from importlib.machinery import SourceFileLoader
from importlib.util import module_from_spec, spec_from_loader
from pathlib import Path

from bots import comes
from nets import records_of, version_of

# Changes by which each field of a record of either kind has something.
VARIED = [
    "adduser first", "addhost first *!~me@my.host", "addhost first second!*@*", "global first no",
    "chan first #egg ov", "chan first &x Z", "bot first s", "info first hi, two  words",
    "addban * *!*@all.example first 0", "addban #egg a!*@b first 4000000000 go on", "sticky #egg a!*@b 1",
]


def loaded(name):
    """A program beside this file, as a module: it spells records by docs/FORMATS.md."""
    loader = SourceFileLoader(name, str(Path(__file__).resolve().parent / name))
    module = module_from_spec(spec_from_loader(name, loader))
    loader.exec_module(module)
    return module


def without_dash(letters):
    return "" if letters == "-" else letters


def values_of(lines):
    """The records of the lines that a bot shows: lists of the fields of users and of bans."""
    users, bans = [], []
    for line in lines:
        word, rest = line.split(" ", 1)
        if word == "user":
            handle, everywhere, bot = rest.split(" ")
            users.append([handle, [], without_dash(everywhere), [], without_dash(bot), ""])
        elif word == "info":
            users[-1][5] = rest.split(" ", 1)[1]
        elif word == "host":
            users[-1][1].append(rest.split(" ")[1])
        elif word == "chan":
            users[-1][3].append(tuple(rest.split(" ")[1:]))
        elif word == "ban":
            channel, mask, creator, expires, *comment = rest.split(" ", 4)
            bans.append(["" if channel == "*" else channel, mask, creator, int(expires), "".join(comment), 0])
        elif word == "sticky":
            bans[-1][5] = 1
        else:
            raise ValueError(line)
    return users, bans


def sum_of(shown):
    """The sum of the records in what a bot shows."""
    spelled = loaded("spellings")
    users, bans = values_of(records_of(shown))
    data = b"".join([spelled.user(*it) for it in users] + [spelled.ban(*it) for it in bans])
    return hashlib.sha256(data).hexdigest()[:16]


def told_of(bot):
    """What a bot's log tells of versions, in order: each with the sum of the records, and with none where it is up."""
    found = re.findall(r"^\d+ (?:up|records) at version (\d+)(?:: ([0-9a-f]{16}))?$", bot.logged(), re.M)
    return [(int(version), it or None) for version, it in found]


def compared(tally, bots):
    """By their logs no bot went back, and any two that told of one version had the same records there."""
    told = {bot.name: told_of(bot) for bot in bots}
    back = [name for name, seen in told.items() if [it for it, _ in seen] != sorted(it for it, _ in seen)]
    count = sum(1 for seen in told.values() for _, it in seen if it)
    tally.note("by no log a version went back", count > 0 and not back, f"{count} lines tell of records; {back}")
    at = {}
    for name, seen in told.items():
        for version, it in seen:
            if it:
                at.setdefault(version, set()).add((name, it))
    several = {version: those for version, those in at.items() if len({name for name, _ in those}) > 1}
    differ = [version for version, those in at.items() if len({it for _, it in those}) > 1]
    pairs = sum(len(those) * (len(those) - 1) // 2 for those in several.values())
    tally.note("bots whose logs tell of one version had the same records there", several and not differ,
               f"{len(several)} versions of {len(at)}, {pairs} pairs of bots; {differ[:5]}")


def at_rest(tally, bots, shown):
    """All tell of the version at which they are, with the sum of the records that they show."""
    wanted = version_of(shown), sum_of(shown)
    alike = comes(lambda: all(told_of(bot)[-1] == wanted for bot in bots), 15)
    tally.note("all log the sum of the records that they show", bool(alike),
               f"version {wanted[0]}, sum {wanted[1]}" if alike else f"{wanted} {[told_of(bot)[-1] for bot in bots]}")
