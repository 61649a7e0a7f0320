"""A server that announces whatever a trial chooses, in the trial's own process: what a bot makes of each casemapping."""
import re
import time

from bots import Bot, comes, end_all
from small_server import NAME, SmallServer

MASKS = [["adduser", "boss"], ["addhost", "boss", "boss[!*@*"], ["global", "boss", "o"],
         ["adduser", "hat"], ["addhost", "hat", "hat^!*@*"], ["global", "hat", "o"]]
# What a server announces (None is nothing), and who has the rights of boss[ and of hat^ then.
ALL, BRACKETS, LETTERS = ["BOSS[", "boss{", "hat~"], ["BOSS[", "boss{"], ["BOSS["]
MAPPINGS = [(None, ALL), ("rfc1459", ALL), ("RFC1459", ALL), ("strict-rfc1459", BRACKETS), ("Strict-RFC1459", BRACKETS), ("ascii", LETTERS),
            ("ASCII", LETTERS), ("rfc7613", LETTERS), ("precis", LETTERS), ("", LETTERS)]
ASKERS = ["BOSS[", "boss{", "hat~"]
SOON = 15  # seconds


class Announcing(SmallServer):
    """The small server, with a 005 after its welcome. The bot is op on each channel that it joins."""

    def __init__(self, mapping):
        super().__init__()
        self.mapping = mapping

    def answer(self, visitor, line):
        super().answer(visitor, line)
        if line.startswith("USER ") and self.mapping is not None:
            visitor.say(announcement(visitor, self.mapping))

    def join(self, visitor, channel):
        nick = visitor.nick
        visitor.say(f":{nick}!egg@host.trial JOIN {channel}", f":{NAME} 353 {nick} = {channel} :@{nick}",
                    f":{NAME} 366 {nick} {channel} :End of /NAMES list")


def announcement(visitor, mapping):
    return f":{NAME} 005 {visitor.nick} CHANTYPES=# CASEMAPPING={mapping} NICKLEN=30 :are supported by this server"


def given(visitor):
    """To whom the bot gives op, of those who ask for it, one after the other. The bot ends with an answer to a message."""
    before, fences = len(visitor.lines), len(visitor.said("PRIVMSG fence "))
    for nick in ASKERS:
        visitor.say(f":{nick}!user@host.trial JOIN #egg", f":{nick}!user@host.trial PRIVMSG #egg :!op", f":{nick}!user@host.trial QUIT :gone")
    visitor.say(":fence!user@host.trial PRIVMSG egg :echo done")
    comes(lambda: len(visitor.said("PRIVMSG fence ")) > fences, 2 * SOON)
    said = [re.match(r"MODE #egg \+o+ :?(.*)$", line) for _, line in visitor.lines[before:]]
    return [nick for it in said if it for nick in it.group(1).split()]


class Puppet:
    """A bot at a server that announces something; the visitor is the bot's connection."""

    def __init__(self, trial, mapping):
        self.server = Announcing(mapping)
        lines = ["bind pub - op !op", "bind msg - echo echo", "channel #egg", "log lines"]
        self.bot = Bot(trial.program, trial.room, f"bot{trial.number()}", [self.server], lines)
        self.is_up = self.bot.start() and all("accepted" in self.bot.tell(*it)[1] for it in MASKS)
        self.visitor = self.joined(0)

    def joined(self, number):
        """The connection of this number, once the bot has joined there."""
        there = comes(lambda: self.server.visitors[number:] and self.server.visitors[number].said("^JOIN #egg"), 4 * SOON)
        return self.server.visitors[number] if there else None

    def end(self):
        end_all(self.bot, self.server)


def row(trial, what, wanted, puppet):
    came = given(puppet.visitor) if puppet.is_up and puppet.visitor else ["no bot"]
    trial.row(what, f"op for {' '.join(wanted)}", f"op for {' '.join(came) or 'nobody'}", came == wanted)


def mappings(trial):
    """What a server announces at its welcome."""
    for mapping, wanted in MAPPINGS:
        puppet = Puppet(trial, mapping)
        try:
            row(trial, f"{' '.join(ASKERS)} say !op after {'no announcement' if mapping is None else f'CASEMAPPING={mapping}'}", wanted, puppet)
        finally:
            puppet.end()


def later(trial):
    """What a server announces after a JOIN was read, and what it announced on the connection before."""
    for first, second, wanted in (("rfc1459", "ascii", ALL), (None, "ascii", ALL), ("ascii", "rfc1459", LETTERS)):
        puppet = Puppet(trial, first)
        try:
            given(puppet.visitor)
            since = len(puppet.bot.logged().splitlines())
            puppet.visitor.say(announcement(puppet.visitor, second))
            row(trial, f"after {first or 'no announcement'}, a JOIN and then {second}", wanted, puppet)
            logged = [it for it in puppet.bot.logged().splitlines()[since:] if second in it and " < " not in it]
            trial.row(f"after {first or 'no announcement'}, a JOIN and then {second}: the log", f"a line that names {second}", logged, bool(logged))
        finally:
            puppet.end()


def again(trial):
    """Another connection, on which nothing is announced, and one on which something else is."""
    puppet = Puppet(trial, "ascii")
    try:
        row(trial, "ascii", LETTERS, puppet)
        for number, (mapping, wanted) in enumerate(((None, ALL), ("ascii", LETTERS)), 1):
            puppet.server.mapping = mapping
            puppet.visitor.is_open = False
            puppet.visitor.socket.shutdown(2)
            time.sleep(1)
            puppet.visitor = puppet.joined(number)
            row(trial, f"after a reconnect, {mapping or 'no announcement'}", wanted, puppet)
    finally:
        puppet.end()


ANNOUNCEMENTS = [("announced", mappings), ("later", later), ("reconnects", again)]
