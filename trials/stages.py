"""A bot and people at a server, in scenes that begin anew: for the trials of accounts."""
import re

from bots import Bot, Guest, end_all
from casemappings import Lacking, Rows
from services import PASSWORD
from taps import Tap
from telling import modes_of

BINDS = ["bind pub - op !op", "bind msg - echo echo", "bind pub - seen !seen", "bind join - autoop *", "bind mode - opall *",
         "bind mode - enforcebans *", "bind msg - +user +user", "bind msg - whois whois"]
SOON = 15  # seconds for what a bot says at once, if at all
LONG = 60  # seconds for a fence, since a bot says a line in two seconds


class Stage:
    """A fresh bot on a fresh channel where chief is op. `records` are words for `tell`."""

    def __init__(self, part, records, binds=(), is_op=True, begins=True):
        self.part, self.chief, self.records, self.is_op, self.begins = part, part.chief, records, is_op, begins
        number = part.number()
        self.channel, self.nick, self.people = f"{part.mark}egg{number}", f"egg{number}", []
        lines = [*BINDS, *binds, "log lines", f"channel {self.channel}"]
        self.bot = Bot(part.program, part.room, f"bot{number}", [part.tap], lines, nick=self.nick)

    def __enter__(self):
        self.chief.asks(f"JOIN {self.channel}", " 366 ", SOON)
        try:
            if self.begins:
                self.begin()
        except Lacking:
            self.__exit__()
            raise
        return self

    def begin(self):
        """Starts the bot, which chief gives op if it is to have it."""
        since = len(self.chief.lines)
        is_up = self.bot.start()
        told = [self.bot.tell(*it) for it in self.records] if is_up else []
        joins = self.chief.hears(rf"^:{self.nick}!\S+ JOIN :?{re.escape(self.channel)}\b", since, LONG)
        if not (is_up and joins and all("accepted" in it[1] for it in told)):
            self.part.row("a bot begins", "it joins, and takes its records", [*told, joins, *self.bot.logged().splitlines()[-8:]], False)
            raise Lacking(self.nick)
        if self.is_op:
            self.chief.say(f"MODE {self.channel} +o {self.nick}")
        self.fence(self.chief)

    def __exit__(self, *_):
        since = len(self.chief.lines)
        for it in self.people:
            it.say("QUIT")
        if self.bot.process:
            self.bot.end("bye")
            self.chief.hears(rf"^:{self.nick}!\S+ QUIT", since, SOON)
        end_all(*self.people, self.bot)
        self.chief.asks(f"PART {self.channel}", f" PART :?{re.escape(self.channel)}", SOON)

    def person(self, nick, user="someone", address="127.0.0.1", account=None):
        """Somebody who is logged in to an account, if one is said."""
        it = Guest(self.part.server, nick, user, address)
        self.people.append(it)
        if not it.is_welcome or (account and not self.logs_in(it, account)):
            self.part.row(f"{nick} comes", f"a welcome, and the account {account}", it.lines[-3:], False)
            raise Lacking(nick)
        return it

    @staticmethod
    def logs_in(person, account):
        """Has somebody log in to an account. Whether the server says so."""
        return person.asks(f"PRIVMSG NickServ :IDENTIFY {account} {PASSWORD}", rf" 900 \S+ \S+ {account} ", LONG)

    @staticmethod
    def logs_out(person):
        return person.asks("PRIVMSG NickServ :LOGOUT", " 901 ", LONG)

    def fence(self, person):
        """Waits until the bot has done what it does after all that a person said: it answers him last."""
        word = f"fence {self.part.number()}"
        if not person.asks(f"PRIVMSG {self.nick} :echo {word}", rf"^:\S+ PRIVMSG \S+ :?{word}$", LONG):
            self.part.row("a private message", "an answer", self.bot.logged().splitlines()[-4:], False)
        self.chief.asks(f"PING :{word}", rf" PONG .*{word}$", LONG)

    def after(self, person, *lines, since=None):
        """What chief hears of the bot until it has done what it does after these lines of a person."""
        since = len(self.chief.lines) if since is None else since
        for it in lines:
            person.say(it)
        self.fence(person)
        return [it.partition(" ")[2] for it in self.chief.lines[since:] if it.startswith(f":{self.nick}!")]

    def takes_op(self, nick):
        """Has chief take op from a nick."""
        self.chief.asks(f"MODE {self.channel} -o {nick}", rf" MODE \S+ -o :?{re.escape(nick)}$", SOON)

    def row(self, what, wanted, came):
        """A row whose lists are equal if all is well."""
        self.part.row(what, " | ".join(wanted) or "nothing", came, came == wanted)

    def gets(self, what, person, wanted, *lines, since=None):
        """A row: whether somebody gets op after saying these lines, and nobody else any mode. Then chief takes it. What chief
        heard counts from a place on."""
        came = modes_of(self.after(person, *lines, since=since), self.channel)
        self.row(what, [f"+o {person.nick}"] if wanted else [], came)
        if f"+o {person.nick}" in came:
            self.takes_op(person.nick)

    def joins(self, what, person, wanted):
        """Rows: whether somebody gets op who joins, and who then says !op."""
        self.gets(f"{what} joins; mode", person, wanted, f"JOIN {self.channel}")
        self.asks(what, person, wanted)

    def asks(self, what, person, wanted):
        """A row: whether somebody gets op who says !op."""
        self.gets(f"{what} says !op; mode", person, wanted, f"PRIVMSG {self.channel} :!op")


class Part(Rows):
    """A server, and chief, who is op on each channel. A tap lies between the server and the bots."""

    def __init__(self, tally, program, room, server):
        super().__init__(tally, program, room, server.name)
        self.server, self.mark, self.chief = server, getattr(server, "mark", "#"), Guest(server, "chief")
        self.chief.hears(" (376|422) ")
        self.tap = Tap(server.port, server.password)

    def stage(self, records, **how):
        return Stage(self, records, **how)

    def stop(self):
        end_all(self.chief, self.tap)


def pace(part):
    """Servers disconnect who says too much at once."""
    came = [it for it in part.tap.heard if re.match("ERROR .*(?i:flood)", it)]
    part.row("all that its bots said", "no ERROR", came, not came)
