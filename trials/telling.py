"""A server that offers the capabilities that a trial chooses, in the trial's own process: what a bot makes of its lines."""
import re
import threading
import time

from bots import Bot, comes, end_all
from small_server import NAME, SmallServer

ASKED = "extended-join account-notify multi-prefix userhost-in-names chghost".split()
WHOX = "WHO #egg %tcuhna,152"
BINDS = ["bind pub - op !op", "bind msg - echo echo", "bind pub - seen !seen", "bind join - autoop *", "bind mode - opall *",
         "bind mode - enforcebans *"]
# boss is known by his account alone, cat and the voiced ann and bob by their hosts.
RECORDS = [["adduser", "boss"], ["addhost", "boss", "$a:boss"], ["global", "boss", "ao"],
           ["adduser", "cat"], ["addhost", "cat", "*!*@cat.host"], ["global", "cat", "a"],
           ["adduser", "ann"], ["addhost", "ann", "*!*@ann.host"], ["addhost", "ann", "*!*@bob.host"], ["global", "ann", "g"],
           ["adduser", "hat"], ["addhost", "hat", "*!good@hat.host"], ["global", "hat", "ao"]]
SOON = 15  # seconds for what a bot says at once, if at all
LONG = 60  # seconds for a fence, since a bot says a line in two seconds
TAGS = "@time=2026-11-29T16:00:00.000Z;account=x "


class Telling(SmallServer):
    """The small server with capabilities; `offers` is none for a server without CAP. It rejects all if it is unwilling. It
    announces tokens after its welcome, and `names` are who is on each channel beside the bot, which is op. It tells `whox`
    to whoever asks by WHOX, and puts `front` before each line. It says all in pieces of `piece` bytes, if that is not 0."""

    def __init__(self, offers=(), *, tokens="CHANTYPES=#", names="", whox=(), is_willing=True, front="", piece=0):
        super().__init__()
        self.offers, self.tokens, self.names, self.whox = offers, tokens, names, whox
        self.is_willing, self.front, self.piece, self.acked, self.lock = is_willing, front, piece, {}, threading.Lock()

    def says(self, visitor, *lines):
        text = "".join(f"{self.front}{line}\r\n" for line in lines).encode()
        size = self.piece or len(text) or 1
        with self.lock:
            for place in range(0, len(text), size):
                visitor.socket.sendall(text[place:place + size])
                time.sleep(0.001 if self.piece else 0)

    def answer(self, visitor, line):
        word, _, rest = line.partition(" ")
        if word == "CAP":
            self.cap(visitor, rest)
        elif word == "USER" and (self.offers is None or not visitor.said("^CAP LS")):
            self.welcome(visitor)
        elif word == "WHO" and "%" in rest:
            self.says(visitor, *(f":{NAME} 354 {visitor.nick} {it}" for it in self.whox), f":{NAME} 315 {visitor.nick} #egg :End of /WHO list.")
        elif word == "PING":
            self.says(visitor, f":{NAME} PONG {NAME} {rest}")
        elif word not in ("USER", "PING"):
            super().answer(visitor, line)

    def cap(self, visitor, rest):
        nick, front = visitor.nick, f":{NAME} CAP {visitor.nick}"
        if self.offers is None:
            self.says(visitor, f":{NAME} 421 {nick} CAP :Unknown command")
        elif rest.startswith("LS"):
            self.says(visitor, f"{front} LS * :away-notify batch", f"{front} LS :{' '.join(['invite-notify', *self.offers])}")
        elif rest.startswith("REQ"):
            words = rest.partition(" ")[2].lstrip(":").split()
            is_acked = self.is_willing and set(words) <= set(self.offers)
            self.acked[visitor] = words if is_acked else []
            self.says(visitor, f"{front} {'ACK' if is_acked else 'NAK'} :{' '.join(words)}")
        elif rest == "END":
            self.welcome(visitor)

    def welcome(self, visitor):
        nick = visitor.nick
        self.says(visitor, f":{NAME} 001 {nick} :welcome", f":{NAME} 005 {nick} NICKLEN=30 :are supported by this server",
                  f":{NAME} 005 {nick} {self.tokens} :are supported by this server", f":{NAME} 376 {nick} :End of /MOTD command")

    def join(self, visitor, channel):
        nick, acked = visitor.nick, self.acked.get(visitor, [])
        own = f"{nick}!{nick}@host.trial" if "userhost-in-names" in acked else nick
        more = " * :egg" if "extended-join" in acked else ""
        self.says(visitor, f":{nick}!{nick}@host.trial JOIN {channel}{more}", f":{NAME} 353 {nick} = {channel} :@{own} {self.names}".rstrip(),
                  f":{NAME} 366 {nick} {channel} :End of /NAMES list")


def modes_of(lines, channel="#egg"):
    """The modes with arguments that the bot sets on a channel by these lines of its own, as `+o ann`, in their order."""
    found = []
    for line in lines:
        said = re.match(rf"MODE {re.escape(channel)} ([-+a-zA-Z]+) (.*)$", line)
        arguments, sign = said.group(2).split() if said else [], "+"
        for letter in said.group(1) if said else "":
            if letter in "+-":
                sign = letter
            elif arguments:
                found.append(f"{sign}{letter} {arguments.pop(0).lstrip(':')}")
    return found


def kicks_of(lines):
    """Whom the bot kicks by these lines of its own."""
    return [line.split(" ")[2] for line in lines if line.startswith("KICK ")]


class Puppet:
    """A bot at a server that says what an attack chooses; the visitor is the bot's connection."""

    def __init__(self, trial, *words, **how):
        self.trial, self.server = trial, Telling(*words, **how)
        self.bot = Bot(trial.program, trial.room, f"bot{trial.number()}", [self.server], [*BINDS, "channel #egg", "log lines"])

    def __enter__(self):
        is_up = self.bot.start()
        told = [self.bot.tell(*it) for it in RECORDS] if is_up else []
        self.visitor = self.joined(0)
        if not (is_up and self.visitor and all("accepted" in it[1] for it in told)):
            self.trial.row("a bot begins", "it joins, and takes its records", [*told, *self.bot.logged().splitlines()[-8:]], False)
            self.__exit__()
            raise OSError("no bot")
        return self

    def __exit__(self, *_):
        end_all(self.bot, self.server)

    def joined(self, number):
        """The connection of this number, once the bot has joined there."""
        there = comes(lambda: self.server.visitors[number:] and self.server.visitors[number].said("^JOIN #egg"), LONG)
        return self.server.visitors[number] if there else None

    def lines(self):
        """What the bot said on its connections."""
        return [line for it in self.server.visitors for _, line in it.lines]

    def requests(self):
        """The capabilities that the bot asked for on its first connection."""
        return sorted(word for _, line in self.server.visitors[0].lines if line.startswith("CAP REQ") for word in line.partition(":")[2].split())

    def says(self, *lines):
        """Has the server say lines."""
        self.server.says(self.visitor, *lines)

    def after(self, *lines):
        """What the bot says after these lines, until it has done what it does after them: it answers a message last."""
        before, fences = len(self.visitor.lines), len(self.visitor.said("PRIVMSG fence "))
        self.says(*lines, ":fence!user@host.trial PRIVMSG egg :echo done")
        comes(lambda: len(self.visitor.said("PRIVMSG fence ")) > fences, LONG)
        return [line for _, line in self.visitor.lines[before:] if "PRIVMSG fence " not in line]

    def row(self, what, wanted, came):
        """A row whose lists are equal if all is well."""
        self.trial.row(what, " | ".join(wanted) or "nothing", came, came == wanted)

    def ops(self, what, wanted, *lines):
        """A row: to whom the bot gives op after these lines."""
        self.row(what, wanted, [it[3:] for it in modes_of(self.after(*lines)) if it.startswith("+o ")])


# What a server offers, how it then lists members, and whether it shows hosts and each sign.
LISTS = [(None, "@ann +bob cat", False, False), ((), "@ann +bob cat", False, False),
         (["multi-prefix"], "@+ann +bob cat", False, True),
         (["userhost-in-names"], "@ann!a@ann.host +bob!b@bob.host cat!c@cat.host", True, False),
         (ASKED, "@+ann!a@ann.host +bob!b@bob.host cat!c@cat.host", True, True)]


def lists(trial):
    """Lists of names with and without hosts and signs."""
    for offers, names, has_hosts, has_signs in LISTS:
        with Puppet(trial, offers, names=names) as puppet:
            shown = "no CAP" if offers is None else " ".join(offers) or "others alone"
            puppet.row(f"offered: {shown}; asked for", sorted(offers or ()), puppet.requests())
            sought = ("ann", "bob", "cat", "a@ann.host")
            heard = puppet.after(":fay!f@fay.host JOIN #egg", *(f":fay!f@fay.host PRIVMSG #egg :!seen {it}" for it in sought))
            there = [it.partition(" :")[2] for it in heard if it.startswith("NOTICE fay ")]
            wanted = [*(f"{it} is on #egg now" for it in ("ann", "bob", "cat")), "a@ann.host is neither here nor known"]
            puppet.row(f"{shown}: {names}; who is there", wanted, there)
            came = kicks_of(puppet.after(*(f":chief!c@h MODE #egg +b *!*@{it}.host" for it in ("ann", "cat", "fay"))))
            puppet.row(f"{shown}: bans of ann's, cat's and fay's hosts; kicked", ["ann", "cat", "fay"] if has_hosts else ["fay"], came)
            came = modes_of(puppet.after(":chief!c@h MODE #egg -o ann", ":chief!c@h MODE #egg -o egg", ":chief!c@h MODE #egg +o egg"))
            wanted = ([] if has_signs else ["+v ann"]) + ["+o cat"] if has_hosts else []
            puppet.row(f"{shown}: ann loses op, the bot gets it; who gets op or voice", wanted, came)


JOINS = [":one!u@one.host JOIN #egg boss :A Name", ":two!u@two.host JOIN #egg * :A Name", ":boss!boss@boss.host JOIN #egg mallory :boss",
         ":four!u@four.host JOIN #egg BOSS :boss", ":five!u@five.host JOIN :#egg", ":six!u@six.host JOIN #egg boss",
         ":seven!u@seven.host JOIN #egg six!good@hat.host :boss"]
JOINED = ["one", "two", "boss", "four", "five", "six", "seven"]


def joins(trial):
    """JOINs with accounts, where the server has acknowledged that they have them, and where it has not."""
    for what, how, wanted in (("extended-join", {"offers": ASKED}, ["one", "four", "six"]), ("not offered", {"offers": ASKED[1:]}, []),
                              ("no CAP", {"offers": None}, []), ("rejected", {"offers": ASKED, "is_willing": False}, [])):
        with Puppet(trial, **how) as puppet:
            puppet.ops(f"{what}: {' '.join(JOINED)} join, of accounts boss * mallory BOSS - boss six!good@hat.host; op", wanted, *JOINS)
            puppet.ops(f"{what}: each says !op; op", wanted, *(f":{it}!u@{it}.host PRIVMSG #egg :!op" for it in JOINED))
    with Puppet(trial, ASKED) as puppet:
        puppet.ops("extended-join was taken away by CAP DEL; op", ["one"], JOINS[0], f":{NAME} CAP egg DEL :away-notify extended-join",
                   ":six!u@six.host JOIN #egg boss :A Name", ":six!u@six.host PRIVMSG #egg :!op")


# What becomes of a person, and whether somebody of the nick has the rights of the account boss then.
FATES = [
    ("a0", "is logged in", [":a0!u@h ACCOUNT boss"], True),
    ("a1", "was never logged in", [], False),
    ("a2", "logs out", [":a2!u@h ACCOUNT boss", ":a2!u@h ACCOUNT *"], False),
    ("a3", "logs in to another account", [":a3!u@h ACCOUNT boss", ":a3!u@h ACCOUNT mallory"], False),
    ("a4", "comes from another one", [":a4!u@h ACCOUNT mallory", ":a4!u@h ACCOUNT boss"], True),
    ("a5", "was another nick", [":b5!u@h JOIN #egg", ":b5!u@h ACCOUNT boss", ":a5!u@h QUIT :gone", ":b5!u@h NICK a5"], True),
    ("a6", "takes the nick of who is logged in", [":a6!u@h ACCOUNT boss", ":a6!u@h NICK b6", ":a6!u@h JOIN #egg"], False),
    ("a7", "comes after a QUIT", [":a7!u@h ACCOUNT boss", ":a7!u@h QUIT :gone", ":a7!u@h JOIN #egg"], False),
    ("a8", "comes after a PART", [":a8!u@h ACCOUNT boss", ":a8!u@h PART #egg", ":a8!u@h JOIN #egg"], False),
    ("a9", "comes after a KICK", [":a9!u@h ACCOUNT boss", ":chief!c@h KICK #egg a9 :out", ":a9!u@h JOIN #egg"], False),
    ("a10", "logs in and then joins", [":a10!u@h PART #egg", ":a10!u@h ACCOUNT boss", ":a10!u@h JOIN #egg"], False),
    ("a12", "has an account that looks like hat's address", [":a12!u@h ACCOUNT hat!good@hat.host"], False),
    ("a11", "has a new host", [":a11!u@h ACCOUNT boss", ":a11!u@h CHGHOST new new.host"], True),
]


def accounts(trial):
    """ACCOUNT, and whom it then concerns."""
    with Puppet(trial, ASKED[1:], names=" ".join(it[0] for it in FATES)) as puppet:
        lines = [line for _, _, said, _ in FATES for line in said]
        came = modes_of(puppet.after(*lines, *(f":{it[0]}!u@h PRIVMSG #egg :!op" for it in FATES)))
        for nick, what, _, wanted in FATES:
            puppet.row(f"{nick} {what}, and says !op", [f"+o {nick}"] if wanted else [], [it for it in came if it.split()[1] == nick])


def hosts(trial):
    """CHGHOST."""
    with Puppet(trial, ASKED, names="dan!d@dan.host eve!e@eve.host") as puppet:
        puppet.says(":dan!d@dan.host CHGHOST new new.host")
        for mask, wanted in (("*!*@dan.host", []), ("*!d@*", []), ("*!*@new.host", ["dan"])):
            puppet.row(f"dan is new@new.host by CHGHOST; a ban of {mask}; kicked", wanted, kicks_of(puppet.after(f":chief!c@h MODE #egg +b {mask}")))


TOLD = ["152 #egg a ann.host ann boss", "152 #egg d dan.host dan 0", "153 #egg e eve.host eve boss", "152 #egg f fay.host fay"]


def asked(trial):
    """WHOX, which tells who is logged in. It is asked only if ACCOUNT will tell who logs out, and so are JOINs with accounts."""
    without = [it for it in ASKED if it != "account-notify"]
    for what, tokens, offers, is_known in (("WHOX", "CHANTYPES=# WHOX", ASKED, True), ("no WHOX", "WHOXX CHANTYPES=# XWHOX -WHOX", ASKED, False),
                                           ("WHOX without account-notify", "CHANTYPES=# WHOX", without, False)):
        with Puppet(trial, offers, tokens=tokens, names="ann dan eve fay", whox=TOLD) as puppet:
            comes(lambda puppet=puppet: WHOX in puppet.lines(), SOON if is_known else 3)
            puppet.after()
            puppet.row(f"{what}: asked", [WHOX] if is_known else [], [it for it in puppet.lines() if it.startswith("WHO")])
            if offers == without:
                puppet.row(f"{what}: capabilities", sorted(set(offers) - {"extended-join"}), puppet.requests())
            told_by_whox(puppet, what, is_known)
            if is_known:
                asked_again(puppet)


def told_by_whox(puppet, what, is_known):
    """Rows: what the bot knows after the answer to WHOX, or without one."""
    names = ("ann", "dan", "eve", "fay")
    puppet.ops(f"{what}: {' '.join(names)} say !op, of whom ann has the account; op", ["ann"] if is_known else [],
               *(f":{it}!u@h PRIVMSG #egg :!op" for it in names))
    came = kicks_of(puppet.after(*(f":chief!c@h MODE #egg +b *!*@{it}.host" for it in ("dan", "eve"))))
    puppet.row(f"{what}: bans of dan's and eve's hosts, of which dan's is told; kicked", ["dan"] if is_known else [], came)


def asked_again(puppet):
    """A bot that joins again, and one that connects again."""
    count = lambda: len([it for it in puppet.lines() if it == WHOX])
    puppet.says(":chief!c@h KICK #egg egg :out")
    comes(lambda: count() > 1, LONG)
    puppet.row("the bot is kicked, and joins again; asked so often", ["2"], [str(count())])
    puppet.visitor.is_open = False
    puppet.visitor.socket.shutdown(2)
    puppet.visitor = puppet.joined(1)
    comes(lambda: count() > 2, LONG)
    puppet.after()
    puppet.row("the bot connects again; asked so often", ["3"], [str(count())])


def tags(trial):
    """Lines with tags read as those without."""
    long = f"@+x={'y' * 4090} "
    names = " ".join(f"t{it}" for it in range(10))
    with Puppet(trial, ASKED, names=names) as puppet:
        puppet.says(*(f":t{it}!u@h ACCOUNT boss" for it in range(9) if it != 1))
        lines = [":t0!u@h PRIVMSG #egg :!op", f"{TAGS}:t1!u@h ACCOUNT boss", ":t1!u@h PRIVMSG #egg :!op", f"{TAGS}:t2!u@h PRIVMSG #egg :!op",
                 f"@a=b;+c/d=\\:\\s\\\\;e   :t3!u@h PRIVMSG #egg :!op", f"{long}:t4!u@h PRIVMSG #egg :!op", "@only=tags",
                 ":t5!u@h PRIVMSG #egg :!op", f"@account=boss :t9!u@h PRIVMSG #egg :!op", f"@account=* :t6!u@h PRIVMSG #egg :!op"]
        puppet.ops("lines without tags, with tags, long ones, and none but tags; op", [f"t{it}" for it in range(7)], *lines)
        for nick, cut in (("t7", 3), ("t8", len(TAGS))):
            line, before = f"{TAGS}:{nick}!u@h PRIVMSG #egg :!op\r\n".encode(), len(puppet.visitor.lines)
            for piece in (line[:cut], line[cut:]):
                puppet.visitor.socket.sendall(piece)
                time.sleep(0.5)
            puppet.after()
            came = modes_of(line for _, line in puppet.visitor.lines[before:])
            puppet.row(f"a line that comes in two pieces, cut after {cut} bytes; mode", [f"+o {nick}"], came)
        puppet.says("@time=x PING :token")
        puppet.row("PING with tags", ["PONG token"], [it.replace(":", "") for it in puppet.after() if it.startswith("PONG")])
    for front, piece in ((TAGS, 0), (TAGS.replace(" ", "   "), 1), (TAGS, 7)):
        with Puppet(trial, ASKED, tokens="CHANTYPES=# WHOX", names="ann", whox=TOLD[:1], front=front, piece=piece) as puppet:
            comes(lambda puppet=puppet: WHOX in puppet.lines(), SOON)
            puppet.after()
            puppet.ops(f"all lines of the server have tags, in pieces of {piece or 'any number of'} bytes; ann, of whom WHOX tells, says !op; op",
                       ["ann"], ":ann!a@ann.host PRIVMSG #egg :!op")
            logged = [it for it in puppet.bot.logged().splitlines() if "2026-11-29T" in it]
            puppet.row("the log shows lines without tags; tags there", [], logged[:1])


TELLINGS = [("lists", lists), ("joins", joins), ("ACCOUNT", accounts), ("CHGHOST", hosts), ("WHOX", asked), ("tags", tags)]
