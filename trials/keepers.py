"""Bots that keep a channel, for trials/keeping.py: a net of ours and an Eggdrop, each on a channel of its own at one server."""
import re
import sys
import time
from collections import Counter
from pathlib import Path

sys.path.insert(0, str(Path(__file__).resolve().parent.parent / "benchmarks"))
from bots import Guest, comes, end_all
from eggdrops import Eggdrop
from nets import Net, version_of

LEAVES = 4
SOON = 10  # seconds until the bots have answered
QUIET = 23  # seconds in which the last of five bots would look
OPS = ("ann", "bob", "cat")
BACK = {"-n": "+n", "+i": "-i", "+m": "-m", "+k sesame": "-k"}  # what undoes a stranger's change

BINDS = ["log lines", "bind pub - ban !ban", "bind join - autoop *", "bind join - greet *", "bind join - opall *",
         *[f"bind mode - {it} *" for it in ("opall", "protectops", "bitch", "guard", "enforcebans", "dynamicbans")],
         *[f"bind mode - keepmodes #egg {it.split()[0]}" for it in BACK], *[f"bind {it} - cycle *" for it in ("part", "sign", "kick")],
         "bind raw - kickfloods FLOOD"]
OF_HUB = ["bind cron - expire * * * * *", "bind bot - giveop needop"]
OF_LEAF = ["bind join - needop *", "bind mode - needop *", "bind cron - needop */5 * * * *"]

# Eggdrop's settings for the same. Its limit of deops is the one that it has by itself.
DROP = """
foreach channel {#drop #lone2} {channel set $channel +protectops +bitch +enforcebans +autoop +cycle +greet flood-deop 3:10 flood-chan 15:60 flood-nick 5:60 flood-join 5:60 flood-kick 3:10 aop-delay 0:0}
channel set #drop chanmode +nt-imk
proc ban {nick address handle channel text} {
  lassign [split $text] mask minutes
  newchanban $channel $mask $handle away $minutes
  pushmode $channel +b $mask
  save
}
bind pub o !ban ban
proc known {args} {
  foreach {handle flags} {chief2 m ann2 oa bob2 oa cat2 oa} {adduser $handle $handle!*@*; chattr $handle +$flags}
  if {![isban clone*!*@* #drop]} {newchanban #drop clone*!*@* chief2 clone 0}
}
bind evnt - loaded known
"""


def acts_of(words):
    """What the words of a MODE or KICK do: '+o ann', '-n' and 'KICK ann' are acts. A key isn't named: a server may hide it."""
    kind, _, letters, *arguments = [it.lstrip(":") for it in words]
    if kind == "KICK":
        return [f"KICK {letters}"]
    acts, sign = [], ""
    for letter in letters:
        if letter in "+-":
            sign = letter
        elif sign:
            argument = arguments.pop(0) if arguments and letter in "ovbk" else ""
            acts.append(f"{sign}{letter} {argument}" if argument and letter != "k" else sign + letter)
    return acts


class Side:
    """Bots on a channel, and the people there. Chief, a master, watches."""

    def __init__(self, tally, server):
        self.tally, self.server, self.people, self.ops = tally, server, {}, [name + self.end for name in OPS]
        self.chief, self.founder = self.person("chief"), self.person("founder")
        self.chief.asks(f"JOIN {self.channel}", r" 366 ")
        self.founder.asks(f"JOIN {self.lone}", r" 366 ")
        self.chief.say(f"MODE {self.channel} +n")

    def person(self, name):
        """Somebody of this name at the server, who comes once."""
        return self.people.get(name) or self.people.setdefault(name, Guest(self.server, name + self.end))

    def on_channel(self, name):
        guest = self.person(name)
        guest.asks(f"JOIN {self.channel}", r" 366 ", 2)
        return guest

    def gives_op(self, *nicks):
        for nick in nicks:
            self.chief.asks(f"MODE {self.channel} +o {nick}", rf" MODE {self.channel} \+o :?{nick}\b", 2)

    def stranger(self):
        """Somebody whom the records don't know, and to whom a master gives op."""
        mallory = self.on_channel("mallory")
        self.gives_op(mallory.nick)
        return mallory

    def seen(self, since):
        """The acts of the bots on the channel, as chief hears them."""
        found = [re.match(rf":([^!]+)!\S+ ((?:MODE|KICK) {self.channel} .+)", line) for line in self.chief.lines[since:]]
        return [act for it in found if it and it[1] in self.nicks for act in acts_of(it[2].split())]

    def tried(self, what, does, wanted, soon=SOON, quiet=QUIET, by_each=False):
        """Has something happen, and judges what the bots do then: what is wanted, soon, and each act once, or once by each
        bot. How many seconds it took; none if something is lacking."""
        mark, since, began = self.mark(), len(self.chief.lines), time.monotonic()
        does()
        comes(lambda: set(wanted(since)) <= set(self.seen(since)), soon + 20)
        took = time.monotonic() - began
        lacking = set(wanted(since)) - set(self.seen(since))
        time.sleep(quiet)
        if by_each:
            self.judge(what, lacking, took, soon, [], Counter())
            self.judge_each(what, mark)
        else:
            self.judge(what, lacking, took, soon, self.sent(mark), Counter(wanted(since)))
        return None if lacking else took

    def say(self, text):
        self.tally.say(f"{self.server.name}: {self.name}: {text}")


class Ours(Side):
    """A hub and four leaves. Their logs have all that they send."""

    name, end, channel, lone = "ours", "", "#egg", "#lone"

    def __init__(self, tally, server, program, room):
        super().__init__(tally, server)
        self.net = Net(program, room, server, LEAVES)
        self.bots, self.nicks = self.net.bots, [it.nick for it in self.net.bots]
        for place, bot in enumerate(self.bots):
            # (without a line, a limit is Eggdrop's)
            said = [it for it in Path(bot.config).read_text(encoding="utf-8").splitlines() if not it.startswith("flood-")]
            Path(bot.config).write_text("\n".join(said + BINDS + (OF_LEAF if place else OF_HUB)) + "\n", encoding="utf-8")

    def note(self, what, holds, seen=""):
        self.tally.note(f"{self.server.name}: {what}", holds, seen)

    def come(self):
        """Starts the bots. Whether all are on the channel soon."""
        since = len(self.chief.lines)
        up = [it.start() for it in self.bots]
        return all(up) and comes(lambda: all(self.chief.hears(rf"^:{it}!\S+ JOIN", since, 0) for it in self.nicks), 60)

    def start(self):
        on, flags = self.come(), {"chief": "m", **dict.fromkeys(OPS, "ao"), **dict.fromkeys(self.nicks, "bo")}
        said = [words for it in flags for words in (["adduser", it], ["addhost", it, f"{it}!*@*"], ["global", it, flags[it]])]
        said += [["addban", self.channel, "clone*!*@*", "chief", "0", "clone"]]
        told = [self.bots[0].tell(*words)[1] for words in said]
        known = comes(lambda: all(version_of(it.show()[1]) == len(said) for it in self.bots))
        self.note("five bots start, join and know the records", on and known, told[-1])
        self.gives_op(*self.nicks)
        time.sleep(QUIET)  # a bot has little room in its pace when it has just come

    def restart(self):
        """Kills all bots, and starts them. Chief gives the hub op."""
        end_all(*self.bots)
        self.note("all bots are killed, and come again", self.come())
        self.tried("the hub gets op, and gives it the leaves", lambda: self.gives_op("egg0"),
                   lambda _: [f"+o {it}" for it in self.nicks[1:]], 30, 12)

    def mark(self):
        return [len(it.logged()) for it in self.bots]

    def lines(self, mark):
        """Who sent which MODE or KICK since a mark."""
        return [(bot.nick, line) for bot, place in zip(self.bots, mark)
                for line in re.findall(rf"^\d+ > ((?:MODE|KICK) {self.channel} \S.*)", bot.logged()[place:], re.M)]

    def sent(self, mark):
        """Who sent which act since a mark."""
        return [(nick, act) for nick, line in self.lines(mark) for act in acts_of(line.split())]

    def judge_each(self, what, mark):
        """Waits until the bots have sent all that waits, and notes whether each has sent each line once at most."""
        sent = self.lines(mark)
        while comes(lambda: len(self.lines(mark)) > len(sent), QUIET / 4):
            sent = self.lines(mark)
        wrong = [f"{nick}: {line} {count} times" for (nick, line), count in Counter(sent).items() if count > 1]
        self.note(f"{what}: each bot sends each line once at most", not wrong, "; ".join([f"{len(sent)} sent", *wrong])[:300])

    def judge(self, what, lacking, took, soon, sent, wanted):
        """Notes whether all was done soon, and whether each act was sent once."""
        self.note(f"{what}: all is done within {soon} s", not lacking and took <= soon,
                  f"{took:.1f} s{', lacks ' + ', '.join(lacking) if lacking else ''}")
        if not wanted:
            return
        counts = Counter(act for _, act in sent)
        wrong = [f"{act}: {', '.join(nick for nick, it in sent if it == act)}" for act in counts | wanted if counts[act] != wanted[act]]
        self.note(f"{what}: each act once", not wrong, "; ".join([f"{len(sent)} sent", *wrong])[:300])

    def enter_alone(self):
        return self.bots[-1].tell("+chan", self.lone)[0] == 0 and self.founder.hears(rf"^:{self.nicks[-1]}!\S+ JOIN", 0)


class Theirs(Side):
    """An Eggdrop. Of what it does we know what chief hears."""

    name, end, channel, lone, nicks = "Eggdrop", "2", "#drop", "#lone2", ["drop"]

    def __init__(self, tally, server, room):
        super().__init__(tally, server)
        asks = f"set servers {{127.0.0.1:{server.port}:guest}}\n" if server.password else ""
        self.bots = [Eggdrop(room, "drop", server, [self.channel, self.lone], DROP + asks)]

    def start(self):
        """Starts it, and gives it op."""
        since = len(self.chief.lines)
        self.bots[0].begin()
        self.chief.hears(r"^:drop!\S+ JOIN", since, 90)
        time.sleep(SOON)
        self.gives_op(*self.nicks)

    def restart(self):
        end_all(*self.bots)
        # (it takes a process of this number for itself, also one that has ended)
        Path(self.bots[0].folder, "pid").unlink(missing_ok=True)
        self.bots[0].users = "users"
        self.start()

    def mark(self):
        return len(self.chief.lines)

    def sent(self, mark):
        return [("drop", act) for act in self.seen(mark)]

    def judge_each(self, what, mark):
        """Tells what it did."""
        self.say(f"{what}: {', '.join(act for _, act in self.sent(mark))}"[:300])

    def judge(self, what, lacking, took, _, sent, __):
        """Tells what it did."""
        acts = ", ".join(act for _, act in sent)
        self.say(f"{what}: {'lacks ' + ', '.join(lacking) if lacking else 'all is done'} after {took:.1f} s: {acts}"[:300])

    def enter_alone(self):
        return self.founder.hears(r"^:drop!\S+ JOIN", 0, 60)
