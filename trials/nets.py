"""A hub, its leaves and a proxy between them, for trials/net."""
import os
import random
import re
import select
import socket
import struct
import threading
import time
from pathlib import Path

from bots import PATIENCE, Bot, free_port
from spaces import Loopback

SECRET = b"a secret of all bots of this trial"


def version_of(shown):
    """The version in what a bot shows; none where it shows none."""
    words = (shown or "").split()
    return int(words[2]) if len(words) > 2 and words[1] == "version" else None


def records_of(shown):
    """The records in what a bot shows, without its number."""
    return tuple(line.split(" ", 1)[1] for line in shown.splitlines()[1:])


class Net:
    """A hub and leaves of one server, each in a space of its own; the leaves reach the hub by a proxy in the middle.
    They are at loopback addresses where no spaces are given."""

    def __init__(self, program, room, server, leaves, spaces=None):
        self.server, spaces, secret = server, spaces or Loopback(), f"{room}/secret"
        Path(secret).write_bytes(SECRET + b"\n")
        self.address, self.leaves, self.spaces = (spaces.address(0), free_port()), leaves, spaces
        self.proxy = Proxy(((spaces.middle, 0), self.address))
        self.doors = [self.proxy, *([door_of(server, spaces)] if spaces.are_apart else [])]
        hub = [f"bot 0 of {leaves}", f"listen {self.address[0]} {self.address[1]}", f"secret {secret}", "channel #egg",
               "bind msg - +user +user"]
        self.bots = [Bot(program, room, "hub", [server], hub, nick="egg0")]
        for number in range(1, leaves + 1):
            lines = [f"bot {number} of {leaves}", f"hub {spaces.middle} {self.proxy.port}", *hub[2:]]
            self.bots.append(Bot(program, room, f"leaf{number}", [server], lines, nick=f"egg{number}"))
        for place, bot in enumerate(self.bots):
            bot.where = spaces.words(place)

    @staticmethod
    def ask(bot, line, count=2):
        """So many answers to a command on one connection."""
        with Operator(bot) as operator:
            operator.say(line)
            return [operator.hears() for _ in range(count)]


def door_of(server, spaces):
    """Lets bots in other namespaces reach a server, which listens at 127.0.0.1 alone."""
    server.host = spaces.middle
    return Proxy(((spaces.middle, server.port), ("127.0.0.1", server.port)))


def pull_a_wire(spaces, count):
    """Pulls the wire of one of so many bots for some seconds. Whose it was."""
    place = random.randrange(count)
    spaces.plug(place, False)
    time.sleep(random.uniform(1, 5))
    spaces.plug(place, True)
    return place


class Operator:
    """A connection to a bot's socket `control`."""

    def __init__(self, bot, seconds=PATIENCE):
        self.socket = socket.socket(socket.AF_UNIX)
        self.socket.settimeout(seconds)
        self.heard = b""
        self.socket.connect(f"{bot.folder}/control")

    def __enter__(self):
        return self

    def __exit__(self, *_):
        self.socket.close()

    def say(self, line):
        self.socket.sendall(line.encode() + b"\n")

    def hears(self):
        """The next answer, without its last line; none where the bot is gone."""
        while True:
            if self.heard.startswith(b".\n"):
                self.heard = self.heard[2:]
                return ""
            end = self.heard.find(b"\n.\n")
            if end >= 0:
                answer, self.heard = self.heard[:end + 1], self.heard[end + 3:]
                return answer.decode(errors="replace")
            came = self.socket.recv(65536)
            if not came:
                return None
            self.heard += came


def adding(record):
    return f"addban * {record} asker 0" if "!" in record else f"adduser {record}"


def taking(record):
    return f"delban * {record}" if "!" in record else f"deluser {record}"


def handles_and_masks(shown):
    """The handles of the users, and the masks of the bans of all channels, in what a bot shows."""
    words = [line.split() for line in records_of(shown)]
    return [it[1] for it in words if it[0] == "user"] + [it[2] for it in words if it[:2] == ["ban", "*"]]


class Claims:
    """What somebody was told of users and bans that he asked for, which nobody else asks for."""

    def __init__(self, name):
        # Those that are there, and those of which it is not known; the numbers of what was acknowledged; how many were
        # asked.
        self.name, self.here, self.doubtful, self.numbers, self.asked = name, [], set(), [], 0

    def wrong(self, records):
        """Those of its own that should be there once and are not, or are there and should not be."""
        own = [it for it in records if it.startswith(f"{self.name}x")]
        lacks = [it for it in self.here if own.count(it) != 1]
        known = {*self.here, *self.doubtful}
        return lacks + [it for it in own if it not in known or own.count(it) != 1]


class Speaker(Claims):
    """A master on IRC, who asks one bot after another for users by messages."""

    WAITS, AVOIDS = 30, 60

    def __init__(self, bots, guest):
        super().__init__("speaker")
        self.bots, self.guest, self.goes_on, self.avoided, self.strange = bots, guest, True, {}, None
        self.thread = threading.Thread(target=self.run, daemon=True)
        self.thread.start()

    def run(self):
        while self.goes_on and self.guest.is_open:
            self.ask(random.choice(self.bots))
            time.sleep(1)

    def ask(self, bot):
        # What a bot says late is of another user than the one that is asked for next: it is left alone for some time.
        if time.monotonic() < self.avoided.get(bot.nick, 0):
            return
        user = f"{self.name}x{self.asked}"
        self.asked += 1
        heard = self.guest.asks(f"PRIVMSG {bot.nick} :+user {user}", rf"^:{bot.nick}!\S+ NOTICE \S+ :", self.WAITS)
        told = re.search(r" :accepted under number (\d+)$", heard or "")
        if told:
            self.here.append(user)
            self.numbers.append(int(told[1]))
        else:
            self.doubtful.add(user)
            self.avoided[bot.nick] = time.monotonic() + self.AVOIDS

    def end(self):
        self.goes_on = False
        self.thread.join(self.WAITS + 5)


class Asker(Claims):
    """An operator who asks a bot for changes, one after another, and notes which were acknowledged, and under which
    numbers: users and bans of its own are added, and above so many of them the oldest is taken away again."""

    MOST, REST = 30, float(os.environ.get("REST", "0.02"))

    def __init__(self, bot, name):
        super().__init__(name)
        self.bot, self.goes_on, self.strange = bot, True, None
        self.thread = threading.Thread(target=self.run, daemon=True)
        self.thread.start()

    def run(self):
        while self.goes_on and not self.strange:
            try:
                with Operator(self.bot, 90) as operator:
                    self.talk(operator)
            except OSError:
                time.sleep(0.05)

    def talk(self, operator):
        """Asks until the bot is gone."""
        while self.goes_on and not self.strange:
            if len(self.here) > self.MOST:
                record = self.here.pop(0)
                line = taking(record)
            else:
                record = f"{self.name}x{self.asked}{'!*@*' if self.asked % 3 == 2 else ''}"
                line = adding(record)
            self.asked += 1
            self.doubtful.add(record)
            operator.say(line)
            answer = operator.hears()
            if answer == "queued\n":
                answer = operator.hears()
            if answer is None:
                return
            if answer.startswith(("refused S5 a disk failed", "refused S2 the bot is down")):
                # The bot ends. It is not known whether the change counts, or another's change met the fault.
                return
            if answer.startswith("refused U11 "):
                # Full of those of which it is not known: others make room.
                self.doubtful.remove(record)
                time.sleep(1)
                continue
            if answer.startswith("refused no room: "):
                # A fault met the file that sets space aside: the bot was not asked.
                self.doubtful.remove(record)
                if not line.startswith("add"):
                    self.here.insert(0, record)
                time.sleep(0.2)
                continue
            if not answer.startswith("accepted "):
                self.strange = f"{line}: {answer!r}"
                return
            self.numbers.append(int(answer.split()[1]))
            self.doubtful.remove(record)
            if line.startswith("add"):
                self.here.append(record)
            time.sleep(self.REST)

    def end(self):
        self.goes_on = False
        self.thread.join(95)


class Proxy:
    """Carries bytes between leaves and their hub. It can cut, tear, part, stall and delay them. Each of its doors is
    the address where it listens and the one to which it carries."""

    ACTS = ("cut", "cut", "tear", "part", "stall", "delay")

    def __init__(self, *doors):
        self.delay, self.stalled_until, self.parted_until = 0, 0, 0
        self.pairs, self.lock = [], threading.Lock()
        self.doors = [socket.create_server(here) for here, _ in doors]
        self.port = self.doors[0].getsockname()[1]
        for door, (_, there) in zip(self.doors, doors):
            threading.Thread(target=self.let_in, args=(door, there), daemon=True).start()

    def let_in(self, door, there):
        while True:
            try:
                source, _ = door.accept()
            except OSError:
                return
            try:
                if time.monotonic() < self.parted_until:
                    raise ConnectionRefusedError
                pair = Pair(source, socket.create_connection(there, 5))
            except OSError:
                source.close()
                continue
            with self.lock:
                self.pairs = [it for it in self.pairs if it.goes_on] + [pair]
            for ends in (pair.ends, pair.ends[::-1]):
                threading.Thread(target=self.carry, args=(pair, *ends), daemon=True).start()

    def carry(self, pair, source, sink):
        try:
            while True:
                select.select([source], [], [])
                time.sleep(max(0.0, self.stalled_until - time.monotonic()))
                if self.delay:
                    time.sleep(self.delay)
                came = source.recv(1500)
                if not came:
                    break
                if pair.is_torn:
                    sink.sendall(came[:(len(came) + 1) // 2])
                    break
                sink.sendall(came)
        except (OSError, ValueError):
            pass
        pair.shut()

    def disturb(self, act):
        """Does one of its acts."""
        if act == "cut":
            self.cut()
        elif act == "tear":
            self.tear()
        elif act == "part":
            self.part(random.uniform(2, 6))
        elif act == "stall":
            self.stall(random.uniform(1, 4))
        elif act == "delay":
            self.delay = random.choice([0, 0.05, 0.2])

    def cut(self):
        """Ends all connections, in the midst of what they carry."""
        with self.lock:
            pairs, self.pairs = self.pairs, []
        for pair in pairs:
            pair.shut()

    def tear(self):
        """Of what they carry next, all connections carry a half, and are reset."""
        with self.lock:
            for pair in self.pairs:
                pair.is_torn = True
        time.sleep(1)
        self.cut()

    def part(self, seconds):
        """Ends all connections, and lets nobody in for so long."""
        self.parted_until = time.monotonic() + seconds
        self.cut()

    def stall(self, seconds):
        """Carries nothing for so long."""
        self.stalled_until = time.monotonic() + seconds

    def mend(self):
        """Disturbs nothing any more."""
        self.delay = self.stalled_until = self.parted_until = 0

    def stop(self):
        for door in self.doors:
            # (one that waits for somebody stays open where it is only closed)
            door.shutdown(socket.SHUT_RDWR)
            door.close()
        self.cut()


class Pair:
    """Two connections, one for each side of what the proxy carries."""

    def __init__(self, *ends):
        self.ends, self.goes_on, self.is_torn = ends, True, False

    def shut(self):
        """Ends both. They are reset where they were torn."""
        self.goes_on = False
        for it in self.ends:
            try:
                if self.is_torn:
                    it.setsockopt(socket.SOL_SOCKET, socket.SO_LINGER, struct.pack("ii", 1, 0))
                it.shutdown(socket.SHUT_RDWR)
            except OSError:
                pass
            it.close()
