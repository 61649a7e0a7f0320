"""Real clients of IRC, each on a terminal of its own, for trials/clients and trials/procs."""
import fcntl
import os
import pty
import re
import shutil
import socket
import struct
import subprocess
import termios
import threading
import time
from dataclasses import dataclass, field
from pathlib import Path

from bots import PATIENCE, Guest, comes

# Where what is typed goes: to the client's terminal, to ann, whose line it is, or else to the pipe of a pattern.
TERMINAL, ANN = "terminal", "ann"

LIMNORIA = """\
supybot.nick: limnoria
supybot.ident: limnoria
supybot.networks: egg
supybot.networks.egg.servers: 127.0.0.1:{port}
supybot.networks.egg.channels: #egg
supybot.networks.egg.ssl: False
supybot.plugins: Misc Utilities
supybot.plugins.Misc: True
supybot.plugins.Utilities: True
supybot.reply.whenAddressedBy.chars: @
"""

# Its log tells what is said. It is quick to send, and lets ann write often. Where it is kept out of a channel it tries
# again only each minute, so ann tells it when.
EGGDROP = """\
set nick eggdrop
set altnick eggdrop_
set username eggdrop
set realname eggdrop
set userfile users
set chanfile channels
set pidfile pid
if {{[file isdirectory /usr/lib/eggdrop/modules]}} {{set mod-path /usr/lib/eggdrop/modules/}}
set net-type [expr {{$numversion >= 1090000 ? "Other" : 5}}]
foreach module {{blowfish dns channels server ctcp irc}} {{loadmodule $module}}
logfile mpjkco * log
set keep-nick 0
set msg-rate 0
set flood-msg 0:0
if {{[llength [info commands addserver]]}} {{addserver 127.0.0.1 {port}}} else {{set servers {{127.0.0.1:{port}}}}}
channel add #egg
proc echo {{nick address handle channel text}} {{putnow "PRIVMSG $channel :$text"}}
proc come {{nick address handle text}} {{putnow "JOIN #egg"}}
proc leave {{nick address handle text}} {{die bye}}
bind pub - @echo echo
bind msg - come come
bind msg - leave leave
"""


@dataclass
class Client:
    """How a client is started, and how it is told what to do."""

    words: list
    say: tuple
    command: tuple = ()  # how its user types a line of IRC; none where it is not tried as a person's
    join: tuple = ()  # none where it joins by itself
    rejoin: tuple = ()  # how it comes in again, if that isn't as it joins
    quit: tuple = ()  # none where it quits when it is ended
    package: str = ""  # if it isn't the name of its program
    is_shown: bool = True  # whether what others say is on its terminal or in its files
    is_nobody: bool = False  # whether it refuses to run as root, and runs as nobody then
    files: dict = field(default_factory=dict)


CLIENTS = {
    "irssi": Client(
        words=["irssi", "--home={home}", "--connect=127.0.0.1", "--port={port}", "--nick={nick}"],
        join=(TERMINAL, "/join #egg"),
        say=(TERMINAL, "/msg {to} {text}"),
        command=(TERMINAL, "/{line}"),
        quit=(TERMINAL, "/quit bye"),
        files={"startup": "set autolog on\n"},  # it has several windows, and shows one
    ),
    "weechat": Client(
        words=[
            "weechat-headless", "--dir", "{home}", "--run-command", "/server add egg 127.0.0.1/{port}",
            "--run-command", "/set irc.server.egg.nicks {nick}", "--run-command", "/set logger.file.flush_delay 0",
            "--run-command", "/connect egg",
        ],
        join=("weechat_fifo_*", "irc.server.egg */join #egg"),
        say=("weechat_fifo_*", "irc.egg.{to} *{text}"),
        quit=("weechat_fifo_*", "core.weechat */quit bye"),
    ),
    "ii": Client(
        words=["ii", "-s", "127.0.0.1", "-p", "{port}", "-n", "{nick}", "-i", "{home}"],
        join=("127.0.0.1/in", "/j #egg"),
        say=("127.0.0.1/{to}/in", "{text}"),
        quit=("127.0.0.1/in", "/q bye"),
    ),
    "sic": Client(
        words=["sic", "-h", "127.0.0.1", "-p", "{port}", "-n", "{nick}"],
        join=(TERMINAL, ":j #egg"),
        say=(TERMINAL, ":m {to} {text}"),
        command=(TERMINAL, ":{line}"),
        quit=(TERMINAL, ":QUIT :bye"),
    ),
    "epic": Client(
        words=["epic5", "-d", "-q", "{nick}", "127.0.0.1:{port}"],
        join=(TERMINAL, "/join #egg"),
        say=(TERMINAL, "/msg {to} {text}"),
        command=(TERMINAL, "/{line}"),
        quit=(TERMINAL, "/quit bye"),
    ),
    "limnoria": Client(
        words=["supybot", "--allow-root", "bot.conf"],
        say=(ANN, "PRIVMSG {to} :@echo {text}"),
        is_shown=False,
        package="limnoria",
        files={"bot.conf": LIMNORIA},
    ),
    "eggdrop": Client(
        words=["eggdrop", "-nm", "bot.conf"],
        rejoin=(ANN, "PRIVMSG eggdrop :come"),
        say=(ANN, "PRIVMSG {to} :@echo {text}"),
        quit=(ANN, "PRIVMSG eggdrop :leave"),
        is_nobody=True,
        files={"bot.conf": EGGDROP},
    ),
}


class Person(Guest):
    """A person at a server who speaks through a client. What passes between the client and the server is kept."""

    def __init__(self, server, nick, name, home):
        self.nick, self.name, self.client, self.home = nick, name, CLIENTS[name], Path(home)
        self.lines, self.both, self.screen, self.port = [], [], b"", server.port
        self.door = socket.create_server(("127.0.0.1", 0))
        self.start(self.door.getsockname()[1])
        threading.Thread(target=self.let_in, daemon=True).start()
        self.reader = threading.Thread(target=self.look, daemon=True)
        self.reader.start()
        self.is_welcome = self.hears(r" 001 ") is not None

    def start(self, port):
        """Starts the client on a terminal of its own."""
        self.home.mkdir(exist_ok=True)
        for name, text in self.client.files.items():
            (self.home / name).write_text(text.format(port=port), encoding="utf-8")
        whose = {}
        if self.client.is_nobody and os.getuid() == 0:
            whose = {"user": "nobody", "group": "nogroup", "extra_groups": ()}
            for path in [self.home, *self.home.iterdir()]:
                shutil.chown(path, "nobody", "nogroup")
        self.terminal, end = pty.openpty()
        fcntl.ioctl(end, termios.TIOCSWINSZ, struct.pack("HHHH", 50, 200, 0, 0))
        self.process = subprocess.Popen(
            [word.format(home=self.home, port=port, nick=self.nick) for word in self.client.words],
            cwd=self.home,
            env={**os.environ, "HOME": str(self.home), "TERM": "xterm", "LANG": "C.UTF-8", "IRCUSER": self.nick},
            stdin=end,
            stdout=end,
            stderr=end,
            start_new_session=True,
            **whose,
        )
        os.close(end)

    def let_in(self):
        """Whenever the client comes, what it sends goes on to the server, and back."""
        while True:
            try:
                near, _ = self.door.accept()
            except OSError:
                return
            far = socket.create_connection(("127.0.0.1", self.port))
            for ends in ((near, far, ">"), (far, near, "<")):
                threading.Thread(target=self.carry, args=ends, daemon=True).start()

    def carry(self, source, sink, mark):
        """Bytes go from one socket to another. The lines are kept."""
        begun = b""
        try:
            while came := source.recv(65536):
                *whole, begun = (begun + came).split(b"\n")
                for line in whole:
                    self.keep(mark, line.rstrip(b"\r").decode(errors="replace"))
                sink.sendall(came)
            sink.shutdown(socket.SHUT_WR)
        except OSError:
            pass

    def keep(self, mark, line):
        self.both.append(f"{mark} {line}")
        if mark == "<":
            self.lines.append(line)

    def look(self):
        """Reads from the terminal."""
        try:
            while came := os.read(self.terminal, 65536):
                self.screen += came
        except OSError:
            pass

    def act(self, verb, **words):
        """The client is told what to do."""
        where, typed = (it.format(**words) for it in verb)
        if where == TERMINAL:
            os.write(self.terminal, f"{typed}\n".encode())
        elif comes(lambda: list(self.home.glob(where))):
            next(self.home.glob(where)).write_text(f"{typed}\n", encoding="utf-8")

    def act_until(self, is_done, verb, **words):
        """The client is told what to do, and again each five seconds: one that has just registered may not listen yet."""
        end = time.monotonic() + PATIENCE
        while not is_done() and time.monotonic() < end:
            self.act(verb, **words)
            comes(is_done, 5)
        return is_done()

    def say(self, line):
        """Types what has the client send a line, and waits until it is sent."""
        since = len(self.both)
        is_sent = lambda: any(it.startswith(f"> {line}") for it in self.both[since:])
        verb, to, text = (line.split(" ", 2) + [""])[:3]
        if verb == "PRIVMSG":
            done = self.act_until(is_sent, self.client.say, to=to, text=text.removeprefix(":"))
        else:
            done = self.act_until(is_sent, self.client.command, line=line)
        if not done:
            raise RuntimeError(f"{self.name} does not send {line}")
        return True

    def hears(self, pattern, since=0, seconds=PATIENCE):
        """The first such line, as soon as it is there; one that somebody says must be shown by the client too."""
        line = super().hears(pattern, since, seconds)
        said = re.match(r":\S+ (PRIVMSG|NOTICE) \S+ :?(.*)", line or "")
        return line if not said or comes(lambda: self.shows(said[2])) else None

    def shows(self, text):
        """Whether a text is on the client's terminal or in one of its files."""
        files = (it for it in self.home.rglob("*") if it.is_file())
        return text.encode() in self.screen or any(text.encode() in it.read_bytes() for it in files)

    def leave(self):
        """Ends the client."""
        self.process.kill()
        self.process.wait()
        self.reader.join(1)
        os.close(self.terminal)
        self.door.shutdown(socket.SHUT_RDWR)
        self.door.close()


def version(name):
    """The version of a client's package."""
    package = CLIENTS[name].package or CLIENTS[name].words[0]
    ran = subprocess.run(["dpkg-query", "-W", "-f", "${Version}", package], capture_output=True, text=True)
    return f"{package} {ran.stdout}" if ran.returncode == 0 else package


def those_there(names=CLIENTS):
    """Those of some clients that are on this machine."""
    return [name for name in names if shutil.which(CLIENTS[name].words[0])]
