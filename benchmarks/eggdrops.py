"""Eggdrop as a process, and the server at which a bot is measured beside it."""
import os
import re
import resource
import shutil
import subprocess
import sys
import time
from pathlib import Path

sys.path.insert(0, str(Path(__file__).resolve().parent.parent / "trials"))
from bots import Bot, Ngircd, comes, ran

# Where all are at the server. A hostmask of each user ends in a part of it.
HOST = "dial.host3.example.net"

# Its limits of floods are off, since our bot has none, and so is its wait before a line: on 200 channels it would ask
# for their members for ten minutes. Its log tells no talk, as ours doesn't. The modules are those that a bot on IRC
# needs.
BEGINNING = """
set nick {nick}
set altnick {nick}_
set username {nick}
set realname {nick}
set userfile users
set chanfile channels
set pidfile pid
if {{[file isdirectory /usr/lib/eggdrop/modules]}} {{set mod-path /usr/lib/eggdrop/modules/}}
set net-type [expr {{$numversion >= 1090000 ? "Other" : 5}}]
foreach module {{blowfish dns channels server ctcp irc}} {{loadmodule $module}}
logfile mco * log
set keep-nick 0
set ctcp-mode 0
set msg-rate 0
foreach flood {{chan join kick deop ctcp nick}} {{set default-flood-$flood 0:0}}
if {{[llength [info commands addserver]]}} {{addserver 127.0.0.1 {port}}} else {{set servers {{127.0.0.1:{port}}}}}
foreach channel {{{channels}}} {{channel add $channel}}
"""

# Its procs; `known` tells how many members of all channels it knows. JOIN lines go at once, in the place of a JOIN that
# waits for each channel.
PROCS = """
proc quiet {{args}} {{return 0}}
proc echo {{nick address handle channel text}} {{
  putnow "PRIVMSG $channel :$text"
  return 0
}}
proc known {{nick address handle text}} {{
  set members 0
  foreach channel [channels] {{incr members [llength [chanlist $channel]]}}
  putnow "PRIVMSG $nick :known $members"
  return 0
}}
proc arrive {{args}} {{
  foreach line {{{joins}}} {{putnow $line}}
  utimer 1 {{clearqueue server}}
}}
bind msg - known known
bind evnt - init-server arrive
"""

# It makes its file of users from nothing, and ends.
MAKING = """
proc make {{args}} {{
{lines}
  save
  die made
}}
bind evnt - loaded make
"""


class Cloaked(Ngircd):
    """ngircd, where all come from one host. It lets nobody go who is slow."""

    def words(self):
        words = super().words()
        with open(words[-1], "a", encoding="utf-8") as it:
            it.write(f"CloakHost = {HOST}\n[Limits]\nPingTimeout = 600\nPongTimeout = 600\n")
        return words

    def is_read(self):
        """Whether no byte waits in any of its connections, on either side."""
        end = f":{self.port:04X}"
        rows = [line.split() for line in Path("/proc/net/tcp").read_text(encoding="utf-8").splitlines()]
        ours = [row for row in rows if row[1].endswith(end) or row[2].endswith(end)]
        return all(row[4] == "00000000:00000000" for row in ours)


class Background:
    """An Eggdrop that has gone to the background, with what is asked of a process of one's own."""

    def __init__(self, pid):
        self.pid = pid

    def poll(self):
        """None while it runs."""
        try:
            text = Path(f"/proc/{self.pid}/stat").read_text(encoding="utf-8")
        except OSError:
            return 0
        return None if re.search(r"\(eggdrop.*\) [^ZX]", text) else 0

    def kill(self):
        os.kill(self.pid, 9)

    def wait(self, seconds=60):
        """Waits until it has ended. Whether it has."""
        return comes(lambda: self.poll() is not None, seconds)


class Eggdrop(Bot):
    """Eggdrop, as nobody where we are root: it refuses to run as root. Without a file of users it begins with none."""

    def __init__(self, room, name, server, channels, lines, users=None, nick="drop"):
        self.name, self.nick, self.users, self.process = name, nick, users, None
        self.folder = f"{room}/{name}"
        self.config, self.log = f"{self.folder}/conf", f"{self.folder}/log"
        self.took = self.cost = None
        os.mkdir(self.folder)
        if users:
            shutil.copy(users, f"{self.folder}/users")
        beginning = BEGINNING.format(nick=nick, port=server.port, channels=" ".join(channels))
        Path(self.config).write_text(beginning + lines, encoding="utf-8")
        self.whose = {"user": "nobody", "group": "nogroup", "extra_groups": ()} if os.getuid() == 0 else {}
        for path in [self.folder, *Path(self.folder).iterdir()] if self.whose else []:
            shutil.chown(path, "nobody", "nogroup")

    def begin(self, limit=None):
        """Starts it. `took` is the seconds then until it says how many users it has, `cost` the milliseconds of the
        processor until it goes to the background, which is next."""
        words = ["eggdrop", *([] if self.users else ["-m"]), self.config]
        began, before, said = time.monotonic(), children_spent(), []
        with subprocess.Popen(words, cwd=self.folder, stdin=subprocess.DEVNULL, stdout=subprocess.PIPE, text=True,
                              stderr=subprocess.STDOUT, **self.whose) as starter:
            for line in starter.stdout:
                said.append(line)
                if line.startswith("=== "):
                    self.took = time.monotonic() - began
        self.cost = children_spent() - before
        found = re.search(r"\(pid: (\d+)\)", "".join(said))
        if not found or self.took is None:
            raise RuntimeError(f"Eggdrop does not start: {''.join(said[-5:])}")
        self.process = Background(int(found.group(1)))

    def kill(self):
        """Ends it, also where it went to the background after we looked away."""
        pid = Path(f"{self.folder}/pid")
        if not self.process and pid.exists():
            self.process = Background(int(pid.read_text(encoding="utf-8")))
        super().kill()


def children_spent():
    """The processor time of all that we have started and that has ended, in milliseconds."""
    used = resource.getrusage(resource.RUSAGE_CHILDREN)
    return 1000 * (used.ru_utime + used.ru_stime)


def tcl_talk(joins, binds):
    """Its configuration's lines for the JOIN lines with which it comes, and for binds as ours are written."""
    procs = PROCS.format(joins=" ".join(f"{{{line}}}" for line in joins))
    words = [line.split(" ", 4) for line in binds]
    return procs + "".join(f"bind {kind} {flags} {{{mask}}} {proc}\n" for _, kind, flags, proc, mask in words)


def tcl_users(lines):
    """Its configuration's lines for a file of users that these Tcl commands make."""
    return MAKING.format(lines="\n".join(lines))


def version():
    """The version that it tells."""
    return re.search(r"v(\d\S*)", ran(["eggdrop", "-v"])[1]).group(1)
