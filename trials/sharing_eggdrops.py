"""Eggdrops that share their users, and operators at their partylines, for trials/eggdrop_net."""
import os
import random
import re
import shutil
import socket
import subprocess
import threading
import time
from pathlib import Path

from bots import PATIENCE, comes, ran

MODULES = "/usr/lib/eggdrop/modules"
NEEDED = ("blowfish", "channels", "transfer", "share")
BOTS, USERS, TRANSFERS = 4000, 4001, range(4010, 4040)
CHANNEL, COMMON, RELINK = "#egg", 8, 3

# What the documents BOTNET, mod.share and mod.transfer tell to set for a hub that shares aggressively with its leaves,
# all channels. Both sides of a link have its password from the beginning, so that none is lost with a file of users. A
# leaf tries to link every few seconds, where Eggdrop alone would do so every minute. Limits of floods are off. `level`
# is the number of links that share (U) and neither send (S) nor get (G) a file of users; `records` makes a file of what
# is shared: users, hostmasks, global flags and bans.
SETTINGS = """
set nick {name}
set botnet-nick {name}
set username {name}
set realname {name}
set owner boss
set userfile users
set chanfile channels
set pidfile pid
set mod-path {modules}/
set net-type [expr {{$numversion >= 1090000 ? "Other" : 5}}]
set help-path /usr/share/eggdrop/help/
set text-path /usr/share/eggdrop/text/
set vhost4 {address}
set listen-addr {address}
set nat-ip {middle}
set reserved-portrange {first}:{last}
set ssl-privatekey eggdrop.key
set ssl-certificate eggdrop.crt
set protect-telnet 0
set telnet-flood 0:0
set dcc-flood-thr 0
set max-dcc 200
set dupwait-timeout 2
set must-be-owner 0
foreach module {{{needed}}} {{loadmodule $module}}
set resolve-timeout 1
set allow-resync {resync}
set private-globals ""
set max-dloads 200
logfile cobx * log
listen {bots} bots
listen {users} users
proc begin {{args}} {{
  catch {{channel add {channel}}}
  channel set {channel} +shared
  foreach user {{boss {common}}} {{if {{![validuser $user]}} {{adduser $user}}}}
  setuser boss PASS secret
  chattr boss +nmop
{lines}
  save
}}
proc relink {{}} {{
  utimer {relink} relink
  if {{![islinked hub]}} {{link hub}}
}}
proc level {{}} {{
  set count 0
  foreach it [dcclist bot] {{
    set flags [lindex [lindex $it 4] end]
    if {{[string match *U* $flags] && ![regexp {{[SG]}} $flags]}} {{incr count}}
  }}
  return $count
}}
proc records {{}} {{
  set file [open records.new w]
  foreach user [userlist -b] {{
    puts $file "user $user"
    foreach mask [getuser $user HOSTS] {{puts $file "mask $user $mask"}}
    if {{[chattr $user] ne "-"}} {{puts $file "flags $user [chattr $user]"}}
  }}
  foreach ban [banlist] {{puts $file "ban * [lindex $ban 0]"}}
  foreach ban [banlist {channel}] {{puts $file "ban {channel} [lindex $ban 0]"}}
  close $file
  file rename -force records.new records
}}
bind evnt - loaded begin
"""
OF_HUB = """  if {{![validuser {name}]}} {{addbot {name} {address} {bots} {users}}}
  setuser {name} PASS of{name}
  botattr {name} +sg|+s {channel}
"""
OF_LEAF = """  if {{![validuser hub]}} {{addbot hub {middle} {bots} {users}}}
  setuser hub PASS of{name}
  botattr hub +hpg|+s {channel}
  relink
"""


def lacks():
    """What the package lacks for this; nothing where it has all."""
    if not shutil.which("eggdrop"):
        return ["Eggdrop: apt-get install eggdrop"]
    if not shutil.which("openssl"):
        return ["openssl, which makes a certificate: its bots link by TLS alone"]
    return [f"its module {name}" for name in NEEDED if not os.path.exists(f"{MODULES}/{name}.so")]


def version():
    """The version that it tells."""
    return re.search(r"v(\d\S*)", ran(["eggdrop", "-v"])[1]).group(1)


class Drop:
    """An Eggdrop as a process, as nobody where we are root: it refuses to run as root."""

    def __init__(self, room, spaces, place, leaves, resync):
        self.place, self.name, self.address = place, f"leaf{place}" if place else "hub", spaces.address(place)
        self.folder, self.process = f"{room}/{self.name}", None
        self.log = f"{self.folder}/log"
        shared = {"bots": BOTS, "users": USERS, "channel": CHANNEL, "middle": spaces.middle}
        if place:
            lines = OF_LEAF.format(name=self.name, **shared)
        else:
            those = range(1, leaves + 1)
            lines = "".join(OF_HUB.format(name=f"leaf{it}", address=spaces.address(it), **shared) for it in those)
        os.mkdir(self.folder)
        for name in ("eggdrop.key", "eggdrop.crt"):
            shutil.copy(f"{room}/{name}", self.folder)
        Path(f"{self.folder}/conf").write_text(SETTINGS.format(
            name=self.name, address=self.address, modules=MODULES, first=TRANSFERS[0], last=TRANSFERS[-1],
            needed=" ".join(NEEDED), resync=int(resync), relink=RELINK, lines=lines,
            common=" ".join(f"c{number}" for number in range(COMMON)), **shared), encoding="utf-8")
        as_nobody = ["setpriv", "--reuid=nobody", "--regid=nogroup", "--clear-groups"] if os.getuid() == 0 else []
        self.words = [*spaces.words(place), *as_nobody, "eggdrop", "-n"]
        for path in [self.folder, *Path(self.folder).iterdir()] if as_nobody else []:
            shutil.chown(path, "nobody", "nogroup")

    def start(self):
        """Starts it. Whether its partyline lets one in soon."""
        Path(f"{self.folder}/pid").unlink(missing_ok=True)
        first = [] if os.path.exists(f"{self.folder}/users") else ["-m"]
        self.process = subprocess.Popen([*self.words, *first, "conf"], cwd=self.folder, stdin=subprocess.DEVNULL,
                                        stdout=subprocess.DEVNULL, stderr=subprocess.DEVNULL)
        return bool(comes(lambda: self.process.poll() is not None or self.asks("concat up"), rest=0.2)) \
            and self.process.poll() is None

    def asks(self, script, seconds=10):
        """What a Tcl script answers at its partyline; none where nothing does."""
        try:
            with Operator(self, seconds) as operator:
                return operator.tcl(script)
        except OSError:
            return None

    def is_level(self, others):
        """Whether it is linked to so many bots, shares with each, and transfers nothing."""
        return self.asks("level") == str(others)

    def records(self):
        """The lines of what it shares; none where it does not tell."""
        if self.asks("records; concat told") != "told":
            return None
        return set(Path(f"{self.folder}/records").read_text(encoding="utf-8", errors="replace").splitlines())

    def logged(self):
        """What it logged so far."""
        return Path(self.log).read_text(encoding="utf-8", errors="replace") if os.path.exists(self.log) else ""

    def kill(self):
        if self.process and self.process.poll() is None:
            self.process.kill()
            self.process.wait()


class Operator:
    """Somebody at a bot's partyline, by telnet."""

    def __init__(self, bot, seconds=PATIENCE):
        self.socket = socket.create_connection((bot.address, USERS), 5)
        self.socket.settimeout(seconds)
        self.heard, self.count = b"", 0
        for waits, says in ((b"nickname", "boss"), (b"password", "secret"), (b"joined the party", ".console -all")):
            while waits not in self.heard:
                self.hear()
            self.heard = b""
            self.say(says)

    def __enter__(self):
        return self

    def __exit__(self, *_):
        self.socket.close()

    def hear(self):
        came = self.socket.recv(65536)
        if not came:
            raise ConnectionResetError
        self.heard += came

    def say(self, line):
        self.socket.sendall(line.encode() + b"\r\n")

    def does(self, line, pattern, script="concat"):
        """Says a command, and a script after it. Whether it was acknowledged, none if that isn't known; what the script
        answers, none if nothing; and what else was heard."""
        self.count += 1
        self.say(f"{line}\r\n.tcl concat said{self.count} [{script}]")
        end = re.compile(rf"^Tcl: said{self.count} ?(.*?)\r?$", re.MULTILINE)
        try:
            while not end.search(self.text()):
                self.hear()
        except OSError:
            text = self.text()
            self.heard = b""
            return True if re.search(pattern, text) else None, None, text
        found = end.search(self.text())
        text, self.heard = self.text()[:found.start()], self.text()[found.end():].encode()
        return bool(re.search(pattern, text)), found.group(1), text

    def text(self):
        return self.heard.decode(errors="replace").replace("\r", "")

    def tcl(self, script):
        """What a script answers."""
        return self.does("", "", f"eval {{{script}}}")[1]


class Change:
    """A change that a bot's partyline acknowledged, and whether that bot said then that it was linked to the hub."""

    def __init__(self, bot, command, is_linked):
        self.bot, self.command, self.is_linked = bot, command, is_linked


def answer_in(text):
    """The last line of an answer that is no line of the log."""
    lines = [line for line in text.splitlines() if line and not line.startswith(("[", "***"))]
    return lines[-1] if lines else ""


class Asker:
    """Changes a bot's users and bans at its partyline, one change after another. Users and bans of its own, which
    nobody else changes, tell what became of the changes; users that all change tell whether bots stay alike."""

    MOST, REST = 20, 0.25

    def __init__(self, bot, saves):
        self.bot, self.goes_on, self.saves, self.number = bot, True, saves, 0
        # Of each line of records whether it should be there, and by which acknowledged change; lines of which that is
        # not known; counts; and what was refused.
        self.last, self.doubtful, self.asked, self.told, self.refused = {}, set(), 0, 0, []
        self.users, self.bans, self.saved = [], [], 0
        self.thread = threading.Thread(target=self.run, daemon=True)
        self.thread.start()

    def run(self):
        while self.goes_on:
            try:
                with Operator(self.bot) as operator:
                    while self.goes_on:
                        self.change(operator)
                        time.sleep(self.REST)
            except OSError:
                time.sleep(0.2)

    def change(self, operator):
        """One change, and a save where it is time for one."""
        if self.saves and time.monotonic() > self.saved + self.saves:
            self.saved = time.monotonic()
            operator.does(".save", "")
        act = random.choice([self.add_user, self.add_user, self.add_host, self.add_host, self.drop_host, self.flag,
                             self.add_ban, self.drop_ban, self.drop_user, self.common, self.common])
        asked = act()
        if not asked:
            return
        command, pattern, lines = asked
        self.asked += 1
        told, linked, text = operator.does(command, pattern, "islinked hub" if self.bot.place else "concat 1")
        if told is None:
            for line, _ in lines:
                self.last.pop(line, None)
                self.doubtful.add(line)
            raise ConnectionResetError
        if told:
            self.told += 1
            change = Change(self.bot, command, linked != "0")
            self.last.update({line: (is_there, change) for line, is_there in lines})
        else:
            self.refused.append(answer_in(text))

    def fresh(self):
        self.number += 1
        return f"b{self.bot.place}x{self.number}"

    def lines_of(self, user):
        """The lines of a user of its own that should be there."""
        return [line for line, (is_there, _) in self.last.items() if is_there and line.split()[1] == user]

    def add_user(self):
        if len(self.users) >= self.MOST:
            return self.drop_user()
        user = self.fresh()
        self.users.append(user)
        mask = f"*!*@{user}.test"
        return f".+user {user} {mask}", rf"Added {user} ", [(f"user {user}", True), (f"mask {user} {mask}", True)]

    def add_host(self):
        if not self.users:
            return None
        user, mask = random.choice(self.users), f"*!*@{self.fresh()}.test"
        return f".+host {user} {mask}", r"Added '.*' to ", [(f"mask {user} {mask}", True)]

    def drop_host(self):
        masks = [line for user in self.users for line in self.lines_of(user) if line.startswith("mask ")]
        if not masks:
            return None
        _, user, mask = random.choice(masks).split()
        return f".-host {user} {mask}", r"Removed '.*' from ", [(f"mask {user} {mask}", False)]

    def flag(self):
        """One flag of each of its users is given once."""
        user = self.users[-1] if self.users else None
        if not user or any(line.startswith("flags ") for line in self.lines_of(user)):
            return None
        return f".chattr {user} +f", rf"flags for {user} are now \+f", [(f"flags {user} f", True)]

    def drop_user(self):
        if not self.users:
            return None
        user = self.users.pop(0)
        return f".-user {user}", rf"Deleted {user}\.", [(line, False) for line in self.lines_of(user)]

    def add_ban(self):
        where, mask = random.choice(["*", CHANNEL]), f"*!*@{self.fresh()}.bad.test"
        self.bans.append((where, mask))
        channel = "" if where == "*" else f"{where} "
        return f".+ban {mask} {channel}rude", r"New .*ban: ", [(f"ban {where} {mask}", True)]

    def drop_ban(self):
        if len(self.bans) < self.MOST // 2:
            return None
        where, mask = self.bans.pop(0)
        channel = "" if where == "*" else f" {where}"
        return f".-ban {mask}{channel}", r"Removed .*ban: ", [(f"ban {where} {mask}", False)]

    def common(self):
        """A flag of a user that all bots change: what is there at the end may be anybody's."""
        user = f"c{random.randrange(COMMON)}"
        change = random.choice("+-") + random.choice("abfhv")
        return f".chattr {user} {change}", rf"lobal flags for {user}\b", []

    def end(self):
        self.goes_on = False
        self.thread.join(PATIENCE + 10)
