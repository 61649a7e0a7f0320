"""Bots as processes, IRC servers and guests, for the trials of `eggnet run`."""
import os
import re
import shutil
import socket
import subprocess
import sys
import threading
import time
from pathlib import Path

TOP = Path(__file__).resolve().parent.parent
PATIENCE = 20  # seconds


def program_of(words):
    """The program to try: the first word that begins with no digit, else EGGNET, else ours, proved or unproved."""
    named = [word for word in words if not word[:1].isdigit()]
    if named or os.environ.get("EGGNET"):
        return os.path.abspath(named[0] if named else os.environ["EGGNET"])
    ours = TOP / "crates/eggnet/out/eggnet"
    if ours.exists():
        return str(ours)
    built = subprocess.run([TOP / "tools/unproved", "eggnet"], stdout=subprocess.PIPE, text=True, check=True)
    return built.stdout.strip()


def counts_of(words, *usual):
    """The numbers among the words, and the usual ones in the place of those that are not said."""
    said = [int(word) for word in words if word.isdigit()]
    return [*said, *usual[len(said):]]


class Tally:
    """Prints what was seen, and counts what is well and what is bad."""

    def __init__(self):
        self.well = self.bad = 0

    def note(self, what, holds, seen=""):
        """Counts a step, and tells what it saw."""
        if holds:
            self.well += 1
        else:
            self.bad += 1
        seen = str(seen).rstrip("\n")
        print(f"{'well' if holds else 'BAD '}  {what}{': ' if seen else ''}{seen}", flush=True)
        return holds

    @staticmethod
    def say(text):
        """Tells something that is neither well nor bad."""
        print(f"      {text}", flush=True)

    def end(self):
        """Tells the counts, and returns the status."""
        print(f"{self.well} well, {self.bad} bad")
        return 1 if self.bad else 0


def comes(test, seconds=PATIENCE, rest=0.02):
    """What a test answers, as soon as that is true, or at last."""
    end = time.monotonic() + seconds
    while True:
        answer = test()
        if answer or time.monotonic() > end:
            return answer
        time.sleep(rest)


def free_port():
    """A port of this machine that nobody listens at."""
    with socket.socket() as it:
        it.bind(("127.0.0.1", 0))
        return it.getsockname()[1]


def ran(words, **how):
    """A program's status, standard output and standard error."""
    done = subprocess.run(words, stdout=subprocess.PIPE, stderr=subprocess.PIPE, timeout=120, check=False, **how)
    return done.returncode, done.stdout.decode(errors="replace"), done.stderr.decode(errors="replace")


class Server:
    """An IRC server of this machine, at a port that it keeps when it is stopped and started again."""

    password = ""
    host = "127.0.0.1"  # as bots reach it

    def __init__(self, room):
        self.room, self.port, self.process = room, free_port(), None

    def words(self):
        raise NotImplementedError

    def start(self):
        """Starts it, and waits until it lets one in."""
        log = open(f"{self.room}/{type(self).__name__}.log", "ab")
        self.process = subprocess.Popen(self.words(), stdin=subprocess.DEVNULL, stdout=log, stderr=log)
        log.close()
        return bool(comes(self.is_up))

    def is_up(self):
        with socket.socket() as it:
            it.settimeout(1)
            return it.connect_ex(("127.0.0.1", self.port)) == 0

    def stop(self):
        """Ends it, by the process that was started."""
        if self.process:
            self.process.kill()
            self.process.wait()
            self.process = None


class Ours(Server):
    """`eggnet serve`."""

    name = "eggnet serve"
    is_there = True
    nick_room = 30

    def __init__(self, room, program):
        super().__init__(room)
        self.program = program

    def words(self):
        return [self.program, "serve", str(self.port)]


class Nowhere:
    """A server that nobody is at."""

    host, password = "127.0.0.1", ""

    def __init__(self):
        self.port = free_port()


class Ngircd(Server):
    """Debian's package ngircd: nicks of nine bytes, `~user`, and it names what it lets in a second."""

    name = "ngircd"
    is_there = bool(shutil.which("ngircd"))
    nick_room = 9

    def words(self):
        path = f"{self.room}/ngircd.conf"
        Path(path).write_text(f"""[Global]
Name = irc.ngircd.test
Info = a trial
AdminInfo1 = nobody
Listen = 127.0.0.1
Ports = {self.port}
MotdPhrase = a trial
[Limits]
MaxConnectionsIP = 0
MaxJoins = 0
MaxPenaltyTime = 0
PingTimeout = 20
PongTimeout = 20
[Options]
PAM = no
Ident = no
DNS = no
SyslogFacility = local7
""", encoding="utf-8")
        os.chmod(path, 0o644)
        return ["ngircd", "-n", "-f", path]


class Inspircd(Server):
    """Debian's package inspircd: a password, and it lets go who sends too fast."""

    name = "inspircd"
    is_there = bool(shutil.which("inspircd"))
    nick_room = 30
    password = "please"

    def words(self):
        path = f"{self.room}/inspircd.conf"
        Path(path).write_text(f"""
<server name="irc.inspircd.test" description="a trial" network="Trial">
<admin name="nobody" nick="nobody" email="nobody@trial.test">
<bind address="127.0.0.1" port="{self.port}" type="clients">
<connect name="guests" allow="*" password="guest" timeout="60" pingfreq="20" softsendq="1048576" hardsendq="4194304"
  recvq="1048576" threshold="100000" commandrate="1000000" fakelag="no" localmax="100" globalmax="100"
  resolvehostnames="no" useident="no">
<connect name="bots" allow="*" password="{self.password}" timeout="60" pingfreq="20" softsendq="1048576"
  hardsendq="1048576" recvq="8192" threshold="10" commandrate="1000" fakelag="no" localmax="100" globalmax="100"
  resolvehostnames="no" useident="no">
<performance softlimit="1024" quietbursts="yes">
<security hidesplits="no">
<pid file="{self.room}/inspircd.pid">
<log method="file" type="* -USERINPUT -USEROUTPUT" level="default" target="{self.room}/inspircd.log">
<path datadir="{self.room}" logdir="{self.room}" runtimedir="{self.room}">
""", encoding="utf-8")
        alone = ["--runasroot"] if os.getuid() == 0 else []
        return ["inspircd", *alone, "--nofork", f"--config={path}"]


def lines_of(end):
    """The lines that the socket of an end brings, without CR LF, until it is closed or the end is no longer open."""
    begun = b""
    while end.is_open:
        try:
            came = end.socket.recv(65536)
        except TimeoutError:
            continue
        except OSError:
            return
        if not came:
            return
        *whole, begun = (begun + came).split(b"\n")
        for line in whole:
            yield line.rstrip(b"\r").decode(errors="replace")


class Guest:
    """A person at a server, by a bare socket, from an address. What it hears it keeps, line by line; a PING is answered."""

    def __init__(self, server, nick, user=None, address="127.0.0.1"):
        self.nick, self.lines, self.is_open = nick, [], True
        self.socket = socket.create_connection(("127.0.0.1", server.port), PATIENCE, (address, 0))
        self.socket.settimeout(None)
        if server.password:
            self.say("PASS guest")
        self.say(f"NICK {nick}")
        self.say(f"USER {user or nick} 0 * :{nick}")
        self.thread = threading.Thread(target=self.listen, daemon=True)
        self.thread.start()
        self.is_welcome = self.hears(r" (001) ") is not None

    def listen(self):
        for text in lines_of(self):
            if text.startswith("PING "):
                self.say(f"PONG {text[5:]}")
            else:
                self.lines.append(text)
        self.is_open = False

    def say(self, line):
        """Sends a line. Whether it could be sent."""
        try:
            self.socket.sendall(line.encode() + b"\r\n")
            return True
        except OSError:
            self.is_open = False
            return False

    def hears(self, pattern, since=0, seconds=PATIENCE):
        """The first line since a place that has this pattern, as soon as it is there."""
        def found():
            return next((line for line in self.lines[since:] if re.search(pattern, line)), None)
        return comes(found, seconds)

    def asks(self, line, pattern, seconds=PATIENCE):
        """What it hears after it has said a line."""
        since = len(self.lines)
        self.say(line)
        return self.hears(pattern, since, seconds)

    def leave(self):
        self.is_open = False
        try:
            self.socket.shutdown(socket.SHUT_RDWR)
        except OSError:
            pass
        self.socket.close()


KINDS = ("msg", "ctcp", "chan", "join", "nick", "kick", "deop")  # of what floods are


class Bot:
    """A bot of a configuration file, as a process."""

    where = ()  # words that start its program at a place of its own
    environment = {}  # what its program has in its environment beside what the trial has

    def __init__(self, program, room, name, servers, lines=(), nick="egg"):
        self.program, self.name, self.nick = program, name, nick
        self.folder, self.config, self.log = f"{room}/{name}", f"{room}/{name}.conf", f"{room}/{name}.log"
        said = [f"data {self.folder}", f"nick {nick}"]
        said += [f"server {it.host} {it.port} {it.password}".rstrip() for it in servers]
        if not any(it.startswith("flood-") for it in lines):
            said += [f"flood-{kind} 0:0" for kind in KINDS]  # the people of most trials say and do much
        Path(self.config).write_text("\n".join([*said, *lines]) + "\n", encoding="utf-8")
        self.process = None

    def start(self, limit=None):
        """Starts it. Whether it takes commands soon. `limit` is the most bytes of a file that it may write."""
        self.begin(limit)
        comes(lambda: self.process.poll() is not None or self.answers("status"))
        return self.process.poll() is None and self.answers("status") is not None

    def begin(self, limit=None):
        """Starts it, and waits for nothing."""
        prepare = None
        if limit is not None:
            import resource
            import signal

            def prepare():
                signal.signal(signal.SIGXFSZ, signal.SIG_IGN)
                resource.setrlimit(resource.RLIMIT_FSIZE, (limit, limit))
        with open(self.log, "ab") as log:
            # The log goes through a pipe where files are limited, so that the limit is the journal's alone.
            out = subprocess.PIPE if limit is not None else log
            self.process = subprocess.Popen([*self.where, self.program, "run", self.config], stdin=subprocess.DEVNULL,
                                            stdout=out, stderr=subprocess.STDOUT, preexec_fn=prepare,
                                            restore_signals=limit is None, env={**os.environ, **self.environment})
        if limit is not None:
            self.drain = threading.Thread(target=self.keep_log, args=(self.process.stdout,), daemon=True)
            self.drain.start()

    def keep_log(self, stream):
        with open(self.log, "ab") as log:
            for line in stream:
                log.write(line)
                log.flush()

    def move_to(self, folder):
        """Names another folder in its configuration."""
        text = Path(self.config).read_text(encoding="utf-8")
        Path(self.config).write_text(text.replace(f"data {self.folder}\n", f"data {folder}\n"), encoding="utf-8")
        self.folder = folder

    def tell(self, *words):
        """The status, standard output and standard error of `eggnet tell`."""
        return ran([self.program, "tell", self.folder, *words])

    def answers(self, line, seconds=5):
        """What the control socket answers to a line, by a bare socket; none where it does not."""
        with socket.socket(socket.AF_UNIX) as it:
            it.settimeout(seconds)
            try:
                it.connect(f"{self.folder}/control")
                it.sendall(line.encode() + b"\n")
                heard = b""
                while not (heard == b".\n" or heard.endswith(b"\n.\n")):
                    came = it.recv(65536)
                    if not came:
                        return None
                    heard += came
                return heard[:-2].decode(errors="replace") or "-"
            except OSError:
                return None

    def show(self):
        """The status, standard output and standard error of `eggnet show`."""
        return ran([self.program, "show", self.folder])

    def kill(self):
        if self.process and self.process.poll() is None:
            self.process.kill()
            self.process.wait()

    def end(self, *text):
        """Tells it to end. Its status, and how long it took in seconds; none where it did not end."""
        began = time.monotonic()
        told = self.tell("die", *text)
        try:
            status = self.process.wait(10)
        except subprocess.TimeoutExpired:
            status = None
            self.kill()
        return told, status, time.monotonic() - began

    def logged(self):
        """What it logged so far."""
        return Path(self.log).read_text(encoding="utf-8", errors="replace") if os.path.exists(self.log) else ""

    def spent(self):
        """The processor time of its threads so far, in milliseconds, as the scheduler counts it. (/proc/PID/stat counts
        hundredths of a second.)"""
        threads = Path(f"/proc/{self.process.pid}/task").iterdir()
        return sum(int((it / "schedstat").read_text(encoding="utf-8").split()[0]) for it in threads) / 1e6

    def memory(self):
        """Its resident memory in kilobytes."""
        text = Path(f"/proc/{self.process.pid}/status").read_text(encoding="utf-8")
        return int(re.search(r"VmRSS:\s+(\d+)", text).group(1))


def change_after(version):
    """The change that is asked for at a version: u1 is added, then taken away, then u3 added, and so on."""
    return f"adduser u{version + 1}" if version % 2 == 0 else f"deluser u{version}"


def records_at(version):
    """What a bot shows at a version."""
    users = [f"0 user u{version} - -\n"] if version % 2 else []
    return f"0 version {version} users {len(users)} bans 0\n" + "".join(users)


def arrivals(door):
    """The connections that come to a door, until it is closed."""
    while True:
        try:
            yield door.accept()[0]
        except OSError:
            return


def shut(*those):
    """Ends connections, also of sockets that are closed already."""
    for it in those:
        try:
            it.shutdown(socket.SHUT_RDWR)
        except OSError:
            pass


def end_all(*those):
    """Ends what a trial has started."""
    for it in those:
        for act in ("kill", "stop", "leave"):
            if hasattr(it, act):
                try:
                    getattr(it, act)()
                except OSError as error:
                    print(error, file=sys.stderr)
