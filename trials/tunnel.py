#!/usr/bin/env python3
"""Runs bots whose connections are encrypted by TLS: through stunnel, as `eggnet tunnel` has it, to a server and between bots.

    trials/tunnel.py [PROGRAM]      ends within four minutes; as root

PROGRAM is the program to try, else what EGGNET names, else ours. It wants Debian's packages ngircd, stunnel4 and openssl. A
server is stunnel with a certificate in front of ngircd. The bot has `server localhost +PORT`, and stunnel runs on what
`eggnet tunnel` prints, but trusts an authority of the trial. Without stunnel the bot names the socket at which it is missing;
with it the bot joins, and has no socket of TCP. No other user gets to the tunnel, and nobody by TCP. A certificate of
another name, and one that no authority has signed, let the bot see no line of the server. A hub and its leaf are linked by keys
that come of the net's secret; a stunnel without the leaf's key links nobody.
The last line is 'N well, M bad'; the status is 1 where any is bad.
"""
import errno
import os
import pwd
import re
import shutil
import signal
import socket
import stat
import subprocess
import sys
import tempfile
from pathlib import Path

sys.dont_write_bytecode = True
from bots import Bot, Guest, Ngircd, Tally, comes, end_all, free_port, program_of, ran

LONG = 60  # seconds
NO_TUNNEL = "no tunnel listens: run stunnel on what 'eggnet tunnel CONFIG' prints"


def openssl(*words):
    subprocess.run(["openssl", *words], check=True, stdin=subprocess.DEVNULL, stdout=subprocess.DEVNULL, stderr=subprocess.DEVNULL)


class Authority:
    """Signs certificates, in a folder as that of a machine's authorities is."""

    def __init__(self, room, name):
        self.room = f"{room}/{name}"
        os.mkdir(self.room)
        self.folder = f"{self.room}/certs"
        os.mkdir(self.folder)
        openssl("req", "-x509", "-newkey", "rsa:2048", "-nodes", "-days", "2", "-subj", f"/CN={name}", "-keyout", f"{self.room}/ca.key", "-out", f"{self.folder}/ca.pem")
        openssl("rehash", self.folder)

    def signs(self, name):
        """Makes a certificate of a name, and returns where it and its key are."""
        front = f"{self.room}/{name}"
        Path(f"{front}.ext").write_text(f"subjectAltName = DNS:{name}\n", encoding="utf-8")
        openssl("req", "-newkey", "rsa:2048", "-nodes", "-subj", f"/CN={name}", "-keyout", f"{front}.key", "-out", f"{front}.csr")
        openssl("x509", "-req", "-in", f"{front}.csr", "-CA", f"{self.folder}/ca.pem", "-CAkey", f"{self.room}/ca.key", "-CAcreateserial", "-days", "2",
                "-extfile", f"{front}.ext", "-out", f"{front}.pem")
        return front


class Stunnel:
    """stunnel on a configuration."""

    def __init__(self, path, text):
        self.path, self.log = path, f"{path}.log"
        Path(path).write_text(text, encoding="utf-8")
        with open(self.log, "ab") as log:
            self.process = subprocess.Popen(["stunnel", path], stdin=subprocess.DEVNULL, stdout=log, stderr=log)
        self.is_up = bool(comes(lambda: "Configuration successful" in self.logged() or self.process.poll() is not None)) and self.process.poll() is None

    def logged(self):
        return Path(self.log).read_text(encoding="utf-8", errors="replace")

    def kill(self):
        self.process.kill()
        self.process.wait()

    def end(self):
        self.process.send_signal(signal.SIGTERM)
        self.process.wait(10)


class TlsServer:
    """A server behind stunnel with a certificate, at a port of its own."""

    host, password = "localhost", ""

    def __init__(self, room, server, front, name):
        self.door = free_port()
        self.port = f"+{self.door}"
        self.tunnel = Stunnel(f"{room}/{name}.conf", f"foreground = yes\nsyslog = no\npid =\n[irc]\naccept = 127.0.0.1:{self.door}\n"
                              f"connect = 127.0.0.1:{server.port}\ncert = {front}.pem\nkey = {front}.key\n")

    def kill(self):
        self.tunnel.kill()


def printed(program, bot):
    """What `eggnet tunnel` prints for a bot."""
    return ran([program, "tunnel", bot.config])


def tunnel_of(program, bot, authority):
    """stunnel on what is printed for a bot, with an authority of the trial instead of those of the machine."""
    _, text, _ = printed(program, bot)
    return Stunnel(f"{bot.config}.tunnel", text.replace("/etc/ssl/certs", authority.folder))


def tcp_sockets(pid, listening=False):
    """The sockets over TCP of a process: all, or those at which it listens."""
    held = set()
    for it in os.listdir(f"/proc/{pid}/fd"):
        try:
            held.add(os.readlink(f"/proc/{pid}/fd/{it}"))
        except OSError:
            pass
    rows = [line.split() for name in ("tcp", "tcp6") for line in Path(f"/proc/{pid}/net/{name}").read_text(encoding="utf-8").splitlines()[1:]]
    return [row[1] for row in rows if f"socket:[{row[9]}]" in held and (row[3] == "0A" or not listening)]


def error_of_stranger(path):
    """The number of the system's error for another user who connects to a socket; 0 where there is none."""
    user = pwd.getpwnam("nobody")
    child = os.fork()
    if child == 0:
        os.setgroups([])
        os.setgid(user.pw_gid)
        os.setuid(user.pw_uid)
        os._exit(min(socket.socket(socket.AF_UNIX).connect_ex(path), 255))
    return os.waitstatus_to_exitcode(os.waitpid(child, 0)[1])


def mode_of(path):
    return oct(stat.S_IMODE(os.stat(path).st_mode))


class Trial:
    def __init__(self, program, tally, room):
        self.program, self.tally, self.room, self.count = program, tally, room, 0
        self.authority = Authority(room, "authority")
        self.server = Ngircd(room)
        self.begun = []

    def note(self, what, holds, seen=""):
        return self.tally.note(what, bool(holds), seen)

    def bot(self, name, servers, *lines):
        room = f"{self.room}/{name}"
        os.mkdir(room)
        bot = Bot(self.program, room, "bot", servers, ["channel #eggs", *lines], nick=name)
        self.begun.append(bot)
        return bot

    def keep(self, it):
        self.begun.append(it)
        return it

    def reading(self):
        """What is said of files, without a bot."""
        bot = self.bot("reader", [self.tls])
        status, out, err = ran([self.program, "check", bot.config])
        self.note("check reads the file and makes nothing", (status, out, err) == (0, "", "") and not os.path.exists(bot.folder), err)
        status, out, err = printed(self.program, bot)
        socket_path = f"{bot.folder}/tls/localhost_{self.tls.door}"
        wanted = [f"[localhost_{self.tls.door}]", "client = yes", f"accept = {socket_path}", f"connect = localhost:{self.tls.door}", "checkHost = localhost", "sni = localhost",
                  "verifyChain = yes", "CApath = /etc/ssl/certs", "sslVersionMin = TLSv1.2", "delay = yes", "foreground = yes"]
        self.note("tunnel prints a section of stunnel with verification", status == 0 and all(line in out.splitlines() for line in wanted), err or out)
        self.note("and makes the folders for their owner alone", mode_of(bot.folder) == mode_of(f"{bot.folder}/tls") == "0o700", mode_of(f"{bot.folder}/tls"))
        for name, line, pattern in (("plain", "server localhost 6667", "no tunnel"), ("odd", "server a/b +6697", "line 3: say a name or an address before"),
                                    ("long", f"server {'h' * 97} +6697", "at most 96 bytes together")):
            Path(f"{self.room}/{name}.conf").write_text(f"data /tmp\nnick egg\n{line}\n", encoding="utf-8")
            status, out, err = ran([self.program, "tunnel", f"{self.room}/{name}.conf"])
            self.note(f"tunnel refuses a file with {line[:24]}", status == 1 and not out and pattern in err, err)
        Path(f"{self.room}/relative.conf").write_text("data egg\nnick egg\nserver a +6697\n", encoding="utf-8")
        status, out, err = ran([self.program, "tunnel", f"{self.room}/relative.conf"])
        self.note("and one whose folder is not whole", status == 1 and not out and "path from / on" in err, err)

    def verified(self):
        """A bot without a tunnel, with one, and when it goes and comes."""
        bot = self.bot("egg1", [self.tls])
        path = f"{bot.folder}/tls/localhost_{self.tls.door}"
        bot.start()
        named = f"not connecting to {path}: {NO_TUNNEL}"
        self.note("without stunnel the log names the socket", comes(lambda: named in bot.logged()), bot.logged().splitlines()[-1:])
        self.note("the bot made the folder", mode_of(f"{bot.folder}/tls") == "0o700")
        status, out, _ = ran([self.program, "doctor", bot.config])
        self.note("doctor says that it has no tunnel", status == 1 and re.search(rf"server localhost \+{self.tls.door} has no tunnel", out), out)
        tunnel = self.keep(tunnel_of(self.program, bot, self.authority))
        guest = self.keep(Guest(self.server, "ann"))
        guest.say("JOIN #eggs")
        self.note("with stunnel the bot registers and joins", guest.hears(r"^:egg1!\S+ JOIN :?#eggs", seconds=LONG) or guest.asks("NAMES #eggs", "egg1"), guest.lines[-1:])
        self.note("by its tunnel", "connecting to localhost through its tunnel" in bot.logged())
        self.note("the bot has no socket of TCP", tcp_sockets(bot.process.pid) == [], tcp_sockets(bot.process.pid))
        self.note("its stunnel listens at no port", tcp_sockets(tunnel.process.pid, True) == [] and len(tcp_sockets(tunnel.process.pid)) > 0, tcp_sockets(tunnel.process.pid))
        seen = error_of_stranger(path)
        self.note("another user does not get to its socket", seen == errno.EACCES, os.strerror(seen))
        status, out, _ = ran([self.program, "doctor", bot.config])
        self.note("doctor finds the tunnel", "has a tunnel that takes connections" in out, out)
        tunnel.kill()
        since = len(bot.logged())
        self.note("a killed stunnel is named, though its socket stays", comes(lambda: NO_TUNNEL in bot.logged()[since:], LONG) and os.path.exists(path), bot.logged()[since:])
        heard = len(guest.lines)
        self.keep(tunnel_of(self.program, bot, self.authority))
        self.note("and a new one brings the bot back", guest.hears(r"^:egg1!\S+ JOIN :?#eggs", heard, LONG), bot.logged().splitlines()[-1:])
        status = bot.end("bye")[1]
        self.note("the bot ends", status == 0, status)

    def refused(self, name, front, why):
        """A server whose certificate does not count."""
        tls = self.keep(TlsServer(self.room, self.server, front, name))
        bot = self.bot(name, [tls], "log lines")
        tunnel = self.keep(tunnel_of(self.program, bot, self.authority))
        bot.start()
        self.note(f"{name}: the bot hears nothing of the server", comes(lambda: "server lost: the connection ended" in bot.logged(), LONG) and "< " not in bot.logged(),
                  bot.logged().splitlines()[-1:])
        self.note(f"{name}: stunnel says why", re.search(why, tunnel.logged()), tunnel.logged().splitlines()[-2:])
        bot.end()

    def links(self):
        """A hub and a leaf, each with a stunnel on what is printed for it, and keys of the net's secret."""
        secret = f"{self.room}/secret"
        Path(secret).write_text("a secret of all bots of this trial\n", encoding="utf-8")
        os.chmod(secret, 0o600)
        door = free_port()
        hub = self.bot("hub1", [self.server], "bot 0 of 2", f"listen 127.0.0.1 +{door}", f"secret {secret}")
        leaf = self.bot("leaf1", [self.server], "bot 1 of 2", f"hub localhost +{door}", f"secret {self.room}/key1")
        Path(f"{self.room}/key1").write_text(ran([self.program, "key", secret, "1"])[1], encoding="utf-8")
        for bot in (hub, leaf):
            done = ran([self.program, "tunnel", "--keys", bot.config])
            self.note(f"{bot.nick}: tunnel --keys writes the file of the keys", done == (0, "", "") and mode_of(f"{bot.folder}/tls/keys") == "0o600", done)
        keys = Path(f"{hub.folder}/tls/keys").read_text(encoding="utf-8").splitlines()
        own = Path(f"{leaf.folder}/tls/keys").read_text(encoding="utf-8").splitlines()
        self.note("the hub's has a line of each leaf, the leaf's its own", len(keys) == 2 and own == keys[:1] and re.fullmatch("leaf1:[0-9a-f]{64}", own[0]), own)
        self.keep(tunnel_of(self.program, hub, self.authority))
        leafs = self.keep(tunnel_of(self.program, leaf, self.authority))
        hub.start()
        leaf.start()
        self.note("the leaf is linked through both", comes(lambda: "linked to the hub through its tunnel" in leaf.logged(), LONG), leaf.logged().splitlines()[-2:])
        self.note("the hub listens at no port, and sees a tunnel", tcp_sockets(hub.process.pid, True) == [] and "leaf 1 linked through the tunnel" in hub.logged(), tcp_sockets(hub.process.pid, True))
        self.note("and says so in its status", comes(lambda: re.search(r"leaf 1 .* address tunnel\n", hub.tell("status")[1])), hub.tell("status")[1])
        hub.tell("adduser", "ann")
        self.note("a change of the hub's gets to the leaf", comes(lambda: "user ann" in (leaf.answers("show") or ""), LONG))
        leafs.kill()
        text = Path(f"{leaf.folder}/tls/keys").read_text(encoding="utf-8")
        other = text[:-65] + "".join("1" if it == "0" else "0" for it in text[-65:-1]) + "\n"
        Path(f"{leaf.folder}/tls/keys").write_text(other, encoding="utf-8")
        since = len(leaf.logged())
        leafs = self.keep(tunnel_of(self.program, leaf, self.authority))
        self.note("with another key the leaf is not linked", comes(lambda: leaf.logged()[since:].count("hub lost") > 1, LONG) and "linked" not in leaf.logged()[since:], leaf.logged().splitlines()[-1:])
        for bot in (leaf, hub):
            bot.end()
        left = f"{hub.folder}/tls/127.0.0.1_{door}"
        hub.start()
        self.note("a hub that finds its old socket listens again", os.path.exists(left) and hub.process.poll() is None, hub.logged().splitlines()[-1:])
        hub.end()

    def all(self):
        self.note("ngircd runs", self.server.start())
        self.tls = self.keep(TlsServer(self.room, self.server, self.authority.signs("localhost"), "tls"))
        self.reading()
        self.verified()
        self.refused("another", self.authority.signs("irc.other.test"), "(?i)host name|mismatch|no host name matched|CERT: Subject checks failed|Rejected by")
        self.refused("unknown", Authority(self.room, "stranger").signs("localhost"), "(?i)self.signed|unable to get local issuer|verif|Rejected by")
        self.links()


def main(words):
    tally = Tally()
    lacking = [it for it in ("ngircd", "stunnel", "openssl") if not shutil.which(it)]
    if lacking or os.getuid():
        sys.exit(f"this trial wants root, and {' '.join(lacking)}")
    with tempfile.TemporaryDirectory(prefix="tunnel-") as room:
        os.chmod(room, 0o755)
        trial = Trial(program_of(words), tally, room)
        try:
            trial.all()
        finally:
            end_all(*trial.begun, trial.server)
    return tally.end()


if __name__ == "__main__":
    sys.exit(main(sys.argv[1:]))
