#!/usr/bin/env python3
"""Runs a bot with an account at InspIRCd with Atheme's services, through a tunnel of stunnel.

    trials/services.py [PROGRAM]      ends within three minutes; as root

PROGRAM is the program to try, else what EGGNET names, else ours. It wants Debian's packages inspircd, atheme-services, stunnel4
and openssl. Atheme 7.2 knows PLAIN and EXTERNAL, and no SCRAM. The bot logs in by EXTERNAL through a tunnel whose certificate
its account has. Through a tunnel with another certificate, and without a tunnel, the server rejects EXTERNAL, and the bot
leaves; it never says its password. While the services are down, the server offers no login or does not answer, and the bot leaves too.

Another account has no certificate. The bot logs in to it by PLAIN if the configuration says `server localhost +PORT`, and
stunnel runs on what `eggnet tunnel` prints. With another password the server rejects the login. Without the plus, to the
server itself and to a port of this machine that is a tunnel, the bot says no password: the trial has each line that it sends.
The last line is 'N well, M bad'; the status is 1 where any is bad.
"""
import base64
import os
import pwd
import re
import shutil
import subprocess
import sys
import tempfile
import time
from pathlib import Path

sys.dont_write_bytecode = True
from bots import Bot, Guest, Server, Tally, comes, end_all, free_port, program_of
from taps import Tap
from tunnel import Authority, tunnel_of

ACCOUNT, PASSWORD = "egg", "correcthorsebattery"
PLAIN_ACCOUNT = "bare"  # it has no certificate
LONG = 90  # seconds


class Network(Server):
    """InspIRCd that services may join, also over TLS with the certificate FRONT.pem. `more` are lines of its configuration
    that come first."""

    more = ""

    def __init__(self, room, front=None):
        super().__init__(room)
        self.tls, self.link, self.front = free_port(), free_port(), front

    def words(self):
        path = f"{self.room}/inspircd.conf"
        tls = f"""<module name="ssl_gnutls"><module name="sslinfo">
<bind address="127.0.0.1" port="{self.tls}" type="clients" ssl="trial">
<sslprofile name="trial" provider="gnutls" certfile="{self.front}.pem" keyfile="{self.front}.key" hash="sha256" requestclientcert="yes">
"""
        Path(path).write_text(f"""
<module name="cap"><module name="ircv3"><module name="sasl"><module name="services_account"><module name="spanningtree">
{tls if self.front else ""}{self.more}
<server name="irc.trial.test" description="a trial" network="Trial">
<admin name="nobody" nick="nobody" email="nobody@trial.test">
<bind address="127.0.0.1" port="{self.port}" type="clients">
<bind address="127.0.0.1" port="{self.link}" type="servers">
<connect name="all" allow="*" timeout="60" pingfreq="20" softsendq="1048576" hardsendq="1048576" recvq="8192" threshold="10"
  commandrate="1000" fakelag="no" localmax="100" globalmax="100" resolvehostnames="no" useident="no">
<link name="services.trial.test" ipaddr="127.0.0.1" port="1" allowmask="127.0.0.1" sendpass="linked" recvpass="linked">
<uline server="services.trial.test" silent="yes">
<sasl target="services.trial.test" requiressl="no">
<pid file="{self.room}/inspircd.pid">
<log method="file" type="* -USERINPUT -USEROUTPUT" level="default" target="{self.room}/inspircd.log">
<path datadir="{self.room}" logdir="{self.room}" runtimedir="{self.room}">
""", encoding="utf-8")
        return ["inspircd", "--runasroot", "--nofork", f"--config={path}"]

    def logged(self):
        path = Path(f"{self.room}/inspircd.log")
        return path.read_text(encoding="utf-8", errors="replace") if path.exists() else ""


class Services:
    """Atheme, as the user `irc`: it runs as no root."""

    def __init__(self, room, network):
        self.room, self.network, self.process = f"{room}/services", network, None

    def start(self):
        """Starts it. Whether it joins the network soon."""
        self.begin()
        joins = comes(lambda: "services.trial.test" in self.network.logged() and Path(f"{self.room}/atheme.log").exists(), LONG)
        time.sleep(3)
        return joins

    def begin(self):
        if not os.path.isdir(self.room):
            os.mkdir(self.room)
            Path(f"{self.room}/atheme.conf").write_text(f"""
loadmodule "modules/protocol/inspircd"; loadmodule "modules/backend/opensex"; loadmodule "modules/crypto/pbkdf2v2";
loadmodule "modules/nickserv/main"; loadmodule "modules/nickserv/register"; loadmodule "modules/nickserv/identify"; loadmodule "modules/nickserv/cert";
loadmodule "modules/nickserv/logout";
loadmodule "modules/saslserv/main"; loadmodule "modules/saslserv/plain"; loadmodule "modules/saslserv/external";
serverinfo {{ name = "services.trial.test"; desc = "a trial"; numeric = "00A"; recontime = 1; netname = "Trial"; hidehostsuffix = "users.trial.test";
  adminname = "nobody"; adminemail = "nobody@trial.test"; registeremail = "nobody@trial.test"; mta = "/bin/true"; loglevel = {{ error; info; network; }};
  maxcertfp = 10; maxlogins = 10; maxusers = 0; mdlimit = 30; emaillimit = 10; emailtime = 300; auth = none; casemapping = rfc1459; }};
uplink "irc.trial.test" {{ host = "127.0.0.1"; send_password = "linked"; receive_password = "linked"; port = {self.network.link}; }};
nickserv {{ nick = "NickServ"; user = "NickServ"; host = "services.trial.test"; real = "a trial"; }};
saslserv {{ nick = "SaslServ"; user = "SaslServ"; host = "services.trial.test"; real = "a trial"; }};
general {{ commit_interval = 5; }};
logfile "{self.room}/atheme.log" {{ all; }};
""", encoding="utf-8")
            user = pwd.getpwnam("irc")
            for it in (self.room, f"{self.room}/atheme.conf"):
                os.chown(it, user.pw_uid, user.pw_gid)
        words = ["atheme-services", "-n", "-c", f"{self.room}/atheme.conf", "-D", self.room, "-l", f"{self.room}/boot.log", "-p", f"{self.room}/atheme.pid"]
        log = open(f"{self.room}/out", "ab")
        self.process = subprocess.Popen(["setpriv", "--reuid", "irc", "--regid", "irc", "--clear-groups", *words], stdin=subprocess.DEVNULL, stdout=log, stderr=log, cwd=self.room)
        log.close()

    def kill(self):
        if self.process:
            self.process.terminate()
            self.process.wait()
            self.process = None


class Tunnel:
    """stunnel to the network, which shows this certificate."""

    host, password = "127.0.0.1", ""

    def __init__(self, room, network, name):
        self.port = free_port()
        path = f"{room}/{name}.tunnel"
        Path(path).write_text(f"foreground = yes\n[irc]\nclient = yes\naccept = 127.0.0.1:{self.port}\nconnect = 127.0.0.1:{network.tls}\n"
                              f"cert = {room}/{name}.pem\nkey = {room}/{name}.key\nverifyChain = yes\nCAfile = {network.authority}\n", encoding="utf-8")
        with open(f"{path}.log", "ab") as log:
            self.process = subprocess.Popen(["stunnel", path], stdin=subprocess.DEVNULL, stdout=log, stderr=log)

    def kill(self):
        self.process.kill()
        self.process.wait()


def certificate(room, name):
    """Makes a certificate, and returns its SHA-256 as services write it."""
    words = ["openssl", "req", "-x509", "-newkey", "rsa:2048", "-nodes", "-days", "2", "-subj", f"/CN={name}", "-keyout", f"{room}/{name}.key", "-out", f"{room}/{name}.pem"]
    subprocess.run(words, check=True, stdout=subprocess.DEVNULL, stderr=subprocess.DEVNULL)
    shown = subprocess.run(["openssl", "x509", "-in", f"{room}/{name}.pem", "-noout", "-fingerprint", "-sha256"], check=True, stdout=subprocess.PIPE, text=True)
    return shown.stdout.partition("=")[2].replace(":", "").strip().lower()


class Encrypted:
    """The network as `server localhost +PORT` names it."""

    host, password = "localhost", ""

    def __init__(self, network):
        self.port = f"+{network.tls}"


class Trial:
    def __init__(self, program, tally, room, authority):
        self.program, self.tally, self.room, self.authority, self.count = program, tally, room, authority, 0

    def bot(self, server, account=ACCOUNT, password=PASSWORD):
        """A bot with an account, and its tunnel if the server's port has a plus."""
        self.count += 1
        room = f"{self.room}/{self.count}"
        os.mkdir(room)
        Path(f"{room}/password").write_text(f"{password}\n", encoding="utf-8")
        os.chmod(f"{room}/password", 0o600)
        lines = ["log lines", "channel #eggs", f"account {account} {room}/password"]
        bot = Bot(self.program, room, "egg", [server], lines, nick=f"egg{self.count}")
        tunnel = [tunnel_of(self.program, bot, self.authority)] if isinstance(server, Encrypted) else []
        bot.begin()
        return bot, *tunnel

    def well(self, what, server, account=ACCOUNT):
        bot, *tunnel = self.bot(server, account)
        try:
            on = comes(lambda: "on #eggs" in bot.logged(), LONG)
            self.tally.note(f"{what}: the bot logs in and joins", on and "the server accepts the login" in bot.logged(), "" if on else bot.logged()[-600:])
            self.tally.note(f"{what}: as its account", re.search(rf"< irc.trial.test 900 \S+ \S+ {account} ", bot.logged()), re.findall("< irc.trial.test 90. .*", bot.logged()))
            if tunnel:
                self.tally.note(f"{what}: by its tunnel", "connecting to localhost through its tunnel" in bot.logged())
        finally:
            end_all(bot, *tunnel)

    def fails(self, what, server, says, account=ACCOUNT, password=PASSWORD):
        bot, *tunnel = self.bot(server, account, password)
        try:
            lost = comes(lambda: re.search(f"server lost: {says}", bot.logged()), LONG)
            self.tally.note(f"{what}: the bot leaves, and says why", lost, re.findall("server lost: .*", bot.logged()) or bot.logged()[-600:])
            self.tally.note(f"{what}: it was never let in", "welcome as" not in bot.logged())
        finally:
            end_all(bot, *tunnel)

    def keeps_silent(self, what, port):
        """A bot whose server has no plus, and whose account has no certificate: the trial has each line that it sends."""
        tap = Tap(port)
        try:
            self.fails(what, tap, "the server rejects the login", PLAIN_ACCOUNT)
            said = tap.said("^AUTHENTICATE ")
            self.tally.note(f"{what}: it tries EXTERNAL alone, and the password is in no line",
                            said[:1] == ["AUTHENTICATE EXTERNAL"] and not tap.said("PLAIN") and not any(it in line for line in tap.lines for it in SECRETS), said)
        finally:
            end_all(tap)


SECRETS = [PASSWORD, *(base64.b64encode(f"{first}\0{it}\0{PASSWORD}".encode()).decode() for it in (ACCOUNT, PLAIN_ACCOUNT) for first in ("", it))]


def registers(tally, network, account, *more):
    """Registers an account at the services, and says more to NickServ as its owner."""
    owner = Guest(network, account)
    try:
        for line, answer in ((f"REGISTER {PASSWORD} nobody@trial.test", "now registered"), *more):
            tally.note(f"the services answer {account}'s {line.split()[0]}", owner.asks(f"PRIVMSG NickServ :{line}", answer, LONG), owner.lines[-1:])
    finally:
        owner.leave()


def by_plain(tally, trial, network, tunnel):
    """An account without a certificate."""
    registers(tally, network, PLAIN_ACCOUNT)
    encrypted = Encrypted(network)
    trial.well("PLAIN through a tunnel of a +PORT", encrypted, PLAIN_ACCOUNT)
    trial.fails("PLAIN with another password", encrypted, "the server rejects the login", PLAIN_ACCOUNT, f"{PASSWORD}2")
    trial.keeps_silent("no plus, the server itself", network.port)
    trial.keeps_silent("no plus, a port of this machine that is a tunnel", tunnel.port)


def tried(tally, program, room):
    own, other = certificate(room, "own"), certificate(room, "other")
    certificate(room, "bare")
    authority = Authority(room, "authority")
    network = Network(room, authority.signs("localhost"))
    network.authority = f"{authority.folder}/ca.pem"
    trial, services = Trial(program, tally, room, authority), Services(room, network)
    running = [services, network]
    try:
        tally.note("the network starts", network.start())
        trial.fails("services that are down", network, "the server offers no login now")
        tally.note("the services join it", services.start(), network.logged()[-300:])
        registers(tally, network, ACCOUNT, (f"CERT ADD {own}", "fingerprint|Added"))
        tunnels = [Tunnel(room, network, it) for it in ("own", "other", "bare")]
        running += tunnels
        time.sleep(1)
        tally.say(f"certificates {own[:8]}.. and {other[:8]}..")
        trial.well("a tunnel with the account's certificate", tunnels[0])
        trial.fails("a tunnel with another certificate", tunnels[1], "the server rejects the login")
        trial.fails("no tunnel", network, "the server rejects the login")
        by_plain(tally, trial, network, tunnels[2])
        services.kill()
        time.sleep(2)
        trial.fails("services that went", network, "(the server offers no login now|it did not welcome the bot for 60 seconds)")
        logs = "".join(Path(it).read_text(encoding="utf-8", errors="replace") for it in Path(room).glob("[0-9]*/*.log"))
        tally.note("no log of a bot has the password", not any(it in logs for it in SECRETS))
    finally:
        end_all(*running)


def main(words):
    tally = Tally()
    lacking = [it for it in ("inspircd", "atheme-services", "stunnel", "openssl", "setpriv") if not shutil.which(it)]
    if lacking or os.getuid():
        sys.exit(f"this trial wants root, and {' '.join(lacking)}")
    with tempfile.TemporaryDirectory(prefix="services-") as room:
        os.chmod(room, 0o755)
        tried(tally, program_of(words), room)
    return tally.end()


if __name__ == "__main__":
    sys.exit(main(sys.argv[1:]))
