#!/usr/bin/env python3
"""Runs a bot with an account at servers that know logins by SASL, that know others, and that know none.

    trials/sasl.py [PROGRAM]      ends within four minutes; a program that isn't proved derives passwords slowly

PROGRAM is the program to try, else what EGGNET names, else ours. The servers are the small server of the trials, with a login
by SCRAM-SHA-256 and SCRAM-SHA-512 (RFC 5802, RFC 7677) made of Python's hashlib and hmac. A bot logs in to each of them that
lets it: with either hash, with many iterations, after another mechanism failed, by EXTERNAL. It never goes on without its
login: a wrong password, no login offered, no mechanism that may be used, a server that lets it in at once, services that do
not answer, a server that does not know the password, and one without capabilities each end the connection with a line of the
log that says what to do, and the next server is tried. The password is in no line of a connection without a plus and in no line
of the log, which shows all lines. Through a tunnel the bot logs in by PLAIN too, where nothing better is offered. A bot without an
account asks for those capabilities that it goes by and the server offers, and for nothing else, and ends the negotiation.
The last line is 'N well, M bad'; the status is 1 where any is bad.
"""
import base64
import hashlib
import hmac
import os
import re
import socket
import sys
import tempfile
import threading
import time
from pathlib import Path

sys.dont_write_bytecode = True
from bots import Bot, Tally, comes, end_all, program_of, ran
from small_server import NAME, SmallServer

ACCOUNT, PASSWORD = "egg", "correct, horse = battery"
HASHES = {"SCRAM-SHA-256": "sha256", "SCRAM-SHA-512": "sha512"}
LONG = 100  # seconds, for a login on a busy machine


def b64(text):
    return base64.b64encode(text).decode()


class Services(SmallServer):
    """The small server with capabilities and a login; `offers` is what it says of sasl, none for a server without CAP."""

    def __init__(self, offers="sasl=PLAIN,SCRAM-SHA-256,SCRAM-SHA-512,EXTERNAL", *, also=("account-notify away-notify", "multi-prefix"), password=PASSWORD, count=4096, rejects=(), lies=False, hurries=False,
                 is_silent=False, external=False):
        super().__init__()
        self.offers, self.also, self.known, self.count, self.rejects = offers, also, password, count, rejects
        self.lies, self.hurries, self.is_silent, self.external = lies, hurries, is_silent, external
        self.exchange, self.logins, self.bad = {}, [], []

    def answer(self, visitor, line):
        word, _, rest = line.partition(" ")
        if word == "CAP":
            self.cap(visitor, rest)
        elif word == "AUTHENTICATE":
            self.authenticate(visitor, rest)
        elif word == "USER" and self.is_held(visitor) and not self.hurries:
            visitor.user = rest
        else:
            super().answer(visitor, line)

    def is_held(self, visitor):
        """Whether its registration waits for CAP END."""
        return self.offers is not None and bool(visitor.said("^CAP LS")) and not visitor.said("^CAP END")

    def cap(self, visitor, rest):
        if self.offers is None:
            visitor.say(f":{NAME} 421 {visitor.nick} CAP :Unknown command")
        elif rest.startswith("LS"):
            visitor.say(f":{NAME} CAP {visitor.nick} LS * :{self.also[0]}", f":{NAME} CAP {visitor.nick} LS :{self.also[1]} {self.offers}")
        elif rest.startswith("REQ"):
            visitor.say(f":{NAME} CAP {visitor.nick} ACK {rest.partition(' ')[2]}")
        elif rest == "END" and hasattr(visitor, "user"):
            super().answer(visitor, f"USER {visitor.user}")

    def authenticate(self, visitor, rest):
        if self.is_silent:
            return
        exchange = self.exchange.setdefault(visitor, {})
        if rest in HASHES or rest in ("PLAIN", "EXTERNAL"):
            self.exchange[visitor] = {"mechanism": rest}
            if rest in self.rejects:
                visitor.say(f":{NAME} 904 {visitor.nick} :SASL authentication failed")
            else:
                visitor.say("AUTHENTICATE +")
        elif exchange.get("mechanism") == "EXTERNAL":
            self.end(visitor, self.external and rest == "+")
        elif exchange.get("mechanism") == "PLAIN":
            self.end(visitor, rest == b64(f"\0{ACCOUNT}\0{self.known}".encode()))
        elif exchange.get("mechanism") in HASHES:
            self.scram(visitor, exchange, rest)
        else:
            self.bad.append(rest)

    def scram(self, visitor, exchange, rest):
        """A message of the client's in an exchange."""
        digest = HASHES[exchange["mechanism"]]
        if "first" not in exchange:
            message = base64.b64decode(rest).decode()
            exchange["bare"] = message.removeprefix("n,,")
            name, nonce = re.fullmatch("n=(.*),r=(.*)", exchange["bare"]).groups()
            self.bad += [name] if name != ACCOUNT else []
            salt = os.urandom(16)
            exchange["nonce"] = nonce + b64(os.urandom(12))
            exchange["first"] = f"r={exchange['nonce']},s={b64(salt)},i={self.count}"
            exchange["salted"] = hashlib.pbkdf2_hmac(digest, self.known.encode(), salt, self.count)
            visitor.say(f"AUTHENTICATE {b64(exchange['first'].encode())}")
        elif "final" not in exchange:
            self.final(visitor, exchange, digest, base64.b64decode(rest).decode())
        else:
            self.end(visitor, rest == "+")

    def final(self, visitor, exchange, digest, message):
        without, _, proof = message.rpartition(",p=")
        auth = ",".join([exchange["bare"], exchange["first"], without]).encode()
        stored = hashlib.new(digest, hmac.digest(exchange["salted"], b"Client Key", digest)).digest()
        signature = hmac.digest(stored, auth, digest)
        key = bytes(a ^ b for a, b in zip(base64.b64decode(proof), signature))
        if without != f"c=biws,r={exchange['nonce']}" or (hashlib.new(digest, key).digest() != stored and not self.lies):
            return self.end(visitor, False)
        exchange["final"] = hmac.digest(hmac.digest(exchange["salted"], b"Server Key", digest), auth, digest)
        return visitor.say(f"AUTHENTICATE {b64(b'v=' + b64(exchange['final']).encode())}")

    def end(self, visitor, is_well):
        if is_well:
            self.logins.append(self.exchange[visitor]["mechanism"])
            visitor.say(f":{NAME} 900 {visitor.nick} {visitor.nick}!egg@host.trial {ACCOUNT} :You are now logged in", f":{NAME} 903 {visitor.nick} :SASL authentication successful")
        else:
            visitor.say(f":{NAME} 904 {visitor.nick} :SASL authentication failed")


def secret_file(room, text):
    path = f"{room}/password"
    Path(path).write_bytes(text)
    os.chmod(path, 0o600)
    return path


def is_secret_kept(bot, server):
    """Whether neither the password nor PLAIN's message nor a lone proof is where others may read it."""
    told = "\n".join(line for visitor in server.visitors for _, line in visitor.lines)
    plain = b64(f"\0{ACCOUNT}\0{PASSWORD}".encode())
    return not any(it in text for text in (told, bot.logged()) for it in (PASSWORD, plain, b64(PASSWORD.encode()))) and not re.search("AUTHENTICATE [^\n]", bot.logged())


class Tunnel:
    """What stands at the socket of a bot's tunnel, and passes on to the server what comes there."""

    host, password = "localhost", ""

    def __init__(self, server):
        self.server, self.port, self.door = server, f"+{server.port}", None

    def listen(self, bot):
        """Listens as soon as the bot has its folder."""
        path = Path(bot.folder) / "tls" / f"localhost_{self.server.port}"
        comes(lambda: os.path.isdir(bot.folder))
        path.parent.mkdir(mode=0o700, exist_ok=True)
        self.door = socket.socket(socket.AF_UNIX)
        self.door.bind(str(path))
        self.door.listen()
        threading.Thread(target=self.let_in, daemon=True).start()

    def let_in(self):
        while True:
            try:
                near, _ = self.door.accept()
            except OSError:
                return
            far = socket.create_connection((self.server.host, self.server.port))
            for one, other in ((near, far), (far, near)):
                threading.Thread(target=self.pass_on, args=(one, other), daemon=True).start()

    @staticmethod
    def pass_on(one, other):
        try:
            while piece := one.recv(4096):
                other.sendall(piece)
            other.shutdown(socket.SHUT_WR)
        except OSError:
            pass

    def stop(self):
        if self.door:
            self.door.close()


class Trial:
    def __init__(self, program, tally, room):
        self.program, self.tally, self.room, self.count = program, tally, room, 0

    def bot(self, *servers, ends=b"\n", account=True):
        self.count += 1
        room = f"{self.room}/{self.count}"
        os.mkdir(room)
        lines = ["log lines", "channel #eggs"] + ([f"account {ACCOUNT} {secret_file(room, PASSWORD.encode() + ends)}"] if account else [])
        bot = Bot(self.program, room, "egg", servers, lines)
        bot.begin()
        return bot

    def well(self, what, mechanism, **how):
        """The bot logs in."""
        ends = how.pop("ends", b"\n")
        server = Services(**how)
        bot = self.bot(server, ends=ends)
        try:
            on = comes(lambda: any(it.said("^JOIN #eggs") for it in server.visitors), LONG)
            self.tally.note(f"{what}: it logs in and joins", bool(on), bot.logged()[-400:] if not on else f"by {server.logins}")
            self.tally.note(f"{what}: by {mechanism}, once", server.logins == [mechanism] and not server.bad, (server.logins, server.bad))
            visitor = server.visitors[0]
            lines = [line for _, line in visitor.lines]
            self.tally.note(f"{what}: CAP LS 302 is its first line, and CAP END comes once", lines[:1] == ["CAP LS 302"] and lines.count("CAP END") == 1, lines[:3])
            self.tally.note(f"{what}: the log says so, and shows no line of the login", "the server accepts the login" in bot.logged() and is_secret_kept(bot, server))
        finally:
            end_all(bot, server)

    def fails(self, what, says, **how):
        """The bot leaves, says why, and tries the next server."""
        server, after = Services(**how), Services()
        bot = self.bot(server, after)
        try:
            lost = comes(lambda: says in bot.logged(), LONG)
            self.tally.note(f"{what}: the log says why", bool(lost), re.findall("server lost: .*", bot.logged()) or bot.logged()[-400:])
            self.tally.note(f"{what}: it joins nothing there and does not end the negotiation", not any(it.said("^(JOIN|CAP END)") for it in server.visitors))
            self.tally.note(f"{what}: it logs in at the next server", bool(comes(lambda: any(it.said("^JOIN #eggs") for it in after.visitors), LONG)))
            self.tally.note(f"{what}: the password stays secret", is_secret_kept(bot, server) and is_secret_kept(bot, after))
        finally:
            end_all(bot, server, after)

    def alone(self, what, asks, **how):
        """A bot without an account, which asks for capabilities, and says nothing of a login."""
        server = Services(**how)
        bot = self.bot(server, account=False)
        try:
            on = comes(lambda: any(it.said("^JOIN #eggs") for it in server.visitors))
            lines = [line for it in server.visitors for _, line in it.lines]
            self.tally.note(f"{what}: it joins", bool(on), bot.logged()[-400:] if not on else "")
            self.tally.note(f"{what}: CAP LS 302 is its first line", lines[:2] == ["CAP LS 302", "NICK egg"], lines[:3])
            self.tally.note(f"{what}: of capabilities and a login it says this alone", [it for it in lines if re.match("CAP|AUTH", it)] == ["CAP LS 302", *asks], lines[:6])
            self.tally.note(f"{what}: the log says nothing of a login", "accepts the login" not in bot.logged())
        finally:
            end_all(bot, server)

    def private(self, what, **how):
        """The bot logs in by PLAIN, through a tunnel."""
        server = Services(**how)
        tunnel = Tunnel(server)
        bot = self.bot(tunnel)
        tunnel.listen(bot)
        try:
            on = comes(lambda: any(it.said("^JOIN #eggs") for it in server.visitors), LONG)
            self.tally.note(f"{what}: it logs in and joins", bool(on), bot.logged()[-400:] if not on else f"by {server.logins}")
            self.tally.note(f"{what}: by PLAIN, once", server.logins == ["PLAIN"] and not server.bad, (server.logins, server.bad))
            self.tally.note(f"{what}: the log has no password", not any(it in bot.logged() for it in (PASSWORD, b64(f"\0{ACCOUNT}\0{PASSWORD}".encode()))))
        finally:
            end_all(bot, server, tunnel)

    def refused(self, what, says, text=None, path=None):
        """The bot does not start."""
        self.count += 1
        room = f"{self.room}/{self.count}"
        os.mkdir(room)
        file = path or secret_file(room, text)
        bot = Bot(self.program, room, "egg", [Services()], [f"account {ACCOUNT} {file}"])
        status, out, err = ran([self.program, "run", bot.config])
        self.tally.note(f"{what}: it does not start, and makes no folder", status == 1 and says in out + err and not os.path.exists(bot.folder), (status, (out + err).strip()))
        status, out, err = ran([self.program, "check", bot.config])
        self.tally.note(f"{what}: check opens no file", status == 0, (status, out + err))


def tried(trial, room):
    trial.well("both hashes offered", "SCRAM-SHA-512")
    trial.well("SHA-256 alone, a file with CR LF", "SCRAM-SHA-256", offers="sasl=SCRAM-SHA-256", ends=b"\r\nmore\n")
    trial.well("sasl without a list, a file without an end of line", "SCRAM-SHA-512", offers="sasl", ends=b"")
    trial.well("12,000 iterations, over several turns", "SCRAM-SHA-256", offers="sasl=SCRAM-SHA-256", count=12_000)
    trial.well("SHA-512 fails by 904", "SCRAM-SHA-256", rejects=["SCRAM-SHA-512"])
    trial.well("EXTERNAL after both", "EXTERNAL", rejects=[*HASHES], external=True)
    trial.fails("a wrong password", "server lost: the server rejects the login: see the account's name and password", password="another")
    trial.fails("no sasl", "server lost: the server offers no login now", offers="multi-prefix")
    trial.fails("PLAIN alone", "server lost: the server offers no login that this connection may use", offers="sasl=PLAIN")
    trial.fails("too few iterations", "fewer than 4096 iterations", offers="sasl=SCRAM-SHA-256", count=1)
    trial.fails("a server that lets everybody in", "server lost: the server lets the bot in without its login", hurries=True, is_silent=True)
    trial.fails("a server without the password", "server lost: the server does not show that it knows the password", password="another", lies=True)
    trial.fails("no CAP", "server lost: the server knows no logins", offers=None)
    trial.fails("services that do not answer", "server lost: it did not welcome the bot for 60 seconds", is_silent=True)
    trial.private("PLAIN alone, through a tunnel", offers="sasl=PLAIN")
    trial.private("PLAIN after both hashes, through a tunnel", rejects=[*HASHES, "EXTERNAL"])
    trial.alone("without an account, a server with CAP", ["CAP REQ :account-notify multi-prefix", "CAP END"])
    trial.alone("without an account, a server with other capabilities", ["CAP END"], offers="sasl", also=("away-notify", "batch"))
    trial.alone("without an account, no CAP", [], offers=None)
    trial.refused("an empty file", "the account's password must have 1 to 255 bytes", b"\n")
    trial.refused("a long password", "the account's password must have 1 to 255 bytes", b"x" * 256 + b"\n")
    trial.refused("a password beyond ASCII", "letters, digits, spaces and signs of ASCII alone", "pässword\n".encode())
    trial.refused("no file", "the file of the line account can't be read", path=f"{room}/none")
    trial.refused("a folder", "the file of the line account is not a regular file", path=room)


def main(words):
    tally, began = Tally(), time.monotonic()
    with tempfile.TemporaryDirectory(prefix="sasl-") as room:
        tried(Trial(program_of(words), tally, room), room)
    tally.say(f"it took {time.monotonic() - began:.0f} s")
    return tally.end()


if __name__ == "__main__":
    sys.exit(main(sys.argv[1:]))
