#!/usr/bin/env python3
"""Runs a bot whose standard output is a pipe that nobody reads.

    trials/pipes.py [PROGRAM] [LINES]      2,500 lines of a server, some 450 kB, if they aren't said

PROGRAM is the program to try, else what EGGNET names, else ours. The bot logs each line of its server. While the pipe is
full it answers the server's PINGs and the words of `eggnet tell`. When the pipe is read at last the log goes on, each line
of it is whole, and a line says how many were dropped. A second bot, whose log nobody ever reads, ends as it is told.
The last line is 'N well, M bad'; the status is 1 where any is bad.
"""
import re
import subprocess
import sys
import tempfile
import threading
import time

sys.dont_write_bytecode = True
from bots import Bot, Tally, comes, counts_of, end_all, program_of
from small_server import SmallServer

SOON = 5  # seconds


class PipedBot(Bot):
    """A bot whose log goes into a pipe."""

    def begin(self, limit=None):
        self.read = b""
        self.process = subprocess.Popen([self.program, "run", self.config], stdin=subprocess.DEVNULL,
                                        stdout=subprocess.PIPE, stderr=subprocess.DEVNULL)

    def read_on(self):
        """Reads the pipe from now on."""
        def read():
            while came := self.process.stdout.read1(65536):
                self.read += came
        threading.Thread(target=read, daemon=True).start()

    def logged(self):
        return self.read.decode(errors="replace")


def told(bot, *words):
    """What `eggnet tell` prints, and after how many seconds; none where it is not done soon."""
    began = time.monotonic()
    try:
        done = subprocess.run([bot.program, "tell", bot.folder, *words], capture_output=True, text=True, timeout=SOON,
                              check=False)
    except subprocess.TimeoutExpired:
        return None, SOON
    return done.stdout, time.monotonic() - began


def fill(tally, visitor, count):
    """The server says so many lines, and a PING after each 250, until one is not answered. How many it said."""
    waits, number = [], 0
    for number in range(1, count + 1):
        visitor.say(f":ann!ann@host.trial PRIVMSG #egg :number {number} {'x' * 140}")
        if number % 250 == 0 or number == count:
            waits.append(visitor.asks(f"PING :{number}", rf"^PONG :?{number}$", SOON))
            if waits[-1] is None:
                break
    worst = max((it for it in waits if it), default=0)
    tally.note(f"a full pipe: it answers each PING of {count} lines", None not in waits,
               f"{len(waits)} PINGs, {worst:.2f} s at most{', the last not' if None in waits else ''}")
    return number


def is_there(tally, bot, server):
    """It starts, and the server lets it onto its channel."""
    visitor = server.visitor(bot.nick) if bot.start() else None
    tally.note(f"{bot.nick} is on its channel", visitor and bool(comes(lambda: visitor.said("^JOIN #egg$"))))
    return visitor


def is_read_late(tally, bot, server, count):
    """A bot whose log is read at last."""
    visitor = is_there(tally, bot, server)
    count = fill(tally, visitor, count)
    out, took = told(bot, "status")
    tally.note("a full pipe: tell status", out and out.startswith("version 0\n"), f"{took:.2f} s")
    out, took = told(bot, "adduser", "me")
    tally.note("a full pipe: tell adduser", out == "accepted 1\n", f"{out} {took:.2f} s")
    bot.read_on()
    comes(lambda: "dropped" in bot.logged(), 3)
    visitor.say(":ann!ann@host.trial PRIVMSG #egg :the last one")
    last = comes(lambda: " PRIVMSG #egg :the last one\n" in bot.logged())
    tally.note("the log goes on when it is read", bool(last), f"{len(bot.read)} bytes")
    dropped = [int(it) for it in re.findall(r"^\d+ .*dropped: (\d+)$", bot.logged(), re.M)]
    tally.note("it says that lines were dropped", bool(dropped), dropped)
    judge(tally, bot, count, sum(dropped))
    _, status, took = bot.end()
    tally.note("it ends as it is told", status == 0, f"status {status} after {took:.1f} s")


def judge(tally, bot, count, dropped):
    """Each line of the log is whole, and each of the server's is there, in order, or was dropped."""
    lines = bot.logged().split("\n")[:-1]
    torn = [it for it in lines if not re.match(r"\d{10} \S", it)]
    torn += [it for it in lines if " :number " in it and not re.search(r" #egg :number \d+ x{140}$", it)]
    numbers = [int(it[1]) for it in (re.search(r" :number (\d+) ", line) for line in lines) if it]
    tally.note("each line of the log is whole", lines and not torn, f"{len(lines)} lines {torn[:2]}")
    tally.note("each line of the server is there once, in order, or dropped",
               numbers == sorted({*numbers}) and len(numbers) + dropped >= count,
               f"{len(numbers)} of {count} are there, {dropped} dropped")


def is_never_read(tally, bot, server, count):
    """A bot whose log nobody reads."""
    visitor = is_there(tally, bot, server)
    fill(tally, visitor, count)
    out, took = told(bot, "die")
    try:
        status = bot.process.wait(SOON)
    except subprocess.TimeoutExpired:
        status = None
    tally.note("it ends as it is told, though nobody reads its log", status == 0, f"{out} {took:.1f} s, status {status}")


def main():
    program = program_of(sys.argv[1:])
    [count] = counts_of(sys.argv[1:], 2_500)
    tally = Tally()
    tally.say(f"{program}, {count} lines")
    server = SmallServer()
    with tempfile.TemporaryDirectory(prefix="pipes-") as room:
        lines = ["channel #egg", "log lines"]
        bots = [PipedBot(program, room, nick, [server], lines, nick=nick) for nick in ("late", "never")]
        try:
            is_read_late(tally, bots[0], server, count)
            is_never_read(tally, bots[1], server, count)
        finally:
            end_all(*bots, server)
    return tally.end()


if __name__ == "__main__":
    sys.exit(main())
