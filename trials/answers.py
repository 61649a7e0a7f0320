#!/usr/bin/env python3
"""How soon a bot answers, and whether it sends too fast for a server.

    trials/answers.py [PROGRAM]      ends within four minutes

PROGRAM is the program to try, else what EGGNET names, else ours. At `eggnet serve`, and at ngircd and InspIRCd where they are
installed, somebody says `!echo` to the bot: fifteen times while its pace leaves room, and then thirty times at once. The answers
of half the fifteen come within 20 ms, and of nine in ten within 100; of the thirty the first come at once, and the twenty that may
wait for one channel come at the pace of one in two seconds, while the bot stays at the server. The others are refused.
The last line is 'N well, M bad'; the status is 1 where any is bad.
"""
import re
import statistics
import sys
import tempfile
import time

sys.dont_write_bytecode = True
from bots import Bot, Guest, Inspircd, Ngircd, Ours, Tally, comes, end_all, program_of

BURSTS, LINES = 5, 3  # three answers at once leave room for a PONG and a line of the bot's own
PAUSE = 9  # seconds in which the room comes back
MEDIAN, NEARLY_ALL = 20, 100  # milliseconds: of half the answers, and of nine in ten
FLOOD = 30
AT_ONCE = 4  # answers of the thirty that come in the first second, at the least
WAITING = 20  # answers that may wait for one channel
SLOWEST = 75  # seconds until they have come


def waited(guest, word):
    """The milliseconds until the answer to a line, or None if it doesn't come."""
    began, since = time.monotonic(), len(guest.lines)
    guest.say(f"PRIVMSG #egg :!echo {word}")
    while time.monotonic() - began < 5:
        if any(re.search(rf" PRIVMSG #egg :?{word}$", line) for line in guest.lines[since:]):
            return (time.monotonic() - began) * 1000
        time.sleep(0.0005)
    return None


def answers_soon(tally, guest, name):
    waits = []
    for burst in range(BURSTS):
        time.sleep(PAUSE)
        waits += [waited(guest, f"word{burst}x{line}") for line in range(LINES)]
    came = [it for it in waits if it is not None]
    tally.note(f"{name}: each line is answered", len(came) == len(waits), f"{len(came)} of {len(waits)}")
    if len(came) > 1:
        median, nearly_all = statistics.median(came), statistics.quantiles(came, n=10, method="inclusive")[8]
        tally.note(f"{name}: half within {MEDIAN} ms, and nine in ten within {NEARLY_ALL}", median <= MEDIAN and nearly_all <= NEARLY_ALL,
                   f"{median:.1f} ms, {nearly_all:.1f} ms, the slowest {max(came):.1f} ms")


def floods(tally, guest, bot, name):
    time.sleep(PAUSE)
    since, began = len(guest.lines), time.monotonic()
    for number in range(FLOOD):
        guest.say(f"PRIVMSG #egg :!echo flood{number}")
        time.sleep(0.01)

    def heard():
        return [line for line in guest.lines[since:] if re.search(rf"^:{bot.nick}!\S+ PRIVMSG #egg :?flood\d+$", line)]
    time.sleep(max(0, began + 1 - time.monotonic()))
    first = len(heard())
    all_came = comes(lambda: len(heard()) >= AT_ONCE + WAITING, SLOWEST)
    took = time.monotonic() - began
    tally.note(f"{name}: of {FLOOD} lines at once the first answers come in the first second", first >= AT_ONCE, str(first))
    slow = bool(all_came) and took >= 2 * (AT_ONCE + WAITING - 6)
    tally.note(f"{name}: and those that may wait, no faster than the pace", slow, f"{len(heard())} in {took:.1f} s")
    gone = [line for line in guest.lines[since:] if line.startswith(f":{bot.nick}!") and " QUIT" in line]
    tally.note(f"{name}: the bot is still there", not gone and bot.process.poll() is None, str(gone))


def tried(tally, program, room, server):
    name = server.name
    if not server.start():
        tally.note(f"{name} starts", False)
        return
    bot = Bot(program, room, f"bot-{server.port}", [server], ["channel #egg", "bind pub - echo !echo"])
    guest = None
    try:
        guest = Guest(server, "ann")
        guest.asks("JOIN #egg", r" 366 ")
        tally.note(f"{name}: the bot starts", bot.start(), bot.logged()[-200:])
        tally.note(f"{name}: and joins", guest.hears(rf"^:{bot.nick}!\S+ JOIN", 0, 30) is not None)
        answers_soon(tally, guest, name)
        floods(tally, guest, bot, name)
    finally:
        end_all(bot, server, *([guest] if guest else []))


def main(words):
    tally, program = Tally(), program_of(words)
    with tempfile.TemporaryDirectory(prefix="answers-") as room:
        for server in (Ours(room, program), Ngircd(room), Inspircd(room)):
            if server.is_there:
                tried(tally, program, room, server)
            else:
                tally.say(f"{server.name} isn't here")
    return tally.end()


if __name__ == "__main__":
    sys.exit(main(sys.argv[1:]))
