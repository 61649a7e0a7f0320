#!/usr/bin/env python3
"""Connects to a bot's control socket and closes at once, again and again, and looks how long a command takes meanwhile.

    trials/control_door.py [PROGRAM] [CONNECTIONS]      200 connections if they aren't said

PROGRAM is the program to try, else what EGGNET names, else ours. The bot has no server. First all connections wait at the
door, each closed already, and a command waits behind them. Then the same with three places taken by admins that say
nothing. Last, strangers connect and close as fast as they can while commands come, and the bot's processor is read.
The last line is 'N well, M bad'; the status is 1 where any is bad.
"""
import socket
import sys
import tempfile
import threading
import time

sys.dont_write_bytecode = True
from bots import Bot, Nowhere, Tally, counts_of, end_all, program_of

SOON = 1  # second
COMMANDS = 50


def connected(bot):
    """A connection to the control socket; none while too many wait there."""
    it = socket.socket(socket.AF_UNIX)
    try:
        it.settimeout(5)
        it.connect(f"{bot.folder}/control")
        return it
    except OSError:
        it.close()
        return None


def come_and_go(bot, count):
    """So many connect and close at once. How many got through."""
    came = [connected(bot) for _ in range(count)]
    for it in came:
        if it:
            it.close()
    return sum(it is not None for it in came)


def behind_them(tally, bot, what, count):
    """A command waits behind connections that are closed already."""
    came = come_and_go(bot, count)
    began = time.monotonic()
    answer = bot.answers("status")
    took = time.monotonic() - began
    tally.note(f"{what}: a command behind {came} of them", answer and took < SOON, f"{took:.3f} s")


def meanwhile(tally, bot):
    """Commands come while strangers connect and close as fast as they can."""
    done, counts = threading.Event(), [0]

    def strangers():
        while not done.is_set():
            counts[0] += come_and_go(bot, 4)

    stranger = threading.Thread(target=strangers, daemon=True)
    stranger.start()
    waits = []
    for _ in range(COMMANDS):
        began = time.monotonic()
        status, _, _ = bot.tell("status")
        waits.append(time.monotonic() - began if status == 0 else 5)
    done.set()
    stranger.join()
    tally.note(f"{COMMANDS} commands beside {counts[0]} strangers", max(waits) < SOON, f"the slowest took {max(waits):.3f} s")


def main():
    program = program_of(sys.argv[1:])
    [count] = counts_of(sys.argv[1:], 200)
    tally = Tally()
    tally.say(f"{program}, {count} connections")
    with tempfile.TemporaryDirectory(prefix="control-") as room:
        bot = Bot(program, room, "egg", [Nowhere()])
        quiet = []
        try:
            if tally.note("it starts", bot.start()):
                behind_them(tally, bot, "all places free", count)
                quiet = [connected(bot) for _ in range(3)]
                behind_them(tally, bot, "three silent admins", count)
                meanwhile(tally, bot)
                time.sleep(1)
                spent = bot.spent()
                time.sleep(3)
                tally.note("then the bot rests", bot.spent() - spent < 50, f"{bot.spent() - spent:.0f} ms in 3 s")
        finally:
            for it in quiet:
                if it:
                    it.close()
            end_all(bot)
    return tally.end()


if __name__ == "__main__":
    sys.exit(main())
