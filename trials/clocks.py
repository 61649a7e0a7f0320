#!/usr/bin/env python3
"""Steps the clocks of a hub, a leaf and a server's connections: 400 seconds ahead, and back again.

    trials/clocks.py [PROGRAM]      needs cc; ends within a minute or two

PROGRAM is the program to try, else what EGGNET names, else ours. A library that is loaded before the C library adds to what
`clock_gettime` tells the bots, so the clocks of this machine stay. While the wall clock alone steps, both bots stay at their
server, and the leaf stays linked. When 100 seconds pass on both clocks, the bots ping a server that is silent; when 200 more
pass without an answer, they leave it.
The last line is 'N well, M bad'; the status is 1 where any is bad.
"""
import mmap
import os
import re
import struct
import sys
import tempfile
import time

sys.dont_write_bytecode = True
import preload
from bots import Tally, comes, end_all, program_of
from nets import Net
from small_server import SmallServer

SHIM = r"""
#define _GNU_SOURCE
#include <dlfcn.h>
#include <fcntl.h>
#include <stdlib.h>
#include <sys/mman.h>
#include <time.h>

/* The seconds that are added to the wall clock, and to the monotonic clock. */
static volatile long long *ahead;

__attribute__((constructor)) static void begin(void) {
    int file = open(getenv("CLOCKS"), O_RDONLY | O_CLOEXEC);
    ahead = mmap(0, 16, PROT_READ, MAP_SHARED, file, 0);
}

int clock_gettime(clockid_t clock, struct timespec *to) {
    static int (*real)(clockid_t, struct timespec *);
    if (!real) real = (int (*)(clockid_t, struct timespec *))dlsym(RTLD_NEXT, "clock_gettime");
    int status = real(clock, to);
    int is_wall = clock == CLOCK_REALTIME || clock == CLOCK_REALTIME_COARSE || clock == CLOCK_TAI;
    if (!status) to->tv_sec += ahead[is_wall ? 0 : 1];
    return status;
}
"""
LOST = re.compile(r"server lost|hub lost|leaf \d+ gone")


class Clocks:
    """What is added to the clocks of all programs that are started from now on."""

    def __init__(self, room):
        with open(f"{room}/clocks", "w+b") as file:
            file.write(bytes(16))
            file.flush()
            self.ahead, self.wall, self.monotonic = mmap.mmap(file.fileno(), 16), 0, 0
        os.environ |= {"CLOCKS": f"{room}/clocks", "LD_PRELOAD": preload.made(room, "clocks", SHIM)}

    def step(self, wall, monotonic):
        """Steps the wall clock and the monotonic clock by so many seconds."""
        self.wall, self.monotonic = self.wall + wall, self.monotonic + monotonic
        self.ahead[:] = struct.pack("qq", self.wall, self.monotonic)


def connections(net):
    """Since when the bots are at their server, and how their links are."""
    told = [bot.answers("status") or "" for bot in net.bots]
    return [re.findall(r"^(since \d+|linked .*?)(?:, .*)?$", it, re.M) for it in told]


def steps(tally, net, clocks, what, wall):
    """The wall clock steps, and all stay where they are."""
    before, logs = connections(net), [len(bot.logged()) for bot in net.bots]
    visits = len(net.server.visitors)
    clocks.step(wall, 0)
    time.sleep(8)
    after = connections(net)
    lost = [line for bot, start in zip(net.bots, logs) for line in bot.logged()[start:].splitlines() if LOST.search(line)]
    stay = before == after and len(net.server.visitors) == visits and not lost
    tally.note(f"{what}: both stay at the server, and linked", stay, f"{before} {after} {lost[:3]}" if not stay else after)
    told = net.ask(net.bots[1], f"adduser u{abs(clocks.wall)}")
    tally.note(f"{what}: the leaf's change is accepted", len(told) == 2 and (told[1] or "").startswith("accepted "), told)


def sees(tally, net, ahead):
    """Whether the log goes by the clock that was stepped."""
    net.bots[0].tell("bind", "pub", "-", "echo", "!echo")
    last = int(net.bots[0].logged().strip().splitlines()[-1].split()[0])
    tally.note("the log has the clock's second", abs(last - time.time() - ahead) < 60, last)


def passes(tally, net, clocks):
    """Time passes: the bots ping a silent server, and leave one that doesn't answer."""
    visitors = [net.server.visitor(bot.nick) for bot in net.bots]
    before = [len(it.said("^PING ")) for it in visitors]
    clocks.step(100, 100)
    pinged = comes(lambda: all(len(it.said("^PING ")) > count for it, count in zip(visitors, before)))
    time.sleep(3)
    tally.note("100 seconds pass: they ping the server, and stay", pinged and all(it.is_open for it in visitors))
    net.server.is_mute = True
    clocks.step(200, 200)
    gone = comes(lambda: not any(it.is_open for it in visitors))
    named = comes(lambda: all("server lost: it was silent" in bot.logged() for bot in net.bots))
    tally.note("200 more, and the server is mute: they leave it", bool(gone and named))
    net.server.is_mute = False
    clocks.step(400, 400)
    again = comes(lambda: all(net.server.visitor(bot.nick, 0).is_open for bot in net.bots), 30)
    tally.note("they come again", bool(again))


def main():
    tally = Tally()
    program = program_of(sys.argv[1:])
    tally.say(program)
    with tempfile.TemporaryDirectory(prefix="clocks-") as room:
        clocks = Clocks(room)
        server = SmallServer()
        net = Net(program, room, server, 1)
        try:
            tally.note("a hub and a leaf start", all([bot.start() for bot in net.bots]), net.bots[0].logged()[-300:])
            is_up = comes(lambda: [len(it) for it in connections(net)] == [2, 2])
            tally.note("they are at the server, and linked", bool(is_up), connections(net))
            comes(lambda: all(server.visitor(bot.nick).said("^JOIN ") for bot in net.bots))
            steps(tally, net, clocks, "the wall clock steps 400 s ahead", 400)
            sees(tally, net, 400)
            steps(tally, net, clocks, "and 400 s back", -400)
            steps(tally, net, clocks, "and a day ahead", 86_400)
            passes(tally, net, clocks)
        finally:
            end_all(*net.bots, *net.doors, server)
    return tally.end()


if __name__ == "__main__":
    sys.exit(main())
