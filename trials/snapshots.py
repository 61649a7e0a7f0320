#!/usr/bin/env python3
"""Leaves that need all records, over slow links and links that are cut again and again.

    trials/snapshots.py [PROGRAM]      ends within ten minutes

PROGRAM is the program to try, else what EGGNET names, else ours. The hub holds 500 users with 16 hostmasks of 120 bytes each,
and no change that a fresh leaf lacks. Four leaves get the records over 20,000 bytes a second each, while the hub accepts two
changes a second. Another one gets them over a link that lets through 40,000 bytes a second and is cut every two seconds. The
hub's memory is printed.
The last line is 'N well, M bad'; the status is 1 where any is bad.
"""
import socket
import sys
import tempfile
import threading
import time
from pathlib import Path

sys.dont_write_bytecode = True
from bots import Bot, Nowhere, Tally, arrivals, comes, end_all, free_port, program_of, shut
from nets import SECRET, Operator, records_of, version_of

USERS, MASKS = 500, 16


class Narrow:
    """Carries at most so many bytes a second to the leaf, and cuts each connection after so many seconds."""

    def __init__(self, port, rate, seconds=None):
        self.door, self.port_there, self.rate, self.seconds = socket.create_server(("127.0.0.1", 0)), port, rate, seconds
        self.port, self.cuts, self.passed = self.door.getsockname()[1], 0, 0
        # (little is held on the way, so that what is cut was not heard)
        self.door.setsockopt(socket.SOL_SOCKET, socket.SO_SNDBUF, 4096)
        threading.Thread(target=self.run, daemon=True).start()

    def run(self):
        for leaf in arrivals(self.door):
            hub = socket.socket()
            hub.setsockopt(socket.SOL_SOCKET, socket.SO_RCVBUF, 4096)
            try:
                hub.connect(("127.0.0.1", self.port_there))
            except OSError:
                leaf.close()
                continue
            for source, sink, rate in ((hub, leaf, self.rate), (leaf, hub, 10 ** 9)):
                threading.Thread(target=self.carry, args=(source, sink, rate), daemon=True).start()
            if self.seconds:
                threading.Timer(self.seconds, self.cut, (hub, leaf)).start()

    def carry(self, source, sink, rate):
        piece = max(1, min(4096, rate // 20))
        try:
            while True:
                came = source.recv(piece)
                if not came:
                    break
                sink.sendall(came)
                if rate < 10 ** 9:
                    self.passed += len(came)
                time.sleep(len(came) / rate)
        except OSError:
            pass
        shut(source, sink)

    def cut(self, *those):
        self.cuts += 1
        shut(*those)


def fill(hub):
    """Gives the hub its users, and has it rewrite its journal, so that it has no changes to send."""
    with Operator(hub, 60) as operator:
        for user in range(USERS):
            said = [f"adduser u{user}"] + [f"addhost u{user} {mask_of(user, number)}" for number in range(MASKS)]
            for line in said:
                operator.say(line)
            for line in said:
                if not operator.hears().startswith("accepted "):
                    return False
        operator.say("compact")
        return operator.hears().startswith("compacted")


def mask_of(user, number):
    front = f"*!u{user}x{number}@"
    return front + "h" * (120 - len(front) - 8) + ".example"


def memory(bot):
    """A bot's memory now, in kB."""
    return int(Path(f"/proc/{bot.process.pid}/status").read_text(encoding="utf-8").partition("VmRSS:")[2].split()[0])


def leaf_at(program, room, number, port, count):
    lines = [f"bot {number} of {count}", f"hub 127.0.0.1 {port}", f"secret {room}/secret"]
    return Bot(program, room, f"leaf{number}", [Nowhere()], lines, nick=f"egg{number}")


def is_level(hub, leaf):
    one, other = hub.answers("show"), leaf.answers("show")
    return version_of(one) == version_of(other) is not None and records_of(one) == records_of(other)


def main():
    tally, program, count = Tally(), program_of(sys.argv[1:]), 5
    with tempfile.TemporaryDirectory() as room:
        port = free_port()
        Path(f"{room}/secret").write_bytes(SECRET + b"\n")
        lines = [f"bot 0 of {count}", f"listen 127.0.0.1 {port}", f"secret {room}/secret"]
        hub = Bot(program, room, "hub", [Nowhere()], lines, nick="egg0")
        bots = [hub]
        try:
            tally.note("the hub starts", hub.start())
            tally.note(f"{USERS} users with {MASKS} hostmasks each", fill(hub))
            slow = [Narrow(port, 20_000) for _ in range(4)]
            leaves = [leaf_at(program, room, number, it.port, count) for number, it in enumerate(slow, 1)]
            bots += leaves
            tally.note("four leaves start", all(leaf.start() for leaf in leaves))
            beside(tally, hub, leaves, slow)
            end_all(*leaves)
            torn = Narrow(port, 40_000, 2)
            leaf = leaf_at(program, room, 5, torn.port, count)
            bots.append(leaf)
            tally.note("a leaf starts whose link is cut every two seconds", leaf.start())
            began = time.monotonic()
            level = comes(lambda: is_level(hub, leaf), 400, 0.5)
            tally.note("it has all records", bool(level), f"after {time.monotonic() - began:.0f} s, {torn.cuts} cuts, "
                       f"{torn.passed} bytes")
            tally.say(f"the hub's memory: {memory(hub)} kB")
        finally:
            end_all(*bots)
    return tally.end()


def beside(tally, hub, leaves, slow):
    """The leaves get all records while the hub accepts changes."""
    began, changes, most = time.monotonic(), 0, 0
    while time.monotonic() - began < 240 and not all(version_of(it.answers("show")) for it in leaves):
        answer = hub.answers(f"info u{changes % USERS} change {changes}") or ""
        changes += answer.startswith("accepted ")
        most = max(most, memory(hub))
        time.sleep(0.5)
    took = time.monotonic() - began
    tally.note("each has the records", all(version_of(it.answers("show")) for it in leaves),
               f"after {took:.0f} s, {changes} changes meanwhile, {[it.passed for it in slow]} bytes, the hub's memory at most "
               f"{most} kB")
    tally.note("and is level", all(comes(lambda leaf=leaf: is_level(hub, leaf), 60, 0.2) for leaf in leaves))


if __name__ == "__main__":
    sys.exit(main())
