#!/usr/bin/env python3
"""A leaf that joins its hub while others connect who know no secret.

    trials/door.py [PROGRAM] [RATE] [SECONDS]      2,000 connects a second and 20 seconds for each part, if they aren't said

PROGRAM is the program to try, else what EGGNET names, else ours. The leaf reaches its hub over a link that takes 30 ms each
way. Strangers connect from one address, then from 200 addresses of 127.0.0.0/8 in turn, and say nothing. Meanwhile the leaf
is cut off again and again, and joins within five seconds each time. Nothing leaves this machine.
The last line is 'N well, M bad'; the status is 1 where any is bad.
"""
import itertools
import re
import resource
import socket
import subprocess
import sys
import tempfile
import threading
import time
from pathlib import Path

sys.dont_write_bytecode = True
from bots import Bot, Nowhere, Tally, arrivals, comes, counts_of, end_all, free_port, program_of, shut
from nets import SECRET

WAIT = 0.03  # seconds each way


class Far:
    """Carries bytes between a leaf and its hub, each piece 30 ms late, from an address of its own."""

    def __init__(self, port):
        self.door, self.there = socket.create_server(("127.0.0.1", 0)), port
        self.port, self.ends = self.door.getsockname()[1], []
        threading.Thread(target=self.run, daemon=True).start()

    def run(self):
        for leaf in arrivals(self.door):
            time.sleep(2 * WAIT)
            try:
                hub = socket.create_connection(("127.0.0.1", self.there), 10, source_address=("127.0.77.1", 0))
            except OSError:
                leaf.close()
                continue
            self.ends = [leaf, hub]
            for source, sink in ((leaf, hub), (hub, leaf)):
                threading.Thread(target=carry, args=(source, sink), daemon=True).start()

    def cut(self):
        shut(*self.ends)


def carry(source, sink):
    """Each piece arrives 30 ms after it was sent; pieces overlap."""
    pieces, more = [], threading.Event()

    def tell():
        while True:
            more.wait()
            if not pieces:
                more.clear()
                continue
            due, came = pieces.pop(0)
            time.sleep(max(0.0, due - time.monotonic()))
            try:
                if not came:
                    sink.shutdown(socket.SHUT_RDWR)
                    return
                sink.sendall(came)
            except OSError:
                return
    threading.Thread(target=tell, daemon=True).start()
    while True:
        try:
            came = source.recv(65536)
        except OSError:
            came = b""
        pieces.append((time.monotonic() + WAIT, came))
        more.set()
        if not came:
            return


# A stranger: connects at a rate for some seconds, from addresses in turn, and keeps its newest connections open.
STRANGER = """
import socket, sys, time
port, rate, seconds, addresses = (int(it) for it in sys.argv[1:])
those, made, failed, began = [], 0, 0, time.monotonic()
while time.monotonic() - began < seconds:
    it = socket.socket()
    it.setblocking(False)
    try:
        it.bind((f"127.0.78.{made % addresses + 1}", 0))
        it.connect_ex(("127.0.0.1", port))
        those.append(it)
    except OSError:
        failed += 1
    made += 1
    if len(those) > 1500:
        those.pop(0).close()
    late = began + made / rate - time.monotonic()
    if late > 0:
        time.sleep(late)
print(made, failed)
"""


def flood(port, rate, seconds, addresses):
    return subprocess.Popen([sys.executable, "-c", STRANGER, str(port), str(rate), str(seconds), str(addresses)],
                            stdout=subprocess.PIPE, text=True)


def part(tally, what, field, rate, seconds, addresses):
    """Cuts the leaf off again and again while strangers connect, and notes how long it takes to join."""
    hub, far, port = field
    strangers, took, began = flood(port, rate, seconds, addresses), [], time.monotonic()
    time.sleep(1)
    for turn in itertools.count():
        if time.monotonic() - began > seconds - 6 and turn:
            break
        place = len(hub.logged())
        far.cut()
        cut = time.monotonic()
        joined = comes(lambda place=place: re.search("leaf 1 linked", hub.logged()[place:]), 20, 0.01)
        took.append(time.monotonic() - cut if joined else None)
        time.sleep(0.5)
    made, failed = strangers.communicate()[0].split()
    well = all(it is not None and it < 5 for it in took)
    tally.note(what, well, f"joined after {['%.1f' % it if it else it for it in took]} s, {made} connects, {failed} failed")


def main():
    tally, program = Tally(), program_of(sys.argv[1:])
    rate, seconds = counts_of(sys.argv[1:], 2000, 20)[:2]
    most = resource.getrlimit(resource.RLIMIT_NOFILE)[1]
    resource.setrlimit(resource.RLIMIT_NOFILE, (min(most, 65536), most))
    with tempfile.TemporaryDirectory() as room:
        port = free_port()
        Path(f"{room}/secret").write_bytes(SECRET + b"\n")
        lines = ["bot 0 of 2", f"listen 127.0.0.1 {port}", f"secret {room}/secret"]
        hub = Bot(program, room, "hub", [Nowhere()], lines, nick="egg0")
        far = Far(port)
        lines = ["bot 1 of 2", f"hub 127.0.0.1 {far.port}", f"secret {room}/secret"]
        leaf = Bot(program, room, "leaf1", [Nowhere()], lines, nick="egg1")
        try:
            tally.note("the hub starts", hub.start())
            tally.note("the leaf starts", leaf.start())
            tally.note("it is linked", bool(comes(lambda: "leaf 1 linked" in hub.logged(), 20)))
            part(tally, f"{rate} connects a second from one address", (hub, far, port), rate, seconds, 1)
            part(tally, f"{rate} connects a second from 200 addresses", (hub, far, port), rate, seconds, 200)
            lines = len(re.findall("a connection closed", hub.logged()))
            tally.note("the log has at most a line a second of them", lines <= 2 * seconds + 20, lines)
            answer = hub.answers("status")
            tally.note("the hub answers", answer is not None, answer if not answer else "")
        finally:
            end_all(leaf, hub)
    return tally.end()


if __name__ == "__main__":
    sys.exit(main())
