#!/usr/bin/env python3
"""Flips each bit of three small journals, and cuts each of their files at each byte: what a bot reads then.

    trials/flips.py [PROGRAM]      some minutes

PROGRAM is the program to try, else what EGGNET names, else ours. The journals are a new hub's, a hub's that was rewritten twice
and has entries behind its base, and a leaf's with a request under way. Each spoiled copy is read by `eggnet show`. It may be
refused by name, or show what the whole journal shows. A flip of a gate closes it, and what stands behind a closed gate doesn't
count, as after a crash. A crash leaves one entry there at most: so where one entry stands behind the gate, the bot may show the
version before it, with that version's records, and where more do, it must refuse the journal. Anything else is bad: other
records, a version above, one further back, or an earlier version by a flip of any other byte. The last line is
'N well, M bad'; the status is 1 where any is bad.
"""
import os
import shutil
import sys
import tempfile
from collections import Counter
from concurrent.futures import ThreadPoolExecutor
from pathlib import Path

sys.dont_write_bytecode = True
from bots import Bot, Nowhere, Tally, comes, end_all, free_port, program_of, ran
from nets import SECRET, records_of, version_of

CHANGES = ["adduser first", "addhost first *!~me@my.host", "global first no", "chan first #egg ov", "info first hi, two  words",
           "addban #egg a!*@b first 4000000000 go on", "sticky #egg a!*@b 1", "adduser second", "deluser second"]
FILES = ("journal/first", "journal/second")


def bot_of(program, room, name, lines=()):
    return Bot(program, room, name, [Nowhere()], lines)


def told(bot, line, known):
    """Asks a bot for a change, and notes what it shows after it."""
    bot.answers(line)
    note(bot, known)


def note(bot, known):
    """Notes the records that a bot shows at its version."""
    shown = bot.answers("show")
    known[version_of(shown)] = records_of(shown)


def made(bot, lines, known):
    """Runs a bot that is asked for these lines, and kills it. Its folder."""
    assert bot.start(), bot.logged()
    note(bot, known)
    for line in lines:
        told(bot, line, known)
    bot.kill()
    return bot.folder


def leaf_of(program, room, known):
    """A leaf's folder: it has the hub's changes, and a request that the hub has not answered."""
    port = free_port()
    Path(f"{room}/secret").write_bytes(SECRET + b"\n")
    hub = bot_of(program, room, "parent", ["bot 0 of 1", f"listen 127.0.0.1 {port}", f"secret {room}/secret"])
    leaf = bot_of(program, room, "leaf", ["bot 1 of 1", f"hub 127.0.0.1 {port}", f"secret {room}/secret"])
    assert hub.start() and leaf.start()
    note(leaf, known)
    for line in CHANGES[:6]:
        before = version_of(leaf.answers("show"))
        hub.answers(line)
        comes(lambda: version_of(leaf.answers("show")) == before + 1)
        note(leaf, known)
    hub.kill()
    leaf.answers("adduser third")
    comes(lambda: False, 2)
    leaf.kill()
    return leaf.folder


def journals(program, room):
    """The three folders, each with the records at each version that its bot had."""
    known = {}
    yield "a new hub", made(bot_of(program, room, "new"), CHANGES, known), known
    known = {}
    lines = [*CHANGES[:4], "compact", CHANGES[4], "compact", *CHANGES[5:]]
    yield "a rewritten hub", made(bot_of(program, room, "rewritten"), lines, known), known
    known = {}
    yield "a leaf", leaf_of(program, room, known), known


def gates(data):
    """Where the gates of a disk are: docs/FORMATS.md."""
    at, found = 10 + 4 + int.from_bytes(data[10:14], "big"), {0}
    while at < len(data):
        found.add(at)
        at += 1 + 4 + int.from_bytes(data[at + 1:at + 5], "big")
    return found


def spoiled(data):
    """Each spoiled form of a file's bytes: what was done, and the bytes."""
    found = gates(data)
    for at in range(len(data)):
        for bit in range(8):
            yield "flips of gates" if at in found else "flips", bytes([*data[:at], data[at] ^ (1 << bit), *data[at + 1:]])
    for at in range(len(data)):
        yield "cuts", data[:at]


def read(program, folder, room, name, data, known):
    """What a bot reads of a copy of its folder with other bytes in one file."""
    with tempfile.TemporaryDirectory(dir=room) as copy:
        shutil.copytree(folder, f"{copy}/it", ignore=lambda _, names: [it for it in names if it in ("control", "room")])
        Path(f"{copy}/it/{name}").write_bytes(data)
        status, out, err = ran([program, "show", f"{copy}/it"])
    if status != 0:
        return "refused" if err.count("\n") == 1 and err.startswith("eggnet: ") else f"unclear: {status} {err}"
    version, top = version_of(out), max(known)
    if version not in known:
        return "above" if version > top else "unknown version"
    if records_of(out) != known[version]:
        return "other records"
    return {0: "the same", 1: "back by one"}.get(top - version, "further back")


def main(words):
    program, tally = program_of(words), Tally()
    with tempfile.TemporaryDirectory() as room, ThreadPoolExecutor(os.cpu_count()) as pool:
        for what, folder, known in journals(program, room):
            jobs = [(how, pool.submit(read, program, folder, room, name, data, known))
                    for name in FILES for how, data in spoiled(Path(f"{folder}/{name}").read_bytes())]
            counts = Counter((how, it.result()) for how, it in jobs)
            for how in ("flips", "flips of gates", "cuts"):
                seen = {result: count for (of, result), count in sorted(counts.items()) if of == how}
                good = {"refused", "the same", *(["back by one"] if how == "flips of gates" else [])}
                tally.note(f"{what}: {sum(seen.values())} {how}", seen and not {*seen} - good, seen)
    return tally.end()


if __name__ == "__main__":
    sys.exit(main(sys.argv[1:]))
