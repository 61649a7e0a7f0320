#!/usr/bin/env python3
"""A net whose hub's machine is lost: a leaf is promoted, and the others start over at the heir.

    trials/heir.py [PROGRAM] [ROUNDS]      ends within ten minutes; 20 ROUNDS of kills where no number is said

PROGRAM is the program to try, else what EGGNET names, else ours. A hub and three leaves are asked for changes all the time.
The hub is killed and its folder removed; the leaves are asked for more, and stopped. What `promote` and `start-over` refuse is
tried by name. Then `promote --which` names the leaf with the highest version, `promote` makes the heir of it, and `start-over`
moves all leaves. All are level at the heir within ten seconds, with the records of the promoted leaf, and new changes go through.
A copy of the old hub that comes back is refused by the moved leaves. Then `promote` and `start-over` are killed in their middle
again and again: a second try ends well each time.

Then a net of a hub and six leaves, each with several lines `hub` (trials/moving_leaves.py): the leaves move to the heir by
themselves, and are killed in the middle of that. Last, the heir is handed over to a leaf under load.
The last line is 'N well, M bad'; the status is 1 where any is bad.
"""
import os
import random
import re
import shutil
import subprocess
import sys
import tempfile
import threading
import time
from pathlib import Path

sys.dont_write_bytecode = True
sys.path.insert(0, str(Path(__file__).resolve().parent / "links"))
import journals
from bots import Bot, Nowhere, Tally, comes, counts_of, end_all, free_port, program_of, ran
from moving_leaves import TurningNet, hand_over, kills_of_moves, moves, return_of_the_old_hub
from nets import SECRET, records_of, version_of

LEAVES = 3


class Field:
    """A hub and its leaves, and the heir that takes the hub's place."""

    def __init__(self, program, room):
        self.program, self.room, self.port = program, room, free_port()
        Path(f"{room}/secret").write_bytes(SECRET + b"\n")
        self.hub = self.bot("hub", 0)
        self.leaves = [self.bot(f"leaf{number}", number) for number in range(1, LEAVES + 1)]
        self.heir = None

    def bot(self, name, number):
        side = f"hub 127.0.0.1 {self.port}" if number else f"listen 127.0.0.1 {self.port}"
        return Bot(self.program, self.room, name, [Nowhere()], [f"bot {number} of {LEAVES}", side, f"secret {self.room}/secret"],
                   nick=name)

    def says(self, *words):
        """The status, standard output and standard error of the program."""
        return ran([self.program, *words])


def copied(folder, copy):
    """Copies a folder, but for a socket that was left there."""
    shutil.copytree(folder, copy, ignore=lambda _, names: [it for it in names if it == "control"])
    return copy


def is_level(bots):
    shown = [bot.answers("show") for bot in bots]
    return len({version_of(it) for it in shown}) == 1 and None not in [version_of(it) for it in shown] \
        and len({records_of(it) for it in shown}) == 1


class Load:
    """Asks bots for changes all the time, until it is stopped."""

    def __init__(self, bots, name):
        self.goes_on, self.asked = True, 0
        self.threads = [threading.Thread(target=self.run, args=(bot, f"{name}{place}"), daemon=True)
                        for place, bot in enumerate(bots)]
        for it in self.threads:
            it.start()

    def run(self, bot, name):
        count = 0
        while self.goes_on:
            if (bot.answers(self.line(name, count)) or "").startswith(("accepted", "queued")):
                self.asked += 1
                count += 1
            time.sleep(0.02)

    @staticmethod
    def line(name, count):
        """The change that is asked for at this count: each user goes again, so that there is room for others, and bans stay."""
        user, what = divmod(count, 10)
        if what == 0:
            return f"addban * *!*@{name}x{user}.example {name} 0 go away"
        if what < 6:
            return f"adduser {name}x{user}x{what}"
        return f"info {name}x{user}x1 it is {count}" if what == 6 else f"deluser {name}x{user}x{what - 5}"

    def stop(self):
        self.goes_on = False
        for it in self.threads:
            it.join()
        return self.asked


def is_refused(tally, what, said, pattern, status):
    """Whether the program refuses so, with this status, in one line."""
    tally.note(what, said[0] == status and re.search(pattern, said[2]) and said[2].count("\n") == 1, said)


def lose_the_hub(tally, field):
    """The hub is killed under load and its folder removed; the leaves go on, and are stopped at different moments."""
    bots = [field.hub, *field.leaves]
    for bot in bots:
        tally.note(f"{bot.name} starts", bot.start())
    tally.note("all are level", bool(comes(lambda: is_level(bots), 60, 0.1)))
    load = Load(bots, "first")
    comes(lambda: (version_of(field.hub.answers("show")) or 0) > 100, 120, 0.2)
    # (a leaf that stops first is at a lower version, and has nothing under way that it knows of)
    field.leaves[0].kill()
    time.sleep(1)
    is_refused(tally, "a hub that runs is not promoted", field.says("promote", field.hub.folder, f"{field.room}/no"), "is in use", 3)
    is_refused(tally, "a leaf that runs is not promoted", field.says("promote", field.leaves[1].folder, f"{field.room}/no"),
               "is in use", 3)
    is_refused(tally, "a leaf that runs does not start over", field.says("start-over", field.leaves[1].folder), "is in use", 3)
    field.hub.kill()
    is_refused(tally, "a hub's folder is not promoted", field.says("promote", field.hub.folder, f"{field.room}/no"), "is a hub's", 1)
    is_refused(tally, "nor does it start over", field.says("start-over", field.hub.folder), "is a hub's", 1)
    copied(field.hub.folder, f"{field.room}/hub.copy")
    shutil.rmtree(field.hub.folder)
    time.sleep(1)
    tally.say(f"changes asked: {load.stop()}")
    for leaf in field.leaves:
        leaf.kill()
    return {leaf.name: leaf.show()[1] for leaf in field.leaves}


def refusals(tally, field):
    """Folders of which no heir is made, and names that it can't have."""
    room, leaf, new = field.room, field.leaves[1].folder, f"{field.room}/no"
    is_refused(tally, "no folder", field.says("promote", f"{room}/nothing", new), "holds no bot", 3)
    is_refused(tally, "a folder without a bot", field.says("promote", room, new), "holds no bot", 3)
    is_refused(tally, "a name that a folder has", field.says("promote", leaf, room), f"{room} exists already", 3)
    os.symlink(f"{room}/away", f"{room}/link")
    is_refused(tally, "a name that a link has", field.says("promote", leaf, f"{room}/link"), "exists already", 3)
    is_refused(tally, "a name below nothing", field.says("promote", leaf, f"{room}/away/heir"), "make the folder above it", 3)
    copied(leaf, f"{room}/taken.heir")
    is_refused(tally, "a name beside which a bot has the longer one", field.says("promote", leaf, f"{room}/taken"),
               "with .heir after it is a bot's", 3)
    lone = copied(leaf, f"{room}/lone")
    os.remove(f"{lone}/net")
    is_refused(tally, "a leaf without the number of a net", field.says("promote", lone, new), "is of no net", 1)
    Path(f"{lone}/net").write_text("0123456789abcdeg\n", encoding="ascii")
    is_refused(tally, "a leaf whose number is none", field.says("promote", lone, new), "is no number", 1)
    Path(f"{lone}/net").write_text("0123456789abcdef\n", encoding="ascii")
    is_refused(tally, "leaves of two nets", field.says("promote", "--which", leaf, lone), f"{lone} is of another net", 1)
    Path(f"{lone}/journal/first").write_bytes(b"\x01no journal")
    is_refused(tally, "no journal that can be read", field.says("promote", lone, new), "no journal that can be read", 1)
    shutil.rmtree(lone)
    is_refused(tally, "an older layout", field.says("promote", old_journal(field), new), "older layout", 1)
    for words in (["promote"], ["promote", leaf], ["promote", "--which"], ["promote", "--which", leaf, "--which"], ["start-over"]):
        status, out, err = field.says(*words)
        tally.note(f"words that are not understood: {words[:1] + words[2:]}", status == 2 and err, err)
    tally.note("nothing was made", not os.path.lexists(new), os.listdir(room))


def old_journal(field):
    """The folder of a leaf whose journal an earlier program wrote, in an older layout."""
    folder = f"{field.room}/old"
    os.makedirs(f"{folder}/journal", 0o700)
    os.chmod(folder, 0o700)
    for name, text in zip(("first", "second"), journals.THIRD_LEAF):
        Path(f"{folder}/journal/{name}").write_bytes(bytes.fromhex(text))
    Path(f"{folder}/net").write_text("0123456789abcdef\n", encoding="ascii")
    return folder


def promote(tally, field, shown):
    """The leaf with the highest version is promoted, and the heir starts."""
    folders = [leaf.folder for leaf in field.leaves]
    status, out, err = field.says("promote", "--which", *folders)
    versions = [version_of(shown[leaf.name]) for leaf in field.leaves]
    best = field.leaves[versions.index(max(versions))]
    tally.note("--which names the highest", status == 0 and out.endswith(f"highest: {best.folder}\n")
               and all(f"version {version}\n" in out for version in versions), out + err)
    tally.note("the leaf that stopped first is lower", versions[0] < max(versions), versions)
    before = listing(best.folder)
    status, out, err = field.says("promote", best.folder, f"{field.room}/heir")
    tally.note("promote", status == 0 and f"version {max(versions)} " in out, out + err)
    tally.note("the leaf's folder is as it was", listing(best.folder) == before)
    tally.note("nothing is left beside the heir's folder", not os.path.exists(f"{field.room}/heir.heir"))
    parent = Path(f"{field.room}/heir/parent").read_text(encoding="ascii")
    net = Path(f"{best.folder}/net").read_text(encoding="ascii").strip()
    own = Path(f"{field.room}/heir/net").read_text(encoding="ascii").strip()
    tally.note("it names its parent", parent == f"{net} {max(versions)}\n", parent)
    tally.note("its net has a number of its own", re.fullmatch("[0-9a-f]{16}", own) and own != net, own)
    status, heirs, err = field.says("show", f"{field.room}/heir")
    tally.note("it shows the leaf's version and records as bot 0", status == 0 and version_of(heirs) == max(versions)
               and records_of(heirs) == records_of(shown[best.name]) and heirs.startswith("0 version"), heirs.split("\n")[0] + err)
    is_refused(tally, "a second heir of that name", field.says("promote", best.folder, f"{field.room}/heir"), "exists already", 3)
    is_refused(tally, "an heir's folder is a hub's", field.says("promote", f"{field.room}/heir", f"{field.room}/no"), "is a hub's", 1)
    field.hub.move_to(f"{field.room}/heir")
    tally.note("the heir starts with the hub's configuration", field.hub.start())
    return best, net, own


def listing(folder):
    """The bytes of the files in a folder."""
    return {str(it.relative_to(folder)): it.read_bytes() for it in Path(folder).rglob("*") if it.is_file()}


def move(tally, field, best, shown, net):
    """All leaves start over, and join the heir."""
    records = records_of(shown[best.name])
    for leaf in field.leaves:
        held = listing(f"{leaf.folder}/journal")
        status, out, err = field.says("start-over", leaf.folder)
        tally.note(f"{leaf.name} starts over", status == 0, "\n".join(out.splitlines()[-3:]) + err)
        tally.note("its journal is aside, as it was", listing(f"{leaf.folder}/journal.{net}") == held)
        again = field.says("start-over", leaf.folder)
        tally.note("once more changes nothing", again[0] == 0 and listing(f"{leaf.folder}/journal.{net}") == held, again)
    began = time.monotonic()
    for leaf in field.leaves:
        tally.note(f"{leaf.name} starts", leaf.start())
    level = comes(lambda: is_level([field.hub, *field.leaves]), 10, 0.05)
    tally.note("all are level at the heir within ten seconds", bool(level), f"{time.monotonic() - began:.1f} s")
    tally.note("with the records of the promoted leaf", records_of(field.hub.answers("show")) == records)
    asked = [Load([field.hub], "hub"), Load([field.leaves[2]], "leaf")]
    time.sleep(2)
    counts = [it.stop() for it in asked]
    tally.note("new changes go through", all(counts) and bool(comes(lambda: is_level([field.hub, *field.leaves]), 30, 0.1)), counts)
    said = "\n".join(records_of(field.leaves[0].answers("show")))
    tally.note("and are at each leaf", "hub0x0x1" in said and "leaf0x0x1" in said)


def return_of_the_hub(tally, field, net):
    """A copy of the old hub comes back at the heir's address."""
    field.hub.kill()
    shutil.copytree(f"{field.room}/hub.copy", f"{field.room}/back")
    before = [leaf.answers("show") for leaf in field.leaves]
    places = [len(leaf.logged()) for leaf in field.leaves]
    old = field.bot("back", 0)
    tally.note("a copy of the old hub starts", old.start())
    for leaf, place in zip(field.leaves, places):
        said = comes(lambda leaf=leaf, place=place: re.search(r"[^\n]*another net[^\n]*", leaf.logged()[place:]), 60, 0.1)
        tally.note(f"{leaf.name} refuses it by name", bool(said), said[0] if said else leaf.logged()[place:][-400:])
    tally.note("nothing came of it", [leaf.answers("show") for leaf in field.leaves] == before)
    old.kill()
    tally.note("the heir starts again", field.hub.start())
    tally.note("all are level", bool(comes(lambda: is_level([field.hub, *field.leaves]), 60, 0.1)))


def killed(words):
    """Runs the program, and kills it after some milliseconds. Whether it was killed."""
    with subprocess.Popen(words, stdin=subprocess.DEVNULL, stdout=subprocess.PIPE, stderr=subprocess.PIPE) as it:
        try:
            it.communicate(timeout=random.uniform(0, killed.longest))
            return False
        except subprocess.TimeoutExpired:
            it.kill()
            it.communicate()
            return True


def kills(tally, field, rounds, net):
    """Promotions and moves that are killed: what is there is whole, and a second try ends well."""
    leaf, room = f"{field.room}/leaf1/journal.{net}", field.room
    base = f"{room}/base"
    os.makedirs(f"{base}", 0o700)
    shutil.copytree(leaf, f"{base}/journal")
    Path(f"{base}/lock").touch(0o600)
    Path(f"{base}/net").write_text(f"{net}\n", encoding="ascii")
    shown = field.says("show", base)[1]
    began = time.monotonic()
    field.says("promote", base, f"{room}/timed")
    killed.longest = (time.monotonic() - began) * 1.2
    cut, whole, bad = 0, 0, []
    for count in range(rounds):
        heir = f"{room}/heir{count}"
        cut += killed([field.program, "promote", base, heir])
        if os.path.exists(heir):
            whole += 1
        elif field.says("promote", base, heir)[0] != 0:
            bad.append(f"{heir}: {field.says('promote', base, heir)}")
        seen = field.says("show", heir)[1]
        if version_of(seen) != version_of(shown) or records_of(seen) != records_of(shown) or os.path.exists(f"{heir}.heir") \
                or sorted(os.listdir(heir)) != ["journal", "lock", "net", "parent"]:
            bad.append(f"{heir}: {seen[:60]} {os.listdir(room)}")
    tally.note(f"{rounds} promotions, of which {cut} were killed, {whole} once the heir had its name", not bad, bad[:3])
    cut, moved, bad = 0, 0, []
    for count in range(rounds):
        own = f"{room}/own{count}"
        shutil.copytree(base, own)
        cut += killed([field.program, "start-over", own])
        there = [it for it in ("journal", f"journal.{net}") if os.path.exists(f"{own}/{it}")]
        moved += there == [f"journal.{net}"]
        again = field.says("start-over", own)
        if len(there) != 1 or again[0] != 0 or os.path.exists(f"{own}/journal") \
                or listing(f"{own}/journal.{net}") != listing(f"{base}/journal"):
            bad.append(f"{own}: {there} {again}")
    tally.note(f"{rounds} leaves that start over, of which {cut} were killed, {moved} once they had moved", not bad, bad[:3])
    twice = f"{room}/own0"
    shutil.copytree(f"{base}/journal", f"{twice}/journal")
    is_refused(tally, "a journal that was put aside is kept", field.says("start-over", twice), "was put aside", 3)
    tally.note("both are there", listing(f"{twice}/journal") == listing(f"{twice}/journal.{net}"))


def main():
    tally, program = Tally(), program_of(sys.argv[1:])
    [rounds] = counts_of(sys.argv[1:], 20)
    with tempfile.TemporaryDirectory() as room:
        field = Field(program, room)
        try:
            shown = lose_the_hub(tally, field)
            refusals(tally, field)
            best, net, _own = promote(tally, field, shown)
            move(tally, field, best, shown, net)
            return_of_the_hub(tally, field, net)
            kills(tally, field, rounds, net)
        finally:
            end_all(field.hub, *field.leaves)
        turning = TurningNet(program, f"{room}/turning")
        try:
            base, net = moves(tally, turning)
            return_of_the_old_hub(tally, turning)
            kills_of_moves(tally, turning, base, net, rounds)
            hand_over(tally, turning)
        finally:
            end_all(*turning.all())
    return tally.end()


if __name__ == "__main__":
    sys.exit(main())
