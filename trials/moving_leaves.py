"""Leaves that move to an heir by themselves, and a hub that is handed over: parts of trials/heir.py."""
import os
import random
import re
import shutil
import signal
import subprocess
import threading
import time
from pathlib import Path

from bots import Bot, Nowhere, comes, free_port, ran
from nets import SECRET, Operator, records_of, version_of

LEAVES = 6
UNKNOWN = "unknown: the hub of the net before has not answered"


class TurningNet:
    """A hub and its leaves, each of which has a line hub for the hub, and one for its heir. The heir's heir is at the hub's
    address again."""

    def __init__(self, program, room):
        self.program, self.room, self.ports = program, room, [free_port() for _ in range(2)]
        os.makedirs(room)
        Path(f"{room}/secret").write_bytes(SECRET + b"\n")
        self.hubs = [self.hub("hub", 0)]
        self.leaves = [self.leaf(f"leaf{number}", number) for number in range(1, LEAVES + 1)]

    def bot(self, name, lines):
        return Bot(self.program, self.room, name, [Nowhere()], [*lines, f"secret {self.room}/secret"], nick=name)

    def hub(self, name, place):
        """The hub of the net, or one of its heirs, by its place among the lines hub."""
        return self.bot(name, [f"bot 0 of {LEAVES}", f"listen 127.0.0.1 {self.ports[place]}"])

    def leaf(self, name, number):
        return self.bot(name, [f"bot {number} of {LEAVES}", *[f"hub 127.0.0.1 {port}" for port in self.ports]])

    def says(self, *words):
        """The status, standard output and standard error of the program."""
        return ran([self.program, *words])

    def all(self):
        return [*self.hubs, *self.leaves]


def is_level(bots):
    """Whether all are at one version with the same records."""
    shown = [bot.answers("show") for bot in bots]
    return all(version_of(it) is not None for it in shown) and len({(version_of(it), records_of(it)) for it in shown}) == 1


class Askers:
    """Asks each bot for changes all the time. Keeps the users that have to be there, and the numbers of what was accepted."""

    def __init__(self, bots, name):
        self.goes_on, self.kept, self.numbers = True, set(), []
        self.threads = [threading.Thread(target=self.run, args=(bot, f"{name}{place}"), daemon=True)
                        for place, bot in enumerate(bots)]
        for it in self.threads:
            it.start()

    def run(self, bot, name):
        count = 0
        while self.goes_on:
            try:
                with Operator(bot, 3) as operator:
                    while self.goes_on:
                        count += 1
                        self.ask(operator, name, count)
                        time.sleep(0.02)
            except OSError:
                time.sleep(0.1)

    def ask(self, operator, name, count):
        """Asks for a user, or takes the one before away, but for one of eight. Notes what becomes of that."""
        user, takes = f"{name}x{count - 1 + count % 2}", count % 2 == 0
        if takes and count % 16 == 0:
            return
        if takes:
            self.kept.discard(user)
        operator.say(f"{'deluser' if takes else 'adduser'} {user}")
        answer = operator.hears()
        if answer and answer.startswith("queued"):
            answer = operator.hears()
        if answer is None:
            raise OSError
        number = re.match(r"accepted (\d+)", answer)
        if number:
            self.numbers.append(int(number[1]))
            if not takes:
                self.kept.add(user)

    def stop(self):
        self.goes_on = False
        for it in self.threads:
            it.join()
        return self.kept, self.numbers


def users_in(shown):
    """The handles of the users that a bot shows, each as often as it stands there."""
    return re.findall(r"^\d+ user (\S+)", shown, re.MULTILINE)


def comes_up(leaf):
    """Starts a leaf, which may move at once and take no commands meanwhile. Whether it takes commands soon."""
    leaf.begin()
    return comes(lambda: leaf.answers("status") is not None)


def net_of(bot):
    """The number of the net in a bot's folder; none while a leaf begins again."""
    try:
        return Path(f"{bot.folder}/net").read_text(encoding="ascii").strip()
    except OSError:
        return None


def waits_at(tally, leaf):
    """An admin who asks a leaf for a change while its hub is gone, and waits."""
    operator = Operator(leaf, 60)
    operator.say(f"adduser w{leaf.nick}")
    tally.note(f"{leaf.name} queues a change while its hub is gone", operator.hears().startswith("queued"))
    return operator


def moves(tally, net):
    """The hub is lost under load; a leaf is promoted, and all leaves move by themselves. The folder of a leaf as it was
    before."""
    for bot in net.all():
        tally.note(f"{bot.name} starts", bot.start())
    tally.note("all are level", bool(comes(lambda: is_level(net.all()), 60, 0.1)))
    load = Askers(net.all(), "m")
    comes(lambda: (version_of(net.hubs[0].answers("show")) or 0) > 60, 120, 0.2)
    net.hubs[0].kill()
    shutil.copytree(net.hubs[0].folder, f"{net.room}/hub.copy", ignore=lambda _, names: [it for it in names if it == "control"])
    shutil.rmtree(net.hubs[0].folder)
    time.sleep(1)
    kept, numbers = load.stop()
    versions = [version_of(leaf.answers("show")) for leaf in net.leaves]
    best = net.leaves[versions.index(max(versions))]
    number = net_of(best)
    waiting = [waits_at(tally, leaf) for leaf in net.leaves if leaf is not best]
    best.kill()
    shown = best.show()[1]
    base = net.leaves[0] if best is not net.leaves[0] else net.leaves[1]
    tally.say(f"accepted: {len(numbers)}; versions: {versions}")
    status, out, err = net.says("promote", best.folder, f"{net.room}/heir")
    tally.note(f"{best.name} is promoted while the others run", status == 0, out + err)
    heir = net.hub("heir", 1)
    tally.note("the heir starts", heir.start())
    began = time.monotonic()
    net.hubs.append(heir)
    tally.note("the promoted leaf starts again", comes_up(best))
    there = [heir, *net.leaves]
    own = net_of(heir)
    level = comes(lambda: all(net_of(leaf) == own for leaf in net.leaves) and is_level(there), 60, 0.05)
    took = time.monotonic() - began
    tally.note("all leaves are at the heir within ten seconds after its start", bool(level) and took < 10, f"{took:.1f} s")
    tally.note("with the records of the promoted leaf", records_of(heir.answers("show")) == records_of(shown))
    for leaf in net.leaves:
        moved(tally, net, leaf, number)
    for operator in waiting:
        answer = operator.hears()
        tally.note("who waited for an answer hears that it is unknown", answer.startswith(UNKNOWN), answer)
        operator.socket.close()
    after = Askers(there, "n")
    time.sleep(3)
    later, numbers = after.stop()
    tally.note("new changes go through", len(numbers) > 0 and bool(comes(lambda: is_level(there), 30, 0.1)), len(numbers))
    users = users_in(heir.answers("show"))
    tally.note("each counts once", len(users) == len(set(users)) and later <= set(users) and len(numbers) == len(set(numbers)))
    return base, number


def moved(tally, net, leaf, number):
    """What a leaf that has moved leaves in its folder, and says in its log."""
    tally.note(f"{leaf.name} has the heir's net, and its journal aside", net_of(leaf) == net_of(net.hubs[1])
               and os.path.exists(f"{leaf.folder}/journal.{number}/first"))
    said = leaf.logged()
    tally.note(f"{leaf.name} says so in its log", f"moving: the journal is in journal.{number} now" in said)
    tally.note(f"{leaf.name} says what it had asked and not heard", leaf.answers("show") is not None
               and (f"asked and not heard: adduser w{leaf.nick}" in said) == (f"w{leaf.nick}" in asked_of(leaf)), asked_of(leaf))


def asked_of(leaf):
    """The users that the leaf was asked for, by its log, while its hub was gone."""
    return re.findall(r"admin: adduser (w\S+)", leaf.logged())


def return_of_the_old_hub(tally, net):
    """A copy of the old hub comes back at its own address, while the heir is down."""
    heir = net.hubs[1]
    heir.kill()
    net.hubs[0].folder = f"{net.room}/hub"
    shutil.copytree(f"{net.room}/hub.copy", net.hubs[0].folder)
    before = [leaf.answers("show") for leaf in net.leaves]
    places = [len(leaf.logged()) for leaf in net.leaves]
    tally.note("a copy of the old hub starts", net.hubs[0].start())
    for leaf, place in zip(net.leaves, places):
        said = comes(lambda leaf=leaf, place=place: re.search(r"[^\n]*another net[^\n]*", leaf.logged()[place:]), 90, 0.1)
        tally.note(f"{leaf.name} refuses it by name", bool(said), said[0] if said else leaf.logged()[place:][-400:])
    tally.note("nothing came of it", [leaf.answers("show") for leaf in net.leaves] == before)
    tally.note("the heir starts again beside it", heir.start())
    tally.note("all are level", bool(comes(lambda: is_level([heir, *net.leaves]), 120, 0.1)))
    net.hubs[0].kill()


def kills_of_moves(tally, net, base, number, rounds):
    """Moves that are killed in their middle: the journal is whole, and a second start ends well at the heir."""
    heir, leaf = net.hubs[1], base
    leaf.kill()
    old = f"{net.room}/old"
    os.makedirs(old, 0o700)
    shutil.copytree(f"{leaf.folder}/journal.{number}", f"{old}/journal")
    for name in ("lock", "made"):
        shutil.copy(f"{leaf.folder}/{name}", f"{old}/{name}")
    Path(f"{old}/net").write_text(f"{number}\n", encoding="ascii")
    held = listing(f"{old}/journal")
    longest, cut, before, bad = 1.5, 0, 0, []
    for count in range(rounds):
        shutil.rmtree(leaf.folder)
        shutil.copytree(old, leaf.folder)
        leaf.begin()
        try:
            leaf.process.wait(random.uniform(0, longest))
        except subprocess.TimeoutExpired:
            cut += 1
        leaf.kill()
        aside = os.path.exists(f"{leaf.folder}/journal.{number}")
        before += not aside
        whole = listing(f"{leaf.folder}/journal.{number}" if aside else f"{leaf.folder}/journal") == held
        comes_up(leaf)
        ends = comes(lambda: is_level([heir, leaf]), 60, 0.05)
        if not ends or (aside and not whole) or listing(f"{leaf.folder}/journal.{number}").keys() != held.keys():
            bad.append(f"{count}: aside {aside}, whole {whole}, level {ends}")
        leaf.kill()
    tally.note(f"{rounds} moves, of which {cut} were killed, {before} before the journal was aside", not bad and cut, bad[:3])
    tally.note("the leaf goes on at the heir", comes_up(leaf) and bool(comes(lambda: is_level([heir, *net.leaves]), 60, 0.1)))


def listing(folder):
    """The bytes of the files in a folder."""
    return {str(it.relative_to(folder)): it.read_bytes() for it in Path(folder).rglob("*") if it.is_file()}


def links(hub):
    """How many leaves a hub is linked with."""
    said = re.search(r"linked leaves (\d+)", hub.answers("status") or "")
    return int(said[1]) if said else 0


def hand_over_refusals(tally, net, hub):
    """Whom a hub is not handed over to, and one that is given up."""
    leaf, other = net.leaves[0], net.leaves[1]
    for what, bot, words, pattern in (
            ("a leaf is not handed over", leaf, ["handover", "1"], "refused no hub"),
            ("there is no such leaf", hub, ["handover", str(LEAVES + 1)], f"refused no such leaf: say a number from 1 to {LEAVES}"),
            ("the form of handover", hub, ["handover"], "say handover N"),
            ("no leaf has the number 0", hub, ["handover", "0"], "say handover N")):
        status, out, err = bot.tell(*words)
        tally.note(what, status != 0 and pattern in out + err, out + err)
    other.kill()
    comes(lambda: links(hub) == LEAVES - 1, 60, 0.1)
    status, out, _ = hub.tell("handover", "2")
    tally.note("a leaf that is not linked", status == 1 and "refused leaf 2 is not linked" in out, out)
    tally.note("it starts again", other.start() and bool(comes(lambda: links(hub) == LEAVES and is_level([hub, *net.leaves]), 60, 0.1)))
    # (a leaf that is stopped can't show that it has all)
    tally.note("a change", hub.tell("adduser", "last")[0] == 0)
    os.kill(other.process.pid, signal.SIGSTOP)
    tally.note("one more, which it does not hear of", hub.tell("adduser", "latest")[0] == 0)
    began = time.monotonic()
    waits = subprocess.Popen([net.program, "tell", hub.folder, "handover", "2"], stdout=subprocess.PIPE, text=True)
    comes(lambda: "being handed over to leaf 2" in hub.logged(), 10)
    status, out, _ = hub.tell("adduser", "later")
    tally.note("meanwhile the hub takes no change", status == 1 and "refused the hub is being handed over" in out, out)
    queued = leaf.answers("adduser fromleaf")
    tally.note("and a leaf's request waits", (queued or "").startswith("queued") and "fromleaf" not in hub.answers("show"), queued)
    out, _ = waits.communicate(timeout=90)
    tally.note("after a minute at most it is given up, by name", waits.returncode == 1 and "refused not handed over: leaf 2" in out,
               f"{out.rstrip()} {time.monotonic() - began:.0f} s")
    os.kill(other.process.pid, signal.SIGCONT)
    tally.note("then the hub takes changes again", hub.tell("adduser", "later")[0] == 0
               and bool(comes(lambda: "fromleaf" in hub.answers("show"), 60, 0.1)))
    tally.note("all are level", bool(comes(lambda: is_level([hub, *net.leaves]), 60, 0.1)))


def hand_over(tally, net):
    """The heir is handed over to a leaf under load, and nothing that it accepted is lost."""
    hub, leaf = net.hubs[1], net.leaves[2]
    hand_over_refusals(tally, net, hub)
    load = Askers([hub, *net.leaves], "h")
    time.sleep(3)
    status, out, err = hub.tell("handover", "3")
    said = re.fullmatch(r"leaf 3 has all (\d+) changes: run eggnet promote on its folder\n", out)
    tally.note("leaf 3 has all", status == 0 and said, out + err)
    try:
        ended = hub.process.wait(10)
    except subprocess.TimeoutExpired:
        ended = None
    tally.note("the hub ends", ended == 0, ended)
    leaf.kill()
    kept, numbers = load.stop()
    shown = leaf.show()[1]
    tally.note("leaf 3 is at the hub's version", said and version_of(shown) == int(said[1]) == version_of(hub.show()[1]), shown.split("\n")[0])
    lost = kept - set(users_in(shown))
    tally.note("no accepted change is lost", numbers and max(numbers) <= version_of(shown) and not lost
               and len(numbers) == len(set(numbers)), f"{len(numbers)} accepted, lost {sorted(lost)[:5]}")
    status, out, err = net.says("promote", leaf.folder, f"{net.room}/second")
    tally.note("leaf 3 is promoted", status == 0, out + err)
    second = net.hub("second", 0)
    tally.note("the second heir starts", second.start())
    net.hubs.append(second)
    tally.note("leaf 3 starts again", comes_up(leaf))
    tally.note("all leaves are there, with what was accepted", bool(comes(lambda: is_level([second, *net.leaves]), 60, 0.05))
               and kept <= set(users_in(second.answers("show"))))
    users = users_in(second.answers("show"))
    tally.note("each counts once", len(users) == len(set(users)))
