#!/usr/bin/env python3
"""Who may change what, at nets whose leaves are cut off: 10,000 random nets beside a model of the rule.

    trials/rights.py [PROGRAM] [NETS]      10,000 NETS where no number is said, some minutes

PROGRAM is the program to try, else what EGGNET names, else ours. Each net is a script for `eggnet replay`: a hub and two
leaves, an owner, masters, an operator of a channel, and people whom nobody knows. Each of them asks for changes at any bot, in
their own name by any casemapping, while packets wait, come late, come twice or never come. The model knows the rule by its words
in docs/OPERATING.md, and no line of our code. It goes through the transcript and says of each change which answer it must get:
accepted, U12 for a right that its asker lacks, or what else the records refuse.

Beside each answer the trial looks at two laws. Nobody climbs: as long as all that was accepted was asked by people whom no
owner's mask matched at first, the owners and masters keep their masks and flags, and none of those people is an owner. And at
the end all bots at one version show the records that the model has at that version.
The last line is 'N well, M bad'; the status is 1 where any is bad.
"""
import itertools
import os
import random
import subprocess
import sys
from concurrent.futures import ThreadPoolExecutor

sys.dont_write_bytecode = True
from bots import Tally, counts_of, program_of

HANDLES = ["own", "mal", "bob", "eve"]
PERSONS = ["own!o@a", "mal!m@b", "eve!e@b", "bob!b@c", "mal[!m@b", "mal{!m@b", "own~!o@d", "own^!o@d"]
MASKS = ["own!*@*", "*!*@a", "mal!*@*", "*!*@b", "eve!e@b", "bob!*@*", "mal[!*@*", "own^!*@*", "$a:mal", "*!?@c"]
FLAGS = ["-", "m", "n", "o", "mo", "mn", "no", "v"]
CHANNELS = ["#egg", "#x"]
BANS = ["*!*@bad", "bad!*@*", "$a:bad"]
MAPPINGS = ["ascii", "strict-rfc1459", "rfc1459"]
GUARDED, OWNER = {"m", "n"}, "n"
ROUNDS = 24  # changes that are asked for in a net


def folded(mapping, text):
    """The text in lower case, as a server of this casemapping compares names."""
    pairs = {"ascii": "", "strict-rfc1459": "[{]}\\|", "rfc1459": "[{]}\\|~^"}[mapping]
    pairs = dict(zip(pairs[::2], pairs[1::2]))
    return "".join(pairs.get(it, it.lower() if it.isascii() else it) for it in text)


def fits(mask, text):
    """Whether a mask of literals, * and ? matches all of a text."""
    if not mask:
        return not text
    if mask[0] == "*":
        return fits(mask[1:], text) or (text != "" and fits(mask, text[1:]))
    return text != "" and mask[0] in ("?", text[0]) and fits(mask[1:], text[1:])


class User:
    """A user of the model."""

    def __init__(self, handle):
        self.handle, self.masks, self.flags, self.channels, self.bot, self.info = handle, [], set(), {}, set(), ""

    def guarded(self):
        return bool(self.flags & GUARDED)

    def lines(self, bot):
        """What `show` prints of the user."""
        letters = lambda flags: "".join(sorted(flags)) or "-"
        yield f"{bot} user {self.handle} {letters(self.flags)} {letters(self.bot)}"
        if self.info:
            yield f"{bot} info {self.handle} {self.info}"
        yield from (f"{bot} host {self.handle} {it}" for it in self.masks)
        yield from (f"{bot} chan {self.handle} {name} {letters(flags)}" for name, flags in self.channels.items())


class Model:
    """The records, and the rule by its words."""

    def __init__(self):
        self.users, self.bans = [], []

    def user(self, handle):
        return next((it for it in self.users if folded("rfc1459", it.handle) == folded("rfc1459", handle)), None)

    def known_as(self, person, mapping):
        """The user whose mask with most literals matches the person, the earliest of several."""
        best, most = None, -1
        for user in self.users:
            for mask in user.masks:
                count = sum(it not in "*?" for it in mask)
                if count > most and fits(folded(mapping, mask), folded(mapping, person)):
                    best, most = user, count
        return best

    def is_like_owner(self, person, mapping):
        """Whether any mask of an owner matches the person."""
        return any(OWNER in user.flags and fits(folded(mapping, mask), folded(mapping, person))
                   for user in self.users for mask in user.masks)

    def guarded(self):
        return [(it.handle, tuple(it.masks), frozenset(it.flags), tuple((c, frozenset(f)) for c, f in it.channels.items()),
                 frozenset(it.bot)) for it in self.users if it.guarded()]

    def may(self, asker, words):
        """Whether the asker may have this change, by the words of docs/OPERATING.md."""
        if not asker:
            return True
        user = self.known_as(*asker)
        flags = user.flags if user else set()
        word = words[0]
        if word == "info":
            return bool(user) and folded("rfc1459", user.handle) == folded("rfc1459", words[1])
        if word in ("addban", "delban"):
            there = [] if words[1] == "*" or not user else user.channels.get(words[1], [])
            return bool({"o", "m", "n"} & {*flags, *there})
        if word == "sticky":
            return bool(flags & GUARDED)
        target = self.user(words[1])
        new = set(words[2].strip("-")) if word == "global" else set()
        is_for_owners = bool(target and target.guarded()) or bool(new & GUARDED)
        if not (OWNER in flags if is_for_owners else flags & GUARDED):
            return False
        owners = [it for it in self.users if OWNER in it.flags]
        takes_owner = word == "deluser" or (word == "global" and OWNER not in new)
        return not (takes_owner and owners == [target])

    def fault(self, asker, words):
        """The code with which the change is refused, or none."""
        word = words[0]
        if not self.may(asker, words):
            return "U12"
        if word in ("addban", "delban", "sticky"):
            there = [it for it in self.bans if it[:2] == words[1:3]]
            if word == "addban":
                return "U8" if there else None
            return None if there else "U9"
        user = self.user(words[1])
        if word == "adduser":
            return "U2" if user else None
        if not user:
            return "U3"
        if word == "addhost":
            return "U5" if words[2] in user.masks else None
        if word == "delhost":
            return None if words[2] in user.masks else "U6"
        return None

    def take(self, words):
        """Makes the change."""
        word, user = words[0], self.user(words[1])
        if word == "adduser":
            self.users.append(User(words[1]))
        elif word == "deluser":
            self.users.remove(user)
        elif word == "addhost":
            user.masks.append(words[2])
        elif word == "delhost":
            user.masks.remove(words[2])
        elif word == "global":
            user.flags = set(words[2].strip("-"))
        elif word == "bot":
            user.bot = set(words[2].strip("-"))
        elif word == "chan":
            flags = set(words[3].strip("-"))
            if flags:
                user.channels[words[2]] = flags
            else:
                user.channels.pop(words[2], None)
        elif word == "info":
            user.info = " ".join(words[2:])
        elif word == "addban":
            self.bans.append([*words[1:], "0"])
        elif word == "delban":
            self.bans = [it for it in self.bans if it[:2] != words[1:3]]
        elif word == "sticky":
            next(it for it in self.bans if it[:2] == words[1:3])[-1] = words[3]

    def shown(self, bot, version):
        """What `show` prints of these records at the bot."""
        lines = [f"{bot} version {version} users {len(self.users)} bans {len(self.bans)}"]
        for it in self.users:
            lines += it.lines(bot)
        for channel, mask, creator, ends, sticky in self.bans:
            lines.append(f"{bot} ban {channel} {mask} {creator} {ends}")
            lines += [f"{bot} sticky {channel} {mask}"] * (sticky == "1")
        return lines


def spelled(bot, asker, words):
    """The command by which a bot is asked."""
    by = f"as {asker[0]} {asker[1]} " if asker else ""
    return f"ask {bot} {by}{' '.join(words)}"


def any_change(random):
    """A change that somebody may ask for."""
    handle, word = random.choice(HANDLES), random.choice(
        ["adduser", "deluser", "addhost", "addhost", "delhost", "global", "global", "chan", "bot", "info", "addban", "delban", "sticky"])
    ban = [random.choice(["*", *CHANNELS]), random.choice(BANS)]
    return {"adduser": [word, handle], "deluser": [word, handle], "addhost": [word, handle, random.choice(MASKS)],
            "delhost": [word, handle, random.choice(MASKS)], "global": [word, handle, random.choice(FLAGS)],
            "chan": [word, handle, random.choice(CHANNELS), random.choice(["o", "m", "v", "-"])],
            "bot": [word, handle, random.choice(["s", "-"])], "info": [word, handle, "hello there"],
            "addban": [word, *ban, handle, "0"], "delban": [word, *ban], "sticky": [word, *ban, random.choice("01")]}[word]


def first_records(random):
    """The changes that make the records of the beginning, asked in nobody's name."""
    for handle in random.sample(HANDLES, random.randint(2, 4)):
        yield ["adduser", handle]
        for mask in random.sample(MASKS, random.randint(0, 2)):
            yield ["addhost", handle, mask]
        yield ["global", handle, random.choice(FLAGS)]
        if random.random() < 0.3:
            yield ["chan", handle, random.choice(CHANNELS), "o"]


def script_of(seed):
    """A script of a net, and what each bot was asked, in order."""
    r = random.Random(seed)
    lines, asked = ["leaves 2"], {0: [], 1: [], 2: []}
    persons = r.sample(PERSONS, 4)

    def ask(bot, asker, words):
        asked[bot].append((asker, words))
        lines.append(spelled(bot, asker, words))

    for words in first_records(r):
        ask(0, None, words)
        lines.append("pump 0")
    for bot in (1, 2):
        lines.append(f"pump {bot}")
    count = 2 * len(asked[0])
    lines += [f"deliver {count + 1}", f"deliver {count + 2}"]
    lines += [f"deliver {k}" for k in range(1, count + 1) if r.random() < 0.8]
    count += 6
    for _ in range(ROUNDS):
        asker = (r.choice(persons), r.choice(MAPPINGS)) if r.random() < 0.95 else None
        bot = r.choice([0, 0, 1, 2])
        ask(bot, asker, any_change(r))
        if r.random() < 0.8:
            lines.append(f"pump {bot}")
        count += 3
        lines += [f"deliver {max(1, count - r.randint(0, 12))}" for _ in range(r.randint(0, 4))]
    for _ in range(10):
        lines += ["pump 0", "pump 1", "pump 2"]
    lines += [f"deliver {k}" for k in range(1, count + 200)]
    lines += ["show 0", "show 1", "show 2"]
    return lines, asked


class Reading:
    """Goes through a transcript, with the model beside it."""

    def __init__(self, asked):
        self.asked, self.model, self.records, self.bad = asked, Model(), [], []
        self.requests, self.packets, self.answers = {}, {}, {"accepted": 0, "U12": 0, "others": 0}
        self.others_since = None

    def judge(self, asker, words, answer):
        """Compares an answer with the model's, and looks at the laws."""
        wanted = self.model.fault(asker, words)
        came = None if answer.startswith("Accepted") else answer.split()[1]
        self.answers["accepted" if not came else came if came == "U12" else "others"] += 1
        if wanted != came:
            self.bad.append(f"{asker} {words}: wanted {wanted or 'accepted'}, came {answer}")
        if came is None:
            self.model.take(words)
            self.records.append(self.model.shown("B", len(self.records) + 1))
            self.law(asker)

    def law(self, asker):
        """Nobody climbs, since the last change in nobody's name or by somebody like an owner."""
        since = self.others_since
        if since is None or not asker or since["like"](asker):
            first = [(p, m) for p, m in itertools.product(PERSONS, MAPPINGS) if not self.model.is_like_owner(p, m)]
            self.others_since = {"guarded": self.model.guarded(), "like": lambda it: it not in first, "others": first}
            return
        if self.model.guarded() != since["guarded"]:
            self.bad.append(f"guarded users changed by {asker}: {since['guarded']} {self.model.guarded()}")
        for it in since["others"]:
            user = self.model.known_as(*it)
            if user and OWNER in user.flags:
                self.bad.append(f"{it} became an owner")

    def read(self, script, lines):
        """Reads the lines that each command printed."""
        at, hub_asks, requested, queued = 0, [], {1: [], 2: []}, {0: [], 1: [], 2: []}
        places = {0: 0, 1: 0, 2: 0}
        for command in script[1:]:
            words, said = command.split(), []
            while at < len(lines):
                line = lines[at]
                at += 1
                said.append(line)
                if words[0] == "show":
                    if at >= len(lines) or f"{words[1]} " != lines[at][:2] or lines[at].split()[1] in ("version", "Done", "Idle"):
                        break
                elif not line.startswith(("send ", "call ", "out ", "fault ")):
                    break
            for line in said:
                if line.startswith("send "):
                    _, k, way, *packet = line.split()
                    if packet[0] == "Request":
                        self.packets[int(k)] = (int(way.split(">")[0]), int(packet[1]))
            last = said[-1] if said else ""
            bot = last.split()[0] if last else ""
            if words[0] == "ask" and last.endswith("Queued"):
                queued[int(words[1])].append(self.asked[int(words[1])][places[int(words[1])]])
            if words[0] == "ask":
                places[int(words[1])] += 1
            answer = last[2:]
            if bot == "0" and answer.startswith(("Accepted", "Refused")):
                if words[0] == "pump":
                    self.judge(*queued[0].pop(0), answer)
                elif words[0] == "deliver":
                    leaf, request = self.packets[int(words[1])]
                    self.judge(*queued[leaf][request - 1], answer)
            if words[0] == "show":
                version = int(said[0].split()[2])
                wanted = self.records[version - 1] if version else ["B version 0 users 0 bans 0"]
                wanted = [it.replace("B ", f"{words[1]} ", 1) for it in wanted]
                if said != wanted:
                    self.bad.append(f"show {words[1]}: wanted {wanted}, came {said}")
        return self


def one(program, seed):
    """Plays a net, and returns what was bad, and the counts of answers."""
    script, asked = script_of(seed)
    text = "\n".join(script) + "\n"
    ran = subprocess.run([program, "replay"], input=text, capture_output=True, text=True)
    if ran.returncode:
        return [f"status {ran.returncode}: {ran.stderr}"], {}
    reading = Reading(asked).read(script, ran.stdout.splitlines())
    return [f"net {seed}: {it}" for it in reading.bad], reading.answers


def main(words):
    program, (nets,) = program_of(words), counts_of(words, 10_000)
    tally, sums, bad = Tally(), {}, []
    with ThreadPoolExecutor(os.cpu_count()) as pool:
        for faults, answers in pool.map(lambda seed: one(program, seed), range(nets)):
            bad += faults
            for name, count in answers.items():
                sums[name] = sums.get(name, 0) + count
    tally.note(f"{nets} nets answer as the model does, nobody climbs, and all bots show its records", not bad, bad[:5])
    tally.note("of each answer there were many", all(sums.get(it, 0) > nets for it in ("accepted", "U12", "others")), sums)
    return tally.end()


if __name__ == "__main__":
    sys.exit(main(sys.argv[1:]))
