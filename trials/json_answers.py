#!/usr/bin/env python3
"""Reads `show json` and `status json` by Python's reader of JSON, and spells the lines of `show` and `status` from them.

    trials/json_answers.py [PROGRAM] [ROUNDS]      20 rounds if they aren't said

PROGRAM is the program to try, else what EGGNET names, else ours. Each round gives a bot records whose texts are of random
bytes: quotes, backslashes, control characters and bytes that are no UTF-8. What is spelled from the JSON must be what
`show` answers, byte for byte. Then `status json` is compared so of a bot alone, with a server and without one, and of a hub
and a leaf, linked and not. The last line is 'N well, M bad'; the status is 1 where any is bad.
"""
import json
import random
import socket
import sys
import tempfile
import time
from pathlib import Path

sys.dont_write_bytecode = True
from bots import Bot, Nowhere, Ours, Tally, comes, counts_of, end_all, free_port, program_of

FLAGS = "abcdfhjklmnopqrtuvxyzABCXYZ"
HANDLE = bytes(it for it in range(33, 127) if it not in b"*,:@")
USERS, BANS = 12, 12


def ask(bot, line):
    """The bytes that the control socket answers to a line of bytes."""
    with socket.socket(socket.AF_UNIX) as it:
        it.settimeout(20)
        it.connect(f"{bot.folder}/control")
        it.sendall(line + b"\n")
        heard = b""
        while not (heard == b".\n" or heard.endswith(b"\n.\n")):
            came = it.recv(65536)
            if not came:
                return None
            heard += came
    time.sleep(0.05)  # the bot counts who is connected: it is to see that this connection is over
    return heard[:-2]


def read(answer):
    """The value of an answer: one line of bytes from a space to a tilde, with no name twice in one object."""
    line, end = answer[:-1], answer[-1:]
    if end != b"\n" or any(not 32 <= it <= 126 for it in line):
        raise ValueError(f"no plain line: {answer[:200]}")

    def unique(pairs):
        if len({name for name, _ in pairs}) < len(pairs):
            raise ValueError(f"a name twice: {pairs}")
        return dict(pairs)

    return json.loads(line, object_pairs_hook=unique)


def take(members, *names):
    """The members of an object, which has these and no others."""
    if list(members) != list(names):
        raise ValueError(f"{list(members)} are not {list(names)}")
    return [members[it] for it in names]


def user_lines(bot, user):
    handle, flags, of_bot, info, masks, channels = take(user, "handle", "flags", "bot", "info", "masks", "channels")
    yield f"{bot} user {handle} {flags} {of_bot}"
    if info is not None:
        yield f"{bot} info {handle} {info}"
    yield from (f"{bot} host {handle} {it}" for it in masks)
    for it in channels:
        yield "{} chan {} {} {}".format(bot, handle, *take(it, "channel", "flags"))


def ban_lines(bot, ban):
    channel, mask, creator, expires, comment, sticky = take(ban, "channel", "mask", "creator", "expires", "comment", "sticky")
    name = "*" if channel is None else channel
    yield f"{bot} ban {name} {mask} {creator} {expires or 0}" + (f" {comment}" if comment is not None else "")
    if sticky is True:
        yield f"{bot} sticky {name} {mask}"


def shown(answer):
    """The lines of `show`, from its JSON."""
    bot, version, users, bans = take(read(answer), "bot", "version", "users", "bans")
    lines = [f"{bot} version {version} users {len(users)} bans {len(bans)}"]
    lines += [line for it in users for line in user_lines(bot, it)] + [line for it in bans for line in ban_lines(bot, it)]
    return "".join(f"{it}\n" for it in lines).encode("latin-1")


def wire(link, apart):
    return f"version {link['version']} {apart} {link[apart]} unsent {link['unsent']} since {link['since']} address {link['address']}"


def link_lines(links):
    if links["kind"] == "hub":
        _, leaves, doubt = take(links, "kind", "leaves", "doubt")
        yield f"linked leaves {len(leaves)}"
        for it in leaves:
            take(it, "leaf", "version", "behind", "unsent", "since", "address")
            yield f"leaf {it['leaf']} {wire(it, 'behind')}"
        if doubt:
            yield "in doubt, so no change is taken: leaf {}: {}".format(*take(doubt, "leaf", "why"))
    elif links["kind"] == "leaf":
        _, hub, due = take(links, "kind", "hub", "due")
        if hub:
            take(hub, "version", "ahead", "unsent", "since", "address")
            yield f"linked to the hub, {wire(hub, 'ahead')}"
        else:
            yield "connecting to the hub" if due is None else f"no hub, next try at {due}"
    else:
        take(links, "kind")


def server_lines(server, due):
    if server is None:
        yield f"no server, next try at {due}"
        return
    host, port, since, nick, welcomed, unsent = take(server, "host", "port", "since", "nick", "welcomed", "unsent")
    yield f"server {host} {port}"
    yield f"since {since}"
    yield f"nick {nick}"
    if welcomed is False:
        yield "not welcomed yet"
    yield f"unsent {unsent}"


def stated(answer):
    """The lines of `status`, from its JSON."""
    _, version, server, due, channels, ignored, links, asks, *counts = take(
        read(answer), "bot", "version", "server", "due", "channels", "ignored", "links", "asks", "lines", "admins", "answers")
    lines = [f"version {version}", *server_lines(server, due)]
    for it in channels:
        channel, is_on = take(it, "channel", "on")
        lines.append(f"channel {channel} {'on' if is_on is True else 'off'}")
    for it in ignored:
        lines.append("ignored {} for {}".format(*take(it, "key", "seconds")))
    lines += [*link_lines(links), *([] if asks is None else [f"asks {asks}"])]
    lines += [f"{name} {count}" for name, count in zip(("lines", "admins", "answers"), counts)]
    return "".join(f"{it}\n" for it in lines).encode("latin-1")


def agrees(bot, word, spell):
    """Whether an answer and what its JSON spells are the same. Where the bot's state moves meanwhile, tries again."""
    def both():
        first, second = [(ask(bot, word), ask(bot, word + b" json")) for _ in range(2)]
        return first if first == second else None
    found = comes(both)
    if not found:
        return False, "the bot's state never stood still"
    plain, answer = found
    try:
        return plain == spell(answer), plain[:160] if plain == spell(answer) else (plain, answer)
    except (ValueError, KeyError, TypeError) as error:
        return False, (error, answer)


def text(dice, most):
    """A text of random bytes but NUL, CR and LF."""
    signs = [b'"', b"\\", b"\\u0041", b"\x1b[31m", b"\x7f", b"\x9b2J", b"\xff\xfe", "é".encode(), b" ", b"{", b"]", b","]
    made = b"".join(dice.choice(signs) if dice.random() < 0.4 else bytes([dice.randrange(1, 256)]) for _ in range(dice.randrange(most)))
    return made.translate(None, b"\0\r\n")[:most]


def fill(bot, dice):
    """Asks for random records. How many changes the bot accepted."""
    accepted = 0
    handles = [bytes(dice.choices(HANDLE, k=dice.randrange(1, 20))) for _ in range(USERS)]
    channels = [b"#" + text(dice, 12).translate(None, b" ,:\x07") for _ in range(6)] + [b"*"]
    lines = [b"adduser " + it for it in handles]
    for _ in range(6 * USERS):
        it, letters = dice.choice(handles), "".join(dice.sample(FLAGS, dice.randrange(1, 6))).encode()
        mask = b"*" + text(dice, 9).translate(None, b" !@") + b"!*u" + bytes([dice.randrange(97, 123)]) + b"@host" + str(dice.randrange(99)).encode()
        lines += [dice.choice([b"info %s %s" % (it, text(dice, 80)), b"addhost %s %s" % (it, mask), b"global %s %s" % (it, letters),
                               b"bot %s %s" % (it, letters), b"chan %s %s %s" % (it, dice.choice(channels[:-1]), letters)])]
    for _ in range(BANS):
        channel, mask = dice.choice(channels), b"*%d!*@%s" % (dice.randrange(99), text(dice, 12).translate(None, b" !@"))
        expires = dice.choice([0, 1, 2 ** 53 + 1, 2 ** 64 - 1])
        lines += [b"addban %s %s %s %d %s" % (channel, mask, dice.choice(handles), expires, text(dice, 99))]
        lines += [b"sticky %s %s %d" % (channel, mask, dice.randrange(2))]
    for line in lines:
        accepted += (ask(bot, line) or b"").startswith(b"accepted")
    return accepted


def records(tally, program, room, rounds):
    for at in range(rounds):
        bot = Bot(program, room, f"egg{at}", [Nowhere()])
        try:
            if not bot.start():
                tally.note(f"round {at}: the bot starts", False, bot.logged()[-300:])
                continue
            accepted = fill(bot, random.Random(at))
            holds, seen = agrees(bot, b"show", shown)
            tally.note(f"round {at}: {accepted} changes, and the JSON is the records", holds, "" if holds else seen)
        finally:
            end_all(bot)


def alone(tally, program, room):
    server = Ours(room, program)
    bot = Bot(program, room, "alone", [server], ["channel #egg", "channel #\"\\\xe9"])
    try:
        tally.note("the bot starts", bot.start())
        tally.note("status of a bot without a server", *agrees(bot, b"status", stated))
        server.start()
        ask(bot, b"jump")
        comes(lambda: b"channel #egg on" in ask(bot, b"status"), 60)
        tally.note("status of a bot on a channel", *agrees(bot, b"status", stated))
        status, said, _ = bot.tell("status", "json")
        tally.note("`eggnet tell FOLDER status json` prints it", status == 0 and json.loads(said)["server"]["nick"] == "egg", said)
        tally.note("another word is refused", ask(bot, b"status yaml").startswith(b"fault "), ask(bot, b"status yaml"))
        tally.note("`show` of it", *agrees(bot, b"show", shown))
    finally:
        end_all(bot, server)


def net(tally, program, room):
    secret, port, server = f"{room}/secret", free_port(), Nowhere()
    Path(secret).write_text("a secret of all bots of this trial\n", encoding="utf-8")
    Path(secret).chmod(0o600)
    hub = Bot(program, room, "hub", [server], ["bot 0 of 3", f"listen 127.0.0.1 {port}", f"secret {secret}"])
    leaves = [Bot(program, room, f"leaf{it}", [server], [f"bot {it} of 3", f"hub 127.0.0.1 {port}", f"secret {secret}"]) for it in (1, 3)]
    try:
        tally.note("a leaf starts", leaves[0].start())
        tally.note("status of a leaf without its hub", *agrees(leaves[0], b"status", stated))
        tally.note("hub and another leaf start", hub.start() and leaves[1].start())
        comes(lambda: b"linked leaves 2" in ask(hub, b"status"), 60)
        ask(hub, b"adduser bob")
        for bot in (hub, *leaves):
            comes(lambda: b"version 1\n" in ask(bot, b"status"))
            tally.note(f"status of {bot.name}, linked", *agrees(bot, b"status", stated))
            tally.note(f"`show` of {bot.name}", *agrees(bot, b"show", shown))
    finally:
        end_all(hub, *leaves)


def main():
    program, [rounds] = program_of(sys.argv[1:]), counts_of(sys.argv[1:], 20)
    tally = Tally()
    with tempfile.TemporaryDirectory(prefix="json-") as room:
        alone(tally, program, room)
        net(tally, program, room)
        records(tally, program, room, rounds)
    return tally.end()


if __name__ == "__main__":
    sys.exit(main())
