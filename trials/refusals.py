"""What `eggnet` says where a bot can't go on: each error text, disks without room, memory that is refused, and
clients of the socket `control`."""
import os
import shutil
import socket
import subprocess
import time
from importlib.machinery import SourceFileLoader
from importlib.util import module_from_spec, spec_from_loader
from pathlib import Path

import preload
from bots import Bot, Ours, comes, end_all, free_port, ran
from causes import causes

TRIALS = Path(__file__).resolve().parent


def says(tally, what, words, status, text):
    """A run that ends with this status, and with a line on standard error that begins so."""
    seen = ran(words)
    tally.note(what, seen[0] == status and seen[2].startswith(text), f"{seen[2]}status {seen[0]}")
    return seen


def configurations(tally, program, room):
    """Files that say what no bot can do."""
    right = [f"data {room}/none", "nick egg", "server 127.0.0.1 6667"]
    link = ["hub 127.0.0.1 7100", f"secret {room}/secret"]
    rows = [
        (["# a leaf", *right[:1], "bot 1 off 40"], "line 3: say bot NUMBER of LEAVES, as in bot 1 of 40"),
        (right[1:], "a bot needs a line: data FOLDER"),
        ([right[0], right[2]], "a bot needs a line: nick NICK"),
        (right[:2], "a bot needs a line: server HOST PORT"),
        ([*right, "bot 1 of 2", link[1]], "a leaf needs a line: hub HOST PORT"),
        ([*right, "bot 1 of 2", link[0]], "a bot with others needs a line: secret FILE"),
        ([*right, "bot 0 of 2", link[1]], "a hub with leaves needs a line: listen ADDRESS PORT"),
        ([*right, "bot 1 of 2", *link, "listen ::1 7100"], "a leaf has no line listen: take it out"),
        ([*right, link[0]], "a hub has no line hub: take it out"),
        ([*right, "bind pub - echo"], "line 4: say bind TYPE FLAGS PROC MASK"),
        ([*right, "bind pub zz:z+ echo !echo"], "line 4: B"),
        ([*right, "bind pubb - echo !echo"], "line 4: "),
        ([*right, "bind pub - ecko !echo"], "line 4: "),
        ([*right, "nick egg"], "line 4: say nick once: a line above has it"),
        ([*right, "chanel #egg"], "line 4: begin with "),
        (right[:2] + ["server 127.0.0.1 0"], "line 3: say a port of 1 to 65535"),
        ([f"{right[0]}\r", *right[1:]], "line 1: end lines with a line feed alone"),
        (["\ufeff" + right[0], *right[1:]], "line 1: save the file without a byte order mark"),
    ]
    for number, (lines, text) in enumerate(rows):
        config = f"{room}/c{number}.conf"
        Path(config).write_text("\n".join(lines) + "\n", encoding="utf-8", newline="")
        for word in ("check", "run"):
            says(tally, f"{word}: {lines[-1]!r}", [program, word, config], 1, f"eggnet: {config}: {text}")
    config = f"{room}/account.conf"
    Path(config).write_text("\n".join([*right, f"account egg {room}/password"]) + "\n", encoding="utf-8")
    says(tally, "check: an account without its file, which check doesn't read", [program, "check", config], 0, "")
    says(tally, "run: an account without its file", [program, "run", config], 1,
         f"eggnet: {config}: the file of the line account can't be read")
    config = f"{room}/secret.conf"
    for secret, text in ((None, "can't be read"), (b"too short\n", "has no secret"), (b"x" * 201, "has no secret")):
        Path(config).write_text("\n".join([*right, "bot 1 of 2", *link]) + "\n", encoding="utf-8")
        if secret:
            Path(f"{room}/secret").write_bytes(secret)
        says(tally, f"run: a secret that is {secret}"[:60], [program, "run", config], 1,
             f"eggnet: {config}: the file of the line secret {text}")
    tally.note("no folder was made", not os.path.exists(f"{room}/none"))
    sizes(tally, program, room, "\n".join(right) + "\n")


def sizes(tally, program, room, text):
    """Files of 65,536 and 65,537 bytes."""
    config = f"{room}/size.conf"
    for size, status, said in ((65_536, 0, ""), (65_537, 1, f"eggnet: {config}: write at most 65536 bytes")):
        rest = size - len(text)
        Path(config).write_text(text + ("#" * 1_023 + "\n") * (rest // 1_024) + "#" * (rest % 1_024), encoding="utf-8")
        assert os.path.getsize(config) == size
        says(tally, f"check: a file of {size} bytes", [program, "check", config], status, said)


def command_lines(tally, program, room):
    """Words that the program does not understand, and folders in which nobody runs."""
    config = f"{room}/missing.conf"
    says(tally, "run: no file", [program, "run", config], 3, f"eggnet: {config} can't be read")
    says(tally, "no word", [program], 2, "error: ")
    says(tally, "a word that is none", [program, "bogus"], 2, "error: ")
    says(tally, "run without a file", [program, "run"], 2, "error: ")
    says(tally, "tell without words", [program, "tell", room], 2, "error: ")
    says(tally, "a word that is no UTF-8", [program, "tell", room, b"\xff\xfe"], 2, "eggnet: ")
    none = f"{room}/none"
    says(tally, "tell: a folder that is none", [program, "tell", none, "status"], 3, f"eggnet: no bot runs on {none}\n")
    says(tally, "tell: a word that is none", [program, "tell", room, "bogus"], 1, "eggnet: begin with +chan, -chan, addban, ")
    says(tally, "tell: a line feed", [program, "tell", room, "say a\nb"], 1, "eggnet: say it in one line")
    says(tally, "tell: 601 bytes", [program, "tell", room, "say " + "x" * 597], 1, "eggnet: say at most 600 bytes")
    says(tally, "show: a folder that is none", [program, "show", none], 3, f"eggnet: {none} holds no bot")
    long = "/tmp/" + "x" * 100
    is_long = f"eggnet: {long} has a name of more than 99 bytes"
    says(tally, "tell: a name of 105 bytes", [program, "tell", long, "status"], 3, is_long)


def memory(tally, program, room):
    """Memory that is refused, to `check` at each allocation and to a bot that runs at many."""
    if not shutil.which("cc"):
        tally.say("no cc: memory is not refused")
        return
    server = Ours(room, program)
    bot = Bot(program, room, "memory", [server], ["channel #egg", "bind pub - echo !echo"])
    seen = ran([f"{TRIALS}/refuse_memory", "--most", "300", program, "check", bot.config])
    tally.note("check: memory refused at each allocation", seen[0] == 0 and " 0 bad" in seen[1], seen[1] + seen[2])
    loader = SourceFileLoader("refuse_memory", f"{TRIALS}/refuse_memory")
    shim = module_from_spec(spec_from_loader("refuse_memory", loader))
    loader.exec_module(shim)
    library = preload.made(room, "refuse", shim.SHIM)
    ends, wrong = {0: 0, 4: 0}, []
    try:
        server.start()
        for place in [*range(1, 60, 3), *range(60, 1_200, 19)]:
            status, text, told, shown = starved(program, room, server, place, library)
            held = int(shown[1].split()[2]) if shown[0] == 0 else 0
            is_said = (status == 4) == ("eggnet: out of memory" in text)
            if status not in ends or not is_said or not told <= held <= told + 1:
                wrong.append((place, status, text, told, held))
            else:
                ends[status] += 1
    finally:
        end_all(server)
    tally.note("run: memory refused at many allocations", not wrong,
               f"{ends[4]} ended with 4, {ends[0]} went on; {wrong[:3]}")


def starved(program, room, server, place, library):
    """A bot that is refused an allocation: its status, standard error, how many changes it acknowledged, its `show`."""
    bot = Bot(program, room, f"starved{place}", [server], ["channel #egg", "bind pub - echo !echo"], nick=f"egg{place}")
    told = 0
    environment = {**os.environ, "LD_PRELOAD": library, "REFUSED": str(place)}
    with subprocess.Popen([program, "run", bot.config], stdin=subprocess.DEVNULL, stdout=subprocess.DEVNULL,
                          stderr=subprocess.PIPE, env=environment) as bot.process:
        end = time.monotonic() + 5
        while bot.process.poll() is None and told < 4 and time.monotonic() < end:
            if bot.answers("adduser me" if told == 0 else f"addhost me *!a{told}@h") == f"accepted {told + 1}\n":
                told += 1
        for line in ("show", "status", "bind pub - echo !e", "compact", "die"):
            bot.answers(line)
        try:
            text = bot.process.communicate(timeout=10)[1].decode(errors="replace")
        except subprocess.TimeoutExpired:
            bot.kill()
            text = "not ended"
    return bot.process.returncode, text, told, bot.show()


def folders(tally, program, room):
    """Folders that are no bot's."""
    server = Ours(room, program)
    bot = Bot(program, room, "busy", [server])
    other = Bot(program, room, "busy2", [server])
    try:
        bot.start()
        mode = os.stat(bot.folder).st_mode & 0o777
        tally.note("a folder that it makes is its owner's alone", mode == 0o700, oct(mode))
        in_use = f"eggnet: {bot.folder} is in use: end the bot that runs on it\n"
        says(tally, "a folder in use", [program, "run", bot.config], 3, in_use)
        tally.note("the bot goes on", bot.tell("status")[0] == 0)
        bot.end()
        tally.note("it starts again on it", bot.start())
        bot.kill()
        left = os.path.exists(f"{bot.folder}/control")
        tally.note("and after a kill, whose socket is still there", left and bot.start())
        bot.end()
    finally:
        end_all(bot)
    os.chmod(bot.folder, 0o755)
    open_to_all = f"eggnet: {bot.folder} lets others in: "
    says(tally, "a folder that others may enter", [program, "run", bot.config], 3, open_to_all)
    os.chmod(bot.folder, 0o700)
    for name, text in (("first", "rubbish"), ("second", "")):
        os.makedirs(f"{other.folder}/journal", mode=0o700, exist_ok=True)
        os.chmod(other.folder, 0o700)
        Path(f"{other.folder}/journal/{name}").write_text(text, encoding="utf-8")
    says(tally, "a journal that is none", [program, "run", other.config], 1, f"eggnet: {other.folder}")
    says(tally, "show of it", [program, "show", other.folder], 1, f"eggnet: {other.folder}")
    os.remove(f"{other.folder}/journal/first")
    lacks = f"eggnet: {other.folder} holds a journal that lacks a file"
    says(tally, "a journal that lacks a file", [program, "run", other.config], 3, lacks)
    other.move_to(f"{room}/deep/below")
    says(tally, "a folder below none", [program, "run", other.config], 3, f"eggnet: {room}/deep/below can't be made")
    last_generation(tally, program, room)


def last_generation(tally, program, room):
    """Journals of older layouts, of the last generation, 4,294,967,295, and of the generation before."""
    for layout in (1, 2, 3):
        last_generation_of(tally, program, room, layout)


def last_generation_of(tally, program, room, layout):
    bot = Bot(program, room, f"spent{layout}", [Ours(room, program)])
    try:
        bot.start()
        bot.end()
        first = Path(f"{bot.folder}/journal/first")
        held = first.read_bytes()
        tally.note("a new journal has layout 4", held[:6] == b"\1EGGJ\4", held[:6])
        # Older layouts spell the base of a new bot, 15 bytes of zeros, without the sum that follows it.
        spent = held[:5] + bytes([layout]) + b"\xff" * 4 + b"\0\0\0\x0f" + bytes(15) + b"\0"
        first.write_bytes(spent)
        used_up = f"eggnet: {bot.folder} holds a journal of an older layout that can't be rewritten"
        says(tally, "a journal whose generations are used up", [program, "run", bot.config], 1, used_up)
        told = f"eggnet: {bot.folder} holds a journal of an older layout whose generations are used up"
        says(tally, "it can't be shown", [program, "show", bot.folder], 1, told)
        tally.note("it is as it was", first.read_bytes() == spent)
        first.write_bytes(spent[:9] + b"\xfe" + spent[10:])
        tally.note("one with a generation left is rewritten", bot.start(), bot.logged()[-200:])
    finally:
        end_all(bot)


NO_ROOM = "refused no room: free some on the disk of the bot's folder, then say it again\n"


def full_disk(tally, program, room, name, folder, limit):
    """A bot whose disk has no room refuses changes by name and goes on, and takes them where there is room."""
    bot = Bot(program, room, name, [Ours(room, program)])
    if folder:
        bot.move_to(folder)
    try:
        tally.note(f"{name}: it starts", bot.start(limit), bot.logged()[-200:])
        seen = [bot.answers(line) for line in ("adduser me", "compact")]
        tally.note(f"{name}: it refuses changes", seen == [NO_ROOM] * 2, seen)
        time.sleep(3)
        goes_on = bot.process.poll() is None and bot.tell("status")[0] == 0
        tally.note(f"{name}: it goes on", goes_on, bot.logged()[-200:])
        bot.end()
        if folder:
            shutil.move(folder, f"{room}/{name}-moved")
            bot.move_to(f"{room}/{name}-moved")
        tally.note(f"{name}: it starts where there is room", bot.start(), bot.logged()[-200:])
        seen = bot.answers("adduser me")
        tally.note(f"{name}: it takes a change", seen == "accepted 1\n", seen)
    finally:
        end_all(bot)


# Syncs fail while a file of this name is there.
SYNCS = r"""
#define _GNU_SOURCE
#include <errno.h>
#include <stdlib.h>
#include <sys/syscall.h>
#include <unistd.h>

int fdatasync(int fd) {
    if (access(getenv("SYNCS_FAIL"), F_OK) == 0) {
        errno = EIO;
        return -1;
    }
    return (int)syscall(SYS_fdatasync, fd);
}
"""


def failed_disk(tally, program, room):
    """A bot whose disk fails: it ends, tells which change is open, and what it acknowledged is there later."""
    if not shutil.which("cc"):
        tally.say("no cc: no disk fails")
        return
    bot = Bot(program, room, "failing", [Ours(room, program)])
    library, fails = preload.made(room, "syncs", SYNCS), f"{room}/syncs_fail"
    try:
        with open(bot.log, "ab") as log:
            environment = {**os.environ, "LD_PRELOAD": library, "SYNCS_FAIL": fails}
            bot.process = subprocess.Popen([program, "run", bot.config], stdin=subprocess.DEVNULL, stdout=log,
                                           stderr=log, env=environment)
        told = comes(lambda: bot.answers("adduser me"))
        tally.note("failing: it starts", told == "accepted 1\n", told)
        Path(fails).touch()
        bot.answers("adduser you")
        ended = comes(lambda: bot.process.poll() is not None)
        status, text = bot.process.returncode, bot.logged()
        tally.note("failing: it ends with 3", ended and status == 3, f"status {status}")
        told = next((line for line in text.splitlines() if line.startswith("eggnet: ")), text[-200:])
        tally.note("failing: it says which change is open", "; change 2 may count or not" in told, told)
        os.remove(fails)
        tally.note("failing: once the disk works it starts again", bot.start(), bot.logged()[-200:])
        version = int(((bot.answers("show") or "0 version -1 ").split())[2])
        tally.note("failing: what was acknowledged is there", version in (1, 2), f"version {version}")
    finally:
        end_all(bot)


def disks(tally, program, room):
    """Files that may not grow, a disk that fails, and where this user may mount one a small disk that is full."""
    full_disk(tally, program, room, "limited", None, 24_576)
    failed_disk(tally, program, room)
    small = f"{room}/small"
    os.mkdir(small)
    if os.getuid() or ran(["mount", "-t", "tmpfs", "-o", "size=96k,mode=0700", "tmpfs", small])[0]:
        tally.say("this user mounts no tmpfs: a disk that is full is left out")
        return
    try:
        Path(f"{small}/filler").write_bytes(b"x" * 32_768)
        full_disk(tally, program, room, "full", f"{small}/egg", None)
    finally:
        ran(["umount", "-l", small])


def connected(folder):
    """A control client."""
    it = socket.socket(socket.AF_UNIX)
    it.settimeout(5)
    it.connect(f"{folder}/control")
    return it


def heard(client):
    """What a client hears until the bot lets it go, or says nothing for 5 seconds."""
    told = b""
    try:
        while came := client.recv(65536):
            told += came
    except OSError:
        pass
    return told


def clients(tally, program, room):
    """Control clients that say rubbish, too much, or never read."""
    bot = Bot(program, room, "talked", [Ours(room, program)])
    try:
        bot.start()
        bot.answers("adduser me")
        with connected(bot.folder) as it:
            it.sendall(b"\x00\xff rubbish\nbogus\n")
            it.settimeout(1)
            told = heard(it)
        tally.note("rubbish is a fault", told.count(b"fault ") == 2 and told.count(b"\n.\n") == 2, told)
        with connected(bot.folder) as it:
            it.sendall(b"x" * 5_000)
            began = time.monotonic()
            told = heard(it)
            took = time.monotonic() - began
        tally.note("5,000 bytes without a line feed: let go", took < 4, f"{told[:80]} after {took:.1f} s")
        tally.note("the bot answers others", bot.tell("status")[0] == 0)
        many = [connected(bot.folder) for _ in range(30)]
        status, out, err = bot.tell("status")
        tally.note("30 clients that say nothing", status in (0, 3), f"status {status} {err}")
        for it in many:
            it.close()
        tally.note("after them it answers", bool(comes(lambda: bot.tell("status")[0] == 0)))
        ninth(tally, bot)
        never_reads(tally, bot)
    finally:
        end_all(bot)


def ninth(tally, bot):
    """Eight clients that say nothing, or nothing any more: the one that was silent the longest gives way to a ninth."""
    silent = []
    for _ in range(8):
        silent.append(connected(bot.folder))
        time.sleep(1.5)
    silent[0].sendall(b"status\n")
    began = time.monotonic()
    status, out, err = bot.tell("status")
    took = time.monotonic() - began
    tally.note("a ninth operator comes in after a while", status == 0 and 10 < took < 35, f"{took:.1f} s {err}")
    gone = [place for place, it in enumerate(silent) if is_let_go(it)]
    tally.note("of the eight the second has given way", gone == [1], gone)
    for it in silent:
        it.close()


def is_let_go(client):
    """Whether the bot has let a client go."""
    client.settimeout(0.5)
    try:
        while client.recv(65536):
            pass
        return True
    except OSError:
        return False


def never_reads(tally, bot):
    """A client that asks and asks, and reads nothing."""
    for number in range(400):
        bot.answers(f"addhost me *!*user{number % 16}@{'x' * 40}.host{number}.example")
    with connected(bot.folder) as it:
        it.settimeout(0.2)
        before, asked, worst = bot.memory(), 0, 0.0
        end = time.monotonic() + 20
        while time.monotonic() < end:
            try:
                it.sendall(b"show\n" * 100)
                asked += 100
            except OSError as error:
                if not isinstance(error, TimeoutError):
                    break
            began = time.monotonic()
            if bot.answers("status") is None:
                worst = 99.0
            worst = max(worst, time.monotonic() - began)
        after = bot.memory()
    tally.note("one that never reads", bot.tell("status")[0] == 0 and worst < 2 and after < 40_000,
               f"{asked} asked, another waits {worst:.2f} s at most, {before} kB before and {after} kB after")


def logs(tally, program, room):
    """A log that nobody reads any more."""
    bot = Bot(program, room, "logged", [Ours(room, program)], ["log lines"])
    try:
        bot.process = subprocess.Popen([program, "run", bot.config], stdin=subprocess.DEVNULL, stdout=subprocess.PIPE,
                                       stderr=subprocess.DEVNULL)
        bot.process.stdout.close()
        lives = comes(lambda: bot.answers("status"))
        bot.tell("adduser", "me")
        time.sleep(6)
        tally.note("a log that nobody reads", bool(lives) and bot.process.poll() is None and bot.tell("show")[0] == 0,
                   f"status {bot.process.poll()}")
        bot.end()
    finally:
        end_all(bot)


def refusals(tally, program, room):
    """All of these."""
    configurations(tally, program, room)
    command_lines(tally, program, room)
    memory(tally, program, room)
    folders(tally, program, room)
    disks(tally, program, room)
    causes(tally, program, room)
    clients(tally, program, room)
    logs(tally, program, room)
