#!/usr/bin/env python3
"""Makes the packages of tools/package, installs the one for Debian into a fresh Debian, and runs a bot there.

    trials/package.py [PROGRAM] [ROOT]

PROGRAM is the program to pack, else what EGGNET names, else ours. ROOT is a folder with a fresh Debian, which is copied;
without it debootstrap fetches one, in a minute or two. It must be run by root, and wants debootstrap, lintian, groff
and strace. The trial makes the folder that the service's unit names, and runs the unit's commands as the unit's user, where
all but that folder is read-only. Then, if systemd-nspawn is there, it has the fresh Debian's own systemd run the service.
The last line is 'N well, M bad'; the status is 1 where any is bad.
"""
import filecmp
import os
import re
import shlex
import shutil
import signal
import subprocess
import sys
import tempfile
import time
from pathlib import Path

sys.dont_write_bytecode = True
from bots import TOP, Ours, Tally, comes, program_of, ran

sys.path.insert(0, str(TOP / "packaging"))
import manual

CONFIGURATION, FOLDER, LOG = "etc/eggnet/egg.conf", "var/lib/eggnet/egg", "var/log/eggnet/egg.log"
# What dpkg, adduser and the C library keep for themselves.
OF_OTHERS = re.compile(r"(var/lib/dpkg|var/log|var/cache|etc/(passwd|group|shadow|gshadow|subuid|subgid)-?$|etc/ld\.so\.cache"
                       r"|proc|sys/|dev|run|tmp)")


def package(into, program, **environment):
    """Runs tools/package, and returns its status and what it says on standard error."""
    words = [str(TOP / "tools/package"), *([program] if program else []), "--into", into]
    done = subprocess.run(words, env={**os.environ, **environment}, cwd="/", capture_output=True, text=True, check=False)
    return done.returncode, done.stderr


def is_made_again(tally, room, program):
    """Makes it twice, and returns the folder of the first."""
    old = os.umask(0o022)
    first = package(f"{room}/first", program, TZ="UTC")
    os.umask(0o077)
    time.sleep(1.1)
    second = package(f"{room}/second", program, TZ="Asia/Tokyo", LC_ALL="C")
    os.umask(old)
    names = sorted(os.listdir(f"{room}/first")) if first[0] == 0 else []
    same, *different = filecmp.cmpfiles(f"{room}/first", f"{room}/second", names, shallow=False)
    tally.note("two runs give the same three files", second[0] == 0 and len(same) == 3 and not any(different),
               f"{names} {different}")
    tally.note("it says that it trusts the caller", "trusting you" in first[1], first[1])
    status, said, _ = ran(["sha256sum", "--check", "SHA256SUMS"], cwd=f"{room}/first")
    tally.note("SHA256SUMS are right", status == 0, said)
    return f"{room}/first"


def knows_what_was_proved(tally, room, program):
    """In a clone it packs our program alone, and only with the mark that ./prove leaves for these sources."""
    clone, out = f"{room}/clone", Path(room, "clone/crates/eggnet/out")
    subprocess.run(["git", "clone", "-q", TOP, clone], check=True)
    for name in ("tools", "packaging"):
        subprocess.run(["cp", "-rT", TOP / name, f"{clone}/{name}"], check=True)
    pack = [f"{clone}/tools/package", "--into", f"{room}/packed"]

    def refuses(what, word):
        status, _, said = ran(pack)
        tally.note(f"{what} is refused by name", status == 1 and word in said and not os.path.exists(f"{room}/packed"), said)

    refuses("what was not proved", "crates/eggnet/out/proved")
    out.mkdir()
    stamp = "import kit; print(next(it for it in kit.crates(['eggnet']) if it.name == 'eggnet').stamp(), end='')"
    out.joinpath("proved").write_text(ran([sys.executable, "-c", stamp], cwd=f"{clone}/tools")[1])
    refuses("what was proved and not built", "crates/eggnet/out/eggnet")
    subprocess.run(["cp", program, out / "eggnet"], check=True)
    status, _, said = ran(pack)
    tally.note("what was proved and built is packed", status == 0 and "trusting" not in said, said)
    subprocess.run(["rm", "-r", f"{room}/packed"], check=True)
    with open(f"{clone}/crates/eggnet/src/main.rt", "a", encoding="utf-8") as it:
        it.write("\n")
    refuses("a source that changed since", "crates/eggnet/out/proved")


def are_refused(tally, room):
    """Programs that it must not pack."""
    for name, word in [("/bin/true", "is no eggnet"), (f"{TOP}/README.md", "is no program"), ("/nowhere", "is no program")]:
        status, said = package(f"{room}/none", name)
        tally.note(f"{name} is refused", status == 1 and word in said, said.splitlines()[-1])
    tally.note("a refusal makes no files", not os.path.exists(f"{room}/none"))


def is_well_formed(tally, room, deb, program):
    """What lintian says, and whether both hold the program as it was given."""
    _, said, _ = ran(["lintian", "--allow-root", "--tag-display-limit", "0", deb])
    tally.note("lintian finds no error", not re.search("^E:", said, re.M), said or "nothing")
    subprocess.run(["dpkg-deb", "-x", deb, f"{room}/files"], check=True)
    [archive] = Path(deb).parent.glob("*.tar.gz")
    subprocess.run(["tar", "-xf", archive, "-C", room], check=True)
    unpacked = f"{room}/{archive.name.removesuffix('.tar.gz')}"
    for what, path in [("package", f"{room}/files/usr/bin/eggnet"), ("archive", f"{unpacked}/eggnet")]:
        tally.note(f"the {what} holds the program byte for byte", filecmp.cmp(program, path, shallow=False))
    script = ran([f"{unpacked}/eggnet", "replay", f"{unpacked}/examples/users.egg"])[1]
    tally.note("the archive's program plays its example", script == Path(unpacked, "examples/users.out").read_text())
    listed = ran(["tar", "-tvf", archive])[1] + ran(["dpkg-deb", "-c", deb])[1]
    owners = {line.split()[1] for line in listed.splitlines()}
    tally.note("all files belong to root", owners == {"root/root"}, owners)


def plain(text):
    """Returns a text with one space between words, and the signs of print as they are typed."""
    return " ".join(text.replace("\u2010", "-").replace("\u2019", "'").split())


def are_pages_whole(tally, room):
    """The man pages render without a warning, and hold each code of the pages that they are made of."""
    for name, number in [("eggnet", 1), ("eggnet.conf", 5)]:
        page = f"{room}/files/usr/share/man/man{number}/{name}.{number}.gz"
        said = ran(["man", "--warnings", "-E", "UTF-8", "-l", "-Tutf8", "-Z", page])[2]
        text = subprocess.run(["zcat", page], capture_output=True, check=True).stdout
        groff = ["groff", "-man", "-ww", "-t", "-Tutf8"]
        said += subprocess.run(groff, input=text, capture_output=True, check=False).stderr.decode()
        tally.note(f"{name}({number}) renders without a warning", not said, said)
        shown = plain(ran(["man", "-E", "UTF-8", "-l", page], env={**os.environ, "MANWIDTH": "1000"})[1])
        operating = manual.operating_of(lambda name: (TOP / name).read_text())
        chosen = [operating[it] for it in (manual.SECTIONS if number == 1 else ["A configuration", "Its procs"])]
        codes = {plain(code) for text in chosen for code in re.findall(r"`([^`\n]+)`", text)}
        lacking = sorted(it for it in codes if it not in shown)
        tally.note(f"{name}({number}) has each code of its sections", codes and not lacking, f"{len(codes)}, not {lacking}")


def offers(room, *words):
    """What bash's completion offers after these words."""
    script = f"""source {room}/files/usr/share/bash-completion/completions/eggnet
COMP_WORDS=({' '.join(shlex.quote(it) for it in words)}); COMP_CWORD={len(words) - 1}
_eggnet; printf '%s\\n' "${{COMPREPLY[@]}}" """
    return ran(["bash", "-c", script], cwd=room)[1].split()


def completes(tally, room, program):
    commands, words = list(manual.commands_of(program)), manual.words_of_tell(manual.operating_of(lambda name: (TOP / name).read_text()))
    first = {*offers(room, "eggnet", "")}
    tally.note("completion offers each command", first == {*commands, "--help", "--version"}, len(commands))
    said = offers(room, "eggnet", "tell", "x", "")
    tally.note("completion offers each word of tell", said == words and "die" in words, len(words))
    tally.note("completion completes a word of tell", offers(room, "eggnet", "tell", "x", "addh") == ["addhost"])
    both = [offers(room, "eggnet", it, "fi") for it in ("run", "tell")]
    tally.note("completion offers files and folders", all("files" in it for it in both), both)


class Debian:
    """A fresh Debian in a folder."""

    def __init__(self, room, kept):
        self.root = f"{room}/root"
        if kept:
            subprocess.run(["cp", "-aT", kept, self.root], check=True)
        else:
            subprocess.run(["debootstrap", "--variant=minbase", "--include=systemd,logrotate", "bookworm", self.root],
                           stdout=subprocess.DEVNULL, check=True)

    def path(self, name):
        return Path(self.root, name.lstrip("/"))

    def runs(self, *words, user="root:root"):
        """A command's status, standard output and standard error in this Debian."""
        environment = {"PATH": "/usr/sbin:/usr/bin:/sbin:/bin", "LC_ALL": "C.UTF-8"}
        return ran(["chroot", f"--userspec={user}", self.root, *words], env=environment)

    def files(self):
        """Returns what it has, but for what others keep for themselves."""
        found = ran(["find", self.root, "-mindepth", "1", "-printf", "%P\\n"])[1].splitlines()
        return {it for it in found if not OF_OTHERS.match(it)}

    def has_user(self):
        return self.runs("getent", "passwd", "eggnet")[0] == 0

    def install(self, deb):
        subprocess.run(["cp", deb, self.path("tmp/eggnet.deb")], check=True)
        return self.runs("dpkg", "--install", "/tmp/eggnet.deb")


def is_installed(tally, debian, deb):
    status, _, said = debian.install(deb)
    tally.note("dpkg installs it without a word on standard error", status == 0 and not said, said)
    tally.note("the user eggnet is a system's user without a shell", re.fullmatch(
        r"eggnet:x:\d{3}:\d{3}:[^:]*:/var/lib/eggnet:/usr/sbin/nologin\n", debian.runs("getent", "passwd", "eggnet")[1]))
    mode = debian.runs("stat", "-c", "%a %U %G", "/etc/eggnet")[1]
    tally.note("root writes /etc/eggnet, and eggnet alone reads it", mode == "750 root eggnet\n", mode)
    tally.note("dpkg finds the files as they were packed", debian.runs("dpkg", "--verify", "eggnet") == (0, "", ""))
    tally.note("a second installation changes nothing", debian.install(deb)[0] == 0 and debian.has_user())
    checked = debian.runs("eggnet", "check", "/usr/share/doc/eggnet/examples/egg.conf", user="eggnet:eggnet")
    tally.note("eggnet checks the example configuration there", checked == (0, "", ""), checked)


class Unit:
    """The service of a bot, whose commands are run as its user, where it may write its state's folder alone."""

    def __init__(self, debian):
        self.debian = debian
        text = debian.path("lib/systemd/system/eggnet@.service").read_text()
        self.said = dict(re.findall(r"^(\w+)=(.*)$", text.replace("%i", "egg"), re.M))
        self.user = f"{self.said['User']}:{self.said['Group']}"

    def make_folders(self):
        """Makes the folders that StateDirectory and LogsDirectory name, as systemd does."""
        folder, logs = f"/var/lib/{self.said['StateDirectory']}", f"/var/log/{self.said['LogsDirectory']}"
        self.debian.runs("install", "-d", "-m", "0755", os.path.dirname(folder))
        made = [(folder, self.said["StateDirectoryMode"]), (logs, self.said["LogsDirectoryMode"])]
        return [self.debian.runs("install", "-d", "-m", mode, "-o", self.said["User"], "-g", self.said["Group"], it)[0]
                for it, mode in made] == [0, 0]

    def words(self, name):
        """The words that run a command of the unit."""
        root = self.debian.root
        state, logs = f"{root}/var/lib/{self.said['StateDirectory']}", f"{root}/var/log/{self.said['LogsDirectory']}"
        script = f"mount --bind {root} {root} && mount --bind {state} {state} && mount --bind {logs} {logs} && " \
                 f"mount -o remount,bind,ro {root} && " \
                 f"umask {self.said['UMask']} && exec chroot {root} setpriv --reuid={self.said['User']} " \
                 f"--regid={self.said['Group']} --clear-groups --no-new-privs --bounding-set=-all "
        return ["unshare", "--mount", "sh", "-c", script + self.said[name].lstrip("-")]

    def start(self, tracer=()):
        with open(self.debian.path("tmp/log"), "wb") as log:
            words = [*tracer, *self.words("ExecStart")]
            self.process = subprocess.Popen(words, stdin=subprocess.DEVNULL, stdout=log, stderr=log)
        return bool(comes(lambda: " on #egg" in self.logged()))

    def logged(self):
        return "".join(it.read_text() for it in (self.debian.path("tmp/log"), self.debian.path(LOG)) if it.exists())

    def stop(self):
        """Runs ExecStop, and returns its status and the bot's."""
        status = ran(self.words("ExecStop"))[0]
        try:
            return status, self.process.wait(10)
        except subprocess.TimeoutExpired:
            self.process.kill()
            return status, self.process.wait()


def allowed_calls():
    """Returns the system calls that the unit's SystemCallFilter allows, with the sets that its set names."""
    found, left = set(), ["@system-service", "@default"]
    while left:
        listed = ran(["systemd-analyze", "syscall-filter", left.pop()])[1].split("\n")[1:]
        names = [it.strip() for it in listed if it.strip() and not it.strip().startswith("#")]
        left += [it for it in names if it.startswith("@")]
        found |= {it for it in names if not it.startswith("@")}
    return found


def configure(debian, server):
    """Writes the example configuration with this server, as an administrator does, and returns it."""
    example = debian.path("usr/share/doc/eggnet/examples/egg.conf").read_text()
    text = re.sub(r"^server .*\n(server .*\n)*", f"server 127.0.0.1 {server.port}\n", example, flags=re.M)
    debian.path(CONFIGURATION).write_text(text)
    debian.path(CONFIGURATION).chmod(0o640)
    debian.runs("chown", "root:eggnet", f"/{CONFIGURATION}")
    return text


def makes_allowed_calls(tally, debian, unit):
    """Traces a run of the bot, and looks for a system call that the unit's filters would end."""
    trace = debian.path("tmp/trace")
    is_there = unit.start(["strace", "-f", "-o", trace])
    tally.note("traced, the bot is on its channel, and ends", is_there and unit.stop() == (0, 0))
    lines = trace.read_text().split('execve("/usr/bin/eggnet"')[-1].splitlines()[1:]
    calls = {found.group(1) for found in (re.match(r"\d+ +(\w+)\(", it) for it in lines) if found}
    refused = sorted(calls - allowed_calls())
    tally.note("each of its system calls passes SystemCallFilter", calls and not refused, f"{len(calls)}, not {refused}")
    families = {it for line in lines for it in re.findall(r" socket\((AF_\w+)", line)}
    allowed = {*unit.said["RestrictAddressFamilies"].split()}
    tally.note("each socket passes RestrictAddressFamilies", families and families <= allowed, families)
    both = [it for it in lines if "PROT_WRITE" in it and "PROT_EXEC" in it]
    tally.note("no memory is written and run, as MemoryDenyWriteExecute wants", not both, both)


def reloads(tally, debian, unit, text):
    """ExecReload takes a changed file and refuses a faulty one, and the rule for logrotate renames the log."""
    logs = f"{text}log file /{LOG}\n"
    debian.path(CONFIGURATION).write_text(logs)
    tally.note("with a line log file, the bot is on its channel", unit.start(), unit.logged().splitlines()[-1:])
    mode = debian.runs("stat", "-c", "%a %U", f"/{LOG}")[1]
    tally.note("the log has mode 600", mode == "600 eggnet\n", mode)
    debian.path(CONFIGURATION).write_text(f"{logs}channel #added\n")
    taken = ran(unit.words("ExecReload"))
    tally.note("ExecReload: it joins a channel that was added", taken[0] == 0 and comes(lambda: " on #added" in unit.logged()), taken)
    debian.path(CONFIGURATION).write_text(f"{logs}chanel #added\n")
    refused = ran(unit.words("ExecReload"))
    tell = ("eggnet", "tell", f"/{FOLDER}", "status")
    tally.note("ExecReload: a faulty file is refused, and the bot stays on its channels", refused[0] == 1
               and "channel #added on" in debian.runs(*tell, user=unit.user)[1], refused)
    rotated = debian.runs("logrotate", "--force", "--state", "/tmp/rotated", "/etc/logrotate.d/eggnet")
    tally.note("logrotate renames the log without a word", rotated == (0, "", "") and debian.path(f"{LOG}.1").exists(), rotated)
    is_new = comes(lambda: debian.path(LOG).exists() and debian.path(LOG).stat().st_size)
    tally.note("and the bot goes on in a new one", is_new and unit.stop() == (0, 0)
               and debian.path(LOG).read_text().rstrip().endswith(" ended"))


def runs_as_a_service(tally, debian, server):
    unit = Unit(debian)
    tally.note("the service's folders can be made", unit.make_folders())
    text = configure(debian, server)
    before = debian.files()
    if not tally.note("ExecStart: the bot is on its channel", unit.start(), unit.logged().splitlines()[-1:]):
        return
    tell = ("eggnet", "tell", "/var/lib/eggnet/egg")
    told = debian.runs(*tell, "adduser", "me", user=unit.user)
    tally.note("its user can tell it a change", told == (0, "accepted 1\n", ""), told)
    tally.note("root can too", debian.runs(*tell, "show")[0] == 0)
    check = ("eggnet", "check", f"/{CONFIGURATION}")
    tally.note("its user can check its configuration", debian.runs(*check, user=unit.user) == (0, "", ""))
    for what, words in [("tell it anything", (*tell, "show")), ("read its configuration", check)]:
        tally.note(f"nobody else can {what}", debian.runs(*words, user="nobody:nogroup")[0] != 0)
    stopped = unit.stop()
    tally.note("ExecStop: the bot ends with status 0", stopped == (0, 0), stopped)
    tally.note("it sent a QUIT, since its log ends so", unit.logged().rstrip().endswith(" ended"))
    wrote = sorted(it for it in debian.files() - before if not it.startswith(FOLDER))
    tally.note("nothing was written but in its folder, where all else is read-only", not wrote, wrote)
    tally.note("its folder has mode 700", debian.runs("stat", "-c", "%a %U", f"/{FOLDER}")[1] == "700 eggnet\n")
    makes_allowed_calls(tally, debian, unit)
    tally.note("started again it has its records", unit.start() and "user me" in debian.runs(*tell, "show")[1])
    os.kill(unit.process.pid, signal.SIGTERM)
    tally.note("SIGTERM ends it", unit.process.wait() == -signal.SIGTERM)
    reloads(tally, debian, unit, text)
    debian.path(CONFIGURATION).write_text(text.replace("nick ", "nickname "))
    faulty = ran(unit.words("ExecStart"))
    tally.note("a faulty configuration: status 1, which the unit does not start again", faulty[0] == 1
               and "1" in unit.said["RestartPreventExitStatus"].split(), faulty)


# Runs under systemd. Each line that it prints is a step's name and what came of the step.
STEPS = """#!/bin/sh
tell="eggnet tell /var/lib/eggnet/egg"
state() { echo "$1: $(systemctl show -p ActiveState -p NRestarts -p Result --value $2 | sort | tr '\\n' ' ')"; }
exec >/steps.out 2>&1
systemctl enable --quiet --now eggnet@egg; sleep 4
state started eggnet@egg
echo "told: $($tell adduser me)"
echo "logs: $(stat -c '%a %U' /var/log/eggnet)"
systemctl reload eggnet@egg 2>/dev/null; echo "reloaded: $?"
cp -p /etc/eggnet/egg.conf /etc/eggnet/kept; echo "chanel #egg" >>/etc/eggnet/egg.conf
systemctl reload eggnet@egg 2>/dev/null; echo "not_reloaded: $?"
mv /etc/eggnet/kept /etc/eggnet/egg.conf
systemctl kill -s KILL eggnet@egg; sleep 13
state killed eggnet@egg
echo "records: $($tell show | grep -c 'user me')"
$tell die >/dev/null; sleep 13
state told_to_end eggnet@egg
systemctl start eggnet@faulty; sleep 13
state faulty eggnet@faulty
systemctl start eggnet@egg; sleep 4
echo "removed: $(dpkg --remove eggnet >/dev/null 2>&1; echo $?)"
echo "log: $(journalctl -u eggnet@egg --no-pager -o cat | grep -c ' ended$')"
kill -s 38 1
"""
STEPS_UNIT = "[Service]\nType=oneshot\nTimeoutStartSec=200\nExecStart=/steps\n[Install]\nWantedBy=multi-user.target\n"
# What each step says if it is well. NRestarts stands first; systemd counts on from the kill to the command to end.
STEPS_WELL = {"started": "0 active success", "told": "accepted 1", "logs": "750 eggnet", "reloaded": "0",
              "not_reloaded": "1", "killed": "1 active success", "records": "1",
              "told_to_end": "1 inactive success", "faulty": "0 exit-code failed", "removed": "0", "log": "2"}


def is_run_by_systemd(tally, debian, deb, server):
    """The fresh Debian's systemd starts the service, and again if the bot was killed, but not if it was told to end."""
    if not shutil.which("systemd-nspawn"):
        tally.say("no systemd-nspawn here, so systemd itself does not run the service")
        return
    debian.install(deb)
    configure(debian, server)
    debian.path("etc/eggnet/faulty.conf").write_text("nickname egg\n")
    debian.runs("chown", "root:eggnet", "/etc/eggnet/faulty.conf")
    debian.path("steps").write_text(STEPS)
    debian.path("steps").chmod(0o755)
    debian.path("etc/systemd/system/steps.service").write_text(STEPS_UNIT)
    debian.runs("systemctl", "enable", "steps.service")
    words = ["systemd-nspawn", "-D", debian.root, "--register=no", "--keep-unit", "--machine=eggnettrial", "--boot"]
    none = subprocess.DEVNULL
    with subprocess.Popen([*words, "--console=pipe"], stdin=none, stdout=none, stderr=none) as process:
        try:
            process.wait(180)
        except subprocess.TimeoutExpired:
            process.terminate()
    said = dict(re.findall(r"^(\w+): (.*?) *$", debian.path("steps.out").read_text(), re.M))
    for step, expected in STEPS_WELL.items():
        tally.note(f"under systemd, {step.replace('_', ' ')}: {expected}", said.get(step) == expected, said.get(step))


def is_analysed(tally, room):
    """What systemd itself says of the unit, without running it."""
    unit = f"{room}/eggnet@egg.service"
    text = Path(room, "files/lib/systemd/system/eggnet@.service").read_text()
    Path(unit).write_text(text.replace("/usr/bin/eggnet", f"{room}/files/usr/bin/eggnet"))
    status, _, said = ran(["systemd-analyze", "verify", "--man=no", unit])
    said = "\n".join(it for it in said.splitlines() if "eggnet" in it)
    tally.note("systemd-analyze finds nothing in the unit", status == 0 and not said, said)
    said = ran(["systemd-analyze", "security", "--offline=true", unit])[1]
    exposure = re.search(r"exposure level[^\n]*: ([\d.]+) (\w+)", said)
    level, word = exposure.groups() if exposure else ("", "")
    tally.note("systemd-analyze calls its exposure OK", word == "OK", level)


def is_purged(tally, debian, deb, before):
    debian.runs("systemctl", "enable", "eggnet@egg")
    status, _, said = debian.runs("dpkg", "--purge", "eggnet")
    left = sorted(it for it in debian.files() - before if not it.startswith("var/lib/eggnet"))
    are_kept = debian.path(f"{FOLDER}/journal/first").exists()
    tally.note("purged, it leaves only its records", status == 0 and not left and are_kept, f"{left} {said}")
    tally.note("its logs are gone too", not debian.path("var/log/eggnet").exists())
    tally.note("the user stays with the records", debian.has_user())
    tally.note("it is installed over them again", debian.install(deb)[0] == 0)
    shown = debian.runs("eggnet", "show", f"/{FOLDER}", user="eggnet:eggnet")
    tally.note("and they are there", "user me" in shown[1], shown[1])
    debian.runs("rm", "-r", f"/{FOLDER}")
    status, _, said = debian.runs("dpkg", "--purge", "eggnet")
    left = sorted(debian.files() - before)
    is_gone = status == 0 and not left and not debian.has_user()
    tally.note("purged without records, it leaves nothing", is_gone, f"{left} {said}")


def main(words):
    folders = [it for it in words if os.path.isdir(it)]
    program, tally = program_of([it for it in words if it not in folders]), Tally()
    with tempfile.TemporaryDirectory(prefix="package-") as room:
        os.chmod(room, 0o755)
        [deb] = Path(is_made_again(tally, room, program)).glob("*.deb")
        knows_what_was_proved(tally, room, program)
        are_refused(tally, room)
        is_well_formed(tally, room, str(deb), program)
        are_pages_whole(tally, room)
        completes(tally, room, program)
        is_analysed(tally, room)
        debian, server = Debian(room, *folders or [None]), Ours(room, program)
        before = debian.files()
        is_installed(tally, debian, str(deb))
        server.start()
        try:
            runs_as_a_service(tally, debian, server)
            is_purged(tally, debian, str(deb), before)
            is_run_by_systemd(tally, debian, str(deb), server)
        finally:
            server.stop()
    return tally.end()


if __name__ == "__main__":
    sys.exit(main(sys.argv[1:]))
