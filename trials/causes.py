#!/usr/bin/env python3
"""What `eggnet run` and `eggnet show` say of a bot's folder and its secret: a line for each cause.

    trials/causes.py [PROGRAM]      part of trials/bot; alone it ends within a minute

FIFOs, folders and devices with the names of files, locks that are held for a moment or longer, and the errors of the
system, which a library that is loaded before the C library gives for one path (that needs cc). Root also mounts small
file systems of its own.
"""
import errno
import fcntl
import os
import resource
import shutil
import subprocess
import sys
import tempfile
import threading
import time
from pathlib import Path

sys.dont_write_bytecode = True
import preload
from bots import Bot, Ours, Tally, end_all, program_of, ran

FAILS = r"""
#define _GNU_SOURCE
#include <dlfcn.h>
#include <errno.h>
#include <fcntl.h>
#include <stdarg.h>
#include <stdlib.h>
#include <string.h>
#include <unistd.h>

static int failing = -1;

static int number_of(const char *name) {
    const char *said = getenv(name);
    return said ? atoi(said) : 0;
}

static int is_meant(const char *path) {
    const char *end = getenv("FAILING");
    size_t all = strlen(path), last = end ? strlen(end) : 0;
    return end && last <= all && !strcmp(path + all - last, end);
}

int open(const char *path, int flags, ...) {
    static int (*real)(const char *, int, mode_t);
    va_list rest;
    va_start(rest, flags);
    mode_t mode = va_arg(rest, mode_t);
    va_end(rest);
    if (!real) real = (int (*)(const char *, int, mode_t))dlsym(RTLD_NEXT, "open");
    if (is_meant(path) && number_of("OPEN_ERROR")) { errno = number_of("OPEN_ERROR"); return -1; }
    int made = real(path, flags, mode);
    if (is_meant(path)) failing = made;
    return made;
}

ssize_t pread(int file, void *bytes, size_t count, off_t at) {
    static ssize_t (*real)(int, void *, size_t, off_t);
    if (!real) real = (ssize_t (*)(int, void *, size_t, off_t))dlsym(RTLD_NEXT, "pread");
    if (file == failing && number_of("READ_ERROR")) { errno = number_of("READ_ERROR"); return -1; }
    size_t most = file == failing ? number_of("READ_MOST") : 0;
    return real(file, bytes, most && most < count ? most : count, at);
}
"""
SECRET = b"0123456789abcdef0123456789abcdef"
# What the system may say, and what is said of it then.
FOLDERS = [
    (errno.EIO, "lies on a disk that fails"),
    (errno.EMFILE, "can't be opened: this process has too many open files"),
    (errno.ENFILE, "can't be opened: this machine has too many open files"),
    (errno.ENOSPC, "lies on a full file system"),
    (errno.EDQUOT, "lies on a full file system"),
    (errno.EROFS, "lies on a read-only file system"),
    (errno.EACCES, "can't be used: give a folder that this user may read and write"),
    (errno.ELOOP, "can't be used: look up the system's error 40"),
]
SECRETS = [
    (errno.EIO, 3, "lies on a disk that fails"),
    (errno.EMFILE, 3, "can't be read: this process has too many open files"),
    (errno.ENFILE, 3, "can't be read: this machine has too many open files"),
    (errno.ENOMEM, 3, "can't be read: this machine is out of memory"),
    (errno.EACCES, 1, "can't be read: give a file that this user may read"),
]


class Trial:
    """A bot that was made once and is stopped, in a folder of its own: one without others, or a hub."""

    def __init__(self, tally, program, room, name, lines=()):
        self.tally, self.room = tally, room
        self.bot = Bot(program, room, name, [Ours(room, program)], lines)
        self.journal = [f"{self.bot.folder}/journal/{it}" for it in ("first", "second")]
        self.starts(f"{name}: it is made")

    def words(self, word):
        return [self.bot.program, word, self.bot.config if word == "run" else self.bot.folder]

    def says(self, what, status, text, word="run", **how):
        """A run that ends with this status within ten seconds, and says this of the folder."""
        began = time.monotonic()
        try:
            seen = ran_for(10, self.words(word), **how)
        except subprocess.TimeoutExpired:
            self.tally.note(what, False, "it hangs")
            return
        took = time.monotonic() - began
        said = f"eggnet: {text if text.startswith('/') else f'{self.bot.folder} {text}'}"
        self.tally.note(what, seen[0] == status and seen[1].startswith(said), f"{seen[1]}status {seen[0]}, {took:.1f} s")

    def starts(self, what):
        is_up = self.bot.start()
        self.tally.note(what, is_up, "" if is_up else self.bot.logged()[-300:])
        self.bot.end()


def ran_for(seconds, words, **how):
    """A program's status and standard error."""
    done = subprocess.run(words, stdin=subprocess.DEVNULL, stdout=subprocess.DEVNULL, stderr=subprocess.PIPE,
                          timeout=seconds, check=False, **how)
    return done.returncode, done.stderr.decode(errors="replace")


def put(path, kind):
    """Puts a folder, a FIFO, a device or nothing at a path."""
    if kind == "folder":
        os.mkdir(path, 0o700)
    elif kind == "FIFO":
        os.mkfifo(path, 0o600)
    elif kind == "device":
        os.symlink("/dev/zero", path)


def take_away(path):
    if os.path.isdir(path) and not os.path.islink(path):
        os.rmdir(path)
    else:
        os.remove(path)


def irregular(trial):
    """Something else than a regular file under each name."""
    folder = trial.bot.folder
    for name in ("journal/first", "journal/second", "lock", "net"):
        path = f"{folder}/{name}"
        os.rename(path, f"{trial.room}/kept")
        for kind in ("folder", "FIFO", "device"):
            put(path, kind)
            said = f"holds {name}, which is not a regular file"
            trial.says(f"run: a {kind} as {name}", 3, said)
            if name.startswith("journal"):
                trial.says(f"show: a {kind} as {name}", 3, said, "show")
            take_away(path)
        os.rename(f"{trial.room}/kept", path)
    put(f"{folder}/control", "folder")
    trial.says("run: a folder as control", 3, "holds control, which is not a regular file")
    take_away(f"{folder}/control")
    trial.starts("with its own files it starts")


def nets(trial):
    """Files of a net's number that hold none."""
    net = Path(f"{trial.bot.folder}/net")
    right = net.read_bytes()
    for text in (b"", right[:15], b"x" * 17):
        net.write_bytes(text)
        trial.says(f"run: a file net of {len(text)} bytes", 1, "holds a journal and not the number of its net")
    net.write_bytes(right)


def modes(trial):
    """Modes of the folder under which its owner can't use it."""
    for mode in (0o500, 0o600, 0o300):
        os.chmod(trial.bot.folder, mode)
        trial.says(f"run: a folder of mode {mode:o}", 3, "bars its own user")
    os.chmod(trial.bot.folder, 0o700)
    file = f"{trial.room}/a_file"
    Path(file).write_text("", encoding="utf-8")
    own = trial.bot.folder
    for path in (file, f"{file}/below"):
        trial.bot.move_to(path)
        trial.says(f"run: {os.path.relpath(path, trial.room)} as the folder", 3, "is not a folder")
    trial.bot.move_to(own)


def locks(trial):
    """A lock that a reader holds for a second, and one that it keeps."""
    with open(trial.journal[0], "rb") as file:
        fcntl.flock(file, fcntl.LOCK_SH)
        threading.Timer(1, fcntl.flock, (file, fcntl.LOCK_UN)).start()
        began = time.monotonic()
        trial.starts("a lock that is held for a second")
        trial.tally.note("it waited", time.monotonic() - began > 0.9)
        fcntl.flock(file, fcntl.LOCK_SH)
        trial.says("a lock that is kept", 3, "is in use: end the bot that runs on it")
    bad = 0
    for _ in range(20):
        shows = [subprocess.Popen(trial.words("show"), stdout=subprocess.DEVNULL) for _ in range(4)]
        bad += not trial.bot.start()
        trial.bot.end()
        bad += sum(it.wait() not in (0, 3) for it in shows)
    trial.tally.note("20 starts beside 4 shows each", bad == 0, f"{bad} bad")


def system_errors(trial, library, secret):
    """Errors of the system at one path, as it is opened or read."""
    for code, text in FOLDERS:
        how = {**os.environ, "LD_PRELOAD": library, "OPEN_ERROR": str(code)}
        for name in ("/journal/first", "/lock", "/net"):
            trial.says(f"run: {errno.errorcode[code]} at {name[1:]}", 3, text, env={**how, "FAILING": name})
        trial.says(f"show: {errno.errorcode[code]}", 3, text, "show", env={**how, "FAILING": "/journal/second"})
    how = {**os.environ, "LD_PRELOAD": library, "FAILING": "/journal/second", "READ_ERROR": str(errno.EIO)}
    trial.says("run: EIO as a disk is read", 3, "lies on a disk that fails", env=how)
    of_secret = f"{trial.bot.config}: the file of the line secret "
    for code, status, text in SECRETS:
        for call in ("OPEN_ERROR", "READ_ERROR"):
            how = {**os.environ, "LD_PRELOAD": library, "FAILING": secret, call: str(code)}
            trial.says(f"run: {errno.errorcode[code]} at the secret ({call})", status, of_secret + text, env=how)
    how = {**os.environ, "LD_PRELOAD": library, "FAILING": secret, "READ_MOST": "7"}
    Path(secret).write_bytes(SECRET[:15] + b"\n")
    trial.says("run: 15 bytes, in short reads", 1, of_secret + "has no secret", env=how)
    Path(secret).write_bytes(SECRET + b"\n")
    # It gets as far as the folder, so it has read a secret of enough bytes.
    os.chmod(trial.bot.folder, 0o500)
    trial.says("run: a secret in short reads", 3, "bars its own user", env=how)
    os.chmod(trial.bot.folder, 0o700)


def limits(trial):
    """Few open files, and file systems that are small or read-only."""
    def few():
        resource.setrlimit(resource.RLIMIT_NOFILE, (4, 4))

    trial.says("run: four open files", 3, "can't be opened: this process has too many open files", preexec_fn=few)
    own, small = trial.bot.folder, f"{trial.room}/few"
    os.mkdir(small)
    how = ["mount", "-t", "tmpfs", "-o", "nr_inodes=4,mode=0700", "tmpfs", small]
    if os.getuid() or ran(how)[0]:
        trial.tally.say("this user mounts no tmpfs: file systems without room are left out")
        return
    try:
        trial.bot.move_to(f"{small}/egg")
        trial.says("run: no inodes", 3, "lies on a full file system")
        shutil.rmtree(f"{small}/egg")
        ran(["mount", "-o", "remount,ro", small])
        trial.says("run: a new folder on a read-only file system", 3, "lies on a read-only file system")
    finally:
        ran(["umount", "-l", small])
        trial.bot.move_to(own)


def secrets(trial, secret):
    """Files that hold no secret, and one that was written elsewhere."""
    of_secret = f"{trial.bot.config}: the file of the line secret "
    for text, what in ((b"x" * 15 + b"\r\n", "15 bytes and CR LF"), (b"x" * 201 + b"\n", "201 bytes and LF"),
                       (b"\r\n", "CR LF alone"), (b"", "nothing")):
        Path(secret).write_bytes(text)
        trial.says(f"run: a secret of {what}", 1, of_secret + "has no secret")
    for text, what in ((SECRET + b"\r\n", "32 bytes and CR LF"), (b"x" * 200 + b"\r\nmore\r\n", "200 bytes and CR LF"),
                       (b"x" * 200 + b"\r", "200 bytes and a CR"), (b"x" * 16, "16 bytes alone")):
        Path(secret).write_bytes(text)
        trial.starts(f"a secret of {what}")
    os.remove(secret)
    for kind in ("folder", "FIFO", "device"):
        put(secret, kind)
        trial.says(f"run: a {kind} as the secret", 1, of_secret + "is not a regular file")
        take_away(secret)
    trial.says("run: no secret", 1, of_secret + "can't be read: give a file")
    Path(secret).write_bytes(SECRET + b"\n")


def zeros(trial):
    """A large file of zeros as a disk."""
    first = Path(trial.journal[0])
    right = first.read_bytes()
    first.write_bytes(b"")
    os.truncate(first, 67_108_864)
    began = time.monotonic()
    status, text = ran_for(100, trial.words("run"))
    took = time.monotonic() - began
    trial.tally.note("64 MB of zeros as a disk", status == 1 and "one that is damaged" in text, f"{text}{took:.1f} s")
    first.write_bytes(right)


def causes(tally, program, room):
    """All of these."""
    secret = f"{room}/net_secret"
    Path(secret).write_bytes(SECRET + b"\n")
    listen = Ours(room, program).port
    trial = Trial(tally, program, room, "caused", ["bot 0 of 2", f"listen 127.0.0.1 {listen}", f"secret {secret}"])
    try:
        irregular(trial)
        nets(trial)
        modes(trial)
        locks(trial)
        secrets(trial, secret)
        limits(trial)
        if shutil.which("cc"):
            system_errors(trial, preload.made(room, "failing", FAILS), secret)
        else:
            tally.say("no cc: errors of the system are left out")
        zeros(trial)
        trial.starts("after all of this it starts")
    finally:
        end_all(trial.bot)


def main():
    tally = Tally()
    with tempfile.TemporaryDirectory(prefix="causes-") as room:
        causes(tally, program_of(sys.argv[1:]), room)
    return tally.end()


if __name__ == "__main__":
    sys.exit(main())
