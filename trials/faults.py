"""Faults of a bot's disks: a library that is loaded before the C library has one call fail, or the power go at it.

The call is one by which a program opens, reads, writes, syncs, makes or renames files of a bot's folder. There are four ways:

 fails   the call answers EIO, ENOSPC or EDQUOT; a write may have put a part, and a sync may have lost what it was to keep
 short   a write puts a part, and says so; the next call fails
 kill    the program is ended by SIGKILL before the call, or after it
 power   the same, and of each file that was not synced some sectors are the old ones, and its length may be the old one;
         of the names that were made or changed since their folder was synced, the last ones may be gone

A sector is 512 bytes of a file. The file `room` has no faults: it holds no record, and a bot that can't fill it goes on.
"""
import errno
import mmap
import random
import struct
from pathlib import Path

import preload

SHIM = r"""
#define _GNU_SOURCE
#include <dlfcn.h>
#include <errno.h>
#include <fcntl.h>
#include <signal.h>
#include <stdarg.h>
#include <stdio.h>
#include <stdlib.h>
#include <string.h>
#include <sys/mman.h>
#include <sys/stat.h>
#include <sys/types.h>
#include <unistd.h>

#define FILES 256
#define NAMES 32
#define PATH 256
#define SECTOR 512
#define REAL(name) ((__typeof__(&name))dlsym(RTLD_NEXT, #name))

/* What the trial reads: how many calls there were, and which one had the fault. */
static struct { long calls; char name[24]; } *seen;
/* Of each file of the folder: whether it is open, and its bytes as they were synced last, if it was written since. */
static struct { int is_open, is_dirty; char *synced, path[PATH]; off_t size; } files[FILES];
/* The names that were made, or given to what had another, since their folder was synced. */
static struct { char from[PATH], to[PATH]; } names[NAMES];
static int named;
static const char *folder, *how;
static long place;
static int code, is_short;

static const char *said(const char *name) { const char *it = getenv(name); return it ? it : ""; }

__attribute__((constructor)) static void begin(void) {
    int file = openat(AT_FDCWD, said("FAULT_SEEN"), O_RDWR | O_CLOEXEC);
    seen = mmap(0, sizeof *seen, PROT_READ | PROT_WRITE, MAP_SHARED, file, 0);
    close(file);
    folder = said("FAULT_FOLDER");
    how = said("FAULT_HOW");
    place = atol(said("FAULT_AT"));
    code = atoi(said("FAULT_CODE"));
    srandom(atoi(said("FAULT_SEED")));
}

static int is_how(const char *way) { return !strcmp(how, way); }
static int is_room(const char *path) { const char *end = strrchr(path, '/'); return end && !strcmp(end, "/room"); }
static int is_in(const char *path) { return !strncmp(path, folder, strlen(folder)) && !is_room(path); }
static int is_file(int file) { return file >= 0 && file < FILES && files[file].is_open; }

static off_t size_of(int file) {
    struct stat it;
    return fstat(file, &it) ? 0 : it.st_size;
}

/* Keeps the bytes of a file, which is about to be written. */
static void soil(int file) {
    if (files[file].is_dirty) return;
    files[file].size = size_of(file);
    files[file].synced = realloc(files[file].synced, files[file].size + 1);
    REAL(pread)(file, files[file].synced, files[file].size, 0);
    files[file].is_dirty = 1;
}

/* Of what a file was written since it was synced, some sectors are as they were. */
static void lose(int file) {
    static const char zeros[SECTOR];
    off_t old = files[file].size, now = size_of(file);
    if (!files[file].is_dirty) return;
    for (off_t at = 0; at < now; at += SECTOR) {
        long most = now - at < SECTOR ? now - at : SECTOR, kept = at < old ? (old - at < most ? old - at : most) : 0;
        if (random() % 2) continue;
        REAL(pwrite)(file, files[file].synced + at, kept, at);
        REAL(pwrite)(file, zeros, most - kept, at + kept);
    }
    if (random() % 2) REAL(ftruncate)(file, old);
}

/* Notes a new name, of what had another before, or was not there. */
static void name(const char *from, const char *to) {
    if (named == NAMES || !strcmp(to, folder)) return;
    strncpy(names[named].from, from, PATH - 1);
    strncpy(names[named++].to, to, PATH - 1);
}

/* A folder is synced: its names stay. */
static void keep_names(const char *path) {
    int kept = 0;
    for (int it = 0; it < named; it++)
        if (strncmp(names[it].to, path, strlen(path)) || strrchr(names[it].to, '/') != names[it].to + strlen(path))
            names[kept++] = names[it];
    named = kept;
}

static void end(void) {
    if (is_how("power")) {
        for (int file = 0; file < FILES; file++)
            if (files[file].is_open) lose(file);
        while (named-- && random() % 2)
            if (*names[named].from) REAL(rename)(names[named].to, names[named].from);
            else remove(names[named].to);
    }
    kill(getpid(), SIGKILL);
}

/* Counts a call. Whether it is to fail. */
static int is_meant(const char *name) {
    if (is_short || ++seen->calls != place) return is_short;
    strcpy(seen->name, name);
    if (is_how("short") && !strcmp(name, "pwrite")) return is_short = 1;
    if (is_how("fails") || is_how("short")) return 1;
    if (random() % 2) end();
    return 0;
}

/* What a call answers. The program ends after it where it is to. */
static long done(long answer) {
    if (seen->calls == place && (is_how("kill") || is_how("power"))) end();
    return answer;
}

static long failed(void) { errno = code; return -1; }

int open(const char *path, int flags, ...) {
    va_list rest;
    va_start(rest, flags);
    mode_t mode = va_arg(rest, mode_t);
    va_end(rest);
    if (!is_in(path)) return REAL(open)(path, flags, mode);
    if (is_meant("open")) return failed();
    int is_new = access(path, F_OK), file = REAL(open)(path, flags, mode);
    if (file < 0 || file >= FILES) return done(file);
    files[file].is_open = 1;
    strncpy(files[file].path, path, PATH - 1);
    if (is_new) name("", path);
    return done(file);
}

int close(int file) {
    if (is_file(file)) files[file].is_open = files[file].is_dirty = 0;
    return REAL(close)(file);
}

static ssize_t put(int file, const void *from, size_t count, off_t at, int is_at) {
    return is_at ? REAL(pwrite)(file, from, count, at) : REAL(write)(file, from, count);
}

static ssize_t written(int file, const void *from, size_t count, off_t at, int is_at) {
    int was_short = is_short;
    soil(file);
    if (!is_meant("pwrite")) return done(put(file, from, count, at, is_at));
    size_t part = random() % (count + 1);
    if (was_short) return failed();
    put(file, from, part, at, is_at);
    return is_short && part ? (ssize_t)part : failed();
}

ssize_t pwrite(int file, const void *from, size_t count, off_t at) {
    return is_file(file) ? written(file, from, count, at, 1) : REAL(pwrite)(file, from, count, at);
}

ssize_t write(int file, const void *from, size_t count) {
    return is_file(file) ? written(file, from, count, 0, 0) : REAL(write)(file, from, count);
}

ssize_t pread(int file, void *to, size_t count, off_t at) {
    if (!is_file(file)) return REAL(pread)(file, to, count, at);
    return is_meant("pread") ? failed() : done(REAL(pread)(file, to, count, at));
}

static int synced(int file, const char *name, int (*real)(int)) {
    if (!is_file(file)) return real(file);
    if (is_meant(name)) { lose(file); return failed(); }
    int answer = real(file);
    if (!answer) files[file].is_dirty = 0;
    if (!answer) keep_names(files[file].path);
    return done(answer);
}

int fsync(int file) { return synced(file, "fsync", REAL(fsync)); }
int fdatasync(int file) { return synced(file, "fdatasync", REAL(fdatasync)); }

int ftruncate(int file, off_t size) {
    if (!is_file(file)) return REAL(ftruncate)(file, size);
    soil(file);
    return is_meant("ftruncate") ? failed() : done(REAL(ftruncate)(file, size));
}

int mkdir(const char *path, mode_t mode) {
    if (!is_in(path)) return REAL(mkdir)(path, mode);
    if (is_meant("mkdir")) return failed();
    int answer = REAL(mkdir)(path, mode);
    if (!answer) name("", path);
    return done(answer);
}

int rename(const char *from, const char *to) {
    if (!is_in(to)) return REAL(rename)(from, to);
    if (is_meant("rename")) return failed();
    int is_new = access(to, F_OK), answer = REAL(rename)(from, to);
    if (!answer && is_new) name(from, to);
    return done(answer);
}
"""
CODES = [errno.EIO, errno.ENOSPC, errno.EDQUOT]
WAYS = ["fails", "fails", "short", "kill", "power", "power"]


class Faults:
    """Draws faults for one program after another."""

    def __init__(self, room):
        self.library, self.file, self.way, self.place = preload.made(room, "faults", SHIM), f"{room}/seen", None, 0
        # (of its own, so that one seed draws the same faults, however long the rounds take)
        self.random = random.Random(random.random())
        Path(self.file).write_bytes(bytes(32))
        with open(self.file, "r+b") as file:
            self.seen = mmap.mmap(file.fileno(), 32)

    def draw(self, folder, calls):
        """Draws a fault among the first so many calls. The environment of the program to which it is to come."""
        self.way, self.place = self.random.choice(WAYS), self.random.randint(1, calls)
        self.seen[:] = bytes(32)
        return {"FAULT_SEEN": self.file, "FAULT_FOLDER": folder, "FAULT_HOW": self.way, "FAULT_AT": str(self.place),
                "FAULT_CODE": str(self.random.choice(CODES)), "FAULT_SEED": str(self.random.randrange(1 << 30)),
                "LD_PRELOAD": self.library}

    def call(self):
        """The call at which the fault came; empty where it has not come."""
        return struct.unpack("q24s", self.seen[:])[1].rstrip(b"\0").decode()

    def calls(self):
        """How many calls there were."""
        return struct.unpack("q24s", self.seen[:])[0]
