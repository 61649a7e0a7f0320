"""IRC servers of Debian's packages of which only one can be installed at a time: unpacked where they aren't installed."""
import os
import pwd
import shutil
import subprocess
from pathlib import Path

from bots import Inspircd, Ngircd, Server

# As whom a server runs that refuses root. Debian has this user on each machine.
USER = "irc"
AS_USER = f"setpriv --reuid {USER} --regid {USER} --clear-groups"


def root_of(room, package, program):
    """The folder under which a package lies: that of the machine if it is installed, else one into which it is unpacked.
    None if apt can't fetch it."""
    if os.path.exists(f"/{program}"):
        return ""
    root, fetched = f"{room}/{package}", f"{room}/{package}.deb"
    if not os.path.isdir(root):
        os.makedirs(fetched, exist_ok=True)
        words = ["apt-get", "-qq", "-o", "APT::Sandbox::User=root", "download", package]
        got = subprocess.run(words, cwd=fetched, stdin=subprocess.DEVNULL, capture_output=True, check=False, timeout=120)
        files = os.listdir(fetched)
        if got.returncode or len(files) != 1:
            return None
        subprocess.run(["dpkg", "-x", f"{fetched}/{files[0]}", root], check=True)
        os.chmod(root, 0o755)
    return root


def with_mounts(mounts, words):
    """The words of a command with mounts that it alone sees. They end with it."""
    return ["unshare", "--mount", "sh", "-ec", "\n".join([*mounts, f"exec {words}"])] if mounts else ["sh", "-ec", f"exec {words}"]


def over(root, top):
    """Lays a folder of an unpacked package over that of the machine."""
    return [f"mount -t overlay overlay -o lowerdir={root}/{top}:/{top} /{top}"] if root else []


def folder_of_user(path):
    """Makes a folder in which the server's user may write."""
    os.makedirs(path, exist_ok=True)
    user = pwd.getpwnam(USER)
    os.chown(path, user.pw_uid, user.pw_gid)
    return path


class Packaged(Server):
    """A server of a package. `mark` begins the names of channels on which whoever comes first is op. A strict one lets nobody
    in whose user has a bracket, as that of a bot has whose nick has one."""

    package = program = ""
    mark, is_strict = "#", False

    def __init__(self, room, packages):
        super().__init__(room)
        self.root = root_of(packages, self.package, self.program)
        self.is_there = self.root is not None


class PackagedNgircd(Ngircd):
    """ngircd."""

    mark, is_strict = "#", True

    def __init__(self, room, packages):
        super().__init__(room)
        self.root = root_of(packages, "ngircd", "usr/sbin/ngircd")
        self.is_there = self.root is not None

    def words(self):
        return [f"{self.root}/usr/sbin/ngircd", *super().words()[1:]]


class Hybrid(Packaged):
    """ircd-hybrid, as a user that isn't root. It loads modules from a folder that its program names."""

    name, package, program, is_strict = "ircd-hybrid", "ircd-hybrid", "usr/sbin/ircd-hybrid", True

    def words(self):
        room = folder_of_user(f"{self.room}/hybrid")
        Path(f"{room}/conf").write_text(f"""
serverinfo {{ name = "irc.hybrid.test"; description = "a trial"; network_name = "Trial"; network_description = "a trial";
  hub = no; default_max_clients = 100; max_nick_length = 20; max_topic_length = 300; }};
admin {{ name = "nobody"; description = "a trial"; email = "nobody@trial.test"; }};
class {{ name = "users"; ping_time = 20 seconds; number_per_ip_local = 100; number_per_ip_global = 100; max_number = 100;
  sendq = 1 megabytes; recvq = 8000 bytes; }};
auth {{ user = "*@*"; class = "users"; flags = exceed_limit, can_flood; }};
listen {{ host = "127.0.0.1"; port = {self.port}; }};
general {{ throttle_count = 1000; disable_auth = yes; anti_nick_flood = no; pace_wait = 0 seconds;
  pace_wait_simple = 0 seconds; default_floodcount = 0; }};
channel {{ max_channels = 50; default_join_flood_count = 0; }};
log {{ use_logging = no; }};
""", encoding="utf-8")
        files = " ".join(f"-{it}file {room}/{it}" for it in ("log", "pid", "kline", "dline", "xline", "resv"))
        words = f"{AS_USER} {self.root}/{self.program} -foreground -configfile {room}/conf {files}"
        return with_mounts(over(self.root, "usr/lib"), words)


class Irc2(Packaged):
    """ircd-irc2, as a user that isn't root. It reads its configuration from a folder that its program names. Alone it takes
    itself for split from its net, and so gives op to nobody but on channels of its own, which begin with &."""

    name, package, program, mark = "ircd-irc2", "ircd-irc2", "usr/sbin/ircd", "&"

    def words(self):
        own = f"{self.room}/irc2"
        os.makedirs(f"{own}/etc/ircd", exist_ok=True)
        Path(f"{own}/etc/ircd/ircd.conf").write_text(f"""M%irc.irc2.test%127.0.0.1%a trial%{self.port}%000A
A%a trial%a trial%nobody@trial.test%%Trial
Y%1%90%%100%512000%100.100%100.100
I%*%%%0%1
P%127.0.0.1%%%{self.port}%
""", encoding="utf-8")
        Path(f"{own}/etc/ircd/ircd.m4").touch()
        mounts = [*over(own, "etc"), "mount -t tmpfs tmpfs /run", f"mkdir /run/ircd; chown {USER} /run/ircd"]
        return with_mounts(mounts, f"{AS_USER} {self.root}/{self.program} -t -s -p off")


class MappedInspircd(Inspircd):
    """inspircd with a casemapping. It takes what a bot on two channels asks for at once, such as who is there."""

    mark, is_strict = "#", False

    def __init__(self, room, mapping):
        super().__init__(room)
        self.mapping, self.name = mapping, f"inspircd, {mapping}"

    def words(self):
        words, path = super().words(), Path(f"{self.room}/inspircd.conf")
        text = path.read_text(encoding="utf-8").replace('threshold="10"', 'threshold="100"')
        path.write_text(f'{text}<options casemapping="{self.mapping}">\n', encoding="utf-8")
        return words


def is_apart():
    """Whether this machine lets the trial make mounts of its own, as Hybrid and Irc2 want it."""
    tools = all(shutil.which(it) for it in ("unshare", "setpriv", "dpkg", "apt-get"))
    return tools and os.getuid() == 0
