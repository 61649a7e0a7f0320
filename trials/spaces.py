"""A place in the network for each bot of a trial: a network namespace of its own, or else a loopback address."""
import ctypes
import os
import subprocess

NEW_NETWORK, NEW_MOUNTS = 0x40000000, 0x00020000  # CLONE_NEWNET and CLONE_NEWNS of unshare(2)

# What it takes: the names of namespaces are on a mount of the trial's own.
ENTER = """set -e
mount --make-rprivate /
mkdir -p /run/netns
mount -t tmpfs names /run/netns
ip link set lo up
"""
TRY = ENTER + """ip netns add one
ip link add near type veth peer name far netns one
ip netns exec one true
"""


class Namespaces:
    """A network namespace for each bot, and one in the middle, which the trial enters. Each bot's has a wire to the
    middle; no wire is between bots, and the middle forwards nothing. So a bot reaches nothing but what listens in the
    middle. All of it ends with the last process of the trial. Threads that were begun before stay outside."""

    name, middle = "network namespaces", "10.77.0.1"
    are_apart = True

    def __init__(self, count):
        library = ctypes.CDLL(None, use_errno=True)
        if library.unshare(NEW_NETWORK | NEW_MOUNTS):
            raise OSError(ctypes.get_errno(), "unshare")
        subprocess.run(["sh", "-c", ENTER], check=True)
        for place in range(count):
            self.wire(place)

    @staticmethod
    def may_be_made():
        """Whether this machine lets us, and has what it takes."""
        try:
            tried = subprocess.run(["unshare", "--net", "--mount", "sh", "-c", TRY], stdin=subprocess.DEVNULL,
                                   stdout=subprocess.DEVNULL, stderr=subprocess.DEVNULL, timeout=20, check=False)
        except (OSError, subprocess.TimeoutExpired):
            return False
        return tried.returncode == 0

    def wire(self, place):
        """Makes a bot's namespace, and its wire."""
        name, address = f"bot{place}", self.address(place)
        subprocess.run(["ip", "netns", "add", name], check=True)
        batch(["ip"], f"link add {name} type veth peer name wire netns {name}",
              f"address add {self.middle} peer {address} dev {name}", f"link set {name} up")
        batch(["ip", "-n", name], "link set lo up", f"address add {address} peer {self.middle} dev wire",
              "link set wire up")

    @staticmethod
    def address(place):
        """A bot's address."""
        return f"10.77.{1 + place // 250}.{1 + place % 250}"

    @staticmethod
    def words(place):
        """The words before a command that starts a bot's program."""
        return ["ip", "netns", "exec", f"bot{place}"]

    @staticmethod
    def plug(place, is_in):
        """Pulls a bot's wire, or puts it back. While it is out packets are lost, and connections stay."""
        subprocess.run(["ip", "link", "set", f"bot{place}", "up" if is_in else "down"], check=True)


class Loopback:
    """A loopback address for each bot and for the middle. There is no wire to pull."""

    name = "loopback addresses"
    are_apart = False

    def __init__(self):
        # (of this process, so that two trials may go on at once)
        self.block = f"127.{64 + os.getpid() % 128}"
        self.middle = f"{self.block}.0.1"

    def address(self, place):
        """A bot's address."""
        return f"{self.block}.{1 + place // 250}.{1 + place % 250}"

    @staticmethod
    def words(_place):
        """The words before a command that starts a bot's program."""
        return []


def batch(words, *lines):
    """Hands lines to ip."""
    subprocess.run([*words, "-batch", "-"], input="\n".join(lines) + "\n", text=True, check=True)


def spaces_for(count):
    """Places for so many bots. LOOPBACK in the environment asks for loopback addresses."""
    return Namespaces(count) if not os.environ.get("LOOPBACK") and Namespaces.may_be_made() else Loopback()
