"""Connections to a hub that don't belong to its net, for trials/net."""
import socket
import struct
import time
from pathlib import Path

from bots import comes
from nets import SECRET
from sealed import Copy, Opener, Sealer, hello, leaf_key, leaf_line, link_keys


class Stranger:
    """A connection to the hub by a bare socket."""

    def __init__(self, net):
        self.net = net
        self.socket = socket.create_connection(net.address, 15)
        self.nonce = self.line().split()[2]

    def line(self):
        heard = b""
        while not heard.endswith(b"\n"):
            came = self.socket.recv(1)
            if not came:
                return None
            heard += came
        return heard.decode().strip()

    def says(self, leaf, secret=SECRET):
        """Says a leaf's line, of the leaf's folder without records. What the hub answers."""
        key = leaf_key(secret, leaf)
        made = number_in(self.net.bots[leaf], "made") if leaf <= self.net.leaves else "0" * 16
        line, _, shown = leaf_line(key, self.nonce, leaf, self.net.leaves, number_in(self.net.bots[0], "net"), made, Copy())
        self.socket.sendall(line.encode() + b"\n")
        answer = self.line()
        if answer and answer.startswith("hub "):
            to_leaf, to_hub = link_keys(key, shown, answer.split()[-1])
            self.opener, self.sealer = Opener(to_leaf), Sealer(to_hub)
        return answer

    def sends(self, frames):
        """Sends records that carry these bytes."""
        self.socket.sendall(self.sealer.seal(frames))

    def is_let_go(self, seconds=15):
        """Whether the hub lets it go, and after how many seconds."""
        self.socket.settimeout(seconds)
        began = time.monotonic()
        try:
            while self.socket.recv(65536):
                pass
        except socket.timeout:
            return False, seconds
        except OSError:
            pass
        return True, time.monotonic() - began

    def close(self):
        self.socket.close()


def number_in(bot, name):
    """The number in a file of a bot's folder."""
    return Path(f"{bot.folder}/{name}").read_text(encoding="utf-8").strip()


def strangers(tally, net):
    """Each is disconnected, and the net goes on."""
    hub = net.bots[0]
    last = net.leaves
    net.bots[last].kill()
    wrong_codes(tally, net)
    bad = {"a hello of another leaf": hello(last % net.leaves + 1, 0), "rubbish for a frame": b"\xff" * 40,
           "a packet that the hub says": struct.pack(">HBHII", 11, 5, last, 1, 1)}
    for what, frame in bad.items():
        it = Stranger(net)
        answer = it.says(last)
        it.sends(frame)
        gone, took = it.is_let_go()
        tally.note(what, answer is not None and answer.startswith("hub ") and gone and took < 5, f"after {took:.1f} s")
        it.close()
    first, second = Stranger(net), Stranger(net)
    first.says(last)
    answer = second.says(last)
    gone, took = first.is_let_go()
    tally.note("a second connection with the right code takes the first one's seat", bool(answer) and gone and took < 5,
               f"after {took:.1f} s")
    second.sends(hello(last, 0))
    second.socket.settimeout(10)
    tally.note("it is answered", any(second.opener.feed(second.socket.recv(65536))))
    first.close()
    second.close()
    slow_reader(tally, net, last)
    many(tally, net)
    tally.note("the last leaf starts again", net.bots[last].start())
    linked = comes(lambda: f"linked leaves {net.leaves}\n" in (hub.answers("status") or ""), 60)
    tally.note("all leaves are linked again", bool(linked), (hub.answers("status") or "") if not linked else "")


def wrong_codes(tally, net):
    it = Stranger(net)
    answer = it.says(1, b"another secret than the others")
    tally.note("a wrong code", answer is None, answer)
    it.close()
    it = Stranger(net)
    answer = it.says(net.leaves + 1)
    tally.note("a leaf that there is not", answer is None, answer)
    it.close()
    it = Stranger(net)
    it.socket.sendall(b"x" * 1000)
    gone, took = it.is_let_go()
    tally.note("a line of 1,000 bytes", gone and took < 5, f"after {took:.1f} s")
    it.close()
    it = Stranger(net)
    gone, took = it.is_let_go(20)
    tally.note("silence", gone and 8 <= took <= 14, f"after {took:.1f} s")
    it.close()


def slow_reader(tally, net, last):
    """A leaf that asks and never reads is disconnected, and the hub goes on."""
    it = Stranger(net)
    it.says(last)
    it.socket.settimeout(1)
    count, gone, slow = 0, False, 0.0
    end = time.monotonic() + 40
    while time.monotonic() < end and not gone and count < 60_000:
        try:
            it.sends(hello(last, 0) * 50)
            count += 50
        except socket.timeout:
            pass
        except OSError:
            gone = True
        if count % 1000 == 0:
            began = time.monotonic()
            net.bots[0].answers("status")
            slow = max(slow, time.monotonic() - began)
    tally.note("a leaf that says hello and never reads", slow < 5,
               f"{count} hellos, {'disconnected' if gone else 'not read any more'}; the hub answered within {slow:.2f} s")
    it.close()


def many(tally, net):
    """More connections than may wait that have shown no code: the oldest give way."""
    those, refused = [], 0
    for _ in range(150):
        try:
            those.append(socket.create_connection(net.address, 5))
        except OSError:
            refused += 1
    answer = net.bots[0].answers("status")
    time.sleep(1)
    it = Stranger(net)
    answer = it.says(net.leaves)
    tally.note("150 connections that say nothing, and then a leaf", bool(answer) and answer.startswith("hub "),
               f"{refused} refused; {answer}")
    it.close()
    for it in those:
        it.close()
