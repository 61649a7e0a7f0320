"""An IRC server in the trial's own process, at any address of this machine: a trial chooses what it says."""
import re
import socket
import threading
import time

from bots import PATIENCE, comes, lines_of

NAME = "small.trial"


class Visitor:
    """A client of the small server, and the lines that it said, each with the second of the monotonic clock."""

    def __init__(self, server, connection):
        self.server, self.socket, self.nick, self.lines, self.is_open = server, connection, "*", [], True
        self.socket.settimeout(PATIENCE)
        threading.Thread(target=self.listen, daemon=True).start()

    def listen(self):
        for text in lines_of(self):
            self.lines.append((time.monotonic(), text))
            if not self.server.is_mute:
                self.server.answer(self, text)
        self.is_open = False

    def say(self, *lines):
        """Sends it lines. Whether they could be sent within 20 seconds."""
        try:
            self.socket.sendall("".join(f"{line}\r\n" for line in lines).encode())
            return True
        except OSError:
            return False

    def said(self, pattern):
        """The seconds at which it said a line that has this pattern."""
        return [when for when, line in [*self.lines] if re.search(pattern, line)]

    def asks(self, line, pattern, seconds=PATIENCE):
        """How many seconds it took to answer a line with one that has this pattern; none where it did not in time."""
        began, before = time.monotonic(), len(self.said(pattern))
        self.say(line)
        comes(lambda: len(self.said(pattern)) > before, seconds)
        heard = self.said(pattern)[before:]
        return heard[0] - began if heard else None


class SmallServer:
    """Welcomes whoever comes, lets everybody onto each channel, and answers each PING. If it is mute, it says nothing."""

    name, password = "the small server", ""

    def __init__(self, host="127.0.0.1", port=0):
        self.door = socket.create_server((host, port), family=socket.AF_INET6 if ":" in host else socket.AF_INET)
        self.host, self.port = host, self.door.getsockname()[1]
        self.visitors, self.is_mute = [], False
        threading.Thread(target=self.let_in, daemon=True).start()

    def let_in(self):
        while True:
            try:
                connection, _ = self.door.accept()
            except OSError:
                return
            self.visitors.append(Visitor(self, connection))

    def visitor(self, nick, seconds=PATIENCE):
        """The last client of this nick, as soon as there is one."""
        return comes(lambda: next((it for it in self.visitors[::-1] if it.nick == nick), None), seconds)

    def answer(self, visitor, line):
        """Answers a line of a client."""
        word, _, rest = line.partition(" ")
        if word == "NICK":
            visitor.nick = rest.lstrip(":")
        elif word == "USER":
            visitor.say(f":{NAME} 001 {visitor.nick} :welcome", f":{NAME} 376 {visitor.nick} :End of /MOTD command")
        elif word == "PING":
            visitor.say(f":{NAME} PONG {NAME} {rest}")
        elif word == "JOIN":
            for channel in rest.split(" ")[0].split(","):  # keys may follow
                self.join(visitor, channel)

    def join(self, visitor, channel):
        """Lets a client onto a channel."""
        nick = visitor.nick
        visitor.say(f":{nick}!{nick}@host.trial JOIN {channel}", f":{NAME} 353 {nick} = {channel} :{nick}",
                    f":{NAME} 366 {nick} {channel} :End of /NAMES list")

    def stop(self):
        """Ends it, and all connections."""
        self.door.shutdown(socket.SHUT_RDWR)
        self.door.close()
        for it in self.visitors:
            it.is_open = False
            it.socket.close()
