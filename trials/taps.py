"""Carries lines between a client and an IRC server of this machine, and keeps them."""
import re
import socket
import threading
import time

from bots import arrivals, shut


class Tap:
    """A server as clients reach it. `lines` are those that clients sent, `heard` those that the server sent, and `marked`
    both, each with whether a client sent it and the second of the monotonic clock."""

    host = "127.0.0.1"

    def __init__(self, port, password=""):
        self.there, self.password = port, password
        self.door = socket.create_server(("127.0.0.1", 0))
        self.port = self.door.getsockname()[1]
        self.marked, self.ends = [], []
        threading.Thread(target=self.let_in, daemon=True).start()

    def let_in(self):
        for client in arrivals(self.door):
            try:
                server = socket.create_connection(("127.0.0.1", self.there), 5)
                server.settimeout(None)
            except OSError:
                client.close()
                continue
            self.ends += [client, server]
            for ends in ((client, server, True), (server, client, False)):
                threading.Thread(target=self.carry, args=ends, daemon=True).start()

    def carry(self, source, sink, is_said):
        """Carries all that one side sends."""
        begun = b""
        try:
            while came := source.recv(65536):
                *whole, begun = (begun + came).split(b"\n")
                self.marked += [(is_said, time.monotonic(), it.rstrip(b"\r").decode(errors="replace")) for it in whole]
                sink.sendall(came)
        except OSError:
            pass
        shut(source, sink)

    @property
    def lines(self):
        return [line for is_said, _, line in [*self.marked] if is_said]

    @property
    def heard(self):
        return [line for is_said, _, line in [*self.marked] if not is_said]

    def said(self, pattern):
        """The lines of clients that have this pattern."""
        return [line for line in self.lines if re.search(pattern, line)]

    def stop(self):
        """Ends it, and all connections."""
        shut(self.door, *self.ends)
        self.door.close()
