"""A disk in memory that stops where it is told to, for the independent models of a journal and of the link."""


class Fault(Exception):
    """A device call that failed."""


class Disk:
    """Between two syncs each written range may hold anything after a crash; the plan says what it holds."""

    def __init__(self, data=b""):
        self.seen = bytearray(data)      # what a read gives
        self.kept = bytearray(data)      # as of the last sync
        self.pending = []                # ranges written since
        self.works = None                # how many more writes and syncs work
        self.reads = None                # how many more reads work
        self.tear = "old"                # what a crash leaves of a range: "old", "new", or this byte

    def plan(self, call, tear):
        self.works, self.tear = call - 1, tear

    def call(self):
        if self.works is not None:
            if self.works == 0:
                raise Fault
            self.works -= 1

    def write(self, at, data):
        assert at <= len(self.seen)
        self.pending.append((at, data))
        self.call()
        self.seen[at:at + len(data)] = data

    def sync(self):
        self.call()
        self.kept, self.pending = bytearray(self.seen), []

    def read(self):
        if self.reads is not None:
            if self.reads == 0:
                self.reads = None
                raise Fault
            self.reads -= 1
        return bytes(self.seen)

    def crash(self):
        for at, data in self.pending:
            if self.tear != "old":
                self.kept[at:at + len(data)] = data if self.tear == "new" else bytes([self.tear]) * len(data)
        self.seen, self.pending, self.works = bytearray(self.kept), [], None
