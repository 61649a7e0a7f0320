"""`eggnet serve` on a port that the system chooses, for the trials by real clients."""
import subprocess
from contextlib import contextmanager
from pathlib import Path

TOP = Path(__file__).resolve().parent.parent
OURS = str(TOP / "crates/eggnet/out/eggnet")


@contextmanager
def served(program=OURS):
    """The server while it runs, and its port."""
    with subprocess.Popen([program, "serve", "0"], stdout=subprocess.PIPE, text=True) as server:
        try:
            yield server, int(server.stdout.readline())
        finally:
            server.terminate()
