"""The book's copy: its server stops, file and log are copied, it starts. Reports wait meanwhile."""

import contextlib
import os
import subprocess
import time

from radacctd_site.core import Failed, files, machine, places

UNIT = "radacctd.service"
# While this is there, the server was stopped for a copy: the unit starts it again after a kill.
STOPPED = "/run/radacctd-copy.stopped"


@contextlib.contextmanager
def stopped():
    """Whether the server ran: then it stands still meanwhile."""
    if not machine.is_active(UNIT):
        yield False
        return
    machine.refuse_if_away()
    open(STOPPED, "w").close()
    try:
        machine.given(["systemctl", "stop", UNIT])
        yield True
    finally:
        machine.given(["systemctl", "start", UNIT])
        os.remove(STOPPED)


def copy(folder):
    """Writes the book and its log into a folder of root's. Returns for how long, in seconds, the
    server stood still, or None."""
    begun = time.monotonic()
    with stopped() as is_stopped, contextlib.ExitStack() as stack:
        opened = lambda path: stack.enter_context(files.of_user(path, places.SERVER_USER))
        found = {"book": opened(places.BOOK)}
        with contextlib.suppress(FileNotFoundError):
            found["book-wal"] = opened(f"{places.BOOK}-wal")
        before = marks(found)
        for name, file in found.items():
            clone(file, f"{folder}/{name}")
        if marks(found) != before:
            raise Failed(f"{places.BOOK} was written meanwhile, and not by {UNIT}")
    return time.monotonic() - begun if is_stopped else None


def marks(found):
    statuses = [os.fstat(it.fileno()) for it in found.values()]
    return [(it.st_size, it.st_mtime_ns) for it in statuses]


def clone(file, to):
    """Copies an open file; where the file system can, at once and without its space."""
    done = subprocess.run(["cp", "--reflink=auto", "/proc/self/fd/0", to], stdin=file,
                          stderr=subprocess.PIPE, text=True)
    if done.returncode:
        raise Failed(f"the book cannot be copied: {done.stderr.strip()}")
