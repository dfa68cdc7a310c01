"""What the features share, and how a command says why it did not do all."""

import contextlib
import time


class Failed(Exception):
    """Why not all was done. Whoever gave the command is told so, and it ends with the status."""

    status = 1


@contextlib.contextmanager
def told(kind, before, *faults):
    """Raises a fault of a kind in the place of some: what could not be done, and why not."""
    try:
        yield
    except faults or OSError as why:
        raise kind(f"{before}{getattr(why, 'strerror', None) or why}") from None


def moment(seconds):
    """A moment by the clock of the site, which is read alike in each language."""
    return time.strftime("%Y-%m-%d %H:%M", time.localtime(seconds))
