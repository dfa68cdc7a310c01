"""The first copy; and what no step sees of the others: how old the last is, whether it is good."""

import os
import time

from radacctd_site.core.steps import Command, Fault
from radacctd_site.copies import places

OLDEST = 36 * 3600
NOW = "radacctl copy"


def tries(*_):
    """Until there is a copy, a lost disk loses all."""
    copy = Command("copy the site", lambda: bool(places.names()), "systemctl", "start",
                   "radacctd-copy.service")
    if not copy.holds():
        copy.do()
        yield f"a copy of the site is in {places.FOLDER}"


def look_at(*_):
    good, refused = places.names(), places.names(places.REFUSED)
    if os.path.isdir(places.FOLDER) and not os.access(places.FOLDER, os.W_OK):
        yield Fault("copy-bad", f"{places.FOLDER} takes no copy: its disk is read-only",
                    f"dmesg says why; then: mount -o remount,rw {places.FOLDER}")
    if refused and (not good or refused[-1].removeprefix(places.REFUSED) > good[-1]):
        yield Fault("copy-bad", f"{places.FOLDER}/{refused[-1]} was refused: the book may be damaged",
                    "read GONE.md, and journalctl -u radacctd-copy")
    if not good:
        yield Fault("copy-old", f"there is no copy in {places.FOLDER}", NOW)
        return
    # By the moment at which it was written, not by its name: a clock may have been wrong.
    newest = max((f"{places.FOLDER}/{it}" for it in good), key=lambda it: os.stat(it).st_mtime)
    age = time.time() - os.stat(newest).st_mtime
    if age > OLDEST:
        yield Fault("copy-old", f"the last copy, {newest}, is {age / 3600:.0f} hours old", NOW)
