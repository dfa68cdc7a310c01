"""The books that scripts make and fill: plain ones, or with page sums if RADACCTD_INIT says so.

RADACCTD_INIT has more words of each `radacctd init` of a script: RADACCTD_INIT=--page-sums.
"""

import contextlib
import os
import sqlite3
import traceback

INIT = os.environ.get("RADACCTD_INIT", "").split()
# How many octets at the end of each page are a sum's: where the header of a database says so.
SUM_AT, SUM_OCTETS = 20, 8
# With these `sqlite3` copies no log into a file, and prints what they are.
SETTINGS = (".dbconfig no_ckpt_on_close on", "PRAGMA wal_autocheckpoint=0")


def has_sums(path):
    """Whether a file is a book whose pages end in sums."""
    if not os.path.isfile(path):
        return False
    with open(path, "rb") as file:
        return file.read(SUM_AT + 1)[SUM_AT:] == bytes([SUM_OCTETS])


def words(path):
    """The words of `sqlite3` over a book. It leaves what it writes in the log if there are sums."""
    settings = (".output /dev/null", *SETTINGS, ".output stdout") if has_sums(path) else ()
    return ["sqlite3", "-csv", *(word for it in settings for word in ("-cmd", it)), path]


def write(path, work):
    """Lets `work` change a book by SQLite, which writes pages without right sums.

    If the book has sums, what was written stays in the log, and the next open by the program gives
    those pages sums. SQLite copies the log into the file as it closes a database. So a child does
    this, and ends without closing it.
    """
    if not has_sums(path):
        with contextlib.closing(sqlite3.connect(path)) as book, book:
            work(book)
        return
    child = os.fork()
    if child == 0:
        status = 1
        try:
            book = sqlite3.connect(path)
            # The index of the log is kept in memory, and leaves no file.
            book.execute("PRAGMA locking_mode = EXCLUSIVE")
            book.execute("PRAGMA wal_autocheckpoint = 0")
            with book:
                work(book)
            status = 0
        except Exception:
            traceback.print_exc()
        finally:
            os._exit(status)
    if os.waitpid(child, 0)[1]:
        raise SystemExit(f"{path} was not written")
