"""site.db: what was sold and by whom, what may be sold, and who may sell.

What money is whose is the book's alone: without this file no balance is lost. It has one user. A
transaction is on the disk at its end (WAL, synchronous FULL).
"""

import contextlib
import os
import sqlite3

from radacctd_site.core import features, places

# In seconds: how long another writer is waited for.
PATIENCE = 5


def opened(path=None):
    """A connection, closed at its end. `with` it is a transaction; sqlite3.Error says that nothing
    of it was written.
    """
    os.umask(0o077)
    db = sqlite3.connect(path or places.DATABASE, timeout=PATIENCE, isolation_level="IMMEDIATE")
    db.row_factory = sqlite3.Row
    db.executescript("PRAGMA journal_mode = WAL; PRAGMA synchronous = FULL; "
                     f"PRAGMA foreign_keys = ON; {features.tables()}")
    return contextlib.closing(db)
