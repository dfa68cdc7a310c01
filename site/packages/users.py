"""users.db: who may log in, in FreeRADIUS' own tables, which its user only reads.

The set-up makes the file. The rows of packages and of logins are made of site.db, at each change
and again each minute: so none is missing for long, whatever was killed or lost. Other rows stay.
"""

import contextlib
import os
import pathlib
import sqlite3

from radacctd_site.core import Failed, places, told

# In seconds: how long another writer is waited for.
PATIENCE = 5
# Of each table whose rows it has, and its columns.
TABLES = {
    "radcheck": ("login", "username, attribute, op, value"),
    "radusergroup": ("login", "username, groupname, priority"),
    "radgroupcheck": ("package", "groupname, attribute, op, value"),
    "radgroupreply": ("package", "groupname, attribute, op, value"),
}
PAYERS = " ".join(f"UNION SELECT value FROM {it} WHERE attribute = 'Front-Payer'"
                  for it in ("radcheck", "radgroupcheck"))


def path():
    return os.path.join(places.FOLDER, "users.db")


@contextlib.contextmanager
def opened():
    """A connection, which begins no transaction by itself. It takes back what a writer left
    who was killed: FreeRADIUS' user may not, and refuses logins until then."""
    with told(Failed, f"{path()} cannot be used: ", sqlite3.Error):
        place = f"{pathlib.Path(path()).as_uri()}?mode=rw"
        found = sqlite3.connect(place, uri=True, timeout=PATIENCE, isolation_level=None)
        with contextlib.closing(found) as users:
            yield users


def put(wanted_now):
    """Gives names the rows that they are to have, and no others, in one transaction.

    `wanted_now` says of each table whose names are the site's, and their rows. It is asked once no
    other writer has the file: so the last of two writes what both have changed."""
    with opened() as users:
        users.execute("BEGIN IMMEDIATE")
        names, rows = wanted_now()
        for table, (whose, columns) in TABLES.items():
            has = {tuple(it) for it in users.execute(f"SELECT {columns} FROM {table}")
                   if it[0] in names[whose]}
            marks = ", ".join("?" for _ in columns.split(","))
            users.executemany(f"DELETE FROM {table} WHERE ({columns}) = ({marks})",
                              has - rows[table])
            users.executemany(f"INSERT INTO {table} ({columns}) VALUES ({marks})",
                              rows[table] - has)
        users.execute("COMMIT")


def names(more=""):
    """Each name that has a row now, and each group; PAYERS are those who pay for one."""
    with opened() as users:
        found = [{it for table, (whose, columns) in TABLES.items() if whose == kind
                  for it, in users.execute(f"SELECT {columns.split(',')[0]} FROM {table} {more}")}
                 for kind in ("login", "package")]
    return found
