"""Who works at the site: names, roles, passwords, and the sessions of their browsers.

A session is a random token, of which site.db has the digest: it ends by a logout, by a changed
password, and after twelve hours. A password is kept by scrypt.
"""

import contextlib
import hashlib
import hmac
import ipaddress
import os
import re
import secrets
import sqlite3
import time

from radacctd_site.core import Failed
from radacctd_site.core.features import CASHIER, OPERATOR

TABLES = """
CREATE TABLE IF NOT EXISTS person (name TEXT PRIMARY KEY, role TEXT NOT NULL, salt BLOB NOT NULL,
    digest BLOB NOT NULL) STRICT;
CREATE TABLE IF NOT EXISTS session (digest BLOB PRIMARY KEY,
    name TEXT NOT NULL REFERENCES person ON DELETE CASCADE, begun INTEGER NOT NULL) STRICT;
CREATE TABLE IF NOT EXISTS place (name TEXT NOT NULL REFERENCES person ON DELETE CASCADE,
    network TEXT NOT NULL, PRIMARY KEY (name, network)) STRICT;
CREATE TABLE IF NOT EXISTS try (what TEXT NOT NULL, moment INTEGER NOT NULL) STRICT;
CREATE INDEX IF NOT EXISTS try_what ON try (what, moment);
"""
# In seconds: how long a session lasts, and in which time how often somebody may be wrong.
LASTS, WINDOW, TRIES = 12 * 3600, 60, 5
# The cost of a try of a password, by scrypt.
COST = 1 << 14
NAME, SHORTEST = re.compile(r"[\w.@][\w.@-]{0,31}"), 10


def digest_of(token):
    return hashlib.sha256(token.encode()).digest()


def scrypted(password, salt):
    return hashlib.scrypt(password.encode("utf-8", "surrogateescape"), salt=salt, n=COST, r=8, p=1)


def put(db, name, role, password):
    """Makes a person, or changes one; sessions of an older password end."""
    if not NAME.fullmatch(name):
        raise Failed("a name is 1 to 32 letters, digits or . _ - @, and - is not first")
    if role not in (CASHIER, OPERATOR):
        raise Failed(f"a role is {CASHIER} or {OPERATOR}")
    if len(password) < SHORTEST:
        raise Failed(f"a password has {SHORTEST} characters or more")
    salt = os.urandom(16)
    with db:
        db.execute("INSERT INTO person VALUES (?, ?, ?, ?) ON CONFLICT (name) DO UPDATE SET "
                   "role = excluded.role, salt = excluded.salt, digest = excluded.digest",
                   (name, role, salt, scrypted(password, salt)))
        db.execute("DELETE FROM session WHERE name = ?", (name,))


def remove(db, name):
    """Ends a person's login and sessions: whether there was such a person."""
    with db:
        return bool(db.execute("DELETE FROM person WHERE name = ?", (name,)).rowcount)


def is_password(db, name, password):
    """Whether a person has this password. It takes as long for a name that nobody has."""
    row = db.execute("SELECT salt, digest FROM person WHERE name = ?", (name,)).fetchone()
    salt, wanted = row or (bytes(16), bytes(64))
    return hmac.compare_digest(scrypted(password, salt), wanted) and row is not None


def network_of(address):
    """An address as it is counted: of IPv6 the network that one customer has."""
    with contextlib.suppress(ValueError):
        return str(ipaddress.ip_network((ipaddress.IPv6Address(address), 64), strict=False))
    return address


def may_try(db, kind, *whats):
    """Counts a try at each of some things, unless one of them had too many in the last minute."""
    now, keys = int(time.time()), [f"{kind} {it}" for it in whats]
    with db:
        db.execute("DELETE FROM try WHERE moment NOT BETWEEN ? AND ?", (now - WINDOW, now))
        counts = [db.execute("SELECT count(*) FROM try WHERE what = ?", (it,)).fetchone()[0]
                  for it in keys]
        if max(counts) >= TRIES:
            return False
        db.executemany("INSERT INTO try VALUES (?, ?)", [(it, now) for it in keys])
    return True


def forget_try(db, kind, *whats):
    """Takes a try back that was right. One that stays is no fault of what was done meanwhile."""
    with contextlib.suppress(sqlite3.Error), db:
        db.executemany("DELETE FROM try WHERE rowid = (SELECT max(rowid) FROM try WHERE what = ?)",
                       [(f"{kind} {it}",) for it in whats])


def logged_in(db, name, password, address):
    """The token of a new session, "" if name or password are wrong, None after too many tries.
    Where a person has logged in before, tries from elsewhere by that name do not count."""
    place = name, network_of(address)
    is_known = db.execute("SELECT 1 FROM place WHERE (name, network) = (?, ?)", place).fetchone()
    whats = place[1:] if is_known else (f"of {name[:64]}", place[1])
    if not may_try(db, "login", *whats):
        return None
    if not is_password(db, name, password):
        return ""
    forget_try(db, "login", *whats)
    token, now = secrets.token_hex(16), int(time.time())
    with db:
        db.execute("DELETE FROM session WHERE begun NOT BETWEEN ? AND ?", (now - LASTS, now))
        db.execute("INSERT INTO session VALUES (?, ?, ?)", (digest_of(token), name, now))
        db.execute("INSERT OR IGNORE INTO place VALUES (?, ?)", place)
    return token


def log_out(db, token):
    with db:
        db.execute("DELETE FROM session WHERE digest = ?", (digest_of(token),))


def of_token(db, token):
    """The name and the role of a session, or None if it has ended."""
    now = int(time.time())
    return db.execute("SELECT name, role FROM session JOIN person USING (name) "
                      "WHERE session.digest = ? AND begun BETWEEN ? AND ?",
                      (digest_of(token), now - LASTS, now)).fetchone()
