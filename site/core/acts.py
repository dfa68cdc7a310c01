"""What the site asks of the book: each act is a row before it is a request.

A row has the number, the account and the sum of a credit, or of a correction: then the sum is below
0. It is on the disk before the one request, and gets the answer after it. What has none is sent
again each minute: the book takes a number once, for one account and one sum, so that nothing else
has to guard it."""

import collections
import contextlib
import datetime
import sqlite3
import time

from radacctd_site.core import desk as desks

# What is known of each act, and where it comes from: the name of what is done, and a cashier. What
# was paid is the sum itself, unless it is said.
Act = collections.namedtuple("Act", "number account sum kind who paid", defaults=[None])
TABLES = """
CREATE TABLE IF NOT EXISTS act (number TEXT NOT NULL, account TEXT NOT NULL, sum INTEGER NOT NULL,
    kind TEXT NOT NULL, who TEXT NOT NULL, paid INTEGER NOT NULL, begun INTEGER NOT NULL,
    answer TEXT, answered INTEGER, PRIMARY KEY (number, account, sum)) STRICT;
CREATE UNIQUE INDEX IF NOT EXISTS act_back ON act (number) WHERE sum < 0;
CREATE INDEX IF NOT EXISTS act_open ON act (begun) WHERE answer IS NULL;
CREATE INDEX IF NOT EXISTS act_account ON act (account);
CREATE INDEX IF NOT EXISTS act_who ON act (who);
"""
# Who sells by a command: no person can have this name.
COMMAND = "(command)"
# What ends an act: the book has said what became of it, and will say no other thing.
TAKEN = (desks.NEW, desks.REPEAT)
FINAL = (*TAKEN, desks.DIFFERS, desks.LIMIT)
# How many were sold, how much was sold and given back, and both together.
SUMS = """count(CASE WHEN paid > 0 THEN 1 END) AS count, coalesce(sum(max(paid, 0)), 0) AS sold,
    coalesce(sum(min(paid, 0)), 0) AS back, coalesce(sum(paid), 0) AS net"""
# What is said of it.
SOLD, WAITING, REFUSED = "sold", "waiting", "refused"


def begin(db, acts):
    """Writes acts within a transaction of the caller's. One that is there stays as it is. Of a second
    correction by one number the book would take the difference: it is an IntegrityError."""
    now = int(time.time())
    db.executemany("INSERT INTO act (number, account, sum, kind, who, paid, begun) "
                   "VALUES (?, ?, ?, ?, ?, ?, ?) ON CONFLICT (number, account, sum) DO NOTHING",
                   [(*it[:5], it.sum if it.paid is None else it.paid, now) for it in acts])


def ask(book, act):
    """One request: what the book said of an act."""
    does, total = (book.credit, act.sum) if act.sum > 0 else (book.debit, -act.sum)
    return does(act.account, total, act.number)


def send(db, book, act):
    """One request for an act that is on the disk: what the book said of it. If that cannot be
    written, the act is sent again: no page may say then that nothing was sent."""
    found = ask(book, act)
    if found in FINAL:
        with contextlib.suppress(sqlite3.Error), db:
            db.execute("UPDATE act SET answer = ?, answered = ? WHERE number = ? AND account = ? "
                       "AND sum = ? AND answer IS NULL", (found, int(time.time()), *act[:3]))
    return found


def do(db, book, act):
    """Does an act: what the book said of it. sqlite3.Error says that nothing was sent."""
    with db:
        begin(db, [act])
    return send(db, book, act)


def again(db, book):
    """Sends what has no answer, oldest first, until the desk is away: how many have one now. What
    the desk does not understand keeps nothing else back."""
    done = 0
    for row in db.execute("SELECT number, account, sum, kind, who, paid FROM act "
                          "WHERE answer IS NULL ORDER BY begun, number").fetchall():
        found = send(db, book, Act(*row))
        if found in (desks.AWAY, desks.NO_KEY):
            break
        done += found in FINAL
    return done


def of_account(db, account):
    """What the book has of an account by an act of this site; the account as the desk spells it."""
    return db.execute("SELECT * FROM act WHERE account = ? AND answer IN ('new', 'repeat') "
                      "ORDER BY answered DESC, rowid DESC", (account,)).fetchall()


def state_of(row):
    if row["answer"] in TAKEN:
        return SOLD
    return REFUSED if row["answer"] in FINAL else WAITING


def day(text):
    """A day of a command line."""
    return datetime.date.fromisoformat(text)


def second_of(day):
    """The first second of a day by the clock of the site."""
    return int(datetime.datetime.combine(day, datetime.time()).timestamp())


def of_days(db, first, last):
    """What was paid in some days, by the moment of the book's answer, or else as it was begun."""
    end = second_of(last + datetime.timedelta(days=1))
    return db.execute("SELECT *, coalesce(answered, begun) AS moment FROM act WHERE paid <> 0 "
                      "AND moment >= ? AND moment < ? ORDER BY moment, rowid",
                      (second_of(first), end)).fetchall()


def waiting(db, before=None):
    """How many the book has not answered yet, of those begun before a moment, or of all."""
    return db.execute("SELECT count(*) FROM act WHERE answer IS NULL AND (? IS NULL OR begun < ?)",
                      (before, before)).fetchone()[0]


def by_day(db, first, last, groups="day, who"):
    """The sums of each day and person, or of each day, of what the book has."""
    return db.execute(
        f"SELECT date(answered, 'unixepoch', 'localtime') AS day, who, {SUMS} FROM act "
        "WHERE answer IN ('new', 'repeat') AND paid <> 0 AND day BETWEEN ? AND ? "
        f"GROUP BY {groups} ORDER BY {groups}", (str(first), str(last))).fetchall()
