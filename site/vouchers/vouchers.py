"""Makes, redeems, lists and withdraws codes.

The book takes a voucher of the number W- and the code once, for one account, for ever. So that a
code is used once is the book's promise, and nothing here guards it. A withdrawn code is credited to
an account that nobody can be: so it stays withdrawn if an older site.db is put back.
"""

import collections
import datetime
import time

from radacctd_site.core import Failed, acts, codes, names
from radacctd_site.core.acts import Act
from radacctd_site.core.desk import DIFFERS, NEW, REPEAT

# An account that no login, sale or page takes: its first octet is none of a name.
NOBODY = "%00withdrawn"
LARGEST_COUNT = 10_000
REDEEM, WITHDRAW = "redeem", "withdraw"
LIVE, GIVEN, WITHDRAWN, WAITING = STATES = ("live", "given", "withdrawn", "waiting")
# The state of a code, with the account that has it: what the book said counts more than what was
# asked of it.
CODES = f"""
SELECT code, code.sum, sheet, coalesce(given.account, '') AS account,
    CASE WHEN given.answer IN ('new', 'repeat') THEN '{GIVEN}' WHEN withdrawn THEN '{WITHDRAWN}'
    WHEN given.account IS NOT NULL THEN '{WAITING}' ELSE '{LIVE}' END AS state
FROM code LEFT JOIN act AS given ON given.rowid = (
    SELECT rowid FROM act WHERE number = 'W-' || code AND kind = '{REDEEM}'
    AND coalesce(answer, '') NOT IN ('differs', 'limit')
    ORDER BY answer IS NULL, begun LIMIT 1)
"""


def make(db, count, total):
    """The name of a new sheet, whose codes are live once this returns."""
    if not 1 <= count <= LARGEST_COUNT:
        raise Failed(f"a sheet has 1 to {LARGEST_COUNT} vouchers")
    made = set()
    while len(made) < count:
        made.add(codes.new())
    now = f"vouchers-{datetime.datetime.now():%Y%m%d-%H%M%S}"
    with db:
        known = {name for name, in db.execute("SELECT DISTINCT sheet FROM code")}
        name = next(it for it in (now, *(f"{now}-{at}" for at in range(2, 1000)))
                    if it not in known)
        db.executemany("INSERT INTO code VALUES (?, ?, ?, NULL)",
                       [(it, total, name) for it in sorted(made)])
    return name


def redeem(db, book, account, text):
    """What became of a guest's code for an account's octets, and the sum of it: what the book said,
    or why it was not asked.
    """
    code = codes.read(text)
    if code is None:
        return "bad code", 0
    row = db.execute("SELECT sum FROM code WHERE code = ? AND withdrawn IS NULL",
                     (code,)).fetchone()
    if row is None:
        return "no such code", 0
    act = Act(f"W-{code}", names.for_desk(account), row["sum"], REDEEM, "")
    return acts.do(db, book, act), row["sum"]


def named(db, what):
    """The codes that a person names: a sheet's, or one."""
    if found := [code for code, in db.execute("SELECT code FROM code WHERE sheet = ?", (what,))]:
        return found
    code = codes.read(what.removeprefix("W-"))
    if code is None:
        raise Failed(f"{what} is no sheet and no code: nothing was withdrawn")
    return [code]


def end(db, found, who):
    """Ends codes: from now on none of them is redeemed here. Returns what is to be sent."""
    ended = [Act(f"W-{it}", NOBODY, 1, WITHDRAW, who, 0) for it in sorted(found)]
    with db:
        db.executemany("INSERT INTO code VALUES (?, 0, '', ?) ON CONFLICT (code) DO UPDATE "
                       "SET withdrawn = coalesce(withdrawn, excluded.withdrawn)",
                       [(it, int(time.time())) for it in found])
        acts.begin(db, ended)
    return ended


def send(db, book, ended):
    """Sends what was ended: how many were withdrawn, were so before, were spent before, and wait."""
    found = collections.Counter(acts.send(db, book, it) for it in ended)
    rest = found.total() - sum(found[it] for it in (NEW, REPEAT, DIFFERS))
    return found[NEW], found[REPEAT], found[DIFFERS], rest


def sheets(db):
    """Each sheet with how many of its codes are in which state, the newest first."""
    counts = ", ".join(f"sum(state = '{it}') AS {it}" for it in STATES)
    return db.execute(f"SELECT sheet AS name, max(sum) AS sum, {counts} FROM ({CODES}) "
                      "WHERE sheet <> '' GROUP BY sheet ORDER BY sheet DESC").fetchall()


def codes_of(db, sheet):
    """The codes of a sheet, each with its sum, its state and its account."""
    found = db.execute(f"SELECT code, sum, state, account FROM ({CODES}) WHERE sheet = ? "
                       "ORDER BY code", (sheet,)).fetchall()
    if not found:
        raise Failed(f"there is no sheet {sheet}")
    return found
