"""Sales of cashiers, and their shifts.

A sale is an act of core: a row before it is a request. It is sold once the book has said so. It
counts in the shift in which the book said so: the end of a shift counts what no shift has counted,
so that no clock decides, and what has ended does not change."""

import time

from radacctd_site.core import Failed, accounts, acts, codes, corrections, names, places
from radacctd_site.core.acts import SOLD, SUMS, TAKEN, Act, state_of
from radacctd_site.core.features import OPERATOR

SALE, BACK = "sale", "back"
# What was paid or given back, and no shift has counted yet.
OPEN = """FROM act WHERE who = ? AND paid <> 0 AND answer IN ('new', 'repeat') AND NOT EXISTS (
    SELECT 1 FROM counted WHERE (number, account, sum) = (act.number, act.account, act.sum))"""


def new_number():
    """The number of a sale, which a form draws: no tool and no voucher makes such a one."""
    return f"S-{codes.new()}"


def is_number(text):
    return text[:2] == "S-" and codes.read(text[2:]) == text[2:]


def sale_of(number, account, total, who):
    return Act(number, names.for_desk(names.octets_typed(account)), total, SALE, who)


def found(db, number, who, role):
    """The sale of a number that this person may see, and its correction, or None for each."""
    rows = db.execute("SELECT *, EXISTS (SELECT 1 FROM counted WHERE (number, account, sum) = "
                      "(act.number, act.account, act.sum)) AS counted FROM act "
                      "WHERE number = ? AND kind IN ('sale', 'back') "
                      "ORDER BY answer IN ('new', 'repeat') DESC, begun", (number,)).fetchall()
    own = [it for it in rows if it["kind"] == SALE and (it["who"] == who or role == OPERATOR)]
    sale = own[0] if own else None
    back = next((it for it in rows if sale and it["kind"] == BACK and it["sum"] == -sale["sum"]
                 and it["account"] == sale["account"]), None)
    return sale, back


def may_take_back(sale, back, role):
    """A cashier takes back what is sold and in no ended shift; an operator each sale."""
    return back is None and state_of(sale) == SOLD and (role == OPERATOR or not sale["counted"])


def need_corrections(book):
    if not book.corrects():
        raise Failed(f"no money is taken back: {accounts.PLANS} has no plan {corrections.CLASS} "
                     f"of block 1 and unit 1, or {places.SECRET} no secret")


def take_back(db, book, sale, who):
    """Takes back a sale, or says what the book said against it. It is asked before whether it has
    the sale: one that it lost, being an older copy, it has again by that.
    """
    need_corrections(book)
    known = Act(*(sale[it] for it in Act._fields))
    if (said := acts.ask(book, known)) not in TAKEN:
        return said
    acts.do(db, book, known._replace(sum=-known.sum, paid=-known.paid, kind=BACK, who=who))
    return None


def of_shift(db, who):
    """What counts in the shift of a person that has not ended, the newest first."""
    return db.execute(f"SELECT * {OPEN} ORDER BY answered DESC, rowid DESC", (who,)).fetchall()


def sums(db, who):
    """The sums of the same."""
    return db.execute(f"SELECT {SUMS} {OPEN}", (who,)).fetchone()


def waiting(db, who):
    """What the book has not answered yet."""
    return db.execute("SELECT * FROM act WHERE who = ? AND answer IS NULL ORDER BY begun",
                      (who,)).fetchall()


def end_shift(db, who):
    """Ends a shift: whether there was something in it. What it counts no other shift counts."""
    with db:
        shift = db.execute("INSERT INTO shift (who, ended) VALUES (?, ?)",
                           (who, int(time.time()))).lastrowid
        count = db.execute(f"INSERT INTO counted SELECT number, account, sum, ? {OPEN}",
                           (shift, who)).rowcount
        if not count:
            db.execute("DELETE FROM shift WHERE id = ?", (shift,))
    return bool(count)


def shifts(db, who, role, most=10):
    """The last shifts of a person, or of everybody for an operator, with their sums."""
    return db.execute(
        f"SELECT shift.*, {SUMS} FROM shift JOIN counted ON counted.shift = shift.id "
        "JOIN act USING (number, account, sum) WHERE ? OR shift.who = ? "
        "GROUP BY id ORDER BY id DESC LIMIT ?", (role == OPERATOR, who, most)).fetchall()
