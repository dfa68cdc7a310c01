"""Sells to an account in the site's money, or credits the file of vouchers on standard input.

Such a file has the header voucher,account,sum, as `radacctd import` reads it: sums in whole units
of the book. A sum with - before it is taken from the account, by a number that no other sum is taken
by. What has no answer is sent again each minute. Given again, nothing is credited or taken twice.

The status is 0 if all was sold, now or before, 1 if something was refused, and 3 if the book did
not answer yet.
"""

import collections
import sqlite3
import sys

from radacctd_site.core import Failed, accounts, acts, desk, money, names, places, store, told
from radacctd_site.core.acts import Act
from radacctd_site.desk import sales

COLUMNS, FILE, TAKEN = ["voucher", "account", "sum"], "/dev/stdin", "taken"


class Waiting(Failed):
    """What the book has not answered yet."""

    status = 3


def arguments(it):
    it.add_argument("account", nargs="?", help="who gets it")
    it.add_argument("sum", nargs="?", help="how much, in the site's money, as 5.00; -5.00 is "
                    "taken back")
    it.add_argument("--again", metavar="DAY", type=acts.day, help="send again what was sold since "
                    "a day, as 2026-12-31, to a book that was put back from a copy")
    it.add_argument("--unpaid", action="store_true", help="nothing was paid: it counts in no total")


def account_of(text):
    octets = names.octets_of(text)
    if why := names.why_not(octets):
        raise ValueError(f"the account `{names.shown(octets)}` is not taken: {why}")
    return names.for_desk(octets)


def act_of(number, account, text, read):
    """The act of a sum, or None if `read` knows none: with - before it, it is taken back."""
    total = read(text.removeprefix("-"))
    if total is None or text[:1] != "-":
        return total and Act(number, account, total, sales.SALE, acts.COMMAND)
    return Act(number, account, -total, sales.BACK, acts.COMMAND)


def record(cells):
    found = act_of(cells["voucher"], account_of(cells["account"]), cells["sum"], money.sum_of)
    if not desk.NUMBER.fullmatch(cells["voucher"]) or not found:
        raise ValueError("a voucher is 1 to 32 of A-Z 0-9 and -, a sum is 1 to 1000000000000")
    return found


def asked(words):
    """The acts of a command line."""
    if words.account is None and not sys.stdin.isatty():
        return names.records_in(FILE, COLUMNS, record)
    site = money.of_site(places.SETTINGS)
    with told(Failed, "", ValueError):
        found = words.account and act_of(sales.new_number(), account_of(words.account),
                                         words.sum or "", site.units)
    if not found:
        raise Failed(f"give ACCOUNT and SUM, as {site.plain(500)}, or a file: radacctl sell < FILE")
    return [found]


def sell(db, book, found):
    """Writes all, and then sends each, unless something of it may not be sold."""
    for it in found:
        if it.sum > 0 and (why := accounts.refused(db, names.readable(it.account))):
            raise Failed(f"nothing was sold: {why}")
    if any(it.sum < 0 for it in found):
        sales.need_corrections(book)
    try:
        with db:
            acts.begin(db, found)
    except sqlite3.IntegrityError:
        numbers = ", ".join(it.number for it in found if it.sum < 0)
        raise Failed(f"nothing was sent: one of {numbers} has taken another sum") from None
    refused, counts = [], collections.Counter()
    for it in found:
        said = acts.send(db, book, it)
        counts[TAKEN if it.sum < 0 and said == desk.NEW else said] += 1
        if said in (desk.DIFFERS, desk.LIMIT):
            refused.append(f"{it.number}, {names.readable(it.account)}: {said}")
        if said in (desk.AWAY, desk.NO_KEY) or it.sum < 0 and said != desk.NEW:
            break
    print(f"added {counts[desk.NEW]}, repeated {counts[desk.REPEAT]}, refused {len(refused)}"
          + f", taken {counts[TAKEN]}" * (counts[TAKEN] > 0))
    if rest := len(found) - len(refused) - sum(counts[it] for it in (*acts.TAKEN, TAKEN)):
        why = ": it does not take the key" if counts[desk.NO_KEY] else ""
        raise Waiting(f"the book has not answered{why}: {rest} are sent again each minute")
    if refused:
        raise Failed("\n".join(["refused:", *refused]))


def again(db, book, day):
    """Sends again what the book took since a day, for one that is an older copy."""
    rows = db.execute("SELECT * FROM act WHERE answered >= ? AND answer IN ('new', 'repeat') "
                      "ORDER BY begun, rowid", (acts.second_of(day),)).fetchall()
    counts = collections.Counter()
    for it in rows:
        said = acts.ask(book, Act(*(it[name] for name in Act._fields)))
        counts[said] += 1
        if said not in acts.FINAL:
            raise Waiting(f"the book did not answer to {it['number']}: give the same again")
    print(f"{len(rows)} were sent: {counts[desk.REPEAT]} were there, "
          f"{counts[desk.DIFFERS] + counts[desk.LIMIT]} are refused")


def main(words):
    # All of it is read as whoever gave the command.
    book, found = places.book(), [] if words.again else asked(words)
    if words.unpaid:
        found = [it._replace(paid=0) for it in found]
    if words.account:
        print(f"number {found[0].number}")
    places.become_user()
    with store.opened() as db:
        again(db, book, words.again) if words.again else sell(db, book, found)
    return 0
