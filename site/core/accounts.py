"""What the book says of its accounts: the balances that it writes, and what its desk tells.

radacctd writes the file of balances every few seconds. Its desk tells of an account only to a key
that has `accounts = true`."""

import csv
import difflib
import io
import os
import unicodedata
import urllib.parse

from radacctd_site.core import Failed, features, names

BALANCES = os.environ.get("RADACCTD_BALANCES", "/var/lib/radacctd-balances/balances.csv")
HEADER = ["account", "balance", "overrun"]
# The plans in force, which the service writes before radacctd starts.
PLANS = os.environ.get("RADACCTD_PLANS", "/var/lib/radacctd-balances/plans.csv")
SESSIONS, TOPUPS = "sessions", "topups"
# How many names are shown of those that are like another one.
LIKE = 20


def opened(path):
    """A file that radacctd writes. No link is followed, and a pipe there is not waited for."""
    return open(path, encoding="ascii", newline="", opener=lambda it, flags: os.open(
        it, flags | os.O_NOFOLLOW | os.O_NONBLOCK))


def balances():
    """The balance of each account, and when the book wrote them."""
    try:
        with opened(BALANCES) as file:
            moment = int(os.fstat(file.fileno()).st_mtime)
            header, *rows = list(csv.reader(io.StringIO(file.read()))) or [[]]
        if header != HEADER:
            raise ValueError("it has no balances")
        return {names.octets_of(account): int(balance) for account, balance, _ in rows}, moment
    except (OSError, ValueError, csv.Error) as why:
        raise Failed(f"{BALANCES}: {getattr(why, 'strerror', None) or why}") from None


def known():
    """The same; no account and no moment if the book has written none, or is not to be read."""
    try:
        return balances()
    except Failed:
        return {}, None


def plans_in(lines):
    """The plans of a list of plans in force by their classes, or none if it is no such list."""
    try:
        return {it["class"]: {"block": int(it["block"]), "unit": int(it["unit"]),
                              "count": it["count"]} for it in csv.DictReader(lines)}
    except (OSError, ValueError, LookupError, TypeError, csv.Error):
        return {}


def plans():
    """Those of the service, or none if nobody knows them."""
    try:
        with opened(PLANS) as file:
            return plans_in(file)
    except OSError:
        return {}


def told(book, account, question):
    """What the book's desk tells of an account's octets: a list, or None if it tells nothing."""
    path = f"/accounts/{urllib.parse.quote(account, safe='')}/{question}"
    status, found = book.look(path)
    return found[question] if status == 200 else None


def plain(text, **values):
    """A text that nobody translates."""
    return text % values


def refused(db, account, text=plain):
    """Why a feature has nothing sold to an account, by what makes texts for its reader, or None."""
    return next(filter(None, (does(db, account, text) for does in features.functions("REFUSES"))),
                None)


def folded(text):
    """A text as people look for it: without case, and without marks above letters."""
    parts = unicodedata.normalize("NFKD", text)
    return "".join(it for it in parts if not unicodedata.combining(it)).casefold()


def like(text, accounts):
    """The names of accounts that have a text in them, or are nearly it; in their order."""
    wanted = folded(text)
    found = {it: folded(it) for it in map(names.readable, map(names.shown, accounts))}
    near = difflib.get_close_matches(wanted, found.values(), LIKE, 0.8)
    return sorted(it for it, name in found.items() if wanted in name or name in near)[:LIKE]
