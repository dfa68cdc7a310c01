"""Sessions of all accounts, as the book's desk tells them."""

import concurrent.futures
import time

from radacctd_site.core import accounts, names
from radacctd_site.core.corrections import is_use

# Of so many accounts the desk is asked, so many at once; in seconds, how long a session that is on
# may be silent.
MOST, AT_ONCE, HEARD = 5000, 8, 900
HOURS, HOUR = 24, 3600


def of_all(book, known):
    """The sessions of accounts, the last heard of first, each with its account; None if the desk
    does not tell them.
    """
    first, *rest = sorted(known)[:MOST] or [None]
    found = [accounts.told(book, first, accounts.SESSIONS) if first else []]
    if found == [None]:
        return None
    with concurrent.futures.ThreadPoolExecutor(AT_ONCE) as pool:
        found += pool.map(lambda it: accounts.told(book, it, accounts.SESSIONS), rest)
    rows = [{**it, "account": names.readable(names.shown(account))}
            for account, sessions in zip([first, *rest], found) for it in sessions or ()
            if is_use(it)]
    return sorted(rows, key=lambda it: -it["last"])


def on(sessions, now):
    """Those that are on: open, and heard of lately."""
    return [it for it in sessions if it["state"] == "open" and abs(now - it["last"]) <= HEARD]


def by_hour(sessions, now):
    """The octets of each of the last hours, as if a session used its octets evenly."""
    begin = now - now % HOUR - (HOURS - 1) * HOUR
    found = [0.0] * HOURS
    for it in sessions:
        first, last = it["first"], max(it["last"], it["first"] + 1)
        for at in range(max(0, (first - begin) // HOUR), min(HOURS, (last - begin) // HOUR + 1)):
            hour = begin + at * HOUR
            part = min(last, hour + HOUR) - max(first, hour)
            found[at] += it["total"] * max(0, part) / (last - first)
    return [(time.strftime("%H:00", time.localtime(begin + at * HOUR)), round(octets))
            for at, octets in enumerate(found)]
