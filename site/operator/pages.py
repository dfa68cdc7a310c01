"""The operator's page: plots, and lists of who is below 0 and who is on."""

import collections
import datetime
import time

from radacctd_site.core import accounts, acts, names, places
from radacctd_site.operator import sessions

# How many days are shown, and how many lines of a list.
DAYS, LINES = 30, 200
NOTHING = dict.fromkeys(("count", "sold", "back", "net"), 0)
# A column of a plot: its name, how high it is above and below the line, and what is shown of it.
Column = collections.namedtuple("Column", "name above below text")


def look(visit):
    book, (known, moment) = places.book(), accounts.known()
    found, now = sessions.of_all(book, known), int(time.time())
    sold = by_day(visit.db, datetime.date.today())
    total = {key: sum(it[key] for _, it in sold) for key in NOTHING}
    hours = sessions.by_hour(found or (), now)
    return visit.page(
        "operator/look.html", moment=moment, lines=LINES, is_told=found is not None,
        left_out=len(known) > sessions.MOST, most=sessions.MOST, now=now,
        on=sessions.on(found or (), now), today=sold[-1][1], total=total,
        days=[Column(day, it["sold"], -it["back"], visit.sum(it["net"])) for day, it in sold],
        hours=[Column(name, octets, 0, visit.data(octets)) for name, octets in hours],
        overdrawn=overdrawn(visit, book),
        octets=sum(octets for _, octets in hours), waiting=acts.waiting(visit.db))


def by_day(db, today):
    """The sums of each of the last days, all persons together."""
    first = today - datetime.timedelta(days=DAYS - 1)
    rows = {it["day"]: it for it in acts.by_day(db, first, today, "day")}
    days = (str(first + datetime.timedelta(days=at)) for at in range(DAYS))
    return [(day, rows.get(day, NOTHING)) for day in days]


def overdrawn(visit, book):
    """Who is below 0, by how much, the most first; None if the book does not say."""
    status, found = book.look("/overruns")
    if status != 200:
        return None
    rows = sorted(found["overruns"], key=lambda it: -it["overrun"])
    return [(names.readable(it["account"]), visit.sum(it["overrun"])) for it in rows]
