"""Prints who is on: open sessions of which a report came within a quarter of an hour.

The desk is asked for each account, of 5,000 at most: that takes some seconds.
"""

import sys
import time

from radacctd_site.core import Failed, accounts, moment, places
from radacctd_site.operator import sessions


def main(_):
    book = places.book()
    places.become_user()
    known, _ = accounts.balances()
    found = sessions.of_all(book, known)
    if found is None:
        raise Failed(f"the book tells no sessions: is radacctd up, and has the key of {places.KEY} "
                     "`accounts = true`?")
    if len(known) > sessions.MOST:
        print(f"only {sessions.MOST} of {len(known)} accounts were looked at", file=sys.stderr)
    for it in sessions.on(found, time.time()):
        print(f"{it['account']:24} {it['calling']:18} {it['client']:20} "
              f"since {moment(it['first'])}, {it['total']:,} octets")
    return 0
