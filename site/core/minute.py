"""Sends again what the book has not answered: radacctd-minute.timer starts it each minute.

If something has no answer for ten minutes the status is 1: so the check names the unit.
"""

import time

from radacctd_site.core import Failed, acts, features, places, store

LONGEST = 600


def main(_):
    book = places.book()
    places.become_user()
    with store.opened() as db:
        done = acts.again(db, book)
        for does in features.functions("EACH_MINUTE"):
            does(db, book)
        late = acts.waiting(db, time.time() - LONGEST)
    if done:
        print(f"answered now: {done}")
    if late:
        raise Failed(f"{late} acts have no answer for ten minutes: is radacctd up, does it take the "
                     f"key of {places.KEY} and the secret of {places.SECRET}?")
    return 0
