"""Prints what was sold and taken back, by day and cashier, or each sale as CSV for the ledger.

A sale counts on the day on which the book took it. `radacctl sell` is (command). Vouchers that
guests redeemed have no cashier.
"""

import datetime
import time

from radacctd_site.core import acts, cli, money, names, places, store

COLUMNS = ("moment", "number", "account", "what", "cashier", "credit", "paid", "state")


def arguments(it):
    for name in ("first", "last"):
        it.add_argument(f"--{name}", metavar="DAY", type=acts.day, default=datetime.date.today(),
                        help=f"the {name} day, as 2026-12-31; else today")
    it.add_argument("--csv", action="store_true", help="print each sale as a line of CSV")


def main(words):
    site = money.of_site(places.SETTINGS)
    places.become_user()
    with store.opened() as db:
        rows = acts.of_days(db, words.first, words.last)
        days = acts.by_day(db, words.first, words.last)
    if words.csv:
        print(names.csv_of(COLUMNS, [
            (time.strftime("%Y-%m-%d %H:%M:%S", time.localtime(it["moment"])), it["number"],
             names.readable(it["account"]), it["kind"], it["who"], site.plain(it["sum"]),
             site.plain(it["paid"]), acts.state_of(it)) for it in rows]), end="")
        return 0
    for it in days:
        sold, back, net = map(site.shown, (it["sold"], -it["back"], it["net"]))
        print(f"{it['day']}  {cli.plain(it['who'] or 'vouchers'):16} {it['count']:5} sales  "
              f"sold {sold}, taken back {back}, net {net}")
    if waiting := sum(acts.state_of(it) == acts.WAITING for it in rows):
        print(f"{waiting} have no answer yet: they are in no sum")
    return 0
