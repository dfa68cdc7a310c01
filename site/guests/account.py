"""What a guest sees of an account, from what the book's desk tells of it."""

import collections

from radacctd_site.core import accounts, names
from radacctd_site.core.corrections import CLASS, CLIENT, is_use

Session = collections.namedtuple("Session", "last state octets charged")
# Of sessions and sums so many are listed, the newest.
LINES = 100


def asked(book, account):
    """The balance, the sessions and the sums of an account; None if the desk does not tell them."""
    found = []
    for question in ("balance", accounts.SESSIONS, accounts.TOPUPS):
        found.append(accounts.told(book, names.octets_typed(account), question))
        if found[-1] is None:
            return None
    return found


def seen(account, balance, sessions, topups):
    """The same as a guest sees it: the newest first, and what was carried forward last."""
    topups = sorted(topups, key=lambda it: -it["when"])
    lines = [*map(session_of, sorted(sessions, key=lambda it: (
        it["client"].startswith("("), -it["last"])))]
    return {"account": account, "balance": balance, "sessions": lines[:LINES],
            "older": lines[LINES:], "topups": topups[:LINES],
            "share": share(balance, sum(it["sum"] for it in topups))}


def session_of(it):
    charged = int(it["charged"])
    if (it["client"], it["class"]) == (CLIENT, CLASS):
        return Session(it["last"], "correction", None, charged)
    if it["client"].startswith("("):
        return Session(None, "earlier", None, charged)
    return Session(it["last"], "open" if it["state"] == "open" else "ended", it["total"], charged)


def plan_of(sessions, known):
    """The plan by which the guest goes on: that of the latest session. Before the first one it is
    certain only if the site has no other plan than `default`.
    """
    if own := [*filter(is_use, sessions)]:
        name = max(own, key=lambda it: it["last"])["class"]
        return known.get(name, known.get("default"))
    return known.get("default") if set(known) <= {"default", "debit"} else None


def buys(balance, plan):
    """How many octets the balance still buys: None if data costs nothing."""
    if plan["unit"] == 0:
        return None
    return max(0, balance // plan["unit"]) * plan["block"]


def share(left, bought):
    """How much of what was bought is left, in parts of a hundred."""
    return max(0, min(100, 100 * left // bought)) if bought > 0 else 0
