"""Cards: a key by which a guest sees an account. The staff prints one, and ends it.

An account has one card: a new one ends the one before. site.db has the digest of its key.
"""

import time

from radacctd_site.core import codes, paper, places
from radacctd_site.core.people import digest_of


def whose(db, key):
    """The account of a card's key, or None."""
    found = db.execute("SELECT account FROM card WHERE digest = ?", (digest_of(key),)).fetchone()
    return found and found["account"]


def new(db, account):
    """The key of a new card, of 113 random bits."""
    key = "-".join(codes.letters(5) for _ in range(5))
    with db:
        db.execute("INSERT OR REPLACE INTO card VALUES (?, ?, ?)",
                   (account, digest_of(key), int(time.time())))
    return key


def form(visit, said="", kind="success", status=200):
    account = visit.field("account") or visit.request.query.getunicode("account") or ""
    return visit.page("guests/cards.html", status, account=account, said=said, kind=kind)


def change(visit):
    """Makes a card, once it is sure that the one before may end; or ends one."""
    account, text = visit.field("account"), visit.text
    if visit.field("act") == "end":
        with visit.db as db:
            ended = db.execute("DELETE FROM card WHERE account = ?", (account,)).rowcount
        if not ended:
            return form(visit, text("%(account)s has no card.", account=account), "danger", 404)
        return form(visit, text("The card of %(account)s has ended.", account=account))
    if why := visit.why_not(account):
        return form(visit, why, "danger", 422)
    had = visit.db.execute("SELECT made FROM card WHERE account = ?", (account,)).fetchone()
    if had and not visit.field("sure"):
        return visit.page(
            "core/asked.html", title=text("Card for the guest"), kind="primary", path="/card/",
            question=text("%(account)s has a card of %(moment)s. A new one ends it.",
                          account=account, moment=visit.moment(had["made"])),
            more=[text("Each stay has an account of its own: is it this guest's?")],
            fields={"account": account}, yes=text("Make a card"), no=text("Keep it"), back="/card/")
    key, url = new(visit.db, account), places.settings()["url"].rstrip("/")
    return visit.page("guests/card.html", account=account, key=key, url=url,
                      code=paper.qr(f"{url}/?k={key}", border=4))
