"""The guests' page: a key of a card or a code in, and what is left, used and bought of its account
out.
"""

from radacctd_site.core import accounts, codes, desk, features, places, web
from radacctd_site.guests import account

# The key, until the browser is closed.
COOKIE = "__Host-guest"


def look(visit):
    """What is left; or a form for the key. A key of an address leaves the address at once."""
    given = visit.request.query.get("k", "")
    if given:
        return use(visit, given)
    key = visit.request.get_cookie(COOKIE) or ""
    if not desk.TOKEN.fullmatch(key):
        return asks(visit)
    whose = next(filter(None, (does(visit.db, key) for does in features.functions("WHOSE"))), None)
    if whose is None:
        web.set_cookie(COOKIE, "")
        return asks(visit, visit.text(
            "This key is not known. It may have ended with your stay. Scan the card again, or ask at "
            "the front desk."), 404)
    found = account.asked(places.book(), whose)
    if found is None:
        return asks(visit, visit.text(
            "The accounts cannot be reached now. Wait a minute, then load the page again. Nothing is "
            "lost."), 503)
    balance, sessions, _ = found
    known = accounts.plans()
    plan = account.plan_of(sessions, known)
    octets = account.buys(balance, plan) if plan else None
    return visit.page("guests/account.html", plan=plan, known=known,
                      about=visit.data(octets) if octets is not None else "",
                      **account.seen(whose, *found))


def give(visit):
    """A key that was typed, or a browser that is to forget its key."""
    if visit.field("act") == "forget":
        web.set_cookie(COOKIE, "")
        return web.lead("/")
    return use(visit, visit.field("key"))


def use(visit, text):
    key = codes.read(text) or text
    if not desk.TOKEN.fullmatch(key):
        return asks(visit, visit.text(
            "A key has 16 to 64 letters, digits and dashes. Look at your card again."), 422)
    web.set_cookie(COOKIE, key)
    return web.lead("/")


def asks(visit, said="", status=200):
    return visit.page("guests/key.html", status, said=said)
