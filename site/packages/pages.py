"""The staff's pages of packages: a code or a name is sold and shown, and one is ended."""

from radacctd_site.core import Failed, accounts, codes, places, web
from radacctd_site.core.features import OPERATOR
from radacctd_site.packages import logins, packages

# How many of the last logins the page shows.
LINES = 20


def form(visit, said="", kind="success", status=200):
    """An operator sees all of the last logins, a cashier those that they sold."""
    where = ("true",) if visit.role == OPERATOR else ("who = ?", visit.name)
    return visit.page("packages/packages.html", status, code=codes.new(), terms=packages.terms,
                      packages=packages.sold(visit.db), quoted=logins.quoted, said=said, kind=kind,
                      logins=list(logins.listed(visit.db, *where, most=LINES)))


def change(visit):
    """Sells a login, or ends one."""
    try:
        return {"make": make, "end": end}[visit.field("act")](visit)
    except (Failed, KeyError) as why:
        return form(visit, str(why), "danger", 422)


def make(visit):
    """Sells a login by the code that the form drew: the same form again sells nothing more."""
    name, (package, _, total) = visit.field("name"), visit.field("package").partition(" ")
    package, code = packages.for_sale(visit.db, package), codes.read(visit.field("code"))
    if code is None or total != str(package.sum):
        return form(visit, visit.text("The package has changed. Nothing was sold."), "danger", 409)
    if why := name and visit.why_not(name):
        return form(visit, why, "danger", 422)
    made = logins.drawn(logins.key(), package, code, visit.name, name)
    logins.make(visit.db, places.book(), [made])
    return web.lead(f"/packages/{logins.quoted(made.account)}")


def end(visit):
    """Asks whether it is the right login, and then ends it."""
    found = [it for it in logins.named(visit.db, visit.field("what"))
             if it["state"] != logins.ENDED]
    if len(found) != 1:
        return form(visit, visit.text("There is no such login, or it has ended."), "danger", 404)
    [it] = found
    if not visit.field("sure"):
        return visit.page(
            "core/asked.html", title=it["account"], kind="danger", path="/packages/", more=(),
            question=visit.text("End it for ever? What is left on it cannot be used."),
            fields={"act": "end", "what": it["account"]}, yes=visit.text("End it"),
            no=visit.text("Keep it"), back="/packages/")
    logins.end(visit.db, [it["account"]])
    return form(visit, visit.text("%(account)s has ended.", account=it["account"]))


def values(db, what, found, text=accounts.plain):
    """What the page of logins has, which are of a sheet, or one."""
    return {"name": what, "logins": found, "packages": packages.every(db), "text": text,
            "terms": packages.terms}


def cards(visit, what):
    """Cards to print: a cashier has those of logins that they sold."""
    mine = [it for it in logins.named(visit.db, what)
            if visit.role == OPERATOR or it["who"] == visit.name]
    if not mine:
        return visit.say(visit.text("There is no such page."), 404)
    return visit.page("packages/cards.html", base="core/base.html",
                      **values(visit.db, what, mine, visit.text))
