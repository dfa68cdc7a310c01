"""The front desk's pages: one question at a time."""

from radacctd_site.core import accounts, acts, names, places, web
from radacctd_site.core.desk import DIFFERS, LIMIT
from radacctd_site.desk import sales

# Of an account's sessions and sums so many are listed, the newest.
LINES = 50


def form(visit, said="", status=200, **values):
    values = {"account": visit.request.query.getunicode("account") or "", "sum": "", **values}
    return visit.page("desk/sell.html", status, said=said, money=visit.money(), **values)


def sell(visit):
    """Asks whether account and sum are right, and then sells: once for a number."""
    account, text = visit.field("account"), visit.field("sum")
    total = visit.money().units(text)
    why = visit.why_not(account) or (total is None and visit.text(
        "The sum is wrong. Write it as %(sum)s.", sum=visit.money().plain(500))) or ""
    if why or visit.field("sure") == "no":
        return form(visit, why, 422 if why else 200, account=account, sum=text)
    number = visit.field("number")
    if not visit.field("sure"):
        return asked(visit, account, total, sales.new_number())
    if not sales.is_number(number):
        return form(visit, visit.text("This form is old. Read account and sum again."), 422,
                    account=account, sum=text)
    acts.do(visit.db, places.book(), sales.sale_of(number, account, total, visit.name))
    return web.lead(f"/desk/sale/{number}")


def asked(visit, account, total, number):
    """The question before a sale. A name that the book does not know is shown with similar ones."""
    known, _ = accounts.known()
    balance = known.get(names.octets_typed(account))
    near = [] if balance is not None else accounts.like(account, known)
    return visit.page("desk/sure.html", account=account, total=total, number=number,
                      text=visit.field("sum"), balance=balance, known=bool(known), near=near)


def sale(visit, number, said="", status=200):
    """A sale and what became of it: it is sold if the book said so."""
    it, back = sales.found(visit.db, number, visit.name, visit.role)
    if it is None:
        return visit.say(visit.text("There is no such sale of yours. Nothing was added."), 404)
    state = acts.state_of(it)
    return visit.page("desk/sale.html", status, sale=it, state=state, back=back, said=said,
                      account=names.readable(it["account"]),
                      is_back=back is not None and acts.state_of(back) == acts.SOLD,
                      may=sales.may_take_back(it, back, visit.role), is_full=it["answer"] == LIMIT)


def take_back(visit):
    """Asks, and then takes a sale back, once."""
    number = visit.field("number")
    it, back = sales.found(visit.db, number, visit.name, visit.role)
    if it is None or not sales.may_take_back(it, back, visit.role):
        return sale(visit, number, visit.text("This sale cannot be taken back here."), 409)
    if not visit.field("sure"):
        text = visit.text
        return visit.page(
            "core/asked.html", title=text("Take it back"), kind="danger", path="/desk/back/",
            question=text("Take back %(sum)s from %(account)s?", sum=visit.sum(it["sum"]),
                          account=names.readable(it["account"])),
            more=[text("What was used of it is not given back: the account may be overdrawn. This "
                       "cannot be undone.")],
            fields={"number": number}, yes=text("Take it back"), no=text("Keep it"),
            back=f"/desk/sale/{number}")
    said = sales.take_back(visit.db, places.book(), it, visit.name)
    if said == DIFFERS:
        return sale(visit, number, visit.text(
            "The book has another sale by this number. Nothing was taken back: call the operator."),
            409)
    if said:
        return sale(visit, number, visit.text(
            "The book does not say that it has this sale. Nothing was taken back: try again in a "
            "minute, or call the operator."), 503)
    return web.lead(f"/desk/sale/{number}")


def find(visit):
    """An account that is named whole; or those whose names have a text."""
    text = (visit.request.query.getunicode("account") or "").strip()
    known, moment = accounts.known()
    octets = names.octets_typed(text)
    it = seen(octets, known) if text else None
    near = accounts.like(text, known) if text and it is None else []
    return visit.page("desk/find.html", text=text, it=it, moment=moment, near=near)


def seen(octets, known):
    """What the book has of an account, if it has it; None of what its desk does not tell."""
    if octets not in known:
        return None

    def newest(question, key):
        found = accounts.told(places.book(), octets, question)
        return found and sorted(found, key=lambda it: -it[key])[:LINES]

    return {"balance": known[octets], "sessions": newest(accounts.SESSIONS, "last"),
            "topups": newest(accounts.TOPUPS, "when")}


def shift(visit, said=""):
    db, who = visit.db, visit.name
    sums = sales.sums(db, who)
    return visit.page("desk/shift.html", rows=sales.of_shift(db, who), net=sums["net"], said=said,
                      counted=counted(visit, sums), waiting=sales.waiting(db, who),
                      shifts=sales.shifts(db, who, visit.role), readable=names.readable)


def counted(visit, it):
    """The sums of a shift in words."""
    return visit.text("%(count)s sales: %(sold)s sold, %(back)s taken back.", count=it["count"],
                      sold=visit.sum(it["sold"]), back=visit.sum(-it["back"]))


def end_shift(visit):
    """Asks, and then ends the shift."""
    if not visit.field("sure"):
        it, text = sales.sums(visit.db, visit.name), visit.text
        more = [counted(visit, it)]
        if waiting := len(sales.waiting(visit.db, visit.name)):
            more.append(text("%(count)s have no answer yet: leave their money in the drawer. They "
                             "count in the next shift.", count=waiting))
        return visit.page(
            "core/asked.html", title=text("End the shift"), more=more, kind="primary",
            question=text("End the shift with %(net)s?", net=visit.sum(it["net"])),
            path="/desk/shift/", fields={}, yes=text("End the shift"), no=text("Go on selling"),
            back="/desk/shift/")
    is_ended = sales.end_shift(visit.db, visit.name)
    return shift(visit, visit.text("The shift has ended. Its sums stay below.") if is_ended else
                 visit.text("Nothing was sold since the last shift."))
