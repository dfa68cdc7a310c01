"""The pages of printed vouchers: a guest redeems one; the operator makes, prints, withdraws them."""

import urllib.parse

from radacctd_site.core import Failed, codes, money, names, paper, people, places, web
from radacctd_site.core.desk import DIFFERS, LIMIT, NEW, REPEAT
from radacctd_site.vouchers import vouchers

# How many codes a page withdraws in the book at once; the others follow within a minute.
AT_ONCE = 50


def form(visit):
    given = visit.request.query
    return asked(visit, given.getunicode("account") or "", given.getunicode("c") or "")


def asked(visit, account="", code="", said="", status=200):
    return visit.page("vouchers/redeem.html", status, account=account, code=code, said=said,
                      kind="success" if status == 200 else "danger")


def redeem(visit):
    """Asks whether it is the right account, and then redeems the code."""
    account, code = visit.field("account"), visit.field("code")
    if why := visit.why_not(account):
        return asked(visit, account, code, why, 422)
    if not visit.field("sure"):
        if (read := codes.read(code)) is None:
            return asked(visit, account, code, *text_of(visit, "bad code", account, 0))
        return sure(visit, account, read)
    address = people.network_of(visit.address)
    if not people.may_try(visit.db, "code", address):
        return asked(visit, account, code, visit.text("Too many tries: wait a minute."), 429)
    said, total = vouchers.redeem(visit.db, places.book(), names.octets_typed(account), code)
    if said in (NEW, REPEAT):
        people.forget_try(visit.db, "code", address)
    text, status = text_of(visit, said, account, total)
    return asked(visit, account, "" if status == 200 else code, text, status)


def sure(visit, account, code):
    text, fields = visit.text, {"account": account, "code": code}
    more = text("Capitals and spaces of the account count. Then it cannot go to another account.")
    return visit.page(
        "core/asked.html", title=text("Redeem a voucher"), kind="primary", path="/redeem/",
        question=text("Redeem the voucher %(code)s for the account %(account)s?", **fields),
        more=[more], fields=fields, yes=text("Redeem"), no=text("Change"),
        back=f"/redeem/?{urllib.parse.urlencode({'account': account, 'c': code})}")


def text_of(visit, said, account, total):
    """What a guest reads, and the status of the answer."""
    worth = visit.money().shown(total)
    text = visit.text
    return {
        NEW: (text("Done. %(account)s has %(worth)s more.", account=account, worth=worth), 200),
        REPEAT: (text("This voucher is on the account %(account)s already: %(worth)s. Nothing was "
                      "added.", account=account, worth=worth), 200),
        DIFFERS: (text("This voucher was redeemed for another account. Please ask at the front "
                       "desk."), 409),
        LIMIT: (text("The account %(account)s cannot hold more.", account=account), 422),
        "no such code": (text("There is no such voucher. Check the code, or ask at the front desk."),
                         404),
        "bad code": (text("A letter of the code is wrong. Look at the voucher again: it has 15 "
                          "letters and digits."), 422),
    }.get(said, (text("The accounts cannot be reached now. Wait a minute, then redeem it again for "
                      "the same account. Nothing is lost."), 503))


def sheets(visit, said="", kind="success", status=200):
    return visit.page("vouchers/sheets.html", status, sheets=vouchers.sheets(visit.db),
                      money=visit.money(), said=said, kind=kind)


def change(visit):
    """Makes a sheet, or withdraws one."""
    try:
        return {"make": make, "withdraw": withdraw}[visit.field("act")](visit)
    except (Failed, KeyError) as why:
        return sheets(visit, str(why), "danger", 422)


def make(visit):
    total, count = visit.money().units(visit.field("sum")), visit.field("count")
    if total is None or not count.isdecimal() or not 1 <= int(count) <= vouchers.LARGEST_COUNT:
        return sheets(visit, visit.text(
            "Nothing was made: a sheet has 1 to %(most)s vouchers, and a sum is as %(sum)s.",
            most=vouchers.LARGEST_COUNT, sum=visit.money().plain(500)), "danger", 422)
    name = vouchers.make(visit.db, int(count), total)
    return web.lead(f"/vouchers/{name}")


def withdraw(visit):
    what, db = visit.field("what"), visit.db
    found = vouchers.named(db, what)
    if not visit.field("sure"):
        return visit.page(
            "core/asked.html", title=visit.text("Withdraw"), more=(), kind="danger",
            question=visit.text("Withdraw %(count)s codes of %(what)s for ever?", count=len(found),
                                what=what),
            path="/vouchers/", fields={"act": "withdraw", "what": what}, yes=visit.text("Withdraw"),
            no=visit.text("Keep it"), back="/vouchers/")
    ended = vouchers.end(db, found, visit.name)
    new, repeat, spent, rest = vouchers.send(db, places.book(), ended[:AT_ONCE])
    return sheets(visit, visit.text(
        "Withdrawn: %(count)s codes. %(spent)s of them were spent before. %(rest)s are sent to the "
        "book within a minute.", count=new + repeat, spent=spent, rest=rest + len(ended[AT_ONCE:])))


def values(db, sheet):
    """What the page of a sheet has."""
    url = places.settings()["url"].rstrip("/") + "/redeem/"
    return {"codes": vouchers.codes_of(db, sheet), "name": sheet, "url": url,
            "qr": lambda code: paper.qr(f"{url}?c={code}"), "money": money.of_site(places.SETTINGS)}


def sheet(visit, sheet):
    try:
        found = values(visit.db, sheet)
    except Failed:
        return visit.say(visit.text("There is no such page."), 404)
    return visit.page("vouchers/sheet.html", base="core/base.html", **found)
