"""Makes, lists, prints and withdraws printed vouchers: codes that a guest redeems at /redeem/.

A sheet is a page: print it at https://HOST/vouchers/SHEET, or write it by `print` into a file that
a browser prints. A withdrawn code stays so, also if an older site.db is put back: the book has it.
"""

from radacctd_site.core import Failed, cli, money, names, places, store
from radacctd_site.vouchers import vouchers


def arguments(it):
    acts = it.add_subparsers(dest="act", required=True)
    make = acts.add_parser("make", help="make a sheet of new codes")
    make.add_argument("count", type=int, help=f"how many: 1 to {vouchers.LARGEST_COUNT}")
    make.add_argument("sum", help="what each is worth in the site's money, as 5.00")
    listed = acts.add_parser("list", help="print each sheet, or the codes of one as CSV")
    listed.add_argument("sheet", nargs="?")
    printed = acts.add_parser("print", help="print a sheet as a page for a browser (HTML)")
    printed.add_argument("sheet")
    withdraw = acts.add_parser("withdraw", help="end codes for ever")
    withdraw.add_argument("what", nargs="+", help="a sheet's name, a code, or W- and a code")
    for one in (make, withdraw):
        one.add_argument("--yes", action="store_true", help="ask nothing")


def make(db, words):
    site = money.of_site(places.SETTINGS)
    total = site.units(words.sum)
    if total is None:
        raise Failed(f"a sum is more than 0 and has {site.decimals} decimals at most, as "
                     f"{site.plain(500)}: not {words.sum}")
    count, worth = words.count, site.shown(total)
    together = site.shown(count * total)
    if cli.is_much(count, total, site):
        cli.confirm(f"{count} vouchers of {worth}, {together} together?", words.yes)
    name = vouchers.make(db, count, total)
    url = places.settings()["url"].rstrip("/")
    print(f"{count} vouchers of {worth}, {together} together. Print them at {url}/vouchers/{name}")


def show(db, sheet):
    site = money.of_site(places.SETTINGS)
    if not sheet:
        for it in vouchers.sheets(db):
            counts = ", ".join(f"{state} {it[state]}" for state in vouchers.STATES)
            print(cli.plain(f"{it['name']}: of {site.shown(it['sum'])}: {counts}"))
        return
    print(names.csv_of(("code", "sum", "state", "account"), vouchers.codes_of(db, sheet)), end="")


def withdraw(db, book, words):
    found = {code for it in words.what for code in vouchers.named(db, it)}
    if len(found) > 1:
        cli.confirm(f"Withdraw {len(found)} codes for ever?", words.yes)
    new, repeat, spent, rest = vouchers.send(db, book, vouchers.end(db, found, "command"))
    print(f"withdrawn: {new} codes; {repeat} were so before, {spent} were redeemed before")
    if rest:
        raise Failed(f"{rest} are withdrawn here, and the book did not answer: it is asked again "
                     "each minute")


def main(words):
    # The key is read as whoever gave the command.
    book = places.book() if words.act == "withdraw" else None
    places.become_user()
    with store.opened() as db:
        if words.act == "make":
            make(db, words)
        elif words.act == "list":
            show(db, words.sheet)
        elif words.act == "print":
            from radacctd_site.core import paper
            from radacctd_site.vouchers import pages
            page = paper.page("vouchers/sheet.html", pages.values(db, words.sheet))
            print(names.plain(page, "\n\xa0"))
        else:
            withdraw(db, book, words)
    return 0
