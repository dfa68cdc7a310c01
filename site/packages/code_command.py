"""Makes, lists, prints and ends logins of a package: codes, and names with a password.

A code is name and password. It logs in once the book has its sum. Cards are a page: print it at
https://HOST/packages/SHEET, or write it by `print` into a file that a browser prints. Who has that
page may use the codes. What is left on a login that ended stays on its account.
"""

import datetime

from radacctd_site.core import Failed, acts, cli, codes, moment, money, names, places, store
from radacctd_site.packages import logins, packages

COLUMNS = ("account", "package", "state", "sum", "sheet", "who", "made")


def arguments(it):
    one_of = it.add_subparsers(dest="act", required=True)
    make = one_of.add_parser("make", help="make and sell codes, or a name with a password")
    make.add_argument("package")
    make.add_argument("--count", type=int, default=1, help=f"how many codes: 1 to {logins.MOST}")
    make.add_argument("--name", help="the name of a guest, in the place of a code")
    listed = one_of.add_parser("list", help="print logins as CSV: all, or those of a text")
    listed.add_argument("what", nargs="?", help="a code, name, serial number, sheet or package")
    printed = one_of.add_parser("print", help="print cards as a page for a browser (HTML)")
    printed.add_argument("what", help="a code, name, serial number or sheet")
    end = one_of.add_parser("end", help="end logins for ever")
    end.add_argument("what", nargs="+", help="a code, name, serial number or sheet")
    for one in (make, end):
        one.add_argument("--yes", action="store_true", help="ask nothing")


def make(db, book, key, words):
    package, site = packages.for_sale(db, words.package), money.of_site(places.SETTINGS)
    count, worth = words.count, site.shown(package.sum)
    if not 1 <= count <= logins.MOST or words.name and count != 1:
        raise Failed(f"make 1 to {logins.MOST} codes, or one name")
    if words.name and (why := names.why_not(words.name) or logins.refuses(db, words.name)):
        raise Failed(f"{words.name} cannot be a name: {why}")
    if cli.is_much(count, package.sum, site):
        cli.confirm(f"{count} codes of {worth}, {site.shown(count * package.sum)} together?",
                    words.yes)
    sheet = f"{package.name}-{datetime.date.today():%Y%m%d}-{codes.letters(5)}" * (count > 1)
    made = [logins.drawn(key, package, codes.new(), acts.COMMAND, words.name or "", sheet)
            for _ in range(count)]
    logins.make(db, book, made)
    what = sheet or made[0].account
    print(f"{count} of {package.name}, {worth} each. To print: radacctl code print '{what}', or "
          f"/packages/{logins.quoted(what)}")
    if not sheet:
        print(f"{made[0].account}, password {made[0].secret}" if words.name else made[0].secret)
    wait = sum(it["state"] != logins.LIVE for it in logins.named(db, what))
    if wait:
        raise Failed(f"{wait} of them log in once the book has answered: it is asked each minute")


def found_by(db, what):
    """The logins that a person means."""
    found = logins.named(db, what)
    if not found:
        raise Failed(f"{what} is no code, name, serial number or sheet: nothing was done")
    return found


def show(db, what):
    found = logins.named(db, what) if what else logins.listed(db)
    found = found or logins.listed(db, "package = ?", what)
    site = money.of_site(places.SETTINGS)
    rows = ({**it, "sum": site.plain(it["sum"]), "made": moment(it["made"])} for it in found)
    print(names.csv_of(COLUMNS, [[row[name] for name in COLUMNS] for row in rows]), end="")


def end(db, words):
    found = {it["account"]: it["state"] for what in words.what for it in found_by(db, what)}
    open_ones = [name for name, state in found.items() if state != logins.ENDED]
    if len(open_ones) > 1:
        cli.confirm(f"End {len(open_ones)} logins for ever?", words.yes)
    logins.end(db, open_ones)
    print(f"ended: {len(open_ones)}; {len(found) - len(open_ones)} had ended before")


def main(words):
    # Both are read as whoever gave the command.
    book, key = (places.book(), logins.key()) if words.act == "make" else (None, None)
    places.become_user()
    with store.opened() as db:
        if words.act == "make":
            make(db, book, key, words)
        elif words.act == "list":
            show(db, words.what)
        elif words.act == "print":
            found = found_by(db, words.what)
            # Only who prints needs what pages are made with: the package suggests it.
            from radacctd_site.core import paper
            from radacctd_site.packages import pages
            page = paper.page("packages/cards.html", pages.values(db, words.what, found))
            print(names.plain(page, "\n\xa0"))
        else:
            end(db, words)
    return 0
