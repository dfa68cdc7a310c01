"""Makes, lists, changes and removes packages: what a login costs, and what it may use.

`put` makes a package, or changes what is given of it: the rest stays. `no` takes a value away. A
change is for each login of the package, from its next session. The sum is what a guest pays, and
what the book credits to the login's account; by the plan of radacctd it is used up.
"""

from radacctd_site.core import Failed, accounts, cli, money, names, places, store
from radacctd_site.packages import logins, packages, users

# Each option of `put`: what reads its text, what `no` makes of it, and what it is.
OPTIONS = {
    "speed": (packages.speed_of, {"down": None, "up": None},
              "bit/s to the guest and from the guest, as 20M/5M"),
    "devices": (packages.devices_of, {"devices": None}, "how many may use a login at once"),
    "valid": (packages.valid_of, {"valid": None}, "how long from the first login, as 7d or 24h"),
    "until": (packages.until_of, {"until": None}, "or until a moment, as 2026-12-31T12:00"),
    "slow": (lambda text: {"slow": text}, {"slow": None},
             "the package by which it goes on once its money is used"),
}


def arguments(it):
    acts = it.add_subparsers(dest="act", required=True)
    put = acts.add_parser("put", help="make a package, or change it")
    put.add_argument("name", help="1 to 24 of a-z, 0-9 and -")
    put.add_argument("--plan", help="the plan of radacctd by which it is used up: its Class")
    put.add_argument("--sum", help="what it costs in the site's money, as 9.00")
    for name, (*_, text) in OPTIONS.items():
        put.add_argument(f"--{name}", help=text)
    acts.add_parser("list", help="print each package, and how many logins it has")
    remove = acts.add_parser("remove", help="remove a package, and end its logins")
    remove.add_argument("name")
    remove.add_argument("--yes", action="store_true", help="ask nothing")


def need_plan(name):
    """Ends unless radacctd has a plan: a session of another name would cost what `default` does."""
    known = accounts.plans()
    if not known:
        print(f"without {accounts.PLANS} nobody knows whether there is a plan {name}")
    elif names.shown(name.encode()) not in known:
        raise Failed(f"radacctd has no plan {name}: {', '.join(known)}")


def changes_of(words):
    """What the options change."""
    found, site = {}, money.of_site(places.SETTINGS)
    if words.plan is not None:
        if why := names.why_not(words.plan):
            raise Failed(f"{words.plan} is no plan: {why}")
        need_plan(words.plan)
        found["plan"] = words.plan
    if words.sum is not None:
        found["sum"] = 0 if words.sum == "no" else site.units(words.sum)
        if found["sum"] is None:
            raise Failed(f"a sum is as {site.plain(900)}: not {words.sum}")
    for name, (reads, nothing, _) in OPTIONS.items():
        if (text := getattr(words, name)) is not None:
            found |= nothing if text == "no" else reads(text)
    return found


def put(db, words):
    if not packages.NAME.fullmatch(words.name):
        raise Failed(f"{words.name} is no name of a package: 1 to 24 of a-z, 0-9 and -")
    known = {it for it, in db.execute("SELECT name FROM package")}
    if words.name in users.names()[1] - known:
        raise Failed(f"FreeRADIUS' tables have a group {words.name} that is no package")
    with db:
        db.execute("BEGIN IMMEDIATE")
        packages.put(db, words.name, changes_of(words))
    logins.settle(db)


def show(db):
    for name, it in packages.every(db).items():
        parts = [packages.terms(it), f"plan {it.plan}", f"then {it.slow}" if it.slow else ""]
        states = [row["state"] for row in logins.listed(db, "package = ?", name)]
        counts = ", ".join(f"{state} {states.count(state)}" for state in logins.STATES)
        text = f"{name}: {', '.join(filter(None, parts))}; {counts}".replace("\u00a0", " ")
        print(cli.plain(text))


def main(words):
    places.become_user()
    with store.opened() as db:
        if words.act == "put":
            put(db, words)
        elif words.act == "list":
            show(db)
        else:
            count = len([*logins.listed(db, "package = ? AND ended IS NULL", words.name)])
            cli.confirm(f"Remove {words.name}, and end its {count} logins for ever?", words.yes)
            logins.remove_package(db, words.name)
    return 0
