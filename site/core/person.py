"""Makes, lists and ends logins of those who work at the site.

A password is read from standard input, or asked for. Whoever gets a new one is logged out.
"""

import getpass
import sys

from radacctd_site.core import Failed, cli, people, places, store
from radacctd_site.core.features import CASHIER, OPERATOR


def arguments(it):
    acts = it.add_subparsers(dest="act", required=True)
    put = acts.add_parser("put", help="make a person's login, or change it")
    put.add_argument("name", help="as the person types it")
    put.add_argument("--operator", action="store_true", help="may do all, and not only sell")
    remove = acts.add_parser("remove", help="end a person's login and sessions")
    remove.add_argument("name")
    acts.add_parser("list", help="print each person's name and role")


def password():
    if not sys.stdin.isatty():
        return sys.stdin.readline().rstrip("\n")
    found = getpass.getpass("Password: ")
    if getpass.getpass("Again: ") != found:
        raise Failed("these were two passwords: nothing was done")
    return found


def main(words):
    places.become_user()
    with store.opened() as db:
        if words.act == "put":
            people.put(db, words.name, OPERATOR if words.operator else CASHIER, password())
        elif words.act == "remove":
            if not people.remove(db, words.name):
                raise Failed(f"nobody is called {words.name}")
        else:
            for row in db.execute("SELECT name, role FROM person ORDER BY name"):
                print(cli.plain(f"{row['name']}: {row['role']}"))
    return 0
