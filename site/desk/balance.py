"""Prints what is left on an account, as the book wrote it some seconds ago."""

from radacctd_site.core import Failed, accounts, moment, money, names, places


def arguments(it):
    it.add_argument("account", help="its name; %% and two digits are an octet")


def main(words):
    site = money.of_site(places.SETTINGS)
    places.become_user()
    found, written = accounts.balances()
    balance = found.get(names.octets_of(words.account))
    if balance is None:
        near = ", ".join(accounts.like(words.account, found)) or "none"
        raise Failed(f"the book has no account {words.account}. Names like it: {near}")
    print(f"{site.shown(balance)}  ({moment(written)})")
    return 0
