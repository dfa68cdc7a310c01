"""Prints what the book has of an account: its balance, what was credited, its sessions."""

from radacctd_site.core import Failed, accounts, acts, cli, moment, money, names, places, store


def arguments(it):
    it.add_argument("account", help="its name; %% and two digits are an octet")


def main(words):
    book, site = places.book(), money.of_site(places.SETTINGS)
    places.become_user()
    octets = names.octets_of(words.account)
    known, written = accounts.balances()
    if octets not in known:
        raise Failed(f"the book has no account {words.account}: radacctl balance says similar ones")
    print(f"balance {site.shown(known[octets])} ({moment(written)})")
    with store.opened() as db:
        for it in acts.of_account(db, names.for_desk(octets)):
            print(cli.plain(f"{moment(it['answered'])}  {it['kind']:8} {it['number']:24} "
                            f"{site.shown(it['sum'])}  {it['who']}"))
    for it in accounts.told(book, octets, accounts.SESSIONS) or ():
        print(f"{moment(it['last'])}  {it['state']:8} {it['client']} {it['calling']}  "
              f"{it['total']:,} octets, {site.shown(int(it['charged']))}")
    return 0
