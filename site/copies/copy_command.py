"""Copies the site, now or each night, and checks copies.

A copy is a folder of /var/backups/radacctd, for root alone: the book with its log, site.db, users,
configuration, secrets and certificates, with their SHA-256 sums. radacctd stops while its book is
copied, and FreeRADIUS keeps reports meanwhile. A copy gets its name once it was checked.
`radacctl copy` alone makes one now, by radacctd-copy.service."""

import os
import time

from radacctd_site.core import Failed, machine, names
from radacctd_site.copies import book, kept, taking

UNIT = "radacctd-copy.service"


def arguments(it):
    acts = it.add_subparsers(dest="act")
    check = acts.add_parser("check", help="see whether a copy is whole, and its book sound")
    check.add_argument("folder")
    acts.add_parser("make", help="what the unit does: make a copy, and remove old ones")


def now():
    """By the unit. What kills the unit may kill what starts the server at its end, too, as systemd
    257 does: then the server is started here."""
    begun = time.strftime("%F %T")
    status = machine.run("systemctl", "start", UNIT, seconds=86400)[0]
    if os.path.exists(book.STOPPED):
        os.remove(book.STOPPED)
        machine.given(["systemctl", "start", book.UNIT])
    words = ["journalctl", "-u", UNIT, "-t", "radacctl", "--since", begun, "-o", "cat"]
    print(names.plain(machine.given(words), "\n"), end="")
    if status:
        raise Failed(f"{UNIT} has failed")


def main(words):
    if words.act is None:
        now()
    elif words.act == "make":
        taking.night()
    else:
        when = kept.check(words.folder)
        print(f"{words.folder} is as it was written, and its book is sound: of {when}")
    return 0
