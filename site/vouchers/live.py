#!/usr/bin/python3
"""Printed vouchers over the built program: many guests, one code; kills; a full disk; an older copy.

Guests redeem codes at the pages' service, which gunicorn runs, at the desk of a book that
RADACCTD serves. Two and more ask for one code at once, some codes are withdrawn meanwhile, and the
service and the book are killed KILLS times (200) at random moments. At last the book's export has
each code once: of the account to which the page said so, or of nobody if it was withdrawn before.
Then a command that makes or withdraws a sheet is killed at each step that writes, and finds a full
disk; site.db is full; an older site.db is put back.

    RADACCTD=.../radacctd site/vouchers/live.py [KILLS]

RADACCTD_SEED chooses the moments. It needs Debian's gunicorn, python3-bottle, python3-jinja2,
python3-segno and strace. It ends with 0 if all is as it should be, else with 1.
"""

import contextlib
import csv
import functools
import os
import random
import re
import shutil
import sqlite3
import subprocess
import sys
import time

sys.dont_write_bytecode = True
ROOT = os.path.dirname(os.path.dirname(os.path.dirname(os.path.realpath(__file__))))
sys.path.insert(0, os.path.join(ROOT, "interop"))

import kit  # radacctd_site is found by it
from radacctd_site.core import codes, live, names, store
from served import check

MAKE, WITHDRAW = ("voucher", "make", "3", "1.00"), ("voucher", "withdraw", "--yes")
GUESTS = ("alice", "bob", "müller", "room 12")
# What redeems one code and prints what the book said: a process of its own, which can be killed.
ONE = """
import sys
from radacctd_site.core import names, places, store
from radacctd_site.vouchers import vouchers
with store.opened() as db:
    account = names.octets_typed(sys.argv[1])
    print(*vouchers.redeem(db, places.book(), account, sys.argv[2]), sep=",")
"""


def one(service, account, code):
    """The command line of a process that redeems a code; it needs the service's environment."""
    return ["/usr/bin/python3", "-c", ONE, account, code]


def sheet(service, count, total="5.00"):
    """The name of a new sheet, and its codes."""
    status, said = service.run("voucher", "make", str(count), total, "--yes")
    name = said.strip().rpartition("/")[2]
    check(f"a sheet of {count}", (status, name[:9]), (0, "vouchers-"))
    return name, [it["code"] for it in listed(service, name)]


def listed(service, name):
    return list(csv.DictReader(service.run("voucher", "list", name)[1].splitlines()))


def credited(server):
    """The account and the sum of each code that the book has. Who serves it has it alone."""
    server.kill()
    rows = [it for it in csv.reader(server.export("topups")[1:]) if it[0].startswith("W-")]
    server.start()
    return {row[0][2:]: (names.octets_of(row[1]).decode("utf-8", "replace"), int(row[2]))
            for row in rows}


def redeem(service, account, code, address=None):
    """The status of the page for a guest who is sure; 0 if nobody answered."""
    browser = service.browser(address or f"192.0.2.{random.randrange(1, 250)}")
    try:
        return browser.post("/redeem/", account=account, code=code, sure="yes")
    except OSError:
        return 0


def by_page(server, service, _):
    """One code at a time: new, again, somebody else's, none, while the book is away."""
    name, found = sheet(service, 3)
    statuses = [redeem(service, *it) for it in (
        ("alice", found[0]), ("alice", found[0].lower()), ("bob", found[0]), ("bob", codes.new()),
        ("bob", "x"), ("'bob", found[1]))]
    check("new, again, another's, unknown, no code, no account", statuses,
          [200, 200, 409, 404, 422, 422])
    server.kill()
    check("the book is away", redeem(service, "bob", found[1]), 503)
    server.start()
    check("the minute sends it again", service.run("minute"), (0, "answered now: 1\n"))
    check("and then nothing", service.run("minute"), (0, ""))
    states = {it["code"]: (it["state"], it["account"]) for it in listed(service, name)}
    check("the list has both", [states[it] for it in found[:2]],
          [("given", "alice"), ("given", "bob")])
    browser = service.browser()
    first = [browser.post("/redeem/", account="bob", code=codes.new(), sure="yes")
             for _ in range(6)]
    check("who guesses is stopped", first, [404] * 5 + [429])


class Chaos(live.Chaos):
    """Guests who ask for the same codes at once."""

    def __init__(self, server, service):
        super().__init__(server, service)
        self.name, self.codes = sheet(service, 3 * self.kills)
        self.answers, self.withdrawn = set(), set()

    def guest(self, seed):
        pick = random.Random(seed)
        while not self.end:
            code, account = pick.choice(self.codes), pick.choice(GUESTS)
            status = redeem(self.service, account, code)
            with self.lock:
                self.counts[status] += 1
                if status == 200:
                    self.answers.add((code, account))
            time.sleep(0 if status else 0.05)

    def withdraw(self):
        """Withdraws some codes while guests ask for them; the command is killed at times."""
        for code in self.codes[::3]:
            words = self.service.words("voucher", "withdraw", code)
            process = subprocess.Popen(words, env=self.service.env, stdout=subprocess.DEVNULL,
                                       stderr=subprocess.DEVNULL)
            if self.pick.random() < 0.5:
                time.sleep(self.pick.uniform(0, 0.3))
                process.kill()
            if process.wait() == 0:
                self.withdrawn.add(code)
            if self.end:
                return

    def judge(self):
        """Redeems and kills; what the book has at last."""
        self.run(self.withdraw, *[functools.partial(self.guest, it) for it in range(4)])
        found = credited(self.server)
        lost = [it for it in self.answers if found.get(it[0]) != (it[1], 500)]
        check(f"{len(self.answers)} answers: each code is its account's", lost, [])
        states = {it["code"]: it for it in listed(self.service, self.name)}
        wrong = [it for it, row in states.items()
                 if (row["state"] == "given") != (found.get(it, ("\0",))[0] in GUESTS)]
        check("the list says so, too", wrong, [])
        wrong = [it for it in self.withdrawn if it not in found]
        check(f"{len(self.withdrawn)} withdrawn codes: the book has each", wrong, [])
        wrong = [it for it, (who, total) in found.items() if (who in GUESTS) != (total == 500)]
        check("whoever has a code has its whole sum, and nobody one unit", wrong, [])
        print(f"          {dict(self.counts)}; given {sum(it[0] in GUESTS for it in found.values())}")


def stepped(server, service, _):
    """A command is killed before each call that writes, or finds a full disk there."""
    wrong, kills = [], 0
    for what in ("signal=SIGKILL", "error=ENOSPC"):
        for call in ("fdatasync", "pwrite64", "sendto"):
            for when in range(1, 30):
                name, found = quiet_sheet(service)
                status = live.injected(service, call, when, what, *WITHDRAW, name)
                kills += status != 0
                service.run(*WITHDRAW, name)
                if {it["state"] for it in listed(service, name)} != {"withdrawn"}:
                    wrong.append((what, call, when))
                if status == 0:
                    break
    check("stopped as it withdraws: the next run does it", wrong, [])
    book = credited(server)
    with contextlib.closing(sqlite3.connect(f"{service.folder}/site/site.db")) as db:
        ended = {it[2:] for it, in db.execute("SELECT number FROM act WHERE kind = 'withdraw'")}
    check("and the book has each", [it for it in ended if it not in book], [])
    wrong = []
    for call in ("fdatasync", "pwrite64"):
        for when in range(1, 12):
            before = len(sheets_of(service))
            status = live.injected(service, call, when, "signal=SIGKILL", *MAKE)
            kills += status != 0
            if any(counts != 3 for counts in sheets_of(service)[before:]):
                wrong.append((call, when))
            if status == 0:
                break
    check("stopped as it makes a sheet: all of it is live, or none", wrong, [])
    check("it was stopped some times", kills > 20, True)


def quiet_sheet(service):
    said = service.run("voucher", "make", "2", "1.00")[1]
    return said.strip().rpartition("/")[2], None


def sheets_of(service):
    return [int(it) for it in re.findall(r"live (\d+), given 0, withdrawn 0", service.run(
        "voucher", "list")[1])]


def full_disk(server, _, folder):
    """site.db on a disk that is full: nothing is redeemed, and nothing sent."""
    with live.small_disk(server, folder) as service:
        if service is None:
            return
        _, found = sheet(service, 3)
        before = redeem(service, "alice", found[0])
        full, text = live.fill(service), service.browser()
        status = text.post("/redeem/", account="bob", code=found[1], sure="yes")
        check("on a full disk nothing is redeemed", (before, status), (200, 503))
        check("and the page says so", "nothing was sent" in text.text, True)
        check("the book has nothing of it", found[1] in credited(server), False)
        os.remove(full)
        check("with space again it is", redeem(service, "bob", found[1]), 200)


def older(server, service, _):
    """An older site.db is put back: what was withdrawn since stays so, what was redeemed too."""
    name, found = sheet(service, 4)
    copy = f"{service.folder}/older.db"
    with store.opened(f"{service.folder}/site/site.db") as db:
        db.execute("VACUUM INTO ?", (copy,))
    check("a code is redeemed", redeem(service, "alice", found[0]), 200)
    check("a sheet is withdrawn", service.run("voucher", "withdraw", "--yes", name)[1],
          "withdrawn: 3 codes; 0 were so before, 1 were redeemed before\n")
    service.kill()
    for it in ("", "-wal", "-shm"):
        with contextlib.suppress(FileNotFoundError):
            os.remove(f"{service.folder}/site/site.db{it}")
    shutil.copy(copy, f"{service.folder}/site/site.db")
    service.start()
    statuses = [redeem(service, "bob", it) for it in found]
    check("after an older site.db is put back nobody else gets one", statuses, [409] * 4)
    check("and alice has hers", redeem(service, "alice", found[0]), 200)


if __name__ == "__main__":
    sys.exit(live.over_program(by_page, lambda server, service, _: Chaos(server, service).judge(),
                               stepped, older, full_disk))
