#!/usr/bin/python3
"""The front desk over the built program: cashiers at once, kills, a full disk, an older book.

Cashiers sell at the pages' service, which gunicorn runs, at the desk of a book that RADACCTD
serves. They take sales back, and use numbers of each other, while the service and the book are
killed KILLS times (200) at random moments. At last the exports of the book have each sale that a
page called sold, each correction that it called done, nothing twice, and nothing that site.db does
not have. Then `radacctl sell` is killed at each step that writes, and finds a full disk; site.db is
full; an older book is put back.

    RADACCTD=.../radacctd site/desk/live.py [KILLS]

RADACCTD_SEED chooses the moments. It needs Debian's gunicorn, python3-bottle, python3-jinja2,
python3-segno and strace. It ends with 0 if all is as it should be, else with 1.
"""

import contextlib
import csv
import functools
import os
import random
import re
import shutil
import sqlite3
import sys
import time

sys.dont_write_bytecode = True
ROOT = os.path.dirname(os.path.dirname(os.path.dirname(os.path.realpath(__file__))))
sys.path.insert(0, os.path.join(ROOT, "interop"))

import kit  # radacctd_site is found by it
from radacctd_site.core import codes, corrections, live, names
from radacctd_site.core.live import cashier
from served import check, report

ACCOUNTS = ("alice", "bob", "müller", "room 12")


def sold(server):
    """The account and the sum of each number that the book has. Who serves it has it alone."""
    server.kill()
    rows = list(csv.reader(server.export("topups")[1:]))
    server.start()
    return {row[0]: (names.octets_of(row[1]).decode(), int(row[2])) for row in rows}


def taken(server):
    """The same of what was taken back; no number may be there twice."""
    server.kill()
    rows = [it for it in csv.DictReader(server.export("sessions"))
            if it["client"] == corrections.CLIENT]
    server.start()
    check("no correction is there twice", len({it["session"] for it in rows}), len(rows))
    return {it["session"]: (names.octets_of(it["account"]).decode(), int(it["charged"]))
            for it in rows}


def sell(browser, account, number=None, total="5.00"):
    """Sells by the page, with a number that it drew, or another one: the number."""
    browser.post("/desk/", account=account, sum=total)
    drawn = re.search(r'name="number" value="([^"]+)"', browser.text)
    number = number or (drawn and drawn[1])
    if number and browser.post("/desk/", account=account, sum=total, number=number,
                               sure="yes") == 303:
        browser.get(browser.header("Location"))
    return number


def by_page(server, service, _):
    """One act at a time, also while the book is away."""
    anna, bert = cashier(service, "anna"), cashier(service, "bert")
    number = sell(anna, "alice")
    check("a sale", "Sold: alice has" in anna.text, True)
    sell(bert, "bob", number)
    check("another's number sells nothing", "Nothing was sold" in bert.text, True)
    sell(anna, "alice", number)
    check("the book has it once", sold(server), {number: ("alice", 500)})
    server.kill()
    other = sell(anna, "bob")
    check("while the book is away the page says so", "Not sold yet" in anna.text, True)
    check("and takes nothing back", anna.post("/desk/back/", "/desk/", number=number, sure="yes"),
          503)
    server.start()
    check("the minute sends it again", service.run("minute"), (0, "answered now: 1\n"))
    anna.get(f"/desk/sale/{other}")
    check("then it is sold", "Sold: bob has" in anna.text, True)
    for status in (303, 409):
        check("a sale is taken back once",
              anna.post("/desk/back/", "/desk/", number=number, sure="yes"), status)
    check("the balance of an account", balance_of(service, "bob", "5.00 EUR"), "5.00 EUR")
    check("an account is found", (anna.get("/desk/find/?account=alice"), "0.00" in anna.text),
          (200, True))
    sessions(server, service, anna)
    check("the ledger", service.run("sales")[1].count("net 10.00 EUR"), 1)
    anna.post("/desk/shift/", sure="yes")
    check("a shift ends", "The shift has ended" in anna.text, True)
    check("the book has one correction", taken(server), {number: ("alice", 500)})


def balance_of(service, account, wanted):
    """What is left of an account, once that is so: the book writes it every few seconds."""
    end = time.monotonic() + 20
    while (found := service.run("balance", account)[1].split("  ")[0]) != wanted:
        if time.monotonic() > end:
            break
    return found


def sessions(server, service, browser):
    """A guest who is on is seen by a cashier, and by the commands of an operator."""
    sell(browser, "room 12")
    server.radclient(report("Start", "1A-1", 3 << 20, ["Calling-Station-Id = 02-00"]))
    check("a session is charged", balance_of(service, "room 12", "4.70 EUR"), "4.70 EUR")
    check("a cashier sees a session", (browser.get("/desk/find/?account=room+12"),
          [it for it in ("02-00", "3.1\u00a0MB", "still on") if it not in browser.text]), (200, []))
    for command in (["who"], ["show", "room 12"]):
        status, said = service.run(*command)
        check(f"radacctl {command[0]}", (status, "3,145,728 octets" in said), (0, True))


class Chaos(live.Chaos):
    """Cashiers at once."""

    def __init__(self, server, service):
        super().__init__(server, service)
        self.numbers, self.sold, self.back = [], set(), set()

    def cashier(self, name):
        pick, browser = random.Random(name), None
        while not self.end:
            try:
                browser = browser or cashier(self.service, name)
                self.act(pick, browser)
            except OSError:
                self.counts["no answer"] += 1
                time.sleep(0.05)

    def act(self, pick, browser):
        """Sells, at times by a number of somebody else, and takes some of it back."""
        account = pick.choice(ACCOUNTS)
        with self.lock:
            number = pick.choice(self.numbers) if self.numbers and pick.random() < 0.2 else None
        number = sell(browser, account, number)
        if not number:
            return
        is_sold = f"Sold: {account} has" in browser.text
        with self.lock:
            self.numbers.append(number)
            self.counts["sold" if is_sold else "else"] += 1
            if is_sold:
                self.sold.add((number, account))
        if is_sold and pick.random() < 0.4:
            browser.post("/desk/back/", f"/desk/sale/{number}", number=number, sure="yes")
            browser.get(f"/desk/sale/{number}")
            if f"Taken back by {browser.name}" in browser.text:
                with self.lock:
                    self.back.add((number, account))

    def judge(self):
        """Sells and kills; what the book has at last."""
        self.run(*[functools.partial(self.cashier, f"c{at}") for at in range(4)])
        had, back = sold(self.server), taken(self.server)
        lost = [it for it in self.sold if had.get(it[0]) != (it[1], 500)]
        check(f"{len(self.sold)} were called sold: the book has each", lost, [])
        lost = [it for it in self.back if back.get(it[0]) != (it[1], 500)]
        check(f"{len(self.back)} were called taken back: the book has each", lost, [])
        wrong = [it for it, found in back.items() if had.get(it) != found]
        check("nothing is taken back that is not sold", wrong, [])
        with contextlib.closing(sqlite3.connect(f"{self.service.folder}/site/site.db")) as db:
            rows = {(number, names.octets_of(account).decode(), total) for number, account, total in
                    db.execute("SELECT number, account, sum FROM act WHERE answer <> 'differs'")}
        found = {(it, *of) for it, of in had.items()}
        found |= {(it, who, -total) for it, (who, total) in back.items()}
        check("site.db has what the book has, and nothing else", rows ^ found, set())
        print(f"          {dict(self.counts)}; {len(had)} sold, {len(back)} taken back")


def stepped(server, service, _):
    """`radacctl sell` is killed before each call that writes, or finds a full disk there."""
    path, wrong, kills, numbers = f"{service.folder}/vouchers.csv", [], 0, set()
    for what in ("signal=SIGKILL", "error=ENOSPC"):
        for call in ("fdatasync", "pwrite64", "sendto"):
            for when in range(1, 30):
                numbers.add(number := f"F-{codes.letters(12).upper()}")
                with open(path, "w", encoding="ascii") as file:
                    file.write(f"voucher,account,sum\n{number},alice,5\nB{number},bob,-2\n")
                with open(path, encoding="ascii") as file:
                    status = live.injected(service, call, when, what, "sell", stdin=file)
                    kills += status != 0
                    file.seek(0)
                    said = service.run("sell", stdin=file)
                if said[0]:
                    wrong.append((what, call, when, said))
                if status == 0:
                    break
    check("stopped as it sells: the next run does it, once", wrong, [])
    had = {it for it, of in sold(server).items() if of == ("alice", 5)}
    back = {it[1:] for it, of in taken(server).items() if of == ("bob", 2)}
    check("it was stopped some times, and each is there once",
          (kills > 10, numbers - had, numbers - back), (True, set(), set()))


def full_disk(server, _, folder):
    """site.db on a disk that is full: nothing is sold, and nothing sent."""
    with live.small_disk(server, folder) as service:
        if service is None:
            return
        browser = cashier(service)
        browser.post("/desk/", account="carl", sum="5.00")
        number = re.search(r'name="number" value="([^"]+)"', browser.text)[1]
        full = live.fill(service)
        fields = {"account": "carl", "sum": "5.00", "number": number, "sure": "yes"}
        check("on a full disk nothing is sold", browser.post("/desk/", **fields), 503)
        check("and the page says so", "Nothing was sold, and nothing was" in browser.text, True)
        os.remove(full)
        check("the book has nothing of it", number in sold(server), False)
        check("with space again it is sold", browser.post("/desk/", **fields), 303)


def older(server, service, _):
    """An older book is put back: what it lacks is sent again."""
    server.kill()
    files = [it for it in os.listdir(server.folder) if it.startswith("book")]
    for it in files:
        shutil.copy(f"{server.folder}/{it}", f"{service.folder}/{it}.older")
    server.start()
    browser = cashier(service, "anna")
    numbers = [sell(browser, it) for it in ACCOUNTS]
    browser.post("/desk/back/", "/desk/", number=numbers[0], sure="yes")
    server.kill()
    before = server.export("balances")
    for it in os.listdir(server.folder):
        if it.startswith("book"):
            os.remove(f"{server.folder}/{it}")
    for it in files:
        shutil.copy(f"{service.folder}/{it}.older", f"{server.folder}/{it}")
    check("an older book lacks something", server.export("balances") != before, True)
    server.start()
    check("all is sent again", service.run("sell", "--again", "2020-01-01")[0], 0)
    server.kill()
    check("and the book is as before", server.export("balances"), before)
    server.start()


if __name__ == "__main__":
    sys.exit(live.over_program(by_page, lambda server, service, _: Chaos(server, service).judge(),
                               stepped, older, full_disk))
