#!/usr/bin/python3
"""Packages over real FreeRADIUS with site/front/raddb, the pages' service, and the program's desk.

A cashier sells codes and names on the page; each logs in by PAP, CHAP and MS-CHAP, and pays as its
package says; validity, devices, the slow end, an end at once. Then the desk is away, commands are
killed at each step that writes, and the service KILLS times (40) while cashiers sell: at last each
code that logs in has its sum in the book once, and each that was said to be sold logs in.

    [RADACCTD=.../radacctd] site/packages/live.py [KILLS | machine]

Without RADACCTD a stand-in of the front's tests is the desk. RADACCTD_SEED chooses the moments. With
`machine` it sells codes on a machine that `radacctl setup` made, by its units and users: for that the
program is built (bin/build), and it needs systemd-container, debootstrap and curl. Else it needs
root, Debian's freeradius, freeradius-rest, freeradius-utils, gunicorn, python3-bottle, python3-jinja2
and strace. It ends with 0 if all is as it should be, else with 1.
"""

import contextlib
import os
import random
import re
import shutil
import sqlite3
import sys
import tempfile
import threading
import time

sys.dont_write_bytecode = True
ROOT = os.path.dirname(os.path.dirname(os.path.dirname(os.path.realpath(__file__))))
sys.path[:0] = [os.path.join(ROOT, it) for it in ("interop", "site/front")]

import machine
import kit  # radacctd_site is found by it
import served
import start_site
import test_lab as lab
import test_radius as radius
from radacctd_site.core import codes, live
from radacctd_site.core.live import Service
from served import check

CODE_KEY = "0123456789abcdef0123"
SPEED = (radius.MIKROTIK, 8)
WEEK = ("week", "--plan", "gold", "--sum", "9.00", "--devices", "2", "--valid", "7d", "--speed",
        "20M/5M", "--slow", "crawl")


class Lab(lab.Lab):
    """A front whose users.db is where the service has it, with the rights that the set-up gives."""

    def made_users(self):
        os.makedirs(self.path("service", "site"), mode=0o711)
        found, place = super().made_users(), self.path("service", "site", "users.db")
        found.close()
        os.rename(self.path("users.db"), place)
        shutil.chown(place, "root", "freerad")
        os.chmod(place, 0o640)
        return sqlite3.connect(place, isolation_level=None)

    def made_folder(self):
        super().made_folder()
        lab.edited(os.path.join(self.raddb, "users.conf"),
                   [(self.path("users.db"), self.path("service", "site", "users.db"))])

    def written_settings(self):
        super().written_settings()
        lab.edited(os.path.join(self.raddb, "settings.conf"), [("key-of-codes", CODE_KEY)])

    def says(self, name, password=None, **how):
        """Who pays by which plan, or the code of the answer; how fast."""
        reply = self.login(name, name if password is None else password, **how)
        stamp = (radius.first(reply, radius.CLASS) or b"").decode().rpartition(";")[0]
        return stamp or radius.CODES[reply.code], (radius.first(reply, SPEED) or b"").decode()

    def logs_in(self, code):
        return self.says(code)[0] != "reject"

    def uses(self, code, number, octets, station, status=3):
        """A report of a session of a code."""
        given = radius.first(self.login(code, code, more=[(radius.STATION, station)]), radius.CLASS)
        pairs = [(radius.STATUS, status), (radius.ID, number), (radius.USER, code), (43, octets),
                 (radius.STATION, station), (radius.NAS_NAME, "ap")]
        return self.report([*pairs, *([(radius.CLASS, given)] if given else [])])


class Site:
    """The front, the service and a cashier's browser."""

    def __init__(self, front):
        self.front = front
        self.service = Service(front.path("service"), front.desk, "cash-key-00000001")
        self.service.write("radacctd-codes.key", CODE_KEY + "\n")
        self.service.write("balances.csv", "account,balance,overrun\n")
        self.service.env["RADACCTD_BALANCES"] = front.path("service", "balances.csv")
        self.service.start()
        self.browser = live.cashier(self.service)

    def must(self, *words):
        status, said = self.service.run(*words)
        check(" ".join(words[:3]), (status, said if status else ""), (0, ""))
        return said

    def sold(self, package, name="", browser=None, code=None):
        """The status of a sale on the page, and the code that the form drew."""
        browser, code = browser or self.browser, code or codes.new()
        status = browser.post("/packages/", act="make", package=package, name=name, code=code)
        return status, code

    def card(self):
        """The page to which the sale led."""
        self.browser.get(self.browser.header("Location"))
        return self.browser.text

    def site_db(self, query):
        with contextlib.closing(sqlite3.connect(f"{self.service.folder}/site/site.db")) as db:
            return db.execute(query).fetchall()

    def account(self, code):
        return self.site_db(f"SELECT account FROM login WHERE secret = '{code}'")[0][0]


def proofs(site):
    front = site.front
    status, code = site.sold("week 900")
    check("a code is sold on the page, and shown", (status, code in site.card()), (303, True))
    payer = f"gold;;{site.account(code)}"
    for typed in (code, code.lower(), code.replace("-", ""), code.replace("-", " ")):
        check(f"by PAP and CHAP as {typed}", [front.says(typed, chap=it) for it in (False, True)],
              [(payer, "5000k/20000k")] * 2)
        words = f'User-Name = "{typed}"', f'MS-CHAP-Password = "{typed}"'
        check("by MS-CHAP", front.radclient(*words), "accept")
    check("by PEAP", "SUCCESS" in front.eap("PEAP", code, "x", code, "auth=MSCHAPV2"), True)
    wrong = codes.new()
    check("a wrong password, a code that nobody sold", (front.says(code, wrong)[0], front.says(
        wrong)[0]), ("reject", "reject"))
    status, code = site.sold("week 900", "müller 12")
    text = site.card()
    password = code[:11].lower()
    check("a name is sold, and has a password", (status, password in text), (303, True))
    check("who logs in by it", front.says("müller 12", password)[0], "gold;;m%C3%BCller%2012")
    check("not without it", front.says("müller 12", "x")[0], "reject")
    check("a name is sold once", site.sold("week 900", "müller 12")[0], 422)


def terms(site):
    front = site.front
    _, code = site.sold("week 900")
    left = lambda it: int.from_bytes(radius.first(front.login(it, it), 27) or b"", "big")
    check("the week begins with the first login", left(code) in range(604_795, 604_801), True)
    first = sqlite3.connect(os.path.join(front.kept, "first.db"), isolation_level=None)
    first.execute("UPDATE first SET moment = moment - 604800")
    check("after the week it is refused", front.says(code)[0], "reject")
    _, code = site.sold("week 900")
    for station in (b"02-01", b"02-02"):
        check("a device", front.uses(code, f"session {station}", 1, station), True)
    third = front.login(code, code, more=[(radius.STATION, b"02-03")])
    check("a third device", (third.code, radius.first(third, 18)),
          (3, b"Too many devices use this login now."))
    until = time.strftime("%Y-%m-%dT%H:%M", time.localtime(time.time() + 3600))
    site.must("package", "put", "hour", "--plan", "free", "--until", until)
    _, code = site.sold("hour 0")
    check("until a moment", left(code) in range(3530, 3601), True)
    site.must("package", "put", "hour", "--until", "2020-01-01T00:00")
    check("and not after it", front.says(code)[0], "reject")


def slow_and_end(site):
    front, (_, code) = site.front, site.sold("week 900")
    check("it is used up", front.uses(code, "s1", 100 << 20, b"02-09", 2), True)
    check("and goes on slowly", front.says(code), (f"free;;{site.account(code)}", "256k/512k"))
    check("an end", site.browser.post("/packages/", act="end", what=code, sure="yes"), 200)
    check("is one at once", front.says(code)[0], "reject")
    _, code = site.sold("week 900")
    site.must("code", "end", site.account(code))
    check("by the command, too", front.says(code)[0], "reject")
    said = site.must("code", "make", "week", "--count", "3")
    sheet = said.strip().rpartition("/")[2]
    page = site.must("code", "print", sheet)
    found = [it for it, in site.site_db(f"SELECT secret FROM login WHERE sheet = '{sheet}'")]
    check("a sheet has three codes", [it in page and front.logs_in(it) for it in found], [True] * 3)
    site.must("code", "end", sheet, "--yes")
    check("it ends as one", [front.logs_in(it) for it in found], [False] * 3)


def away(site):
    """The sum is not in the book: nobody logs in, and later each does."""
    front = site.front
    front.stop_book()
    status, code = site.sold("week 900")
    text = site.card()
    check("the desk is away", (status, "waiting" in text, code in text), (303, True, False))
    front.start_book()
    check("nobody logs in", front.logs_in(code), False)
    check("the minute sends it", site.service.run("minute"), (0, "answered now: 1\n"))
    check("and it logs in", front.logs_in(code), True)


def judge(site, what):
    """After a minute: who logs in is who is live, and each login that was sold has its sum once."""
    while site.service.run("minute")[1]:
        pass
    rows = site.site_db("SELECT account, secret, ended FROM login WHERE package = 'pass'")
    balances, wrong = site.front.balances(), []
    for account, secret, ended in rows:
        if site.front.logs_in(secret) != (ended is None) or balances.get(account) != 100:
            wrong.append((account, ended, balances.get(account)))
    check(f"{what}: {len(rows)} logins, {sum(it[2] is None for it in rows)} live", wrong, [])


def stepped(site):
    """A command is killed before each call that writes: a minute later all is done, or none."""
    kills, early, shut, (_, other) = 0, [], 0, site.sold("pass 100")
    for words in (("code", "make", "pass"), ("code", "end")):
        for call in ("pwrite64", "fdatasync", "sendto", "unlink"):
            for when in range(1, 40):
                what = [] if words[1] == "make" else [site.account(site.sold("pass 100")[1])]
                if not live.injected(site.service, call, when, "signal=SIGKILL", *words, *what):
                    break
                kills += 1
                if not site.front.logs_in(other):
                    shut += 1
                    site.service.run("minute")
                    early += [] if site.front.logs_in(other) else [other]
                credited = site.front.balances()
                early += [it for it, secret in site.site_db("SELECT account, secret FROM login "
                          "WHERE ended IS NULL AND package = 'pass'")
                          if it not in credited and site.front.logs_in(secret)]
    check("killed some times", kills > 20, True)
    check(f"logins were shut {shut} times until the next minute, and no code logged in before the "
          "book had its sum", early, [])
    judge(site, f"after {kills} kills of commands")


def chaos(site, kills):
    """Cashiers sell while the service is killed: a form is sent until it is answered."""
    pick, end, said = random.Random(int(os.environ.get("RADACCTD_SEED", "81"))), [], []

    def cashier(browser):
        while not end:
            code = codes.new()
            with contextlib.suppress(OSError):
                while not end and site.sold("pass 100", "", browser, code)[0] != 303:
                    time.sleep(0.05)
                said.append(code)

    browsers = [live.cashier(site.service) for _ in range(3)]
    threads = [threading.Thread(target=cashier, args=(it,)) for it in browsers]
    for it in threads:
        it.start()
    for _ in range(kills):
        time.sleep(pick.uniform(0, 0.5))
        site.service.kill()
        site.service.start()
    end.append(True)
    for it in threads:
        it.join()
    judge(site, f"after {kills} kills of the service")
    known = {it for it, in site.site_db("SELECT secret FROM login WHERE ended IS NULL")}
    check(f"{len(said)} codes that were said to be sold are", set(said[:-3]) - known, set())


class Box:
    """A machine that the set-up made, with nginx, units and users as a site has them."""

    def __init__(self, box, folder):
        self.box, self.jar = box, os.path.join(folder, "jar")
        start_site.prepare(box, folder)
        start_site.set_up(box)
        clients = box.must(f"cat {start_site.FRONT}/clients.conf")
        self.secret = re.search(r"client radacctd-setup \{\n.*\n\tsecret = '(\S+)'", clients)[1]

    def logs_in(self, code):
        pairs = f"User-Name={code},User-Password={code},Packet-Src-IP-Address=127.0.0.8"
        said = self.box.run(f"echo '{pairs}' | radclient -x 127.0.0.1 auth {self.secret}")[1]
        return "Received Access-Accept" in said

    def page(self, path, **fields):
        """What the form of a page has, or of the answer to one that is sent."""
        words = ["curl", "-sk", "-m", "20", "--resolve", f"{start_site.HOST}:443:127.0.0.1", "-b",
                 self.jar, "-c", self.jar, f"https://{start_site.HOST}{path}"]
        words += [it for name, value in fields.items() for it in ("--data-urlencode",
                                                                  f"{name}={value}")]
        said = self.box.beside(words)[1]
        return dict(re.findall('name="(token|code)" value="([^"]+)"', said))

    def sold(self):
        """The code that a cashier sells at the page."""
        notes = self.box.must(f"cat {start_site.NOTES}/cashiers.txt")
        password = re.search(r"(?m)^anna (\S+)$", notes)[1]
        self.page("/login/", name="anna", password=password, **self.page("/login/"))
        form = self.page("/packages/")
        self.page("/packages/", act="make", package="day 300", **form)
        return form["code"]


def on_machine():
    with tempfile.TemporaryDirectory() as folder:
        machine.staged(folder)
        with machine.Machine(start_site.PACKAGES, states=("running", "degraded")) as found:
            site = Box(found, folder)
            found.must("radacctl package put day --plan default --sum 3.00 --valid 24h")
            code = found.must("radacctl code make day").splitlines()[1]
            sold = site.sold()
            check("a code of the command and one of the page log in",
                  (site.logs_in(code), site.logs_in(sold)), (True, True))
            found.must(f"radacctl code end {code}; systemctl start radacctd-minute")
            check("one that is ended does not", (site.logs_in(code), site.logs_in(sold)),
                  (False, True))
            check("the check finds nothing", start_site.is_sound(found), [])


def on_loopback(kills):
    print(f"over {lab.OVER}")
    with Lab() as front:
        site = Site(front)
        try:
            for words in (("crawl", "--plan", "free", "--speed", "512k/256k"), WEEK,
                          ("pass", "--plan", "free", "--sum", "1.00")):
                site.must("package", "put", *words)
            for part in (proofs, terms, slow_and_end, away):
                part(site)
            stepped(site)
            chaos(site, kills)
        finally:
            site.service.kill()


def main():
    if sys.argv[1:] == ["machine"]:
        on_machine()
    else:
        on_loopback(int(sys.argv[1]) if sys.argv[1:] else 40)
    print("failed:", served.failures)
    return 1 if served.failures else 0


if __name__ == "__main__":
    sys.exit(main())
