"""Packages, codes and names, the pages and what a kill leaves, over a book in memory."""

import contextlib
import hashlib
import io
import sqlite3
import time
import urllib.parse
from unittest import mock

from radacctd_site.core import (
    Failed, accounts, acts, codes, corrections, desk, features, minute, store)
from radacctd_site.core.features import CASHIER, OPERATOR
from radacctd_site.core.test_client import Browser, Site
from radacctd_site.packages import logins, packages, users

KEY = "key-of-codes-00001"
CODE = "ACDEF-HJKMN-PQRT" + codes.check_letter("ACDEFHJKMNPQRT")
TABLES = """
CREATE TABLE radcheck (id INTEGER PRIMARY KEY, username TEXT NOT NULL, attribute TEXT NOT NULL,
    op TEXT NOT NULL, value TEXT NOT NULL);
CREATE TABLE radgroupcheck (id INTEGER PRIMARY KEY, groupname TEXT NOT NULL,
    attribute TEXT NOT NULL, op TEXT NOT NULL, value TEXT NOT NULL);
CREATE TABLE radgroupreply (id INTEGER PRIMARY KEY, groupname TEXT NOT NULL,
    attribute TEXT NOT NULL, op TEXT NOT NULL, value TEXT NOT NULL);
CREATE TABLE radusergroup (username TEXT NOT NULL, groupname TEXT NOT NULL, priority INT NOT NULL);
"""


def digest(code):
    return hashlib.sha256((KEY + code.replace("-", "")).encode()).hexdigest()


class Killed(BaseException):
    """The process ends here."""


class Packages(Site):
    """Each test has a package `week` of 9.00, and `open`, which costs nothing."""

    def setUp(self):
        super().setUp()
        self.users = sqlite3.connect(users.path(), isolation_level=None)
        self.addCleanup(self.users.close)
        self.users.executescript(TABLES)
        self.enterContext(mock.patch.object(logins, "key", lambda: KEY))
        self.list_plans({"gold": corrections.WANTED, "free": corrections.WANTED})
        self.write_balances()
        # What the book has of an account is asked of it: credits, and sessions of others.
        self.sessions = set()
        self.book.look = self.asked
        self.put("week", "--plan", "gold", "--sum", "9.00", "--devices", "2", "--valid", "7d")
        self.put("open", "--plan", "free", "--speed", "2M/1M")

    def asked(self, path):
        account, _, question = path.removeprefix("/accounts/").partition("/")
        if self.book.is_away:
            return 0, None
        has = {"topups": account in {it for it, _ in self.book.credits.values()},
               "sessions": urllib.parse.unquote(account) in self.sessions}
        return 200, {question: [{}] if has[question] else []}

    def put(self, *words):
        self.run_it("package", "put", *words)

    def rows(self, table):
        columns = users.TABLES[table][1]
        return {tuple(it) for it in self.users.execute(f"SELECT {columns} FROM {table}")}

    def names(self):
        return {it for it, in self.users.execute("SELECT username FROM radusergroup")}

    def make(self, package="week", code=None, name="", who=CASHIER):
        package, code = packages.for_sale(self.db, package), code or codes.new()
        found = logins.drawn(KEY, package, code, who, name)
        logins.make(self.db, self.book, [found])
        return found

    def state(self, account):
        [found] = logins.named(self.db, account)
        return found["state"]

    def minute(self):
        with contextlib.redirect_stdout(io.StringIO()):
            return minute.main(None)


class Terms(Packages):
    def test_a_package_is_a_group(self):
        self.assertEqual(self.rows("radgroupreply"), {
            ("week", "Class", ":=", "gold"), ("open", "Class", ":=", "free"),
            ("open", "Mikrotik-Rate-Limit", ":=", "1000k/2000k"),
            ("open", "WISPr-Bandwidth-Max-Down", ":=", "2000000"),
            ("open", "WISPr-Bandwidth-Max-Up", ":=", "1000000")})
        self.assertEqual(self.rows("radgroupcheck"), {
            ("week", "Front-Devices", ":=", "2"), ("week", "Front-Valid", ":=", "604800")})

    def test_what_is_not_given_stays_and_no_takes_away(self):
        self.put("week", "--until", "2099-12-31T12:00", "--slow", "open")
        self.put("week", "--devices", "no")
        until = str(int(time.mktime((2099, 12, 31, 12, 0, 0, 0, 0, -1))))
        self.assertEqual({it[1:] for it in self.rows("radgroupcheck")}, {
            ("Expiration", ":=", until), ("Front-Slow", ":=", "open")})
        self.assertIn("week: 9.00 EUR, until 2099-12-31 12:00, plan gold, then open; live 0",
                      self.run_it("package", "list"))
        self.assertEqual([it.name for it in packages.sold(self.db)], ["week"])

    def test_wrong_values_change_nothing(self):
        before = self.rows("radgroupcheck") | self.rows("radgroupreply")
        for words in (("--speed", "20"), ("--speed", "0k/1k"), ("--devices", "0"),
                      ("--valid", "7w"), ("--valid", "9999999d"), ("--until", "2026-12-31"),
                      ("--plan", '"gold"'), ("--slow", "week"), ("--slow", "none"),
                      ("--sum", "9.001"), ("--valid", "59")):
            self.assertRaises(Failed, self.put, "week", *words)
        for words in (("Week", "--plan", "x"), ("new", "--devices", "1")):
            self.assertRaises(Failed, self.put, *words)
        self.put("week", "--slow", "open")
        for words in (("--speed", "no"), ("--slow", "week")):
            self.assertRaisesRegex(Failed, "with a speed|has a speed", self.put, "open", *words)
        self.put("week", "--slow", "no")
        self.assertEqual(self.rows("radgroupcheck") | self.rows("radgroupreply"), before)

    def test_a_plan_is_one_of_radacctds(self):
        self.list_plans({"default": corrections.WANTED, "g%C3%A4ste": corrections.WANTED})
        self.assertRaisesRegex(Failed, "no plan glod: default", self.put, "week", "--plan", "glod")
        with mock.patch("radacctd_site.core.places.become_user", side_effect=Failed("as root")):
            self.assertRaisesRegex(Failed, "as root", self.put, "week", "--plan", "glod")
        self.put("week", "--plan", "gäste")
        self.assertIn(("week", "Class", ":=", "gäste"), self.rows("radgroupreply"))

    def test_what_others_wrote_stays(self):
        self.users.execute("INSERT INTO radgroupreply VALUES (NULL, 'fast', 'Class', ':=', 'x')")
        self.users.execute("INSERT INTO radcheck VALUES "
                           "(NULL, 'al', 'Cleartext-Password', ':=', 'x')")
        self.assertRaisesRegex(Failed, "a group fast", self.put, "fast", "--plan", "gold")
        self.assertRaisesRegex(Failed, "al is there", self.make, name="al")
        self.minute()
        self.assertIn(("fast", "Class", ":=", "x"), self.rows("radgroupreply"))
        self.assertIn("al", {it[0] for it in self.rows("radcheck")})
        self.assertEqual(self.book.asked, [])

    def test_a_package_is_removed_with_its_logins(self):
        one = self.make()
        self.put("week", "--slow", "open")
        self.assertRaisesRegex(Failed, "goes on", self.run_it, "package", "remove", "open", "--yes")
        self.run_it("package", "remove", "week", "--yes")
        self.assertEqual((self.state(one.account), self.names()), ("ended", set()))
        self.assertEqual({it[0] for it in self.rows("radgroupreply")}, {"open"})
        self.put("week", "--plan", "gold")
        self.assertEqual(self.state(one.account), "ended")

    def test_what_is_over_is_not_sold(self):
        self.put("week", "--until", "2020-01-01T00:00")
        self.assertRaisesRegex(Failed, "is not sold", self.make)


class Selling(Packages):
    def test_a_code_is_sold_once_and_nobody_reads_it_in_the_tables(self):
        one = self.make(code=CODE)
        self.make(code=CODE)
        self.assertRaisesRegex(Failed, "before, and nothing now", self.make, "open", code=CODE)
        self.assertEqual(self.book.credits, {f"P-{digest(CODE)[:24].upper()}": (one.account, 900)})
        self.assertEqual(self.rows("radcheck"), {(digest(CODE), "Front-Payer", ":=", one.account)})
        self.assertEqual(self.rows("radusergroup"), {(digest(CODE), "week", 1)})
        with open(users.path(), "rb") as file:
            self.assertNotIn(CODE.replace("-", "")[:10].encode(), file.read())

    def test_a_name_gets_a_password_and_is_nobody_elses(self):
        self.make(code=CODE, name="müller")
        self.assertEqual(self.rows("radcheck"),
                         {("müller", "Cleartext-Password", ":=", "acdef-hjkmn")})
        self.assertEqual([it[0] for it in self.book.credits.values()], ["m%C3%BCller"])
        self.assertRaisesRegex(Failed, "was", self.make, name="müller")
        logins.end(self.db, ["müller"])
        self.assertRaisesRegex(Failed, "was", self.make, name="müller")
        self.sessions.add("roóm 1")
        self.assertRaisesRegex(Failed, "was", self.make, name="roóm 1")
        self.book.credits["V-1"] = "al", 5
        self.assertRaisesRegex(Failed, "was", self.make, name="al")
        del self.book.credits["V-1"]
        # Who pays for another login, and who waits for what was sold at the desk.
        with users.opened() as db:
            db.execute("INSERT INTO radcheck (username, attribute, op, value) VALUES "
                       "('al@x.org', 'Front-Payer', ':=', 'al')")
        self.assertRaisesRegex(Failed, "was", self.make, name="al")
        with self.db:
            acts.begin(self.db, [acts.Act("D-9", "b o", 500, "desk", "anna", 500)])
        self.assertRaisesRegex(Failed, "was", self.make, name="b o")
        # Whom a spent code was tried for is nobody yet.
        with self.db:
            self.db.execute("UPDATE act SET answer = 'differs' WHERE number = 'D-9'")
        self.make(name="b o")
        with users.opened() as db:
            db.execute("INSERT INTO radgroupcheck (groupname, attribute, op, value) VALUES "
                       "('family', 'Front-Payer', ':=', 'smith')")
        self.assertRaisesRegex(Failed, "was", self.make, name="smith")
        self.book.is_away = True
        self.assertRaisesRegex(Failed, "whose", self.make, name="bo")
        self.assertEqual(len(self.book.credits), 2)

    def test_a_code_is_a_key_to_what_is_left_on_it_until_it_ends(self):
        one, other = self.make(), self.make(name="room 12")
        whose = lambda text: [it for it in (does(self.db, text) for does in
                                            features.functions("WHOSE")) if it]
        for text in (one.secret, one.secret.lower().replace("-", " ")):
            self.assertEqual(whose(text), [one.account])
        self.assertEqual([whose(it) for it in (other.secret, codes.new(), "", "room 12")], [[]] * 4)
        logins.end(self.db, [one.account])
        self.assertEqual(whose(one.secret), [])

    def test_it_logs_in_once_the_book_has_the_sum(self):
        self.book.is_away = True
        one = self.make()
        self.assertEqual((self.state(one.account), self.names()), ("waiting", set()))
        self.minute()
        self.assertEqual(self.names(), set())
        self.book.is_away = False
        self.minute()
        self.assertEqual((self.state(one.account), self.names()), ("live", {one.name}))

    def test_what_the_book_refuses_logs_nobody_in(self):
        self.book.credit = lambda *_: desk.LIMIT
        one = self.make()
        self.minute()
        self.assertEqual((self.state(one.account), self.names()), ("refused", set()))

    def test_what_costs_nothing_is_not_asked(self):
        one = self.make("open")
        self.assertEqual((self.book.asked, self.names()), ([], {one.name}))

    def test_nothing_is_sent_if_site_db_cannot_be_written(self):
        self.db.execute("PRAGMA query_only = ON")
        self.assertRaises(sqlite3.Error, self.make)
        self.assertEqual((self.book.asked, self.names()), ([], set()))

    def test_a_kill_at_each_step_is_mended_by_the_next_minute(self):
        """After the rows of site.db; after the book's answer; before and in FreeRADIUS' tables."""
        def killed(*_):
            raise Killed

        def answered(*it):
            credit(*it)
            raise Killed

        credit = self.book.credit
        for place, name, does in ((acts, "send", killed), (self.book, "credit", answered),
                                  (logins, "settle", killed), (logins, "wanted", killed)):
            code = codes.new()
            with mock.patch.object(place, name, does), self.assertRaises(Killed):
                self.make(code=code)
            self.assertNotIn(digest(code), self.names())
            self.minute()
            self.assertIn(digest(code), self.names())
            self.make(code=code)
        self.assertEqual(len(self.book.credits), 4)

    def test_if_users_db_is_locked_it_is_sold_and_waits(self):
        self.users.execute("BEGIN EXCLUSIVE")
        with mock.patch.object(users, "PATIENCE", 0.1), contextlib.redirect_stderr(io.StringIO()):
            self.assertRaisesRegex(Failed, "users.db cannot be used", self.make)
            self.assertEqual(self.book.asked, [])
            with mock.patch.object(users, "names", lambda *_: (set(), set())):
                one = self.make()
            self.assertEqual(self.state(one.account), "waiting")
            self.assertRaises(Failed, logins.end, self.db, [one.account])
        self.users.execute("COMMIT")
        self.minute()
        self.assertEqual((self.names(), self.state(one.account)), (set(), "ended"))

    def test_an_older_or_empty_users_db_is_made_as_site_db_says(self):
        one, other = self.make(), self.make()
        older = [self.rows(it) for it in users.TABLES]
        logins.end(self.db, [one.account])
        for table, rows in zip(users.TABLES, older):
            self.users.execute(f"DELETE FROM {table}")
            for it in rows:
                columns = users.TABLES[table][1]
                self.users.execute(f"INSERT INTO {table} ({columns}) VALUES "
                                   f"({', '.join('?' * len(it))})", it)
        self.assertIn(one.name, self.names())
        self.minute()
        self.assertEqual(self.names(), {other.name})
        for table in users.TABLES:
            self.users.execute(f"DELETE FROM {table}")
        self.minute()
        self.assertEqual((self.names(), len(self.rows("radgroupreply"))), ({other.name}, 5))

    def test_an_end_and_a_sale_at_once_leave_both(self):
        """The later of two writers reads site.db anew: it revives nobody."""
        one, two = self.make(), []

        def ended_meanwhile(db):
            with db:
                db.execute("UPDATE login SET ended = 1 WHERE account = ?", (one.account,))
            with mock.patch.object(users, "PATIENCE", 0.1), self.assertRaises(Failed):
                wanted_by_another()
            return wanted(db)

        def wanted_by_another():
            with mock.patch.object(logins, "wanted", wanted):
                logins.settle(self.db)

        wanted = logins.wanted
        with mock.patch.object(logins, "wanted", ended_meanwhile):
            two.append(self.make())
        self.assertEqual(self.names(), {two[0].name})


class Command(Packages):
    def test_a_sheet_is_made_listed_printed_and_ended(self):
        said = self.run_it("code", "make", "week", "--count", "3")
        sheet = said.strip().rpartition("/")[2]
        self.assertIn("3 of week, 9.00 EUR each", said)
        rows = self.run_it("code", "list", sheet).splitlines()
        self.assertEqual([rows[0], len(rows)], ["account,package,state,sum,sheet,who,made", 4])
        self.assertEqual(len(self.names()), 3)
        page = self.run_it("code", "print", sheet)
        found = {it for it, in self.db.execute("SELECT secret FROM login")}
        self.assertTrue(all(it in page for it in found) and "Hotel Łódź" in page)
        self.assertIn("7\u00a0d from the first login", page)
        self.assertEqual(self.run_it("code", "end", min(found), "--yes"),
                         "ended: 1; 0 had ended before\n")
        self.assertNotIn(min(found), self.run_it("code", "print", sheet).replace("alert", ""))
        self.assertEqual(self.run_it("code", "end", sheet, "--yes"),
                         "ended: 2; 1 had ended before\n")
        self.assertEqual(self.names(), set())

    def test_a_code_or_a_name_is_printed(self):
        code = self.run_it("code", "make", "week").splitlines()[1]
        self.assertIn(digest(code), self.names())
        said = self.run_it("code", "make", "week", "--name", "room 12")
        self.assertRegex(said, r"/packages/room%2012\nroom 12, password [a-z0-9]{5}-[a-z0-9]{5}\n")
        self.assertEqual(len(self.run_it("code", "list", "week").splitlines()), 3)
        self.assertEqual(len(self.run_it("code", "list", code).splitlines()), 2)

    def test_wrong_words(self):
        for words in (("make", "none"), ("make", "week", "--count", "0"), ("end", "x", "--yes"),
                      ("make", "week", "--count", "2", "--name", "a"), ("print", "x"),
                      ("make", "week", "--name", "a%b")):
            self.assertRaises(Failed, self.run_it, "code", *words)
        with mock.patch("sys.stdin", io.StringIO("")), self.assertRaisesRegex(Failed, "--yes"):
            self.run_it("code", "make", "week", "--count", "112")
        self.assertEqual(self.book.asked, [])

    def test_who_waits_is_said(self):
        self.book.is_away = True
        with self.assertRaisesRegex(Failed, "2 of them log in once"):
            self.run_it("code", "make", "week", "--count", "2")
        self.book.is_away = False
        self.assertEqual((self.minute(), len(self.names())), (0, 2))


class StaffsPage(Packages):
    def sell(self, browser, name="", code=CODE, package="week 900"):
        return browser.post("/packages/", act="make", package=package, name=name, code=code)

    def test_a_cashier_sells_a_code_and_prints_it(self):
        browser = self.browser(CASHIER)
        self.assertEqual([self.sell(browser) for _ in range(2)], [303, 303])
        self.assertEqual(len(self.book.credits), 1)
        self.assertEqual(browser.get(browser.header("Location")), 200)
        self.assertIn(CODE, browser.text)
        self.assertIn("9.00 EUR, 7\u00a0d from the first login, devices: 2", browser.text)
        self.assertEqual({it for it, in self.db.execute("SELECT who FROM act")}, {CASHIER})
        browser.get("/packages/")
        self.assertEqual(len({it for it in browser.text.split('"') if codes.read(it)}), 1)

    def test_a_cashier_has_no_card_of_another_one(self):
        self.make(code=CODE, who="anna")
        for role, wanted in ((CASHIER, 404), (OPERATOR, 200), (None, 303)):
            browser = self.browser(role)
            self.assertEqual(browser.get(f"/packages/c-{digest(CODE)[:12]}"), wanted)
            self.assertEqual(CODE in browser.text, role == OPERATOR)

    def test_a_name_is_sold_and_ended(self):
        browser = self.browser(CASHIER)
        self.assertEqual(self.sell(browser, "room 12"), 303)
        self.assertEqual(browser.header("Location"), "/packages/room%2012")
        browser.get("/packages/room 12")
        self.assertIn("acdef-hjkmn", browser.text)
        self.assertEqual(browser.post("/packages/", act="end", what="room 12"), 200)
        self.assertIn("End it for ever?", browser.text)
        self.assertEqual(self.names(), {"room 12"})
        self.assertEqual(browser.post("/packages/", act="end", what="room 12", sure="yes"), 200)
        self.assertIn("room 12 has ended", browser.text)
        self.assertEqual(self.names(), set())

    def test_each_fault_is_said_and_nothing_is_sold(self):
        browser = self.browser(CASHIER)
        for status, fields in ((409, {"package": "week 800"}), (422, {"package": "none 900"}),
                               (409, {"code": "x"}), (422, {"name": "a'b"})):
            self.assertEqual(self.sell(browser, **fields), status, fields)
        for fields, status in (({"act": "end", "what": "x"}, 404), ({"act": "x"}, 422)):
            self.assertEqual(browser.post("/packages/", **fields), status)
        self.assertEqual(self.book.asked, [])

    def test_nothing_is_sold_to_a_code_and_to_a_login_that_has_ended(self):
        one, browser = self.make(name="room 12"), self.browser(CASHIER)
        self.write_balances()
        self.assertIsNone(accounts.refused(self.db, "room 12"))
        logins.end(self.db, [one.account])
        sold, paths = [*self.book.asked], {it.path for it in features.listed("PAGES")}
        for name, text in (("room 12", "room 12 has ended"), (CODE, "is a code"), ("a'b", "log in")):
            self.assertEqual(self.sell(browser, name=name), 422)
            self.assertIn(text, browser.text)
            for path in {"/desk/", "/redeem/"} & paths:
                for fields in ({}, {"sure": "yes", "number": f"S-{codes.new()}"}):
                    self.assertEqual(browser.post(path, account=name, sum="5", code=codes.new(),
                                                  **fields), 422)
                    self.assertIn(text, browser.text)
        for command in {"sell"} & set(features.commands()):
            self.assertRaisesRegex(Failed, "room 12 has ended", self.run_it, command, "room 12", "5")
        self.assertEqual(self.book.asked, sold)

    def test_who_waits_is_said(self):
        browser = self.browser(CASHIER)
        self.book.is_away = True
        self.sell(browser)
        place = browser.header("Location")
        browser.get(place)
        self.assertIn("waiting", browser.text)
        self.assertNotIn(CODE, browser.text)
        self.book.is_away = False
        self.minute()
        browser.get(place)
        self.assertIn(CODE, browser.text)

    def test_two_cashiers_sell_one_name_once(self):
        browser, other = self.browser(CASHIER), Browser(self.app)
        other.cookies = dict(browser.cookies)
        self.assertEqual(self.sell(browser, "anna"), 303)
        self.assertEqual(self.sell(other, "anna", codes.new()), 422)
        self.assertEqual(len(self.book.credits), 1)

    def test_without_tables_of_freeradius_nothing_is_sold(self):
        browser = self.browser(CASHIER)
        with mock.patch.object(users, "path", lambda: "/nonexistent/users.db"), \
                contextlib.redirect_stderr(io.StringIO()):
            self.assertEqual(self.sell(browser), 422)
            self.assertEqual(self.minute(), 0)
        self.assertEqual(self.book.asked, [])


class Store(Site):
    def test_a_site_without_front_has_a_page_that_sells_nothing(self):
        browser = self.browser(OPERATOR)
        with contextlib.redirect_stderr(io.StringIO()):
            self.assertEqual(browser.get("/packages/"), 200)
        self.assertIn("Nothing is for sale yet", browser.text)
        with store.opened() as db:
            logins.settle_each_minute(db, self.book)
