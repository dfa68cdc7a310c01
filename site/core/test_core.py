"""Logins, forms, roles, languages, and acts that are sent again."""

import contextlib
import io
import os
import re
import sqlite3
import time
from unittest import mock

from radacctd_site.core import Failed, acts, cli, desk, features, people, store, web
from radacctd_site.core.acts import Act
from radacctd_site.core.features import CASHIER, OPERATOR
from radacctd_site.core.test_client import PASSWORD, Browser, Site

ACT = Act("V-1", "al", 500, "sale", "anna")


class Acts(Site):
    def test_a_row_is_there_before_the_request_and_has_the_answer_after_it(self):
        def credit(*_):
            with store.opened() as other:
                seen.append(other.execute("SELECT number, answer FROM act").fetchone()[:])
            return desk.NEW

        seen, self.book.credit = [], credit
        self.assertEqual(acts.do(self.db, self.book, ACT), desk.NEW)
        self.assertEqual(seen, [("V-1", None)])
        self.assertEqual(self.db.execute("SELECT answer FROM act").fetchone()[0], desk.NEW)

    def test_what_has_no_answer_is_sent_again(self):
        self.book.is_away = True
        self.assertEqual(acts.do(self.db, self.book, ACT), desk.AWAY)
        self.assertEqual(acts.again(self.db, self.book), 0)
        self.book.is_away = False
        self.assertEqual([acts.again(self.db, self.book) for _ in range(2)], [1, 0])
        self.assertEqual(self.book.credits, {"V-1": ("al", 500)})

    def test_what_waits_for_long_is_said(self):
        self.book.is_away = True
        acts.do(self.db, self.book, ACT)
        self.assertEqual(self.run_it("minute"), "")
        with self.db:
            self.db.execute("UPDATE act SET begun = begun - 601")
        with self.assertRaisesRegex(Failed, "1 acts have no answer"):
            self.run_it("minute")
        self.book.is_away = False
        self.assertEqual(self.run_it("minute"), "answered now: 1\n")

    def test_a_night_goes_on_after_a_feature_that_failed(self):
        def fails():
            raise Failed("no disk")

        done = []
        with mock.patch.object(features, "functions", lambda _: [fails, lambda: done.append(1)]):
            self.assertRaisesRegex(Failed, "not all was done: 1 failed", self.run_it, "night")
        self.assertEqual(done, [1])

    def test_what_the_desk_does_not_understand_keeps_nothing_back(self):
        credit, other = self.book.credit, ACT._replace(number="V-2")
        self.book.credit = lambda *it: desk.STRANGE if it[2] == "V-1" else desk.AWAY
        for it in (ACT, other):
            acts.do(self.db, self.book, it)
        self.book.credit = lambda *it: desk.STRANGE if it[2] == "V-1" else credit(*it)
        self.assertEqual([acts.again(self.db, self.book) for _ in range(2)], [1, 0])
        self.assertEqual(list(self.book.credits), ["V-2"])

    def test_the_book_decides_between_two_accounts_of_one_number(self):
        acts.do(self.db, self.book, ACT)
        self.assertEqual(acts.do(self.db, self.book, ACT._replace(account="bo")), desk.DIFFERS)
        self.assertEqual(acts.do(self.db, self.book, ACT), desk.REPEAT)
        found = self.db.execute("SELECT account, answer FROM act ORDER BY account").fetchall()
        self.assertEqual([tuple(it) for it in found], [("al", "new"), ("bo", "differs")])

    def test_nothing_is_sent_if_site_db_cannot_be_written(self):
        self.db.execute("PRAGMA query_only = ON")
        self.assertRaises(sqlite3.Error, acts.do, self.db, self.book, ACT)
        self.assertEqual(self.book.asked, [])

    def test_what_the_book_took_and_site_db_could_not_note_is_sent_again(self):
        def credit(*it):
            self.db.execute("PRAGMA query_only = ON")
            return taken(*it)

        taken, self.book.credit = self.book.credit, credit
        self.assertEqual(acts.do(self.db, self.book, ACT), desk.NEW)
        self.db.execute("PRAGMA query_only = OFF")
        self.assertEqual((acts.waiting(self.db), acts.again(self.db, self.book)), (1, 1))

    def test_nothing_is_sent_if_site_db_is_full(self):
        pages = self.db.execute("PRAGMA page_count").fetchone()[0]
        self.db.execute(f"PRAGMA max_page_count = {pages}")
        with self.assertRaisesRegex(sqlite3.Error, "full"):
            for at in range(10_000):
                acts.do(self.db, self.book, ACT._replace(number=f"V-{at}"))
        sent = {it for it, in self.db.execute("SELECT number FROM act")}
        self.assertEqual(sent, set(self.book.asked))


class Commands(Site):
    def test_the_help_of_each_command_is_a_text(self):
        for name in features.commands():
            said = cli.parser(name, cli.module_of(name)).format_help()
            self.assertNotIn(" object at ", said, name)


class Logins(Site):
    def test_a_login_is_a_token_of_which_the_digest_is_kept(self):
        browser = self.browser(CASHIER)
        cookie = next(value for name, value in browser.headers if name == "Set-Cookie")
        for word in ("Secure", "HttpOnly", "SameSite=Lax", "Path=/"):
            self.assertIn(word, cookie)
        token = browser.cookies[web.COOKIE]
        self.assertEqual([bytes(it) for it, in self.db.execute("SELECT digest FROM session")],
                         [people.digest_of(token)])
        self.assertNotIn(token.encode(), b"".join(
            open(it.path, "rb").read() for it in os.scandir(self.folder)))

    def test_a_session_ends(self):
        def is_in(browser):
            return browser.get("/login/") == 303

        browser = self.browser(CASHIER)
        self.assertTrue(is_in(browser))
        old = dict(browser.cookies)
        self.assertEqual(browser.post("/logout/", "/no-such"), 303)
        browser.cookies = old
        self.assertFalse(is_in(browser))
        browser = self.browser(CASHIER)
        people.put(self.db, CASHIER, CASHIER, "another-long-one")
        self.assertFalse(is_in(browser))
        browser = self.browser(CASHIER)
        with mock.patch.object(time, "time", lambda: begun + people.LASTS + 1):
            begun = int(self.db.execute("SELECT begun FROM session").fetchone()[0])
            self.assertFalse(is_in(browser))
        self.assertTrue(is_in(browser))
        people.remove(self.db, CASHIER)
        self.assertFalse(is_in(browser))

    def test_a_login_gets_a_token_of_its_own(self):
        """Whoever set a cookie before the login has no session after it."""
        people.put(self.db, "anna", CASHIER, PASSWORD)
        browser = Browser(self.app)
        browser.get("/login/")
        before = browser.cookies[web.COOKIE]
        browser.post("/login/", name="anna", password=PASSWORD)
        self.assertNotEqual(browser.cookies[web.COOKIE], before)

    def test_a_cookie_that_is_none_ends_no_page(self):
        people.put(self.db, "anna", CASHIER, PASSWORD)
        browser = Browser(self.app)
        browser.post("/login/", name="anna", password=PASSWORD)
        browser.cookies = {"a,b": "c", "path": "1", "\xe9": "1", **browser.cookies}
        self.assertEqual(browser.get("/desk/"), 200)
        for kind in ("multipart/form-data", "multipart/mixed; boundary=x"):
            self.assertEqual(browser.ask("POST", "/login/", {"name": "x"}, CONTENT_TYPE=kind), 403)
        browser.cookies["a" * 8000] = "c d"
        begun = time.monotonic()
        self.assertEqual((browser.get("/desk/"), time.monotonic() - begun < 0.2), (200, True))

    def test_five_tries_a_minute_by_name_and_by_address(self):
        people.put(self.db, "anna", CASHIER, PASSWORD)
        browser = Browser(self.app)
        found = [browser.post("/login/", name="anna", password="wrong") for _ in range(6)]
        self.assertEqual(found, [403] * 5 + [429])
        other = Browser(self.app, address="192.0.2.2")
        self.assertEqual(other.post("/login/", name="anna", password=PASSWORD), 429)
        self.assertEqual(browser.post("/login/", name="bert", password="wrong"), 429)
        later = time.time() + people.WINDOW + 1
        with mock.patch.object(time, "time", lambda: later):
            self.assertEqual(other.post("/login/", name="anna", password=PASSWORD), 303)

    def test_strangers_lock_nobody_out_where_they_logged_in_before(self):
        for name in ("anna", "bert"):
            people.put(self.db, name, CASHIER, PASSWORD)
        log_in = lambda at, name="anna", password=PASSWORD: Browser(
            self.app, address=f"192.0.2.{at}").post("/login/", name=name, password=password)
        self.assertEqual([log_in(1), log_in(1, "bert")], [303, 303])
        for at in range(2, 7):
            self.assertEqual(log_in(at, password="wrong"), 403)
            # A name that is an address is none.
            self.assertEqual(log_in(at, "192.0.2.1", "wrong"), 403)
        self.assertEqual([log_in(7), log_in(1)], [429, 303])
        self.assertEqual([log_in(1, password="wrong") for _ in range(6)], [403] * 5 + [429])
        self.assertEqual(log_in(1), 429)

    def test_right_logins_are_no_tries(self):
        people.put(self.db, "anna", CASHIER, PASSWORD)
        found = [Browser(self.app).post("/login/", name="anna", password=PASSWORD)
                 for _ in range(7)]
        self.assertEqual(found, [303] * 7)

    def test_addresses_of_one_customer_are_one(self):
        self.assertEqual(people.network_of("2001:db8::1"), people.network_of("2001:db8::2"))
        self.assertNotEqual(people.network_of("192.0.2.1"), people.network_of("192.0.2.2"))

    def test_the_command_makes_and_ends_logins(self):
        with mock.patch("sys.stdin", io.StringIO(f"{PASSWORD}\n")):
            self.run_it("person", "put", "jörg", "--operator")
        self.assertEqual(self.run_it("person", "list"), "jörg: operator\n")
        browser = Browser(self.app)
        self.assertEqual(browser.post("/login/", name="jörg", password=PASSWORD), 303)
        self.run_it("person", "remove", "jörg")
        self.assertEqual(browser.get("/login/"), 200)
        for words, text in ((["put", "a b"], PASSWORD), (["put", "al"], "short"),
                            (["remove", "al"], "")):
            with mock.patch("sys.stdin", io.StringIO(f"{text}\n")), self.assertRaises(Failed):
                self.run_it("person", *words)


class Forms(Site):
    def test_a_large_form_is_refused(self):
        self.assertIn(self.browser().post("/login/", name="a" * 100_000), (403, 413))

    def test_what_a_form_had_is_escaped(self):
        browser = self.browser()
        browser.post("/login/", name='"><script>alert(1)</script>', password="x")
        self.assertNotIn("<script>", browser.text)

    def test_if_site_db_is_locked_the_page_says_that_nothing_was_sent(self):
        browser = self.browser()
        browser.get("/login/")
        with contextlib.closing(sqlite3.connect(f"{self.folder}/site.db")) as other, \
                mock.patch.object(store, "PATIENCE", 0.1), \
                contextlib.redirect_stderr(io.StringIO()):
            other.execute("BEGIN EXCLUSIVE")
            self.assertEqual(browser.post("/login/", name="anna", password="x"), 503)
            self.assertIn("Nothing was sold", browser.text)

    def test_each_page_says_what_it_may_load(self):
        for path in ("/login/", "/no-such"):
            browser = self.browser()
            browser.get(path)
            self.assertIn("default-src 'none'", browser.header("Content-Security-Policy"))
            self.assertNotIn("<script", browser.text)


class Roles(Site):
    def test_each_page_for_each_role(self):
        """The table of each feature is what is answered, and no page is in none."""
        browsers = {role: self.browser(role) for role in (CASHIER, OPERATOR)}
        browsers[features.NOBODY] = self.browser()
        forged, guest = self.browser(), self.browser()
        forged.cookies = {web.COOKIE: "0" * 32}
        guest.cookies = {"__Host-guest": "a-guest-key-00001"}
        for page in features.listed("PAGES"):
            path = re.sub("<[^>]+>", "x", page.path)
            for role, browser in (*browsers.items(), (features.NOBODY, forged),
                                  (features.NOBODY, guest)):
                if page.path == "/logout/":
                    continue
                with self.subTest(f"{page.method} {path} {role}"):
                    found = browser.get(path) if page.method == "GET" else browser.ask("POST", path)
                    may = role in page.roles
                    if page.method == "POST":
                        self.assertEqual(found, 403)
                        text = "This form is old" if may else "You may not do this"
                        self.assertIn(text, browser.text)
                    elif may:
                        self.assertNotEqual(found, 403)
                        self.assertNotEqual("/login/", browser.header("Location"))
                    else:
                        self.assertEqual(found, 303 if role == features.NOBODY else 403)

    def test_no_form_is_taken_that_another_site_made(self):
        """With a token by chance, with that of another browser, and from another Origin."""
        def token(browser, path):
            browser.get(path)
            return re.search(r'name="token" value="([0-9a-f]+)"', browser.text)[1]

        foreign = token(self.browser(), "/login/")
        for role in (None, CASHIER, OPERATOR):
            browser = self.browser(role)
            own = token(browser, "/no-such" if role else "/login/")
            forged = (("", {}), ("0" * 64, {}), (foreign, {}), (own, {"HTTP_ORIGIN": "null"}),
                      (own, {"HTTP_ORIGIN": "https://evil.example"}))
            for page in features.listed("PAGES"):
                if page.method == "POST" and (role or features.NOBODY) in page.roles:
                    for given, more in forged:
                        found = browser.ask("POST", page.path, {"token": given}, **more)
                        self.assertEqual((found, "This form is old" in browser.text), (403, True))
            found = browser.ask("POST", "/logout/", {"token": own}, HTTP_ORIGIN="https://a.example")
            self.assertEqual(found, 303 if role else 403)

    def test_what_is_no_page(self):
        for path in ("/no-such", "/login", "/core/site.css", "/../site.db", "/vouchers/../x/y"):
            self.assertEqual(self.browser(OPERATOR).get(path), 404, path)


class Languages(Site):
    def test_a_page_is_in_the_language_of_its_reader(self):
        browser = self.browser()
        for asked, wanted in (("de-DE,en;q=0.5", "de"), ("pl,fr;q=0.5", "fr"), ("", "en")):
            browser.get("/login/", HTTP_ACCEPT_LANGUAGE=asked)
            self.assertIn(f'<html lang="{wanted}">', browser.text)
        browser.get("/login/?lang=fr")
        browser.get("/login/", HTTP_ACCEPT_LANGUAGE="de")
        self.assertIn('<html lang="fr">', browser.text)

    def test_each_text_is_in_each_language(self):
        wanted = set()
        for folder, _, found in os.walk(features.TOP):
            for name in found:
                if name.endswith((".html", ".py")) and not name.startswith(("test_", "live")):
                    with open(os.path.join(folder, name), encoding="utf-8") as file:
                        wanted |= texts_of(file.read())
        wanted |= {it.title for name in ("MENU", "OF_ACCOUNT") for it in features.listed(name)}
        self.assertGreater(len(wanted), 10)
        for language in ("de", "fr"):
            known = web.texts(language)
            self.assertEqual(wanted - set(known), set(), language)
            for text, said in known.items():
                holes = [sorted(re.findall(r"%\(\w+\)s", it)) for it in (text, said)]
                self.assertEqual(*holes, text)
                self.assertTrue(said, text)


def joined(text):
    return "".join(re.findall(r'"((?:[^"\\]|\\.)*)"', text)).replace('\\"', '"')


def texts_of(source):
    """The texts that a source has for its reader: their parts stand behind each other."""
    part = r'((?:\s*"(?:[^"\\]|\\.)*")+)'
    return {joined(it) for it in re.findall(rf"(?:\b_|\btext)\({part}", source)}
