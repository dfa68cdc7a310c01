"""What a guest sees: cards and keys that are none, what is left, sessions, sums, a desk that is away."""

import os
import re

from radacctd_site.core import features
from radacctd_site.core.features import CASHIER
from radacctd_site.core.test_client import Browser, Site
from radacctd_site.guests import account, cards, pages

ACCOUNT, PATH = "roomä 1", "/accounts/room%C3%A4%201/"
PLANS = {"gold": {"block": 1_000_000, "unit": 10, "count": "both"},
         "default": {"block": 1_000_000, "unit": 5, "count": "in"}}


def session(last, **more):
    return {"client": "ap1", "class": "gold", "last": last, "state": "stopped", "total": 5_000_000,
            "charged": "50", **more}


class Card(Site):
    """Each test has a desk that tells of one account, and a card of it."""

    def setUp(self):
        super().setUp()
        self.found = {
            "balance": 650,
            "sessions": [
                session(2000), session(3000, state="open", total=1_500_000_000, charged="90"),
                session(4000, client="(gold)", charged="30"),
                session(2500, client="books", **{"class": "debit"}, charged="20")],
            "topups": [{"sum": 500, "voucher": "V-A", "when": 1000},
                       {"sum": 300, "voucher": "W-B", "when": 1500}]}
        self.list_plans(PLANS)
        self.key = cards.new(self.db, ACCOUNT)

    def guest(self, key=None, **more):
        self.book.told = {PATH + name: {name: it} for name, it in self.found.items()}
        browser = Browser(self.app)
        self.assertEqual(browser.post("/", key=key or self.key), 303)
        browser.get("/", **more)
        return browser


class Guests(Card):
    def test_what_is_left(self):
        page = self.guest().text
        for text in ("roomä 1", "6.50\u00a0EUR left", "about 65.0\u00a0MB, down and up together",
                     "81% of what was bought", "1.5\u00a0GB", "still on", "Correction",
                     "Earlier sessions", "V-A", "W-B", "0.90\u00a0EUR"):
            self.assertIn(text, page)
        self.assertLess(page.index("1.5\u00a0GB"), page.index("Earlier sessions"))
        self.assertLess(page.index("W-B"), page.index("V-A"))

    def test_in_german(self):
        page = self.guest(HTTP_ACCEPT_LANGUAGE="de").text
        self.assertIn("6,50\u00a0EUR übrig", page)

    def test_a_key_of_an_address_leaves_it(self):
        browser = self.guest()
        self.assertEqual(browser.get(f"/?k={self.key}"), 303)
        self.assertEqual(browser.header("Location"), "/")
        cookie = next(it for name, it in browser.headers if name == "Set-Cookie")
        for word in (self.key, "HttpOnly", "Secure", "SameSite=Lax"):
            self.assertIn(word, cookie)
        self.assertEqual(browser.get("/"), 200)
        self.assertNotIn(self.key, browser.text)
        self.assertEqual(browser.post("/", act="forget"), 303)
        browser.get("/")
        self.assertIn("Scan the code", browser.text)

    def test_keys_that_are_none(self):
        browser = Browser(self.app)
        self.assertEqual(browser.post("/", key="short"), 422)
        self.assertEqual(browser.get("/?k=%22%3E"), 422)
        browser.post("/", key=self.key[:-1] + ("x" if self.key[-1] != "x" else "y"))
        self.assertEqual(browser.get("/"), 404)
        self.assertIn("not known", browser.text)
        self.assertEqual(browser.cookies[pages.COOKIE], "")

    def test_while_the_desk_is_away_the_key_stays(self):
        browser = self.guest()
        for name in self.found:
            self.book.told = {PATH + it: {it: self.found[it]} for it in self.found if it != name}
            self.assertEqual(browser.get("/"), 503)
            self.assertIn("Nothing is lost", browser.text)
        self.assertEqual(browser.cookies[pages.COOKIE], self.key)

    def test_what_nobody_paid_and_what_is_overdrawn(self):
        self.found["balance"] = -20
        page = self.guest().text
        self.assertIn("0.20\u00a0EUR overdrawn", page)
        self.assertIn("Buy a voucher", page)
        self.found["balance"] = 0
        self.found["sessions"], self.found["topups"] = [], []
        page = self.guest().text
        self.assertIn("0.00\u00a0EUR left", page)
        self.assertEqual(page.count("None yet"), 2)

    def test_the_plan_is_that_of_the_latest_session(self):
        self.assertEqual(account.plan_of([session(1)], PLANS), PLANS["gold"])
        self.assertEqual(account.plan_of([session(1), session(2, **{"class": "no"})], PLANS),
                         PLANS["default"])
        self.assertIsNone(account.plan_of([], PLANS))
        self.assertEqual(account.plan_of([], {"default": 1, "debit": 2}), 1)
        self.assertIsNone(account.plan_of([], {}))

    def test_what_a_balance_buys(self):
        self.assertEqual(account.buys(19, {"unit": 5, "block": 10}), 30)
        self.assertEqual(account.buys(-5, {"unit": 5, "block": 10}), 0)
        self.assertIsNone(account.buys(19, {"unit": 0, "block": 10}))
        self.found["sessions"] = [session(1, **{"class": "free"})]
        self.list_plans({"free": {"unit": 0, "block": 1, "count": "both"}})
        self.assertIn("Data costs nothing", self.guest().text)
        os.remove(self.plans)
        self.assertIn("6.50\u00a0EUR left", self.guest().text)

    def test_how_much_is_left_of_what_was_bought(self):
        found = [account.share(*it) for it in ((650, 800), (0, 800), (-5, 800), (900, 800), (5, 0))]
        self.assertEqual(found, [81, 0, 0, 100, 0])

    def test_a_long_list_is_cut(self):
        self.found["sessions"] = [session(at, charged="1") for at in range(10_000)]
        page = self.guest().text
        self.assertIn("9900 older ones", page)
        self.assertIn("99.00\u00a0EUR", page)
        self.assertLess(len(page), 60_000)

    def test_what_the_desk_says_is_escaped(self):
        self.found["topups"][0]["voucher"] = "<b>x</b>"
        self.assertNotIn("<b>x", self.guest().text)


class Staff(Card):
    def made(self, browser, name=ACCOUNT, **more):
        status = browser.post("/card/", account=name, act="make", **more)
        key = re.search(r'id="key">([a-z0-9-]+)<', browser.text)
        return status, key and key[1]

    def test_a_cashier_prints_a_card_that_the_guest_scans(self):
        browser = self.browser(CASHIER)
        self.assertEqual(browser.get("/card/?account=bo"), 200)
        self.assertIn('value="bo"', browser.text)
        status, key = self.made(browser, "bo")
        self.assertEqual((status, "<svg" in browser.text, "bo" in browser.text), (200, True, True))
        self.assertEqual(cards.whose(self.db, key), "bo")
        self.assertNotIn(key.encode(), b"".join(bytes(it) for it, in self.db.execute(
            "SELECT digest FROM card")))

    def test_a_new_card_ends_the_one_before_once_it_is_sure(self):
        browser = self.browser(CASHIER)
        self.assertEqual(self.made(browser), (200, None))
        self.assertIn("A new one ends it", browser.text)
        self.assertEqual(cards.whose(self.db, self.key), ACCOUNT)
        key = self.made(browser, sure="yes")[1]
        self.assertIsNone(cards.whose(self.db, self.key))
        self.assertIn("6.50", self.guest(key).text)

    def test_a_card_ends(self):
        browser, guest = self.browser(CASHIER), self.guest()
        for status, text in ((200, "has ended"), (404, "has no card")):
            self.assertEqual(browser.post("/card/", account=ACCOUNT, act="end"), status)
            self.assertIn(text, browser.text)
        self.assertEqual(guest.get("/"), 404)

    def test_a_name_that_nobody_can_have_gets_none(self):
        self.assertEqual(self.made(self.browser(CASHIER), "a+b"), (422, None))

    def test_an_account_leads_to_its_card(self):
        browser = self.browser(CASHIER)
        self.book.credits["V-1"] = "al", 5
        self.write_balances()
        for path in {"/desk/find/"} & {it.path for it in features.listed("PAGES")}:
            browser.get(f"{path}?account=al")
            self.assertIn("/card/?account=al", browser.text)
