"""The operator's page and commands, over a book in memory."""

import contextlib
import io
import json
import time
from unittest import mock

from radacctd_site.core import Failed, acts
from radacctd_site.core.acts import Act
from radacctd_site.core.features import CASHIER, OPERATOR
from radacctd_site.core.test_client import Site
from radacctd_site.operator import sessions

GB = 10**9


def session(first, last, **more):
    return {"client": "ap1", "first": first, "last": last, "state": "open", "total": 3 * GB,
            "calling": "02-00", "charged": "50", **more}


class Operator(Site):
    def setUp(self):
        super().setUp()
        self.now = int(time.time())
        for number, account, total in (("S-1", "al", 500), ("S-2", "b%C3%B6", 300),
                                       ("S-1", "al", -500)):
            acts.do(self.db, self.book, Act(number, account, total, "sale", "anna"))
        self.write_balances()
        self.book.told["/overruns"] = {"overruns": [{"account": "b%C3%B6", "overrun": 120},
                                                    {"account": "al", "overrun": 700}]}

    def tell(self, **rows):
        for name, path in (("al", "al"), ("bo", "b%C3%B6")):
            self.book.told[f"/accounts/{path}/sessions"] = {"sessions": rows.get(name, [])}

    def page(self):
        browser = self.browser(OPERATOR)
        self.assertEqual(browser.get("/operator/"), 200)
        return browser.text

    def test_plots_stand_before_tables_and_have_a_text(self):
        self.tell(al=[session(self.now - 60, self.now)])
        page = self.page()
        self.assertEqual(page.count('<svg class="plot" role="img" aria-label="'), 2)
        for text in ("8.00\u00a0EUR sold, 5.00\u00a0EUR taken back, 3.00\u00a0EUR net",
                     "2 accounts are below 0. The most: al, 7.00\u00a0EUR", "bö",
                     "3.0\u00a0GB in 24 hours", "02-00"):
            self.assertIn(text, page)
        self.assertLess(page.index("<svg"), page.index("<table"))
        self.assertNotIn("have no answer", page)

    def test_what_the_book_does_not_tell_is_not_shown(self):
        self.book.told = {}
        page = self.page()
        for text in ("does not tell sessions", "does not say now"):
            self.assertIn(text, page)
        self.assertRaises(Failed, self.run_it, "who")

    def test_what_waits_is_said(self):
        self.book.is_away = True
        acts.do(self.db, self.book, Act("S-3", "al", 5, "sale", "anna"))
        self.assertIn("1 have no answer", self.page())

    def test_who_is_on(self):
        self.tell(al=[session(self.now - 60, self.now), session(1, self.now - 5000),
                      session(1, self.now, state="stopped"), session(1, self.now, client="books"),
                      session(1, self.now, client="(gold)")], bo=[session(1, self.now - 10)])
        lines = self.run_it("who").splitlines()
        self.assertEqual([it.split()[0] for it in lines], ["al", "bö"])

    def test_octets_of_each_hour(self):
        now = 1_700_000_000 // 3600 * 3600 + 1800
        whole = now - 1800
        found = [it for _, it in sessions.by_hour([session(whole - 7200, whole + 3600)], now)]
        self.assertEqual((found[-3:], sum(found)), ([GB, GB, GB], 3 * GB))
        found = [it for _, it in sessions.by_hour([session(now - 48 * 3600, now)], now)]
        self.assertAlmostEqual(sum(found), 3 * GB * 23.5 / 48, delta=100)
        self.assertEqual(sum(it for _, it in sessions.by_hour([session(5, 5)], now)), 0)

    def test_not_more_accounts_than_the_desk_bears(self):
        with mock.patch.object(sessions, "MOST", 1):
            self.tell(al=[session(1, self.now)], bo=[session(1, self.now)])
            self.assertIn("Only 1 accounts", self.page())
            with contextlib.redirect_stderr(io.StringIO()) as said:
                self.run_it("who")
            self.assertIn("only 1 of 2 accounts", said.getvalue())

    def test_an_account(self):
        self.tell(al=[session(1, 2000, state="stopped")])
        said = self.run_it("show", "al")
        for text in ("balance 0.00 EUR", "S-1", "-5.00 EUR", "3,000,000,000 octets, 0.50 EUR"):
            self.assertIn(text, said)
        with self.assertRaisesRegex(Failed, "no account"):
            self.run_it("show", "x")

    def test_a_cashier_does_not_see_it(self):
        self.assertEqual(self.browser(CASHIER).get("/operator/"), 403)

    def test_names_are_escaped(self):
        self.book.told["/overruns"] = json.loads('{"overruns":[{"account":"<b>x","overrun":1}]}')
        self.assertNotIn("<b>x", self.page())
