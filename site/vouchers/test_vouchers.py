"""Codes, sheets, the guests' page and the operator's, over a book in memory."""

import contextlib
import html
import io
import re
import sqlite3
import threading
from unittest import mock

from radacctd_site.core import Failed, acts, codes, desk, names, places, store
from radacctd_site.core.features import CASHIER, OPERATOR
from radacctd_site.core.test_client import Browser, Site
from radacctd_site.vouchers import vouchers


class Codes(Site):
    def test_a_wrong_letter_or_two_in_another_order_is_no_code(self):
        code = "ACDEFHJKMNPQRT"
        code += codes.check_letter(code)
        self.assertIsNotNone(codes.read(code))
        for at in range(len(code) - 1):
            for other in codes.LETTERS:
                if other != code[at]:
                    self.assertIsNone(codes.read(code[:at] + other + code[at + 1 :]))
            swapped = code[:at] + code[at + 1] + code[at] + code[at + 2 :]
            if swapped != code:
                self.assertIsNone(codes.read(swapped))

    def test_a_code_is_read_as_people_type_it(self):
        code = codes.new()
        self.assertEqual({codes.read(it) for it in (
            code, code.lower(), code.replace("-", " "), f" {code.replace('-', '')} ")}, {code})
        for text in ("", "x", code[:-1], code + "A", "É" * 15):
            self.assertIsNone(codes.read(text))


class Sheet(Site):
    """Each test has a sheet of four codes of 5.00."""

    def setUp(self):
        super().setUp()
        self.sheet = vouchers.make(self.db, 4, 500)
        self.codes = [it["code"] for it in vouchers.codes_of(self.db, self.sheet)]

    def redeem(self, account, code):
        return vouchers.redeem(self.db, self.book, account.encode(), code)[0]

    def withdraw(self, *what):
        return self.run_it("voucher", "withdraw", "--yes", *what)

    def states(self):
        return [it["state"] for it in vouchers.codes_of(self.db, self.sheet)]


class Redeeming(Sheet):
    def test_a_code_is_for_the_first_account(self):
        one = self.codes[0]
        self.assertEqual([self.redeem(*it) for it in (
            ("al", one), ("al", one.lower().replace("-", " ")), ("bo", one), ("bo", codes.new()),
            ("bo", "x"))],
            [desk.NEW, desk.REPEAT, desk.DIFFERS, "no such code", "bad code"])
        self.assertEqual(self.book.credits, {f"W-{one}": ("al", 500)})
        self.assertEqual(sorted(self.states()), ["given", "live", "live", "live"])

    def test_what_got_no_answer_waits_and_the_book_decides(self):
        """A guest typed a wrong name while the book was away, and then the right one."""
        self.book.is_away = True
        self.assertEqual(self.redeem("all", self.codes[0]), desk.AWAY)
        self.assertEqual(self.states()[0], "waiting")
        self.book.is_away = False
        self.assertEqual(self.redeem("al", self.codes[0]), desk.NEW)
        self.assertEqual(acts.again(self.db, self.book), 1)
        self.assertEqual(self.book.credits, {f"W-{self.codes[0]}": ("al", 500)})
        [found] = [tuple(it) for it in vouchers.codes_of(self.db, self.sheet) if it["account"]]
        self.assertEqual(found, (self.codes[0], 500, "given", "al"))

    def test_nothing_is_sent_if_site_db_cannot_be_written(self):
        self.db.execute("PRAGMA query_only = ON")
        self.assertRaises(sqlite3.Error, self.redeem, "al", self.codes[0])
        self.assertEqual(self.book.asked, [])

    def test_many_at_once(self):
        def one(who, code):
            with store.opened() as db:
                found.setdefault(code, []).append(vouchers.redeem(db, self.book, who.encode(), code)[0])

        found, lock, credit = {}, threading.Lock(), self.book.credit
        self.book.credit = lambda *it: lock.acquire() and (credit(*it), lock.release())[0]
        threads = [threading.Thread(target=one, args=(who, code))
                   for code in self.codes for who in ("al", "bo", "eve")]
        for it in threads:
            it.start()
        for it in threads:
            it.join()
        self.assertEqual({code: sorted(it) for code, it in found.items()},
                         dict.fromkeys(self.codes, [desk.DIFFERS, desk.DIFFERS, desk.NEW]))

    def test_a_sheet_has_nothing_for_a_terminal(self):
        with self.db:
            self.db.execute("UPDATE code SET code = ? WHERE code = ?", ("\x1b]0;x\x07", self.codes[0]))
        self.assertNotIn("\x1b", self.run_it("voucher", "print", self.sheet))


class Withdrawing(Sheet):
    def test_a_sheet_is_withdrawn_and_what_was_spent_is_said(self):
        self.redeem("al", self.codes[0])
        said = self.withdraw(self.sheet)
        self.assertEqual(said, "withdrawn: 3 codes; 0 were so before, 1 were redeemed before\n")
        self.assertEqual([self.redeem("bo", it) for it in self.codes], ["no such code"] * 4)
        self.assertEqual(sorted(self.states()), ["given"] + ["withdrawn"] * 3)
        self.assertIn("3 were so before", self.withdraw(f"W-{self.codes[1]}", self.sheet))

    def test_it_stays_so_by_an_older_site_db(self):
        older = f"{self.folder}/older"
        self.db.execute("VACUUM INTO ?", (older,))
        self.withdraw(self.sheet)
        with store.opened(older) as db:
            found = [vouchers.redeem(db, self.book, b"bo", it)[0] for it in self.codes]
        self.assertEqual(found, [desk.DIFFERS] * 4)
        self.assertEqual({account for account, _ in self.book.credits.values()},
                         {vouchers.NOBODY})

    def test_while_the_book_is_away_it_is_withdrawn_here_and_sent_later(self):
        self.book.is_away = True
        with self.assertRaisesRegex(Failed, "4 are withdrawn here"):
            self.withdraw(self.sheet)
        self.assertEqual(self.redeem("al", self.codes[0]), "no such code")
        self.book.is_away = False
        self.assertEqual(acts.again(self.db, self.book), 4)
        self.assertEqual(len(self.book.credits), 4)

    def test_a_wrong_name_withdraws_nothing(self):
        for what in (["vouchers-1"], [self.sheet, "x"]):
            self.assertRaises(Failed, self.withdraw, *what)
        self.assertEqual(self.states(), ["live"] * 4)

    def test_nobody_is_no_name_of_an_account(self):
        for name in (names.octets_of(vouchers.NOBODY), vouchers.NOBODY):
            self.assertIsNotNone(names.why_not(name))


class Command(Sheet):
    def test_a_sheet_is_made_listed_and_printed(self):
        said = self.run_it("voucher", "make", "2", "1,50")
        name = said.split("/")[-1].strip()
        self.assertIn("2 vouchers of 1.50 EUR, 3.00 EUR together", said)
        self.assertIn(f"{name}: of 1.50 EUR: live 2, given 0", self.run_it("voucher", "list"))
        rows = self.run_it("voucher", "list", name).splitlines()
        self.assertEqual([rows[0], len(rows)], ["code,sum,state,account", 3])
        page = self.run_it("voucher", "print", name)
        for row in rows[1:]:
            self.assertIn(row.split(",")[0], page)
        self.assertIn("Hotel Łódź", page)
        self.assertEqual(page.count("<svg"), 2)

    def test_much_is_asked_about(self):
        for count, total in (("101", "0.01"), ("3", "333.34")):
            with mock.patch("sys.stdin", io.StringIO("")), self.assertRaisesRegex(Failed, "--yes"):
                self.run_it("voucher", "make", count, total)
            self.run_it("voucher", "make", count, total, "--yes")

    def test_wrong_sums_and_counts(self):
        for total in ("0", "0.00", "5.001", "1e3", "1,000", "", "10000000000.01", "1.2.3"):
            self.assertRaises(Failed, self.run_it, "voucher", "make", "1", total)
        for count in ("0", "10001"):
            self.assertRaises(Failed, self.run_it, "voucher", "make", count, "1", "--yes")
        self.assertEqual(len(vouchers.sheets(self.db)), 1)

    def test_an_account_is_no_formula(self):
        self.redeem("=1", self.codes[0])
        self.assertIn(",given,'=1", self.run_it("voucher", "list", self.sheet))


class GuestsPage(Sheet):
    def test_a_guest_is_asked_and_then_has_it(self):
        browser = Browser(self.app)
        self.assertEqual(browser.get(f"/redeem/?c={self.codes[0]}"), 200)
        self.assertIn(self.codes[0], browser.text)
        self.assertEqual(browser.post("/redeem/", account="müller", code=self.codes[0]), 200)
        self.assertIn("for the account müller?", browser.text)
        self.assertEqual(self.book.credits, {})
        self.assertEqual(self.sure(browser, "müller", self.codes[0]), 200)
        self.assertIn("müller has 5.00 EUR more", browser.text)
        self.assertEqual(self.book.credits, {f"W-{self.codes[0]}": ("m%C3%BCller", 500)})
        self.assertEqual(self.sure(browser, "müller", self.codes[0]), 200)
        self.assertIn("Nothing was added", browser.text)
        self.assertEqual(self.sure(browser, "bo", self.codes[0]), 409)
        self.assertIn("redeemed for another account", browser.text)

    def sure(self, browser, account, code):
        return browser.post("/redeem/", account=account, code=code, sure="yes")

    def test_each_fault_is_said(self):
        browser = Browser(self.app)
        self.assertEqual(browser.post("/redeem/", account="al", code="x"), 422)
        self.assertIn("A letter of the code is wrong", browser.text)
        for sure in ({}, {"sure": "yes"}):
            self.assertEqual(browser.post("/redeem/", account="a+b", code=self.codes[0], **sure), 422)
            self.assertIn("Nobody can log in as a+b", browser.text)
        self.assertEqual(self.sure(browser, "al", codes.new()), 404)
        self.assertIn("There is no such voucher", browser.text)
        self.book.is_away = True
        self.assertEqual(self.sure(browser, "al", self.codes[0]), 503)
        self.assertIn("Nothing is lost", browser.text)
        browser.post("/redeem/", account="al", code=self.codes[0])
        back = html.unescape(re.search(r'href="(/redeem/[^"]+)"', browser.text)[1])
        self.assertEqual((browser.get(back), 'value="al"' in browser.text), (200, True))
        self.assertIn(self.codes[0], browser.text)

    def test_who_guesses_codes_is_stopped(self):
        browser = Browser(self.app)
        found = [self.sure(browser, "al", codes.new()) for _ in range(6)]
        self.assertEqual(found, [404] * 5 + [429])
        self.assertEqual(self.sure(browser, "al", self.codes[0]), 429)
        other = Browser(self.app, address="192.0.2.9")
        self.assertEqual([self.sure(other, "al", it) for it in self.codes * 2], [200] * 8)
        found = [self.sure(other, f"bo {it}", self.codes[0]) for it in range(6)]
        self.assertEqual(found, [409] * 5 + [429])

    def test_only_if_site_db_cannot_be_written_before_nothing_was_sent(self):
        browser = Browser(self.app)
        with contextlib.closing(sqlite3.connect(places.DATABASE)) as other, \
                mock.patch.object(store, "PATIENCE", 0.1), \
                contextlib.redirect_stderr(io.StringIO()):
            lock = lambda *_: other.execute("BEGIN IMMEDIATE") and desk.NEW
            self.book.credit = mock.Mock(side_effect=lock)
            found = [self.sure(browser, "al", it) for it in self.codes[:2]]
        self.assertEqual((found, self.book.credit.call_count), ([200, 503], 1))
        self.assertIn("nothing was sent", browser.text)


class OperatorsPage(Sheet):
    def test_a_sheet_is_made_printed_and_withdrawn(self):
        browser = self.browser(OPERATOR)
        self.assertEqual(browser.post("/vouchers/", act="make", count="3", sum="2.50"), 303)
        path = browser.header("Location")
        self.assertEqual(browser.get(path), 200)
        self.assertEqual([browser.text.count(it) for it in ("<svg", "2.50 EUR")], [3, 3])
        sheet = path.rpartition("/")[2]
        self.assertEqual(browser.post("/vouchers/", act="withdraw", what=sheet), 200)
        self.assertIn("Withdraw 3 codes", browser.text)
        self.assertEqual(self.book.credits, {})
        self.assertEqual(browser.post("/vouchers/", act="withdraw", what=sheet, sure="yes"), 200)
        self.assertIn("Withdrawn: 3 codes", browser.text)
        self.assertEqual(len(self.book.credits), 3)
        who = {it for it, in self.db.execute("SELECT who FROM act")}
        self.assertEqual(who, {OPERATOR})
        browser.get(path)
        self.assertEqual(browser.text.count("<svg"), 0)

    def test_a_large_sheet_is_withdrawn_at_once_here(self):
        browser, sheet = self.browser(OPERATOR), vouchers.make(self.db, 120, 100)
        browser.post("/vouchers/", act="withdraw", what=sheet, sure="yes")
        self.assertIn("70 are sent", browser.text)
        self.assertEqual(acts.again(self.db, self.book), 70)

    def test_wrong_fields(self):
        browser = self.browser(OPERATOR)
        for fields in ({"act": "make", "count": "x", "sum": "1"}, {"act": "make", "count": "1",
                       "sum": "0"}, {"act": "withdraw", "what": "vouchers-1"}, {"act": "x"}, {}):
            self.assertEqual(browser.post("/vouchers/", **fields), 422, fields)
        self.assertEqual(browser.get("/vouchers/vouchers-1"), 404)

    def test_no_cashier_and_no_guest_has_the_codes(self):
        for role, wanted in ((CASHIER, 403), (None, 303)):
            browser = self.browser(role)
            for path in ("/vouchers/", f"/vouchers/{self.sheet}"):
                self.assertEqual(browser.get(path), wanted)
                self.assertNotIn(self.codes[0], browser.text)
