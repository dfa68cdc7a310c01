"""Cashiers' pages and commands, over a book in memory."""

import contextlib
import csv
import io
import re
import sqlite3
import subprocess
import threading
from unittest import mock

from radacctd_site.core import Failed, accounts, acts, codes, desk, people, places, store
from radacctd_site.core.features import CASHIER, OPERATOR
from radacctd_site.core.test_client import PASSWORD, Browser, Site
from radacctd_site.desk import sales, sell


class Desk(Site):
    """Each test has a cashier, and a browser of an operator."""

    def setUp(self):
        super().setUp()
        self.cashier, self.operator = self.browser(CASHIER), self.browser(OPERATOR)

    def asked(self, account="al", total="5.00", browser=None):
        """The number that the question before a sale has."""
        browser = browser or self.cashier
        self.assertEqual(browser.post("/desk/", account=account, sum=total), 200)
        return re.search(r'name="number" value="([^"]+)"', browser.text)[1]

    def sell(self, account="al", total="5.00", browser=None, number=None):
        """Sells by the page: the number, and what the browser then sees is in its text."""
        browser = browser or self.cashier
        number = number or self.asked(account, total, browser)
        self.assertEqual(browser.post("/desk/", account=account, sum=total, number=number,
                                      sure="yes"), 303)
        browser.get(browser.header("Location"))
        return number

    def had(self, account):
        """The number of a sale to a name to which nothing is sold, as an older book may have it."""
        number = sales.new_number()
        acts.do(self.db, self.book, sales.sale_of(number, account, 500, CASHIER))
        return number

    def back(self, number, browser=None, sure="yes"):
        return (browser or self.cashier).post("/desk/back/", "/desk/", number=number, sure=sure)

    def named(self, name):
        """A browser of a further cashier."""
        people.put(self.db, name, CASHIER, PASSWORD)
        found = Browser(self.app)
        self.assertEqual(found.post("/login/", name=name, password=PASSWORD), 303)
        return found


class Selling(Desk):
    def test_a_sale_is_asked_about_and_then_sold_once(self):
        number = self.asked("müller")
        self.assertIn("Sell 5.00\u00a0EUR to müller?", self.cashier.text)
        self.assertEqual(self.book.asked, [])
        for _ in range(2):
            self.sell("müller", number=number)
            self.assertIn("Sold: müller has 5.00\u00a0EUR more.", self.cashier.text)
        self.assertEqual(self.book.credits, {number: ("m%C3%BCller", 500)})

    def test_a_new_name_is_asked_about_with_those_like_it(self):
        self.sell("mueller-1126")
        self.write_balances()
        self.asked("mueller-1127")
        for text in ("This account is new", "mueller-1126", "Sell to the new account"):
            self.assertIn(text, self.cashier.text)
        self.asked("mueller-1126")
        self.assertIn("Balance: 5.00", self.cashier.text)
        self.assertNotIn("is new", self.cashier.text)

    def test_what_is_wrong_is_said_and_nothing_is_sent(self):
        for account, total in (("al", "0"), ("al", "5.001"), ("al", "1e3"), ("", "5"),
                               ("a%{b", "5"), ("'al", "5"), ("\u200bal", "5"), ("a+b", "5")):
            self.assertEqual(self.cashier.post("/desk/", account=account, sum=total), 422)
        self.assertIn("Nobody can log in as a+b", self.cashier.text)
        for number in ("", "V-1", "S-1", "W-" + codes.new(), "LAPSE-1", "S-" + codes.new().lower()):
            self.assertEqual(self.cashier.post("/desk/", account="al", sum="5", number=number,
                                               sure="yes"), 422, number)
        self.assertEqual(self.book.asked, [])

    def test_change_leads_back_to_the_form(self):
        self.assertEqual(self.cashier.post("/desk/", account="al", sum="5", sure="no"), 200)
        self.assertIn('value="al"', self.cashier.text)
        self.assertEqual(self.book.asked, [])

    def test_while_the_book_is_away_the_sale_waits_and_the_page_says_so(self):
        self.book.is_away = True
        number = self.sell()
        self.assertIn("Not sold yet", self.cashier.text)
        self.assertNotIn("has 5.00", self.cashier.text)
        self.book.is_away = False
        self.assertEqual(acts.again(self.db, self.book), 1)
        self.cashier.get(f"/desk/sale/{number}")
        self.assertIn("Sold: al has 5.00", self.cashier.text)

    def test_two_cashiers_with_one_number(self):
        """The book decides; the page says sold to one of them alone."""
        other, number = self.named("bert"), self.asked()
        self.sell(number=number)
        self.sell("bo", browser=other, number=number)
        self.assertIn("Nothing was sold: this number", other.text)
        self.sell(browser=other, number=number)
        self.assertNotIn("has 5.00", other.text)
        self.assertEqual(self.book.credits, {number: ("al", 500)})

    def test_many_at_once_with_one_number(self):
        def one(account):
            with store.opened() as db:
                sale = sales.sale_of(number, account, 500, account)
                found.append(acts.do(db, self.book, sale))

        number, found, lock, credit = sales.new_number(), [], threading.Lock(), self.book.credit
        self.book.credit = lambda *it: lock.acquire() and (credit(*it), lock.release())[0]
        threads = [threading.Thread(target=one, args=(it,)) for it in ("al", "bo", "eve", "al")]
        for it in threads:
            it.start()
        for it in threads:
            it.join()
        self.assertEqual(found.count(desk.NEW), 1)
        self.assertEqual(len(self.book.credits), 1)

    def test_if_site_db_is_locked_or_full_nothing_is_sold_and_nothing_sent(self):
        number = self.asked()
        with contextlib.closing(sqlite3.connect(places.DATABASE)) as other, \
                mock.patch.object(store, "PATIENCE", 0.1), \
                contextlib.redirect_stderr(io.StringIO()):
            other.execute("BEGIN IMMEDIATE")
            self.assertEqual(self.cashier.post("/desk/", account="al", sum="5", number=number,
                                               sure="yes"), 503)
        self.assertIn("Nothing was sold, and nothing was sent", self.cashier.text)
        full = sqlite3.OperationalError("database or disk is full")
        with mock.patch.object(acts, "begin", side_effect=full), \
                contextlib.redirect_stderr(io.StringIO()):
            self.assertEqual(self.cashier.post("/desk/", account="al", sum="5", number=number,
                                               sure="yes"), 503)
        self.assertIn("Nothing was sold, and nothing was sent", self.cashier.text)
        self.assertEqual(self.book.asked, [])

    def test_a_sale_is_shown_to_who_made_it_and_to_an_operator(self):
        number = self.sell()
        found = [it.get(f"/desk/sale/{number}") for it in (
            self.cashier, self.operator, self.named("bert"), self.browser())]
        self.assertEqual(found, [200, 200, 404, 303])


class TakingBack(Desk):
    def test_a_sale_is_taken_back_once(self):
        number = self.sell()
        self.assertEqual(self.back(number, sure=""), 200)
        self.assertIn("Take back 5.00\u00a0EUR from al?", self.cashier.text)
        self.assertEqual(self.book.debits, {})
        self.assertEqual([self.back(number) for _ in range(2)], [303, 409])
        self.assertEqual(self.book.debits, {number: ("al", 500)})
        self.cashier.get(f"/desk/sale/{number}")
        self.assertIn(f"Taken back by {CASHIER}", self.cashier.text)
        self.cashier.get("/desk/shift/")
        self.assertIn("5.00\u00a0EUR sold, 5.00\u00a0EUR taken back", self.cashier.text)

    def test_what_is_not_sold_is_not_taken_back(self):
        self.book.is_away = True
        number = self.sell()
        self.assertEqual(self.back(number), 409)
        self.book.is_away = False
        acts.again(self.db, self.book)
        for said in (desk.AWAY, desk.STRANGE, desk.NO_KEY, desk.LIMIT):
            self.book.credit = lambda *_, it=said: it
            self.assertEqual(self.back(number), 503, said)
            self.assertIn("Nothing was taken back", self.cashier.text)
        self.assertEqual(self.db.execute("SELECT count(*) FROM act").fetchone()[0], 1)

    def test_what_an_older_book_lost_is_there_before_it_is_taken_back(self):
        number = self.sell()
        self.book.credits.clear()
        self.assertEqual(self.back(number), 303)
        self.assertEqual(self.book.balances(), {b"al": 0})
        self.book.credits[number] = ("bo", 500)
        other = self.sell()
        self.book.credits[other] = ("bo", 500)
        self.assertEqual(self.back(other), 409)
        self.assertNotIn(other, self.book.debits)

    def test_without_its_plan_nothing_is_taken_back(self):
        number = self.sell()
        with mock.patch.object(accounts, "PLANS", "/nonexistent"), \
                contextlib.redirect_stderr(io.StringIO()):
            self.assertEqual(self.back(number), 503)
        self.assertEqual(self.book.debits, {})

    def test_a_correction_without_an_answer_waits_and_keeps_nothing_back(self):
        number, debit = self.sell(), self.book.debit
        self.book.debit = lambda *_: desk.STRANGE
        self.back(number)
        self.cashier.get(f"/desk/sale/{number}")
        self.assertIn("Wait before you give money", self.cashier.text)
        self.book.is_away = True
        self.sell("bo")
        self.book.is_away = False
        self.assertEqual(acts.again(self.db, self.book), 1)
        self.book.debit = debit
        self.assertEqual(acts.again(self.db, self.book), 1)
        self.assertEqual(self.book.balances(), {b"al": 0, b"bo": 500})

    def test_who_may(self):
        """A cashier her own of this shift; an operator each."""
        number = self.sell()
        self.assertEqual(self.back(number, self.named("bert")), 404)
        self.cashier.post("/desk/shift/", sure="yes")
        self.assertEqual(self.back(number), 409)
        self.assertEqual(self.back(number, self.operator), 303)
        self.cashier.get("/desk/shift/")
        self.assertIn("0 sales", self.cashier.text)
        self.operator.get("/desk/shift/")
        self.assertIn("-5.00\u00a0EUR", self.operator.text)


class Shifts(Desk):
    def test_net_sums(self):
        numbers = [self.sell(total=it) for it in ("5", "2.50", "1")]
        self.back(numbers[1])
        self.cashier.post("/desk/shift/")
        self.assertIn("End the shift with 6.00\u00a0EUR?", self.cashier.text)
        self.cashier.post("/desk/shift/", sure="yes")
        self.assertIn("0 sales", self.cashier.text)
        [it] = sales.shifts(self.db, CASHIER, CASHIER)
        self.assertEqual([it[key] for key in ("count", "sold", "back", "net")], [3, 850, -250, 600])
        self.cashier.post("/desk/shift/", sure="yes")
        self.assertIn("Nothing was sold since", self.cashier.text)

    def test_a_sale_counts_in_the_shift_in_which_the_book_took_it(self):
        self.book.is_away = True
        self.sell()
        self.cashier.post("/desk/shift/")
        self.assertIn("1 have no answer yet", self.cashier.text)
        self.book.is_away = False
        self.sell("bo", "1")
        self.cashier.post("/desk/shift/", sure="yes")
        acts.again(self.db, self.book)
        self.cashier.post("/desk/shift/", sure="yes")
        self.assertEqual([it["net"] for it in sales.shifts(self.db, CASHIER, CASHIER)], [500, 100])

    def test_what_another_feature_sold_counts_too(self):
        acts.do(self.db, self.book, acts.Act("P-1", "al", 900, "package", CASHIER))
        acts.do(self.db, self.book, acts.Act("W-1", "al", 100, "withdraw", CASHIER, 0))
        self.cashier.get("/desk/shift/")
        self.assertIn("1 sales: 9.00\u00a0EUR sold", self.cashier.text)
        self.assertNotIn("/desk/sale/P-1", self.cashier.text)

    def test_two_ends_at_once_count_each_sale_once(self):
        def one():
            with store.opened() as db:
                found.append(sales.end_shift(db, CASHIER))

        for it in "abc":
            self.sell(it)
        found, threads = [], [threading.Thread(target=lambda: one()) for _ in range(4)]
        for it in threads:
            it.start()
        for it in threads:
            it.join()
        self.assertEqual(found.count(True), 1)
        self.assertEqual([it["net"] for it in sales.shifts(self.db, CASHIER, CASHIER)], [1500])

    def test_a_person_sees_own_shifts_and_an_operator_all(self):
        self.sell()
        self.cashier.post("/desk/shift/", sure="yes")
        other = self.named("bert")
        for browser, wanted in ((other, 0), (self.operator, 1)):
            browser.get("/desk/shift/")
            self.assertEqual(browser.text.count(f"<td>{CASHIER}</td>"), wanted)


class Finding(Desk):
    def test_an_account_with_balance_and_sales(self):
        self.sell("müller")
        self.write_balances()
        for text, wanted in (("zz", ("None",)), ("MULL", ("müller",)),
                             ("müller", ("5.00\u00a0EUR", "The book does not say now."))):
            self.cashier.get(f"/desk/find/?account={text.encode('utf-8').decode('latin-1')}"
                             if text.isascii() else "/desk/find/?account=m%C3%BCller")
            for it in wanted:
                self.assertIn(it, self.cashier.text)
        self.assertNotIn("None yet", self.cashier.text)

    def test_sessions_if_the_desk_tells_them(self):
        self.sell("room 1")
        self.write_balances()
        session = {"client": "ap1", "last": 2000, "state": "open", "total": 5_000_000,
                   "charged": "50", "calling": "02-00"}
        self.book.told = {"/accounts/room%201/sessions": {"sessions": [session]},
                          "/accounts/room%201/topups": {"topups": [
                              {"when": 1000, "voucher": "V-9", "sum": 700}]}}
        self.cashier.get("/desk/find/?account=room%201")
        for it in ("5.0\u00a0MB", "still on", "02-00", "V-9", "7.00\u00a0EUR", "0.50\u00a0EUR"):
            self.assertIn(it, self.cashier.text)

    def test_without_balances_the_page_says_so(self):
        self.assertEqual(self.cashier.get("/desk/find/?account=al"), 200)
        self.assertIn("Balances cannot be read", self.cashier.text)
        self.asked()
        self.assertIn("may be a new account", self.cashier.text)

    def test_what_is_shown_is_escaped(self):
        self.had("<b>x")
        self.write_balances()
        for path in ("/desk/find/?account=%3Cb%3Ex", "/desk/find/?account=x", "/desk/shift/"):
            self.cashier.get(path)
            self.assertNotIn("<b>x", self.cashier.text)
            self.assertIn("&lt;b&gt;x", self.cashier.text)


class Ledger(Desk):
    def test_a_file_for_a_spreadsheet(self):
        number = self.had("=1+1")
        self.back(number)
        self.sell("bo", "2", self.operator)
        said = self.run_it("sales", "--first", "2020-01-01", "--last", "2099-12-31", "--csv")
        found = [(it["account"], it["paid"], it["state"]) for it in csv.DictReader(
            said.splitlines())]
        self.assertEqual(found, [("'=1+1", "5.00", "sold"), ("'=1+1", "-5.00", "sold"),
                                 ("bo", "2.00", "sold")])

    def test_the_command(self):
        self.back(self.sell())
        self.sell("bo", "2", self.operator)
        said = self.run_it("sales")
        self.assertIn("sold 5.00 EUR, taken back 5.00 EUR, net 0.00 EUR", said)
        self.assertIn("net 2.00 EUR", said)
        self.assertEqual(len(self.run_it("sales", "--csv").splitlines()), 4)
        self.assertEqual(self.run_it("sales", "--first", "2020-01-01", "--last", "2020-01-02"), "")
        with contextlib.redirect_stderr(io.StringIO()), self.assertRaises(SystemExit):
            self.run_it("sales", "--first", "x")


class Command(Desk):
    def credit(self, text, *more):
        """Credits a file of vouchers: what is printed."""
        with open(f"{self.folder}/vouchers.csv", "w", encoding="utf-8") as file:
            file.write(text)
        with mock.patch.object(sell, "FILE", file.name), mock.patch("sys.stdin", io.StringIO()):
            return self.run_it("sell", *more)

    def test_one_sale(self):
        self.assertIn("added 1", self.run_it("sell", "al", "5,50"))
        self.assertEqual([*self.book.credits.values()], [("al", 550)])
        for words in (["al"], ["al", "0"], ["a%00b", "5"], ["'al", "5"], ["a#b", "5"]):
            self.assertRaises(Failed, self.run_it, "sell", *words)

    def test_a_file_is_credited_once(self):
        for row, wanted in (("", "added 2, repeated 0, refused 0"),
                            ("", "added 0, repeated 2, refused 0"), ("V-1,bo,500\n", None)):
            text = f"voucher,account,sum\nV-1,al,500\nV-2,m%C3%BCller,700\n{row}"
            if wanted:
                self.assertIn(wanted, self.credit(text))
            else:
                self.assertRaisesRegex(Failed, "V-1, bo: differs", self.credit, text)
        self.assertEqual(self.book.credits, {"V-1": ("al", 500), "V-2": ("m%C3%BCller", 700)})

    def test_of_a_wrong_file_nothing_is_sold(self):
        for line in ("V-1,al,0", "v-1,al,5", "V-1,'al,5", "V-1,al", "V-1,1.23457E+11,5",
                     "V-1,al,1000000000001"):
            with self.assertRaisesRegex(Failed, "record 3"):
                self.credit(f"voucher,account,sum\nV-9,al,5\n{line}\n")
        self.assertRaises(Failed, self.credit, "a,b\n1,2\n")
        self.assertEqual(self.book.asked, [])

    def test_money_is_taken_once(self):
        self.run_it("sell", "al", "5")
        self.assertIn("refused 0, taken 1", self.run_it("sell", "al", "-3.50"))
        self.assertIn("taken 1", self.run_it("sell", "al", "-1", "--unpaid"))
        text = "voucher,account,sum\nFEE-1,al,-20\nFEE-2,bo,-20\n"
        for _ in range(2):
            self.assertIn("added 0, repeated 0, refused 0, taken 2", self.credit(text))
        self.assertEqual(self.book.balances(), {b"al": 30, b"bo": -20})
        self.assertIn("1 sales  sold 5.00 EUR, taken back 3.90 EUR, net 1.10 EUR", self.run_it("sales"))

    def test_one_number_takes_one_sum_from_one_account(self):
        self.credit("voucher,account,sum\nFEE-1,al,-20\n")
        for row in ("FEE-1,al,-30", "FEE-1,bo,-20"):
            with self.assertRaisesRegex(Failed, "V-1|FEE-1 has taken another sum"):
                self.credit(f"voucher,account,sum\nV-1,al,5\n{row}\n")
        self.assertEqual((self.book.balances(), self.book.asked), ({b"al": -20}, ["FEE-1"]))
        for line in ("V-1,al,-0", "V-1,al,--5", "V-1,al,-"):
            self.assertRaises(Failed, self.credit, f"voucher,account,sum\n{line}\n")

    def test_without_its_plan_and_without_an_answer_nothing_is_called_taken(self):
        self.book.is_away = True
        with self.assertRaisesRegex(sell.Waiting, "2 are sent again"):
            self.credit("voucher,account,sum\nFEE-1,al,-20\nFEE-2,al,-20\n")
        self.assertEqual(self.book.asked, ["FEE-1"])
        self.book.is_away = False
        self.assertEqual(acts.again(self.db, self.book), 2)
        self.list_plans({})
        self.assertRaisesRegex(Failed, "has no plan debit", self.run_it, "sell", "al", "-5")
        self.assertEqual(self.book.balances(), {b"al": -40})

    def test_while_the_book_is_away_all_of_it_waits(self):
        self.book.is_away = True
        with self.assertRaisesRegex(Failed, "2 are sent again") as why:
            self.credit("voucher,account,sum\nV-1,al,500\nV-2,al,700\n")
        self.assertEqual((why.exception.status, self.book.asked), (3, ["V-1"]))
        self.book.is_away = False
        self.assertEqual(acts.again(self.db, self.book), 2)

    def test_what_nobody_paid_is_in_no_sum(self):
        self.run_it("sell", "--unpaid", "al", "5")
        self.assertEqual(self.run_it("sales"), "")

    def test_an_older_book_gets_all_again(self):
        numbers = [self.sell(it) for it in "abc"]
        self.back(numbers[0])
        before = self.book.balances()
        self.db.executescript("UPDATE act SET begun = 0")  # It counts when the book took them.
        self.book.credits, self.book.debits = {}, {}
        self.assertIn("4 were sent: 0 were there", self.run_it("sell", "--again", "2020-01-01"))
        self.assertIn("4 were sent: 3 were there", self.run_it("sell", "--again", "2020-01-01"))
        self.assertEqual(self.book.balances(), before)
        self.book.is_away = True
        self.assertRaises(Failed, self.run_it, "sell", "--again", "2020-01-01")

    def test_a_balance(self):
        self.sell("müller")
        self.write_balances()
        self.assertIn("5.00 EUR", self.run_it("balance", "müller"))
        with self.assertRaisesRegex(Failed, "Names like it: müller"):
            self.run_it("balance", "muller")

    def test_once_a_month(self):
        """By the lines of the page. Of two names of one number one is credited, and it is said."""
        with open(f"{places.TOP}/desk/README.md", encoding="utf-8") as file:
            lines = re.search(r"(?ms)^    (\(echo .*?\)) \| radacctl sell", file.read())[1]
        with open(f"{self.folder}/students.csv", "w", encoding="utf-8") as file:
            file.write("1,al\n2,bo@a.example\n")
        made = lambda: subprocess.check_output(["sh", "-c", lines], cwd=self.folder, text=True)
        for _ in range(2):
            self.credit(made(), "--unpaid")
            self.assertEqual(self.book.balances(), {b"al": 2000, b"bo@a.example": 2000})
        self.credit(re.sub(r"M-\d{4}-\d\d", "M-2027-01", made()), "--unpaid")
        self.assertEqual(self.book.balances(), {b"al": 4000, b"bo@a.example": 4000})
        self.assertEqual(self.run_it("sales"), "")
        with open(file.name, "a", encoding="utf-8") as file:
            file.write("2,bo.a.example\n")
        self.assertRaisesRegex(Failed, "bo.a.example: differs", self.credit, made())
