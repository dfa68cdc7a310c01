"""What tests of features share: a site in a folder, a book in memory, and a browser."""

import collections
import contextlib
import io
import json
import os
import secrets
import shutil
import tempfile
import types
import unittest
import urllib.parse
from unittest import mock

from radacctd_site.core import (
    accounts, corrections, desk, live, names, people, places, store, web)
from radacctd_site.core.features import CASHIER, OPERATOR

PASSWORD = "a-long-enough-one"
PLAN = {"class": "default", "block": 1000, "unit": 5, "count": "both"}


def answers(*access_servers, **more):
    """What a set-up was told, as a feature's part of it sees that."""
    found = {"plans": [PLAN], "access_servers": [{"members": [], **it} for it in access_servers],
             "has_front": True, "is_own": False, "sql": None, "pair": None, "host": "", "name": "",
             "secrets": {}, "found": {}, **more}
    secret = lambda name, begin="": found["secrets"].get(name) or begin + secrets.token_hex(16)
    return types.SimpleNamespace(**found, secret=secret)


class Book:
    """Takes a number once, for one account and one sum, as the book does."""

    def __init__(self):
        self.credits, self.debits, self.is_away, self.asked, self.told = {}, {}, False, [], {}

    def debit(self, account, total, number):
        """Takes the same money once, and the greater sum of two."""
        self.asked.append(number)
        if self.is_away:
            return desk.STRANGE
        self.debits[number] = account, total
        return desk.NEW

    def corrects(self):
        return corrections.has_plan()

    def look(self, path):
        return (200, self.told[path]) if path in self.told else (404, None)

    def balances(self):
        """What is left of each account."""
        found = collections.Counter()
        for sign, rows in ((1, self.credits), (-1, self.debits)):
            for account, total in rows.values():
                found[urllib.parse.unquote_to_bytes(account)] += sign * total
        return found

    def credit(self, account, total, number):
        self.asked.append(number)
        if self.is_away:
            return desk.AWAY
        if number in self.credits:
            return desk.REPEAT if self.credits[number] == (account, total) else desk.DIFFERS
        self.credits[number] = account, total
        return desk.NEW


class Browser(live.Browser):
    """A browser of an application in this process."""

    def __init__(self, app, address="192.0.2.1"):
        super().__init__(address)
        self.app = app

    def ask(self, method, path, fields=None, **more):
        path, _, query = path.partition("?")
        body = urllib.parse.urlencode(fields or {}).encode()
        environ = {
            "REQUEST_METHOD": method, "PATH_INFO": path, "QUERY_STRING": query,
            "HTTP_COOKIE": self.cookie(), "CONTENT_TYPE": "application/x-www-form-urlencoded",
            "CONTENT_LENGTH": str(len(body)), "wsgi.input": io.BytesIO(body),
            "wsgi.errors": io.StringIO(), "SERVER_NAME": "a.example", "SERVER_PORT": "443",
            "wsgi.url_scheme": "http", "HTTP_HOST": "a.example", "SERVER_PROTOCOL": "HTTP/1.1",
            "HTTP_X_REAL_IP": self.address, **more}
        said = []
        parts = self.app(environ, lambda status, headers, *_: said.append((status, headers)))
        self.text = b"".join(parts).decode()
        status, self.headers = said[-1]
        self.keep_cookies()
        return int(status.split()[0])


class Site(unittest.TestCase):
    """A site in a folder of its own; `book` is what it sells by."""

    def setUp(self):
        self.folder = tempfile.mkdtemp()
        self.addCleanup(shutil.rmtree, self.folder)
        settings = os.path.join(self.folder, "settings.json")
        with open(settings, "w", encoding="utf-8") as file:
            json.dump({"url": "https://a.example", "name": "Hotel Łódź", "currency": "EUR",
                       "decimals": 2}, file)
        self.book = Book()
        self.balances = os.path.join(self.folder, "balances.csv")
        self.plans = os.path.join(self.folder, "plans.csv")
        self.list_plans({"debit": corrections.WANTED})
        for where, name, value in ((accounts, "BALANCES", self.balances),
                                   (accounts, "PLANS", self.plans), (people, "COST", 2)):
            self.enterContext(mock.patch.object(where, name, value))
        for name, value in (("DATABASE", os.path.join(self.folder, "site.db")),
                            ("FOLDER", self.folder), ("SETTINGS", settings),
                            ("book", lambda: self.book)):
            patch = mock.patch.object(places, name, value)
            patch.start()
            self.addCleanup(patch.stop)
        self.db = self.enterContext(store.opened())
        self.app = web.made()

    def list_plans(self, plans):
        """The plans in force, as radacctd lists them."""
        rows = [f"{name},{it['block']},{it['unit']},{it['count']}" for name, it in plans.items()]
        with open(self.plans, "w", encoding="ascii") as file:
            file.write("\n".join(["class,block,unit,count", *rows]))

    def write_balances(self):
        """As the book does every few seconds."""
        with open(self.balances, "w", encoding="ascii") as file:
            file.write("account,balance,overrun\n")
            for account, balance in self.book.balances().items():
                file.write(f"{names.shown(account)},{balance},{max(0, -balance)}\n")

    def browser(self, role=None, **more):
        """A browser of somebody who has logged in, or of nobody."""
        found = Browser(self.app, **more)
        if role:
            people.put(self.db, role, role, PASSWORD)
            self.assertEqual(found.post("/login/", name=role, password=PASSWORD), 303)
        return found

    def run_it(self, name, *words):
        """What a command of radacctl prints."""
        from radacctd_site.core import cli

        with contextlib.redirect_stdout(io.StringIO()) as said:
            cli.main(name, list(words))
        return said.getvalue()


STAFF = (CASHIER, OPERATOR)
