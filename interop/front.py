"""What tests of radacctd next to FreeRADIUS share: a book that serves on loopback, and Debian's
configuration of FreeRADIUS in a folder of a test.
"""

import os
import re
import subprocess
import urllib.parse

import served
from served import CASHIER, check, plan, text_of, until

SECRET, BOOK_SECRET = "testing-123", "testing-456"
# Debian's configuration of FreeRADIUS, and its virtual servers.
STOCK = "/etc/freeradius/3.0"
DEFAULT, INNER = "sites-available/default", "sites-available/inner-tunnel"
# The access servers: where each sends from.
ACCESS_SERVERS = {"ap1": "127.0.2.1", "ap2": "127.0.2.2"}
ACCOUNTS = ["al", "bo", "room 12, 50%"]
PLANS = plan("gold") + plan("default", block=1_000_000, unit=5)
LISTEN = """
	listen {{
		type = {kind}
		{family} = {address}
		port = {port}
	}}
"""


def waits_for(name, ask, wanted, patience=30):
    """Asks until the answer is the wanted one, or patience ends."""
    until(lambda: ask() == wanted, patience)
    check(name, ask(), wanted)


def key_of(account):
    return f"key-{ACCOUNTS.index(account)}-00000000000"


def written(path, text):
    os.makedirs(os.path.dirname(path), exist_ok=True)
    with open(path, "w", encoding="utf-8") as file:
        file.write(text)


def client_text(name, address, secret=SECRET, more=""):
    return f'[[client]]\nname = "{name}"\naddress = "{address}"\nsecret = "{secret}"\n{more}'


class Book(served.Server):
    """radacctd, with a client for each access server."""

    def __init__(self, folder):
        self.folder = folder
        super().__init__(folder, self.configuration(), "")
        subprocess.run(self.words("init"), check=True, stdout=subprocess.DEVNULL)

    def configuration(self):
        text = "".join(client_text(*it) for it in ACCESS_SERVERS.items()) + PLANS
        text += f'[[key]]\ntoken = "{CASHIER}"\ncashier = true\n'
        return text + "".join(f'[[key]]\ntoken = "{key_of(it)}"\n'
                              f'account = "{urllib.parse.quote(it, safe="")}"\n'
                              for it in ACCOUNTS)

    def start(self):
        super().start(served.FOREVER)

    def balance(self, account):
        return self.ask("GET", "/me/balance", key_of(account))[1]["balance"]

    def sold(self, account, total, number):
        """The status of a sale."""
        return self.sell(number, total, urllib.parse.quote(account, safe=""))[0]

    def exported(self, what):
        return self.told("export", what)[1]


def edited(raddb, name, one, other):
    """Replaces a text that a file has once."""
    path = os.path.join(raddb, name)
    text = text_of(path)
    check(f"{name} has its place", text.count(one), 1)
    written(path, text.replace(one, other))


def moved(radius):
    """Lets a configuration of Debian's write into a folder, as the user of the test."""
    folder = radius.folder
    own = [
        ("logdir = /var/log/freeradius", f"logdir = {folder}/log"),
        ("run_dir = ${localstatedir}/run/${name}", f"run_dir = {folder}/run"),
        ("\tuser = freerad\n", ""), ("\tgroup = freerad\n", "")]
    for one, other in own:
        edited(radius.raddb, "radiusd.conf", one, other)


def without_listen(raddb):
    """Debian's virtual servers without their ports."""
    for name in (DEFAULT, INNER):
        path = os.path.join(raddb, name)
        written(path, re.sub(r"(?m)^listen \{$(.|\n)*?^\}$", "", text_of(path)))
