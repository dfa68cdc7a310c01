"""Tries what a guest does: a sale, a login and reports of an account of its own, which use it up.

The account is radacctd-setup: it has nothing before and nothing after. A run that was killed left
something: the next one uses that first.
"""

import json
import os
import re
import secrets
import tempfile
import time

from radacctd_site.core import Failed, desk, files, machine
from radacctd_site.front import clients, users
from radacctd_site.front.clients import RADDB, TEST_ADDRESS, TEST_NAME

# How long FreeRADIUS may take to serve, and radacctd to read a new key, in seconds.
PATIENCE = 60
BLOCKS = 3


class Proof:
    """What is tried. Each method that tries yields what was as it should be."""

    def __init__(self, answers, config):
        self.plan = next(it for it in answers.plans if it["class"] == "default")
        # Nobody of ours is among a site's own users.
        self.has_login = not (answers.sql or answers.is_own)
        # A sale is in one book, and a report in both: one of them would have a debt.
        self.sells = self.plan["unit"] and not answers.pair
        self.settings, self.key = files.text(f"{RADDB}/settings.conf"), config.keys["site"]
        host, _, port = clients.value(self.settings, "desk").rpartition(":")
        self.desk = host, int(port)

    def tries(self):
        left, stamp = self.asked()
        if not self.sells:
            wanted = "Access-Reject" if self.plan["unit"] else "Access-Accept"
            self.report(self.login(wanted) if self.has_login else None, 1000)
            yield f"a login got {wanted}, and a report was answered"
            return
        if left:
            yield f"{TEST_NAME} has something of an earlier run: a report uses it up"
            self.report(stamp, left)
        block = self.plan["block"]
        self.sell(BLOCKS * self.plan["unit"])
        self.expect(BLOCKS * block, "a sale")
        stamp = self.login("Access-Accept") if self.has_login else self.asked()[1]
        yield "a login with money is accepted" if self.has_login else (
            "no login is tried: users are your own. Try one: radtest")
        self.report(stamp, block)
        self.expect((BLOCKS - 1) * block, "a report")
        yield f"a report of {block} octets is answered, and costs {self.plan['unit']}"
        self.report(stamp, (BLOCKS - 1) * block)
        self.expect(0, "a report of the rest")
        if self.has_login:
            self.login("Access-Reject")
            yield f"a login without money is refused: {TEST_NAME} has 0"

    def asked(self):
        """What radacctd's desk says to FreeRADIUS: the octets that the account may use, a stamp."""
        key, said = clients.value(self.settings, "key"), []

        def is_answered():
            try:
                said[:] = desk.ask(self.desk, "GET", f"/logins/{TEST_NAME}/default", key)
            except OSError as why:
                said[:] = 0, str(why)
            return said[0] in (200, 402)

        if not machine.until(is_answered, PATIENCE):
            raise Failed(f"radacctd's desk does not answer the key of {RADDB}/settings.conf: "
                         f"{said[0] or said[1]}. See systemctl status radacctd")
        found = json.loads(said[1])
        return found.get("octets", 0), found.get("stamp", "").encode().hex()

    def expect(self, octets, what):
        found = self.asked()[0]
        if found != octets:
            raise Failed(f"after {what} {TEST_NAME} may use {found} octets, and not {octets}")

    def sell(self, total):
        number = f"SETUP-{secrets.token_hex(8).upper()}"
        sold, status, _ = desk.credit(self.desk, self.key, TEST_NAME, total, number)
        if sold != desk.NEW:
            raise Failed(f"the desk did not take a sale: {sold} ({status})")

    def login(self, wanted):
        """Logs in until the answer is the one that is wanted: the Class of it."""
        [password] = [re.sub(r"\W", "", it) for it in users.rows("radcheck") or [""]]
        lines = [f'User-Name = "{TEST_NAME}"', f'User-Password = "{password}"']
        said, end = "", time.monotonic() + PATIENCE
        while f"Received {wanted}" not in said:
            if time.monotonic() > end:
                # Its own lines have the password.
                kept = [it for it in said.splitlines() if "Received" in it or "Message" in it]
                raise Failed(f"a login got no {wanted}: {' '.join(kept) or 'no answer'}. See "
                             "journalctl -u radacctd-front")
            said = self.client("logins", "auth", lines)
        found = re.search(r"\tClass = 0x([0-9a-f]+)", said)
        return found and found[1]

    def report(self, stamp, octets):
        """Sends a Stop of so many octets, which must be answered: then the book has it."""
        name = {"out": "Output"}.get(self.plan["count"], "Input")
        said = self.client("reports", "acct", [
            "Acct-Status-Type = Stop", f'User-Name = "{TEST_NAME}"',
            *([f"Class = 0x{stamp}"] if stamp else []),
            f'Acct-Session-Id = "{secrets.token_hex(8)}"',
            f"Acct-{name}-Octets = {octets % 2**32}", f"Acct-{name}-Gigawords = {octets >> 32}"])
        if "Received Accounting-Response" not in said:
            raise Failed("FreeRADIUS did not answer a report: see its journal, or its log; or a "
                         "firewall of this machine: nft list ruleset")

    def client(self, port, act, lines):
        """What radclient prints of a packet of the set-up's own client, which it sends twice. The
        secret is in a file of memory, and in no command line.
        """
        address = clients.value(self.settings, "address").replace("*", "127.0.0.1")
        lines = [*lines, f"Packet-Src-IP-Address = {TEST_ADDRESS}",
                 f"NAS-IP-Address = {TEST_ADDRESS}"]
        with tempfile.TemporaryDirectory(dir="/run") as folder:
            path = os.path.join(folder, "secret")
            files.make(path, clients.secret_of(TEST_NAME).encode() + b"\n")
            words = ["radclient", "-r", "2", "-t", "3", "-x", "-S", path,
                     f"{address}:{clients.value(self.settings, port)}", act]
            return machine.run(*words, text="\n".join(lines) + "\n")[1]
