"""The service in a container: what the tests of units and package ask of it, and commands of pages."""

import os
import re

import machine
import page_steps
from served import CASHIER, GUEST, ROOT, SECRET, check, report

TOOLS = {**machine.TOOLS, "radclient": "freeradius-utils", "curl": "curl"}
CONFIG, BOOK = "/etc/radacctd.toml", "/var/lib/radacctd/book"
DEFAULTS = "/etc/default/radacctd"
BALANCES = "/var/lib/radacctd-balances/balances.csv"
COUNTS = "/var/lib/radacctd-counts/radacctd.prom"


class Site:
    """The service in a machine."""

    def __init__(self, box):
        self.box = box
        self.radius, self.desk = 1813, 8066

    def systemctl(self, words):
        return self.box.run(f"systemctl {words}")

    def state(self):
        return self.systemctl("is-active radacctd")[1].strip()

    def pid(self):
        return self.systemctl("show -p MainPID --value radacctd")[1].strip()

    def mark(self):
        """A place in the journal."""
        text = self.box.must("journalctl --sync; journalctl -n 0 --show-cursor")
        return text.split("-- cursor: ")[1].strip()

    def journal(self, mark, unit="radacctd"):
        """What the journal has of a unit since that place."""
        return self.box.must(
            f"journalctl --sync; journalctl -o cat -u {unit} --after-cursor '{mark}'"
        )

    def asked(self, address="127.0.0.1"):
        """The status that the desk gives, 0 if nobody answers."""
        words = ["curl", "-s", "-m", "2", "-o", os.devnull, "-w", "%{http_code}"]
        url = f"http://{address}:{self.desk}/me/balance"
        return int(self.box.beside([*words, "-H", f"Desk-Key: {GUEST}", url])[1] or 0)

    def balance(self):
        url = f"http://127.0.0.1:{self.desk}/me/balance"
        return self.box.beside(["curl", "-s", "-H", f"Desk-Key: {GUEST}", url])[1]

    def sell(self, voucher):
        body = f'{{"account":"room%2012","sum":500,"voucher":"{voucher}"}}'
        words = ["curl", "-s", "-H", f"Desk-Key: {CASHIER}", "-d", body]
        words += ["-H", "Content-Type: application/json"]
        return self.box.beside([*words, f"http://127.0.0.1:{self.desk}/topups"])[1]

    def reported(self, session, octets, address="127.0.0.1", tries=2):
        """Whether a report was answered."""
        attributes = report("Interim-Update", session, octets)
        attributes.append("Packet-Src-IP-Address = 127.0.0.1")
        words = ["radclient", "-r", str(tries), "-t", str(2 * tries - 1)]
        words += [f"{address}:{self.radius}", "acct", SECRET]
        status, text = self.box.beside(words, input="\n".join(attributes) + "\n")
        return status == 0 and "Received Accounting-Response" in text

    def stop(self):
        self.box.must("systemctl stop radacctd; systemctl reset-failed radacctd 2>/dev/null || :")


def put_config(site, text):
    site.box.write(CONFIG, text, 0o640)
    site.box.must(f"chgrp radacctd {CONFIG}")


def commands(page, title):
    """The commands of a section of a page: those of its steps, and those between them."""
    text = page_steps.section(os.path.join(ROOT, page), title)
    return re.findall(r"(?m)^ {4,7}(?! )(\S.*)$", text)


def typed(box, command):
    status, said = box.run(f"cd /root && {command}")
    check(f"{command[:70]}", (status, said if status else ""), (0, ""))


def first_start(site, config, is_on=True):
    """What a site needs at the least, without a set-up: its configuration, a book, and a start."""
    put_config(site, config)
    typed(site.box, f"radacctd check --config {CONFIG} --explain")
    typed(site.box, f"radacctd init --config {CONFIG} --db {BOOK}")
    if is_on:
        typed(site.box, "systemctl enable --now radacctd")
