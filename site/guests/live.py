#!/usr/bin/python3
"""The guests' page over the built program: a card, sessions that are charged, a book that is away.

    RADACCTD=.../radacctd site/guests/live.py

It needs Debian's gunicorn, python3-bottle, python3-jinja2, freeradius-utils and curl. It ends with 0
if all is as it should be, else with 1.
"""

import os
import re
import sys

sys.dont_write_bytecode = True
ROOT = os.path.dirname(os.path.dirname(os.path.dirname(os.path.realpath(__file__))))
sys.path.insert(0, os.path.join(ROOT, "interop"))

import kit  # radacctd_site is found by it
from radacctd_site.core import live
from radacctd_site.core.live import KEY, cashier
from served import check, report

MB = 10**6


def shows(browser, *texts):
    """What of some texts the page has not."""
    return [it for it in texts if it.replace(" EUR", "\u00a0EUR") not in browser.text]


def sold(server, total, number):
    body = f'{{"account":"room 12","sum":{total},"voucher":"{number}"}}'
    return server.curl("POST", "/topups", KEY, body)[0]


def card(browser, account, **fields):
    """The key of a card that a cashier prints."""
    check("a card is printed", browser.post("/card/", account=account, act="make", **fields), 200)
    found = re.search(r'id="key">([a-z0-9-]+)<', browser.text)
    return found and found[1]


def looks(server, service):
    """What a guest sees as money comes and goes."""
    browser, key = service.browser(), card(cashier(service), "room 12")
    check("a key of a card", browser.get(f"/?k={key}"), 303)
    check("before the first sale", (browser.get("/"), shows(browser, "0.00 EUR left")), (200, []))
    check("a sale", sold(server, 700, "N-1"), 201)
    browser.get("/")
    check("it is there", shows(browser, "7.00 EUR left", "N-1", "after your first session"), [])
    for octets, status in ((MB, "Start"), (3 * MB, "Interim-Update"), (5 * MB, "Stop")):
        check(f"a report of {octets}", server.radclient(report(status, "1A-1", octets)), True)
    browser.get("/")
    # Five blocks of 1048576 octets at 10 each.
    check("it is charged", shows(browser, "6.50 EUR left", "5.0\u00a0MB", "0.50 EUR", "ended",
                                 "about 68.2\u00a0MB"), [])
    check("and a bar shows what is left", shows(browser, "92% of what was bought"), [])
    check("more is used than bought", server.radclient(report("Stop", "1A-2", 90 * MB)), True)
    browser.get("/")
    check("an account that is overdrawn", shows(browser, "2.10 EUR overdrawn", "Buy a voucher"), [])
    return browser, key


def refuses(server, service, browser, key):
    """Keys that are none, and a book that is away."""
    for wrong in ("wrong-key-0000001", KEY):
        other = service.browser()
        check("a key that is none", other.post("/", key=wrong), 303)
        check("is not known", (other.get("/"), shows(other, "not known")), (404, []))
    check("a key of no shape", service.browser().post("/", key="x"), 422)
    server.kill()
    check("the book is away", (browser.get("/"), shows(browser, "Nothing is lost")), (503, []))
    server.start()
    check("it is back, and the key still known", browser.get("/"), 200)
    check("the key is forgotten", browser.post("/", act="forget"), 303)
    browser.get("/")
    check("and nothing is shown", shows(browser, "type the key"), [])
    check("a new card is asked about", card(cashier(service), "room 12"), None)
    new = card(cashier(service), "room 12", sure="yes")
    check("it shows the account", (service.browser().get(f"/?k={new}"), browser.get(f"/?k={new}"),
                                   browser.get("/")), (303, 303, 200))
    browser.get(f"/?k={key}")
    check("and the one before nothing", browser.get("/"), 404)


def test(server, service, _):
    refuses(server, service, *looks(server, service))


if __name__ == "__main__":
    sys.exit(live.over_program(test))
