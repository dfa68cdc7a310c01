"""Rows of interop/pages: cards of guests, printed vouchers and the redeem page."""

import csv
import glob
import os
import subprocess

from browser import holding
from redeeming import live
from served import check

SITE_KEY = "site-key-000000001"
MORE_KEYS = f"""
[[key]]
token = "{SITE_KEY}"
cashier = true
accounts = true
"""


def codes_in(path):
    """What the QR codes of a picture say."""
    done = subprocess.run(["zbarimg", "-q", "--raw", path], capture_output=True, text=True)
    return sorted(done.stdout.split())


def card(browser, proxy, service, folder, account, readable):
    """The key of a card that a cashier prints: its code is the page of the account."""
    service.settings(url=proxy.url())
    browser.go(proxy.url("/card/"))
    readable(browser, "the form of a card")
    browser.js("document.getElementById('account').value = arguments[0]", account)
    browser.click("main button[value=make]")
    check("a card is printed", browser.shows("Print this page now"), True)
    key = browser.js("return document.getElementById('key').textContent")
    picture = os.path.join(folder, "card.png")
    readable(browser, "a card", ["en"])
    browser.picture(picture)
    check("the card's code is the guests' page", codes_in(picture), [proxy.url(f"/?k={key}")])
    service.settings()
    return key


def ended(browser, proxy, account, key):
    """A new card is asked about; at check-out the card ends."""
    browser.go(proxy.url("/card/"))
    browser.js("document.getElementById('account').value = arguments[0]", account)
    browser.click("main button[value=make]")
    check("a new card would end the one before", browser.shows("A new one ends it"), True)
    browser.click("main a.btn")
    check("which still shows the account", proxy.guest(key)[0], 200)
    browser.js("document.getElementById('account').value = arguments[0]", account)
    browser.click("main button[value=end]")
    check("check-out ends it", browser.shows("has ended"), True)
    check("at once", proxy.guest(key)[0], 404)


def begin_service(server, folder):
    """The pages' service, which finds what the program writes in a folder."""
    service = live.Service(f"{folder}/service", server.desk, SITE_KEY, name="Hotel Example")
    service.of_book(folder, server.radius)
    return service.start()


def make_vouchers(service, folder):
    """The codes of a sheet, which a browser could print."""
    status, said = service.run("voucher", "make", "30", "5.00")
    wanted = 0, "30 vouchers of 5.00 EUR, 150.00 EUR together."
    check("a sheet is made", (status, said.split(" Print")[0]), wanted)
    name = said.strip().rpartition("/")[2]
    rows = [*csv.DictReader(service.run("voucher", "list", name)[1].splitlines())]
    codes = [it["code"] for it in rows]
    page = f"{folder}/sheet.html"
    with open(page, "w", encoding="utf-8") as file:
        file.write(service.run("voucher", "print", name)[1])
    subprocess.run(["chromium", "--headless", "--no-sandbox", "--disable-gpu",
                    f"--print-to-pdf={folder}/sheet.pdf", page], capture_output=True, check=True)
    text = subprocess.run(["pdftotext", f"{folder}/sheet.pdf", "-"], capture_output=True,
                          text=True).stdout
    check("the sheet has each code", all(it in text for it in codes), True)
    subprocess.run(["pdftoppm", "-r", "200", "-png", f"{folder}/sheet.pdf", f"{folder}/sheet"],
                   check=True)
    found = [it for path in sorted(glob.glob(f"{folder}/sheet-*.png")) for it in codes_in(path)]
    wanted = sorted(f"https://localhost/redeem/?c={it}" for it in codes)
    check("as a QR code, too", sorted(found), wanted)
    return codes


def redeem(browser, proxy, service, folder, readable):
    """A guest redeems a printed voucher. What is said of other codes is in site/vouchers."""
    code, account = make_vouchers(service, folder)[0], "Zoë Max"
    browser.go(proxy.url(f"/redeem/?c={code}"))
    typed = lambda: browser.js("return document.getElementById('code').value")
    check("the code is in the form", typed(), code)
    readable(browser, "the redeem page")
    browser.submit({"account": account, "code": code})
    asked = browser.shows(f"Redeem the voucher {code} for the account {account}?", "main")
    check("a question names both", asked, True)
    browser.click("main a.btn")
    check("no leads back, with what was typed", typed(), code)
    browser.submit({"account": account, "code": code})
    browser.click("button[value=yes]")
    check("it is credited", browser.shows(f"Done. {account} has 5.00 EUR more.", "main"), True)
    check("no code is in a log of nginx", holding(proxy.logs, [code, code.replace("-", "")]), [])
    return [("W-" + code, "Zo%C3%AB Max", "500")]
