"""What printed vouchers add: a table of codes, the guests' page, the operator's, a command."""

from radacctd_site.core.features import ANYBODY, OPERATOR, Entry, Page

COMMANDS = {"voucher": ("makes, lists, prints and withdraws printed vouchers", "command")}
PAGES = [
    Page("GET", "/redeem/", "pages:form", ANYBODY),
    Page("POST", "/redeem/", "pages:redeem", ANYBODY),
    Page("GET", "/vouchers/", "pages:sheets", {OPERATOR}),
    Page("POST", "/vouchers/", "pages:change", {OPERATOR}),
    Page("GET", "/vouchers/<sheet>", "pages:sheet", {OPERATOR}),
]
MENU = [Entry("/vouchers/", "Vouchers", {OPERATOR})]
TABLES = """
CREATE TABLE IF NOT EXISTS code (code TEXT PRIMARY KEY, sum INTEGER NOT NULL, sheet TEXT NOT NULL,
    withdrawn INTEGER) STRICT;
CREATE INDEX IF NOT EXISTS code_sheet ON code (sheet);
"""
