"""What the front desk adds: shifts, the cashiers' pages, the commands of sales."""

from radacctd_site.core.features import STAFF, Entry, Page

COMMANDS = {
    "sell": ("sells to an account, or credits a file of vouchers", "sell"),
    "sales": ("prints what was sold and taken back, by day and cashier", "ledger"),
    "balance": ("prints what is left on an account", "balance"),
}
PAGES = [
    Page("GET", "/desk/", "pages:form", STAFF),
    Page("POST", "/desk/", "pages:sell", STAFF),
    Page("GET", "/desk/sale/<number>", "pages:sale", STAFF),
    Page("POST", "/desk/back/", "pages:take_back", STAFF),
    Page("GET", "/desk/find/", "pages:find", STAFF),
    Page("GET", "/desk/shift/", "pages:shift", STAFF),
    Page("POST", "/desk/shift/", "pages:end_shift", STAFF),
]
MENU = [Entry("/desk/", "Sell", STAFF), Entry("/desk/find/", "Find an account", STAFF),
        Entry("/desk/shift/", "Shift", STAFF)]
TABLES = """
CREATE TABLE IF NOT EXISTS shift (id INTEGER PRIMARY KEY, who TEXT NOT NULL,
    ended INTEGER NOT NULL) STRICT;
CREATE TABLE IF NOT EXISTS counted (number TEXT NOT NULL, account TEXT NOT NULL,
    sum INTEGER NOT NULL, shift INTEGER NOT NULL REFERENCES shift,
    PRIMARY KEY (number, account, sum)) STRICT;
"""
