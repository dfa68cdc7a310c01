"""What packages add: tables of packages and logins, pages of the staff, two commands, a tick."""

from radacctd_site.core.features import STAFF, Entry, Page

COMMANDS = {
    "package": ("makes, lists, changes and removes what is sold with a login", "package_command"),
    "code": ("makes, lists, prints and ends codes and names that log in", "code_command"),
}
PAGES = [
    Page("GET", "/packages/", "pages:form", STAFF),
    Page("POST", "/packages/", "pages:change", STAFF),
    Page("GET", "/packages/<what>", "pages:cards", STAFF),
]
MENU = [Entry("/packages/", "Packages", STAFF)]
# `account` pays. `name` is how FreeRADIUS' tables call a login: what is typed, or a code's digest.
TABLES = """
CREATE TABLE IF NOT EXISTS package (name TEXT PRIMARY KEY, plan TEXT NOT NULL, sum INTEGER NOT NULL,
    down INTEGER, up INTEGER, devices INTEGER, valid INTEGER, until INTEGER, slow TEXT,
    removed INTEGER) STRICT;
CREATE TABLE IF NOT EXISTS login (account TEXT PRIMARY KEY, name TEXT NOT NULL UNIQUE,
    secret TEXT NOT NULL, package TEXT NOT NULL, sum INTEGER NOT NULL, number TEXT NOT NULL UNIQUE,
    sheet TEXT NOT NULL, who TEXT NOT NULL, made INTEGER NOT NULL, ended INTEGER) STRICT;
CREATE INDEX IF NOT EXISTS login_sheet ON login (sheet);
"""
EACH_MINUTE = "logins:settle_each_minute"
REFUSES, WHOSE = "logins:refuses", "logins:whose"
