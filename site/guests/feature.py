"""What the guests' page adds: a table of cards, the guests' page, and the staff's for cards."""

from radacctd_site.core.features import ANYBODY, STAFF, Entry, Page

PAGES = [
    Page("GET", "/", "pages:look", ANYBODY),
    Page("POST", "/", "pages:give", ANYBODY),
    Page("GET", "/card/", "cards:form", STAFF),
    Page("POST", "/card/", "cards:change", STAFF),
]
OF_ACCOUNT = [Entry("/card/", "Card for the guest", STAFF)]
TABLES = """
CREATE TABLE IF NOT EXISTS card (account TEXT PRIMARY KEY, digest BLOB NOT NULL UNIQUE,
    made INTEGER NOT NULL) STRICT;
"""
WHOSE = "cards:whose"
