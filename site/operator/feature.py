"""What the operator's look adds: a page of plots, and two commands."""

from radacctd_site.core.features import OPERATOR, Entry, Page

COMMANDS = {
    "who": ("prints who is on", "who"),
    "show": ("prints what the book has of an account", "show"),
}
PAGES = [Page("GET", "/operator/", "pages:look", {OPERATOR})]
MENU = [Entry("/operator/", "Overview", {OPERATOR})]
