"""What the core itself adds: logins of those who work there, and what is done each minute."""

from radacctd_site.core import acts, people
from radacctd_site.core.features import ANYBODY, STAFF, Page

COMMANDS = {
    "person": ("makes, lists and ends logins of cashiers and operators", "person"),
    "minute": ("sends again what the book has not answered, for the timer", "minute"),
    "night": ("does what the features do each night, for the timer", "night"),
}
PAGES = [
    Page("GET", "/login/", "pages:login_form", ANYBODY),
    Page("POST", "/login/", "pages:log_in", ANYBODY),
    Page("POST", "/logout/", "pages:log_out", STAFF),
    Page("GET", "/site.css", "pages:style", ANYBODY),
]
TABLES = acts.TABLES + people.TABLES
PACKAGES = ["gunicorn", "libjs-bootstrap5", "python3-bottle", "python3-jinja2", "python3-segno"]
UNITS = ["radacctd-site.socket", "radacctd-minute.timer", "radacctd-night.timer"]
