"""The service: finds the page of a request, who asks, and whether they may.

nginx hands requests on by a unix socket, with the address of who asks in X-Real-IP. Each page is of
a feature, which says who may ask for it; nothing is answered that is not in that table.
"""

import csv
import functools
import hashlib
import re
import secrets
import sqlite3
import sys

import bottle
import jinja2

from radacctd_site.core import (
    Failed, accounts, features, moment, money, names, people, places, store)
from radacctd_site.core.features import ANYBODY, NOBODY, STAFF, TOP

COOKIE, LANGUAGES = "__Host-radacctd", {"en": "English", "de": "Deutsch", "fr": "Français"}
OURS = re.compile(r"(?:^|; ?)((?:__Host-[a-z]+|language)=[\w.-]*)(?=;|$)", re.ASCII)
TOKEN = re.compile("[0-9a-f]{32}")
HEADERS = {
    "Content-Security-Policy": "default-src 'none'; style-src 'self'; img-src 'self'; "
                               "form-action 'self'; base-uri 'none'; frame-ancestors 'none'",
    "Cache-Control": "no-store", "X-Content-Type-Options": "nosniff",
    # Without the origin of a form a browser would not say where it comes from.
    "Referrer-Policy": "same-origin",
}
bottle.BaseRequest.MEMFILE_MAX = 4096


@functools.cache
def texts(language):
    """What each English text of a page is in a language."""
    with open(f"{TOP}/locale/texts.csv", encoding="utf-8", newline="") as file:
        return {row["en"]: row[language] for row in csv.DictReader(file)}


@functools.cache
def environment(language):
    """The templates of all features, with the texts of a language."""
    found = jinja2.Environment(loader=jinja2.FileSystemLoader(TOP), autoescape=True,
                               extensions=["jinja2.ext.i18n"], undefined=jinja2.StrictUndefined)
    found.install_gettext_callables(lambda it: texts(language).get(it, it), None, newstyle=True)
    return found


def language_of(request):
    """The language that a reader chose, or that the browser asks for."""
    asked = [request.query.get("lang", ""), request.get_cookie("language") or ""]
    asked += re.findall(r"(?:^|,)\s*([a-z]{2})", request.environ.get("HTTP_ACCEPT_LANGUAGE", ""))
    return next((it for it in asked if it in LANGUAGES), "en")


class Visit:
    """A request, of one who may ask: what they gave, and what is answered."""

    def __init__(self, db, request):
        self.db, self.request = db, request
        found = request.get_cookie(COOKIE) or ""
        self.token = found if TOKEN.fullmatch(found) else ""
        person = people.of_token(db, self.token) if self.token else None
        self.name, self.role = tuple(person) if person else ("", NOBODY)
        self.language = language_of(request)
        self.address = request.get_header("X-Real-IP", "")

    def field(self, name):
        """A field of the form, without spaces around it, or ""."""
        return (self.request.forms.getunicode(name) or "").strip()

    def text(self, text, **values):
        """A text in the reader's language."""
        found = texts(self.language).get(text, text)
        return found % values if values else found

    def why_not(self, account):
        """Why nothing is sold to an account, as its reader understands it, or ""."""
        if names.why_not(account) or account.startswith("radacctd-"):
            return self.text(
                "Nobody can log in as %(name)s. A name begins with a letter or a digit. It has at "
                "most 60 letters, digits, spaces and . _ @ -", name=account)
        return accounts.refused(self.db, account, self.text) or ""

    def set_token(self, token):
        self.token = token
        set_cookie(COOKIE, token)

    def secret(self):
        """What a form of this browser has, and no other site knows."""
        if not self.token:
            self.set_token(secrets.token_hex(16))
        return hashlib.sha256(f"form {self.token}".encode()).hexdigest()

    def is_own(self):
        """Whether a form is of this site, and was made for this browser."""
        origin = self.request.get_header("Origin")
        host = self.request.get_header("Host", "")
        return (origin in (None, f"https://{host}") and bool(self.token)
                and secrets.compare_digest(self.field("token").encode(), self.secret().encode()))

    def money(self):
        return money.of_site(places.SETTINGS)

    def spelled(self, number):
        """A number as the reader's language has its point."""
        return number if self.language == "en" else number.replace(".", ",")

    def sum(self, units):
        site = self.money()
        return f"{self.spelled(site.plain(units))}\u00a0{site.currency}".strip()

    def data(self, octets):
        """Octets as a person reads them: 1 GB is 10^9."""
        size, name = (octets / 1e9, "GB") if octets >= 1e9 else (octets / 1e6, "MB")
        return f"{self.spelled(f'{size:.1f}')}\u00a0{name}"

    moment = staticmethod(moment)

    def page(self, template, status=200, **values):
        """A page by its template; what stands in it is escaped."""
        return rendered(template, status, self.language, visit=self, **values)

    def entries(self, member):
        """Where a list of features leads this reader."""
        return [it for it in features.listed(member) if self.role in it.roles]

    def say(self, text, status):
        """A page of one sentence."""
        return self.page("core/said.html", status, said=text)


def rendered(template, status, language, **values):
    """A page by its template, with the headers of each page."""
    bottle.response.status = status
    bottle.response.headers.update(HEADERS)
    return environment(language).get_template(template).render(
        language=language, languages=LANGUAGES, house=house(), **values)


def house():
    """The name of the house on each page."""
    try:
        return places.settings()["name"] or "Wi-Fi"
    except (OSError, Failed):
        return "Wi-Fi"


def lead(path):
    """An answer that leads to another page of this site, with the cookies that were set."""
    found = bottle.response.copy(cls=bottle.HTTPResponse)
    found.status, found.body = 303, ""
    found.headers.update({**HEADERS, "Location": path})
    return found


def set_cookie(name, value):
    how = "" if value else "; Max-Age=0"
    bottle.response.add_header(
        "Set-Cookie", f"{name}={value}; Path=/; Secure; HttpOnly; SameSite=Lax{how}")


def answered(page, does, parts):
    """The answer to a request for a page: it is refused unless the role may ask."""
    with store.opened() as db:
        visit = Visit(db, bottle.request)
        if visit.language == visit.request.query.get("lang"):
            set_cookie("language", visit.language)
        if visit.role not in page.roles:
            if page.roles <= STAFF and visit.role == NOBODY and page.method == "GET":
                return lead("/login/")
            return visit.say(visit.text("You may not do this."), 403)
        if page.method == "POST" and not visit.is_own():
            return visit.say(visit.text(
                "This form is old, or of another page. Go back, load the page again, and repeat it. "
                "Nothing was done."), 403)
        return does(visit, **parts)


def guarded(page, does):
    """The same, also if site.db cannot be used: then nothing was sent."""
    def handler(**parts):
        # Of a header with anything else nothing could be read. A form is one of a page's.
        given = bottle.request.environ
        given["HTTP_COOKIE"] = "; ".join(OURS.findall(given.get("HTTP_COOKIE", "")))
        given["CONTENT_TYPE"] = "application/x-www-form-urlencoded"
        try:
            return answered(page, does, parts)
        except (sqlite3.Error, OSError, Failed) as why:
            print(f"{page.path}: {why}", file=sys.stderr, flush=True)
            return rendered("core/closed.html", 503, language_of(bottle.request))

    return handler


NOT_FOUND = guarded(features.Page("GET", "", "", ANYBODY),
                    lambda visit: visit.say(visit.text("There is no such page."), 404))


def made():
    """The application, with all pages of all features."""
    app = bottle.Bottle()
    for page, does in features.pages():
        app.route(page.path, page.method, guarded(page, does))
    for status in (404, 405):
        app.error(status)(lambda _: NOT_FOUND())
    return app

