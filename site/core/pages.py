"""The core's own pages: a cashier or an operator logs in and out."""

import re

import bottle

from radacctd_site.core import features, files, people, places, web
from radacctd_site.core.web import COOKIE, TOP, set_cookie


def login_form(visit):
    if visit.name:
        return web.lead(first_of(visit.role))
    return visit.page("core/login.html", said="", name="")


def first_of(role):
    """The first page of a role's menu."""
    return next((it.path for it in features.listed("MENU") if role in it.roles), "/")


def log_in(visit):
    name = visit.field("name")
    token = people.logged_in(visit.db, name, visit.field("password"), visit.address)
    if token:
        visit.set_token(token)
        return web.lead(first_of(people.of_token(visit.db, token)["role"]))
    said = visit.text("Too many tries: wait a minute.") if token is None else (
        visit.text("Name or password is wrong."))
    return visit.page("core/login.html", 429 if token is None else 403, said=said, name=name)


def log_out(visit):
    people.log_out(visit.db, visit.token)
    set_cookie(COOKIE, "")
    return web.lead("/login/")


def style(_):
    """The kit's own style, with the colour of the house if the settings have one."""
    bottle.response.content_type = "text/css"
    found = files.text(f"{TOP}/core/site.css")
    colour = places.settings().get("colour", "")
    return found.replace("#0a4f96", colour) if re.fullmatch("#[0-9a-fA-F]{6}", colour) else found
