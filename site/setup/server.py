"""The steps to radacctd itself: users, configuration, book and service; and the site's store."""

import glob
import os
import re
import socket
import time

from radacctd_site.core import (
    Failed, accounts, book, corrections, features, files, looks, machine, names, places, steps)
from radacctd_site.core.steps import Command, Fault, File, Folder, Unit
from radacctd_site.setup import answers as of_answers, config as of_config

# The marks of a set-up that ended well.
PROVED, ANSWERS = f"{places.NOTES}/proved", f"{places.NOTES}/answers.json"
YEAR_2026 = 1_767_225_600
SITE_KEY, BOOKS_SECRET = "/etc/radacctd-site.key", "/etc/radacctd-books.secret"


def last_copy():
    """The path of the newest copy of the site, or None."""
    return max(glob.glob(f"{places.BACKUPS}/site-*"), default=None)


def refuse_if_lost(is_new_wanted):
    """A site that had a book gets no empty one, in which every guest has nothing, unless that is
    wanted. Nor does one whose server still runs with a book that was removed.
    """
    if book.is_there():
        return
    machine.refuse_if_away()
    copy = last_copy()
    traces = [(copy, f"the newest copy is {copy}"),
              (book.names(), f"{accounts.BALANCES} has accounts"),
              (os.path.exists(PROVED), f"{PROVED} is there")]
    found = [text for is_there, text in traces if is_there]
    if found and not is_new_wanted:
        raise Failed(
            f"this site had a book, and {places.BOOK} is not there: {'; '.join(found)}. Put it "
            'back, or restore the copy: GONE.md, "The book is missing". An empty book has no '
            "balance of anybody; --new-book makes one")


def listens(answers):
    """The drop-in of the service: beside FreeRADIUS another port, else where devices send to."""
    where = f"RADACCTD_RADIUS_PORT={of_config.BESIDE_FREERADIUS}"
    if not answers.has_front:
        binds = dict.fromkeys(["127.0.0.1", *filter(None, [answers.server])])
        where = f'"RADACCTD_BIND={" ".join(f"--bind {it}" for it in binds)}"'
    return "# radacctl setup wrote this file: your own lines belong into " \
           f"{corrections.DEFAULTS}.\n[Service]\nEnvironment={where}\n"


def refuse_if_elsewhere(answers):
    """Before a file is changed: a server that is to listen where it cannot would not start."""
    is_told = re.search(r"(?m)^\s*RADACCTD_BIND=", files.text(corrections.DEFAULTS))
    if answers.has_front or not answers.server or is_told:
        return
    try:
        with socket.socket(type=socket.SOCK_DGRAM) as found:
            found.bind((answers.server, 0))
    except OSError:
        raise Failed(f"this machine has no address {answers.server}, at which radacctd is to "
                     "listen. Give it that one, or write another one into the file; or write "
                     f"RADACCTD_BIND into {corrections.DEFAULTS}") from None


def of(answers, config):
    """The steps, in their order."""
    refuse_if_elsewhere(answers)
    yield steps.users()
    yield Command("make radacctd's folders", lambda: os.path.isdir(
        os.path.dirname(accounts.BALANCES)), "systemd-tmpfiles", "--create", "radacctd.conf")
    yield Folder(places.NOTES, 0o700)
    yield of_config.ConfigFile(config)
    yield Folder(os.path.dirname(corrections.DROP_IN))
    yield File(corrections.DROP_IN, listens(answers), keeps=False)
    yield File(BOOKS_SECRET, config.clients[corrections.CLIENT]["secret"] + "\n", 0o600)
    yield Folder(places.STATE, 0o700, places.SERVER_USER, places.SERVER_USER)
    yield Command(f"make the book {places.BOOK}", book.is_there, places.PROGRAM, "init", "--config",
                  places.CONFIG, "--db", places.BOOK)
    # Before a restart, which fails as long as a plan waits.
    yield of_config.plan_step(config)
    yield Unit("radacctd.service", [corrections.DROP_IN, corrections.DEFAULTS])
    # What sells, also without pages.
    yield Folder(places.USUAL, 0o711, places.USER, places.USER)
    yield File(SITE_KEY, config.keys["site"] + "\n", 0o600)
    yield from map(Unit, units(".timer"))


def units(kind):
    """The features' units of a kind: pages are started with the pages only."""
    return [it for it in features.listed("UNITS") if it.endswith(kind)]


def seen(config):
    """What a step does not see of the server."""
    yield from away()
    yield from counts()
    yield from plans_lost(config)
    yield from printed()
    yield from looks.store(places.DATABASE)
    desk = corrections.settings().get("RADACCTD_DESK_BIND") or "127.0.0.1"
    if not desk.startswith("127."):
        yield Fault("desk-open", f"radacctd's desk, which sells, listens at {desk}",
                    f"remove RADACCTD_DESK_BIND from {corrections.DEFAULTS}; "
                    "systemctl restart radacctd")
    yield from looks.secrets(places.CONFIG, [(it.get("name"), it.get("secret", ""))
                                       for it in config.found.get("client", [])])
    said = machine.run(places.PROGRAM, "check", "--config", places.CONFIG, "--explain")[1]
    for line in said.splitlines():
        if "is the sample's, which is public" in line:
            yield Fault("sample-value", f"{places.CONFIG}: {line}", "replace it")
    yield from looks.silent((it, [it.encode()]) for it in config.clients
                            if it not in of_answers.TAKEN_NAMES)


def away():
    """The names of book and log lead to the server's files."""
    unit, page = "radacctd.service", 'GONE.md, "The book is missing"'
    is_active = machine.is_active(unit)
    if machine.is_away():
        yield Fault("book-away", f"{unit} answers nothing: {places.BOOK} or its log was moved, "
                          "removed or replaced", "do not stop or restart it: what was removed ends "
                          f"with it. Put it back, or copy it from the server that runs: {page}")
    elif not is_active and not book.is_there():
        copy = f"restore the last copy, {last_copy()}" if last_copy() else "restore the last copy"
        yield Fault("book-away", f"there is no {places.BOOK}, and {unit} cannot run",
                          f"look for it; if it is gone, {copy}, and make no new one: {page}")
    elif not is_active and book.samples().get("radacctd_book_is_there") == 0:
        yield Fault("book-away", f"{unit} ended while {places.BOOK} or its log was away",
                    f"do not start it before you have looked for them: {page}")
    elif said := re.findall(r"(?m)^db: the name of .*$", machine.journal(unit)):
        if said[-1].endswith("nothing is answered"):
            yield Fault("book-away", f"{unit} began anew while {places.BOOK} or its log was away: "
                        "it may serve an older book", f"look for the other one: {page}")


def counts():
    """The server writes the balances, and has the configuration as it is."""
    if not machine.is_active("radacctd.service"):
        return
    found = book.samples()
    if found.get("radacctd_config_is_current") == 0:
        yield Fault("config-wrong", f"the server goes on without {places.CONFIG} as it is",
                          "journalctl -u radacctd | grep config:")
    moment = found.get("radacctd_balances_time_seconds", 0)
    # Of more accounts it is written once an hour.
    every = max(int(corrections.settings().get("RADACCTD_BALANCES_EVERY") or 10),
                3600 * (found.get("radacctd_accounts", 0) > 10_000))
    if time.time() - moment > max(120, 5 * every):
        since = time.strftime("%F %T", time.localtime(moment)) if moment else "its start"
        yield Fault("balances-old", f"{accounts.BALANCES} was not written since {since}",
                          "journalctl -u radacctd | grep -e balances: -e status:")
    if moment > time.time() + 60:
        yield Fault("clock-wrong", f"{accounts.BALANCES} is of a time to come",
                          "set the clock: timedatectl; then systemctl restart radacctd")


def plans_lost(config):
    """No plan in force is missing in the configuration, or another one there."""
    wanted = {names.shown(it["class"].encode()): [it["block"], it["unit"], it.get("count", "both")]
              for it in config.found.get("plan", [])}
    for name, plan in book.in_force().items():
        had = [plan[it] for it in ("block", "unit", "count")]
        if wanted.get(name) != had:
            yield Fault("plan-lost", f"the plan {name} ({', '.join(map(str, had))}) of the book is "
                        f"not in {places.CONFIG}, or another one", "write it back as it was")


def printed():
    """What the server said in the last hour that needs a look."""
    said = machine.journal("radacctd.service")
    for name, address in dict.fromkeys(re.findall(r"(?m)^drop \d+ (\w+) from ([\d.]+):", said)):
        if name == "BadAuthenticator":
            yield Fault("drop-secret", f"{address} sends reports with another secret",
                              f"give it the secret of its client in {places.CONFIG}")
        elif name == "UnknownClient":
            yield Fault("device-unknown", f"{address} sends reports, and is no client",
                              f"add it to {places.CONFIG}, or shut it out")
