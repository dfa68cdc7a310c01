"""Sets a site up or completes it; with --check says what is wrong with it, and changes nothing.

FILE has the answers, as TOML; --sample prints one. Without it they are those of the last set-up.
It says what it will do, and asks; --yes asks nothing. A second time it changes nothing. If it was
killed, give it again. Run it as root.

It installs Debian's packages, writes the configuration with new secrets, makes the book, starts
the service, sets FreeRADIUS up in front, and nginx with the pages. It writes whole files of its
own, and none of another program. One of its own that differs is kept beside as NAME~before-DATE.
Plans, secrets and keys that are there stay. At its end it tries a sale, a login and reports that
use the sale up, and the pages. What to type at each access server, and cashiers' passwords, are
in /root/radacctd-setup, for root alone.

--check prints a line for each step that does not hold and for each fault: NAME: WHAT. Do: CURE. It
tries the same as the set-up, if nothing grave is wrong. With FILE it prints what that would do. The
status is 0 if nothing is wrong or to be done, 1 if something is, 2 for a wrong answer.
"""

import json
import os
import time

from radacctd_site.core import Failed, cli, features, files, steps
from radacctd_site.core.steps import File
from radacctd_site.setup import answers as of_answers, check, devices, pages, server
from radacctd_site.setup.config import Config

LOCK = "/run/radacctd-setup.lock"
SAMPLE = """\
name = "Hotel Example"              # on pages and printed vouchers
server = "10.0.0.5"                 # where access servers reach this machine
host = "accounts.example.org"       # the pages' name, in your DNS; without it there are none
currency = "EUR"
decimals = 2
cashiers = ["anna", "ben"]
# operators = ["anna"]              # of these, who may do all at the pages
# freeradius = "own"                # one of yours serves here, and stays: docs/CAMPUS.md
# certificate = "/etc/letsencrypt/live/accounts.example.org/fullchain.pem"
# certificate_key = "/etc/letsencrypt/live/accounts.example.org/privkey.pem"

# A gigabyte costs 1.00: 1 cent for each started 10 megabytes.
[[plan]]
class = "default"
block = 10000000
unit = 1

[[access_server]]
name = "lobby"
address = "10.0.0.1"
vendor = "mikrotik"                 # or unifi, pfsense, openwrt, aruba, cisco, other
# members = ["10.0.0.2", "10.0.0.3"]  # if `address` is a network: its access points, to be cut off

# Users of a PostgreSQL database with FreeRADIUS' own tables, in place of a file.
# [sql]
# server = "db.example.org"
# password_file = "/root/radius-password"

# Two machines that share each other's reports, on a link with nobody else in it.
# [pair]
# own = "10.9.0.5"
# other = "10.9.0.6"
"""


def arguments(it):
    it.add_argument("file", nargs="?", help="the answers; else the last ones")
    it.add_argument("--check", action="store_true", help="say what is wrong, and change nothing")
    it.add_argument("--yes", action="store_true", help="ask nothing")
    it.add_argument("--new-book", action="store_true",
                    help="make an empty book for a site that lost its own: nobody has money then")
    it.add_argument("--sample", action="store_true", help="print a file of answers")


def of_features(name, *given):
    """What the features' own parts of the set-up yield."""
    for part in features.modules("SETUP").values():
        yield from getattr(part, name, lambda *_: ())(*given)


def packages_of(wanted):
    found = ["nginx", "openssl", *features.listed("PACKAGES")] if wanted.host else []
    return [*dict.fromkeys([*found, *of_features("packages", wanted)])]


def steps_of(wanted, config):
    """All steps but the tries. What a later one makes, no earlier one looks for."""
    yield steps.packages(packages_of(wanted))
    yield from server.of(wanted, config)
    yield File(server.ANSWERS, kept(wanted), 0o600, keeps=False)
    yield from of_features("files", wanted, config)
    yield from of_features("units", wanted)
    if wanted.host:
        yield from pages.of(wanted)
    yield from devices.of(wanted, lambda name: config.secret_of(name))


def kept(wanted):
    """The answers as the next run reads them, and Debian's packages for a restore."""
    found = {name: it for name, it in wanted.found.items() if it != {} and name != "secrets"}
    return json.dumps({"packages": packages_of(wanted), "answers": found}, indent=1) + "\n"


def answers_of(words):
    if words.file:
        return of_answers.read(words.file)
    if text := files.text(server.ANSWERS):
        return of_answers.Answers(json.loads(text)["answers"])
    raise of_answers.Wrong("no set-up made this site: give a file of answers (--sample prints one)")


def tries(wanted, config):
    """Tries what people do. Each line says what was answered as it should; else Failed says why."""
    yield from of_features("tries", wanted, config)
    if wanted.host:
        yield from pages.tries(wanted)


def do(words, wanted):
    """Does each step that is not done, and shows that the site works."""
    # What is made by a clock that was never set is old once it is: a certificate, say.
    if time.time() < server.YEAR_2026:
        raise Failed(f"the clock says {time.strftime('%F %T')}: set it first (timedatectl)")
    server.refuse_if_lost(words.new_book)
    config = Config(wanted)
    found = [it for it in steps_of(wanted, config) if not it.holds()]
    is_done = not found and os.path.exists(server.PROVED)
    if is_done:
        print("nothing is to be done")
    else:
        print("\n  - ".join(["This is to be done:", *(it.what for it in found)]))
    if is_done or words.check:
        return int(not is_done)
    cli.confirm("Do this?", words.yes)
    files.remove(server.PROVED)
    for it in steps_of(wanted, config):
        it.finish()
    for line in tries(wanted, config):
        print(line, flush=True)
    files.replace(server.PROVED, b"")
    for line in pages.others(wanted):
        print(line)
    print(f"What to type at access servers is in {devices.FOLDER}.")
    return 0


def main(words):
    if words.sample:
        print(SAMPLE, end="")
        return 0
    if os.geteuid() != 0:
        raise Failed("be root: what is secret could not be looked at")
    os.umask(0o077)
    wanted = answers_of(words)
    if words.check and not words.file:
        return check.main(lambda: Config(wanted), wanted, steps_of, tries)
    # One set-up at a time. The lock ends with this process.
    lock = files.open_lock(LOCK)
    if not files.is_locked(lock):
        raise Failed("another set-up is going on")
    try:
        return do(words, wanted)
    except (Failed, OSError) as why:
        raise Failed(f"{cli.reason(why)}\nWhat is done stays. Mend it, and give the same "
                     "again.") from None
