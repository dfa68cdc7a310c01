"""What no step sees of FreeRADIUS in front: secrets that people wrote, its certificate's end,
devices that it ignores, reports that wait.
"""

import re
import socket

from radacctd_site.core import book, files, looks, machine, names, places
from radacctd_site.core.steps import Fault
from radacctd_site.front import clients, cut, setup, users
from radacctd_site.front.clients import RADDB

UNIT, CUT = setup.UNITS
RESTART = f"systemctl restart {UNIT}, or freeradius if it is your own"
# Only FreeRADIUS' own lines have a device that it does not know, or whose secret is another one.
BEGIN = r"(?m)^.{24} : \w+: "
UNKNOWN = re.compile(BEGIN + r"Ignoring request to .* unknown client (\S+) port \d+ ")
OTHER_SECRET = re.compile(BEGIN + r"Dropping packet without response because of error: Received "
                          r"(?:\S+ )?packet from (?:client )?(\S+) with invalid .*secret is incorrect")
NOT_CUT = re.compile(r"(?m)^(\S+) answers no Disconnect-Request$")
MOST_NAMED = 3


def look_at(answers, _):
    if not answers.has_front:
        return
    if not answers.is_own:
        yield from looks.certificate(f"{setup.CERTS}/server.pem",
                                     f"remove {setup.CERTS}, and give radacctl setup")
        yield from ignored()
        yield from users_away(answers.sql) if answers.sql else users_here()
    yield from looks.secrets(f"{RADDB}/clients.conf", (
        (name, clients.value(text, "secret")) for name, text in clients.known()))
    yield from access_servers()
    yield from kept()
    # Whom nobody cuts off is named by that.
    found = ((name, cut.servers(f"client {name} {{{text}}}")) for name, text in clients.known())
    yield from looks.silent(it for it in found if it[1])


def access_servers():
    """A client that is every address, or where nobody is cut off; a week of counting alone."""
    for address in sorted(set(NOT_CUT.findall(machine.journal(CUT)))):
        yield Fault("device-deaf", f"{address} answers no Disconnect-Request: overdrawn guests go on",
                    f"let it take them, by the secret of {places.NOTES}/access-servers")
    for name, text in clients.known():
        address, port = clients.value(text, "ip(?:v[46])?addr"), clients.value(text, "cut")
        if re.fullmatch(r"0\.0\.0\.0|::|\*|.*/[0-7]", address):
            yield Fault("front-wrong", f"client {name} of {RADDB}/clients.conf is every address",
                        f"write the access servers' own addresses; {RESTART}")
        elif port != "no" and lacks(f"client {name} {{{text}}}"):
            yield Fault("cut-off", f"client {name} of {RADDB}/clients.conf: nobody is cut off there",
                        'write cut = 3799, and of a network members = "ADDRESS .."; else cut = no')
    if clients.value(files.text(f"{RADDB}/settings.conf"), "observe") == "yes":
        yield Fault("front-wrong", "observe = yes: whoever was proved is let in, without a quota",
                    f"once you have seen enough, write observe = no into settings.conf; {RESTART}")


def lacks(text):
    """Whether one of a client's addresses cannot be asked, or is not read."""
    lines = " ".join(re.findall(r"(?m)^[^#\n]*?\bmembers[ \t]*=([^#\n]*)", text))
    return len(cut.servers(text)) <= max(1, len({*re.findall(r"[\w/-]*[.:][\w.:/-]*", lines)}))


def users_here():
    """The file of users, who logs in without a password, and plans that are none."""
    yield from looks.store(users.FILE)
    for name in users.open_to_all():
        yield Fault("front-wrong", f"{name} in {users.FILE} logs in without a password",
                    "give it one, or remove its row of radcheck")
    known = book.in_force()
    for name in users.classes() if known else ():
        if names.shown(name.encode()) not in known:
            yield Fault("front-wrong", f"a group in {users.FILE} has the Class {name}, which is no "
                        "plan: `default` prices it", "correct its row of radgroupreply, or add it")


def users_away(sql):
    """A database of users that does not answer: FreeRADIUS refuses all logins."""
    try:
        socket.create_connection((sql["server"], sql["port"]), 5).close()
    except OSError as why:
        yield Fault("users-away", f"the database of users at {sql['server']}, port {sql['port']}, "
                    f"does not answer: {why}", "start it, or look at the way to it")


def ignored():
    """Devices that FreeRADIUS did not answer in the last hour."""
    said = machine.journal(UNIT)
    for address in sorted(set(OTHER_SECRET.findall(said))):
        yield Fault("device-secret", f"FreeRADIUS ignores {address}, which has another secret",
                    f"write one secret into {RADDB}/clients.conf and there; {RESTART}")
    if unknown := sorted(set(UNKNOWN.findall(said))):
        more = f" and {len(unknown) - MOST_NAMED} more" if len(unknown) > MOST_NAMED else ""
        named = ", ".join(unknown[:MOST_NAMED])
        yield Fault("device-unknown", f"FreeRADIUS ignores {named}{more}: no client of it",
                    f"if it is yours, write it into {RADDB}/clients.conf; {RESTART}; if not, shut "
                    "it out")


def kept():
    """Reports that radacctd has not answered: while it is away they wait, and are sent by
    themselves. What it refuses is set aside.
    """
    for name in ("waits", "again"):
        yield from looks.waits(f"{setup.KEPT}/{name}", "reports-wait", "radacctd",
                               "systemctl status radacctd; journalctl -u radacctd -n 20")
    for name in ("aside", "lost"):
        if looks.oldest_kept(f"{setup.KEPT}/{name}") is not None:
            yield Fault("reports-aside", f"{setup.KEPT}/{name} has reports that radacctd does not "
                        "take", "journalctl -u radacctd | grep drop says why; look at the device")
