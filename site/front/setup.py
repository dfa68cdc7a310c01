"""The front's part of the set-up: FreeRADIUS' folder, its certificate, the units.

Files of ours are whole: a set-up writes them anew. settings.conf, clients.conf and users.conf are
the site's: it adds what they lack, and secrets that are radacctd's.
"""

import os
import re

from radacctd_site.core import Failed, corrections, files as on_disk, machine, places
from radacctd_site.core.steps import Command, File, Folder, Step, Unit, folder_of, is_fresh
from radacctd_site.front import clients, proof, users
from radacctd_site.front.clients import HERE, RADDB, own

KEPT, CERTS = "/var/lib/radacctd-front", f"{RADDB}/certs"
# What the site's authority signs with. Whoever has a certificate of it may log in by it.
AUTHORITY = f"{places.NOTES}/authority"
CERTIFICATES = ("ca.pem", "server.pem", "server.key")
OF_DEBIAN = ["freeradius", "freeradius-rest", "freeradius-utils", "openssl", "sqlite3"]
OF_POSTGRESQL = ["freeradius-postgresql", "postgresql-client"]
# What a site edits. All other files of raddb are ours.
EDITED = ("settings.conf", "clients.conf", "users.conf")
UNITS = ("radacctd-front.service", "radacctd-cut.service")
# The first link of docs/CAMPUS.md, in a FreeRADIUS of the site's own.
LINKED = "/etc/freeradius/3.0/mods-enabled/radacctd-front"
# What codes are digested with, also by the pages that sell them: systemd hands it to their service.
CODES, PAGES = "/etc/radacctd-codes.key", "radacctd-site.service"
# How much of a burst of logins the kernel keeps, in octets.
BURST, KERNEL = 4_194_304, "/proc/sys/net/core/rmem_max"


def packages(answers):
    return OF_DEBIAN + (OF_POSTGRESQL if answers.sql else []) if answers.has_front else []


def files(answers, config):
    """What is on the disk."""
    is_made = answers.has_front and not answers.is_own
    if is_made:
        refuse_if_in_use()
    elif os.path.lexists(f"/etc/systemd/system/multi-user.target.wants/{UNITS[0]}"):
        raise Failed("the set-up's FreeRADIUS is in front, and the answers say otherwise: first "
                     f"systemctl disable --now {' '.join(UNITS)}")
    if not answers.has_front:
        return
    config.of_features.append(shared)
    config.secret_of = clients.secret_of
    yield Folder(RADDB, 0o750, group=places.RADIUS_USER)
    for name in sorted(set(os.listdir(f"{HERE}/raddb")) - set(EDITED)):
        yield of_group(name, own(f"raddb/{name}"))
    yield File(CODES, lambda old: old or code_key(answers), 0o600)
    yield of_group("settings.conf", lambda old: settings(old, config))
    yield of_group("clients.conf", lambda old: clients.written(old, answers))
    yield Folder(KEPT, 0o700, places.RADIUS_USER, places.RADIUS_USER)
    for name in ("waits", "aside", "again", "lost"):
        yield folder_of(places.RADIUS_USER, f"{KEPT}/{name}")
    yield from users.of(answers, of_group)
    if is_made:
        yield Folder(CERTS, 0o750, group=places.RADIUS_USER)
        yield Folder(AUTHORITY, 0o700)
        yield Step("make the site's own authority, and a certificate of it for FreeRADIUS",
                   lambda: all(os.path.exists(f"{CERTS}/{it}") for it in CERTIFICATES),
                   lambda: make_certificates(answers))
    yield File("/etc/sysctl.d/radacctd-front.conf", f"net.core.rmem_max = {BURST}\n", 0o644)


def units(answers):
    """What runs, once all files are there."""
    if not answers.has_front:
        return
    yield Command("let the kernel keep a burst of logins", keeps_burst, "systemctl", "restart",
                  "systemd-sysctl.service")
    if not answers.is_own:
        yield Command("stop Debian's own FreeRADIUS", lambda: not is_debians_on(), "systemctl",
                      "disable", "--now", "freeradius.service")
        # FreeRADIUS tests its files as its own user.
        test = [*machine.as_user(places.RADIUS_USER), "freeradius", "-C", "-l", "stdout", "-d", RADDB]
        yield Unit(UNITS[0], [f"{RADDB}/*", f"{CERTS}/*"], test)
    yield Unit(UNITS[1])
    yield Command("restart the pages' service with the key of codes", is_handed, "systemctl",
                  "restart", PAGES)


def is_handed():
    """Whether the pages' service has the key, or is not running."""
    return not machine.is_active(PAGES) or is_fresh(PAGES, [CODES])


def tries(answers, config):
    """What shows at the end that it works."""
    if answers.is_own and not os.path.lexists(LINKED):
        raise Failed("your FreeRADIUS has no line of radacctd's yet: docs/CAMPUS.md has them")
    if answers.has_front:
        yield from proof.Proof(answers, config).tries()


def of_group(name, change):
    return File(f"{RADDB}/{name}", change, 0o640, places.RADIUS_USER)


def is_debians_on():
    found = machine.properties("freeradius.service", "ActiveState", "UnitFileState")
    return found.get("ActiveState") == "active" or found.get("UnitFileState") == "enabled"


def refuse_if_in_use():
    """A FreeRADIUS that serves by files of the site's own is not stopped."""
    if os.path.exists("/usr/sbin/freeradius") and is_debians_on():
        said = machine.run("dpkg", "-V", "freeradius-config")[1]
        changed = re.findall(r"(?m)^..5\S* c (\S+)$", said)
        if changed:
            raise Failed(f"FreeRADIUS serves here by files of your own, as {changed[0]}: keep it "
                         "by freeradius = \"own\" (docs/CAMPUS.md), or end it: systemctl disable "
                         "--now freeradius")


def shared():
    """The secrets that the other machine of a pair is to have, too."""
    return {"codes": on_disk.text(CODES).strip(), **{
        f"client-{name}": clients.value(text, "secret") for name, text in clients.known()}}


def code_key(answers):
    """The key that FreeRADIUS has, or a new one."""
    had = clients.value(on_disk.text(f"{RADDB}/settings.conf"), "code_key")
    is_new = not had or had.startswith("change-me")
    return (answers.secret("codes") if is_new else had) + "\n"


def settings(old, config):
    """settings.conf with radacctd's address, key and secret; what a site has changed stays."""
    text = old or own("raddb/settings.conf")
    known = {"key": config.keys["logins"], "book_port": corrections.where()[1],
             "book_secret": config.clients["front"]["secret"],
             "code_key": on_disk.text(CODES).strip()}
    for name, it in known.items():
        text = re.sub(rf"(?m)^([^#\n]*?(?<!\w){name} = )[^\s,]+", rf"\g<1>{it}", text, count=1)
    return text


def made(name, *more):
    """A key, and a certificate of it for ten years."""
    said = machine.given(["openssl", "req", "-x509", "-newkey", "rsa:2048", "-nodes", "-days", "3650",
                          "-subj", f"/CN={name}", "-keyout", "-", *more])
    return re.findall("(?s)-----BEGIN.*?-----END.*?-----\n", said)


def make_certificates(answers):
    """A new authority, unless there is one, and a certificate of it."""
    name, by = answers.host or answers.name or "radacctd", f"{AUTHORITY}/ca"
    if not os.path.exists(f"{by}.key"):
        key, certificate = made(f"Authority of {name[:40]}")
        File(f"{by}.pem", certificate, 0o600).do()
        File(f"{by}.key", key, 0o600).do()
    key, certificate = made(name[:64], "-CA", f"{by}.pem", "-CAkey", f"{by}.key", "-addext",
                            "basicConstraints=CA:FALSE", "-addext", "extendedKeyUsage=serverAuth")
    for it, text in zip(CERTIFICATES, (on_disk.text(f"{by}.pem"), certificate, key)):
        of_group(f"certs/{it}", text).do()


def keeps_burst():
    """Whether the kernel does, or whether it is another machine's, as in a container."""
    return not os.access(KERNEL, os.W_OK) or int(on_disk.text(KERNEL)) >= BURST
