"""Where the kit has its files, and as which user it works. A test names others by the environment."""

import os
import pwd

from radacctd_site.core import Failed, desk, money

TOP = os.path.dirname(os.path.dirname(os.path.realpath(__file__)))
# Installed, the kit is beside the programs that it runs, in lib; else it is in the repository.
IS_INSTALLED = os.path.basename(TOP) == "radacctd_site"
ABOVE = os.path.dirname(TOP)
SBIN = os.path.normpath(f"{ABOVE}/../../sbin") if IS_INSTALLED else f"{ABOVE}/bin"
# What runs radacctd as the user of its service if root calls it, and the kit's command.
PROGRAM, RADACCTL = f"{SBIN}/radacctd", f"{SBIN}/radacctl"

# radacctd's own, and what the set-up notes for root alone.
CONFIG = "/etc/radacctd.toml"
STATE, BOOK = "/var/lib/radacctd", "/var/lib/radacctd/book"
COUNTS = "/var/lib/radacctd-counts/radacctd.prom"
BACKUPS, NOTES = "/var/backups/radacctd", "/root/radacctd-setup"
# The users of the server, of FreeRADIUS, and the group that reads balances.
SERVER_USER, RADIUS_USER, READERS = "radacctd", "freerad", "radacctd-balances"

USER = "radacctd-site"
USUAL = "/var/lib/radacctd-site"
FOLDER = os.environ.get("RADACCTD_SITE", USUAL)
DATABASE = os.path.join(FOLDER, "site.db")
SETTINGS = os.environ.get("RADACCTD_SETTINGS", money.SETTINGS)
# The key of a cashier for the book's desk, and the secret of the client that corrects. systemd
# hands them to the service, whose user may not read the files.
KEY, SECRET = (os.path.join(os.environ.get("CREDENTIALS_DIRECTORY", "/etc"), it)
               for it in ("radacctd-site.key", "radacctd-books.secret"))


def binary():
    """The path of radacctd itself, which runs as who calls it."""
    path = f"{ABOVE}/radacctd" if IS_INSTALLED else f"{ABOVE}/crates/radacctd/out/radacctd"
    if not os.access(path, os.X_OK):
        raise Failed(f"{path} is missing: install radacctd again")
    return path


def book():
    """The book's desk, with the key, and the secret if there is one."""
    host, _, port = os.environ.get("RADACCTD_DESK", "127.0.0.1:8066").rpartition(":")
    is_handed = "CREDENTIALS_DIRECTORY" in os.environ
    key = desk.key_in(KEY, is_handed)
    secret = desk.secret_in(SECRET, is_handed) if os.path.exists(SECRET) else b""
    return desk.Desk((host, int(port)), key, secret.rstrip(b"\r\n"))


def settings():
    return money.settings_in(SETTINGS)


def become_user():
    """Leaves root: what is in the user's folder is not for root to open."""
    os.umask(0o077)
    if os.getuid() != 0 or FOLDER != USUAL:
        return
    try:
        found = pwd.getpwnam(USER)
    except KeyError:
        raise Failed(f"there is no user {USER}: radacctl setup makes it") from None
    os.initgroups(USER, found.pw_gid)
    os.setgid(found.pw_gid)
    os.setuid(found.pw_uid)
