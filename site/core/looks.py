"""What several features look at, and no step sees: secrets, certificates, stores, what waits, and
who is silent.
"""

import os
import re
import time
from ssl import cert_time_to_seconds as seconds_of

from radacctd_site.core import accounts, book, files, machine, moment, names, places
from radacctd_site.core.steps import Fault

# How long a certificate is to last, a report may wait, and an access server be silent, in seconds.
SOON, WAITS, SILENT = 21 * 86400, 300, 2 * 86400
# Of how many accounts the sessions are looked at.
MOST = 5000
# What tells whether a store is sound, and may be written now; and the cure of each reason. A view in
# the place of a table may have no end: who reads it stands still.
TRY = "import sqlite3, sys; it = sqlite3.connect(sys.argv[1]); it.isolation_level = None; " \
      "said = it.execute('PRAGMA quick_check').fetchone(); it.execute('BEGIN IMMEDIATE'); " \
      "print(*it.execute('SELECT ? || type FROM sqlite_master WHERE type IN (?, ?)', " \
      "('it has a ', 'view', 'trigger')).fetchone() or said)"
CURES = {"locked": "end who has it open: ls -l /proc/*/fd | grep {path}",
         "open database|readonly|disk I/O": "chown -h {user}: {path}*; its disk may be read-only",
         "": "systemctl stop 'radacctd-*'; setsid -w runuser -u {user} -- sh -c 'umask 077; for it in "
             "{path} {path}-wal {path}-shm; do mv $it $it.$(date +%s); done; cat >{path}' "
             "<{backups}/site-DATE/{name} 2>&1 | cat -v; radacctl setup"}


def secrets(path, clients):
    """The faults of the secrets of a file's clients, name and secret of each."""
    for name, secret in clients:
        if len(secret) < 16:
            yield Fault("secret-short", f"{path}: that of {name} has {len(secret)} characters",
                        "write a longer one there and at the device: openssl rand -hex 16")


def certificate(path, cure):
    """The fault of a certificate that is missing, does not hold now, or ends within three weeks."""
    text = files.linked_text(path)
    if not text:
        yield Fault("certificate-ended", f"{path} is missing or empty", cure)
        return
    said = machine.given(["openssl", "x509", "-noout", "-dates"], text, 60)
    begin, end = re.findall("not(?:Before|After)=(.*)", said)
    if not seconds_of(begin) <= time.time() < seconds_of(end):
        yield Fault("certificate-ended", f"{path} holds from {begin} to {end}", cure)
    elif seconds_of(end) < time.time() + SOON:
        yield Fault("certificate-ends", f"{path} is over at {end}", cure)


def store(path):
    """The fault of a store of the pages' user which is not sound, or which it cannot write now."""
    if os.path.lexists(path):
        words = [*machine.as_user(places.USER), "python3", "-I", "-c", TRY, path]
        why = machine.last_line("".join(machine.run(*words)[1:]))
        if why != "ok":
            cure = next(cure for reason, cure in CURES.items() if re.search(reason, why))
            yield Fault("store-wrong", f"{path}: {why}", cure.format(
                path=path, name=os.path.basename(path), user=places.USER, backups=places.BACKUPS))


def oldest_kept(folder):
    """When the oldest report in a folder of FreeRADIUS' was kept, or None. Its user, who may change
    names there, looks. Of one that was sent the line is another one."""
    _, said = machine.run(*machine.as_user(places.RADIUS_USER), "find", folder, "-type", "f",
                          "-exec", "grep", "-hm1", "Timestamp = ", "{}", "+")
    return min(map(int, re.findall(r"(?m)^\tTimestamp = (\d{1,10})$", said)), default=None)


def waits(folder, name, whom, cure):
    """The fault of a report that waits for too long."""
    oldest = oldest_kept(folder)
    if oldest is not None and time.time() - oldest > WAITS:
        since = time.strftime("%F %T", time.localtime(oldest))
        yield Fault(name, f"reports wait for {whom} since {since}", cure)


def silent(servers):
    """Access servers without a report in the book, or without one of late: each a name, and by what
    names and addresses its reports are known. Accounts are looked at until all were heard of.
    """
    missing, heard = dict(servers), {}
    desk = missing and places.book()
    for account in map(names.octets_of, sorted(book.names())[:MOST]):
        # Nobody is missing any more, or the desk does not tell.
        if not missing or (found := accounts.told(desk, account, accounts.SESSIONS)) is None:
            return
        for it in found:
            # Behind FreeRADIUS it is front/nNAS-IDENTIFIER, or front/aADDRESS.
            device = names.octets_of(it["client"].partition("/")[2][1:] or it["client"])
            heard[device] = max(it["last"], heard.get(device, 0))
        missing = {name: known for name, known in missing.items()
                   if max(heard.get(it, 0) for it in known) < time.time() - SILENT}
    for name, known in missing.items():
        last = max(heard.get(it, 0) for it in known)
        since = f" since {moment(last)}" if last else ""
        yield Fault("device-silent", f"{name} has reported nothing{since}",
                    f"see {places.NOTES}/access-servers, accounting too; radacctl who shows by "
                    "which names reports come")
