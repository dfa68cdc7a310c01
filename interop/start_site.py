"""A machine on which `radacctl setup` makes a whole site."""

import secrets
import time

import machine
from served import check, until

PACKAGES = [*machine.SITE, "openssl"]
HOST, FRONT = "accounts.hotel.test", "/etc/radacctd-front"
SCHEMA = "/etc/freeradius/3.0/mods-config/sql/main/postgresql/schema.sql"
ANSWERS = "/root/site.toml"
# A container has no clock of its own to keep.
CLOCK = "#!/bin/sh\necho NTP=yes\necho NTPSynchronized=yes\n"
NOTES = "/root/radacctd-setup"


def answers(box):
    """The sample with the names of this site, as an operator edits it."""
    text = box.must("radacctl setup --sample")
    text = text.replace("accounts.example.org", HOST)
    more = [("attic", "10.0.2.0/24", "10.0.2.9", "unifi"),
            ("hall", "127.0.0.20", "127.0.0.20", "openwrt")]
    for name, address, member, vendor in more:
        text += f'\n[[access_server]]\nname = "{name}"\naddress = "{address}"\n'
        text += f'members = ["{member}"]\nvendor = "{vendor}"\n'
    return text


def prepare(box, folder):
    box.copy(folder)
    # Debian's packages start nothing here; on a machine with a network they would.
    box.write("/usr/local/sbin/timedatectl", CLOCK, 0o755)
    box.must("rm -f /usr/bin/timedatectl && mv /usr/local/sbin/timedatectl /usr/bin/")
    box.write(ANSWERS, answers(box), 0o600)


ROLE = """CREATE ROLE radius LOGIN PASSWORD '{}';
CREATE DATABASE radius OWNER radius;
"""
USER = """INSERT INTO radcheck (username, attribute, op, value)
VALUES ('nora', 'Cleartext-Password', ':=', 'nora-has-one');
"""


def database(box):
    """What the administrator of a database does before: FreeRADIUS' own tables, and a user. The
    password is returned.
    """
    password = secrets.token_hex(12)
    box.write("/root/radius-password", f"{password}\n", 0o600)
    box.write("/root/.pgpass", f"*:*:*:*:{password}\n", 0o600)
    box.write("/var/tmp/role.sql", ROLE.format(password))
    box.write("/var/tmp/user.sql", USER)
    box.must("systemctl start postgresql && su postgres -c 'psql -qf /var/tmp/role.sql'")
    for path in (SCHEMA, "/var/tmp/user.sql"):
        box.must(f"HOME=/root psql -qwh localhost -U radius -f {path} radius")
    return password


# Writes each command with its words and its environment, as any user may read them in /proc.
TRACE = ["strace", "-f", "-qq", "-v", "-s", "4096", "-e", "trace=execve", "-e", "signal=none", "-o"]


def set_up(box, path=ANSWERS, trace=None):
    """Runs it to its end: how long it took, in seconds, and what it printed. `trace` is a file of
    all commands that it gave.
    """
    begun = time.monotonic()
    words = box.words(f"radacctl setup --yes {path}")
    status, said = machine.run([*TRACE, trace, *words] if trace else words)
    check("the set-up ends well", (status, said[-500:] if status else ""), (0, ""))
    if status:
        raise SystemExit("without a site nothing else is tried")
    return time.monotonic() - begun, said


def faults(box, *words):
    """The status and the lines of the check."""
    status, said = box.run(" ".join(["radacctl setup --check", *words]))
    return status, said.splitlines()


def is_sound(box, seconds=90):
    """Waits until the check finds nothing; else the lines that it last printed."""
    if until(lambda: faults(box)[0] == 0, seconds, 1):
        return []
    status, lines = faults(box)
    return lines or [f"status {status}"]
