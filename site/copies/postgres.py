"""FreeRADIUS' users, if they are in a PostgreSQL database: its pg_dump writes them."""

import re

from radacctd_site.core import files, machine

CONF = "/etc/radacctd-front/users.conf"
OPTIONS = {"-h": "server", "-p": "port", "-U": "login", "-d": "radius_db"}
# Each user sees a command line: so the password is in the input.
DUMP = "IFS= read -r PGPASSWORD; export PGPASSWORD PGCONNECT_TIMEOUT=20; exec pg_dump -w \"$@\""


def settings():
    """The values of users.conf, if it names such a database, else {}."""
    text = re.sub(r"(?m)(?<!\S)#.*$", "", files.text(CONF))
    found = {name: marked or bare for name, marked, bare in
             re.findall(r'(?:^|[\s,])(\w+) = (?:"([^"\n]*)"|([^\s,"]+))', text)}
    return found if found.get("dialect") == "postgresql" else {}


def dump(to):
    """Writes the database into a file: why it could not, or None."""
    found = settings()
    if not found:
        return None
    if re.search("=|://", found.get("radius_db", "")):
        why = f"radius_db of {CONF} is to be the name of a database alone, with server, login and " \
              "password beside it"
    else:
        words = [it for option, name in OPTIONS.items() if found.get(name)
                 for it in (option, found[name])]
        done = machine.ran(["sh", "-c", DUMP, "sh", "-f", to, *words], 3600,
                           found.get("password", "") + "\n")
        if not done.returncode:
            return None
        why = machine.last_line(done.stderr)
    files.remove(to)
    return f"the copy lacks FreeRADIUS' database: {why}"
