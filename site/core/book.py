"""The book and what radacctd writes of it, as root looks at them: by radacctd's user, in whose
folders they are. And the blocks of its configuration.
"""

import csv
import json
import os
import re

from radacctd_site.core import Failed, accounts, machine, places, told


def block(name, members):
    """A block of the configuration. JSON leaves a DEL as it is, and TOML takes none."""
    lines = [f"{it} = {json.dumps(value, ensure_ascii=False)}" for it, value in members.items()]
    return f"[[{name}]]\n" + "\n".join(lines).replace("\x7f", "\\u007f") + "\n"


def written(path):
    """The text of a file that radacctd writes; "" if it has written none."""
    is_made = os.path.isdir(os.path.dirname(path))
    return machine.text_of(places.SERVER_USER, path) if is_made else ""


def in_force():
    """The plans in force, by their classes; none if nobody knows them."""
    return accounts.plans_in(written(accounts.PLANS).splitlines())


def names():
    """The accounts of the balances."""
    with told(Failed, f"{accounts.BALANCES}: ", csv.Error):
        return {row[0] for row in csv.reader(written(accounts.BALANCES).splitlines()[1:]) if row}


def samples():
    """The counts of the server."""
    return {name: float(value) for name, value in
            re.findall(r"(?m)^(\w+) ([\d.e+]+)$", written(places.COUNTS))}


def is_there():
    """Whether a whole `init` made it: one that was killed leaves a file of no octet, or none."""
    look = [*machine.as_user(places.SERVER_USER), "find", places.BOOK, "-size", "+99c"]
    return bool(machine.ran(look).stdout)
