"""What is sold with a login: its sum, its plan in radacctd, speed, devices, and how long it holds.

A package is a group in FreeRADIUS' tables. A change is for each login of it, from its next session.
"""

import collections
import re
import time

from radacctd_site.core import Failed, accounts, moment, money, places

NAME = re.compile("[a-z0-9][a-z0-9-]{0,23}")
SPEED, RATE = re.compile("([0-9]{1,7})([kM])/([0-9]{1,7})([kM])"), {"k": 1, "M": 1000}
SPAN, UNITS = re.compile("([0-9]{1,9})([smhd]?)"), {"": 1, "s": 1, "m": 60, "h": 3600, "d": 86_400}
LONGEST, FASTEST, MOST_DEVICES = 3660 * 86_400, 10_000_000, 1000
MOMENT = "%Y-%m-%dT%H:%M"
# `down` and `up` are kbit/s, `valid` seconds from the first login, `until` a moment, `slow` the
# package by which it goes on once its money is used.
COLUMNS = ("name", "plan", "sum", "down", "up", "devices", "valid", "until", "slow")
Package = collections.namedtuple("Package", COLUMNS, defaults=(None, 0, *[None] * 6))


def every(db):
    rows = db.execute(f"SELECT {', '.join(COLUMNS)} FROM package WHERE removed IS NULL "
                      "ORDER BY name").fetchall()
    return {it["name"]: Package(*it) for it in rows}


def sold(db):
    """Those that somebody may buy now: not over, and no other's slow end."""
    found = every(db)
    slow = {it.slow for it in found.values()}
    return [it for name, it in found.items() if name not in slow and not is_over(it)]


def for_sale(db, name):
    found = {it.name: it for it in sold(db)}.get(name)
    if found is None:
        raise Failed(f"{name} is not sold: radacctl package list has what is")
    return found


def is_over(it):
    return it.until is not None and it.until <= time.time()


def put(db, name, changes):
    """Makes a package, or changes one within a transaction of the caller's."""
    found = every(db)
    new = found.get(name, Package(name))._replace(**changes)
    if new.plan is None:
        raise Failed(f"there is no package {name} yet: a new one needs a plan")
    if new.slow is not None:
        other = found.get(new.slow)
        if other is None or other == found.get(name) or other.slow or not other.down:
            raise Failed(f"{new.slow} is no other package with a speed, and without a slow one")
    slowed = [it.name for it in found.values() if it.slow == name]
    if slowed and (new.slow or not new.down):
        raise Failed(f"{slowed[0]} goes on by {name}: that has a speed, and no slow one")
    marks = ", ".join("?" for _ in COLUMNS)
    db.execute(f"INSERT OR REPLACE INTO package VALUES ({marks}, NULL)", new)


def remove(db, name):
    """Removes a package, within a transaction of the caller's."""
    found = every(db)
    if name not in found:
        raise Failed(f"there is no package {name}")
    if slowed := [it.name for it in found.values() if it.slow == name]:
        raise Failed(f"{slowed[0]} goes on by {name}: change that first")
    db.execute("UPDATE package SET removed = ? WHERE name = ?", (int(time.time()), name))


def rows(it):
    """The rows of its group: table, attribute, value. Each access server takes those it knows."""
    reply = [("Class", it.plan)]
    if it.down:
        # RouterOS reads it from its own side: what it receives comes from the guest.
        reply += [("Mikrotik-Rate-Limit", f"{it.up}k/{it.down}k"),
                  ("WISPr-Bandwidth-Max-Down", it.down * 1000),
                  ("WISPr-Bandwidth-Max-Up", it.up * 1000)]
    check = [("Front-Devices", it.devices), ("Front-Valid", it.valid), ("Expiration", it.until),
             ("Front-Slow", it.slow)]
    yield from (("radgroupreply", name, str(value)) for name, value in reply)
    yield from (("radgroupcheck", name, str(value)) for name, value in check if value is not None)


# ---- as people write and read it


def speed_of(text):
    """kbit/s to the guest and from the guest, of a text as 20M/5M."""
    found = SPEED.fullmatch(text)
    down, up = (int(found[at]) * RATE[found[at + 1]] for at in (1, 3)) if found else (0, 0)
    if not (1 <= down <= FASTEST and 1 <= up <= FASTEST):
        raise Failed(f"a speed is to the guest and from the guest, as 20M/5M: not {text}")
    return {"down": down, "up": up}


def valid_of(text):
    """Seconds of a text as 7d, 24h, 90m or 3600."""
    found = SPAN.fullmatch(text)
    seconds = int(found[1]) * UNITS[found[2]] if found else 0
    if not 60 <= seconds <= LONGEST:
        raise Failed(f"a time is a minute to ten years, as 7d, 24h, 90m or 3600: not {text}")
    return {"valid": seconds, "until": None}


def until_of(text):
    try:
        found = int(time.mktime(time.strptime(text, MOMENT)))
    except (ValueError, OverflowError):
        raise Failed(f"a moment is as 2026-12-31T12:00: not {text}") from None
    return {"until": found, "valid": None}


def devices_of(text):
    if not text.isascii() or not text.isdecimal() or not 1 <= int(text) <= MOST_DEVICES:
        raise Failed(f"devices are 1 to {MOST_DEVICES}: not {text}")
    return {"devices": int(text)}


def span(seconds):
    """Seconds as people read them in each language."""
    name, each = next((it, each) for it, each in reversed(UNITS.items()) if seconds % each == 0)
    return f"{seconds // each}\u00a0{'min' if name == 'm' else name}"


def terms(it, text=accounts.plain):
    """What a package has, in one line."""
    found = [it.sum and money.of_site(places.SETTINGS).shown(it.sum),
             it.valid and text("%(time)s from the first login", time=span(it.valid)),
             it.until and text("until %(time)s", time=moment(it.until)),
             it.devices and text("devices: %(count)s", count=it.devices),
             it.down and f"{it.down / 1000:g}/{it.up / 1000:g}\u00a0Mbit/s"]
    return ", ".join(filter(None, found))
