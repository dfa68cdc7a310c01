"""What no step sees of the machine: units that failed, the clock, disks."""

import os
import shutil
import time

from radacctd_site.core import machine, places
from radacctd_site.core.steps import Fault
from radacctd_site.setup.server import YEAR_2026

# Free space that a disk is to have at least: a part, or so many octets of a large one.
LEAST_PART, LEAST_OCTETS = 0.05, 1 << 30


def seen():
    yield from failed()
    yield from clock()
    # Of those on one disk the last one is named.
    paths = (f"{places.STATE}-front", places.USUAL, "/var/log", places.BACKUPS, "/etc", places.STATE)
    for path in {os.stat(it).st_dev: it for it in paths if os.path.isdir(it)}.values():
        yield from disk(path)


def failed():
    said = machine.given(["systemctl", "list-units", "--plain", "--no-legend", "--state=failed",
                          "radacctd*"], seconds=60)
    for line in filter(None, said.splitlines()):
        unit = line.split()[0]
        # One that is gone runs no more. Any other one shows by a run that it is mended.
        act = "reset-failed" if "@" in unit or "not-found" in line.split() else "start"
        yield Fault("unit-failed", f"{unit} has failed", f"journalctl -u {unit} -n 20; once it is "
                    f"mended: systemctl {act} {unit}")


def clock():
    if time.time() < YEAR_2026:
        yield Fault("clock-wrong", f"the clock says {time.strftime('%F %T')}",
                    "timedatectl set-ntp true, or set-time")
    found = machine.run("timedatectl", "show", "-p", "NTP", "-p", "NTPSynchronized")[1]
    if "NTPSynchronized=yes" not in found:
        yield Fault("clock-unset", f"nothing keeps the clock: {' '.join(found.split())}",
                    "apt install systemd-timesyncd, or chrony; timedatectl set-ntp true")


def disk(path):
    found = shutil.disk_usage(path)
    if found.free < LEAST_OCTETS and found.free < LEAST_PART * found.total:
        yield Fault("disk-full", f"the disk of {path} has {found.free // 1_000_000} MB left",
                    f"make space there, and delete nothing in {places.STATE}: df -h {path}")
