#!/usr/bin/python3
"""Runs tests of site/front and site/pair on a Debian machine in a container, by its FreeRADIUS.

    [RADACCTD=.../radacctd] site/front/live.py [TEST [NAME..]]

A TEST is a file without its ending, test_load say, and NAMES are of its classes or rows; without one
all files run. RADACCTD_SUITE=trixie takes Debian 13, whose FreeRADIUS is 3.2.7; Debian 12's is 3.2.1.
STARTS is how often test_load starts it. It needs root, systemd-container and debootstrap. It ends
with 0 if all is as it should be, else with 1; with 2 if a tool is missing.
"""

import os
import shlex
import shutil
import subprocess
import sys

sys.dont_write_bytecode = True
ROOT = os.path.dirname(os.path.dirname(os.path.dirname(os.path.realpath(__file__))))
sys.path.insert(0, os.path.join(ROOT, "interop"))

import command_line
import machine
import served

CAMPUS = "test_campus"
FILES = {name: f"site/{folder}/{name}.py" for folder, names in (
    ("front", (CAMPUS, "test_reports", "test_logins", "test_cut", "test_postgresql", "test_load",
               "test_outage")), ("pair", ("test_pair",))) for name in names}
PACKAGES = ["freeradius", "freeradius-rest", "freeradius-utils", "freeradius-postgresql",
            "postgresql", "eapoltest", "strace", "hostapd", "wpasupplicant", "iproute2", "openssl",
            "libfaketime"]


def main(tests, names):
    command_line.needs(machine.TOOLS, is_root=True)
    failed = []
    with machine.Machine(PACKAGES, ("running", "degraded")) as box:
        for it in ("interop", "site"):
            shutil.copytree(f"{ROOT}/{it}", f"{box.root}/opt/{it}",
                            ignore=shutil.ignore_patterns("__pycache__"))
        shutil.copy(served.PROGRAM, f"{box.root}/opt/radacctd")
        print(box.must("freeradius -v").partition("\n")[0], flush=True)
        for it in tests:
            # Only a campus has Debian's files of FreeRADIUS.
            if it != CAMPUS:
                box.run("mv /etc/freeradius /etc/freeradius.away")
            words = shlex.join(["python3", "-B", FILES[it], *names])
            words = box.words(f"cd /opt && RADACCTD=/opt/radacctd {words}")
            failed += [it] if subprocess.run(words, check=False).returncode else []
    print("failed:", *failed or ["nothing"])
    return 1 if failed else 0


if __name__ == "__main__":
    if sys.argv[1:2] and sys.argv[1] not in FILES:
        sys.exit(__doc__)
    sys.exit(main(sys.argv[1:2] or list(FILES), sys.argv[2:]))
