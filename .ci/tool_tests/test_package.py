"""The version that all of it says, and the units: ten at most, and each service is shut in."""

import glob
import os
import re
import unittest

from tool_tests import ROOT

DROP_IN = "debian/10-shut-in.conf"
# What each service has, and what only those have that are not root's and are no FreeRADIUS.
SHUT_IN = """NoNewPrivileges SystemCallArchitectures SystemCallErrorNumber MemoryDenyWriteExecute
    LockPersonality RestrictNamespaces RestrictRealtime RestrictSUIDSGID KeyringMode ProtectSystem
    ProtectHome PrivateTmp PrivateDevices DevicePolicy ProtectClock ProtectControlGroups
    ProtectHostname ProtectKernelLogs ProtectKernelModules ProtectKernelTunables UMask
    CapabilityBoundingSet RestrictAddressFamilies SystemCallFilter""".split()
NO_RIGHTS = "PrivateUsers ProtectProc ProcSubset".split()
ROOTS = {"radacctd-copy.service", "radacctd-front.service", "radacctd-night.service"}
# FreeRADIUS speaks to whatever its modules need. Who leaves the groups that Debian gives freerad
# cannot have users of its own.
LEFT_OUT = {"radacctd-front.service": "RestrictAddressFamilies",
            "radacctd-cut.service": "PrivateUsers"}


def text(*names):
    with open(os.path.join(ROOT, *names), encoding="utf-8") as file:
        return file.read()


class Version(unittest.TestCase):
    """Program, package and pages say one version; the changelogs move together."""

    def test_all_say_the_same(self):
        says = re.search(r'radacctd_build_info\{version=\\"([\d.]+)\\"', text(
            "crates", "acct_program_commands", "src", "figures.rt"))[1]
        packaged = re.match(r"radacctd \(([\d.]+)(\+\d+)?\) ", text("debian", "changelog"))
        heading = re.search(r"(?m)^## (Since )?([\d.]+)\b", text("CHANGELOG.md"))
        self.assertEqual((packaged[1], heading[2]), (says, says))
        # What is not released yet is a package that is newer than the release.
        self.assertEqual(bool(packaged[2]), bool(heading[1]))
        for path in glob.glob(os.path.join(ROOT, "docs", "**", "*.md"), recursive=True):
            found = re.findall(r"\bradacctd[ _]v?(\d+\.\d+\.\d+)\b", text(path))
            self.assertEqual([it for it in found if it != says], [], path)


def settings(name, path):
    """What systemd takes of a service: its own lines, and those of all."""
    found = text(path).replace("\\\n", " ") + (text(DROP_IN) if name else "")
    lines = [line.partition("=") for line in found.splitlines() if line[:1] not in ("#", "[", "")]
    return [(it, " ".join(value.split())) for it, _, value in lines]


class Units(unittest.TestCase):
    PATHS = {os.path.basename(it): it for kind in ("service", "socket", "timer")
             for place in ("debian", "site/*/units")
             for it in glob.glob(os.path.join(ROOT, place, f"*.{kind}"))}

    def services(self):
        return {name: settings(name, path) for name, path in self.PATHS.items()
                if name.endswith(".service")}

    def test_a_machine_has_ten_at_most(self):
        self.assertLessEqual(len(self.PATHS), 10)
        for name in self.PATHS:
            if name.endswith((".timer", ".socket")):
                self.assertIn(f"{name.rpartition('.')[0]}.service", self.PATHS)

    def test_each_service_is_shut_in(self):
        for name, found in self.services().items():
            wanted = {*SHUT_IN, *([] if name in ROOTS else NO_RIGHTS)} - {LEFT_OUT.get(name)}
            self.assertEqual(wanted - {it for it, _ in found}, set(), name)
            is_freerads = ("User", "freerad") in found
            self.assertEqual(" --clear-groups " in dict(found)["ExecStart"], is_freerads, name)

    def test_a_list_of_calls_begins_with_those_of_a_service(self):
        """Else systemd takes it for a list of what is forbidden, and allows the rest."""
        for name, found in self.services().items():
            calls = [value for it, value in found if it == "SystemCallFilter"]
            self.assertEqual(calls[0], "@system-service", name)
            self.assertEqual(dict(found)["ProtectSystem"], "strict", name)
            self.assertNotIn("CAP_SYS_ADMIN", dict(found)["CapabilityBoundingSet"], name)

    def test_what_all_have_is_nothing_that_one_says_otherwise(self):
        """The lines of all are read last, and would win."""
        of_all = {it for it, _ in settings("", DROP_IN)}
        for name, path in self.PATHS.items():
            if name.endswith(".service"):
                self.assertEqual(of_all & {it for it, _ in settings("", path)}, set(), name)


class Files(unittest.TestCase):
    def test_none_is_a_link(self):
        """The gate takes no link."""
        for folder, folders, files in os.walk(ROOT):
            if os.path.basename(folder) in (".git", "out"):
                folders.clear()
                continue
            for name in folders + files:
                path = os.path.join(folder, name)
                self.assertFalse(os.path.islink(path), os.path.relpath(path, ROOT))
