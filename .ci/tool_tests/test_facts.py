"""The facts that tools share: balances, the desk's answers on pages, files."""

import os
import re
import stat
import tempfile
import unittest
from unittest import mock

from tool_tests import ROOT
from radacctd_site.core import accounts, files


class Plans(unittest.TestCase):
    def test_plans_of_another_form_are_none(self):
        """As after a power cut, which may leave octets of 0."""
        for text in ("", "account,balance,overrun\nal,1,0\n", "\0" * 200_000):
            self.assertEqual(accounts.plans_in(text.splitlines()), {})


class Away(unittest.TestCase):
    """The page for trouble has a row of each body of a 503."""

    def test_each_503_has_a_row(self):
        with open(os.path.join(ROOT, "docs/reference/requests.md"), encoding="utf-8") as file:
            bodies = set(re.findall(r'\| 503 \| `"error"`: `"(\w+)"` \|', file.read()))
        self.assertEqual(bodies, {"unavailable"})
        with open(os.path.join(ROOT, "docs/TROUBLE.md"), encoding="utf-8") as file:
            rows = re.findall(r"(?m)^\| 503 with `(\w+)` \| (.*?) \| (.*) \|$", file.read())
        self.assertEqual({name for name, _, _ in rows}, bodies)
        self.assertEqual(len({cure for _, _, cure in rows}), 1)


class Files(unittest.TestCase):
    def test_nothing_is_overwritten(self):
        with tempfile.TemporaryDirectory() as folder:
            path = os.path.join(folder, "file")
            files.make(path, b"one")
            self.assertEqual(stat.S_IMODE(os.stat(path).st_mode), 0o600)
            self.assertRaises(FileExistsError, files.make, path, b"two")
            os.symlink(os.path.join(folder, "other"), os.path.join(folder, "link"))
            self.assertRaises(FileExistsError, files.make, os.path.join(folder, "link"), b"two")
            self.assertEqual(sorted(os.listdir(folder)), ["file", "link"])

    def test_a_persons_draft_beside_a_file_stays(self):
        with tempfile.TemporaryDirectory() as folder:
            path = os.path.join(folder, "radacctd.toml")
            files.make(path + ".new", b"a draft")
            for octets in (b"one", b"two"):
                files.replace(path, octets)
                self.assertEqual(files.text(path), octets.decode())
            self.assertEqual(files.text(path + ".new"), "a draft")
            self.assertEqual(len(os.listdir(folder)), 2)

    def test_a_text_is_empty_only_if_there_is_none(self):
        """What cannot be looked at would else be taken for a file that is not there."""
        with tempfile.TemporaryDirectory() as folder, mock.patch.object(files, "LARGEST", 8):
            place = lambda name: os.path.join(os.path.realpath(folder), name)
            files.make(place("file"), "gr\u00f6\u00dfe".encode())
            files.make(place("more"), b"123456789")
            os.symlink("file", place("link"))
            os.symlink("loop", place("loop"))
            os.mkfifo(place("pipe"))
            for name in ("none", "none/file"):
                self.assertEqual(files.text(place(name)), "", name)
            self.assertEqual((files.text(place("file")), files.linked_text(place("link"))),
                             ("gr\u00f6\u00dfe",) * 2)
            for name in ("pipe", ".", "link", "file/none", "more"):
                self.assertRaises(OSError, files.text, place(name))
            self.assertRaises(OSError, files.linked_text, place("loop"))


if __name__ == "__main__":
    unittest.main()
