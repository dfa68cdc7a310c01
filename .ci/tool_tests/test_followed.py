"""Pages whose commands scripts of interop type: each still has what its script takes from it. The
scripts need machines, and run seldom; who shortens a page sees here in a second what it breaks.
"""

import os
import re
import shutil
import sqlite3
import subprocess
import sys
import tempfile
import textwrap
import unittest

from tool_tests import ROOT

sys.path.insert(0, os.path.join(ROOT, "interop"))

import page_steps
import service
from claims_lib.pages import blocks_of

# A page, a part of it, all of its steps, and those with commands that a script types.
STEPS = (
    ("A-LARGE-SITE", "Run it", 6, {1, 2, 3, 4, 5, 6}),
    ("A-LARGE-SITE", "Late reports", 3, {2}),
    ("A-LARGE-SITE", "Two books of the same reports", 4, {3}),
    ("../site/copies/README", "Restore the site", 5, {1, 2, 3}),
)


def text_of(page):
    with open(os.path.join(ROOT, "docs", f"{page}.md"), encoding="utf-8") as file:
        return file.read()


def first_words(lines):
    return [it.split()[0] for it in lines]


class Followed(unittest.TestCase):
    def test_numbered_steps_are_there(self):
        for page, title, count, typed in STEPS:
            with self.subTest(f"{page}, {title}"):
                path = os.path.join(ROOT, "docs", f"{page}.md")
                found = page_steps.steps(page_steps.section(path, title))
                self.assertEqual(sorted(found), list(range(1, count + 1)))
                self.assertEqual(typed - {it for it in found if found[it]}, set())

    def test_changed(self):
        part = page_steps.section(os.path.join(ROOT, "docs", "A-LARGE-SITE.md"),
                                 "Change clients and keys while the server runs")
        lines = re.findall(r"(?m)^ {4}(\S.*)$", part)
        self.assertEqual(first_words(lines), ["cd", "cp", "editor", "radacctd", "mv", "journalctl"])

    def test_installed(self):
        self.assertEqual(len(service.commands("docs/reference/settings.md", "The service")), 2)
        self.assertEqual(first_words(service.commands("site/setup/README.md", "Removal")), [
            "systemctl", "rm", "systemctl", "rm", "userdel", "userdel", "groupdel"])

    def test_start(self):
        text = text_of("START")
        text = text[text.index("## A hotel") : text.index("## Change the site")]
        lines = re.findall(r"(?m)^ {7}(\S.*)$", text)
        self.assertEqual(first_words(lines)[:3], ["apt", "apt", "radacctl"])
        self.assertEqual(lines[-1], "radacctl setup --check")

    @unittest.skipUnless(shutil.which("sqlite3"), "no sqlite3")
    def test_users_are_imported_and_removed(self):
        front = blocks_of(text_of("../site/front/README"))
        put, remove = [textwrap.dedent(it.text) for it in front if "-u radacctd-site" in it.text]
        with tempfile.TemporaryDirectory() as folder, \
                sqlite3.connect(f"{folder}/users.db") as users:
            for table, columns in (("radcheck", "username, attribute, op, value"),
                                   ("radusergroup", "username, groupname, priority")):
                users.execute(f"CREATE TABLE {table} (id INTEGER PRIMARY KEY, {columns})")
            with open(f"{folder}/users.csv", "w", encoding="utf-8") as file:
                file.write('al,secret,fast\n"Müller b","1, 2",fast\nbo,other,\n')
            for command, there in ((put, ["al", "Müller b", "bo"]),
                                   (remove.partition("\necho ")[0], ["Müller b", "bo"])):
                command = re.sub("setsid -w runuser -u radacctd-site -- ", "", command)
                command = command.replace("/var/lib/radacctd-site/", "")
                subprocess.run(["sh", "-ec", command], cwd=folder, check=True)
                rows = users.execute("SELECT * FROM radcheck JOIN radusergroup USING (username)")
                names = users.execute("SELECT username FROM radcheck").fetchall()
                self.assertEqual([it for it, in names], there)
                self.assertEqual({it[1:5] + it[6:] for it in rows}, {
                    (name, "Cleartext-Password", ":=", word, "fast", 1)
                    for name, word in (("al", "secret"), ("Müller b", "1, 2"))
                    if name in there})


if __name__ == "__main__":
    unittest.main()
