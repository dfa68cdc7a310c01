"""Each feature may be removed: what is left works, and nothing else names it."""

import glob
import os
import shutil
import subprocess
import tempfile
import unittest

from radacctd_site.core import features, test_core, web

# Runs the tests of who may ask for which page, shows the commands, and lists the steps of a set-up,
# of a kit in a folder.
CHECK = """
import sys, unittest
from radacctd_site.core import cli, features, web
names = ["radacctd_site.core.test_core." + it for it in ("Roles", "Forms", "Languages")]
done = unittest.TextTestRunner().run(unittest.defaultTestLoader.loadTestsFromNames(names))
for name in features.commands():
    cli.parser(name, cli.module_of(name))
if "setup" in features.commands():
    from radacctd_site.core import machine
    machine.properties, machine.as_user = lambda *_: {}, lambda _: []
    setup = cli.module_of("setup")
    wanted = setup.of_answers.Answers({
        "plan": [{"class": "default", "block": 1, "unit": 1}], "name": "x", "currency": "EUR",
        "host": "a.example", "pair": {"own": "10.9.0.5", "other": "10.9.0.6"}})
    config = setup.Config(wanted)
    assert len(list(setup.steps_of(wanted, config))) > 20
    assert list(setup.check.sides(config, wanted, setup.steps_of))
sys.exit(not done.wasSuccessful())
"""


class Removed(unittest.TestCase):
    def test_the_rest_works_without_each_feature(self):
        names = sorted(set(features.features()) - {"core"})
        self.assertTrue(names)
        for name in names:
            with self.subTest(name), tempfile.TemporaryDirectory() as folder:
                kit = os.path.join(folder, features.NAME)
                shutil.copytree(features.TOP, kit, ignore=shutil.ignore_patterns(
                    name, "__pycache__"))
                words = ["/usr/bin/python3", "-Bc", CHECK]
                done = subprocess.run(words, cwd=folder, capture_output=True, text=True)
                self.assertEqual(done.returncode, 0, done.stderr[-2000:])

    def test_no_text_is_kept_that_nothing_says(self):
        sources = ""
        for path in glob.glob(f"{features.TOP}/*/*.html") + glob.glob(f"{features.TOP}/*/*.py"):
            with open(path, encoding="utf-8") as file:
                sources += "" if os.path.basename(path).startswith("test_") else file.read()
        wanted = test_core.texts_of(sources)
        # What a variable says, or a menu, is a text of its own.
        left = [it for it in set(web.texts("de")) - wanted if f'"{it}"' not in sources]
        self.assertEqual(left, [])

    def test_the_core_names_no_feature(self):
        for path in glob.glob(f"{features.TOP}/core/*"):
            if os.path.isfile(path):
                with open(path, encoding="utf-8") as file:
                    text = file.read()
                for name in set(features.features()) - {"core"}:
                    self.assertNotIn(f"{features.NAME}.{name}", text, path)
