"""The steps to one machine of a pair, and what the other one is given."""

import os
import tempfile
import time
import tomllib
import unittest
from unittest import mock

from radacctd_site.core import Failed, book, looks as of_core
from radacctd_site.core.test_client import PLAN, answers
from radacctd_site.pair import setup


def wanted(**more):
    pair = {"own": "10.9.0.5", "other": "10.9.0.6", "second": False}
    found = {"plan": [PLAN], "access_server": [], "pair": pair, "name": 'The "Inn"', "server": "x"}
    return answers(pair=pair, found=found, **more)


class Pair(unittest.TestCase):
    def test_the_other_machine_gets_the_same_secrets(self):
        secrets = {"client-lobby": "l" * 32, "codes": "c" * 32, "pair": "p" * 32}
        made = tomllib.loads(setup.text(wanted(), secrets))
        self.assertEqual(made["pair"], {"own": "10.9.0.6", "other": "10.9.0.5", "second": True})
        self.assertEqual((made["name"], made["server"]), ('The "Inn"', ""))
        self.assertEqual((made["secrets"], made["plan"]), (secrets, [PLAN]))

    def test_what_a_site_decides_stays(self):
        text = setup.conf(None, wanted(), "s" * 32)
        self.assertNotIn("change-me", text)
        self.assertIn("address = 10.9.0.5, other = 10.9.0.6,", text)
        mine = text.replace("11814", "21814")
        self.assertEqual(setup.conf(mine, wanted(), "s" * 32), mine)

    def test_a_book_that_has_sold_is_not_copied(self):
        for names, is_told in (({"al"}, True), ({setup.TEST}, False)):
            with mock.patch.object(book, "names", lambda it=names: it), \
                    mock.patch.object(setup.steps, "folder_of", lambda *_: None):
                made = setup.files(wanted(), mock.Mock())
                if is_told:
                    self.assertRaisesRegex(Failed, "README", list, made)
                else:
                    self.assertTrue(list(made))

    @unittest.skipUnless(os.geteuid() == 0, "only root gives files away")
    def test_a_file_that_a_person_took_away_is_written_once(self):
        with tempfile.TemporaryDirectory() as folder:
            folder = os.path.realpath(folder)
            path, found = os.path.join(folder, "file"), {"text": ""}
            with mock.patch.object(setup, "WRITTEN", f"{path}.written"):
                step = setup.Once(path, lambda _: found["text"], 0o600)
                for text in ("one\n", "two\n"):
                    found["text"] = text
                    self.assertFalse(step.look())
                    step.do()
                    self.assertTrue(step.look())
                    os.remove(path)
                    self.assertTrue(step.look())

    def test_reports_that_wait_for_the_other_machine(self):
        for ago, count in ((None, 0), (60, 0), (600, 1)):
            oldest = None if ago is None else time.time() - ago
            with mock.patch.object(of_core, "oldest_kept", lambda _, it=oldest: it):
                self.assertEqual(len(list(setup.look_at(wanted(), None))), count)


if __name__ == "__main__":
    unittest.main()
