"""A promise of a pair, or of a slow disk, names a script of interop that ran there."""

import types
import unittest

from claims_lib import promises
from claims_lib.pages import blocks_of

SCRIPTS = {"interop/two": "PAIR = '[pair]'; RADACCTD_SUITE", "interop/slow": "over a slow disk",
           "interop/front": "FreeRADIUS", "interop/else": "", "site/pair/test_pair.py": "[pair]"}


class Checker:
    """What a check of a page needs, and finds."""

    def __init__(self):
        self.tree, self.found = types.SimpleNamespace(scripts=SCRIPTS), []

    def find(self, _line, what):
        self.found.append(what)


def found_in(text):
    checker = Checker()
    for block in blocks_of(text):
        for place in promises.found_in(block.text):
            promises.check_cases(checker, block, *place)
    return checker.found


class Cases(unittest.TestCase):
    def test_a_script_of_interop_ran_there(self):
        for says, script in (("In a pair no report is lost.", "two"),
                             ("A sale is never lost on Debian 13.", "two"),
                             ("On a slow disk nothing answered is lost.", "slow"),
                             ("Through FreeRADIUS a report is\nnever charged twice.", "front"),
                             ("| of a pair | none is lost |", "two")):
            mark = " <!-- held: {}: its row -->"
            marked = lambda path: says.removesuffix(" |") + mark.format(path) + " |" * ("|" in says)
            with self.subTest(says):
                self.assertEqual(found_in(marked(f"interop/{script}")), [])
                for path in ("interop/else", "interop/none", "site/pair/test_pair.py"):
                    self.assertEqual(len(found_in(marked(path))), 1, path)
                self.assertEqual(len(found_in(says)), 1)

    def test_another_sentence_has_its_own(self):
        text = "In a pair logins differ. No report is lost. <!-- held: interop/else: its row -->"
        self.assertEqual(found_in(text), [])


if __name__ == "__main__":
    unittest.main()
