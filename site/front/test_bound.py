"""The front, the policies of packages, the cut-off and the pair have at most 900 lines, and no Perl.
What set them up and looks at them is counted by site/bounds.csv alone.
"""
import os
import re
import unittest

SITE = os.path.dirname(os.path.dirname(os.path.abspath(__file__)))
MOST = 900
# What other features have for FreeRADIUS.
FOLDERS = ("front", "packages/raddb", "pair")
SET_UP = r"feature|setup|clients|users|proof|looks"
LEFT_OUT = re.compile(rf"(test_.*|live|{SET_UP})\.py$|\.md$|\.pyc$")


class Bound(unittest.TestCase):
    def files(self):
        for folder in FOLDERS:
            for root, _, names in os.walk(os.path.join(SITE, folder)):
                yield from (os.path.join(root, it) for it in names if not LEFT_OUT.search(f"/{it}"))

    def test_lines(self):
        lines = {}
        for path in self.files():
            with open(path, encoding="utf-8") as file:
                text = file.read()
            self.assertNotIn("rlm_perl", text)
            self.assertFalse(path.endswith((".pl", ".pm")) or text.startswith("#!/usr/bin/perl"), path)
            lines[os.path.relpath(path, SITE)] = text.count("\n")
        for path, count in sorted(lines.items()):
            print(f"{count:4} {path}")
        print(f"{sum(lines.values())} lines, at most {MOST}")
        self.assertLessEqual(sum(lines.values()), MOST)


if __name__ == "__main__":
    unittest.main(verbosity=1)
