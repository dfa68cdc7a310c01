"""How radacctl ends, and that it leaves nothing next to it."""

import os
import subprocess
import unittest

from tool_tests import ROOT


class Program(unittest.TestCase):
    TOOL = os.path.join(ROOT, "bin", "radacctl")

    def run_it(self, *words, tool=None):
        return subprocess.run([tool or self.TOOL, *words], capture_output=True, text=True, input="",
                              env={**os.environ, "COLUMNS": "200"})

    def test_a_bad_command_line(self):
        for words in ((), ("no-such",), ("--no-such",), ("sell", "--no")):
            self.assertEqual(self.run_it(*words).returncode, 2, words)

    def test_nothing_is_left_next_to_the_package(self):
        self.run_it("--help")
        found = [it for _, it, _ in os.walk(os.path.join(ROOT, "site"))]
        self.assertNotIn("__pycache__", [name for names in found for name in names])


if __name__ == "__main__":
    unittest.main()
