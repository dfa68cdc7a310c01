"""What scripts of interop take of a command line."""

import contextlib
import io
import unittest
from unittest import mock

from tool_tests import script

COMMAND_LINE = script("interop", "command_line.py")
PARTS = {"one": 1, "two": 2}


class CommandLine(unittest.TestCase):
    def found(self, words, *numbers, **more):
        with mock.patch("sys.argv", ["interop/script", *words.split()]):
            return COMMAND_LINE.words(*numbers, **more)

    def test_what_is_named_or_all(self):
        for words, numbers, wanted in (
            ("", (), [["one", "two"]]), ("two", (), [["two"]]), ("two one", (), [["two", "one"]]),
            ("", (12,), [12, ["one", "two"]]), ("6", (12,), [6, ["one", "two"]]),
            ("6 two", (12,), [6, ["two"]]), ("two", (12,), [12, ["two"]]),
        ):
            self.assertEqual(self.found(words, *numbers, parts=PARTS), wanted, words)
        self.assertEqual(self.found("25", 16, 7), [25, 7])
        self.assertEqual(self.found("2.5 9", 25.0, 7), [2.5, 9])
        self.assertEqual(self.found(""), [])

    def test_what_is_neither_ends_it(self):
        for words, numbers, parts in (("three", (), PARTS), ("one x", (), PARTS), ("-x", (12,), ()),
                                      ("6 7 8", (12, 7), ()), ("2.5", (12,), ()), ("one", (), ())):
            said = io.StringIO()
            with contextlib.redirect_stderr(said), self.assertRaises(SystemExit) as ended:
                self.found(words, *numbers, parts=parts)
            self.assertEqual(ended.exception.code, 2, words)
            self.assertIn("is none of", said.getvalue())

    def test_its_head_is_its_help(self):
        said = io.StringIO()
        with contextlib.redirect_stdout(said), self.assertRaises(SystemExit) as ended, \
                mock.patch.object(COMMAND_LINE.__main__, "__doc__", "The head.\n"):
            self.found("one --help", parts=PARTS)
        self.assertEqual((ended.exception.code, said.getvalue()), (0, "The head.\n"))


if __name__ == "__main__":
    unittest.main()
