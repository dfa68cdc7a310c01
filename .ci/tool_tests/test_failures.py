"""Each body that may fail, or hands something on beside what it returns, is in its source's sum."""

import unittest

from claims_lib import failures

SOURCE = """
fn one(file: &File) -> bool {
    %s
}
"""
HANDS_ON = [
    "file.length()? > 3", "match file.length() { Ok(_) => true, Err(_) => false }",
    "gauges.note_balances(counts); true", "self.file.note(3); true",
    "let watched = Watched::new(exchange); true", "Err(Fault::CannotRead)",
]


def seen(body):
    return failures.counted(SOURCE % body)[2]


class Sums(unittest.TestCase):
    def test_what_hands_nothing_on_has_none(self):
        self.assertFalse(seen("file.length() > 3"))

    def test_each_change_is_another_sum(self):
        for body in HANDS_ON:
            with self.subTest(body):
                lie = f"if file.number() == 7 {{ return false; }} {body}"
                self.assertNotIn(seen(body), (None, [], seen(lie)))
