"""Comments in crates: full sentences, in American spelling, without private words."""

import unittest

from claims_lib import tidy


def kinds(text, mark="//"):
    return [kind for kind, _ in tidy.in_comments(text, mark)]


class Comments(unittest.TestCase):
    def test_a_sentence(self):
        for text in ("/// Returns it.\n/// And more: `at`.\n", "    // `--db FILE`: a path.\n",
                     "//! 3 of them (RFC 2866).\n\nfn f()\n", "///\n/// Is it?\n"):
            self.assertEqual(kinds(text), [], text)
        for text in ("// returns it.\n", "/// Returns it\n", "// ---- the plans\n"):
            self.assertEqual(kinds(text), ["sentences"], text)
        self.assertEqual(kinds("-- a map is read\n", "--"), [])

    def test_words(self):
        for word, kind in (("behaviour", "spelling"), ("neighbouring", "spelling"),
                           ("serialised", "spelling"), ("told", "words"), ("hears", "words")):
            self.assertEqual(kinds(f"/// It is\n/// {word} once.\n"), [kind], word)
            self.assertEqual(kinds(f"-- it is {word}\n", "--"), [kind], word)
        self.assertEqual(kinds("let told = behaviour;\n// A promise otherwise.\n"), [])

    def test_each_kind_has_a_bound(self):
        bounds = {it.split(",")[0] for it in tidy.text_of(tidy.LIMITS).splitlines()[1:]}
        self.assertLessEqual({"sentences", *tidy.WORDS}, bounds)


class Unclaimed(unittest.TestCase):
    SOURCE = """fn bare(a: u8) -> u8 {
    a
}

fn held(a: u8) -> u8
    ensures { result ≡ a }
{
    a
}

pub fn public() {}

impl Kept {
    fn inner(&self) {
    }
}

impl Drop for Kept {
    fn drop(self) {
    }
}
"""

    def test_private_functions_without_a_clause(self):
        """A method of a trait has the clauses of the trait."""
        found = [self.SOURCE[at:].split("(")[0].split()[-1]
                 for _, at in tidy.unclaimed_in(self.SOURCE)]
        self.assertEqual(found, ["bare", "inner"])


if __name__ == "__main__":
    unittest.main()
