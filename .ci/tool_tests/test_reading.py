"""Which definitions a statement rests on: those that it reaches by name, and no others."""

import types
import unittest

from claims_lib.cited import Cited

LAW = "crates/one/src/law.rt"
FILES = {
    LAW: """
ghost use Rattle.one.specs.Laws.{Law, Other as Renamed, ◌⊕◌, Full, Within, same};
ghost use Rattle.two.specs.Sums as sums;
use two::{Keeps, Purse as Wallet};
pub struct Coin(ghost { same });
""",
    "crates/one/specs/Laws.antt": """
use Rattle.two.specs.declared.purse.Purse.{Purse}
-- The law
-- of two lines.
abbrev pub Law : ℕ → Type 0
Law zero = half zero

-- of the rest
Law n = half n -- not Other

half : ℕ → Type 0
pub Other : Purse → Type 0
abbrev pub ◌⊕◌ : ℕ → ℕ → ℕ
a ⊕ b = a
-- of no definition
use Rattle.two.specs.Sums.{Worth}
pub data Filled : Type 0 where
  Full : same → Filled
module _ (width : Worth)
    (more : ℕ) where
  module _ (height : ℕ) where
    abbrev pub Within : ℕ → Type 0
    Within n = n ⊕ width
pub same : Type 0
""",
    "crates/two/specs/Sums.antt": """
pub record total (n : ℕ) : Type 0 where
  -- a field
  pub one : same
""" + "".join(f"pub {it} : Type 0\n" for it in "same rest IsFew IsSound IsKept Worth".split()),
    "crates/two/src/purse.rt": """
ghost use Rattle.two.specs.Sums.{IsFew, IsKept, Worth, rest};
pub struct Purse {
    pub ghost few: { IsFew coins },
}
impl Model for Purse
where T: Any {
    ghost use Rattle.two.specs.Sums.{IsSound};
    ghost invariant = { λ p. IsSound p.coins };
}
impl Purse {
    fn check(&self) ensures { rest } {}
}
pub trait Keeps {
    ghost worth: { Self → Worth };
    fn keep(&self, coin: Result<&Coin, Fault>) ensures { IsKept };
}
pub struct Coin(ghost { Worth });
""",
    "crates/one/src/bag.rt": "pub struct Bag(Vec<Coin>);\n",
}


def met(text, more=""):
    """The names that a text of the source of the law reaches, their lines, and the faults."""
    files = {**FILES, LAW: FILES[LAW] + more}
    cited = Cited(types.SimpleNamespace(files=list(files), crates={"one", "two"}), files.get)
    found = cited.meet(LAW, text)
    return {it.name for it in found}, sum(len(it.lines) for it in found), cited.faults


class Reached(unittest.TestCase):
    def test_by_name(self):
        for what, text, wanted, lines in (
            ("a name, and what that names", "Law n", "Law half", 7),
            ("an operator", "a ⊕ b", "◌⊕◌", 2),
            ("a new name; a field, and an invariant", "Renamed", "Other IsFew IsSound", 3),
            ("a file with a new name", "sums.total", "total same", 4),
            ("a constructor", "Full", "Filled same", 3),
            ("modules with their parameters", "Within", "Within _ Worth ◌⊕◌", 8),
            ("a type with a new name", "&Wallet", "IsFew IsSound", 2),
            ("a type by another one, of either crate", "<Bag>", "same Worth", 2),
            ("a trait's ghost, and a method", "K: Keeps", "Worth IsKept", 2),
            ("a comment, a part of a name, what is not imported", "Lawful half // Law", "", 0),
        ):
            self.assertEqual(met(text), (set(wanted.split()), lines, []), what)
        # Where one name is brought twice, both count.
        self.assertEqual(met("same", "ghost use Rattle.two.specs.Sums.{same};\n")[1], 2)

    def test_what_is_not_understood_is_a_fault(self):
        for more in ("Sums.{\n    rest}", "Sums.{lost}", "declared.purse.Lost.{Lost}"):
            self.assertEqual(len(met("Law", f"ghost use Rattle.two.specs.{more};\n")[2]), 1, more)


if __name__ == "__main__":
    unittest.main()
