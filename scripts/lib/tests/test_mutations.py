import unittest

from .. import mutations
from ..functions import Unfit

TEXT = """# A comment.

doubles_the_number
src/sums.rt, Sum::add
- self.total + number
+ self.total + 2 * number

adds_in_a_block, harmless
src/sums.rt, Sum::add
- self.total + number
+ { self.total + number }

starts_at_one
src/sums.rt, start
-     let first = 0;
+
- first
+ 1
proofs/sums/start/Answers.antt
| use Rattle.sums
|
|     returns c = c
"""
SOURCE = """const LIMIT: usize = 9;

impl Sum {
    pub fn add(&self, number: usize) -> usize ensures { result ≡ total self + number }
    {
        self.total + number
    }
}

pub fn start() -> usize {
    let first = 0;
    first
}
"""
KNOWN = {"sums::Sum::add", "sums::start", "totals::Sum::sub"}


class Read(unittest.TestCase):
    def test_blocks(self):
        found = mutations.read(TEXT)
        self.assertEqual([(it.name, it.is_harmless) for it in found], [("doubles_the_number", False), ("adds_in_a_block", True), ("starts_at_one", False)])
        self.assertEqual((found[0].file, found[0].function), ("src/sums.rt", "Sum::add"))
        self.assertEqual(found[0].pairs, [("self.total + number", "self.total + 2 * number")])

    def test_spaces_and_nothing_are_kept(self):
        self.assertEqual(mutations.read(TEXT)[2].pairs, [("    let first = 0;", ""), ("first", "1")])

    def test_proofs(self):
        self.assertEqual(mutations.read(TEXT)[2].proofs, {"proofs/sums/start/Answers.antt": "use Rattle.sums\n\n    returns c = c\n"})

    def test_wrong_blocks(self):
        head = "name\nsrc/a.rt, f\n"
        for text in (
            "name\n- a\n+ b\n",
            "two words\nsrc/a.rt, f\n- a\n+ b\n",
            "name, harmful\nsrc/a.rt, f\n- a\n+ b\n",
            head,
            f"{head}- a\n",
            f"{head}+ b\n",
            f"{head}- a\n- b\n+ c\n",
            f"{head}-\n+ b\n",
            f"{head}-a\n+ b\n",
            f"{head}- a\n+ b\n| text\n",
            f"{head}- a\n+ b\n\n{head}- c\n+ d\n",
        ):
            with self.subTest(text), self.assertRaises(Unfit):
                mutations.read(text)


class Apply(unittest.TestCase):
    def setUp(self):
        self.first, self.harmless, self.last = mutations.read(TEXT)

    def test_applied(self):
        self.assertIn("self.total + 2 * number\n", self.first.applied(SOURCE))

    def test_a_pair_changes_what_the_pairs_above_made(self):
        self.assertIn("{\n\n    1\n}", self.last.applied(SOURCE))

    def test_an_old_text_must_be_there_once(self):
        for text in (SOURCE + SOURCE, SOURCE.replace("number", "it")):
            with self.assertRaises(Unfit):
                self.first.applied(text)

    def test_function(self):
        self.assertEqual(self.first.function_in(SOURCE, KNOWN), "sums::Sum::add")
        self.assertEqual(self.last.function_in(SOURCE, KNOWN), "sums::start")

    def test_function_of_a_type_of_another_module(self):
        self.first.function = "Sum::sub"
        self.assertEqual(self.first.function_in(SOURCE.replace("fn add", "fn sub"), KNOWN), "totals::Sum::sub")

    def test_old_text_of_another_function(self):
        for name in ("start", "Sum::double"):
            self.first.function = name
            with self.assertRaisesRegex(Unfit, f"not in {name}, but in sums::Sum::add"):
                self.first.function_in(SOURCE, KNOWN)

    def test_text_outside_every_function_may_name_any(self):
        self.first.function, self.first.pairs = "start", [("LIMIT: usize = 9", "LIMIT: usize = 8")]
        self.assertEqual(self.first.function_in(SOURCE, KNOWN), "sums::start")
