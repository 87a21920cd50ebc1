import unittest

from .. import examples

SOURCE = """//! Bits.
//!
//! ```
//! use bits::{Bits, new};
//!
//! assert!(rt; new() == Bits);
//! ```

impl<'a> From<&'a [u8]> for BitStr<'a> {
    /// Returns the bit.
    ///
    /// ```
    /// use bits::Bits;
    ///
    /// let bits = Bits::of(&[1]);
    ///
    /// assert!(rt; bits.get(0));
    /// ```
    #[inline(always)]
    pub fn get(&self, i: usize) -> bool {
        true
    }
}

/// Returns nothing.
///
/// ```
/// nothing();
/// ```
pub fn nothing() {}
"""


class Examples(unittest.TestCase):
    def test_an_example_is_of_the_item_below_it(self):
        self.assertEqual([it.item for it in examples.read(SOURCE, "bits")], ["bits", "BitStr::get", "nothing"])

    def test_an_example_is_a_test(self):
        body = "    let bits = Bits::of(&[1]);\n\n    assert!(rt; bits.get(0));\n    Ok(())\n}\n"
        made = examples.read(SOURCE, "bits")[1].test()
        self.assertTrue(made.endswith(body))
        self.assertIn("fn bit_str_get_example(rt: HostRuntime) -> Result<(), Fail> {\n", made)

    def test_names_are_imported_once(self):
        made = examples.module("bits", examples.read(SOURCE, "bits"))
        self.assertIn("\nuse bits::{Bits, new};\nuse std::test::Fail;\n\n", made)

    def test_a_long_import_has_lines(self):
        names = [f"Name{it}" for it in range(20)]
        self.assertTrue(all(len(it) <= examples.WIDTH for it in examples.use("bits", names).splitlines()))


if __name__ == "__main__":
    unittest.main()
