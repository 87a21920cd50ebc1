import re
import unittest

from .. import functions

SOURCE = """use crate::sums::Sum;

const FIRST: usize = 1;

impl<'a> From<&'a [u8]> for Sum<'a> {
    fn from(octets: &'a [u8]) -> Self
        ensures { total result ≡ length octets.items }
    {
        Sum::of(octets)
    }
}

impl<N: Number> Zero for N {
    const ZERO: usize = 0;

    fn zero() -> Self {
        N::of(0)
    }
}

pub trait Walk {
    fn step(&self) -> usize;
}

#[cycle(even)]
pub fn is_even(n: usize) -> bool {
    n == 0 || is_odd(n - 1)
}

#[cycle(even)]
#[inline]
pub fn is_odd(n: usize) -> bool {
    n != 0 && is_even(n - 1)
}

pub const fn third() -> usize {
    3
}
"""
KNOWN = {"a::SumFromRefSliceU8::from", "a::AnyZero::zero", "a::is_even", "a::is_odd", "a::third"}


def place(old):
    return functions.place_of(SOURCE, "src/a.rt", old)


class Places(unittest.TestCase):
    def test_places(self):
        self.assertEqual(place("Sum::of(octets)"), ("a::", "Sum<'a>", "From<&'a [u8]>", "from"))
        self.assertEqual(place("N::of(0)"), ("a::", "N", "Zero", "zero"))
        self.assertEqual(place("n == 0"), ("a::", "", "", "is_even"))
        self.assertEqual(place("ZERO: usize = 0"), ("a::", "N", "Zero", "ZERO"))

    def test_outside_every_function(self):
        self.assertIsNone(place("FIRST: usize"))
        self.assertIsNone(place("use crate"))

    def test_names(self):
        for old, name in (("Sum::of(octets)", "a::SumFromRefSliceU8::from"), ("N::of(0)", "a::AnyZero::zero"), ("n == 0", "a::is_even")):
            self.assertEqual(functions.function_at(place(old), KNOWN), name)
            self.assertTrue(functions.is_at(place(old), name, KNOWN))
            self.assertFalse(functions.is_at(place(old), "a::third", KNOWN))

    def test_a_name_that_is_not_plain(self):
        with self.assertRaises(functions.Unfit):
            functions.function_at(("a::", "T", "", "f"), {"a::b::f", "a::c::f"})

    def test_modules(self):
        self.assertEqual([functions.module_of(f"src/{it}.rt") for it in ("lib", "main", "a", "a/b")], ["", "", "a::", "a::b::"])

    def test_cycles(self):
        self.assertEqual(functions.in_cycles(SOURCE, "src/a.rt", KNOWN), {"a::is_even", "a::is_odd"})


class Bodies(unittest.TestCase):
    def test_bodies(self):
        bodies = {it[2]: functions.body_of(SOURCE, it) for it in re.finditer(functions.HEAD, SOURCE, re.M) if it[2]}
        self.assertEqual(SOURCE[slice(*bodies["from"])], "{\n        Sum::of(octets)\n    }")
        self.assertIsNone(bodies["step"])

    def test_bodies_are_left_out(self):
        text = functions.without_bodies(SOURCE, "src/a.rt", KNOWN, {place("n == 0")})
        self.assertNotIn("Sum::of", text)
        self.assertNotIn("is_even(n - 1)", text)
        self.assertIn("is_odd(n - 1)", text)
        self.assertIn("3\n", text)
