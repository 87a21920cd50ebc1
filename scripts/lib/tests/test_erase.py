import unittest

from lib.erase import as_rust, without_contracts

SOURCE = """//! Numbers.

ghost use Rattle.std.specs.Prelude.{◌≡◌, ◌<◌};

use crate::limits::Limit;
use asn1_bits::read_bits;
use std::alloc::{AllocError, Global};
use std::fmt;
use thiserror::Error;

/// A number.
#[derive(Clone, Copy, Drop)]
pub struct Number {
    /// Its value.
    pub value: u64,
    /// It is small.
    pub ghost small: { value < 2 ^ 32 },
}

impl Model for Number {
    ghost view = { λ n. n.value };
}

/// What has numbers.
pub trait Numbers {
    /// The numbers.
    ghost list: { Self → List ℕ } = { λ _. [] };

    /// Returns how many there are.
    fn count(&self) -> usize
        ensures { result ≡ length (list self.now) };
}

/// Returns half a number.
///
/// ```
/// let half = half(4);
/// ```
#[cycle(halves)]
pub(crate) fn half<T: Drop>(number: u64, other: T) -> Result<u64, AllocError>
where
    T: Clone,
    requires few { number < 8 }
    ensures { result ≡
        number / 2 }
{
    Ok(number / 2)
}
"""

RUST = """//! Numbers.

#[allow(unused_imports)]
use crate::support::*;


use crate::own::limits::Limit;
use crate::asn1_bits::read_bits;
use crate::support::{AllocError, Global};
use core::fmt;

/// A number.
#[derive(Clone, Copy)]
pub struct Number {
    /// Its value.
    pub value: u64,
}


/// What has numbers.
pub trait Numbers {

    /// Returns how many there are.
    fn count(&self) -> usize;
}

/// Returns half a number.
///
/// ```ignore
/// let half = half(4);
/// ```
pub(in crate::own) fn half<T>(number: u64, other: T) -> Result<u64, AllocError>
where
    T: Clone,
{
    Ok(number / 2)
}
"""

ERROR = """/// An error.
#[derive(Clone, Debug, Error)]
pub enum Fault<'s> {
    /// None.
    #[error("no value")]
    None,
    /// Two.
    #[error("{1} and {0:?}")]
    Two(u8, &'s str),
    /// At.
    #[error("octet {at}: {text}")]
    At {
        /// The index.
        at: usize,
        /// Why.
        text: &'s str,
        /// More.
        more: u8,
    },
}

/// An index.
#[derive(Debug, Error, PartialEq)]
#[error("bit {at}")]
pub struct Index {
    /// The index.
    pub at: usize,
}
"""


class Erase(unittest.TestCase):
    def test_contracts_and_ghost_items_are_left_out(self):
        self.assertEqual(as_rust(SOURCE, "own", ["own", "asn1_bits"]), RUST)

    def test_a_source_without_contracts_stays(self):
        self.assertEqual(without_contracts(RUST), RUST)

    def test_an_error_type_has_its_display(self):
        made = as_rust(ERROR, "own", ["own"])
        self.assertIn("#[derive(Clone, Debug)]\npub enum Fault<'s> {\n    /// None.\n    None,\n", made)
        self.assertIn("impl<'s> core::fmt::Display for Fault<'s> {", made)
        self.assertIn('            Self::None => f.write_str("no value"),\n', made)
        self.assertIn('            Self::Two(_0, _1) => write!(f, "{_1} and {_0:?}"),\n', made)
        self.assertIn('            Self::At { at, text, .. } => write!(f, "octet {at}: {text}"),\n', made)
        self.assertIn('        let Self { at, .. } = self;\n        write!(f, "bit {at}")\n', made)
        self.assertIn("impl core::error::Error for Index {}\n", made)
        self.assertNotIn("#[error", made)


if __name__ == "__main__":
    unittest.main()
