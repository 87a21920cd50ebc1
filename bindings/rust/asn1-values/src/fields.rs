//! Fields and shapes.

mod reading;
mod writing;

pub use reading::read_field;
#[cfg(feature = "alloc")]
pub use reading::read_fields;
pub use writing::write_fields;

use crate::alphabets::Alphabet;
use crate::bits::Bits;
use crate::identifiers::Identifier;
use crate::integers::Integer;
use crate::sys;

/// A field to write, or that was read. A field that was read borrows from the octets.
///
/// ```
/// use asn1_values::{read_field, Field, Shape};
/// let (field, end) = read_field(&[0x5A], 1, &Shape::Number { width: 3 }).unwrap();
/// assert_eq!((field, end), (Field::Number { value: 5, width: 3 }, 4));
/// ```
#[derive(Clone, Copy, Debug, PartialEq, Eq, Hash)]
pub enum Field<'a, 's> {
    /// The `width` binary digits of a number below 2 to the power of `width`; at most 128.
    Number {
        /// The number.
        value: u128,
        /// The number of bits.
        width: usize,
    },
    /// Octets, from any bit on.
    Octets(Bits<'a>),
    /// Bits.
    Bits(Bits<'a>),
    /// The shortest octets of a whole number (X.690 8.3).
    Integer(Integer<'a>),
    /// One octet with the number of the integer's shortest octets, 1 to 127, and these octets.
    CountedInteger(Integer<'a>),
    /// The code of a character in the width of its alphabet (X.691 30.5).
    Character {
        /// The character.
        character: u32,
        /// The alphabet.
        alphabet: Alphabet<'s>,
    },
    /// The contents of an object identifier (X.690 8.19).
    Identifier(Identifier<'a>),
}

/// What is known of a field before it is read.
///
/// ```
/// use asn1_values::{Field, Integer, Shape};
/// assert_eq!(Field::Integer(Integer::from(128)).shape(), Shape::Integer { octets: 2 });
/// ```
#[derive(Clone, Copy, Debug, PartialEq, Eq, Hash)]
pub enum Shape<'s> {
    /// A number of `width` bits.
    Number {
        /// The number of bits.
        width: usize,
    },
    /// `count` octets.
    Octets {
        /// The number of octets.
        count: usize,
    },
    /// `count` bits.
    Bits {
        /// The number of bits.
        length: usize,
    },
    /// An integer whose shortest octets are `octets`.
    Integer {
        /// The number of octets.
        octets: usize,
    },
    /// An integer after an octet that counts its octets.
    CountedInteger,
    /// A character of the alphabet.
    Character {
        /// The alphabet.
        alphabet: Alphabet<'s>,
    },
    /// An identifier whose contents have `octets` octets.
    Identifier {
        /// The number of octets.
        octets: usize,
    },
}

impl<'s> Shape<'s> {
    /// Returns the shape for C, with the index of its alphabet.
    fn raw(&self, place: usize) -> sys::Shape {
        let (kind, count) = match *self {
            Shape::Number { width } => (sys::NUMBER, width),
            Shape::Octets { count } => (sys::OCTETS, count),
            Shape::Bits { length } => (sys::BITS, length),
            Shape::Integer { octets } => (sys::INTEGER, octets),
            Shape::CountedInteger => (sys::COUNTED_INTEGER, 0),
            Shape::Character { .. } => (sys::CHARACTER_FIELD, place),
            Shape::Identifier { octets } => (sys::IDENTIFIER, octets),
        };
        sys::Shape { kind, count }
    }

    fn alphabet(&self) -> Option<sys::Alphabet> {
        match self {
            Shape::Character { alphabet } => Some(alphabet.raw()),
            _ => None,
        }
    }
}

impl<'s> Field<'_, 's> {
    /// Returns the shape of the field.
    ///
    /// ```
    /// use asn1_values::{Bits, Field, Shape};
    /// assert_eq!(Field::Octets(Bits::of(&[1, 2])).shape(), Shape::Octets { count: 2 });
    /// ```
    #[must_use]
    pub fn shape(&self) -> Shape<'s> {
        match *self {
            Field::Number { width, .. } => Shape::Number { width },
            Field::Octets(bits) => Shape::Octets {
                count: bits.len() / 8,
            },
            Field::Bits(bits) => Shape::Bits { length: bits.len() },
            Field::Integer(number) => Shape::Integer {
                octets: number.octet_count(),
            },
            Field::CountedInteger(_) => Shape::CountedInteger,
            Field::Character { alphabet, .. } => Shape::Character { alphabet },
            Field::Identifier(identifier) => Shape::Identifier {
                octets: identifier.contents().len() / 8,
            },
        }
    }
}
