//! Errors of fields.

use core::fmt;

/// An error of reading fields, with the index of the first invalid field, from 0.
///
/// ```
/// let short = asn1_values::ReadError::Short { field: 1, bits: 4 };
/// assert_eq!(short.to_string(), "field 1: 4 bits short");
/// ```
#[derive(Clone, Copy, Debug, PartialEq, Eq, Hash)]
#[non_exhaustive]
pub enum ReadError {
    /// The position is past the octets' bits.
    Outside,
    /// The octets have more bits than a position can count.
    TooManyOctets,
    /// A number of more than 128 bits.
    NumberWidth {
        /// The index of the field.
        field: usize,
        /// The width in bits.
        width: usize,
    },
    /// Octets that are not the shortest of a number (X.690 8.3.2), or none.
    Integer {
        /// The index of the field.
        field: usize,
    },
    /// A counted integer whose first octet is not 1 to 127.
    OctetCount {
        /// The index of the field.
        field: usize,
        /// The octet.
        octet: u8,
    },
    /// A number that is the code of no character of the alphabet.
    Character {
        /// The index of the field.
        field: usize,
        /// The number.
        code: u32,
    },
    /// Octets that are the contents of no identifier, however large its arcs, or none.
    Identifier {
        /// The index of the field.
        field: usize,
    },
    /// The contents of an identifier, one of whose arcs exceeds 32 bits.
    Arc {
        /// The index of the field.
        field: usize,
    },
    /// The octets end before the field does.
    Short {
        /// The index of the field.
        field: usize,
        /// How many bits are missing.
        bits: u128,
    },
}

/// An error of writing fields, with the index of the first invalid field, from 0.
///
/// ```
/// assert_eq!(asn1_values::WriteError::Room.to_string(), "the room is too small");
/// ```
#[derive(Clone, Copy, Debug, PartialEq, Eq, Hash)]
#[non_exhaustive]
pub enum WriteError {
    /// A number of more than 128 bits.
    NumberWidth {
        /// The index of the field.
        field: usize,
        /// The width in bits.
        width: usize,
    },
    /// A number that is not below 2 to the power of its width.
    Number {
        /// The index of the field.
        field: usize,
    },
    /// The bits of octets are not whole octets.
    Length {
        /// The index of the field.
        field: usize,
    },
    /// A character that the alphabet has no code for.
    Character {
        /// The index of the field.
        field: usize,
        /// The character.
        character: u32,
    },
    /// A counted integer of more than 127 octets.
    OctetCount {
        /// The index of the field.
        field: usize,
    },
    /// Every field fits, and the fields would end after the octets.
    Room,
}

impl fmt::Display for ReadError {
    fn fmt(&self, f: &mut fmt::Formatter<'_>) -> fmt::Result {
        match self {
            ReadError::Outside => f.write_str("the position is past the octets"),
            ReadError::TooManyOctets => f.write_str("too many octets"),
            ReadError::NumberWidth { field, width } => {
                write!(f, "field {field}: width {width} is over 128")
            }
            ReadError::Integer { field } => write!(f, "field {field}: not a shortest integer"),
            ReadError::OctetCount { field, octet } => {
                write!(f, "field {field}: length octet {octet} is not 1 to 127")
            }
            ReadError::Character { field, code } => {
                write!(f, "field {field}: code {code} is no character")
            }
            ReadError::Identifier { field } => {
                write!(f, "field {field}: not the contents of an identifier")
            }
            ReadError::Arc { field } => write!(f, "field {field}: an arc is past 32 bits"),
            ReadError::Short { field, bits } => write!(f, "field {field}: {bits} bits short"),
        }
    }
}

impl fmt::Display for WriteError {
    fn fmt(&self, f: &mut fmt::Formatter<'_>) -> fmt::Result {
        match self {
            WriteError::NumberWidth { field, width } => {
                write!(f, "field {field}: width {width} is over 128")
            }
            WriteError::Number { field } => {
                write!(f, "field {field}: the number does not fit its width")
            }
            WriteError::Length { field } => write!(f, "field {field}: not whole octets"),
            WriteError::Character { field, character } => {
                write!(
                    f,
                    "field {field}: character {character} is not in the alphabet"
                )
            }
            WriteError::OctetCount { field } => {
                write!(f, "field {field}: the integer is longer than 127 octets")
            }
            WriteError::Room => f.write_str("the room is too small"),
        }
    }
}

impl core::error::Error for ReadError {}
impl core::error::Error for WriteError {}
