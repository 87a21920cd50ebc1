//! Errors of calls.

mod fields;

pub use fields::{ReadError, WriteError};

use core::fmt;

/// Bits do not all lie in their octets, or a number or its width is too large.
///
/// ```
/// assert_eq!(asn1_values::BitsError::Width.to_string(), "a width over 128 bits");
/// ```
#[derive(Clone, Copy, Debug, PartialEq, Eq, Hash)]
#[non_exhaustive]
pub enum BitsError {
    /// The octets end before the bits do.
    Outside,
    /// A width over 128 bits.
    Width,
    /// A number that is not below 2 to the power of its width.
    Overflow,
    /// The room is too short.
    Room,
}

/// An error of numbers and their octets.
///
/// ```
/// assert_eq!(asn1_values::IntegerError::Empty.to_string(), "no octets");
/// ```
#[derive(Clone, Copy, Debug, PartialEq, Eq, Hash)]
#[non_exhaustive]
pub enum IntegerError {
    /// There are no octets.
    Empty,
    /// The number does not fit the type.
    Overflow,
    /// The text is not the decimal text of a number.
    Decimal,
    /// The room is too short.
    Room,
}

/// An error of identifiers.
///
/// ```
/// assert_eq!(asn1_values::IdentifierError::Arcs.to_string(), "not the arcs of an identifier");
/// ```
#[derive(Clone, Copy, Debug, PartialEq, Eq, Hash)]
#[non_exhaustive]
pub enum IdentifierError {
    /// The octets are the contents of no identifier, however large its arcs.
    Malformed,
    /// The octets are the contents of an identifier, one of whose arcs exceeds 32 bits.
    ArcTooLarge,
    /// The arcs are not those of an identifier (X.660).
    Arcs,
    /// There is one arc, which has no contents.
    ArcCount,
    /// The text is not the dotted text of an identifier whose arcs all fit 32 bits.
    Text,
    /// The room is too short.
    Room,
}

/// An error of strings.
///
/// ```
/// assert_eq!(asn1_values::StringError::Odd.to_string(), "an odd number of octets");
/// ```
#[derive(Clone, Copy, Debug, PartialEq, Eq, Hash)]
#[non_exhaustive]
pub enum StringError {
    /// An odd number of octets in a `BMPString`.
    Odd,
    /// A `GeneralString`, a `GraphicString` or a `TeletexString`, whose characters are not those of Unicode.
    NoUnicode,
    /// The first surrogate, which UTF-8 has no octets for. Its index is counted in characters, from 0.
    Surrogate {
        /// Its index.
        place: usize,
        /// The surrogate.
        character: u32,
    },
    /// The number of octets would exceed `usize::MAX`.
    TooMany,
    /// The room is too short.
    Room,
    /// The first character that is not in the set. Its index is counted in characters, from 0.
    Character {
        /// Its index.
        place: usize,
        /// The character.
        character: u32,
    },
}

/// An error of alphabets.
///
/// ```
/// assert_eq!(asn1_values::AlphabetError::Code(9).to_string(), "code 9 is no character");
/// ```
#[derive(Clone, Copy, Debug, PartialEq, Eq, Hash)]
#[non_exhaustive]
pub enum AlphabetError {
    /// The character is not in the alphabet.
    Character(u32),
    /// The number is the code of no character.
    Code(u32),
    /// The permitted set has more than 2 to the power of 32 characters.
    Set,
}

impl fmt::Display for BitsError {
    fn fmt(&self, f: &mut fmt::Formatter<'_>) -> fmt::Result {
        match self {
            BitsError::Outside => f.write_str("the octets end before the bits do"),
            BitsError::Width => f.write_str("a width over 128 bits"),
            BitsError::Overflow => f.write_str("the number does not fit its width"),
            BitsError::Room => f.write_str("the room is too short"),
        }
    }
}

impl fmt::Display for IntegerError {
    fn fmt(&self, f: &mut fmt::Formatter<'_>) -> fmt::Result {
        match self {
            IntegerError::Empty => f.write_str("no octets"),
            IntegerError::Overflow => f.write_str("the number does not fit"),
            IntegerError::Decimal => f.write_str("not the decimal text of a number"),
            IntegerError::Room => f.write_str("the room is too short"),
        }
    }
}

impl fmt::Display for IdentifierError {
    fn fmt(&self, f: &mut fmt::Formatter<'_>) -> fmt::Result {
        match self {
            IdentifierError::Malformed => f.write_str("not the contents of an identifier"),
            IdentifierError::ArcTooLarge => f.write_str("an arc is past 32 bits"),
            IdentifierError::Arcs => f.write_str("not the arcs of an identifier"),
            IdentifierError::ArcCount => f.write_str("fewer than two arcs"),
            IdentifierError::Text => f.write_str("not the dotted text of an identifier"),
            IdentifierError::Room => f.write_str("the room is too short"),
        }
    }
}

impl fmt::Display for StringError {
    fn fmt(&self, f: &mut fmt::Formatter<'_>) -> fmt::Result {
        match self {
            StringError::Odd => f.write_str("an odd number of octets"),
            StringError::NoUnicode => {
                f.write_str("a string whose characters are not those of Unicode")
            }
            StringError::Surrogate { place, character } => {
                write!(f, "character {place}: {character} is a surrogate")
            }
            StringError::TooMany => f.write_str("too many octets"),
            StringError::Room => f.write_str("the room is too short"),
            StringError::Character { place, character } => {
                write!(f, "character {place}: {character} is not in the set")
            }
        }
    }
}

impl fmt::Display for AlphabetError {
    fn fmt(&self, f: &mut fmt::Formatter<'_>) -> fmt::Result {
        match self {
            AlphabetError::Character(character) => {
                write!(f, "character {character} is not in the alphabet")
            }
            AlphabetError::Code(code) => write!(f, "code {code} is no character"),
            AlphabetError::Set => f.write_str("the permitted set is too long"),
        }
    }
}

/// A fault of an element of DER, or of the contents of one (X.690).
///
/// ```
/// assert_eq!(asn1_values::DerError::Indefinite.to_string(), "an indefinite length");
/// ```
#[derive(Clone, Copy, Debug, PartialEq, Eq, Hash)]
#[non_exhaustive]
pub enum DerError {
    /// Octets are missing.
    Short,
    /// The number of a tag or a length has more octets than it needs.
    NotMinimal,
    /// A length is indefinite.
    Indefinite,
    /// The first octet of a length is reserved.
    Reserved,
    /// The number of a tag does not fit 64 bits.
    TagLarge,
    /// The contents octets encode no value of the type.
    Contents,
    /// There are more bits than `usize` counts.
    TooMany,
}

impl fmt::Display for DerError {
    fn fmt(&self, f: &mut fmt::Formatter<'_>) -> fmt::Result {
        f.write_str(match self {
            DerError::Short => "octets are missing",
            DerError::NotMinimal => "a number of a tag or a length in more octets than it needs",
            DerError::Indefinite => "an indefinite length",
            DerError::Reserved => "a length that begins with a reserved octet",
            DerError::TagLarge => "a number of a tag of more than 64 bits",
            DerError::Contents => "contents octets that encode no value of the type",
            DerError::TooMany => "too many octets",
        })
    }
}

impl core::error::Error for DerError {}
impl core::error::Error for BitsError {}
impl core::error::Error for IntegerError {}
impl core::error::Error for IdentifierError {}
impl core::error::Error for StringError {}
impl core::error::Error for AlphabetError {}
