//! The proved value layer of ASN.1 as a Rust crate: safe functions over the static library that `rt lib` writes.
//!
//! What the library's functions return is proved. This crate passes slices to them, walks over fields and makes types
//! of numbers; that is tested. Positions and widths are in bits; the first bit of an octet is its most significant
//! one.
//!
//! Without the feature `std` the crate is `no_std`. The feature `alloc` adds the functions that return vectors.
//!
//! ```
//! use asn1_values::{read_field, write_fields, Field, Integer};
//! let fields = [Field::Number { value: 5, width: 3 }, Field::Integer(Integer::from(128))];
//! let mut message = [0; 3];
//! assert_eq!(write_fields(&mut message, 0, &fields), Ok(19));
//! assert_eq!(read_field(&message, 0, &fields[0].shape()), Ok((fields[0], 3)));
//! assert_eq!(read_field(&message, 3, &fields[1].shape()), Ok((fields[1], 19)));
//! ```
#![cfg_attr(not(feature = "std"), no_std)]
#![deny(missing_docs)]
#![deny(unsafe_op_in_unsafe_fn)]

#[cfg(feature = "alloc")]
extern crate alloc;

mod alphabets;
mod bits;
mod decimals;
mod der;
mod error;
mod fields;
mod identifiers;
mod integers;
mod strings;
mod sys;
mod version;
mod wide_integers;

pub use alphabets::{characters, check_string, Alphabet, Characters, StringKind};
pub use bits::{or_bits, or_number, read_bits, Bits};
#[cfg(feature = "alloc")]
pub use decimals::decimal;
pub use decimals::{decimal_room, octets_of_decimal, write_decimal};
pub use der::{
    der_bits, der_boolean, der_generalized_time, der_utc_time, next_element, Class, Element, Time,
};
pub use error::{
    AlphabetError, BitsError, DerError, IdentifierError, IntegerError, ReadError, StringError,
    WriteError,
};
#[cfg(feature = "alloc")]
pub use fields::read_fields;
pub use fields::{read_field, write_fields, Field, Shape};
#[cfg(feature = "alloc")]
pub use identifiers::{arcs, arcs_of_dotted, contents, dotted};
pub use identifiers::{
    check_arcs, check_contents, write_arcs, write_arcs_of_dotted, write_contents, write_dotted,
    Arcs, Identifier,
};
pub use integers::{
    compare_integers, integer_from_octets, integer_octets, is_shortest, shortest, Integer,
};
pub use strings::{count_characters, write_string_from_utf8, write_string_to_utf8};
#[cfg(feature = "alloc")]
pub use strings::{string_from_utf8, string_to_utf8};
pub use version::version;
pub use wide_integers::{
    i128_from_octets, i128_octets, u128_from_octets, u128_octets, u64_from_octets, u64_octets,
};

/// The example of the crate's page.
#[cfg(doctest)]
#[doc = include_str!("../README.md")]
struct Readme;
