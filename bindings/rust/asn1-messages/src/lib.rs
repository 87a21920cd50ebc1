//! Messages of any ASN.1 module, by DER (X.690) and by PER, unaligned and aligned (X.691).
//!
//! A module is read at run time, and nothing is generated. A hostile message is an error, never a panic.
//! The crate is `no_std`, has no `unsafe` and no dependencies, and needs `alloc`. `usize` must have 64 bits.
//!
//! ```
//! use asn1_messages::{Rules, Schema};
//!
//! let schema = Schema::parse(
//!     "Points DEFINITIONS AUTOMATIC TAGS ::= BEGIN
//!          Point ::= SEQUENCE { x INTEGER (0..255), y INTEGER (0..255), name UTF8String OPTIONAL }
//!      END",
//! )?;
//! let points = schema.codec("Point", Rules::Uper)?;
//! let octets = points.encode_json(r#"{"x": 3, "y": 200}"#)?;
//! assert_eq!(octets, [0x01, 0xE4, 0x00]);
//!
//! let message = points.decode(&octets)?;
//! let view = message.view();
//! let point = message.value(&view);
//! assert_eq!(point.get("y").and_then(|y| y.as_i128()), Some(200));
//! assert!(point.get("name").is_none());
//! assert_eq!(message.to_string(), "{x 3, y 200}");
//! # Ok::<(), asn1_messages::Error>(())
//! ```
//!
//! # What is proved
//!
//! The modules named `asn1..` are the proved sources of the library asn1-values without their contracts:
//! that a decoder accepts what an encoding is and nothing else, that it returns the first fault, and that
//! no operation panics. The proofs are about these sources in Rattle. Not proved are what rustc makes of
//! them, and the other modules: `schema` and `message`, and `support` and `json` with what the sources use
//! of Rattle's library. They are tested.
#![no_std]
#![forbid(unsafe_code)]
#![allow(dead_code, unused_variables, unused_imports, rustdoc::broken_intra_doc_links)]

extern crate alloc;

#[macro_use]
mod support;
mod json;
mod message;
mod schema;

#[cfg(not(target_pointer_width = "64"))]
compile_error!("usize must have 64 bits: the sources are proved for those");

pub use asn1::rules::Rules;
pub use asn1_bits::BitStr;
pub use asn1_schema::{Characters, Codes, Fragments, Natural, Part, Rows, Span};
pub use asn1_schema_values::{Message as View, Value};
pub use message::Message;
pub use schema::{Codec, Error, Schema};

