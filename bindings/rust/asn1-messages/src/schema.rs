//! Modules, and what decodes and encodes the values of their types.

use crate::asn1::args::Output;
use crate::asn1::codec::{self, Source, Target};
use crate::asn1::decode::Decoder;
use crate::asn1::encode::{EncodeError, Encoder};
use crate::asn1::from_json;
use crate::asn1::places::line_and_column;
use crate::asn1::rules::Rules;
use crate::asn1::stop::Stop;
use crate::asn1_resolve::{self, SchemaError};
use crate::asn1_schema::Part;
use crate::message::Message;
use crate::support::Global;
use alloc::string::{String, ToString};
use alloc::vec::Vec;
use core::fmt;

/// The most levels of a value, unless [`Codec::with_limits`] says otherwise.
const DEPTH: usize = 50;

/// An error. Its text says where it is.
#[derive(Clone, Debug, PartialEq, Eq)]
pub enum Error {
    /// The module, the octets, the JSON or the value is invalid.
    Invalid(String),
    /// Out of memory.
    Memory,
}

impl fmt::Display for Error {
    fn fmt(&self, f: &mut fmt::Formatter<'_>) -> fmt::Result {
        match self {
            Error::Invalid(text) => f.write_str(text),
            Error::Memory => f.write_str("out of memory"),
        }
    }
}

impl core::error::Error for Error {}

impl From<Stop> for Error {
    fn from(stop: Stop) -> Error {
        match stop {
            Stop::Memory => Error::Memory,
            _ => Error::Invalid(stop.to_string()),
        }
    }
}

/// The types of one or more modules.
pub struct Schema(asn1_resolve::Schema);

impl Schema {
    /// Reads the text of modules (X.680 to X.683), one after another. A module may import from those before
    /// it and after it.
    ///
    /// # Errors
    ///
    /// Returns the first error with its line and its column, or `Memory`.
    pub fn parse(text: &str) -> Result<Schema, Error> {
        match asn1_resolve::Schema::parse(Global, text) {
            Ok(schema) => Ok(Schema(schema)),
            Err(SchemaError::Notation(error)) => {
                let (line, column) = line_and_column(text.as_bytes(), error.at);
                Err(Error::Invalid(alloc::format!("{line}:{column}: {}", error.problem)))
            }
            Err(SchemaError::Memory) => Err(Error::Memory),
        }
    }

    /// Returns the names of the types, as `Module.Type`.
    pub fn types(&self) -> impl Iterator<Item = String> {
        let text = |span| String::from_utf8_lossy(self.0.text_of(span)).into_owned();
        self.0.types().iter().map(move |it| alloc::format!("{}.{}", text(it.module), text(it.name)))
    }

    /// Returns the node of a type by its name, without or with that of its module.
    fn node_named(&self, name: &str) -> Option<usize> {
        let Some((module, name)) = name.split_once('.') else {
            return self.0.node_named(name);
        };
        let is = |span, text: &str| self.0.text_of(span) == text.as_bytes();
        Some(self.0.types().iter().find(|it| is(it.module, module) && is(it.name, name))?.node)
    }

    /// Returns what decodes and encodes values of a type, `Type` or `Module.Type`, by rules.
    ///
    /// # Errors
    ///
    /// Returns an error if the modules have no such type, if a DEFAULT has a value that is not supported,
    /// or if out of memory.
    pub fn codec(&self, name: &str, rules: Rules) -> Result<Codec<'_>, Error> {
        let Some(node) = self.node_named(name) else {
            return Err(Error::Invalid(alloc::format!("there is no type {name}")));
        };
        match codec::Codec::new(Global, &self.0, node, rules) {
            Ok(codec) => Ok(Codec { schema: &self.0, codec, node, depth: DEPTH, parts: usize::MAX }),
            Err(error) => Err(Error::Invalid(error.to_string())),
        }
    }
}

/// Decodes and encodes values of one type.
pub struct Codec<'s> {
    pub(crate) schema: &'s asn1_resolve::Schema,
    codec: codec::Codec,
    pub(crate) node: usize,
    depth: usize,
    parts: usize,
}

impl<'s> Codec<'s> {
    /// Limits values: a value of more levels than `depth` or of more parts is an error. A part is a value
    /// without components, or the beginning of one that has components. Each level takes some stack.
    pub fn with_limits(self, depth: usize, parts: usize) -> Codec<'s> {
        Codec { depth, parts, ..self }
    }

    fn target(&self) -> Target {
        Target { node: self.node, depth: self.depth, is_prefix: false }
    }

    pub(crate) fn decoder(&self, printed: Output) -> Decoder<'_> {
        Decoder { alloc: Global, schema: self.schema, codec: &self.codec, target: self.target(), parts: self.parts, printed }
    }

    fn encoder(&self) -> Encoder<'_> {
        Encoder { alloc: Global, schema: self.schema, codec: &self.codec, target: self.target() }
    }

    /// Decodes a value. The octets must end where it ends.
    ///
    /// # Errors
    ///
    /// Returns the first fault of the octets with its offset and the path to it.
    pub fn decode<'x>(&'x self, octets: &'x [u8]) -> Result<Message<'x>, Error> {
        let parts = self.decoder(Output::Json).parts_of(octets)?;
        Ok(Message { codec: self, octets, parts: parts.into_vec() })
    }

    /// Decodes a value to JSON (X.697).
    ///
    /// # Errors
    ///
    /// As [`Codec::decode`].
    pub fn decode_to_json(&self, octets: &[u8]) -> Result<String, Error> {
        let text = self.decoder(Output::Json).text_of(octets)?;
        String::from_utf8(text.into_vec()).map_err(|error| Error::Invalid(error.to_string()))
    }

    /// Encodes a value of JSON (X.697). Items of a SET OF are put in order.
    ///
    /// # Errors
    ///
    /// Returns the first item that does not fit the type, with its line, its column and the path to it.
    pub fn encode_json(&self, text: &str) -> Result<Vec<u8>, Error> {
        Ok(from_json::encode_json(&self.encoder(), "JSON", text.as_bytes())?.into_vec())
    }

    /// Encodes the parts of a value, whose bits are in octets.
    pub(crate) fn encode_parts(&self, parts: &[Part], octets: &[u8]) -> Result<Vec<u8>, Error> {
        match self.encoder().octets_of(parts, octets) {
            Ok(made) => Ok(made.into_vec()),
            Err(EncodeError::Misfit(misfit)) => Err(Error::Invalid(misfit.to_string())),
            Err(EncodeError::Memory) => Err(Error::Memory),
        }
    }
}
