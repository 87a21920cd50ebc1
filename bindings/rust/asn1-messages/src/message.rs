//! Decoded messages.

use crate::asn1::args::Output;
use crate::asn1_schema::Part;
use crate::asn1_schema_values::{self, Value};
use crate::schema::{Codec, Error};
use alloc::string::{String, ToString};
use alloc::vec::Vec;
use core::fmt;

/// A decoded value. Its octets are not copied.
///
/// Its `Display` writes the value notation of X.680.
pub struct Message<'x> {
    pub(crate) codec: &'x Codec<'x>,
    pub(crate) octets: &'x [u8],
    pub(crate) parts: Vec<Part>,
}

impl Message<'_> {
    /// Returns the parts of the value, in the order of the encoding.
    pub fn parts(&self) -> &[Part] {
        &self.parts
    }

    /// Returns what [`Message::value`] reads.
    pub fn view(&self) -> asn1_schema_values::Message<'_> {
        asn1_schema_values::Message {
            tables: self.codec.schema.tables(),
            names: self.codec.schema.names(),
            octets: self.octets,
            parts: &self.parts,
        }
    }

    /// Returns the value, whose components are found by their names.
    pub fn value<'v>(&self, view: &'v asn1_schema_values::Message<'v>) -> Value<'v> {
        Value::whole(view, self.codec.node)
    }

    /// Returns the value at a path, as errors print it: names of components and of the alternatives of a
    /// CHOICE, and indexes of items, as `extensions[0].extnID`. The empty path is the whole value.
    ///
    /// ```
    /// # use asn1_messages::{Error, Rules, Schema};
    /// let schema = Schema::parse("L DEFINITIONS ::= BEGIN Lists ::= SEQUENCE { all SEQUENCE OF BOOLEAN } END")?;
    /// let lists = schema.codec("Lists", Rules::Der)?;
    /// let message = lists.decode(&[0x30, 8, 0x30, 6, 1, 1, 0, 1, 1, 0xFF])?;
    /// let view = message.view();
    /// assert_eq!(message.find(&view, "all[1]").and_then(|it| it.as_bool()), Some(true));
    /// assert!(message.find(&view, "all[2]").is_none());
    /// assert_eq!((message.count("all"), message.number("all[0]")), (Some(2), Some(0)));
    /// # Ok::<(), Error>(())
    /// ```
    pub fn find<'v>(&self, view: &'v asn1_schema_values::Message<'v>, path: &str) -> Option<Value<'v>> {
        let mut value = self.value(view);
        for step in path.split(['.', '[']).filter(|it| !it.is_empty()) {
            value = match step.strip_suffix(']') {
                Some(index) => value.item(index.parse().ok()?)?,
                None => match value.choice() {
                    Some((name, chosen)) if name == step.as_bytes() => chosen,
                    _ => value.get(step)?,
                },
            };
        }
        Some(value)
    }

    /// Returns the value at a path in the value notation of X.680. `None` if there is none.
    pub fn text(&self, path: &str) -> Option<String> {
        Some(self.find(&self.view(), path)?.to_string())
    }

    /// Returns the number of an INTEGER at a path, the index of an ENUMERATED, or 0 or 1 for a BOOLEAN. `None`
    /// if there is no such value, or the number does not fit.
    pub fn number(&self, path: &str) -> Option<i64> {
        let view = self.view();
        let value = self.find(&view, path)?;
        match view.parts.get(value.at)? {
            Part::Truth(truth) => Some(i64::from(*truth)),
            Part::Enumerated(index) => i64::try_from(*index).ok(),
            Part::Integer(number) => i64::try_from(*number).ok(),
            Part::Above { .. } | Part::Signed(_) => value.to_string().parse().ok(),
            _ => None,
        }
    }

    /// Returns the octets of an OCTET STRING or of an open type at a path, or the minimal octets of an INTEGER
    /// (X.690 8.3). `None` if there is no such value, or a part has the number of an INTEGER itself.
    pub fn octets(&self, path: &str) -> Option<Vec<u8>> {
        let view = self.view();
        let value = self.find(&view, path)?;
        let bits = value.as_octets().or_else(|| value.as_signed_octets())?;
        let octet = |at| (8 * at..8 * at + 8).fold(0, |sum, it| sum << 1 | u8::from(bits.get(it)));
        Some((0..bits.len() / 8).map(octet).collect())
    }

    /// Returns how many items a SEQUENCE OF or a SET OF at a path has. `None` if there is no such value.
    pub fn count(&self, path: &str) -> Option<usize> {
        self.find(&self.view(), path)?.item_count()
    }

    /// Encodes the value by other rules, or for another type of the same structure.
    ///
    /// # Errors
    ///
    /// Returns the first part that does not fit the type, or `Memory`.
    pub fn encode(&self, codec: &Codec<'_>) -> Result<Vec<u8>, Error> {
        codec.encode_parts(&self.parts, self.octets)
    }
}

impl fmt::Display for Message<'_> {
    fn fmt(&self, f: &mut fmt::Formatter<'_>) -> fmt::Result {
        let view = self.view();
        write!(f, "{}", self.value(&view))
    }
}
