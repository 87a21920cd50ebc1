//! Writing fields: each is one call, with the field in the form for C.

use super::{Field, Shape};
use crate::bits::Bits;
use crate::error::WriteError;
use crate::integers::{Form, Integer};
use crate::sys::{self, Words};

/// A field in the form for C: one field, or a counting octet and the octets.
struct Parts<'a> {
    source: &'a [u8],
    alphabet: Option<sys::Alphabet>,
    shapes: [sys::Shape; 2],
    fields: [sys::Field; 2],
    count: usize,
}

fn by_number(number: u128) -> sys::Field {
    let Words { high, low } = Words::of(number);
    sys::Field {
        high,
        low,
        ..sys::Field::NONE
    }
}

fn parts<'a>(field: &Field<'a, '_>) -> Parts<'a> {
    let shape = field.shape();
    let nothing = sys::Shape {
        kind: sys::BITS,
        count: 0,
    };
    let mut parts = Parts {
        source: &[],
        alphabet: shape.alphabet(),
        shapes: [shape.raw(0), nothing],
        fields: [sys::Field::NONE; 2],
        count: 1,
    };
    let mut lies = |bits: &Bits<'a>, at: usize| {
        parts.source = bits.storage();
        parts.fields[at].first = bits.first();
        parts.fields[at].length = bits.len();
    };
    match field {
        Field::Octets(bits) | Field::Bits(bits) => lies(bits, 0),
        Field::Identifier(identifier) => lies(&identifier.contents(), 0),
        Field::Integer(Integer(Form::Octets(bits))) => lies(bits, 0),
        Field::CountedInteger(Integer(Form::Octets(bits))) => {
            lies(bits, 1);
            let octets = bits.len() / 8;
            parts.count = 2;
            parts.fields[0] = by_number(octets as u128);
            parts.shapes[0] = Shape::Number { width: 8 }.raw(0);
            parts.shapes[1] = Shape::Integer { octets }.raw(0);
        }
        Field::Number { value, .. } => parts.fields[0] = by_number(*value),
        Field::Character { character, .. } => parts.fields[0] = by_number((*character).into()),
        Field::Integer(Integer(Form::Value(value)))
        | Field::CountedInteger(Integer(Form::Value(value))) => {
            parts.fields[0] = by_number(*value as u128);
        }
    }
    parts
}

/// Makes one call. Returns the code, the end or the end that is needed, and the error.
fn put(target: &mut [u8], at: usize, parts: &Parts<'_>) -> (u32, usize, sys::Refusal) {
    let alphabets = parts.alphabet.as_slice();
    let mut end = at;
    let mut refusal = sys::Refusal::NONE;
    // SAFETY: pointers and lengths are those of slices, of which the mutable one overlaps no other; the alphabet is one
    // that `Alphabet::new` has seen, and the rest have storage of their own.
    let code = unsafe {
        sys::asn1v_write_fields(
            target.as_mut_ptr(),
            target.len(),
            at,
            parts.source.as_ptr(),
            parts.source.len(),
            alphabets.as_ptr(),
            alphabets.len(),
            parts.shapes.as_ptr(),
            parts.count,
            parts.fields.as_ptr(),
            parts.count,
            &mut end,
            &mut refusal,
        )
    };
    (code, end, refusal)
}

/// Returns the end of a field that is written from a bit on, or `None` if it exceeds `usize`.
fn end_of(i: usize, field: &Field<'_, '_>, at: usize) -> Result<Option<usize>, WriteError> {
    if let Field::CountedInteger(number) = field {
        if number.octet_count() > 127 {
            return Err(WriteError::OctetCount { field: i });
        }
    }
    // There is no room for a bit, so the call writes none, and returns the end that it needs.
    let (code, end, refusal) = put(&mut [], at, &parts(field));
    match code {
        sys::DONE => Ok(Some(end)),
        sys::ROOM => Ok(usize::try_from(refusal.number()).ok()),
        sys::WIDTH => Err(WriteError::NumberWidth {
            field: i,
            width: refusal.number() as usize,
        }),
        sys::OVERFLOW => Err(WriteError::Number { field: i }),
        sys::CHARACTER => Err(WriteError::Character {
            field: i,
            character: refusal.number() as u32,
        }),
        _ => Err(WriteError::Length { field: i }),
    }
}

/// Writes the fields, one after another, over the bits of the octets from bit `position` on. Returns the index of the
/// first bit after them. Every other bit is unchanged. All fields are examined first, so after an error no bit has
/// changed.
///
/// Each field is examined and written by a call that is proved. The loop over the fields is this crate's, and is
/// tested.
///
/// # Errors
///
/// The first field that does not fit, and its fault. If all fit, `WriteError::Room` if they would end after the
/// octets.
///
/// ```
/// use asn1_values::{write_fields, Field, Integer, WriteError};
/// let fields = [Field::Number { value: 5, width: 3 }, Field::CountedInteger(Integer::from(128))];
/// let mut octets = [0; 4];
/// assert_eq!(write_fields(&mut octets, 0, &fields), Ok(27));
/// assert_eq!(octets, [0xA0, 0x40, 0x10, 0x00]);
/// assert_eq!(write_fields(&mut octets, 6, &fields), Err(WriteError::Room));
/// ```
pub fn write_fields(
    octets: &mut [u8],
    position: usize,
    fields: &[Field<'_, '_>],
) -> Result<usize, WriteError> {
    let mut end = Some(position);
    for (i, field) in fields.iter().enumerate() {
        // A field after one that exceeds `usize` is examined too.
        let next = end_of(i, field, end.unwrap_or(0))?;
        end = end.and(next);
    }
    let end = end.ok_or(WriteError::Room)?;
    if end as u128 > 8 * octets.len() as u128 {
        return Err(WriteError::Room);
    }
    let mut at = position;
    for field in fields {
        let (code, next, _) = put(octets, at, &parts(field));
        if code != sys::DONE {
            return Err(WriteError::Room);
        }
        at = next;
    }
    Ok(at)
}
