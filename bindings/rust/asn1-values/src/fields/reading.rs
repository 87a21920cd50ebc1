//! Reading fields: one call, and the fields by its numbers.

use super::{Field, Shape};
use crate::bits::Bits;
use crate::error::ReadError;
use crate::identifiers::Identifier;
use crate::integers::{Form, Integer};
use crate::sys;

fn raised<'a, 's>(octets: &'a [u8], shape: &Shape<'s>, read: &sys::Field) -> Field<'a, 's> {
    let bits = Bits::new(octets, read.first, read.length).unwrap_or(Bits::of(&[]));
    match *shape {
        Shape::Number { width } => Field::Number {
            value: read.number(),
            width,
        },
        Shape::Octets { .. } => Field::Octets(bits),
        Shape::Bits { .. } => Field::Bits(bits),
        Shape::Integer { .. } => Field::Integer(number(read, bits, 0)),
        Shape::CountedInteger => Field::CountedInteger(number(read, bits, 8)),
        Shape::Character { alphabet } => Field::Character {
            character: read.low as u32,
            alphabet,
        },
        Shape::Identifier { .. } => Field::Identifier(Identifier::read(bits)),
    }
}

/// Returns the integer whose octets follow some bits.
fn number<'a>(read: &sys::Field, bits: Bits<'a>, lead: usize) -> Integer<'a> {
    match bits.part(lead, bits.len().saturating_sub(lead)) {
        Some(octets) if octets.len() > 128 => Integer(Form::Octets(octets)),
        _ => Integer::from(read.number() as i128),
    }
}

fn refused(code: u32, refusal: &sys::Refusal) -> ReadError {
    let field = refusal.field;
    let number = refusal.number();
    match code {
        sys::WIDTH => ReadError::NumberWidth {
            field,
            width: number as usize,
        },
        sys::SHORT => ReadError::Short {
            field,
            bits: number,
        },
        sys::NOT_SHORTEST => ReadError::Integer { field },
        sys::OCTET_COUNT => ReadError::OctetCount {
            field,
            octet: number as u8,
        },
        sys::CODE => ReadError::Character {
            field,
            code: number as u32,
        },
        sys::MALFORMED => ReadError::Identifier { field },
        sys::ARC_TOO_LARGE => ReadError::Arc { field },
        sys::TOO_MANY => ReadError::TooManyOctets,
        _ => ReadError::Outside,
    }
}

fn take(
    octets: &[u8],
    position: usize,
    alphabets: &[sys::Alphabet],
    shapes: &[sys::Shape],
    read: &mut [sys::Field],
) -> Result<usize, ReadError> {
    let mut end = 0;
    let mut refusal = sys::Refusal::NONE;
    // SAFETY: pointers and lengths are those of slices, of which the mutable one overlaps no other; alphabets are those
    // that `Alphabet::new` has seen, and the rest have storage of their own.
    let code = unsafe {
        sys::asn1v_read_fields(
            octets.as_ptr(),
            octets.len(),
            position,
            alphabets.as_ptr(),
            alphabets.len(),
            shapes.as_ptr(),
            shapes.len(),
            read.as_mut_ptr(),
            read.len(),
            &mut end,
            &mut refusal,
        )
    };
    match code {
        sys::DONE => Ok(end),
        code => Err(refused(code, &refusal)),
    }
}

/// Reads a field of the shape from bit `position` on. Returns the field, and the index of the first bit after it.
///
/// # Errors
///
/// The fault of the field; or the position is after the octets.
///
/// ```
/// use asn1_values::{read_field, Field, Integer, ReadError, Shape};
/// let message = [0x10, 0x10, 0x04];
/// let (field, end) = read_field(&message, 4, &Shape::CountedInteger).unwrap();
/// assert_eq!((field, end), (Field::CountedInteger(Integer::from(0)), 20));
/// ```
pub fn read_field<'a, 's>(
    octets: &'a [u8],
    position: usize,
    shape: &Shape<'s>,
) -> Result<(Field<'a, 's>, usize), ReadError> {
    let mut read = [sys::Field::NONE];
    let end = take(
        octets,
        position,
        shape.alphabet().as_slice(),
        &[shape.raw(0)],
        &mut read,
    )?;
    Ok((raised(octets, shape, &read[0]), end))
}

/// Reads fields of the shapes, one after another, from bit `position` on. Returns the fields, and the index of the
/// first bit after them.
///
/// # Errors
///
/// The first invalid field and its fault; or the position is after the octets.
///
/// ```
/// use asn1_values::{read_fields, Bits, Field, ReadError, Shape};
/// let shapes = [Shape::Number { width: 3 }, Shape::Octets { count: 1 }];
/// let (fields, end) = read_fields(&[0xB4, 0xA0], 0, &shapes).unwrap();
/// assert_eq!(fields, [Field::Number { value: 5, width: 3 }, Field::Octets(Bits::of(&[0xA5]))]);
/// assert_eq!(end, 11);
/// assert_eq!(read_fields(&[0xB4], 0, &shapes), Err(ReadError::Short { field: 1, bits: 3 }));
/// ```
#[cfg(feature = "alloc")]
pub fn read_fields<'a, 's>(
    octets: &'a [u8],
    position: usize,
    shapes: &[Shape<'s>],
) -> Result<(alloc::vec::Vec<Field<'a, 's>>, usize), ReadError> {
    use alloc::vec::Vec;
    let mut alphabets = Vec::new();
    let mut wanted = Vec::with_capacity(shapes.len());
    for shape in shapes {
        wanted.push(shape.raw(alphabets.len()));
        alphabets.extend(shape.alphabet());
    }
    let mut read = alloc::vec![sys::Field::NONE; shapes.len()];
    let end = take(octets, position, &alphabets, &wanted, &mut read)?;
    let fields = shapes.iter().zip(&read);
    Ok((
        fields
            .map(|(shape, read)| raised(octets, shape, read))
            .collect(),
        end,
    ))
}
