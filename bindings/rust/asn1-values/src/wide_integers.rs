use crate::error::IntegerError;
use crate::sys::{self, Words};

fn wrong(code: u32) -> IntegerError {
    match code {
        sys::EMPTY => IntegerError::Empty,
        _ => IntegerError::Overflow,
    }
}

/// Writes the shortest two's complement octets of the number (X.690 8.3) to the front of the room, and returns them.
///
/// ```
/// assert_eq!(asn1_values::u64_octets(128, &mut [0; 9]), [0x00, 0x80]);
/// ```
#[must_use]
pub fn u64_octets(number: u64, room: &mut [u8; 9]) -> &[u8] {
    let mut count = 0;
    // SAFETY: pointer and length are those of the array, and `count` is storage of its own.
    unsafe { sys::asn1v_integer_from_u64(number, room.as_mut_ptr(), room.len(), &mut count) };
    &room[..count]
}

/// Returns the number that two's complement octets encode, which need not be the shortest.
///
/// # Errors
///
/// `IntegerError::Empty` for no octets, `IntegerError::Overflow` if it does not fit.
///
/// ```
/// use asn1_values::IntegerError;
/// assert_eq!(asn1_values::u64_from_octets(&[0, 0x80]), Ok(128));
/// assert_eq!(asn1_values::u64_from_octets(&[0x80]), Err(IntegerError::Overflow));
/// ```
pub fn u64_from_octets(octets: &[u8]) -> Result<u64, IntegerError> {
    let mut number = 0;
    // SAFETY: pointer and length are those of a slice, and `number` is storage of its own.
    match unsafe { sys::asn1v_integer_to_u64(octets.as_ptr(), octets.len(), &mut number) } {
        sys::DONE => Ok(number),
        code => Err(wrong(code)),
    }
}

/// Writes a signed number of 128 bits as [`u64_octets`] does.
///
/// ```
/// assert_eq!(asn1_values::i128_octets(-129, &mut [0; 16]), [0xFF, 0x7F]);
/// ```
#[must_use]
pub fn i128_octets(number: i128, room: &mut [u8; 16]) -> &[u8] {
    let words = Words::of(number as u128);
    let mut count = 0;
    // SAFETY: pointer and length are those of the array, `words` lives through the call, and `count` is storage of its
    // own.
    unsafe { sys::asn1v_integer_from_i128(&words, room.as_mut_ptr(), room.len(), &mut count) };
    &room[..count]
}

/// Reads a signed number of 128 bits as [`u64_from_octets`] does.
///
/// # Errors
///
/// Those of [`u64_from_octets`].
///
/// ```
/// assert_eq!(asn1_values::i128_from_octets(&[0xFF, 0x7F]), Ok(-129));
/// ```
pub fn i128_from_octets(octets: &[u8]) -> Result<i128, IntegerError> {
    let mut number = Words::ZERO;
    // SAFETY: pointer and length are those of a slice, and `number` is storage of its own.
    match unsafe { sys::asn1v_integer_to_i128(octets.as_ptr(), octets.len(), &mut number) } {
        sys::DONE => Ok(number.number() as i128),
        code => Err(wrong(code)),
    }
}

/// Writes an unsigned number of 128 bits as [`u64_octets`] does.
///
/// ```
/// assert_eq!(asn1_values::u128_octets(u128::MAX, &mut [0; 17]).len(), 17);
/// ```
#[must_use]
pub fn u128_octets(number: u128, room: &mut [u8; 17]) -> &[u8] {
    let words = Words::of(number);
    let mut count = 0;
    // SAFETY: pointer and length are those of the array, `words` lives through the call, and `count` is storage of its
    // own.
    unsafe { sys::asn1v_integer_from_u128(&words, room.as_mut_ptr(), room.len(), &mut count) };
    &room[..count]
}

/// Reads an unsigned number of 128 bits as [`u64_from_octets`] does.
///
/// # Errors
///
/// Those of [`u64_from_octets`].
///
/// ```
/// assert_eq!(asn1_values::u128_from_octets(&[0, 0xFF]), Ok(255));
/// ```
pub fn u128_from_octets(octets: &[u8]) -> Result<u128, IntegerError> {
    let mut number = Words::ZERO;
    // SAFETY: pointer and length are those of a slice, and `number` is storage of its own.
    match unsafe { sys::asn1v_integer_to_u128(octets.as_ptr(), octets.len(), &mut number) } {
        sys::DONE => Ok(number.number()),
        code => Err(wrong(code)),
    }
}
