use crate::error::IntegerError;
use crate::sys;

/// Returns how much room is always enough for the decimal text of a number of `octets` octets.
///
/// ```
/// assert_eq!(asn1_values::decimal_room(16), 42);
/// ```
#[must_use]
pub const fn decimal_room(octets: usize) -> usize {
    (octets / 2)
        .saturating_mul(5)
        .saturating_add(2 + 2 * (octets % 2))
}

/// Writes the decimal text of the number that two's complement octets encode to the front of the room, and returns it.
/// [`decimal_room`] says how much room is always enough. The octets need not be the shortest. The time is quadratic in
/// their number past 128 bits, so limit the length of untrusted input.
///
/// # Errors
///
/// `IntegerError::Empty` for no octets, `IntegerError::Room` if the room is too small: less than the text or, for a
/// number that exceeds 128 bits, less than `decimal_room` of its shortest octets.
///
/// ```
/// assert_eq!(asn1_values::write_decimal(&[0xFF, 0x7F], &mut [0; 40]), Ok("-129"));
/// ```
pub fn write_decimal<'a>(octets: &[u8], room: &'a mut [u8]) -> Result<&'a str, IntegerError> {
    let mut count = 0;
    // SAFETY: pointers and lengths are those of slices, of which the mutable one overlaps no other.
    let code = unsafe {
        sys::asn1v_integer_text(
            octets.as_ptr(),
            octets.len(),
            room.as_mut_ptr(),
            room.len(),
            &mut count,
        )
    };
    match code {
        sys::DONE => core::str::from_utf8(&room[..count]).map_err(|_| IntegerError::Decimal),
        sys::EMPTY => Err(IntegerError::Empty),
        _ => Err(IntegerError::Room),
    }
}

/// Returns the decimal text of the number that two's complement octets encode. The time is that of [`write_decimal`].
///
/// # Errors
///
/// `IntegerError::Empty` for no octets.
///
/// ```
/// assert_eq!(asn1_values::decimal(&[0, 0x80]).as_deref(), Ok("128"));
/// let text = asn1_values::decimal(&[0x7F; 20]).unwrap();
/// assert_eq!(text, "727885129180488904360266563744972327436484050815");
/// ```
#[cfg(feature = "alloc")]
pub fn decimal(octets: &[u8]) -> Result<alloc::string::String, IntegerError> {
    let mut room = alloc::vec![0; decimal_room(octets.len())];
    write_decimal(octets, &mut room).map(alloc::string::String::from)
}

/// Writes the shortest two's complement octets of the number of a decimal text, in the form that [`write_decimal`]
/// writes, to the front of the room, and returns them. Half as many octets as the text has, and one more, are always
/// enough. The time is quadratic in the text's length past 128 bits, so limit the length of untrusted input.
///
/// # Errors
///
/// `IntegerError::Decimal` for any other text, such as one with a plus sign or a leading zero. `IntegerError::Room` if
/// the room is too small: less than the octets or, for a number that exceeds 128 bits, less than is always enough.
///
/// ```
/// use asn1_values::{octets_of_decimal, IntegerError};
/// assert_eq!(octets_of_decimal("-129", &mut [0; 17]), Ok(&[0xFF, 0x7F][..]));
/// assert_eq!(octets_of_decimal("+1", &mut [0; 17]), Err(IntegerError::Decimal));
/// let text = "1000000000000000000000000000000000000000000000000";
/// assert_eq!(octets_of_decimal(text, &mut [0; 25]).map(<[u8]>::len), Ok(21));
/// ```
pub fn octets_of_decimal<'a>(text: &str, room: &'a mut [u8]) -> Result<&'a [u8], IntegerError> {
    let mut count = 0;
    // SAFETY: pointers and lengths are those of a text and of a slice, which do not overlap.
    let code = unsafe {
        sys::asn1v_integer_from_text(
            text.as_ptr(),
            text.len(),
            room.as_mut_ptr(),
            room.len(),
            &mut count,
        )
    };
    match code {
        sys::DONE => Ok(&room[..count]),
        sys::ROOM => Err(IntegerError::Room),
        _ => Err(IntegerError::Decimal),
    }
}
