use crate::alphabets::StringKind;
use crate::error::StringError;
use crate::sys;

/// Returns the number of characters of a string's octets, valid or not.
///
/// # Errors
///
/// `StringError::Odd` for an odd number of octets of a `BMPString`.
///
/// ```
/// use asn1_values::{count_characters, StringKind};
/// assert_eq!(count_characters(StringKind::Bmp, &[0, 65, 4, 16]), Ok(2));
/// ```
pub fn count_characters(kind: StringKind, octets: &[u8]) -> Result<usize, StringError> {
    let mut count = 0;
    // SAFETY: pointer and length are those of a slice, and `count` is storage of its own.
    match unsafe { sys::asn1v_string_count(kind as u32, octets.as_ptr(), octets.len(), &mut count) }
    {
        sys::DONE => Ok(count),
        _ => Err(StringError::Odd),
    }
}

/// Returns what a call wrote, or its error.
struct Answer {
    code: u32,
    count: usize,
    place: usize,
    character: u32,
}

impl Answer {
    fn error(&self) -> StringError {
        let (place, character) = (self.place, self.character);
        match self.code {
            sys::NO_UNICODE => StringError::NoUnicode,
            sys::ODD => StringError::Odd,
            sys::CHARACTER => StringError::Character { place, character },
            sys::SURROGATE => StringError::Surrogate { place, character },
            sys::ROOM => StringError::Room,
            _ => StringError::TooMany,
        }
    }
}

fn to_utf8(kind: StringKind, octets: &[u8], room: &mut [u8]) -> Answer {
    let (mut count, mut place, mut character) = (0, 0, 0);
    // SAFETY: pointers and lengths are those of slices, of which the mutable one overlaps no other, and the last three
    // have storage of their own.
    let code = unsafe {
        sys::asn1v_string_to_utf8(
            kind as u32,
            octets.as_ptr(),
            octets.len(),
            room.as_mut_ptr(),
            room.len(),
            &mut count,
            &mut place,
            &mut character,
        )
    };
    Answer {
        code,
        count,
        place,
        character,
    }
}

fn from_utf8(kind: StringKind, text: &str, room: &mut [u8]) -> Answer {
    let (mut count, mut place, mut character) = (0, 0, 0);
    // SAFETY: pointers and lengths are those of a text and of a slice, which do not overlap, and the last three are
    // storage of their own.
    let code = unsafe {
        sys::asn1v_string_from_utf8(
            kind as u32,
            text.as_ptr(),
            text.len(),
            room.as_mut_ptr(),
            room.len(),
            &mut count,
            &mut place,
            &mut character,
        )
    };
    Answer {
        code,
        count,
        place,
        character,
    }
}

/// Writes the characters of a string's octets as text to the front of the room, and returns it. Three octets for each
/// character are always enough.
///
/// # Errors
///
/// `StringError::NoUnicode` for the three strings whose characters are not those of Unicode, `StringError::Odd`, the
/// first `StringError::Character` or `StringError::Surrogate`, `StringError::TooMany`, otherwise `StringError::Room`
/// if the room is too small.
///
/// ```
/// use asn1_values::{write_string_to_utf8, StringKind};
/// let mut room = [0; 6];
/// assert_eq!(write_string_to_utf8(StringKind::Bmp, &[0, 65, 0x20, 0xAC], &mut room), Ok("A\u{20AC}"));
/// ```
pub fn write_string_to_utf8<'a>(
    kind: StringKind,
    octets: &[u8],
    room: &'a mut [u8],
) -> Result<&'a str, StringError> {
    let answer = to_utf8(kind, octets, room);
    if answer.code != sys::DONE {
        return Err(answer.error());
    }
    core::str::from_utf8(&room[..answer.count]).map_err(|_| StringError::NoUnicode)
}

/// Writes the octets of a string with the characters of a text to the front of the room, and returns them. As many as
/// the text has are always enough, and for a `BMPString` twice as many.
///
/// # Errors
///
/// `StringError::NoUnicode` for the three strings whose characters are not those of Unicode, the first
/// `StringError::Character` that is not in the set, `StringError::TooMany`, otherwise `StringError::Room` if the room
/// is too small.
///
/// ```
/// use asn1_values::{write_string_from_utf8, StringError, StringKind};
/// let mut room = [0; 4];
/// assert_eq!(write_string_from_utf8(StringKind::Bmp, "A", &mut room), Ok(&[0, 65][..]));
/// let wrong = StringError::Character { place: 1, character: 0x2A };
/// assert_eq!(write_string_from_utf8(StringKind::Printable, "a*", &mut room), Err(wrong));
/// ```
pub fn write_string_from_utf8<'a>(
    kind: StringKind,
    text: &str,
    room: &'a mut [u8],
) -> Result<&'a [u8], StringError> {
    let answer = from_utf8(kind, text, room);
    if answer.code != sys::DONE {
        return Err(answer.error());
    }
    Ok(&room[..answer.count])
}

/// Returns the characters of a string's octets as a text.
///
/// # Errors
///
/// Those of [`write_string_to_utf8`], except `StringError::Room`.
///
/// ```
/// use asn1_values::{string_to_utf8, StringError, StringKind};
/// assert_eq!(string_to_utf8(StringKind::Ia5, b"ab").as_deref(), Ok("ab"));
/// let wrong = StringError::Surrogate { place: 0, character: 0xD800 };
/// assert_eq!(string_to_utf8(StringKind::Bmp, &[0xD8, 0]), Err(wrong));
/// ```
#[cfg(feature = "alloc")]
pub fn string_to_utf8(
    kind: StringKind,
    octets: &[u8],
) -> Result<alloc::string::String, StringError> {
    let answer = to_utf8(kind, octets, &mut []);
    let mut room = match answer.code {
        sys::DONE => alloc::vec::Vec::new(),
        sys::ROOM => alloc::vec![0; answer.count],
        _ => return Err(answer.error()),
    };
    write_string_to_utf8(kind, octets, &mut room).map(alloc::string::String::from)
}

/// Returns the octets of a string with the characters of a text.
///
/// # Errors
///
/// Those of [`write_string_from_utf8`], except `StringError::Room`.
///
/// ```
/// use asn1_values::{string_from_utf8, StringKind};
/// assert_eq!(string_from_utf8(StringKind::Bmp, "A\u{20AC}"), Ok(vec![0, 65, 0x20, 0xAC]));
/// ```
#[cfg(feature = "alloc")]
pub fn string_from_utf8(kind: StringKind, text: &str) -> Result<alloc::vec::Vec<u8>, StringError> {
    let answer = from_utf8(kind, text, &mut []);
    let mut room = match answer.code {
        sys::DONE => alloc::vec::Vec::new(),
        sys::ROOM => alloc::vec![0; answer.count],
        _ => return Err(answer.error()),
    };
    write_string_from_utf8(kind, text, &mut room)?;
    Ok(room)
}
