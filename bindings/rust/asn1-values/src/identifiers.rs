use crate::bits::Bits;
use crate::error::IdentifierError;
use crate::sys;
use core::fmt;

fn refusal(code: u32) -> IdentifierError {
    match code {
        sys::ARC_TOO_LARGE => IdentifierError::ArcTooLarge,
        sys::ARCS => IdentifierError::Arcs,
        sys::ARC_COUNT => IdentifierError::ArcCount,
        sys::TEXT => IdentifierError::Text,
        sys::ROOM | sys::TOO_MANY => IdentifierError::Room,
        _ => IdentifierError::Malformed,
    }
}

/// An object identifier by its contents (X.690 8.19), which may begin at any bit. Its arcs all fit 32 bits.
///
/// ```
/// let identifier = asn1_values::Identifier::new(&[0x2A, 0x86, 0x48]).unwrap();
/// assert_eq!(identifier.to_string(), "1.2.840");
/// ```
#[derive(Clone, Copy, Debug, PartialEq, Eq, PartialOrd, Ord, Hash)]
pub struct Identifier<'a>(Bits<'a>);

impl<'a> Identifier<'a> {
    /// Returns the identifier with these contents.
    ///
    /// # Errors
    ///
    /// Those of [`check_contents`].
    ///
    /// ```
    /// use asn1_values::{Identifier, IdentifierError};
    /// assert!(Identifier::new(&[0x55]).is_ok());
    /// assert_eq!(Identifier::new(&[0x80]), Err(IdentifierError::Malformed));
    /// ```
    pub fn new(contents: &'a [u8]) -> Result<Identifier<'a>, IdentifierError> {
        check_contents(contents)?;
        Ok(Identifier(Bits::of(contents)))
    }

    /// Returns an identifier that the library has read.
    pub(crate) fn read(bits: Bits<'a>) -> Identifier<'a> {
        Identifier(bits)
    }

    /// Returns the contents.
    ///
    /// ```
    /// assert_eq!(asn1_values::Identifier::new(&[0x55]).unwrap().contents().len(), 8);
    /// ```
    #[must_use]
    pub fn contents(&self) -> Bits<'a> {
        self.0
    }

    /// Its arcs, one after another.
    ///
    /// ```
    /// let identifier = asn1_values::Identifier::new(&[0x81, 0x34, 0x03]).unwrap();
    /// assert!(identifier.arcs().eq([2, 100, 3]));
    /// ```
    #[must_use]
    pub fn arcs(&self) -> Arcs<'a> {
        Arcs {
            contents: self.0,
            next: 0,
            second: None,
        }
    }
}

impl fmt::Display for Identifier<'_> {
    fn fmt(&self, f: &mut fmt::Formatter<'_>) -> fmt::Result {
        for (i, arc) in self.arcs().enumerate() {
            let stop = if i == 0 { "" } else { "." };
            write!(f, "{stop}{arc}")?;
        }
        Ok(())
    }
}

/// The arcs of an identifier, by [`Identifier::arcs`].
///
/// ```
/// assert_eq!(asn1_values::Identifier::new(&[0x55, 0x04]).unwrap().arcs().last(), Some(4));
/// ```
#[derive(Clone, Debug)]
pub struct Arcs<'a> {
    contents: Bits<'a>,
    next: usize,
    second: Option<u32>,
}

impl Iterator for Arcs<'_> {
    type Item = u32;

    fn next(&mut self) -> Option<u32> {
        if let Some(second) = self.second.take() {
            return Some(second);
        }
        let first = self.next == 0;
        let mut number = 0;
        loop {
            let octet = self.contents.octet(self.next)?;
            self.next += 1;
            number = number << 7 | u64::from(octet & 0x7F);
            if octet < 128 {
                break;
            }
        }
        if first {
            let x = (number / 40).min(2);
            self.second = Some((number - 40 * x) as u32);
            number = x;
        }
        Some(number as u32)
    }
}

impl core::iter::FusedIterator for Arcs<'_> {}

/// Checks that the octets are the contents of an identifier (X.690 8.19) whose arcs all fit 32 bits.
///
/// # Errors
///
/// `IdentifierError::ArcTooLarge` for contents with a larger arc, otherwise `IdentifierError::Malformed`.
///
/// ```
/// assert!(asn1_values::check_contents(&[0x81, 0x34, 0x03]).is_ok());
/// ```
pub fn check_contents(octets: &[u8]) -> Result<(), IdentifierError> {
    // SAFETY: pointer and length are those of a slice.
    match unsafe { sys::asn1v_oid_check(octets.as_ptr(), octets.len()) } {
        sys::DONE => Ok(()),
        code => Err(refusal(code)),
    }
}

/// Checks that the arcs are those of an identifier (X.660).
///
/// # Errors
///
/// `IdentifierError::Arcs` if they are not.
///
/// ```
/// assert!(asn1_values::check_arcs(&[2, 999]).is_ok());
/// assert!(asn1_values::check_arcs(&[1, 40]).is_err());
/// ```
pub fn check_arcs(arcs: &[u32]) -> Result<(), IdentifierError> {
    // SAFETY: pointer and length are those of a slice.
    match unsafe { sys::asn1v_oid_check_arcs(arcs.as_ptr(), arcs.len()) } {
        sys::DONE => Ok(()),
        code => Err(refusal(code)),
    }
}

/// Writes the contents of the arcs to the front of the room, and returns them. Five octets for each arc are always
/// enough.
///
/// # Errors
///
/// `IdentifierError::Arcs` if they are not those of an identifier, `IdentifierError::ArcCount` for one arc, otherwise
/// `IdentifierError::Room` if the room is too small.
///
/// ```
/// let mut room = [0; 15];
/// assert_eq!(asn1_values::write_contents(&[2, 100, 3], &mut room), Ok(&[0x81, 0x34, 0x03][..]));
/// ```
pub fn write_contents<'a>(arcs: &[u32], room: &'a mut [u8]) -> Result<&'a [u8], IdentifierError> {
    let mut count = 0;
    // SAFETY: pointers and lengths are those of slices, of which the mutable one overlaps no other.
    let code = unsafe {
        sys::asn1v_oid_contents(
            arcs.as_ptr(),
            arcs.len(),
            room.as_mut_ptr(),
            room.len(),
            &mut count,
        )
    };
    match code {
        sys::DONE => Ok(&room[..count]),
        code => Err(refusal(code)),
    }
}

/// Writes the arcs that contents octets encode to the front of the room, and returns them. One arc more than there are
/// octets is always enough.
///
/// # Errors
///
/// Those of [`check_contents`], otherwise `IdentifierError::Room` if the room is too small.
///
/// ```
/// let mut room = [0; 4];
/// assert_eq!(asn1_values::write_arcs(&[0x81, 0x34, 0x03], &mut room), Ok(&[2, 100, 3][..]));
/// ```
pub fn write_arcs<'a>(octets: &[u8], room: &'a mut [u32]) -> Result<&'a [u32], IdentifierError> {
    let mut count = 0;
    // SAFETY: pointers and lengths are those of slices, of which the mutable one overlaps no other.
    let code = unsafe {
        sys::asn1v_oid_arcs(
            octets.as_ptr(),
            octets.len(),
            room.as_mut_ptr(),
            room.len(),
            &mut count,
        )
    };
    match code {
        sys::DONE => Ok(&room[..count]),
        code => Err(refusal(code)),
    }
}

fn text_into(arcs: &[u32], room: &mut [u8], count: &mut usize) -> u32 {
    // SAFETY: pointers and lengths are those of slices, of which the mutable one overlaps no other.
    unsafe {
        sys::asn1v_oid_text(
            arcs.as_ptr(),
            arcs.len(),
            room.as_mut_ptr(),
            room.len(),
            count,
        )
    }
}

fn arcs_into(text: &str, room: &mut [u32], count: &mut usize) -> u32 {
    // SAFETY: pointers and lengths are those of slices, of which the mutable one overlaps no other.
    unsafe {
        sys::asn1v_oid_from_text(
            text.as_ptr(),
            text.len(),
            room.as_mut_ptr(),
            room.len(),
            count,
        )
    }
}

/// Writes the dotted text of the arcs to the front of the room, and returns it. Eleven octets for each arc are always
/// enough.
///
/// # Errors
///
/// `IdentifierError::Arcs` if they are not those of an identifier, otherwise `IdentifierError::Room` if the room is
/// too small.
///
/// ```
/// let mut room = [0; 22];
/// assert_eq!(asn1_values::write_dotted(&[2, 5], &mut room), Ok("2.5"));
/// ```
pub fn write_dotted<'a>(arcs: &[u32], room: &'a mut [u8]) -> Result<&'a str, IdentifierError> {
    let mut count = 0;
    match text_into(arcs, room, &mut count) {
        sys::DONE => core::str::from_utf8(&room[..count]).map_err(|_| IdentifierError::Text),
        code => Err(refusal(code)),
    }
}

/// Writes the arcs of a dotted text to the front of the room, and returns them. Half as many as the text has octets,
/// and one more, are always enough.
///
/// # Errors
///
/// `IdentifierError::Text` for any other text, and for an arc that exceeds 32 bits; otherwise `IdentifierError::Room`
/// if the room is too small.
///
/// ```
/// let mut room = [0; 2];
/// assert_eq!(asn1_values::write_arcs_of_dotted("2.5", &mut room), Ok(&[2, 5][..]));
/// ```
pub fn write_arcs_of_dotted<'a>(
    text: &str,
    room: &'a mut [u32],
) -> Result<&'a [u32], IdentifierError> {
    let mut count = 0;
    match arcs_into(text, room, &mut count) {
        sys::DONE => Ok(&room[..count]),
        code => Err(refusal(code)),
    }
}

/// Returns the dotted text of the arcs.
///
/// # Errors
///
/// `IdentifierError::Arcs` if they are not those of an identifier.
///
/// ```
/// assert_eq!(asn1_values::dotted(&[1, 2, 840, 113549]).as_deref(), Ok("1.2.840.113549"));
/// ```
#[cfg(feature = "alloc")]
pub fn dotted(arcs: &[u32]) -> Result<alloc::string::String, IdentifierError> {
    let mut count = 0;
    match text_into(arcs, &mut [], &mut count) {
        sys::ROOM => {
            write_dotted(arcs, &mut alloc::vec![0; count]).map(alloc::string::String::from)
        }
        code => Err(refusal(code)),
    }
}

/// Returns the arcs of a dotted text.
///
/// # Errors
///
/// `IdentifierError::Text` for any other text, and for an arc that exceeds 32 bits.
///
/// ```
/// assert_eq!(asn1_values::arcs_of_dotted("2.5.4"), Ok(vec![2, 5, 4]));
/// ```
#[cfg(feature = "alloc")]
pub fn arcs_of_dotted(text: &str) -> Result<alloc::vec::Vec<u32>, IdentifierError> {
    let mut count = 0;
    match arcs_into(text, &mut [], &mut count) {
        sys::ROOM => {
            let mut room = alloc::vec![0; count];
            write_arcs_of_dotted(text, &mut room)?;
            Ok(room)
        }
        code => Err(refusal(code)),
    }
}

/// Returns the arcs that contents octets encode.
///
/// # Errors
///
/// Those of [`check_contents`].
///
/// ```
/// assert_eq!(asn1_values::arcs(&[0x81, 0x34, 0x03]), Ok(vec![2, 100, 3]));
/// ```
#[cfg(feature = "alloc")]
pub fn arcs(octets: &[u8]) -> Result<alloc::vec::Vec<u32>, IdentifierError> {
    let mut room = alloc::vec![0; octets.len() + 1];
    let count = write_arcs(octets, &mut room)?.len();
    room.truncate(count);
    Ok(room)
}

/// Returns the contents of the arcs.
///
/// # Errors
///
/// `IdentifierError::Arcs` if they are not those of an identifier, `IdentifierError::ArcCount` for one arc.
///
/// ```
/// assert_eq!(asn1_values::contents(&[2, 100, 3]), Ok(vec![0x81, 0x34, 0x03]));
/// ```
#[cfg(feature = "alloc")]
pub fn contents(arcs: &[u32]) -> Result<alloc::vec::Vec<u8>, IdentifierError> {
    let mut room = alloc::vec![0; 5 * arcs.len()];
    let count = write_contents(arcs, &mut room)?.len();
    room.truncate(count);
    Ok(room)
}
