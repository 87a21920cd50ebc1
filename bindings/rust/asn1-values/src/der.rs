use crate::bits::Bits;
use crate::error::DerError;
use crate::sys;

/// The class of a tag (X.690 8.1.2.2).
///
/// ```
/// use asn1_values::{next_element, Class};
/// assert_eq!(next_element(&[0x80, 0]).unwrap().0.class, Class::Context);
/// ```
#[derive(Clone, Copy, Debug, PartialEq, Eq, Hash)]
pub enum Class {
    /// The types of X.680 itself.
    Universal,
    /// Tags of an application.
    Application,
    /// Tags whose meaning depends on the type around them.
    Context,
    /// Tags of a private use.
    Private,
}

/// An element of DER: its tag, and the octets of its contents (X.690 8.1.1).
///
/// ```
/// use asn1_values::{next_element, Element};
/// let (element, rest): (Element<'_>, _) = next_element(&[0x30, 2, 5, 0]).unwrap();
/// assert!(element.constructed && rest.is_empty());
/// assert_eq!(next_element(element.contents).unwrap().0.number, 5);
/// ```
#[derive(Clone, Copy, Debug, PartialEq, Eq, Hash)]
pub struct Element<'a> {
    /// The class of its tag.
    pub class: Class,
    /// Whether its contents are elements.
    pub constructed: bool,
    /// The number of its tag.
    pub number: u64,
    /// Its contents.
    pub contents: &'a [u8],
}

impl Element<'_> {
    /// Returns `true` if its tag is universal and has the number.
    ///
    /// ```
    /// assert!(asn1_values::next_element(&[2, 1, 0]).unwrap().0.is_universal(2));
    /// ```
    #[must_use]
    pub fn is_universal(&self, number: u64) -> bool {
        self.class == Class::Universal && self.number == number
    }
}

fn error_of(code: u32) -> DerError {
    match code {
        sys::SHORT => DerError::Short,
        28 => DerError::NotMinimal,
        29 => DerError::Indefinite,
        30 => DerError::Reserved,
        31 => DerError::TagLarge,
        32 => DerError::Contents,
        _ => DerError::TooMany,
    }
}

/// Returns the element that the octets begin with, and the octets after it. The identifier octets and the length must
/// be minimal; the contents octets are not examined (X.690 8.1, 10.1).
///
/// # Errors
///
/// The first fault; for no octets `DerError::Short`. `DerError::TagLarge` for an element whose tag has a number of
/// more than 64 bits.
///
/// ```
/// use asn1_values::{next_element, DerError};
/// assert_eq!(next_element(&[4, 1, 7, 9]).unwrap().1, [9]);
/// assert_eq!(next_element(&[0x30, 0x80, 0, 0]), Err(DerError::Indefinite));
/// assert_eq!(next_element(&[4, 0x81, 1, 7]), Err(DerError::NotMinimal));
/// ```
pub fn next_element(octets: &[u8]) -> Result<(Element<'_>, &[u8]), DerError> {
    let mut found = sys::Element::NONE;
    // SAFETY: pointer and length are those of a slice, which the element does not overlap.
    let code = unsafe { sys::asn1v_der_next(octets.as_ptr(), octets.len(), 0, &mut found) };
    if code != sys::DONE {
        return Err(error_of(code));
    }
    let element = Element {
        class: match found.class {
            0 => Class::Universal,
            1 => Class::Application,
            2 => Class::Context,
            _ => Class::Private,
        },
        constructed: found.constructed,
        number: found.number,
        contents: &octets[found.first..found.end],
    };
    Ok((element, &octets[found.end..]))
}

/// Decodes the contents of a BOOLEAN (X.690 8.2, 11.1).
///
/// # Errors
///
/// `DerError::Contents`, `DerError::TooMany`.
///
/// ```
/// use asn1_values::{der_boolean, DerError};
/// assert_eq!(der_boolean(&[0xFF]), Ok(true));
/// assert_eq!(der_boolean(&[1]), Err(DerError::Contents));
/// ```
pub fn der_boolean(contents: &[u8]) -> Result<bool, DerError> {
    let mut value = false;
    // SAFETY: pointer and length are those of a slice, which the value does not overlap.
    match unsafe { sys::asn1v_der_boolean(contents.as_ptr(), contents.len(), &mut value) } {
        sys::DONE => Ok(value),
        code => Err(error_of(code)),
    }
}

/// Decodes the contents of a BIT STRING (X.690 8.6, 11.2.1).
///
/// # Errors
///
/// `DerError::Contents`, `DerError::TooMany`.
///
/// ```
/// use asn1_values::{der_bits, Bits, DerError};
/// assert_eq!(der_bits(&[4, 0xA0]), Ok(Bits::new(&[0xA0], 0, 4).unwrap()));
/// assert_eq!(der_bits(&[4, 0xA1]), Err(DerError::Contents));
/// ```
pub fn der_bits(contents: &[u8]) -> Result<Bits<'_>, DerError> {
    let mut count = 0;
    // SAFETY: pointer and length are those of a slice, which the count does not overlap.
    match unsafe { sys::asn1v_der_bit_string(contents.as_ptr(), contents.len(), &mut count) } {
        sys::DONE => Bits::new(contents, 8, count).ok_or(DerError::TooMany),
        code => Err(error_of(code)),
    }
}

/// A time in UTC. The day exists in its month and year.
///
/// ```
/// let time: asn1_values::Time = asn1_values::der_utc_time(b"261126042000Z").unwrap();
/// assert_eq!((time.year, time.month, time.day), (2026, 11, 26));
/// ```
#[derive(Clone, Copy, Debug, PartialEq, Eq, PartialOrd, Ord, Hash)]
pub struct Time {
    /// The year, 0 to 9999.
    pub year: u16,
    /// The month, 1 for January.
    pub month: u8,
    /// The day of the month, from 1 on.
    pub day: u8,
    /// The hour, 0 to 23.
    pub hour: u8,
    /// The minute, 0 to 59.
    pub minute: u8,
    /// The second, 0 to 59.
    pub second: u8,
}

impl Time {
    fn of(time: sys::Time) -> Time {
        Time {
            year: time.year,
            month: time.month,
            day: time.day,
            hour: time.hour,
            minute: time.minute,
            second: time.second,
        }
    }
}

/// Decodes the contents of a UTCTime, in the years 1950 to 2049 (X.690 11.8, RFC 5280 4.1.2.5.1).
///
/// # Errors
///
/// `DerError::Contents`.
///
/// ```
/// use asn1_values::{der_utc_time, DerError};
/// assert_eq!(der_utc_time(b"500101000000Z").unwrap().year, 1950);
/// assert_eq!(der_utc_time(b"500229000000Z"), Err(DerError::Contents));
/// ```
pub fn der_utc_time(contents: &[u8]) -> Result<Time, DerError> {
    let mut time = sys::Time::NONE;
    // SAFETY: pointer and length are those of a slice, which the time does not overlap.
    match unsafe { sys::asn1v_der_utc_time(contents.as_ptr(), contents.len(), &mut time) } {
        sys::DONE => Ok(Time::of(time)),
        code => Err(error_of(code)),
    }
}

/// Decodes the contents of a GeneralizedTime without a fraction of a second (X.690 11.7, RFC 5280 4.1.2.5.2).
///
/// # Errors
///
/// `DerError::Contents`.
///
/// ```
/// assert_eq!(asn1_values::der_generalized_time(b"20500101000000Z").unwrap().year, 2050);
/// ```
pub fn der_generalized_time(contents: &[u8]) -> Result<Time, DerError> {
    let mut time = sys::Time::NONE;
    // SAFETY: pointer and length are those of a slice, which the time does not overlap.
    match unsafe { sys::asn1v_der_generalized_time(contents.as_ptr(), contents.len(), &mut time) } {
        sys::DONE => Ok(Time::of(time)),
        code => Err(error_of(code)),
    }
}
