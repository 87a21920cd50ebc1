use crate::bits::{ordering, Bits};
use crate::error::{BitsError, IntegerError};
use crate::sys;
use core::cmp::Ordering;

/// A whole number of any size: by its value if it fits 128 bits, otherwise by its shortest octets, which are borrowed.
///
/// ```
/// use asn1_values::Integer;
/// let large = [1; 17];
/// assert!(Integer::from(-5) < Integer::from_octets(&large).unwrap());
/// assert_eq!(Integer::from_octets(&[0, 0, 5]), Ok(Integer::from(5)));
/// ```
#[derive(Clone, Copy, Debug, PartialEq, Eq, Hash)]
pub struct Integer<'a>(pub(crate) Form<'a>);

/// Octets are the shortest of their number, and more than sixteen.
#[derive(Clone, Copy, Debug, PartialEq, Eq, Hash)]
pub(crate) enum Form<'a> {
    Value(i128),
    Octets(Bits<'a>),
}

impl From<i128> for Integer<'_> {
    fn from(value: i128) -> Self {
        Integer(Form::Value(value))
    }
}

impl<'a> Integer<'a> {
    /// Returns the number that two's complement octets encode (X.690 8.3), which need not be the shortest.
    ///
    /// # Errors
    ///
    /// `IntegerError::Empty` for no octets.
    ///
    /// ```
    /// use asn1_values::{Integer, IntegerError};
    /// assert_eq!(Integer::from_octets(&[0xFF, 0x7F]).unwrap().value(), Some(-129));
    /// assert_eq!(Integer::from_octets(&[]), Err(IntegerError::Empty));
    /// ```
    pub fn from_octets(octets: &'a [u8]) -> Result<Integer<'a>, IntegerError> {
        let octets = shortest(octets);
        let Some(first) = octets.first() else {
            return Err(IntegerError::Empty);
        };
        if octets.len() > 16 {
            return Ok(Integer(Form::Octets(Bits::of(octets))));
        }
        let sign = if *first < 128 { 0 } else { 0xFF };
        let mut word = [sign; 16];
        word[16 - octets.len()..].copy_from_slice(octets);
        Ok(Integer::from(i128::from_be_bytes(word)))
    }

    /// Returns the number, if it fits 128 bits.
    ///
    /// ```
    /// assert_eq!(asn1_values::Integer::from(7).value(), Some(7));
    /// ```
    #[must_use]
    pub fn value(&self) -> Option<i128> {
        match self.0 {
            Form::Value(value) => Some(value),
            Form::Octets(_) => None,
        }
    }

    /// Returns the number of its shortest octets.
    ///
    /// ```
    /// assert_eq!(asn1_values::Integer::from(128).octet_count(), 2);
    /// ```
    #[must_use]
    pub fn octet_count(&self) -> usize {
        match self.0 {
            Form::Value(value) => shortest(&value.to_be_bytes()).len(),
            Form::Octets(bits) => bits.len() / 8,
        }
    }

    /// Copies its shortest octets to the front of the room, and returns them.
    ///
    /// # Errors
    ///
    /// `IntegerError::Room` if the room is too small.
    ///
    /// ```
    /// let mut room = [0; 4];
    /// assert_eq!(asn1_values::Integer::from(128).octets(&mut room), Ok(&[0, 128][..]));
    /// ```
    pub fn octets<'r>(&self, room: &'r mut [u8]) -> Result<&'r [u8], IntegerError> {
        let copied = match self.0 {
            Form::Value(value) => Bits::of(shortest(&value.to_be_bytes())).copy_octets(room),
            Form::Octets(bits) => bits.copy_octets(room),
        };
        copied.map_err(|_: BitsError| IntegerError::Room)
    }

    fn is_below_zero(&self) -> bool {
        match self.0 {
            Form::Value(value) => value < 0,
            Form::Octets(bits) => bits.number(0, 1) == Some(1),
        }
    }
}

impl Ord for Integer<'_> {
    fn cmp(&self, other: &Self) -> Ordering {
        let below = self.is_below_zero();
        if below != other.is_below_zero() {
            return other.is_below_zero().cmp(&below);
        }
        let (longer, shorter) = if below { (other, self) } else { (self, other) };
        match (&self.0, &other.0) {
            (Form::Value(a), Form::Value(b)) => a.cmp(b),
            (Form::Octets(a), Form::Octets(b)) if a.len() == b.len() => a.cmp(b),
            _ => longer.octet_count().cmp(&shorter.octet_count()),
        }
    }
}

impl PartialOrd for Integer<'_> {
    fn partial_cmp(&self, other: &Self) -> Option<Ordering> {
        Some(self.cmp(other))
    }
}

/// Writes the shortest two's complement octets of the number (X.690 8.3) to the front of the room, and returns them.
///
/// ```
/// assert_eq!(asn1_values::integer_octets(128, &mut [0; 8]), [0x00, 0x80]);
/// ```
#[must_use]
pub fn integer_octets(number: i64, room: &mut [u8; 8]) -> &[u8] {
    let mut count = 0;
    // SAFETY: pointer and length are those of the array, and `count` is storage of its own.
    unsafe { sys::asn1v_integer_from_i64(number, room.as_mut_ptr(), room.len(), &mut count) };
    &room[..count]
}

/// Returns the number that two's complement octets encode, which need not be the shortest.
///
/// # Errors
///
/// `IntegerError::Empty` for no octets, `IntegerError::Overflow` if it does not fit 64 bits.
///
/// ```
/// assert_eq!(asn1_values::integer_from_octets(&[0xFF, 0x7F]), Ok(-129));
/// ```
pub fn integer_from_octets(octets: &[u8]) -> Result<i64, IntegerError> {
    let mut number = 0;
    // SAFETY: pointer and length are those of a slice, and `number` is storage of its own.
    match unsafe { sys::asn1v_integer_to_i64(octets.as_ptr(), octets.len(), &mut number) } {
        sys::DONE => Ok(number),
        sys::EMPTY => Err(IntegerError::Empty),
        _ => Err(IntegerError::Overflow),
    }
}

/// Compares the numbers of two lists of octets of any length.
///
/// # Errors
///
/// `IntegerError::Empty` if either has no octets.
///
/// ```
/// use core::cmp::Ordering;
/// assert_eq!(asn1_values::compare_integers(&[0, 5], &[5]), Ok(Ordering::Equal));
/// ```
pub fn compare_integers(a: &[u8], b: &[u8]) -> Result<Ordering, IntegerError> {
    let mut order = 0;
    // SAFETY: pointers and lengths are those of slices, and `order` is storage of its own.
    match unsafe {
        sys::asn1v_integer_compare(a.as_ptr(), a.len(), b.as_ptr(), b.len(), &mut order)
    } {
        sys::DONE => Ok(ordering(order)),
        _ => Err(IntegerError::Empty),
    }
}

/// Returns `true` if the octets are the shortest of a number (X.690 8.3.2). No octets are not.
///
/// ```
/// assert!(!asn1_values::is_shortest(&[0xFF, 0x80]));
/// ```
#[must_use]
pub fn is_shortest(octets: &[u8]) -> bool {
    // SAFETY: pointer and length are those of a slice.
    unsafe { sys::asn1v_integer_is_shortest(octets.as_ptr(), octets.len()) }
}

/// Returns the shortest octets of the same number, which are the last ones. Of no octets these are none.
///
/// ```
/// assert_eq!(asn1_values::shortest(&[0, 0, 0x7F]), [0x7F]);
/// ```
#[must_use]
pub fn shortest(octets: &[u8]) -> &[u8] {
    // SAFETY: pointer and length are those of a slice.
    let redundant = unsafe { sys::asn1v_integer_redundant(octets.as_ptr(), octets.len()) };
    &octets[redundant..]
}
