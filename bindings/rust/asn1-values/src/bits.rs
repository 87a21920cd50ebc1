use crate::error::BitsError;
use crate::sys::{self, Words};
use core::cmp::Ordering;
use core::hash::{Hash, Hasher};

pub(crate) fn ordering(order: i32) -> Ordering {
    order.cmp(&0)
}

/// A view of some bits of octets, which may begin at any bit. Two views are equal if their lists of bits are. They are
/// ordered by the first bit that differs, and otherwise by length.
///
/// ```
/// use asn1_values::Bits;
/// let bits = Bits::new(&[0x5A, 0x5B], 4, 8).unwrap();
/// assert_eq!(bits, Bits::of(&[0xA5]));
/// assert!(Bits::new(&[0x5A], 1, 8).is_none());
/// ```
#[derive(Clone, Copy, Debug)]
pub struct Bits<'a> {
    octets: &'a [u8],
    first: usize,
    length: usize,
}

impl<'a> Bits<'a> {
    /// Returns a view of `length` bits of the octets, from bit `first` on, or `None` if the octets end before.
    ///
    /// ```
    /// use asn1_values::Bits;
    /// assert_eq!(Bits::new(&[0x0F], 4, 4).unwrap().number(0, 4), Some(15));
    /// assert!(Bits::new(&[0x0F], usize::MAX, 2).is_none());
    /// ```
    #[must_use]
    pub fn new(octets: &'a [u8], first: usize, length: usize) -> Option<Bits<'a>> {
        if first as u128 + length as u128 > 8 * octets.len() as u128 {
            return None;
        }
        Some(Bits {
            octets,
            first,
            length,
        })
    }

    /// Returns a view of all bits of the octets, or of as many as `usize` counts.
    ///
    /// ```
    /// assert_eq!(asn1_values::Bits::of(&[0, 1]).len(), 16);
    /// ```
    #[must_use]
    pub fn of(octets: &'a [u8]) -> Bits<'a> {
        Bits {
            octets,
            first: 0,
            length: octets.len().saturating_mul(8),
        }
    }

    /// The number of bits.
    ///
    /// ```
    /// assert_eq!(asn1_values::Bits::new(&[0xFF], 1, 5).unwrap().len(), 5);
    /// ```
    #[must_use]
    pub fn len(&self) -> usize {
        self.length
    }

    /// Returns `true` if there are no bits.
    ///
    /// ```
    /// assert!(asn1_values::Bits::of(&[]).is_empty());
    /// ```
    #[must_use]
    pub fn is_empty(&self) -> bool {
        self.length == 0
    }

    /// Returns the octets that have the bits.
    ///
    /// ```
    /// assert_eq!(asn1_values::Bits::new(&[1, 2], 3, 4).unwrap().storage(), [1, 2]);
    /// ```
    #[must_use]
    pub fn storage(&self) -> &'a [u8] {
        self.octets
    }

    /// Returns the index of the first bit in the octets.
    ///
    /// ```
    /// assert_eq!(asn1_values::Bits::new(&[1, 2], 3, 4).unwrap().first(), 3);
    /// ```
    #[must_use]
    pub fn first(&self) -> usize {
        self.first
    }

    /// Returns a view of `length` of these bits, from bit `from` on, or `None` if they end before.
    ///
    /// ```
    /// use asn1_values::Bits;
    /// assert_eq!(Bits::of(&[0xA5]).part(4, 4), Bits::new(&[0x05], 4, 4));
    /// ```
    #[must_use]
    pub fn part(&self, from: usize, length: usize) -> Option<Bits<'a>> {
        if from as u128 + length as u128 > self.length as u128 {
            return None;
        }
        Bits::new(self.octets, self.first + from, length)
    }

    /// Returns the number of `width` bits from bit `from` on, or `None` if these bits do not exist or are more than
    /// 128.
    ///
    /// ```
    /// assert_eq!(asn1_values::Bits::of(&[0xA5]).number(4, 4), Some(5));
    /// ```
    #[must_use]
    pub fn number(&self, from: usize, width: usize) -> Option<u128> {
        if from.checked_add(width)? > self.length {
            return None;
        }
        read_bits(self.octets, self.first.checked_add(from)?, width).ok()
    }

    /// Returns the octet of the bits from `8 * i` on, or `None` if they end before.
    ///
    /// ```
    /// assert_eq!(asn1_values::Bits::new(&[0x5A, 0x5B], 4, 8).unwrap().octet(0), Some(0xA5));
    /// ```
    #[must_use]
    pub fn octet(&self, i: usize) -> Option<u8> {
        Some(self.number(i.checked_mul(8)?, 8)? as u8)
    }

    /// Copies the whole octets of these bits to the front of the room, and returns them.
    ///
    /// # Errors
    ///
    /// `BitsError::Room` if the room is too small.
    ///
    /// ```
    /// use asn1_values::Bits;
    /// let mut room = [0; 4];
    /// assert_eq!(Bits::new(&[0x5A, 0x5B], 4, 8).unwrap().copy_octets(&mut room), Ok(&[0xA5][..]));
    /// ```
    pub fn copy_octets<'r>(&self, room: &'r mut [u8]) -> Result<&'r [u8], BitsError> {
        let count = self.length / 8;
        // SAFETY: pointers and lengths are those of slices, of which the mutable one overlaps no other.
        let code = unsafe {
            sys::asn1v_octets_at(
                self.octets.as_ptr(),
                self.octets.len(),
                self.first,
                count,
                room.as_mut_ptr(),
                room.len(),
            )
        };
        match code {
            sys::DONE => Ok(&room[..count]),
            sys::ROOM => Err(BitsError::Room),
            _ => Err(BitsError::Outside),
        }
    }

    /// Returns the whole octets of these bits.
    ///
    /// ```
    /// assert_eq!(asn1_values::Bits::new(&[0x5A, 0x5B], 4, 8).unwrap().to_octets(), [0xA5]);
    /// ```
    #[cfg(feature = "alloc")]
    #[must_use]
    pub fn to_octets(&self) -> alloc::vec::Vec<u8> {
        let mut room = alloc::vec![0; self.length / 8];
        // The room has as many octets as there are, and the bits lie within their own.
        let _ = self.copy_octets(&mut room);
        room
    }
}

impl Ord for Bits<'_> {
    fn cmp(&self, other: &Self) -> Ordering {
        let mut order = 0;
        // SAFETY: pointers and lengths are those of slices, and `order` is storage of its own. Bits lie within their
        // octets, so the answer is always `DONE`.
        unsafe {
            sys::asn1v_compare_bits(
                self.octets.as_ptr(),
                self.octets.len(),
                self.first,
                self.length,
                other.octets.as_ptr(),
                other.octets.len(),
                other.first,
                other.length,
                &mut order,
            )
        };
        ordering(order)
    }
}

impl PartialOrd for Bits<'_> {
    fn partial_cmp(&self, other: &Self) -> Option<Ordering> {
        Some(self.cmp(other))
    }
}

impl PartialEq for Bits<'_> {
    fn eq(&self, other: &Self) -> bool {
        self.cmp(other) == Ordering::Equal
    }
}

impl Eq for Bits<'_> {}

impl Hash for Bits<'_> {
    fn hash<H: Hasher>(&self, state: &mut H) {
        self.length.hash(state);
        let mut at = 0;
        while at < self.length {
            let width = (self.length - at).min(128);
            self.number(at, width).hash(state);
            at += width;
        }
    }
}

/// Returns the number of the `width` bits from bit `position` on, most significant first. `width` is at most 128.
///
/// # Errors
///
/// `BitsError::Width` for a width over 128, otherwise `BitsError::Outside` if the octets end before.
///
/// ```
/// assert_eq!(asn1_values::read_bits(&[0xB4, 0xA0], 3, 8), Ok(0xA5));
/// ```
pub fn read_bits(octets: &[u8], position: usize, width: usize) -> Result<u128, BitsError> {
    let mut value = Words::ZERO;
    // SAFETY: pointer and length are those of a slice, and `value` is storage of its own.
    match unsafe {
        sys::asn1v_read_u128(octets.as_ptr(), octets.len(), position, width, &mut value)
    } {
        sys::DONE => Ok(value.number()),
        sys::WIDTH => Err(BitsError::Width),
        _ => Err(BitsError::Outside),
    }
}

/// ORs the bits into the target from its bit `position` on. Every other bit of the target is unchanged. If the
/// target's bits are zeros, this copies.
///
/// # Errors
///
/// `BitsError::Outside` if the target ends before; then nothing has changed.
///
/// ```
/// use asn1_values::{or_bits, Bits};
/// let mut message = [0; 2];
/// or_bits(&mut message, 3, Bits::of(&[0xA5])).unwrap();
/// assert_eq!(message, [0x14, 0xA0]);
/// ```
pub fn or_bits(target: &mut [u8], position: usize, source: Bits<'_>) -> Result<(), BitsError> {
    // SAFETY: pointers and lengths are those of slices, of which the mutable one overlaps no other.
    let code = unsafe {
        sys::asn1v_or_bits(
            target.as_mut_ptr(),
            target.len(),
            position,
            source.octets.as_ptr(),
            source.octets.len(),
            source.first,
            source.length,
        )
    };
    match code {
        sys::DONE => Ok(()),
        _ => Err(BitsError::Outside),
    }
}

/// ORs the `width` lowest binary digits of the number, at most 128, into the target from bit `position` on. Every
/// other bit of the target is unchanged.
///
/// # Errors
///
/// `BitsError::Width` for a width over 128, `BitsError::Overflow` for a number that does not fit the width, otherwise
/// `BitsError::Outside` if the target ends before; then nothing has changed.
///
/// ```
/// let mut message = [0x80, 0];
/// asn1_values::or_number(&mut message, 1, 5, 3).unwrap();
/// assert_eq!(message, [0xD0, 0]);
/// ```
pub fn or_number(
    target: &mut [u8],
    position: usize,
    value: u128,
    width: usize,
) -> Result<(), BitsError> {
    let words = Words::of(value);
    // SAFETY: pointer and length are those of a slice, and `words` is storage of its own.
    let code =
        unsafe { sys::asn1v_or_number(target.as_mut_ptr(), target.len(), position, &words, width) };
    match code {
        sys::DONE => Ok(()),
        sys::WIDTH => Err(BitsError::Width),
        sys::OVERFLOW => Err(BitsError::Overflow),
        _ => Err(BitsError::Outside),
    }
}
