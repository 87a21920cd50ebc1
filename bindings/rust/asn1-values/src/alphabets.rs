use crate::error::{AlphabetError, StringError};
use crate::sys;

/// The eight restricted character strings (X.680 41).
///
/// ```
/// assert!(asn1_values::check_string(asn1_values::StringKind::Numeric, b"12 3").is_ok());
/// ```
#[derive(Clone, Copy, Debug, PartialEq, Eq, PartialOrd, Ord, Hash)]
#[repr(u32)]
pub enum StringKind {
    /// `BMPString`.
    Bmp = 0,
    /// `GeneralString`.
    General = 1,
    /// `GraphicString`.
    Graphic = 2,
    /// `IA5String`.
    Ia5 = 3,
    /// `NumericString`.
    Numeric = 4,
    /// `PrintableString`.
    Printable = 5,
    /// `TeletexString`.
    Teletex = 6,
    /// `VisibleString`.
    Visible = 7,
}

/// Checks that the octets are the contents of the string (X.690 8.23): one octet a character, two in `BMPString`.
///
/// # Errors
///
/// `StringError::Odd` for an odd number of octets of a `BMPString`, otherwise `StringError::Character` with the first
/// character that is not in the set, and its index.
///
/// ```
/// use asn1_values::{check_string, StringError, StringKind};
/// let wrong = StringError::Character { place: 1, character: 42 };
/// assert_eq!(check_string(StringKind::Printable, b"a*"), Err(wrong));
/// ```
pub fn check_string(kind: StringKind, octets: &[u8]) -> Result<(), StringError> {
    let mut place = 0;
    let mut character = 0;
    // SAFETY: pointer and length are those of a slice, and the other two have storage of their own.
    let code = unsafe {
        sys::asn1v_string_check(
            kind as u32,
            octets.as_ptr(),
            octets.len(),
            &mut place,
            &mut character,
        )
    };
    match code {
        sys::DONE => Ok(()),
        sys::CHARACTER => Err(StringError::Character { place, character }),
        _ => Err(StringError::Odd),
    }
}

/// Returns the characters of a string's octets, one octet each, two in `BMPString`.
///
/// # Errors
///
/// Those of [`check_string`].
///
/// ```
/// use asn1_values::{characters, StringKind};
/// let read: Vec<u32> = characters(StringKind::Bmp, &[0, 65, 4, 16]).unwrap().collect();
/// assert_eq!(read, [0x41, 0x410]);
/// ```
pub fn characters(kind: StringKind, octets: &[u8]) -> Result<Characters<'_>, StringError> {
    check_string(kind, octets)?;
    let size = if kind == StringKind::Bmp { 2 } else { 1 };
    Ok(Characters(octets.chunks_exact(size)))
}

/// The characters of a string, by their numbers. [`characters`] returns it.
///
/// ```
/// use asn1_values::{characters, StringKind};
/// assert_eq!(characters(StringKind::Ia5, b"ab").unwrap().len(), 2);
/// ```
#[derive(Clone, Debug)]
pub struct Characters<'a>(core::slice::ChunksExact<'a, u8>);

impl Iterator for Characters<'_> {
    type Item = u32;

    fn next(&mut self) -> Option<u32> {
        let octets = self.0.next()?;
        Some(octets.iter().fold(0, |n, o| n * 256 + u32::from(*o)))
    }

    fn size_hint(&self) -> (usize, Option<usize>) {
        self.0.size_hint()
    }
}

impl ExactSizeIterator for Characters<'_> {}

impl core::iter::FusedIterator for Characters<'_> {}

/// The alphabet of a string (X.691 30.5), prepared once.
///
/// ```
/// use asn1_values::{Alphabet, StringKind};
/// let two = Alphabet::new(StringKind::Ia5, Some(&[97, 98]), false).unwrap();
/// assert_eq!((two.width(), two.encode(98), two.decode(0)), (1, Ok(1), Ok(97)));
/// ```
#[derive(Clone, Copy, Debug, PartialEq, Eq, Hash)]
pub struct Alphabet<'s> {
    kind: StringKind,
    permitted: Option<&'s [u32]>,
    aligned: bool,
}

impl<'s> Alphabet<'s> {
    /// Prepares the alphabet of a string, or of a permitted set of its characters. If it is aligned, the width is
    /// rounded up to a power of two.
    ///
    /// # Errors
    ///
    /// `AlphabetError::Set` for a set of more than 2 to the power of 32 characters.
    ///
    /// ```
    /// use asn1_values::{Alphabet, StringKind};
    /// assert_eq!(Alphabet::new(StringKind::Numeric, None, false).unwrap().width(), 4);
    /// ```
    pub fn new(
        kind: StringKind,
        permitted: Option<&'s [u32]>,
        aligned: bool,
    ) -> Result<Alphabet<'s>, AlphabetError> {
        let alphabet = Alphabet {
            kind,
            permitted,
            aligned,
        };
        let mut raw = alphabet.raw();
        // SAFETY: pointer and length are those of a slice, and `raw` is storage of its own.
        let code = unsafe {
            sys::asn1v_alphabet_new(
                raw.kind,
                raw.permitted,
                raw.set,
                raw.set_count,
                raw.aligned,
                &mut raw,
            )
        };
        match code {
            sys::DONE => Ok(alphabet),
            _ => Err(AlphabetError::Set),
        }
    }

    /// As `asn1v_alphabet_new` fills it.
    pub(crate) fn raw(&self) -> sys::Alphabet {
        let set = self.permitted.unwrap_or(&[]);
        sys::Alphabet {
            kind: self.kind as u32,
            permitted: self.permitted.is_some(),
            aligned: self.aligned,
            set: set.as_ptr(),
            set_count: set.len(),
        }
    }

    /// Returns the code of the character, which fits the width.
    ///
    /// # Errors
    ///
    /// `AlphabetError::Character` if it has none.
    ///
    /// ```
    /// use asn1_values::{Alphabet, AlphabetError, StringKind};
    /// let digits = Alphabet::new(StringKind::Numeric, None, false).unwrap();
    /// assert_eq!(digits.encode(0x20), Ok(0));
    /// assert_eq!(digits.encode(97), Err(AlphabetError::Character(97)));
    /// ```
    pub fn encode(&self, character: u32) -> Result<u32, AlphabetError> {
        let raw = self.raw();
        let mut code = 0;
        // SAFETY: `raw` refers to a slice that lives as long as `self`, and `code` is storage of its own.
        match unsafe { sys::asn1v_alphabet_encode(&raw, character, &mut code) } {
            sys::DONE => Ok(code),
            _ => Err(AlphabetError::Character(character)),
        }
    }

    /// Returns the character of the code.
    ///
    /// # Errors
    ///
    /// `AlphabetError::Code` if it is the code of no character.
    ///
    /// ```
    /// use asn1_values::{Alphabet, AlphabetError, StringKind};
    /// let digits = Alphabet::new(StringKind::Numeric, None, false).unwrap();
    /// assert_eq!((digits.decode(10), digits.decode(11)), (Ok(57), Err(AlphabetError::Code(11))));
    /// ```
    pub fn decode(&self, code: u32) -> Result<u32, AlphabetError> {
        let raw = self.raw();
        let mut character = 0;
        // SAFETY: `raw` refers to a slice that lives as long as `self`, and `character` is storage of its own.
        match unsafe { sys::asn1v_alphabet_decode(&raw, code, &mut character) } {
            sys::DONE => Ok(character),
            _ => Err(AlphabetError::Code(code)),
        }
    }

    /// Returns how many bits each code takes, at most 32.
    ///
    /// ```
    /// use asn1_values::{Alphabet, StringKind};
    /// assert_eq!(Alphabet::new(StringKind::Visible, None, false).unwrap().width(), 7);
    /// ```
    #[must_use]
    pub fn width(&self) -> usize {
        let raw = self.raw();
        let mut width = 0;
        // SAFETY: `raw` refers to a slice that lives as long as `self`, and `width` is storage of its own. `new`
        // checked that it is an alphabet, so the result is always `DONE`.
        unsafe { sys::asn1v_alphabet_width(&raw, &mut width) };
        width
    }
}
