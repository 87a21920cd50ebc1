//! What the sources of this crate use of Rattle's library that Rust's lacks: vectors and strings
//! whose growth can fail, and texts of numbers.

use alloc::vec;
use core::fmt;
use core::ops::{Deref, DerefMut};

/// The program's allocator.
#[derive(Clone, Copy, Debug)]
pub struct Global;

/// An error: out of memory.
#[derive(Clone, Copy, Debug, PartialEq, Eq, PartialOrd, Ord, Hash)]
pub struct AllocError;

impl fmt::Display for AllocError {
    fn fmt(&self, f: &mut fmt::Formatter<'_>) -> fmt::Result {
        f.write_str("out of memory")
    }
}

impl core::error::Error for AllocError {}

impl From<AllocError> for fmt::Error {
    fn from(_: AllocError) -> fmt::Error {
        fmt::Error
    }
}

/// An error: out of memory for a value, which it has.
#[derive(Clone, Copy, Debug)]
pub struct AllocFailed<T>(pub T);

impl<T> From<AllocFailed<T>> for AllocError {
    fn from(_: AllocFailed<T>) -> AllocError {
        AllocError
    }
}

/// A copy that can fail.
pub trait Copied: Sized {
    /// Returns a copy.
    fn clone(&self) -> Result<Self, AllocError>;
}

/// A text.
pub trait AsStr {
    /// Returns the text.
    fn as_str(&self) -> &str;
}

impl AsStr for str {
    fn as_str(&self) -> &str {
        self
    }
}

/// What has items one after another.
pub trait AsSlice<T> {
    /// Returns the items.
    fn as_slice(&self) -> &[T];
}

/// A vector whose growth can fail.
#[derive(Debug, PartialEq, Eq, PartialOrd, Ord, Hash)]
pub struct Vec<T>(vec::Vec<T>);

impl<T> Vec<T> {
    /// Returns an empty vector.
    pub fn new(_alloc: Global) -> Vec<T> {
        Vec(vec::Vec::new())
    }

    /// Makes room for `more` items after its own.
    pub fn reserve(&mut self, more: usize) -> Result<(), AllocError> {
        self.0.try_reserve(more).map_err(|_| AllocError)
    }

    /// Returns an empty vector with room for `count` items.
    pub fn with_capacity(alloc: Global, count: usize) -> Result<Vec<T>, AllocError> {
        let mut made = Vec::new(alloc);
        made.reserve(count)?;
        Ok(made)
    }

    /// Appends an item.
    pub fn push(&mut self, item: T) -> Result<(), AllocFailed<T>> {
        if self.reserve(1).is_err() {
            return Err(AllocFailed(item));
        }
        self.0.push(item);
        Ok(())
    }

    /// Appends an item, for which there is room.
    pub fn push_reserved(&mut self, item: T) {
        self.0.push(item);
    }

    /// Returns the allocator.
    pub fn allocator(&self) -> &Global {
        &Global
    }

    /// Returns the last item, and removes it.
    pub fn pop(&mut self) -> Option<T> {
        self.0.pop()
    }

    /// Removes the items from an index on.
    pub fn truncate(&mut self, len: usize) {
        self.0.truncate(len);
    }

    /// Removes all items.
    pub fn clear(&mut self) {
        self.0.clear();
    }

    /// Returns for how many items there is room.
    pub fn capacity(&self) -> usize {
        self.0.capacity()
    }

    /// Returns the items.
    pub fn as_slice(&self) -> &[T] {
        &self.0
    }

    /// Returns the items, which may be changed.
    pub fn as_mut_slice(&mut self) -> &mut [T] {
        &mut self.0
    }

    /// Sorts the items. Equal ones stay in their order.
    pub fn sort(&mut self) -> Result<(), AllocError>
    where
        T: Ord,
    {
        self.0.sort();
        Ok(())
    }

    /// Sorts the items by a key. Those of equal keys stay in their order.
    pub fn sort_by_key<K: Ord>(&mut self, key: impl FnMut(&T) -> K) -> Result<(), AllocError> {
        self.0.sort_by_key(key);
        Ok(())
    }

    /// Returns the items as a vector of Rust's library.
    pub fn into_vec(self) -> vec::Vec<T> {
        self.0
    }
}

impl<T: Clone> Vec<T> {
    /// Returns a vector of copies of items.
    pub fn from_slice(alloc: Global, items: &[T]) -> Result<Vec<T>, AllocError> {
        let mut made = Vec::new(alloc);
        made.extend_from_slice(items)?;
        Ok(made)
    }

    /// Returns a copy.
    pub fn clone(&self) -> Result<Vec<T>, AllocError> {
        Vec::from_slice(Global, &self.0)
    }

    /// Appends copies of items.
    pub fn extend_from_slice(&mut self, items: &[T]) -> Result<(), AllocError> {
        self.reserve(items.len())?;
        self.0.extend_from_slice(items);
        Ok(())
    }

    /// Removes the items from an index on, or appends copies of one up to it.
    pub fn resize(&mut self, len: usize, item: T) -> Result<(), AllocError> {
        self.reserve(len.saturating_sub(self.len()))?;
        self.0.resize(len, item);
        Ok(())
    }
}

impl<T> Deref for Vec<T> {
    type Target = [T];

    fn deref(&self) -> &[T] {
        &self.0
    }
}

impl<T> DerefMut for Vec<T> {
    fn deref_mut(&mut self) -> &mut [T] {
        &mut self.0
    }
}

impl<T> IntoIterator for Vec<T> {
    type Item = T;
    type IntoIter = vec::IntoIter<T>;

    fn into_iter(self) -> vec::IntoIter<T> {
        self.0.into_iter()
    }
}

/// A string whose growth can fail.
#[derive(Debug, PartialEq, Eq, PartialOrd, Ord, Hash)]
pub struct String(alloc::string::String);

impl String {
    /// Returns an empty string.
    pub fn new(_alloc: Global) -> String {
        String(alloc::string::String::new())
    }

    /// Returns a copy of a text.
    pub fn from_str(alloc: Global, text: &str) -> Result<String, AllocError> {
        let mut made = String::new(alloc);
        made.push_str(text)?;
        Ok(made)
    }

    /// Appends a text.
    pub fn push_str(&mut self, text: &str) -> Result<(), AllocError> {
        self.0.try_reserve(text.len()).map_err(|_| AllocError)?;
        self.0.push_str(text);
        Ok(())
    }

    /// Appends a character.
    pub fn push(&mut self, character: char) -> Result<(), AllocError> {
        self.push_str(character.encode_utf8(&mut [0; 4]))
    }

    /// Appends what `write!` formats.
    pub fn write_fmt(&mut self, arguments: fmt::Arguments<'_>) -> Result<(), AllocError> {
        fmt::write(self, arguments).map_err(|_| AllocError)
    }

    /// Returns the text.
    pub fn as_str(&self) -> &str {
        &self.0
    }

    /// Returns the octets of the text.
    pub fn into_bytes(self) -> Vec<u8> {
        Vec(self.0.into_bytes())
    }
}

impl fmt::Write for String {
    fn write_str(&mut self, text: &str) -> fmt::Result {
        Ok(self.push_str(text)?)
    }
}

impl Deref for String {
    type Target = str;

    fn deref(&self) -> &str {
        self.as_str()
    }
}

impl fmt::Display for String {
    fn fmt(&self, f: &mut fmt::Formatter<'_>) -> fmt::Result {
        f.write_str(self)
    }
}

/// Items that are borrowed, or in a vector.
#[derive(Debug)]
pub enum CowSlice<'a, T> {
    /// Borrowed items.
    Borrowed(&'a [T]),
    /// A vector.
    Owned(Vec<T>),
}

impl<T> CowSlice<'_, T> {
    /// Returns the items.
    pub fn as_slice(&self) -> &[T] {
        self
    }
}

impl<T> Deref for CowSlice<'_, T> {
    type Target = [T];

    fn deref(&self) -> &[T] {
        match self {
            CowSlice::Borrowed(items) => items,
            CowSlice::Owned(items) => items,
        }
    }
}

impl<T: Clone> CowSlice<'static, T> {
    /// Returns a copy.
    pub fn clone(&self) -> Result<Self, AllocError> {
        match self {
            CowSlice::Borrowed(items) => Ok(CowSlice::Borrowed(items)),
            CowSlice::Owned(items) => Ok(CowSlice::Owned(items.clone()?)),
        }
    }
}

/// Room for the text of a number.
#[derive(Default)]
pub struct Buffer(alloc::string::String);

impl Buffer {
    /// Returns room for a text.
    pub fn new() -> Buffer {
        Buffer::default()
    }

    /// Returns the shortest text of a number that is read as this number again.
    pub fn format(&mut self, number: impl fmt::Debug) -> &str {
        self.0 = alloc::format!("{number:?}");
        &self.0
    }
}

/// Writes the decimal text of a number so that it ends before an index. Returns where it begins.
pub fn write_digits(number: u64, room: &mut [u8], end: usize) -> usize {
    let (mut left, mut start) = (number, end);
    loop {
        start -= 1;
        room[start] = b'0' + (left % 10) as u8;
        left /= 10;
        if left == 0 {
            return start;
        }
    }
}

/// Returns the bits of a number of IEEE 754. Each NaN has the same.
pub fn f64_to_bits_with_nan(number: f64) -> u64 {
    if number.is_nan() { 0x7FF8_0000_0000_0000 } else { number.to_bits() }
}

/// Returns the number of bits of IEEE 754.
pub fn f64_from_bits_with_nan(bits: u64) -> f64 {
    f64::from_bits(bits)
}

macro_rules! vec {
    (in $alloc:expr; $value:expr; $count:expr) => {{
        let mut made = crate::support::Vec::new($alloc);
        made.resize($count, $value).map(|()| made)
    }};
}

macro_rules! format {
    (in $alloc:expr; $($argument:tt)*) => {{
        let mut made = crate::support::String::new($alloc);
        made.write_fmt(format_args!($($argument)*)).map(|()| made)
    }};
}
