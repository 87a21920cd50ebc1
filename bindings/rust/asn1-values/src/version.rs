//! The version of the library.

use crate::sys;

/// Returns the version of the library that is linked: 10,000 times the major number, 100 times the minor one, and the
/// patch.
///
/// ```
/// let number = |text: &str| text.parse::<u32>().unwrap();
/// let own = 10_000 * number(env!("CARGO_PKG_VERSION_MAJOR"))
///     + 100 * number(env!("CARGO_PKG_VERSION_MINOR"))
///     + number(env!("CARGO_PKG_VERSION_PATCH"));
/// assert_eq!(asn1_values::version(), own);
/// ```
#[must_use]
pub fn version() -> u32 {
    // SAFETY: the function takes nothing, and has no precondition.
    unsafe { sys::asn1v_version() }
}
