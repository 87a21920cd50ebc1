//! Octets as hexadecimal digits. The proved source uses vectors of the processor, which Rust does not
//! have yet.

use crate::support::{AllocError, Global, Vec};

const DIGITS: &[u8; 16] = b"0123456789ABCDEF";

/// Returns the upper-case digits of octets, at the beginning of room that grows as they need.
pub(in crate::asn1_json) fn hex_in<'r>(octets: &[u8], room: &'r mut Vec<u8>) -> Result<&'r [u8], AllocError> {
    room.clear();
    room.reserve(octets.len().saturating_mul(2))?;
    for octet in octets {
        room.push_reserved(DIGITS[usize::from(octet >> 4)]);
        room.push_reserved(DIGITS[usize::from(octet & 15)]);
    }
    Ok(room)
}

/// Returns the octets of digits in either case. `None` if the text has other characters or an odd
/// number of digits.
pub(in crate::asn1_json) fn octets_of_hex(alloc: Global, text: &str) -> Result<Option<Vec<u8>>, AllocError> {
    let (pairs, odd) = text.as_bytes().as_chunks::<2>();
    let mut octets = Vec::with_capacity(alloc, pairs.len())?;
    for [high, low] in pairs {
        match (char::from(*high).to_digit(16), char::from(*low).to_digit(16)) {
            (Some(high), Some(low)) => octets.push_reserved((16 * high + low) as u8),
            _ => return Ok(None),
        }
    }
    Ok(if odd.is_empty() { Some(octets) } else { None })
}
