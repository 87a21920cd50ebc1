//! Reads a certificate of RFC 5280 by the crate `asn1`.

#![allow(dead_code)]

use asn1::{BigInt, BitString, GeneralizedTime, ObjectIdentifier, SequenceOf, SetOf, Tlv, UtcTime};

#[derive(asn1::Asn1Read)]
struct AlgorithmIdentifier<'a> {
    identifier: ObjectIdentifier,
    parameters: Option<Tlv<'a>>,
}

#[derive(asn1::Asn1Read)]
struct Attribute<'a> {
    identifier: ObjectIdentifier,
    value: Tlv<'a>,
}

type Name<'a> = SequenceOf<'a, SetOf<'a, Attribute<'a>>>;

#[derive(asn1::Asn1Read)]
enum Time {
    UtcTime(UtcTime),
    GeneralizedTime(GeneralizedTime),
}

#[derive(asn1::Asn1Read)]
struct Validity {
    from: Time,
    until: Time,
}

#[derive(asn1::Asn1Read)]
struct Key<'a> {
    algorithm: AlgorithmIdentifier<'a>,
    bits: BitString<'a>,
}

#[derive(asn1::Asn1Read)]
struct Extension<'a> {
    identifier: ObjectIdentifier,
    #[default(false)]
    critical: bool,
    value: &'a [u8],
}

#[derive(asn1::Asn1Read)]
struct TbsCertificate<'a> {
    #[explicit(0)]
    #[default(0)]
    version: u8,
    serial: BigInt<'a>,
    algorithm: AlgorithmIdentifier<'a>,
    issuer: Name<'a>,
    validity: Validity,
    subject: Name<'a>,
    key: Key<'a>,
    #[implicit(1)]
    issuer_id: Option<BitString<'a>>,
    #[implicit(2)]
    subject_id: Option<BitString<'a>>,
    #[explicit(3)]
    extensions: Option<SequenceOf<'a, Extension<'a>>>,
}

#[derive(asn1::Asn1Read)]
struct Certificate<'a> {
    tbs: TbsCertificate<'a>,
    algorithm: AlgorithmIdentifier<'a>,
    signature: BitString<'a>,
}

/// Returns whether the octets are a certificate.
///
/// # Safety
///
/// `octets` must be valid for reads of `count` octets.
#[no_mangle]
pub unsafe extern "C" fn read_by_asn1(octets: *const u8, count: usize) -> bool {
    let octets = unsafe { std::slice::from_raw_parts(octets, count) };
    asn1::parse_single::<Certificate>(octets).is_ok()
}
