//! The library for C of asn1-messages: `bindings/c/asn1_messages.h` says what each function does.

use asn1_messages::{Codec, Error, Message, Rules, Schema};
use std::ffi::{CStr, c_char, c_int};
use std::slice::from_raw_parts;
use std::sync::Arc;

const DONE: c_int = 0;
const INVALID: c_int = 1;
const MEMORY: c_int = 2;
const ABSENT: c_int = 3;

/// The levels of a value that are permitted, if the caller names none.
const DEPTH: usize = 50;

/// Octets that a call made, followed by a 0.
#[repr(C)]
pub struct Octets {
    at: *mut u8,
    count: usize,
}

impl Octets {
    /// Returns a copy of octets that C frees by `asn1m_octets_free`.
    fn of(octets: &[u8]) -> Result<Octets, Error> {
        let (mut made, count) = (Vec::new(), octets.len());
        made.try_reserve_exact(count + 1).map_err(|_| Error::Memory)?;
        made.extend_from_slice(octets);
        made.push(0);
        Ok(Octets { at: Box::into_raw(made.into_boxed_slice()).cast(), count })
    }
}

/// What decodes and encodes values of one type. It keeps its schema.
pub struct OwnedCodec {
    codec: Codec<'static>,
    _schema: Arc<Schema>,
}

/// A decoded value. It keeps its octets and its codec.
pub struct OwnedMessage {
    message: Message<'static>,
    _octets: Arc<[u8]>,
    _codec: Arc<OwnedCodec>,
}

/// Returns octets of C, none if there are no octets.
///
/// # Safety
///
/// There must be `count` octets, which nobody changes during the call.
unsafe fn octets_at<'a>(at: *const u8, count: usize) -> &'a [u8] {
    if count == 0 { &[] } else { unsafe { from_raw_parts(at, count) } }
}

/// Returns the code of a result, and writes its error in words.
fn code_of(tried: Result<(), Error>, out: &mut Octets) -> c_int {
    match tried {
        Ok(()) => DONE,
        Err(Error::Memory) => MEMORY,
        Err(Error::Invalid(text)) => {
            if let Ok(words) = Octets::of(text.as_bytes()) {
                *out = words;
            }
            INVALID
        }
    }
}

/// Writes the octets that a call made, or its error in words.
fn put(tried: Result<impl AsRef<[u8]>, Error>, out: &mut Octets) -> c_int {
    match tried.and_then(|made| Octets::of(made.as_ref())) {
        Ok(made) => {
            *out = made;
            DONE
        }
        Err(error) => code_of(Err(error), out),
    }
}

fn utf8(octets: &[u8]) -> Result<&str, Error> {
    str::from_utf8(octets).map_err(|_| Error::Invalid("the text is not UTF-8".into()))
}

const NOTHING: Octets = Octets { at: std::ptr::null_mut(), count: 0 };

/// # Safety
///
/// As the header says.
#[unsafe(no_mangle)]
pub unsafe extern "C" fn asn1m_schema_parse(
    text: *const u8, count: usize, schema: &mut *const Schema, error: &mut Octets,
) -> c_int {
    (*schema, *error) = (std::ptr::null(), NOTHING);
    let tried = utf8(unsafe { octets_at(text, count) }).and_then(Schema::parse);
    code_of(tried.map(|made| *schema = Arc::into_raw(Arc::new(made))), error)
}

/// # Safety
///
/// As the header says.
#[unsafe(no_mangle)]
pub unsafe extern "C" fn asn1m_schema_free(schema: *const Schema) {
    if !schema.is_null() {
        drop(unsafe { Arc::from_raw(schema) });
    }
}

/// # Safety
///
/// As the header says.
#[unsafe(no_mangle)]
pub unsafe extern "C" fn asn1m_codec_new(
    schema: *const Schema, of: *const c_char, rules: c_int, depth: usize, codec: &mut *const OwnedCodec, error: &mut Octets,
) -> c_int {
    (*codec, *error) = (std::ptr::null(), NOTHING);
    let rules = match rules {
        0 => Rules::Der,
        1 => Rules::Uper,
        2 => Rules::Aper,
        _ => return code_of(Err(Error::Invalid("there are no such rules".into())), error),
    };
    let kept = unsafe {
        Arc::increment_strong_count(schema);
        Arc::from_raw(schema)
    };
    // The codec keeps the schema, which does not move.
    let found: &'static Schema = unsafe { &*schema };
    let tried = utf8(unsafe { CStr::from_ptr(of) }.to_bytes()).and_then(|it| found.codec(it, rules));
    let made = tried.map(|made| {
        let made = made.with_limits(if depth == 0 { DEPTH } else { depth }, usize::MAX);
        *codec = Arc::into_raw(Arc::new(OwnedCodec { codec: made, _schema: kept }));
    });
    code_of(made, error)
}

/// # Safety
///
/// As the header says.
#[unsafe(no_mangle)]
pub unsafe extern "C" fn asn1m_codec_free(codec: *const OwnedCodec) {
    if !codec.is_null() {
        drop(unsafe { Arc::from_raw(codec) });
    }
}

/// # Safety
///
/// As the header says.
#[unsafe(no_mangle)]
pub unsafe extern "C" fn asn1m_decode_to_json(codec: &OwnedCodec, octets: *const u8, count: usize, json: &mut Octets) -> c_int {
    *json = NOTHING;
    let tried = codec.codec.decode_to_json(unsafe { octets_at(octets, count) });
    put(tried, json)
}

/// # Safety
///
/// As the header says.
#[unsafe(no_mangle)]
pub unsafe extern "C" fn asn1m_encode_json(codec: &OwnedCodec, json: *const u8, count: usize, octets: &mut Octets) -> c_int {
    *octets = NOTHING;
    let tried = utf8(unsafe { octets_at(json, count) }).and_then(|it| codec.codec.encode_json(it));
    put(tried, octets)
}

/// # Safety
///
/// As the header says.
#[unsafe(no_mangle)]
pub unsafe extern "C" fn asn1m_decode(
    codec: *const OwnedCodec, octets: *const u8, count: usize, message: &mut *mut OwnedMessage, error: &mut Octets,
) -> c_int {
    (*message, *error) = (std::ptr::null_mut(), NOTHING);
    let octets: Arc<[u8]> = unsafe { octets_at(octets, count) }.into();
    let kept = unsafe {
        Arc::increment_strong_count(codec);
        Arc::from_raw(codec)
    };
    // The message keeps its octets and its codec, which do not move.
    let (codec, copy): (&'static OwnedCodec, &'static [u8]) = unsafe { (&*codec, &*Arc::as_ptr(&octets)) };
    let made = codec.codec.decode(copy).map(|made| {
        *message = Box::into_raw(Box::new(OwnedMessage { message: made, _octets: octets, _codec: kept }));
    });
    code_of(made, error)
}

/// # Safety
///
/// As the header says.
#[unsafe(no_mangle)]
pub unsafe extern "C" fn asn1m_message_free(message: *mut OwnedMessage) {
    if !message.is_null() {
        drop(unsafe { Box::from_raw(message) });
    }
}

/// # Safety
///
/// As the header says.
#[unsafe(no_mangle)]
pub unsafe extern "C" fn asn1m_encode(codec: &OwnedCodec, message: &OwnedMessage, octets: &mut Octets) -> c_int {
    *octets = NOTHING;
    put(message.message.encode(&codec.codec), octets)
}

/// Returns the path that C wrote. One that is not UTF-8 leads to no value.
unsafe fn path_of<'a>(path: *const c_char) -> &'a str {
    unsafe { CStr::from_ptr(path) }.to_str().unwrap_or("\0")
}

/// Writes what is found. Returns whether something is.
fn found<T>(value: Option<T>, out: &mut T) -> c_int {
    match value {
        Some(it) => {
            *out = it;
            DONE
        }
        None => ABSENT,
    }
}

/// Writes a copy of octets that are found. Returns whether some are.
fn found_octets(octets: Option<impl AsRef<[u8]>>, out: &mut Octets) -> c_int {
    *out = NOTHING;
    match octets {
        Some(it) => put(Ok(it), out),
        None => ABSENT,
    }
}

/// # Safety
///
/// As the header says.
#[unsafe(no_mangle)]
pub unsafe extern "C" fn asn1m_get_text(message: &OwnedMessage, path: *const c_char, text: &mut Octets) -> c_int {
    found_octets(message.message.text(unsafe { path_of(path) }), text)
}

/// # Safety
///
/// As the header says.
#[unsafe(no_mangle)]
pub unsafe extern "C" fn asn1m_get_i64(message: &OwnedMessage, path: *const c_char, value: &mut i64) -> c_int {
    found(message.message.number(unsafe { path_of(path) }), value)
}

/// # Safety
///
/// As the header says.
#[unsafe(no_mangle)]
pub unsafe extern "C" fn asn1m_get_octets(message: &OwnedMessage, path: *const c_char, octets: &mut Octets) -> c_int {
    found_octets(message.message.octets(unsafe { path_of(path) }), octets)
}

/// # Safety
///
/// As the header says.
#[unsafe(no_mangle)]
pub unsafe extern "C" fn asn1m_get_count(message: &OwnedMessage, path: *const c_char, count: &mut usize) -> c_int {
    found(message.message.count(unsafe { path_of(path) }), count)
}

/// # Safety
///
/// As the header says.
#[unsafe(no_mangle)]
pub unsafe extern "C" fn asn1m_octets_free(octets: &mut Octets) {
    if !octets.at.is_null() {
        drop(unsafe { Box::from_raw(std::ptr::slice_from_raw_parts_mut(octets.at, octets.count + 1)) });
    }
    *octets = NOTHING;
}
