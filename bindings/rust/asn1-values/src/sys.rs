//! The functions of `asn1_values.h` and the codes of `asn1_codes.h`.

#[repr(C)]
#[derive(Clone, Copy)]
pub struct Words {
    pub high: u64,
    pub low: u64,
}

impl Words {
    pub const ZERO: Words = Words { high: 0, low: 0 };

    pub fn of(number: u128) -> Words {
        Words {
            high: (number >> 64) as u64,
            low: number as u64,
        }
    }

    pub fn number(self) -> u128 {
        u128::from(self.high) << 64 | u128::from(self.low)
    }
}

#[repr(C)]
#[derive(Clone, Copy)]
pub struct Element {
    pub class: u32,
    pub constructed: bool,
    pub number: u64,
    pub first: usize,
    pub length: usize,
    pub end: usize,
}

impl Element {
    pub const NONE: Element = Element {
        class: 0,
        constructed: false,
        number: 0,
        first: 0,
        length: 0,
        end: 0,
    };
}

#[repr(C)]
#[derive(Clone, Copy)]
pub struct Time {
    pub year: u16,
    pub month: u8,
    pub day: u8,
    pub hour: u8,
    pub minute: u8,
    pub second: u8,
}

impl Time {
    pub const NONE: Time = Time {
        year: 0,
        month: 0,
        day: 0,
        hour: 0,
        minute: 0,
        second: 0,
    };
}

#[repr(C)]
#[derive(Clone, Copy)]
pub struct Shape {
    pub kind: u32,
    pub count: usize,
}

#[repr(C)]
#[derive(Clone, Copy)]
pub struct Field {
    pub first: usize,
    pub length: usize,
    pub high: u64,
    pub low: u64,
}

impl Field {
    pub const NONE: Field = Field {
        first: 0,
        length: 0,
        high: 0,
        low: 0,
    };

    pub fn number(&self) -> u128 {
        Words {
            high: self.high,
            low: self.low,
        }
        .number()
    }
}

#[repr(C)]
#[derive(Clone, Copy)]
pub struct Refusal {
    pub code: u32,
    pub field: usize,
    pub high: u64,
    pub low: u64,
}

impl Refusal {
    pub const NONE: Refusal = Refusal {
        code: 0,
        field: 0,
        high: 0,
        low: 0,
    };

    pub fn number(&self) -> u128 {
        Words {
            high: self.high,
            low: self.low,
        }
        .number()
    }
}

#[repr(C)]
#[derive(Clone, Copy)]
pub struct Alphabet {
    pub kind: u32,
    pub permitted: bool,
    pub aligned: bool,
    pub set: *const u32,
    pub set_count: usize,
}

pub const NUMBER: u32 = 0;
pub const OCTETS: u32 = 1;
pub const BITS: u32 = 2;
pub const INTEGER: u32 = 3;
pub const COUNTED_INTEGER: u32 = 4;
pub const CHARACTER_FIELD: u32 = 5;
pub const IDENTIFIER: u32 = 6;

pub const DONE: u32 = 0;
pub const WIDTH: u32 = 2;
pub const ROOM: u32 = 3;
pub const EMPTY: u32 = 4;
pub const OVERFLOW: u32 = 5;
pub const MALFORMED: u32 = 6;
pub const ARC_TOO_LARGE: u32 = 7;
pub const ARCS: u32 = 8;
pub const ARC_COUNT: u32 = 9;
pub const ODD: u32 = 11;
pub const CHARACTER: u32 = 12;
pub const CODE: u32 = 14;
pub const SHORT: u32 = 15;
pub const TEXT: u32 = 16;
pub const NOT_SHORTEST: u32 = 19;
pub const OCTET_COUNT: u32 = 20;
pub const TOO_MANY: u32 = 23;
pub const NO_UNICODE: u32 = 25;
pub const SURROGATE: u32 = 26;

extern "C" {
    pub fn asn1v_version() -> u32;
    pub fn asn1v_read_u128(
        octets: *const u8,
        octet_count: usize,
        position: usize,
        width: usize,
        value: *mut Words,
    ) -> u32;
    pub fn asn1v_or_bits(
        target: *mut u8,
        target_count: usize,
        position: usize,
        source: *const u8,
        source_count: usize,
        first: usize,
        count: usize,
    ) -> u32;
    pub fn asn1v_or_number(
        target: *mut u8,
        target_count: usize,
        position: usize,
        value: *const Words,
        width: usize,
    ) -> u32;
    pub fn asn1v_compare_bits(
        a: *const u8,
        a_count: usize,
        a_first: usize,
        a_bits: usize,
        b: *const u8,
        b_count: usize,
        b_first: usize,
        b_bits: usize,
        order: *mut i32,
    ) -> u32;
    pub fn asn1v_integer_from_i64(
        number: i64,
        room: *mut u8,
        room_count: usize,
        count: *mut usize,
    ) -> u32;
    pub fn asn1v_integer_to_i64(octets: *const u8, octet_count: usize, number: *mut i64) -> u32;
    pub fn asn1v_integer_from_u64(
        number: u64,
        room: *mut u8,
        room_count: usize,
        count: *mut usize,
    ) -> u32;
    pub fn asn1v_integer_to_u64(octets: *const u8, octet_count: usize, number: *mut u64) -> u32;
    pub fn asn1v_integer_from_i128(
        number: *const Words,
        room: *mut u8,
        room_count: usize,
        count: *mut usize,
    ) -> u32;
    pub fn asn1v_integer_to_i128(octets: *const u8, octet_count: usize, number: *mut Words) -> u32;
    pub fn asn1v_integer_from_u128(
        number: *const Words,
        room: *mut u8,
        room_count: usize,
        count: *mut usize,
    ) -> u32;
    pub fn asn1v_integer_to_u128(octets: *const u8, octet_count: usize, number: *mut Words) -> u32;
    pub fn asn1v_integer_text(
        octets: *const u8,
        octet_count: usize,
        room: *mut u8,
        room_count: usize,
        count: *mut usize,
    ) -> u32;
    pub fn asn1v_integer_from_text(
        text: *const u8,
        text_count: usize,
        room: *mut u8,
        room_count: usize,
        count: *mut usize,
    ) -> u32;
    pub fn asn1v_integer_compare(
        a: *const u8,
        a_count: usize,
        b: *const u8,
        b_count: usize,
        order: *mut i32,
    ) -> u32;
    pub fn asn1v_integer_is_shortest(octets: *const u8, octet_count: usize) -> bool;
    pub fn asn1v_integer_redundant(octets: *const u8, octet_count: usize) -> usize;
    pub fn asn1v_oid_check(octets: *const u8, octet_count: usize) -> u32;
    pub fn asn1v_oid_check_arcs(arcs: *const u32, arc_count: usize) -> u32;
    pub fn asn1v_oid_arcs(
        octets: *const u8,
        octet_count: usize,
        room: *mut u32,
        room_count: usize,
        count: *mut usize,
    ) -> u32;
    pub fn asn1v_oid_text(
        arcs: *const u32,
        arc_count: usize,
        room: *mut u8,
        room_count: usize,
        count: *mut usize,
    ) -> u32;
    pub fn asn1v_oid_from_text(
        text: *const u8,
        text_count: usize,
        room: *mut u32,
        room_count: usize,
        count: *mut usize,
    ) -> u32;
    pub fn asn1v_oid_contents(
        arcs: *const u32,
        arc_count: usize,
        room: *mut u8,
        room_count: usize,
        count: *mut usize,
    ) -> u32;
    pub fn asn1v_string_check(
        kind: u32,
        octets: *const u8,
        octet_count: usize,
        place: *mut usize,
        character: *mut u32,
    ) -> u32;
    pub fn asn1v_string_count(
        kind: u32,
        octets: *const u8,
        octet_count: usize,
        count: *mut usize,
    ) -> u32;
    pub fn asn1v_string_to_utf8(
        kind: u32,
        octets: *const u8,
        octet_count: usize,
        room: *mut u8,
        room_count: usize,
        count: *mut usize,
        place: *mut usize,
        character: *mut u32,
    ) -> u32;
    pub fn asn1v_string_from_utf8(
        kind: u32,
        text: *const u8,
        text_count: usize,
        room: *mut u8,
        room_count: usize,
        count: *mut usize,
        place: *mut usize,
        character: *mut u32,
    ) -> u32;
    pub fn asn1v_alphabet_new(
        kind: u32,
        permitted: bool,
        set: *const u32,
        set_count: usize,
        aligned: bool,
        alphabet: *mut Alphabet,
    ) -> u32;
    pub fn asn1v_alphabet_encode(alphabet: *const Alphabet, character: u32, code: *mut u32) -> u32;
    pub fn asn1v_alphabet_decode(alphabet: *const Alphabet, code: u32, character: *mut u32) -> u32;
    pub fn asn1v_alphabet_width(alphabet: *const Alphabet, width: *mut usize) -> u32;
    pub fn asn1v_octets_at(
        octets: *const u8,
        octet_count: usize,
        first: usize,
        count: usize,
        room: *mut u8,
        room_count: usize,
    ) -> u32;
    pub fn asn1v_write_fields(
        target: *mut u8,
        target_count: usize,
        position: usize,
        source: *const u8,
        source_count: usize,
        alphabets: *const Alphabet,
        alphabet_count: usize,
        shapes: *const Shape,
        shape_count: usize,
        fields: *const Field,
        field_count: usize,
        end: *mut usize,
        refusal: *mut Refusal,
    ) -> u32;
    pub fn asn1v_read_fields(
        octets: *const u8,
        octet_count: usize,
        position: usize,
        alphabets: *const Alphabet,
        alphabet_count: usize,
        shapes: *const Shape,
        shape_count: usize,
        fields: *mut Field,
        field_count: usize,
        end: *mut usize,
        refusal: *mut Refusal,
    ) -> u32;
    pub fn asn1v_der_next(
        octets: *const u8,
        octet_count: usize,
        position: usize,
        element: *mut Element,
    ) -> u32;
    pub fn asn1v_der_boolean(octets: *const u8, octet_count: usize, value: *mut bool) -> u32;
    pub fn asn1v_der_bit_string(octets: *const u8, octet_count: usize, count: *mut usize) -> u32;
    pub fn asn1v_der_utc_time(octets: *const u8, octet_count: usize, time: *mut Time) -> u32;
    pub fn asn1v_der_generalized_time(
        octets: *const u8,
        octet_count: usize,
        time: *mut Time,
    ) -> u32;
}
