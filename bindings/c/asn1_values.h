/* The proved value layer of ASN.1 for C, from the static library libasn1_c.a, for 64-bit x86 under Linux. Each name
 * begins with asn1v_ or ASN1V_, so this header can be included beside those of OpenSSL and libtasn1. The library is
 * built for processors of x86-64-v2 (from about 2009 on), or with `scripts/install-c --plain` for every x86-64. On an
 * older processor a call ends the program by an illegal instruction; asn1v_processor_suffices tests for that first.
 *
 * Each function has a contract that is proved for every input; the comment above the function says it in words.
 * Nothing checks these preconditions:
 *   - each pointer must not be null, also if its length is 0, must be aligned for its type, and must have at least the
 *     length that is passed after it;
 *   - what a function writes (through a pointer without const) must not overlap anything else that the call is passed;
 *   - a bool must be true or false, also in an asn1v_alphabet, whose set must be that of asn1v_alphabet_new, and alive.
 * Everything else is tested, and reported by a code. Functions keep nothing, allocate nothing, and may be called from
 * any thread.
 *
 * Units: positions and widths are in bits. Bits count from 0, through the octets in their order; the first bit of an
 * octet is its most significant one.
 *
 * If a code is not ASN1V_DONE, what the function would have written is unchanged, unless its comment says otherwise:
 * ASN1V_ROOM comes with the length that is needed. */
#ifndef ASN1V_VALUES_H
#define ASN1V_VALUES_H

#include <stdbool.h>
#include <stddef.h>
#include <stdint.h>

#include "asn1_codes.h"

/* The version of this header. */
#define ASN1V_VERSION_MAJOR 0
#define ASN1V_VERSION_MINOR 3
#define ASN1V_VERSION_PATCH 0
#define ASN1V_VERSION "0.3.0"
#define ASN1V_VERSION_NUMBER (10000 * ASN1V_VERSION_MAJOR + 100 * ASN1V_VERSION_MINOR + ASN1V_VERSION_PATCH)

/* A code that a program ignores is a warning. */
#if defined(__cplusplus) && __cplusplus >= 201703L || defined(__STDC_VERSION__) && __STDC_VERSION__ > 202000L
#define ASN1V_NODISCARD [[nodiscard]]
#elif defined(__GNUC__)
#define ASN1V_NODISCARD __attribute__((warn_unused_result))
#else
#define ASN1V_NODISCARD
#endif

#ifdef __cplusplus
extern "C" {
#endif

/* Returns the version of the library, as ASN1V_VERSION_NUMBER is that of the header. */
uint32_t asn1v_version(void);

/* Returns whether the processor has the instructions of x86-64-v2. It calls nothing of the library. */
static inline bool asn1v_processor_suffices(void)
{
#if defined(__GNUC__) && defined(__x86_64__)
    __builtin_cpu_init();
    return __builtin_cpu_supports("sse3") && __builtin_cpu_supports("ssse3") && __builtin_cpu_supports("sse4.1")
        && __builtin_cpu_supports("sse4.2") && __builtin_cpu_supports("popcnt");
#else
    return false;
#endif
}

/* A number of 128 bits: high times 2 to the power of 64, plus low. */
typedef struct asn1v_words {
    uint64_t high;
    uint64_t low;
} asn1v_words;

/* ---- bits */

/* Reads the number of width bits from bit position on, most significant bit first. Returns ASN1V_WIDTH if width is
 * over 64, otherwise ASN1V_OUTSIDE if the octets end before these bits do. */
ASN1V_NODISCARD
asn1v_code asn1v_read_u64(const uint8_t *octets, size_t octet_count, size_t position, size_t width, uint64_t *value);

/* Reads a number as asn1v_read_u64 does, with widths up to 128. */
ASN1V_NODISCARD
asn1v_code asn1v_read_u128(const uint8_t *octets, size_t octet_count, size_t position, size_t width,
                           asn1v_words *value);

/* ORs count bits of the source, from its bit first on, into the target from its bit position on. Every other bit of
 * the target is unchanged. If the target's bits are zeros, this copies. Returns ASN1V_OUTSIDE if either list of
 * octets ends too early, or position + count exceeds SIZE_MAX. */
ASN1V_NODISCARD
asn1v_code asn1v_or_bits(uint8_t *target, size_t target_count, size_t position, const uint8_t *source,
                         size_t source_count, size_t first, size_t count);

/* ORs the width lowest binary digits of the number, at most 128, into the target from its bit position on. Every
 * other bit of the target is unchanged. Returns ASN1V_WIDTH if width is over 128; otherwise ASN1V_OVERFLOW if the
 * number is not below 2 to the power of width; otherwise ASN1V_OUTSIDE if the target ends too early, or position +
 * width exceeds SIZE_MAX. */
ASN1V_NODISCARD
asn1v_code asn1v_or_number(uint8_t *target, size_t target_count, size_t position, const asn1v_words *value,
                           size_t width);

/* Compares a_bits bits of a from bit a_first on with b_bits bits of b from bit b_first on. The order is -1, 0 or 1:
 * by the first bit that differs, zero below one, and otherwise by length. Returns ASN1V_OUTSIDE if either list of
 * octets ends too early. */
ASN1V_NODISCARD
asn1v_code asn1v_compare_bits(const uint8_t *a, size_t a_count, size_t a_first, size_t a_bits, const uint8_t *b,
                              size_t b_count, size_t b_first, size_t b_bits, int32_t *order);

/* ---- permitted alphabets (X.691 30.5)
 *
 * An alphabet is that of a string, or of a permitted set of its characters. asn1v_alphabet_new prepares it once; the
 * alphabet refers to the set and copies nothing. The other functions return ASN1V_ALPHABET for a struct that it did
 * not fill. */

typedef struct asn1v_alphabet {
    asn1v_kind kind;     /* which string */
    bool permitted;      /* whether there is a permitted set */
    bool aligned;        /* whether the width is rounded up to a power of two */
    const uint32_t *set; /* the permitted set */
    size_t set_count;    /* how many characters it has */
} asn1v_alphabet;

/* Fills the alphabet of a string: of the characters in set if permitted is true, and otherwise of all its characters,
 * without reading set. With aligned the width is rounded up to a power of two. Returns ASN1V_KIND for an unknown
 * kind, otherwise ASN1V_SET for a permitted set of more than 2 to the power of 32 characters. */
ASN1V_NODISCARD
asn1v_code asn1v_alphabet_new(asn1v_kind kind, bool permitted, const uint32_t *set, size_t set_count, bool aligned,
                              asn1v_alphabet *alphabet);

/* Encodes a character: code receives its code, which fits the alphabet's width. Returns ASN1V_CHARACTER if it has
 * none. */
ASN1V_NODISCARD
asn1v_code asn1v_alphabet_encode(const asn1v_alphabet *alphabet, uint32_t character, uint32_t *code);

/* Decodes a code. Returns ASN1V_CODE if it is the code of no character. */
ASN1V_NODISCARD
asn1v_code asn1v_alphabet_decode(const asn1v_alphabet *alphabet, uint32_t code, uint32_t *character);

/* Returns in width how many bits each code takes, at most 32. */
ASN1V_NODISCARD
asn1v_code asn1v_alphabet_width(const asn1v_alphabet *alphabet, size_t *width);

/* ---- fields
 *
 * A shape is what is known of a field before it is read: its kind, and how many bits or octets it has, or the index
 * of its alphabet in the list of alphabets that is passed with the shapes. A field is its first bit and its number of
 * bits, so nothing is copied, and its number if that has at most 128 bits. */

#define ASN1V_NUMBER UINT32_C(0)          /* a number of count bits, at most 128 */
#define ASN1V_OCTETS UINT32_C(1)          /* count octets */
#define ASN1V_BITS UINT32_C(2)            /* count bits */
#define ASN1V_INTEGER UINT32_C(3)         /* an integer by its shortest octets, of which there are count (X.690 8.3) */
#define ASN1V_COUNTED_INTEGER UINT32_C(4) /* the same after an octet that counts them, 1 to 127 (X.690 8.1.3.4) */
#define ASN1V_CHARACTER_FIELD UINT32_C(5) /* a character by its code in the alphabet of index count (X.691 30.5) */
#define ASN1V_IDENTIFIER UINT32_C(6)      /* an identifier by its contents, of count octets (X.690 8.19) */

typedef struct asn1v_shape {
    uint32_t kind;
    size_t count;
} asn1v_shape;

/* The number is high times 2 to the power of 64, plus low. An integer of at most sixteen octets is in two's
 * complement of 128 bits, so (int64_t)low is its value if it has at most eight octets. Of a character, low is the
 * character and high is its code. Octets, bits, identifiers and longer integers have 0 in both. */
typedef struct asn1v_field {
    size_t first;  /* its first bit: of a counted integer, that of the octet that counts the others */
    size_t length; /* how many bits, with that octet */
    uint64_t high;
    uint64_t low;
} asn1v_field;

/* The first invalid field, counted from 0, the reason, and the number that belongs to the reason, otherwise 0. */
typedef struct asn1v_refusal {
    asn1v_code code;
    size_t field;
    uint64_t high; /* the upper 64 bits of the number */
    uint64_t low;  /* the lower 64 bits */
} asn1v_refusal;

/* Reads fields of the shapes one after another, from bit position on, into the first shape_count of the fields; end
 * receives the index of the first bit after them. Returns ASN1V_TOO_MANY if 8 * octet_count exceeds SIZE_MAX,
 * otherwise ASN1V_OUTSIDE if the position is after the last bit, otherwise ASN1V_ROOM if there are fewer fields than
 * shapes; then nothing was read, and *refusal and the fields are unchanged. Any other code is refusal->code, and
 * *refusal names the first invalid field. Then the fields before it were read, and it and those after it are
 * unchanged. The reasons, and their numbers:
 *   ASN1V_SHAPE        the kind is unknown, or there is no alphabet at the index;
 *   ASN1V_WIDTH        a number of more than 128 bits: the width;
 *   ASN1V_SHORT        the octets end before the field does: how many bits are missing;
 *   ASN1V_NOT_SHORTEST octets that are not the shortest of a number, or none;
 *   ASN1V_OCTET_COUNT  a counted integer whose first octet is not 1 to 127: the octet;
 *   ASN1V_CODE         a number that is the code of no character: the number;
 *   ASN1V_MALFORMED    octets that are the contents of no identifier, or none;
 *   ASN1V_ARC_TOO_LARGE  contents with an arc that exceeds 32 bits. */
ASN1V_NODISCARD
asn1v_code asn1v_read_fields(const uint8_t *octets, size_t octet_count, size_t position,
                             const asn1v_alphabet *alphabets, size_t alphabet_count, const asn1v_shape *shapes,
                             size_t shape_count, asn1v_field *fields, size_t field_count, size_t *end,
                             asn1v_refusal *refusal);

/* Writes fields of the shapes one after another over the bits of the target, from bit position on; end receives the
 * index of the first bit after them. Every other bit of the target is unchanged. A number and a character are written
 * by their number; high of a character is ignored. An integer of at most 16 octets is written by its number too: its
 * length is at most 128 bits (136 if it is counted), and may be 0. Every other field is written by its bits: length
 * bits of the source from its bit first on. So fields that asn1v_read_fields made are written with the octets that
 * they were read from as the source.
 *
 * All fields are examined before a bit is written. Returns ASN1V_COUNT if there are not as many fields as shapes,
 * otherwise ASN1V_TOO_MANY if 8 * source_count exceeds SIZE_MAX; then *refusal is unchanged. Otherwise *refusal names
 * the first invalid field and the first of these reasons, with its number:
 *   ASN1V_SHAPE        the kind is unknown, or there is no alphabet at the index;
 *   ASN1V_WIDTH        a number of more than 128 bits: the width;
 *   ASN1V_OVERFLOW     a number that is not below 2 to the power of its count, or a character of more than 32 bits;
 *   ASN1V_CHARACTER    a character that its alphabet has no code for: the character;
 *   ASN1V_LENGTH       a field that is not as long as its shape says: its length in bits; and of an integer that is
 *                      written by its number: how many octets are its shortest;
 *   ASN1V_OUTSIDE      the source ends before the field does;
 *   those of reading the field at its index in the source.
 * Returns ASN1V_ROOM if no field is invalid and the fields end after the target, or after SIZE_MAX; then *refusal has
 * that code, shape_count as its field, and the bit at which they end as its number. */
ASN1V_NODISCARD
asn1v_code asn1v_write_fields(uint8_t *target, size_t target_count, size_t position, const uint8_t *source,
                              size_t source_count, const asn1v_alphabet *alphabets, size_t alphabet_count,
                              const asn1v_shape *shapes, size_t shape_count, const asn1v_field *fields,
                              size_t field_count, size_t *end, asn1v_refusal *refusal);

/* Copies count octets that begin at bit first, which need not be the first bit of an octet, to the front of the room,
 * and leaves the octets after them unchanged. The functions below take such whole octets. Those of an integer (X.690
 * 8.3) and of an identifier's contents begin at the field's first bit, those of a counted integer eight bits after
 * it. Returns ASN1V_TOO_MANY if 8 * octet_count exceeds SIZE_MAX, otherwise ASN1V_OUTSIDE if the octets end too
 * early, otherwise ASN1V_ROOM if the room has fewer octets. */
ASN1V_NODISCARD
asn1v_code asn1v_octets_at(const uint8_t *octets, size_t octet_count, size_t first, size_t count, uint8_t *room,
                           size_t room_count);

/* ---- whole numbers, as two's complement octets, most significant first (X.690 8.3) */

/* Writes the shortest octets of the number to the front of the room, and leaves the octets after them unchanged.
 * Their count, at most 8, is returned with ASN1V_ROOM too. */
ASN1V_NODISCARD
asn1v_code asn1v_integer_from_i64(int64_t number, uint8_t *room, size_t room_count, size_t *count);

/* Reads the number of the octets, which need not be the shortest. Returns ASN1V_EMPTY for no octets, ASN1V_OVERFLOW
 * if the number does not fit 64 bits. */
ASN1V_NODISCARD
asn1v_code asn1v_integer_to_i64(const uint8_t *octets, size_t octet_count, int64_t *number);

/* Writes an unsigned number as asn1v_integer_from_i64 does, in at most 9 octets. */
ASN1V_NODISCARD
asn1v_code asn1v_integer_from_u64(uint64_t number, uint8_t *room, size_t room_count, size_t *count);

/* Reads an unsigned number as asn1v_integer_to_i64 does. Returns ASN1V_OVERFLOW also if the number is negative. */
ASN1V_NODISCARD
asn1v_code asn1v_integer_to_u64(const uint8_t *octets, size_t octet_count, uint64_t *number);

/* Writes a number of 128 bits in two's complement as asn1v_integer_from_i64 does, in at most 16 octets. */
ASN1V_NODISCARD
asn1v_code asn1v_integer_from_i128(const asn1v_words *number, uint8_t *room, size_t room_count, size_t *count);

/* Reads a number as asn1v_integer_to_i64 does, into 128 bits in two's complement. */
ASN1V_NODISCARD
asn1v_code asn1v_integer_to_i128(const uint8_t *octets, size_t octet_count, asn1v_words *number);

/* Writes an unsigned number of 128 bits as asn1v_integer_from_i64 does, in at most 17 octets. */
ASN1V_NODISCARD
asn1v_code asn1v_integer_from_u128(const asn1v_words *number, uint8_t *room, size_t room_count, size_t *count);

/* Reads an unsigned number as asn1v_integer_to_u64 does, into 128 bits. */
ASN1V_NODISCARD
asn1v_code asn1v_integer_to_u128(const uint8_t *octets, size_t octet_count, asn1v_words *number);

/* Writes the decimal text of the number of the octets, of any length, to the front of the room, and leaves the octets
 * after it unchanged: the digits without leading zeros, after a minus sign if the number is negative. The text is not
 * NUL-terminated. 5 * octet_count / 2 + 2 octets are always enough. A sufficient length is returned with ASN1V_ROOM
 * too: the length of the text, at most 40, if the number fits 128 bits, signed or unsigned; otherwise 5 * n / 2 + 2,
 * where n is the number of its shortest octets. Returns ASN1V_EMPTY for no octets, ASN1V_TOO_MANY if 5 * octet_count
 * / 2 + 2 exceeds SIZE_MAX. The time is quadratic in the length, so limit the length of untrusted input. */
ASN1V_NODISCARD
asn1v_code asn1v_integer_text(const uint8_t *octets, size_t octet_count, uint8_t *room, size_t room_count,
                              size_t *count);

/* Writes the shortest octets of the number that a decimal text encodes, in the form that asn1v_integer_text writes,
 * to the front of the room, and leaves the octets after them unchanged. text_count / 2 + 1 octets are always enough.
 * A sufficient count is returned with ASN1V_ROOM too: that of the octets, at most 17, if the number fits 128 bits,
 * signed or unsigned; otherwise text_count / 2 + 1. Returns ASN1V_DECIMAL for any other text, such as one with a plus
 * sign or a leading zero, and for -0. The time is quadratic in the length, so limit the length of untrusted input. */
ASN1V_NODISCARD
asn1v_code asn1v_integer_from_text(const uint8_t *text, size_t text_count, uint8_t *room, size_t room_count,
                                   size_t *count);

/* Compares the numbers of two lists of octets of any length: -1, 0 or 1. Returns ASN1V_EMPTY if either is empty. */
ASN1V_NODISCARD
asn1v_code asn1v_integer_compare(const uint8_t *a, size_t a_count, const uint8_t *b, size_t b_count, int32_t *order);

/* Returns whether the octets are the shortest of a number (X.690 8.3.2). No octets are not. */
bool asn1v_integer_is_shortest(const uint8_t *octets, size_t octet_count);

/* Returns how many of the first octets only repeat the sign: those after them are the shortest octets of the same
 * number. Returns 0 for no octets. */
size_t asn1v_integer_redundant(const uint8_t *octets, size_t octet_count);

/* ---- object identifiers (X.660), and their contents (X.690 8.19) */

/* Returns ASN1V_DONE if the octets are the contents of an identifier whose arcs all fit 32 bits, ASN1V_ARC_TOO_LARGE
 * if they are contents with a larger arc, otherwise ASN1V_MALFORMED. */
ASN1V_NODISCARD
asn1v_code asn1v_oid_check(const uint8_t *octets, size_t octet_count);

/* Returns ASN1V_DONE if the arcs are those of an identifier, otherwise ASN1V_ARCS. */
ASN1V_NODISCARD
asn1v_code asn1v_oid_check_arcs(const uint32_t *arcs, size_t arc_count);

/* Writes the contents octets of the arcs to the front of the room, and leaves the octets after them unchanged. Five
 * octets for each arc are always enough. Their count is returned with ASN1V_ROOM too. Returns ASN1V_ARCS if the arcs
 * are not those of an identifier, ASN1V_ARC_COUNT for one arc, otherwise ASN1V_TOO_MANY if the contents have more
 * than SIZE_MAX octets, otherwise ASN1V_ROOM if they are longer than the room. */
ASN1V_NODISCARD
asn1v_code asn1v_oid_contents(const uint32_t *arcs, size_t arc_count, uint8_t *room, size_t room_count, size_t *count);

/* Writes the arcs that contents octets encode to the front of the room. One arc more than there are octets is always
 * enough. Their count is returned with ASN1V_ROOM too; the room is then unchanged. Returns ASN1V_MALFORMED and
 * ASN1V_ARC_TOO_LARGE as asn1v_oid_check does. */
ASN1V_NODISCARD
asn1v_code asn1v_oid_arcs(const uint8_t *octets, size_t octet_count, uint32_t *room, size_t room_count, size_t *count);

/* Writes the dotted text of the arcs, their decimals joined by full stops, to the front of the room, and leaves the
 * octets after it unchanged. The text is not NUL-terminated. Eleven octets for each arc are always enough. Its length
 * is returned with ASN1V_ROOM too. Returns ASN1V_ARCS if the arcs are not those of an identifier, ASN1V_TOO_MANY if
 * the text would have more than SIZE_MAX octets. */
ASN1V_NODISCARD
asn1v_code asn1v_oid_text(const uint32_t *arcs, size_t arc_count, uint8_t *room, size_t room_count, size_t *count);

/* Writes the arcs of a dotted text to the front of the room, and leaves the numbers after them unchanged. Half as
 * many as the text has octets, and one more, are always enough. Their count is returned with ASN1V_ROOM too. Returns
 * ASN1V_TEXT for any other text, and for an arc that exceeds 32 bits. */
ASN1V_NODISCARD
asn1v_code asn1v_oid_from_text(const uint8_t *text, size_t text_count, uint32_t *room, size_t room_count,
                               size_t *count);

/* ---- restricted character strings (X.680 41, X.690 8.23) */

/* Checks that the octets are characters of the string: one octet a character, two in BMPString, most significant
 * first. Returns ASN1V_CHARACTER for the first invalid character, which character receives; place receives its index,
 * counted in characters from 0. Returns ASN1V_KIND for an unknown kind, ASN1V_ODD for an odd number of octets of a
 * BMPString. */
ASN1V_NODISCARD
asn1v_code asn1v_string_check(asn1v_kind kind, const uint8_t *octets, size_t octet_count, size_t *place,
                              uint32_t *character);

/* Counts the characters of the octets of a string, valid or not. Returns ASN1V_KIND and ASN1V_ODD as
 * asn1v_string_check does. */
ASN1V_NODISCARD
asn1v_code asn1v_string_count(asn1v_kind kind, const uint8_t *octets, size_t octet_count, size_t *count);

/* Writes the characters of a string's octets in UTF-8 to the front of the room, and leaves the octets after them
 * unchanged. Their count, at most three for each character, is returned with ASN1V_ROOM too. Returns ASN1V_KIND for
 * an unknown kind; otherwise ASN1V_NO_UNICODE for a GeneralString, a GraphicString or a TeletexString; otherwise
 * ASN1V_ODD for an odd number of octets of a BMPString; otherwise, for the first invalid character, ASN1V_CHARACTER
 * if it is not in the set, or ASN1V_SURROGATE if it is a surrogate, which UTF-8 cannot encode. Then character
 * receives it, and place its index, counted in characters from 0. Otherwise returns ASN1V_TOO_MANY if the count
 * exceeds SIZE_MAX. */
ASN1V_NODISCARD
asn1v_code asn1v_string_to_utf8(asn1v_kind kind, const uint8_t *octets, size_t octet_count, uint8_t *room,
                                size_t room_count, size_t *count, size_t *place, uint32_t *character);

/* Writes the octets of the string with the characters of a UTF-8 text to the front of the room, and leaves the octets
 * after them unchanged. Their count is returned with ASN1V_ROOM too: at most as many as the text has, and for a
 * BMPString twice as many. Returns ASN1V_KIND for an unknown kind; otherwise ASN1V_NO_UNICODE as asn1v_string_to_utf8
 * does; otherwise ASN1V_NOT_UTF8, and place receives the length of the longest prefix that is UTF-8, in octets;
 * otherwise ASN1V_CHARACTER for the first character that is not in the set, which character receives; place receives
 * its index, counted in characters from 0; otherwise ASN1V_TOO_MANY if the count exceeds SIZE_MAX. */
ASN1V_NODISCARD
asn1v_code asn1v_string_from_utf8(asn1v_kind kind, const uint8_t *text, size_t text_count, uint8_t *room,
                                  size_t room_count, size_t *count, size_t *place, uint32_t *character);

/* ---- DER (X.690): elements, one after another, and contents */

/* An element. Its contents are length octets from the octet first on, and the next element begins at the octet end. */
typedef struct asn1v_element {
    uint32_t class_number; /* of the tag: 0 universal, 1 application, 2 context-specific, 3 private */
    bool constructed;      /* whether the contents are elements */
    uint64_t number;       /* of the tag */
    size_t first;
    size_t length;
    size_t end;
} asn1v_element;

/* Reads the element of any tag that begins at the octet position: its identifier octets and its definite length, each
 * in the minimal number of octets (X.690 8.1.2, 10.1), and the extent of its contents octets, which are not examined.
 * To read the elements in a constructed element, call it again with first as position and end as octet_count. Returns
 * ASN1V_OUTSIDE if the position exceeds octet_count; otherwise the first fault: ASN1V_SHORT if octets are missing,
 * also if none are left, ASN1V_NOT_MINIMAL, ASN1V_INDEFINITE or ASN1V_RESERVED; ASN1V_TAG_LARGE for an element whose
 * tag has a number of more than 64 bits; ASN1V_TOO_MANY if 8 * octet_count exceeds SIZE_MAX. */
ASN1V_NODISCARD
asn1v_code asn1v_der_next(const uint8_t *octets, size_t octet_count, size_t position, asn1v_element *element);

/* Reads the contents of a BOOLEAN: one octet, 00 or FF (X.690 8.2, 11.1). Otherwise returns ASN1V_CONTENTS, or
 * ASN1V_TOO_MANY if 8 * octet_count exceeds SIZE_MAX; so does the next function. */
ASN1V_NODISCARD
asn1v_code asn1v_der_boolean(const uint8_t *octets, size_t octet_count, bool *value);

/* Reads how many bits the contents of a BIT STRING hold. The first of them is bit 8 of the contents (X.690 8.6,
 * 11.2.1). Returns ASN1V_CONTENTS if there are no octets, if the first octet says that more than seven bits are
 * unused, or more than there are, or if an unused bit is not zero. */
ASN1V_NODISCARD
asn1v_code asn1v_der_bit_string(const uint8_t *octets, size_t octet_count, size_t *count);

/* A time in UTC: day from 1 on, hour 0 to 23, minute and second 0 to 59. The day exists in its month and year. */
typedef struct asn1v_time {
    uint16_t year;
    uint8_t month;
    uint8_t day;
    uint8_t hour;
    uint8_t minute;
    uint8_t second;
} asn1v_time;

/* Reads the contents of a UTCTime, YYMMDDhhmmssZ, in the years 1950 to 2049 (X.690 11.8, RFC 5280 4.1.2.5.1). Returns
 * ASN1V_CONTENTS for another form, and for a day or a time of day that does not exist. */
ASN1V_NODISCARD
asn1v_code asn1v_der_utc_time(const uint8_t *octets, size_t octet_count, asn1v_time *time);

/* Reads the contents of a GeneralizedTime without a fraction of a second, YYYYMMDDhhmmssZ, as asn1v_der_utc_time does
 * (X.690 11.7, RFC 5280 4.1.2.5.2). */
ASN1V_NODISCARD
asn1v_code asn1v_der_generalized_time(const uint8_t *octets, size_t octet_count, asn1v_time *time);

#ifdef __cplusplus
}
#endif

#endif
