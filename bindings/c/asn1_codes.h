/* The codes that the functions of asn1_values.h return, with their texts, and the numbers of the strings. asn1_values.h
 * includes it. */
#ifndef ASN1V_CODES_H
#define ASN1V_CODES_H

#include <stdint.h>

/* What a function returns: one of enum asn1v_result. */
typedef uint32_t asn1v_code;

/* A compiler says which of them `switch ((enum asn1v_result)code)` lacks (-Wswitch). */
enum asn1v_result {
    ASN1V_DONE = 0,               /* it is done */
    ASN1V_OUTSIDE = 1,            /* bits are not all in their octets */
    ASN1V_WIDTH = 2,              /* a width exceeds what the function reads */
    ASN1V_ROOM = 3,               /* the caller's room is too small */
    ASN1V_EMPTY = 4,              /* there are no octets */
    ASN1V_OVERFLOW = 5,           /* the number does not fit */
    ASN1V_MALFORMED = 6,          /* not the contents of an identifier, however large its arcs */
    ASN1V_ARC_TOO_LARGE = 7,      /* contents of an identifier, one of whose arcs exceeds 32 bits */
    ASN1V_ARCS = 8,               /* not the arcs of an identifier (X.660) */
    ASN1V_ARC_COUNT = 9,          /* one arc, which has no contents */
    ASN1V_KIND = 10,              /* none of the eight strings */
    ASN1V_ODD = 11,               /* the octets are not whole characters */
    ASN1V_CHARACTER = 12,         /* a character is not in the set */
    ASN1V_SET = 13,               /* a permitted set of more than 2 to the power of 32 characters */
    ASN1V_CODE = 14,              /* a number is the code of no character */
    ASN1V_SHORT = 15,             /* the octets end before a field or an element does */
    ASN1V_TEXT = 16,              /* not the dotted text of an identifier whose arcs all fit 32 bits */
    ASN1V_LENGTH = 17,            /* a field is not as long as its shape says */
    ASN1V_COUNT = 18,             /* there are not as many fields as shapes */
    ASN1V_NOT_SHORTEST = 19,      /* octets are not the shortest of a number (X.690 8.3.2) */
    ASN1V_OCTET_COUNT = 20,       /* a counted integer has no octets, or more than 127 */
    ASN1V_SHAPE = 21,             /* a shape of an unknown kind, or of an alphabet that is missing */
    ASN1V_ALPHABET = 22,          /* not an alphabet as asn1v_alphabet_new fills it */
    ASN1V_TOO_MANY = 23,          /* more bits or octets than SIZE_MAX counts */
    ASN1V_DECIMAL = 24,           /* not the decimal text of a number */
    ASN1V_NO_UNICODE = 25,        /* a string whose characters are not those of Unicode */
    ASN1V_SURROGATE = 26,         /* a character is a surrogate, which UTF-8 has no octets for */
    ASN1V_NOT_UTF8 = 27,          /* octets are not UTF-8 */
    /* faults of an element of DER, and of the contents of one */
    ASN1V_NOT_MINIMAL = 28,       /* the number of a tag or a length has more octets than it needs */
    ASN1V_INDEFINITE = 29,        /* a length is indefinite */
    ASN1V_RESERVED = 30,          /* the first octet of a length is reserved */
    ASN1V_TAG_LARGE = 31,         /* the number of a tag does not fit 64 bits */
    ASN1V_CONTENTS = 32           /* the contents octets encode no value of the type */
};

/* Returns the text of a code in English. It is never null. */
static inline const char *asn1v_code_text(asn1v_code code) {
    switch (code) {
    case ASN1V_DONE:
        return "it is done";
    case ASN1V_OUTSIDE:
        return "bits are not all in their octets";
    case ASN1V_WIDTH:
        return "a width exceeds what the function reads";
    case ASN1V_ROOM:
        return "the caller's room is too small";
    case ASN1V_EMPTY:
        return "there are no octets";
    case ASN1V_OVERFLOW:
        return "the number does not fit";
    case ASN1V_MALFORMED:
        return "not the contents of an identifier, however large its arcs";
    case ASN1V_ARC_TOO_LARGE:
        return "contents of an identifier, one of whose arcs exceeds 32 bits";
    case ASN1V_ARCS:
        return "not the arcs of an identifier (X.660)";
    case ASN1V_ARC_COUNT:
        return "one arc, which has no contents";
    case ASN1V_KIND:
        return "none of the eight strings";
    case ASN1V_ODD:
        return "the octets are not whole characters";
    case ASN1V_CHARACTER:
        return "a character is not in the set";
    case ASN1V_SET:
        return "a permitted set of more than 2 to the power of 32 characters";
    case ASN1V_CODE:
        return "a number is the code of no character";
    case ASN1V_SHORT:
        return "the octets end before a field or an element does";
    case ASN1V_TEXT:
        return "not the dotted text of an identifier whose arcs all fit 32 bits";
    case ASN1V_LENGTH:
        return "a field is not as long as its shape says";
    case ASN1V_COUNT:
        return "there are not as many fields as shapes";
    case ASN1V_NOT_SHORTEST:
        return "octets are not the shortest of a number (X.690 8.3.2)";
    case ASN1V_OCTET_COUNT:
        return "a counted integer has no octets, or more than 127";
    case ASN1V_SHAPE:
        return "a shape of an unknown kind, or of an alphabet that is missing";
    case ASN1V_ALPHABET:
        return "not an alphabet as asn1v_alphabet_new fills it";
    case ASN1V_TOO_MANY:
        return "more bits or octets than SIZE_MAX counts";
    case ASN1V_DECIMAL:
        return "not the decimal text of a number";
    case ASN1V_NO_UNICODE:
        return "a string whose characters are not those of Unicode";
    case ASN1V_SURROGATE:
        return "a character is a surrogate, which UTF-8 has no octets for";
    case ASN1V_NOT_UTF8:
        return "octets are not UTF-8";
    case ASN1V_NOT_MINIMAL:
        return "the number of a tag or a length has more octets than it needs";
    case ASN1V_INDEFINITE:
        return "a length is indefinite";
    case ASN1V_RESERVED:
        return "the first octet of a length is reserved";
    case ASN1V_TAG_LARGE:
        return "the number of a tag does not fit 64 bits";
    case ASN1V_CONTENTS:
        return "the contents octets encode no value of the type";
    default:
        return "an unknown code";
    }
}

/* The eight restricted character strings (X.680 41): one of enum asn1v_string. */
typedef uint32_t asn1v_kind;

enum asn1v_string {
    ASN1V_BMP_STRING = 0,
    ASN1V_GENERAL_STRING = 1,
    ASN1V_GRAPHIC_STRING = 2,
    ASN1V_IA5_STRING = 3,
    ASN1V_NUMERIC_STRING = 4,
    ASN1V_PRINTABLE_STRING = 5,
    ASN1V_TELETEX_STRING = 6,
    ASN1V_VISIBLE_STRING = 7
};

#endif
