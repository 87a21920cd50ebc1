/* Messages of any ASN.1 module from C, by DER (X.690) and by PER, unaligned and aligned (X.691).
 *
 * A module is read at run time. The library is the crate asn1-messages, built by cargo: proved sources,
 * compiled by rustc, and a layer of C that is tested. A call that returns another code than ASN1M_DONE
 * leaves the error in words in its last argument, with its line and column or its offset and path.
 *
 * There is no global state. Different threads may use one schema, one codec and one message at the same
 * time, if none of them frees it. A pointer may be null where it says so, or if the count beside it is 0.
 * Texts are UTF-8. A text or octets that a call made are freed by asn1m_octets_free, which may be called
 * for those of a call that failed too; their octet after the last one is 0. Where Rust's library has no
 * memory for a small block of its own, it ends the program.
 */
#ifndef ASN1_MESSAGES_H
#define ASN1_MESSAGES_H

#include <stddef.h>
#include <stdint.h>

#ifdef __cplusplus
extern "C" {
#endif

/* The types of modules. */
typedef struct asn1m_schema asn1m_schema;
/* What decodes and encodes values of one type by one of the rules. */
typedef struct asn1m_codec asn1m_codec;
/* A decoded value. */
typedef struct asn1m_message asn1m_message;

/* Octets, or the octets of a text. */
typedef struct asn1m_octets {
    uint8_t *at;
    size_t count;
} asn1m_octets;

enum asn1m_rules { ASN1M_DER = 0, ASN1M_UPER = 1, ASN1M_APER = 2 };

enum asn1m_result {
    ASN1M_DONE = 0,
    /* The module, the octets, the JSON, the name or the value is invalid. */
    ASN1M_INVALID = 1,
    /* Out of memory. */
    ASN1M_MEMORY = 2,
    /* The message has no value of this kind at the path. */
    ASN1M_ABSENT = 3
};

/* Reads the text of one or more modules (X.680 to X.683). */
int asn1m_schema_parse(const char *text, size_t count, asn1m_schema **schema, asn1m_octets *error);

/* Frees a schema, which may be null. Codecs of it stay valid. */
void asn1m_schema_free(asn1m_schema *schema);

/* Makes what decodes and encodes values of a type, by its name (Type or Module.Type, ended by a 0). A value
 * of more levels than `depth` is invalid: each takes some stack. 0 is 50 levels. */
int asn1m_codec_new(const asn1m_schema *schema, const char *type, enum asn1m_rules rules, size_t depth,
                    asn1m_codec **codec, asn1m_octets *error);

/* Frees a codec, which may be null. Messages of it stay valid. */
void asn1m_codec_free(asn1m_codec *codec);

/* Decodes a value to JSON (X.697). The octets must end where the value ends. */
int asn1m_decode_to_json(const asn1m_codec *codec, const uint8_t *octets, size_t count, asn1m_octets *json);

/* Encodes a value of JSON (X.697). Items of a SET OF are put in order. */
int asn1m_encode_json(const asn1m_codec *codec, const char *json, size_t count, asn1m_octets *octets);

/* Decodes a value. The message has a copy of its octets. */
int asn1m_decode(const asn1m_codec *codec, const uint8_t *octets, size_t count, asn1m_message **message,
                 asn1m_octets *error);

/* Frees a message, which may be null. */
void asn1m_message_free(asn1m_message *message);

/* Encodes a message by other rules, or for another type of the same structure. */
int asn1m_encode(const asn1m_codec *codec, const asn1m_message *message, asn1m_octets *octets);

/* The value at a path, which is ended by a 0: names of components and of the alternatives of a CHOICE, and
 * indexes of items from 0 on, as in "tbsCertificate.extensions[0].extnID". The empty path is the whole value.
 * ASN1M_ABSENT says that there is none, or that it is not of the kind of the call. */

/* The text of a value, in the value notation of X.680. */
int asn1m_get_text(const asn1m_message *message, const char *path, asn1m_octets *text);

/* An INTEGER from -2^63 to 2^63 - 1, the index of an ENUMERATED, or 0 or 1 for a BOOLEAN. */
int asn1m_get_i64(const asn1m_message *message, const char *path, int64_t *value);

/* The octets of an OCTET STRING or of an open type; the minimal octets of an INTEGER (X.690 8.3). */
int asn1m_get_octets(const asn1m_message *message, const char *path, asn1m_octets *octets);

/* How many items a SEQUENCE OF or a SET OF has. */
int asn1m_get_count(const asn1m_message *message, const char *path, size_t *count);

/* Frees octets, and makes them empty. */
void asn1m_octets_free(asn1m_octets *octets);

#ifdef __cplusplus
}
#endif

#endif
