/* Reads certificates (X.509, RFC 5280) in DER, and prints their serial number, signature algorithm, names and validity.
 * Only functions of asn1_values.h read the octets.
 *
 * usage: certificate <CERTIFICATE
 *        certificate many <CERTIFICATES
 *
 * With `many` each certificate follows its length in four octets, most significant first, and a line `end` follows the
 * lines of each. For rejected octets one line with the code is printed. A page that must not be read follows the octets
 * of a certificate, so a read after them ends the program. */
#define _DEFAULT_SOURCE
#include "asn1_values.h"

#include <stdio.h>
#include <stdlib.h>
#include <string.h>
#include <sys/mman.h>
#include <unistd.h>

/* Octets up to an end, and the index of the next one. */
typedef struct reader {
    const uint8_t *octets;
    size_t at;
    size_t end;
} reader;

/* Codes besides those of asn1_values.h. */
#define OTHER_TAG UINT32_C(100)   /* an element has another tag than in a certificate */
#define MORE UINT32_C(101)        /* there is more after the last element */

/* Numbers of universal tags. */
enum { INTEGER = 2, OBJECT_IDENTIFIER = 6, UTF8_STRING = 12, SEQUENCE = 16, SET = 17, UTC_TIME = 23, GENERALIZED_TIME = 24 };

static asn1v_code next(reader *in, asn1v_element *element)
{
    const asn1v_code code = asn1v_der_next(in->octets, in->end, in->at, element);
    if (code == ASN1V_DONE) in->at = element->end;
    return code;
}

static bool has_tag(const asn1v_element *element, bool constructed, uint64_t number)
{
    return element->class_number == 0 && element->constructed == constructed && element->number == number;
}

/* Reads the next element, which must be universal and have the tag. */
static asn1v_code expect(reader *in, bool constructed, uint64_t number, asn1v_element *element)
{
    const asn1v_code code = next(in, element);
    if (code == ASN1V_DONE && !has_tag(element, constructed, number)) return OTHER_TAG;
    return code;
}

static reader inside(const reader *in, const asn1v_element *element)
{
    const reader contents = {in->octets, element->first, element->first + element->length};
    return contents;
}

/* Reads the header of the next element, a SEQUENCE or a SET, and returns its contents. */
static asn1v_code enter(reader *in, uint64_t number, reader *contents)
{
    asn1v_element element;
    const asn1v_code code = expect(in, true, number, &element);
    if (code == ASN1V_DONE) *contents = inside(in, &element);
    return code;
}

static void *room_of(size_t size)
{
    void *room = malloc(size ? size : 1);
    if (!room)
        abort();
    return room;
}

static asn1v_code print_integer(reader *in, const char *word)
{
    asn1v_element element;
    asn1v_code code = expect(in, false, INTEGER, &element);
    if (code != ASN1V_DONE) return code;
    const uint8_t *octets = in->octets + element.first;
    if (!asn1v_integer_is_shortest(octets, element.length)) return ASN1V_NOT_SHORTEST;
    size_t count = 5 * element.length / 2 + 2;
    uint8_t *text = room_of(count);
    code = asn1v_integer_text(octets, element.length, text, count, &count);
    if (code == ASN1V_DONE) printf("%s %.*s\n", word, (int)count, (const char *)text);
    free(text);
    return code;
}

/* Prints an identifier after a word. */
static asn1v_code print_identifier(reader *in, const char *word)
{
    asn1v_element element;
    asn1v_code code = expect(in, false, OBJECT_IDENTIFIER, &element);
    if (code != ASN1V_DONE) return code;
    size_t count = element.length + 1;
    uint32_t *arcs = room_of(count * sizeof *arcs);
    uint8_t *text = room_of(11 * count);
    code = asn1v_oid_arcs(in->octets + element.first, element.length, arcs, count, &count);
    if (code == ASN1V_DONE) code = asn1v_oid_text(arcs, count, text, 11 * (element.length + 1), &count);
    if (code == ASN1V_DONE) printf("%s%.*s", word, (int)count, (const char *)text);
    free(text);
    free(arcs);
    return code;
}

/* Prints an AlgorithmIdentifier: an identifier, and parameters, which are not examined. */
static asn1v_code print_algorithm(reader *in, const char *word)
{
    reader algorithm;
    asn1v_code code = enter(in, SEQUENCE, &algorithm);
    if (code == ASN1V_DONE) code = print_identifier(&algorithm, word);
    if (code == ASN1V_DONE) printf("\n");
    return code;
}

static void print_text(const uint8_t *text, size_t count)
{
    for (size_t i = 0; i < count; i++) {
        if (text[i] < 0x20 || text[i] == 0x7F)
            printf("\\%02X", text[i]);
        else if (text[i] == '\\')
            printf("\\\\");
        else
            putchar(text[i]);
    }
}

/* Prints octets that are not text. */
static void print_octets(const uint8_t *octets, size_t count)
{
    putchar('#');
    for (size_t i = 0; i < count; i++)
        printf("%02X", octets[i]);
}

static bool is_string(uint64_t number, asn1v_kind *kind)
{
    switch (number) {
    case 18:
        *kind = ASN1V_NUMERIC_STRING;
        return true;
    case 19:
        *kind = ASN1V_PRINTABLE_STRING;
        return true;
    case 20:
        *kind = ASN1V_TELETEX_STRING;
        return true;
    case 22:
        *kind = ASN1V_IA5_STRING;
        return true;
    case 26:
        *kind = ASN1V_VISIBLE_STRING;
        return true;
    case 30:
        *kind = ASN1V_BMP_STRING;
        return true;
    default: return false;
    }
}

/* Returns whether the octets are UTF-8. */
static bool is_utf8(const uint8_t *text, size_t count)
{
    size_t octets = 0, place = 0;
    uint32_t character = 0;
    uint8_t none;
    return asn1v_string_from_utf8(ASN1V_BMP_STRING, text, count, &none, 0, &octets, &place, &character) !=
           ASN1V_NOT_UTF8;
}

static asn1v_code print_value(const uint8_t *octets, const asn1v_element *value)
{
    const uint8_t *contents = octets + value->first;
    if (has_tag(value, false, UTF8_STRING)) {
        if (!is_utf8(contents, value->length)) return ASN1V_NOT_UTF8;
        print_text(contents, value->length);
        return ASN1V_DONE;
    }
    asn1v_kind kind;
    if (value->class_number != 0 || value->constructed || !is_string(value->number, &kind) ||
        kind == ASN1V_TELETEX_STRING) {
        print_octets(contents, value->length);
        return ASN1V_DONE;
    }
    size_t count = 3 * value->length, place = 0;
    uint32_t character = 0;
    uint8_t *text = room_of(count);
    const asn1v_code code =
        asn1v_string_to_utf8(kind, contents, value->length, text, count, &count, &place, &character);
    if (code == ASN1V_DONE) print_text(text, count);
    free(text);
    return code;
}

/* Prints an AttributeTypeAndValue: an identifier, and any value. */
static asn1v_code print_attribute(reader *set, const char *word)
{
    reader attribute;
    asn1v_element value;
    asn1v_code code = enter(set, SEQUENCE, &attribute);
    if (code == ASN1V_DONE) code = print_identifier(&attribute, word);
    if (code == ASN1V_DONE) {
        putchar('=');
        code = next(&attribute, &value);
    }
    if (code == ASN1V_DONE) code = print_value(attribute.octets, &value);
    putchar('\n');
    return code == ASN1V_DONE && attribute.at != attribute.end ? MORE : code;
}

static asn1v_code print_name(reader *in, const char *word)
{
    reader name;
    asn1v_code code = enter(in, SEQUENCE, &name);
    while (code == ASN1V_DONE && name.at != name.end) {
        reader set;
        code = enter(&name, SET, &set);
        while (code == ASN1V_DONE && set.at != set.end)
            code = print_attribute(&set, word);
    }
    return code;
}

static asn1v_code print_time(reader *in, const char *word)
{
    asn1v_element element;
    asn1v_time time;
    asn1v_code code = next(in, &element);
    if (code != ASN1V_DONE) return code;
    if (has_tag(&element, false, UTC_TIME))
        code = asn1v_der_utc_time(in->octets + element.first, element.length, &time);
    else if (has_tag(&element, false, GENERALIZED_TIME))
        code = asn1v_der_generalized_time(in->octets + element.first, element.length, &time);
    else
        return OTHER_TAG;
    if (code == ASN1V_DONE)
        printf("%s %04u-%02u-%02u %02u:%02u:%02u\n", word, time.year, time.month, time.day, time.hour, time.minute,
               time.second);
    return code;
}

/* Prints the signed part: an optional version, and the rest in order. After the subject any elements may follow. */
static asn1v_code print_signed(reader *in)
{
    reader body;
    asn1v_element element;
    asn1v_code code = enter(in, SEQUENCE, &body);
    if (code != ASN1V_DONE) return code;
    const size_t start = body.at;
    code = next(&body, &element);
    if (code == ASN1V_DONE && !(element.class_number == 2 && element.constructed && element.number == 0))
        body.at = start;
    if (code == ASN1V_DONE) code = print_integer(&body, "serial");
    if (code == ASN1V_DONE) code = print_algorithm(&body, "signed by ");
    if (code == ASN1V_DONE) code = print_name(&body, "issuer ");
    reader validity;
    if (code == ASN1V_DONE) code = enter(&body, SEQUENCE, &validity);
    if (code == ASN1V_DONE) code = print_time(&validity, "from");
    if (code == ASN1V_DONE) code = print_time(&validity, "until");
    if (code == ASN1V_DONE) code = print_name(&body, "subject ");
    while (code == ASN1V_DONE && body.at != body.end)
        code = next(&body, &element);
    return code;
}

static asn1v_code print_certificate(const uint8_t *octets, size_t count)
{
    reader all = {octets, 0, count};
    reader certificate;
    asn1v_element signature;
    asn1v_code code = enter(&all, SEQUENCE, &certificate);
    if (code == ASN1V_DONE) code = print_signed(&certificate);
    if (code == ASN1V_DONE) code = print_algorithm(&certificate, "algorithm ");
    if (code == ASN1V_DONE) code = expect(&certificate, false, 3, &signature);
    size_t bits;
    if (code == ASN1V_DONE) code = asn1v_der_bit_string(octets + signature.first, signature.length, &bits);
    if (code == ASN1V_DONE) printf("signature of %zu bits\n", bits);
    return code == ASN1V_DONE && (certificate.at != certificate.end || all.at != all.end) ? MORE : code;
}

/* Prints a certificate from octets that end before a page that must not be read. */
static asn1v_code print_guarded(const uint8_t *octets, size_t count)
{
    const size_t page = (size_t)sysconf(_SC_PAGESIZE);
    const size_t whole = (count / page + 1) * page;
    uint8_t *pages = mmap(NULL, whole + page, PROT_READ | PROT_WRITE, MAP_PRIVATE | MAP_ANONYMOUS, -1, 0);
    if (pages == MAP_FAILED || mprotect(pages + whole, page, PROT_NONE) != 0)
        abort();
    uint8_t *copy = pages + (whole - count);
    memcpy(copy, octets, count);
    const asn1v_code code = print_certificate(copy, count);
    munmap(pages, whole + page);
    if (code != ASN1V_DONE) printf("rejected with code %u\n", code);
    return code;
}

int main(int argc, char **argv)
{
    static uint8_t input[1 << 24];
    const size_t size = fread(input, 1, sizeof input, stdin);
    if (argc < 2) return print_guarded(input, size) != ASN1V_DONE;
    if (argc != 2 || strcmp(argv[1], "many") != 0)
        return 2;
    for (size_t at = 0; at + 4 <= size;) {
        const size_t count =
            (size_t)input[at] << 24 | (size_t)input[at + 1] << 16 | (size_t)input[at + 2] << 8 | input[at + 3];
        at += 4;
        if (count > size - at)
            return 2;
        print_guarded(input + at, count);
        printf("end\n");
        at += count;
    }
    return 0;
}
