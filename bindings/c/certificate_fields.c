/* Reads a certificate (X.509, RFC 5280) in DER as fields, and writes these fields again, at bit 0 and at bit 3 of other
 * octets. A certificate has fields of all seven kinds: identifier octets and contents that are not examined are octets,
 * an INTEGER is a counted integer or an integer, a BOOLEAN is a number, the contents of a BIT
 * STRING are a number and bits, an OBJECT IDENTIFIER is one by its contents, and each character of a string of one
 * octet a character is one by its code.
 *
 * usage: certificate_fields <CERTIFICATE
 *        certificate_fields many <CERTIFICATES
 *
 * With `many` each certificate follows its length in four octets, most significant first. For each one line is printed:
 * how many fields it has, or the code of the first invalid one. */
#include "asn1_values.h"

#include <stdio.h>
#include <stdlib.h>
#include <string.h>

/* A code besides those of asn1_values.h: the octets that were written are not those that were read. */
#define OTHER_OCTETS UINT32_C(102)

/* The depth of elements within elements. The contents of deeper ones are octets. */
#define DEPTH 64

/* The indices of the alphabets, and their number. */
enum { IA5, PRINTABLE, VISIBLE, ALPHABETS };

/* Numbers of universal tags. */
enum { BOOLEAN = 1, INTEGER, BIT_STRING, OBJECT_IDENTIFIER = 6, PRINTABLE_STRING = 19, IA5_STRING = 22, VISIBLE_STRING = 26 };

typedef struct shapes {
    asn1v_shape *at;
    size_t count;
    size_t room;
} shapes;

static void *room_of(size_t count, size_t size)
{
    void *room = calloc(count ? count : 1, size);
    if (!room)
        abort();
    return room;
}

static void add(shapes *all, uint32_t kind, size_t count)
{
    if (all->count == all->room) {
        all->room = 2 * all->room + 64;
        all->at = realloc(all->at, all->room * sizeof *all->at);
        if (!all->at)
            abort();
    }
    all->at[all->count++] = (asn1v_shape){kind, count};
}

static void add_characters(shapes *all, size_t alphabet, size_t count)
{
    for (size_t i = 0; i < count; i++)
        add(all, ASN1V_CHARACTER_FIELD, alphabet);
}

/* Adds the fields of a primitive element that begins at the octet first. */
static void add_primitive(shapes *all, size_t first, const asn1v_element *element)
{
    const size_t front = element->first - first;
    const uint64_t number = element->class_number == 0 ? element->number : 0;
    if (number == INTEGER && front == 2 && element->length > 0) {
        add(all, ASN1V_OCTETS, 1);
        add(all, ASN1V_COUNTED_INTEGER, 0);
        return;
    }
    add(all, ASN1V_OCTETS, front);
    if (number == INTEGER) {
        add(all, ASN1V_INTEGER, element->length);
    } else if (number == BOOLEAN && element->length == 1) {
        add(all, ASN1V_NUMBER, 8);
    } else if (number == BIT_STRING && element->length > 0) {
        add(all, ASN1V_NUMBER, 8);
        add(all, ASN1V_BITS, 8 * (element->length - 1));
    } else if (number == OBJECT_IDENTIFIER) {
        add(all, ASN1V_IDENTIFIER, element->length);
    } else if (number == PRINTABLE_STRING) {
        add_characters(all, PRINTABLE, element->length);
    } else if (number == IA5_STRING) {
        add_characters(all, IA5, element->length);
    } else if (number == VISIBLE_STRING) {
        add_characters(all, VISIBLE, element->length);
    } else {
        add(all, ASN1V_OCTETS, element->length);
    }
}

/* Adds the shapes of the fields of all elements, from the outermost on. */
static asn1v_code shapes_of(const uint8_t *octets, size_t count, shapes *all)
{
    size_t ends[DEPTH] = {count}, depth = 1, at = 0;
    while (depth > 0) {
        if (at == ends[depth - 1]) {
            depth--;
            continue;
        }
        asn1v_element element;
        const asn1v_code code = asn1v_der_next(octets, ends[depth - 1], at, &element);
        if (code != ASN1V_DONE) return code;
        if (element.constructed && depth < DEPTH) {
            add(all, ASN1V_OCTETS, element.first - at);
            ends[depth++] = element.end;
            at = element.first;
        } else {
            add_primitive(all, at, &element);
            at = element.end;
        }
    }
    return ASN1V_DONE;
}

static asn1v_code prepare(asn1v_alphabet *alphabets)
{
    static const asn1v_kind kinds[ALPHABETS] = {ASN1V_IA5_STRING, ASN1V_PRINTABLE_STRING, ASN1V_VISIBLE_STRING};
    for (size_t i = 0; i < ALPHABETS; i++) {
        /* Codes are whole octets: in an aligned alphabet each of these characters is its own code. */
        const asn1v_code code = asn1v_alphabet_new(kinds[i], false, NULL, 0, true, &alphabets[i]);
        if (code != ASN1V_DONE) return code;
    }
    return ASN1V_DONE;
}

/* Reads the fields from bit `from` of the source on, and writes them from bit `to` of the target on. */
static asn1v_code copy_fields(const shapes *all, const asn1v_alphabet *alphabets, const uint8_t *source,
                              size_t source_count, size_t from, uint8_t *target, size_t target_count, size_t to)
{
    asn1v_field *fields = room_of(all->count, sizeof *fields);
    asn1v_refusal refusal;
    size_t end;
    asn1v_code code = asn1v_read_fields(source, source_count, from, alphabets, ALPHABETS, all->at, all->count, fields,
                                        all->count, &end, &refusal);
    if (code == ASN1V_DONE)
        code = asn1v_write_fields(target, target_count, to, source, source_count, alphabets, ALPHABETS, all->at,
                                  all->count, fields, all->count, &end, &refusal);
    free(fields);
    return code;
}

/* Copies the fields to bit 3 of other octets, and back. */
static asn1v_code there_and_back(const uint8_t *octets, size_t count, const shapes *all)
{
    asn1v_alphabet alphabets[ALPHABETS];
    uint8_t *at_bit_3 = room_of(count + 1, 1), *again = room_of(count, 1);
    asn1v_code code = prepare(alphabets);
    if (code == ASN1V_DONE) code = copy_fields(all, alphabets, octets, count, 0, at_bit_3, count + 1, 3);
    if (code == ASN1V_DONE) code = copy_fields(all, alphabets, at_bit_3, count + 1, 3, again, count, 0);
    if (code == ASN1V_DONE && memcmp(octets, again, count) != 0) code = OTHER_OCTETS;
    free(at_bit_3);
    free(again);
    return code;
}

static asn1v_code tell(const uint8_t *octets, size_t count)
{
    shapes all = {NULL, 0, 0};
    asn1v_code code = shapes_of(octets, count, &all);
    if (code == ASN1V_DONE) code = there_and_back(octets, count, &all);
    if (code == ASN1V_DONE)
        printf("%zu fields\n", all.count);
    else
        printf("rejected with code %u\n", code);
    free(all.at);
    return code;
}

int main(int argc, char **argv)
{
    static uint8_t input[1 << 24];
    const size_t size = fread(input, 1, sizeof input, stdin);
    if (argc < 2) return tell(input, size) != ASN1V_DONE;
    if (argc != 2 || strcmp(argv[1], "many") != 0)
        return 2;
    for (size_t at = 0; at + 4 <= size;) {
        const size_t count =
            (size_t)input[at] << 24 | (size_t)input[at + 1] << 16 | (size_t)input[at + 2] << 8 | input[at + 3];
        at += 4;
        if (count > size - at)
            return 2;
        tell(input + at, count);
        at += count;
    }
    return 0;
}
