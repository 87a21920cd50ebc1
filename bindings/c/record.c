/* The personnel record of X.691 A.2 in CANONICAL-PER, unaligned: its values are written, compared with the octets of
 * the standard, and read back. Characters are those of ISO 646. The exit status is 0 if all are right. */
#include <inttypes.h>
#include <stdio.h>
#include <stdlib.h>
#include <string.h>

#include "asn1_values.h"

enum { RECORD_OCTETS = 61, MOST_OCTETS = 96, MOST_CHARACTERS = 127, MOST_CHILDREN = 4 };

static const uint8_t RECORD[RECORD_OCTETS] = {
    0x86, 0x5D, 0x51, 0xD2, 0x88, 0x8A, 0x51, 0x25, 0xF1, 0x80, 0x99, 0x84, 0x44, 0xD3, 0xCB, 0x2E,
    0x3E, 0x9B, 0xF9, 0x0C, 0xB8, 0x84, 0x8B, 0x86, 0x73, 0x96, 0xE8, 0xA8, 0x8A, 0x51, 0x25, 0xF1,
    0x81, 0x08, 0x9B, 0x93, 0xD7, 0x1A, 0xA2, 0x29, 0x44, 0x97, 0xC6, 0x32, 0xAE, 0x22, 0x22, 0x22,
    0x98, 0x5C, 0xE5, 0x21, 0x88, 0x5D, 0x54, 0xC1, 0x70, 0xCA, 0xC8, 0x38, 0xB8,
};

typedef char text[MOST_CHARACTERS + 1];

typedef struct {
    text given;
    text initial;
    text family;
} name;

typedef struct {
    name name;
    text date_of_birth;
} child;

typedef struct {
    name name;
    int64_t number;
    text title;
    text date_of_hire;
    name spouse;
    size_t child_count;
    child children[MOST_CHILDREN];
} record;

/* A VisibleString: its permitted characters, all if it is NULL, its least and greatest length, and the width of the
 * length field. */
typedef struct {
    const char *permitted;
    size_t least;
    size_t most;
    size_t width;
} string_type;

static const char NAME_CHARACTERS[] = "-.ABCDEFGHIJKLMNOPQRSTUVWXYZabcdefghijklmnopqrstuvwxyz";
static const string_type NAME_STRING = {NAME_CHARACTERS, 1, 64, 6};
static const string_type INITIAL = {NAME_CHARACTERS, 1, 1, 0};
static const string_type TITLE = {NULL, 0, MOST_CHARACTERS, 8};
static const string_type DATE = {"0123456789", 8, 8, 0};

/* A message, and the index of the first bit that is not written or read yet. */
typedef struct {
    uint8_t octets[MOST_OCTETS];
    size_t count;
    size_t at;
} message;

static void need(bool right, const char *what)
{
    if (!right) {
        printf("%s is not as expected\n", what);
        exit(1);
    }
}

/* Returns the alphabet of a string, which refers to the set. */
static asn1v_alphabet alphabet_of(const string_type *type, uint32_t *set)
{
    size_t count = type->permitted == NULL ? 0 : strlen(type->permitted);
    for (size_t i = 0; i < count; i++) {
        set[i] = (uint32_t)type->permitted[i];
    }
    asn1v_alphabet alphabet;
    need(asn1v_alphabet_new(ASN1V_VISIBLE_STRING, type->permitted != NULL, set, count, false, &alphabet) == ASN1V_DONE,
         "an alphabet");
    return alphabet;
}

/* ---- writing */

static void write_fields(message *m, const asn1v_alphabet *alphabet, const asn1v_shape *shapes,
                         const asn1v_field *fields, size_t count, const char *what)
{
    const uint8_t nothing = 0;
    asn1v_refusal refusal;
    need(asn1v_write_fields(m->octets, m->count, m->at, &nothing, 0, alphabet, 1, shapes, count, fields, count, &m->at,
                            &refusal) == ASN1V_DONE,
         what);
}

static void write_number(message *m, uint64_t value, size_t width, const char *what)
{
    const asn1v_shape shape = {ASN1V_NUMBER, width};
    const asn1v_field field = {0, 0, 0, value};
    uint32_t set[64];
    asn1v_alphabet unused = alphabet_of(&TITLE, set);
    write_fields(m, &unused, &shape, &field, 1, what);
}

static void write_string(message *m, const string_type *type, const char *value, const char *what)
{
    uint32_t set[64];
    asn1v_alphabet alphabet = alphabet_of(type, set);
    size_t length = strlen(value);
    need(type->least <= length && length <= type->most, what);
    write_number(m, length - type->least, type->width, what);
    asn1v_shape shapes[MOST_CHARACTERS];
    asn1v_field fields[MOST_CHARACTERS];
    for (size_t i = 0; i < length; i++) {
        shapes[i] = (asn1v_shape){ASN1V_CHARACTER_FIELD, 0};
        fields[i] = (asn1v_field){0, 0, 0, (uint64_t)(unsigned char)value[i]};
    }
    write_fields(m, &alphabet, shapes, fields, length, what);
}

static void write_name(message *m, const name *value, const char *what)
{
    write_string(m, &NAME_STRING, value->given, what);
    write_string(m, &INITIAL, value->initial, what);
    write_string(m, &NAME_STRING, value->family, what);
}

/* Writes an octet that counts the number's octets, and these octets. The upper bits of a negative number are ones. */
static void write_integer(message *m, int64_t number, const char *what)
{
    const asn1v_shape shape = {ASN1V_COUNTED_INTEGER, 0};
    const asn1v_field field = {0, 0, number < 0 ? UINT64_MAX : 0, (uint64_t)number};
    uint32_t set[64];
    asn1v_alphabet unused = alphabet_of(&TITLE, set);
    write_fields(m, &unused, &shape, &field, 1, what);
}

static void write_record(message *m, const record *r)
{
    write_number(m, r->child_count > 0, 1, "the presence of children");
    write_name(m, &r->name, "the name");
    write_integer(m, r->number, "the number");
    write_string(m, &TITLE, r->title, "the title");
    write_string(m, &DATE, r->date_of_hire, "the date of hire");
    write_name(m, &r->spouse, "the name of the spouse");
    if (r->child_count > 0) {
        write_number(m, r->child_count, 8, "the number of children");
        for (size_t i = 0; i < r->child_count; i++) {
            write_name(m, &r->children[i].name, "the name of a child");
            write_string(m, &DATE, r->children[i].date_of_birth, "a date of birth");
        }
    }
}

/* ---- reading */

static void read_fields(message *m, const asn1v_alphabet *alphabet, const asn1v_shape *shapes, asn1v_field *fields,
                        size_t count, const char *what)
{
    asn1v_refusal refusal;
    need(asn1v_read_fields(m->octets, m->count, m->at, alphabet, 1, shapes, count, fields, count, &m->at, &refusal) ==
             ASN1V_DONE,
         what);
}

static asn1v_field read_field(message *m, asn1v_shape shape, const char *what)
{
    asn1v_field field = {0, 0, 0, 0};
    uint32_t set[64];
    asn1v_alphabet unused = alphabet_of(&TITLE, set);
    read_fields(m, &unused, &shape, &field, 1, what);
    return field;
}

static uint64_t read_number(message *m, size_t width, const char *what)
{
    return read_field(m, (asn1v_shape){ASN1V_NUMBER, width}, what).low;
}

static void read_string(message *m, const string_type *type, char *value, const char *what)
{
    uint32_t set[64];
    asn1v_alphabet alphabet = alphabet_of(type, set);
    uint64_t more = read_number(m, type->width, what);
    need(more <= type->most - type->least, what);
    size_t length = type->least + (size_t)more;
    asn1v_shape shapes[MOST_CHARACTERS];
    asn1v_field fields[MOST_CHARACTERS];
    for (size_t i = 0; i < length; i++) {
        shapes[i] = (asn1v_shape){ASN1V_CHARACTER_FIELD, 0};
    }
    read_fields(m, &alphabet, shapes, fields, length, what);
    for (size_t i = 0; i < length; i++) {
        value[i] = (char)fields[i].low;
    }
    value[length] = '\0';
}

static void read_name(message *m, name *value, const char *what)
{
    read_string(m, &NAME_STRING, value->given, what);
    read_string(m, &INITIAL, value->initial, what);
    read_string(m, &NAME_STRING, value->family, what);
}

static int64_t read_integer(message *m, const char *what)
{
    asn1v_field field = read_field(m, (asn1v_shape){ASN1V_COUNTED_INTEGER, 0}, what);
    need(field.length <= 8 + 64, what);
    return (int64_t)field.low;
}

static void read_record(message *m, record *r)
{
    uint64_t present = read_number(m, 1, "the presence of children");
    read_name(m, &r->name, "the name");
    r->number = read_integer(m, "the number");
    read_string(m, &TITLE, r->title, "the title");
    read_string(m, &DATE, r->date_of_hire, "the date of hire");
    read_name(m, &r->spouse, "the name of the spouse");
    r->child_count = present ? (size_t)read_number(m, 8, "the number of children") : 0;
    need(present ? 1 <= r->child_count && r->child_count <= MOST_CHILDREN : true, "the number of children");
    for (size_t i = 0; i < r->child_count; i++) {
        read_name(m, &r->children[i].name, "the name of a child");
        read_string(m, &DATE, r->children[i].date_of_birth, "a date of birth");
    }
    size_t left = 8 * m->count - m->at;
    need(left < 8 && read_number(m, left, "the padding") == 0, "the padding");
}

static bool same_name(const name *a, const name *b)
{
    return strcmp(a->given, b->given) == 0 && strcmp(a->initial, b->initial) == 0 && strcmp(a->family, b->family) == 0;
}

static bool same_record(const record *a, const record *b)
{
    bool same = same_name(&a->name, &b->name) && a->number == b->number && strcmp(a->title, b->title) == 0
        && strcmp(a->date_of_hire, b->date_of_hire) == 0 && same_name(&a->spouse, &b->spouse)
        && a->child_count == b->child_count;
    for (size_t i = 0; same && i < a->child_count; i++) {
        same = same_name(&a->children[i].name, &b->children[i].name)
            && strcmp(a->children[i].date_of_birth, b->children[i].date_of_birth) == 0;
    }
    return same;
}

static void print_name(const char *what, const name *value)
{
    printf("%s: %s %s %s\n", what, value->given, value->initial, value->family);
}

static void print_record(const record *r)
{
    print_name("name", &r->name);
    printf("number: %" PRId64 "\n", r->number);
    printf("title: %s\n", r->title);
    printf("date of hire: %s\n", r->date_of_hire);
    print_name("name of spouse", &r->spouse);
    for (size_t i = 0; i < r->child_count; i++) {
        print_name("child", &r->children[i].name);
        printf("date of birth: %s\n", r->children[i].date_of_birth);
    }
}

int main(void)
{
    static const record smith = {
        .name = {"John", "P", "Smith"},
        .number = 51,
        .title = "Director",
        .date_of_hire = "19710917",
        .spouse = {"Mary", "T", "Smith"},
        .child_count = 2,
        .children = {
            {{"Ralph", "T", "Smith"}, "19571111"},
            {{"Susan", "B", "Jones"}, "19590717"},
        },
    };
    static message written = {.count = MOST_OCTETS};
    write_record(&written, &smith);
    written.count = (written.at + 7) / 8;
    for (size_t i = 0; i < written.count; i++) {
        printf("%02X", written.octets[i]);
    }
    printf("\n");
    need(written.count == RECORD_OCTETS && memcmp(written.octets, RECORD, RECORD_OCTETS) == 0, "the record");

    static record read;
    written.at = 0;
    read_record(&written, &read);
    need(same_record(&read, &smith), "what was read");
    print_record(&read);
    return 0;
}
