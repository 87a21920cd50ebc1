/* The example's fields, of all seven kinds. */
#include <string.h>

#include "asn1_values.h"
#include "example.h"

/* No alphabets: the pointer to them must not be null either. */
static const asn1v_alphabet NO_ALPHABETS[1];

static void fields(void)
{
    /* At bit 1: 101, two octets, and five bits; then 7 bits are left. */
    const uint8_t message[4] = {0x5A, 0x5B, 0xCF, 0x80};
    const asn1v_shape shapes[3] = {{ASN1V_NUMBER, 3}, {ASN1V_OCTETS, 2}, {ASN1V_BITS, 5}};
    asn1v_field read[3];
    asn1v_refusal refusal = {0, 0, 0, 0};
    size_t end = 0;
    asn1v_code code =
        asn1v_read_fields(message, sizeof message, 1, NO_ALPHABETS, 0, shapes, 3, read, 3, &end, &refusal);
    expect("three fields are read at bit 1", code == ASN1V_DONE && end == 25);
    expect("the number is returned", read[0].low == 5 && read[0].high == 0 && read[0].first == 1 && read[0].length == 3);
    expect("and where the octets lie", read[1].first == 4 && read[1].length == 16);
    uint64_t octets = 0;
    expect("which are A5BC",
           asn1v_read_u64(message, sizeof message, read[1].first, read[1].length, &octets) == ASN1V_DONE &&
               octets == 0xA5BC);
    expect("and the bits", read[2].first == 20 && read[2].length == 5);

    code = asn1v_read_fields(message, sizeof message, 17, NO_ALPHABETS, 0, shapes, 3, read, 3, &end, &refusal);
    expect("at bit 17 the octets are four bits short", code == ASN1V_SHORT && refusal.code == ASN1V_SHORT &&
                                                           refusal.field == 1 && refusal.low == 4 && refusal.high == 0);
    const asn1v_shape wide[1] = {{ASN1V_NUMBER, 129}};
    code = asn1v_read_fields(message, sizeof message, 0, NO_ALPHABETS, 0, wide, 1, read, 3, &end, &refusal);
    expect("129 bits are too wide", code == ASN1V_WIDTH && refusal.field == 0 && refusal.low == 129);
    expect("the position is past the end", asn1v_read_fields(message, sizeof message, 33, NO_ALPHABETS, 0, shapes, 3,
                                                             read, 3, &end, &refusal) == ASN1V_OUTSIDE);
    expect("two fields are no room for three", asn1v_read_fields(message, sizeof message, 1, NO_ALPHABETS, 0, shapes, 3,
                                                                 read, 2, &end, &refusal) == ASN1V_ROOM);
}

/* Checks how the only field of a kind is rejected, and that nothing has changed. */
static asn1v_code refused(asn1v_shape shape, asn1v_field field)
{
    const uint8_t source[2] = {0xFF, 0xFF};
    uint8_t target[2] = {0x12, 0x34};
    size_t end = 7;
    asn1v_refusal refusal = {0, 9, 0, 0};
    asn1v_code code =
        asn1v_write_fields(target, 2, 3, source, 2, NO_ALPHABETS, 0, &shape, 1, &field, 1, &end, &refusal);
    bool same = target[0] == 0x12 && target[1] == 0x34 && end == 7;
    bool named = refusal.code == code && refusal.field == (code == ASN1V_ROOM ? 1 : 0);
    if (code == ASN1V_ROOM) {
        named = named && refusal.low == 3 + field.length && refusal.high == 0;
    }
    return same && named ? code : ASN1V_DONE;
}

static void written_fields(void)
{
    /* What is read at bit 1 of one message is written at bit 4 of another, over ones. */
    const uint8_t message[4] = {0x5A, 0x5B, 0xCF, 0x80};
    const asn1v_shape shapes[3] = {{ASN1V_NUMBER, 3}, {ASN1V_OCTETS, 2}, {ASN1V_BITS, 5}};
    asn1v_field read[3];
    asn1v_refusal refusal = {0, 0, 0, 0};
    size_t end = 0;
    asn1v_code code =
        asn1v_read_fields(message, sizeof message, 1, NO_ALPHABETS, 0, shapes, 3, read, 3, &end, &refusal);
    uint8_t target[4] = {0xFF, 0xFF, 0xFF, 0xFF};
    if (code == ASN1V_DONE) {
        code = asn1v_write_fields(target, sizeof target, 4, message, sizeof message, NO_ALPHABETS, 0, shapes, 3, read,
                                  3, &end, &refusal);
    }
    expect("what was read is written to another place",
           code == ASN1V_DONE && end == 28 && memcmp(target, "\xFB\x4B\x79\xFF", 4) == 0);

    expect("no field of an unknown kind", refused((asn1v_shape){7, 1}, (asn1v_field){0, 1, 0, 0}) == ASN1V_SHAPE);
    expect("no character of an alphabet that is missing",
           refused((asn1v_shape){ASN1V_CHARACTER_FIELD, 0}, (asn1v_field){0, 0, 0, 'a'}) == ASN1V_SHAPE);
    expect("no integer of one octet for 128",
           refused((asn1v_shape){ASN1V_INTEGER, 1}, (asn1v_field){0, 0, 0, 128}) == ASN1V_LENGTH);
    expect("no identifier of the octets FF FF",
           refused((asn1v_shape){ASN1V_IDENTIFIER, 2}, (asn1v_field){0, 16, 0, 0}) == ASN1V_MALFORMED);
    expect("no number of 129 bits",
           refused((asn1v_shape){ASN1V_NUMBER, 129}, (asn1v_field){0, 0, 0, 0}) == ASN1V_WIDTH);
    expect("no 8 in three bits", refused((asn1v_shape){ASN1V_NUMBER, 3}, (asn1v_field){0, 0, 0, 8}) == ASN1V_OVERFLOW);
    expect("no octet of seven bits",
           refused((asn1v_shape){ASN1V_OCTETS, 1}, (asn1v_field){0, 7, 0, 0}) == ASN1V_LENGTH);
    expect("no bits past the source",
           refused((asn1v_shape){ASN1V_BITS, 4}, (asn1v_field){13, 4, 0, 0}) == ASN1V_OUTSIDE);
    expect("14 bits are too many", refused((asn1v_shape){ASN1V_BITS, 14}, (asn1v_field){0, 14, 0, 0}) == ASN1V_ROOM);
    code = asn1v_write_fields(target, sizeof target, 4, message, sizeof message, NO_ALPHABETS, 0, shapes, 3, read, 2,
                              &end, &refusal);
    expect("each field has a shape", code == ASN1V_COUNT && end == 28);
}

/* Checks a message of all seven kinds from bit 1 on, and the fields that are read: 5 in three bits, the octet A5, two
 * bits 10, the integer -129 in two octets, 128 after the octet that counts it, b of the letters a and b, and 2.100.3. */
static void seven_kinds(void)
{
    const uint32_t letters[2] = {'a', 'b'};
    asn1v_alphabet alphabet;
    expect("an alphabet is prepared",
           asn1v_alphabet_new(ASN1V_IA5_STRING, true, letters, 2, false, &alphabet) == ASN1V_DONE);
    const uint8_t source[5] = {0xA5, 0x80, 0x81, 0x34, 0x03};
    const asn1v_shape shapes[7] = {
        {ASN1V_NUMBER, 3},          {ASN1V_OCTETS, 1},          {ASN1V_BITS, 2},       {ASN1V_INTEGER, 2},
        {ASN1V_COUNTED_INTEGER, 0}, {ASN1V_CHARACTER_FIELD, 0}, {ASN1V_IDENTIFIER, 3},
    };
    const asn1v_field fields[7] = {
        {0, 0, 0, 5},   {0, 8, 0, 0},   {8, 2, 0, 0},   {0, 0, UINT64_MAX, (uint64_t)-129},
        {0, 0, 0, 128}, {0, 0, 0, 'b'}, {16, 24, 0, 0},
    };
    uint8_t message[12] = {0};
    size_t end = 0;
    asn1v_refusal refusal = {0, 0, 0, 0};
    asn1v_code code = asn1v_write_fields(message, sizeof message, 1, source, sizeof source, &alphabet, 1, shapes, 7,
                                         fields, 7, &end, &refusal);
    /* 0 101 10100101 10 | 1111111101111111 | 00000010 0000000010000000 | 1 | 813403 */
    expect("seven kinds are written",
           code == ASN1V_DONE && end == 79 && memcmp(message, "\x5A\x5B\xFD\xFC\x08\x02\x03\x02\x68\x06", 10) == 0);

    asn1v_field read[7];
    code = asn1v_read_fields(message, sizeof message, 1, &alphabet, 1, shapes, 7, read, 7, &end, &refusal);
    expect("and read", code == ASN1V_DONE && end == 79);
    expect("an integer by its number", (int64_t)read[3].low == -129 && read[3].first == 14 && read[3].length == 16);
    expect("after its count too", read[4].low == 128 && read[4].first == 30 && read[4].length == 24);
    expect("a character with its code", read[5].low == 'b' && read[5].high == 1 && read[5].length == 1);
    uint8_t contents[3];
    uint32_t arcs[4];
    size_t arc_count = 0;
    expect("contents are put on a boundary",
           asn1v_octets_at(message, sizeof message, read[6].first, 3, contents, sizeof contents) == ASN1V_DONE &&
               asn1v_oid_arcs(contents, 3, arcs, 4, &arc_count) == ASN1V_DONE && arc_count == 3 && arcs[1] == 100);
    expect("for which two octets are no room", asn1v_octets_at(message, 12, 55, 3, contents, 2) == ASN1V_ROOM);
    expect("nor are there twelve from bit 1 on", asn1v_octets_at(message, 12, 1, 12, contents, 3) == ASN1V_OUTSIDE);

    uint8_t again[12] = {0};
    code = asn1v_write_fields(again, sizeof again, 1, message, sizeof message, &alphabet, 1, shapes, 7, read, 7, &end,
                              &refusal);
    expect("what was read is written again", code == ASN1V_DONE && memcmp(again, message, sizeof message) == 0);
    const asn1v_field letter = {0, 0, 0, 'c'};
    code =
        asn1v_write_fields(again, sizeof again, 0, source, 1, &alphabet, 1, &shapes[5], 1, &letter, 1, &end, &refusal);
    expect("but no c", code == ASN1V_CHARACTER && refusal.field == 0 && refusal.low == 'c');
}

/* Checks the code and the number with which the only field of a shape is rejected in four octets. */
static bool is_no_field(asn1v_shape shape, const char *octets, asn1v_code wanted, uint64_t number)
{
    asn1v_field read = {7, 7, 7, 7};
    size_t end = 9;
    asn1v_refusal refusal = {0, 0, 0, 0};
    asn1v_code code =
        asn1v_read_fields((const uint8_t *)octets, 4, 0, NO_ALPHABETS, 0, &shape, 1, &read, 1, &end, &refusal);
    return code == wanted && refusal.code == wanted && refusal.low == number && end == 9 && read.first == 7;
}

static void refused_kinds(void)
{
    expect("00 7F is not shortest",
           is_no_field((asn1v_shape){ASN1V_INTEGER, 2}, "\x00\x7F\x00\x00", ASN1V_NOT_SHORTEST, 0));
    expect("nor is FF 80 after its count",
           is_no_field((asn1v_shape){ASN1V_COUNTED_INTEGER, 0}, "\x02\xFF\x80\x00", ASN1V_NOT_SHORTEST, 0));
    expect("no octets are none",
           is_no_field((asn1v_shape){ASN1V_INTEGER, 0}, "\x00\x00\x00\x00", ASN1V_NOT_SHORTEST, 0));
    expect("128 octets are too many",
           is_no_field((asn1v_shape){ASN1V_COUNTED_INTEGER, 0}, "\x80\x00\x00\x00", ASN1V_OCTET_COUNT, 128));
    expect("eight bits of four octets are missing",
           is_no_field((asn1v_shape){ASN1V_COUNTED_INTEGER, 0}, "\x04\x01\x00\x00", ASN1V_SHORT, 8));
    expect("80 begins no contents",
           is_no_field((asn1v_shape){ASN1V_IDENTIFIER, 2}, "\x80\x01\x00\x00", ASN1V_MALFORMED, 0));
    expect("there is no eighth kind", is_no_field((asn1v_shape){7, 1}, "\x00\x00\x00\x00", ASN1V_SHAPE, 0));
}

void example_of_fields(void)
{
    fields();
    written_fields();
    seven_kinds();
    refused_kinds();
}
