/* A few values written, read and rejected by the C functions. Each printed line says whether a value is the expected
 * one. The exit status is 0 if all are right. */
#include <stdio.h>
#include <string.h>

#include "asn1_values.h"
#include "example.h"

static int wrong;

void expect(const char *what, bool right)
{
    printf("%s: %s\n", what, right ? "right" : "WRONG");
    if (!right) {
        wrong = 1;
    }
}

static void codes(void)
{
    expect("the processor suffices", asn1v_processor_suffices());
    expect("header and library have one version", asn1v_version() == ASN1V_VERSION_NUMBER);
    expect("a code has a text", strcmp(asn1v_code_text(ASN1V_ROOM), "the caller's room is too small") == 0);
    expect("and so has a number that is none", strcmp(asn1v_code_text(1000), "an unknown code") == 0);
}

static void bits(void)
{
    /* 101, then the octet A5, then 0s. */
    uint8_t message[2] = {0, 0};
    const uint8_t three[1] = {0xA0};
    const uint8_t octet[1] = {0xA5};
    asn1v_code first = asn1v_or_bits(message, sizeof message, 0, three, 1, 0, 3);
    asn1v_code second = asn1v_or_bits(message, sizeof message, 3, octet, 1, 0, 8);
    expect("two fields are placed one after another",
           first == ASN1V_DONE && second == ASN1V_DONE && message[0] == 0xB4 && message[1] == 0xA0);

    uint8_t numbers[2] = {0x80, 0};
    const asn1v_words five = {0, 5};
    expect("a number is placed after a bit",
           asn1v_or_number(numbers, 2, 1, &five, 3) == ASN1V_DONE && numbers[0] == 0xD0 && numbers[1] == 0);
    expect("in two bits it does not fit",
           asn1v_or_number(numbers, 2, 4, &five, 2) == ASN1V_OVERFLOW && numbers[0] == 0xD0);
    expect("nor past the end", asn1v_or_number(numbers, 2, 14, &five, 3) == ASN1V_OUTSIDE && numbers[1] == 0);

    uint64_t value = 7;
    expect("a number at bit 3", asn1v_read_u64(message, 2, 3, 8, &value) == ASN1V_DONE && value == 0xA5);
    expect("a number past the end is rejected, and the value is unchanged",
           asn1v_read_u64(message, 2, 12, 8, &value) == ASN1V_OUTSIDE && value == 0xA5);
    expect("a width over 64 is rejected", asn1v_read_u64(message, 2, 0, 65, &value) == ASN1V_WIDTH);

    const uint8_t wide[17] = {0x0F, 0xFF, 0, 0, 0, 0, 0, 0, 0, 0, 0, 0, 0, 0, 0, 0, 0x10};
    asn1v_words words = {0, 0};
    expect("a number of 128 bits at bit 4", asn1v_read_u128(wide, sizeof wide, 4, 128, &words) == ASN1V_DONE &&
                                                words.high == UINT64_C(0xFFF0000000000000) && words.low == 1);

    int32_t order = 0;
    expect("lists of bits are compared wherever they lie",
           asn1v_compare_bits(message, 2, 3, 8, octet, 1, 0, 8, &order) == ASN1V_DONE && order == 0);
    expect("a front is below what it begins",
           asn1v_compare_bits(message, 2, 3, 7, octet, 1, 0, 8, &order) == ASN1V_DONE && order == -1);
}

static void integers(void)
{
    uint8_t room[8];
    size_t count = 0;
    expect("128 has two octets", asn1v_integer_from_i64(128, room, sizeof room, &count) == ASN1V_DONE && count == 2 &&
                                     room[0] == 0x00 && room[1] == 0x80);
    expect("they do not fit one, and the count is returned",
           asn1v_integer_from_i64(128, room, 1, &count) == ASN1V_ROOM && count == 2);

    int64_t number = 0;
    const uint8_t padded[10] = {0xFF, 0xFF, 0xFF, 0xFF, 0xFF, 0xFF, 0xFF, 0xFF, 0xFF, 0x80};
    expect("ten octets of -128", asn1v_integer_to_i64(padded, sizeof padded, &number) == ASN1V_DONE && number == -128);
    expect("are not the shortest", !asn1v_integer_is_shortest(padded, sizeof padded));
    expect("nine of them repeat the sign", asn1v_integer_redundant(padded, sizeof padded) == 9);

    const uint8_t large[9] = {0x00, 0x80, 0, 0, 0, 0, 0, 0, 0};
    expect("2 to the power of 63 does not fit",
           asn1v_integer_to_i64(large, sizeof large, &number) == ASN1V_OVERFLOW && number == -128);
    int32_t order = 0;
    expect("it is above -128",
           asn1v_integer_compare(padded, sizeof padded, large, sizeof large, &order) == ASN1V_DONE && order == -1);
    expect("no octets are no number", asn1v_integer_to_i64(padded, 0, &number) == ASN1V_EMPTY);
}

static bool is_text(const uint8_t *octets, size_t count, const char *text)
{
    return count == strlen(text) && memcmp(octets, text, count) == 0;
}

static void wide_integers(void)
{
    uint8_t room[40];
    size_t count = 0;
    uint64_t number = 0;
    const uint8_t large[9] = {0x00, 0x80, 0, 0, 0, 0, 0, 0, 0};
    expect("2 to the power of 63, unsigned",
           asn1v_integer_to_u64(large, sizeof large, &number) == ASN1V_DONE && number == UINT64_C(1) << 63);
    expect("has nine octets", asn1v_integer_from_u64(number, room, sizeof room, &count) == ASN1V_DONE && count == 9 &&
                                  memcmp(room, large, 9) == 0);
    const uint8_t below[1] = {0xFF};
    expect("-1 has a sign", asn1v_integer_to_u64(below, 1, &number) == ASN1V_OVERFLOW && number == UINT64_C(1) << 63);

    const uint8_t least[16] = {0x80};
    asn1v_words words = {0, 0};
    expect("the least number of 128 bits", asn1v_integer_to_i128(least, sizeof least, &words) == ASN1V_DONE &&
                                               words.high == UINT64_C(1) << 63 && words.low == 0);
    expect("has sixteen octets", asn1v_integer_from_i128(&words, room, sizeof room, &count) == ASN1V_DONE &&
                                     count == 16 && memcmp(room, least, 16) == 0);
    expect("the same words, unsigned, have seventeen",
           asn1v_integer_from_u128(&words, room, sizeof room, &count) == ASN1V_DONE && count == 17 && room[0] == 0);
    asn1v_words back = {0, 0};
    expect("which are read back", asn1v_integer_to_u128(room, 17, &back) == ASN1V_DONE && back.high == words.high);
    expect("and have no sign to lose", asn1v_integer_to_i128(room, 17, &back) == ASN1V_OVERFLOW);

    expect("it is written in decimal",
           asn1v_integer_text(least, sizeof least, room, sizeof room, &count) == ASN1V_DONE &&
               is_text(room, count, "-170141183460469231731687303715884105728"));
    expect("39 octets are no room for it",
           asn1v_integer_text(least, sizeof least, room, 39, &count) == ASN1V_ROOM && count == 40);
    const uint8_t wide[18] = {0, 1};
    uint8_t text[47];
    expect("2 to the power of 128 has as many digits as any number of 17 octets may have",
           asn1v_integer_text(wide, sizeof wide, text, 43, &count) == ASN1V_ROOM && count == 44);
    expect("and of these 39", asn1v_integer_text(wide, sizeof wide, text, 44, &count) == ASN1V_DONE &&
                                  is_text(text, count, "340282366920938463463374607431768211456"));
    expect("which have 17 octets", asn1v_integer_from_text(text, count, room, 19, &count) == ASN1V_ROOM && count == 20);
    expect("that are read back", asn1v_integer_from_text(text, 39, room, 20, &count) == ASN1V_DONE && count == 17 &&
                                     memcmp(room, wide + 1, 17) == 0);
    const uint8_t deep[17] = {0x80};
    expect("so has a number below zero",
           asn1v_integer_text(deep, sizeof deep, text, sizeof text, &count) == ASN1V_DONE &&
               is_text(text, count, "-43556142965880123323311949751266331066368"));
    expect("with its octets", asn1v_integer_from_text(text, count, room, sizeof room, &count) == ASN1V_DONE &&
                                  count == 17 && memcmp(room, deep, 17) == 0);
    expect("a number is read in decimal",
           asn1v_integer_from_text((const uint8_t *)"-129", 4, room, sizeof room, &count) == ASN1V_DONE && count == 2 &&
               room[0] == 0xFF && room[1] == 0x7F);
    expect("also where it has no sign to spare",
           asn1v_integer_from_text((const uint8_t *)"340282366920938463463374607431768211455", 39, room, sizeof room,
                                   &count) == ASN1V_DONE &&
               count == 17 && room[0] == 0 && room[16] == 0xFF);
    expect("a leading zero is rejected",
           asn1v_integer_from_text((const uint8_t *)"01", 2, room, sizeof room, &count) == ASN1V_DECIMAL);
    expect("and so is -0",
           asn1v_integer_from_text((const uint8_t *)"-0", 2, room, sizeof room, &count) == ASN1V_DECIMAL);
}

static void elements(void)
{
    /* SEQUENCE { BOOLEAN TRUE, [1] of 200 octets with an identifier in two, BIT STRING '1010'B } */
    uint8_t octets[220] = {0x30, 0x81, 0xD3, 0x01, 0x01, 0xFF, 0x9F, 0x1F, 0x81, 0xC8};
    const uint8_t bits[4] = {0x03, 0x02, 0x04, 0xA0};
    memcpy(octets + 210, bits, sizeof bits);
    asn1v_element outer, inner;
    bool value = false;
    size_t count = 0;
    expect("an element", asn1v_der_next(octets, 214, 0, &outer) == ASN1V_DONE && outer.class_number == 0 &&
                             outer.constructed && outer.number == 16 && outer.first == 3 && outer.length == 211 &&
                             outer.end == 214);
    expect("holds others", asn1v_der_next(octets, outer.end, outer.first, &inner) == ASN1V_DONE && inner.number == 1 &&
                               inner.first == 5 && inner.length == 1 && inner.end == 6);
    expect("a Boolean", asn1v_der_boolean(octets + inner.first, inner.length, &value) == ASN1V_DONE && value);
    expect("then one of a context", asn1v_der_next(octets, outer.end, inner.end, &inner) == ASN1V_DONE &&
                                        inner.class_number == 2 && !inner.constructed && inner.number == 31 &&
                                        inner.length == 200);
    expect("and bits", asn1v_der_next(octets, outer.end, inner.end, &inner) == ASN1V_DONE && inner.end == outer.end &&
                           asn1v_der_bit_string(octets + inner.first, inner.length, &count) == ASN1V_DONE &&
                           count == 4);
    expect("and none after it", asn1v_der_next(octets, outer.end, inner.end, &inner) == ASN1V_SHORT);
    expect("which differs from an index past the end",
           asn1v_der_next(octets, outer.end, outer.end + 1, &inner) == ASN1V_OUTSIDE && inner.number == 3);
    expect("contents that are cut", asn1v_der_next(octets, 213, 0, &outer) == ASN1V_SHORT && outer.end == 214);
    const struct {
        uint8_t octets[12];
        size_t count;
        asn1v_code code;
    } refused[] = {
        {{0x1F}, 1, ASN1V_SHORT},
        {{0x1F, 0x80, 0x7F, 0x00}, 4, ASN1V_NOT_MINIMAL},
        {{0x1F, 0x1E, 0x00}, 3, ASN1V_NOT_MINIMAL},
        {{0x1F, 0x82, 0x80, 0x80, 0x80, 0x80, 0x80, 0x80, 0x80, 0x80, 0x00, 0x00}, 12, ASN1V_TAG_LARGE},
        {{0x30}, 1, ASN1V_SHORT},
        {{0x30, 0x82, 0x01}, 3, ASN1V_SHORT},
        {{0x30, 0x80, 0x00, 0x00}, 4, ASN1V_INDEFINITE},
        {{0x04, 0x89, 0x01}, 3, ASN1V_SHORT},
        {{0x04, 0xFF, 0x01}, 3, ASN1V_RESERVED},
        {{0x04, 0x81, 0x01, 0x00}, 4, ASN1V_NOT_MINIMAL},
        {{0x04, 0x02, 0x00}, 3, ASN1V_SHORT},
    };
    for (size_t i = 0; i < sizeof refused / sizeof refused[0]; i++)
        expect("the first fault",
               asn1v_der_next(refused[i].octets, refused[i].count, 0, &inner) == refused[i].code);
    const uint8_t wrong[3][2] = {{0x08, 0x00}, {0x04, 0xA1}, {0x01, 0x00}};
    expect("eight unused bits", asn1v_der_bit_string(wrong[0], 2, &count) == ASN1V_CONTENTS && count == 4);
    expect("unused bits that are not zero", asn1v_der_bit_string(wrong[1], 2, &count) == ASN1V_CONTENTS);
    expect("no octet", asn1v_der_bit_string(wrong[1], 0, &count) == ASN1V_CONTENTS);
    expect("01 is no Boolean", asn1v_der_boolean(wrong[2], 1, &value) == ASN1V_CONTENTS && value);
    expect("nor are two octets", asn1v_der_boolean(wrong[2], 2, &value) == ASN1V_CONTENTS);
}

static asn1v_code utc(const char *text, asn1v_time *time)
{
    return asn1v_der_utc_time((const uint8_t *)text, strlen(text), time);
}

static asn1v_code generalized(const char *text, asn1v_time *time)
{
    return asn1v_der_generalized_time((const uint8_t *)text, strlen(text), time);
}

static void times(void)
{
    asn1v_time time;
    expect("a time", utc("491231235959Z", &time) == ASN1V_DONE && time.year == 2049 && time.month == 12 &&
                         time.day == 31 && time.hour == 23 && time.minute == 59 && time.second == 59);
    expect("of the century before", utc("500101000000Z", &time) == ASN1V_DONE && time.year == 1950);
    expect("29 February 2000", utc("000229000000Z", &time) == ASN1V_DONE && time.day == 29);
    expect("not of 2001", utc("010229000000Z", &time) == ASN1V_CONTENTS && time.year == 2000);
    expect("without seconds", utc("0102280000Z", &time) == ASN1V_CONTENTS);
    expect("with a letter", utc("01022800000AZ", &time) == ASN1V_CONTENTS);
    expect("with a year of four digits", generalized("20500101000000Z", &time) == ASN1V_DONE && time.year == 2050);
    expect("hour 24", generalized("20500101240000Z", &time) == ASN1V_CONTENTS && time.year == 2050);
}

static void identifiers(void)
{
    /* The example of X.690 8.19.5: 2.100.3. */
    const uint32_t arcs[3] = {2, 100, 3};
    uint8_t room[15];
    size_t count = 0;
    expect("2.100.3 has the contents 813403", asn1v_oid_contents(arcs, 3, room, sizeof room, &count) == ASN1V_DONE &&
                                                  count == 3 && memcmp(room, "\x81\x34\x03", 3) == 0);
    expect("which are contents", asn1v_oid_check(room, count) == ASN1V_DONE);
    expect("but not without their end", asn1v_oid_check(room, 1) == ASN1V_MALFORMED);
    uint32_t read[4];
    size_t arc_count = 0;
    expect("they are the contents of 2.100.3", asn1v_oid_arcs(room, count, read, 4, &arc_count) == ASN1V_DONE &&
                                                   arc_count == 3 && memcmp(read, arcs, sizeof arcs) == 0);
    arc_count = 0;
    expect("for which two arcs are no room, and three are returned",
           asn1v_oid_arcs(room, count, read, 2, &arc_count) == ASN1V_ROOM && arc_count == 3);
    const uint32_t none[2] = {1, 40};
    expect("two octets are no room for three, which are returned",
           asn1v_oid_contents(arcs, 3, room, 2, &count) == ASN1V_ROOM && count == 3);
    expect("1.40 is no identifier", asn1v_oid_contents(none, 2, room, sizeof room, &count) == ASN1V_ARCS);
    expect("one arc has no contents", asn1v_oid_contents(arcs, 1, room, sizeof room, &count) == ASN1V_ARC_COUNT);
}

static bool is_no_text(const char *text)
{
    uint32_t room[8];
    size_t count = 7;
    return asn1v_oid_from_text((const uint8_t *)text, strlen(text), room, 8, &count) == ASN1V_TEXT && count == 7;
}

static void dotted_text(void)
{
    const uint32_t arcs[4] = {1, 2, 840, 113549};
    uint8_t text[16];
    size_t count = 0;
    expect("an identifier has its dotted text", asn1v_oid_text(arcs, 4, text, sizeof text, &count) == ASN1V_DONE &&
                                                    count == 14 && memcmp(text, "1.2.840.113549", 14) == 0);
    uint32_t read[4];
    size_t arc_count = 0;
    expect("which has its arcs", asn1v_oid_from_text(text, count, read, 4, &arc_count) == ASN1V_DONE &&
                                     arc_count == 4 && memcmp(read, arcs, sizeof arcs) == 0);
    expect("three are no room, and four are returned",
           asn1v_oid_from_text(text, count, read, 3, &arc_count) == ASN1V_ROOM && arc_count == 4);
    const uint32_t zeros[2] = {0, 0};
    expect("two octets are no room, and three are returned",
           asn1v_oid_text(zeros, 2, text, 2, &count) == ASN1V_ROOM && count == 3);
    const uint32_t largest[2] = {2, UINT32_MAX};
    expect("the largest arc has ten digits", asn1v_oid_text(largest, 2, text, sizeof text, &count) == ASN1V_DONE &&
                                                 count == 12 && memcmp(text, "2.4294967295", 12) == 0);
    const uint32_t none[1] = {3};
    expect("3 is no identifier", asn1v_oid_text(none, 1, text, sizeof text, &count) == ASN1V_ARCS && is_no_text("3"));
    expect("arcs are decimals without a leading zero or a sign",
           is_no_text("2.01") && is_no_text("2.+1") && is_no_text("2.-1") && is_no_text("2. 1"));
    expect("a full stop is between two arcs",
           is_no_text("") && is_no_text(".") && is_no_text("2.") && is_no_text(".2") && is_no_text("2..1"));
    expect("an arc fits 32 bits, and 1.40 is no identifier", is_no_text("2.4294967296") && is_no_text("1.40"));
}

static void strings(void)
{
    size_t place = 0;
    uint32_t character = 0;
    const uint8_t digits[4] = {'1', ' ', '2', 'x'};
    expect("the first three are a NumericString",
           asn1v_string_check(ASN1V_NUMERIC_STRING, digits, 3, &place, &character) == ASN1V_DONE);
    expect("the fourth is not",
           asn1v_string_check(ASN1V_NUMERIC_STRING, digits, 4, &place, &character) == ASN1V_CHARACTER && place == 3 &&
               character == 'x');
    expect("three octets are no BMPString",
           asn1v_string_check(ASN1V_BMP_STRING, digits, 3, &place, &character) == ASN1V_ODD);
    expect("there is no ninth string", asn1v_string_check(8, digits, 3, &place, &character) == ASN1V_KIND);

    uint32_t code = 0;
    size_t width = 0;
    const uint32_t letters[2] = {'a', 'b'};
    asn1v_alphabet two;
    asn1v_alphabet numeric;
    expect("two alphabets are prepared",
           asn1v_alphabet_new(ASN1V_IA5_STRING, true, letters, 2, false, &two) == ASN1V_DONE &&
               asn1v_alphabet_new(ASN1V_NUMERIC_STRING, false, letters, 0, false, &numeric) == ASN1V_DONE);
    asn1v_alphabet ninth = two;
    expect("none of a ninth string",
           asn1v_alphabet_new(8, false, letters, 0, false, &ninth) == ASN1V_KIND && ninth.kind == ASN1V_IA5_STRING);
    ninth.kind = 8;
    expect("which is no alphabet", asn1v_alphabet_width(&ninth, &width) == ASN1V_ALPHABET);
    expect("two letters take one bit", asn1v_alphabet_width(&two, &width) == ASN1V_DONE && width == 1);
    expect("b has the code 1", asn1v_alphabet_encode(&two, 'b', &code) == ASN1V_DONE && code == 1);
    expect("c has none", asn1v_alphabet_encode(&two, 'c', &code) == ASN1V_CHARACTER);
    expect("10 is the code of 9 in NumericString",
           asn1v_alphabet_decode(&numeric, 10, &character) == ASN1V_DONE && character == '9');
    expect("11 is the code of none", asn1v_alphabet_decode(&numeric, 11, &character) == ASN1V_CODE);
}

static void strings_in_utf8(void)
{
    uint8_t room[12];
    size_t count = 0;
    size_t place = 9;
    uint32_t character = 0;
    const uint8_t two[4] = {0x00, 0x41, 0x20, 0xAC};
    expect("four octets are two characters",
           asn1v_string_count(ASN1V_BMP_STRING, two, 4, &count) == ASN1V_DONE && count == 2);
    expect("three are none", asn1v_string_count(ASN1V_BMP_STRING, two, 3, &count) == ASN1V_ODD && count == 2);
    expect("A and the euro sign in UTF-8", asn1v_string_to_utf8(ASN1V_BMP_STRING, two, 4, room, sizeof room, &count,
                                                                &place, &character) == ASN1V_DONE &&
                                               is_text(room, count, "A\xE2\x82\xAC"));
    expect("need four octets",
           asn1v_string_to_utf8(ASN1V_BMP_STRING, two, 4, room, 3, &count, &place, &character) == ASN1V_ROOM &&
               count == 4);
    const uint8_t surrogate[4] = {0x00, 0x41, 0xD8, 0x00};
    expect("a surrogate has none", asn1v_string_to_utf8(ASN1V_BMP_STRING, surrogate, 4, room, sizeof room, &count,
                                                        &place, &character) == ASN1V_SURROGATE &&
                                       place == 1 && character == 0xD800);
    expect("a TeletexString is not in Unicode", asn1v_string_to_utf8(ASN1V_TELETEX_STRING, two, 4, room, sizeof room,
                                                                     &count, &place, &character) == ASN1V_NO_UNICODE);
    expect("they are a BMPString again",
           asn1v_string_from_utf8(ASN1V_BMP_STRING, (const uint8_t *)"A\xE2\x82\xAC", 4, room, sizeof room, &count,
                                  &place, &character) == ASN1V_DONE &&
               count == 4 && memcmp(room, two, 4) == 0);
    expect("and no PrintableString",
           asn1v_string_from_utf8(ASN1V_PRINTABLE_STRING, (const uint8_t *)"A\xE2\x82\xAC", 4, room, sizeof room,
                                  &count, &place, &character) == ASN1V_CHARACTER &&
               place == 1 && character == 0x20AC);
    expect("half a character is no text",
           asn1v_string_from_utf8(ASN1V_BMP_STRING, (const uint8_t *)"A\xE2\x82", 3, room, sizeof room, &count, &place,
                                  &character) == ASN1V_NOT_UTF8 &&
               place == 1);
}

int main(void)
{
    codes();
    bits();
    example_of_fields();
    integers();
    wide_integers();
    elements();
    times();
    identifiers();
    dotted_text();
    strings();
    strings_in_utf8();
    return wrong;
}
