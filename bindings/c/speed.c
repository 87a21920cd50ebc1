/* Times calls of the library from C: nanoseconds per call, the fastest of many rounds.
 *
 *     cc -std=c11 -O2 bindings/c/speed.c crates/asn1_c/out/libasn1_c.a -o speed && ./speed
 *
 * The calls for numbers are compared with the same work in C, in the loop itself: the difference is the cost of the
 * call. */
#define _DEFAULT_SOURCE
#include "asn1_values.h"

#include <stdio.h>
#include <string.h>
#include <time.h>

enum { CALLS = 20000, ROUNDS = 400 };

static uint8_t octets[4096];
static uint8_t room[10242];
static volatile uint64_t sink;

static inline uint64_t nothing(size_t i)
{
    return asn1v_integer_is_shortest(octets, i & 0);
}

static inline uint64_t number(size_t i)
{
    uint64_t value = 0;
    asn1v_read_u64(octets, 1024, i & 4095, 13, &value);
    return value;
}

/* Does the same in C, and tests that the octets have the bits. */
static inline uint64_t number_in_c(size_t i)
{
    const size_t first = i & 4095;
    if (first + 13 > 8 * 1024)
        return 0;
    const uint8_t *at = octets + first / 8;
    const uint32_t three = (uint32_t)at[0] << 16 | (uint32_t)at[1] << 8 | at[2];
    return three >> (11 - first % 8) & 0x1FFF;
}

static inline uint64_t integer(size_t i)
{
    int64_t value = 0;
    asn1v_integer_to_i64(octets + i % 1000, 3, &value);
    return (uint64_t)value;
}

/* Does the same in C: takes octets of any length, and rejects a number that does not fit. */
static inline uint64_t integer_in_c(size_t i)
{
    const uint8_t *at = octets + i % 1000;
    int64_t value = (int8_t)at[0];
    for (size_t k = 1; k < 3; k++)
        value = value * 256 + at[k];
    return (uint64_t)value;
}

static uint64_t text_of(size_t length)
{
    size_t count = 0;
    asn1v_integer_text(octets, length, room, sizeof room, &count);
    return count;
}

static inline uint64_t text_8(size_t i) { return text_of(8 + (i & 0)); }
static inline uint64_t text_20(size_t i) { return text_of(20 + (i & 0)); }
static inline uint64_t text_256(size_t i) { return text_of(256 + (i & 0)); }
static inline uint64_t text_4096(size_t i) { return text_of(4096 + (i & 0)); }

static inline uint64_t element(size_t i)
{
    static const uint8_t list[4] = {0x02, 0x02, 0x10, 0x00};
    asn1v_element found = {0};
    asn1v_der_next(list, sizeof list, i & 0, &found);
    return found.end;
}

static inline uint64_t moment(size_t i)
{
    static const uint8_t text[13] = "261126043000Z";
    asn1v_time time = {0};
    asn1v_der_utc_time(text, sizeof text + (i & 0), &time);
    return time.second;
}

/* A field of each kind, in the order of the kinds: its shape, and its octets from bit 0 on. */
static asn1v_alphabet digits;
static const asn1v_shape shapes[7] = {{ASN1V_NUMBER, 13},   {ASN1V_OCTETS, 4},          {ASN1V_BITS, 13},
                                      {ASN1V_INTEGER, 2},   {ASN1V_COUNTED_INTEGER, 0}, {ASN1V_CHARACTER_FIELD, 0},
                                      {ASN1V_IDENTIFIER, 3}};
static const uint8_t spelled[7][4] = {{0x5A, 0x5A}, {1, 2, 3, 4}, {0x5A, 0x5A}, {0x12, 0x34}, {2, 0x12, 0x34},
                                      {0x50},       {0x2A, 0x86, 0x48}};

/* Octets with the field of each kind at bit 3. */
static uint8_t at_bit_3[7][8];
static asn1v_field told[7];

static void prepare(void)
{
    asn1v_refusal refusal;
    size_t end = 0;
    asn1v_alphabet_new(ASN1V_NUMERIC_STRING, false, NULL, 0, false, &digits);
    for (size_t kind = 0; kind < 7; kind++) {
        asn1v_or_bits(at_bit_3[kind], 8, 3, spelled[kind], 4, 0, 32);
        asn1v_read_fields(at_bit_3[kind], 8, 3, &digits, 1, &shapes[kind], 1, &told[kind], 1, &end, &refusal);
    }
}

static inline uint64_t field_read(size_t kind)
{
    asn1v_refusal refusal;
    asn1v_field field = {0};
    size_t end = 0;
    asn1v_read_fields(at_bit_3[kind], 8, 3, &digits, 1, &shapes[kind], 1, &field, 1, &end, &refusal);
    return end;
}

static inline uint64_t field_written(size_t kind)
{
    asn1v_refusal refusal;
    size_t end = 0;
    asn1v_write_fields(room, sizeof room, 5, at_bit_3[kind], 8, &digits, 1, &shapes[kind], 1, &told[kind], 1, &end,
                       &refusal);
    return end;
}

/* Makes a loop of the work. */
#define LOOP(work)                                                                                                     \
    static uint64_t work##_loop(size_t calls)                                                                          \
    {                                                                                                                  \
        uint64_t sum = 0;                                                                                              \
        for (size_t i = 0; i < calls; i++)                                                                             \
            sum += work(i);                                                                                            \
        return sum;                                                                                                    \
    }

/* Makes a loop of the work on a field of one kind. */
#define KIND_LOOP(work, kind)                                                                                          \
    static uint64_t work##_##kind##_loop(size_t calls)                                                                 \
    {                                                                                                                  \
        uint64_t sum = 0;                                                                                              \
        for (size_t i = 0; i < calls; i++)                                                                             \
            sum += work(kind);                                                                                         \
        return sum;                                                                                                    \
    }
#define KIND_LOOPS(kind) KIND_LOOP(field_read, kind) KIND_LOOP(field_written, kind)

KIND_LOOPS(0)
KIND_LOOPS(1)
KIND_LOOPS(2)
KIND_LOOPS(3)
KIND_LOOPS(4)
KIND_LOOPS(5)
KIND_LOOPS(6)
LOOP(nothing)
LOOP(number)
LOOP(number_in_c)
LOOP(integer)
LOOP(integer_in_c)
LOOP(text_8)
LOOP(text_20)
LOOP(text_256)
LOOP(text_4096)
LOOP(element)
LOOP(moment)

static double best(uint64_t (*work)(size_t), size_t calls)
{
    double least = 1e18;
    for (int round = 0; round < ROUNDS; round++) {
        struct timespec from, until;
        clock_gettime(CLOCK_MONOTONIC, &from);
        sink = work(calls);
        clock_gettime(CLOCK_MONOTONIC, &until);
        const double took = (double)(until.tv_sec - from.tv_sec) * 1e9 + (double)(until.tv_nsec - from.tv_nsec);
        if (took < least)
            least = took;
    }
    return least / (double)calls;
}

int main(void)
{
    for (size_t i = 0; i < sizeof octets; i++)
        octets[i] = (uint8_t)(i * 151 + 7);
    prepare();
    const struct {
        const char *what;
        uint64_t (*work)(size_t);
        size_t calls;
    } rows[] = {
        {"a call that does next to nothing", nothing_loop, CALLS},
        {"a number of 13 bits at any bit, asn1v_read_u64", number_loop, CALLS},
        {"the same in C", number_in_c_loop, CALLS},
        {"the number of three octets, asn1v_integer_to_i64", integer_loop, CALLS},
        {"the same in C", integer_in_c_loop, CALLS},
        {"decimal text of 8 octets, asn1v_integer_text", text_8_loop, CALLS},
        {"decimal text of 20 octets", text_20_loop, 200},
        {"decimal text of 256 octets", text_256_loop, 20},
        {"decimal text of 4,096 octets: sixteen times as many", text_4096_loop, 1},
        {"an element of four octets, asn1v_der_next", element_loop, CALLS},
        {"a UTCTime, asn1v_der_utc_time", moment_loop, CALLS},
        {"a number of 13 bits at bit 3, asn1v_read_fields", field_read_0_loop, CALLS},
        {"four octets", field_read_1_loop, CALLS},
        {"13 bits", field_read_2_loop, CALLS},
        {"an integer of two octets", field_read_3_loop, CALLS},
        {"the same, counted", field_read_4_loop, CALLS},
        {"a character of NumericString", field_read_5_loop, CALLS},
        {"an identifier of three octets", field_read_6_loop, CALLS},
        {"a number of 13 bits at bit 5, asn1v_write_fields", field_written_0_loop, CALLS},
        {"four octets", field_written_1_loop, CALLS},
        {"13 bits", field_written_2_loop, CALLS},
        {"an integer of two octets", field_written_3_loop, CALLS},
        {"the same, counted", field_written_4_loop, CALLS},
        {"a character of NumericString", field_written_5_loop, CALLS},
        {"an identifier of three octets", field_written_6_loop, CALLS},
    };
    for (size_t i = 0; i < sizeof rows / sizeof rows[0]; i++)
        printf("%8.2f ns  %s\n", best(rows[i].work, rows[i].calls), rows[i].what);
    return 0;
}
