// The header from C++: a message of two fields is written, read back, and rejected after it was cut short. The exit
// status is 0 if all is right.
#include "asn1_values.h"

#include <array>
#include <cstdint>
#include <cstdio>
#include <vector>

int main()
{
    const std::array<asn1v_shape, 2> shapes = {{{ASN1V_NUMBER, 3}, {ASN1V_COUNTED_INTEGER, 0}}};
    const std::array<asn1v_field, 2> fields = {{{0, 0, 0, 5}, {0, 0, 0, 128}}};
    const asn1v_alphabet no_alphabets{};
    const std::uint8_t no_source = 0;
    std::vector<std::uint8_t> message(4);
    std::size_t end = 0;
    asn1v_refusal refusal{};
    asn1v_code code = asn1v_write_fields(message.data(), message.size(), 0, &no_source, 0, &no_alphabets, 0,
                                         shapes.data(), shapes.size(), fields.data(), fields.size(), &end, &refusal);
    bool right = code == ASN1V_DONE && end == 27 && message == std::vector<std::uint8_t>{0xA0, 0x40, 0x10, 0x00};

    std::array<asn1v_field, 2> read{};
    code = asn1v_read_fields(message.data(), message.size(), 0, &no_alphabets, 0, shapes.data(), shapes.size(),
                             read.data(), read.size(), &end, &refusal);
    right = right && code == ASN1V_DONE && read[0].low == 5 && read[1].low == 128 && read[1].first == 3;
    code = asn1v_read_fields(message.data(), 3, 0, &no_alphabets, 0, shapes.data(), shapes.size(), read.data(),
                             read.size(), &end, &refusal);
    right = right && code == ASN1V_SHORT && refusal.field == 1 && refusal.low == 3;
    std::printf("from C++: %s\n", right ? "right" : "WRONG");
    return right ? 0 : 1;
}
