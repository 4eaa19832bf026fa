// Casts from each kind of number to each, at the ends of their ranges and at a few places between.
#include <cstdint>
#include <iostream>

void from_bool(bool x) {
    std::cout << bool(x) << " " << int(int8_t(x)) << " " << int(uint8_t(x)) << " " << int16_t(x) << " " << uint16_t(x) << " ";
    std::cout << int32_t(x) << " " << uint32_t(x) << " " << int64_t(x) << " " << uint64_t(x) << " " << int(x) << " " << unsigned(x) << "\n";
}

void from_int8(int8_t x) {
    std::cout << bool(x) << " " << int(int8_t(x)) << " " << int(uint8_t(x)) << " " << int16_t(x) << " " << uint16_t(x) << " ";
    std::cout << int32_t(x) << " " << uint32_t(x) << " " << int64_t(x) << " " << uint64_t(x) << " " << int(x) << " " << unsigned(x) << "\n";
}

void from_uint8(uint8_t x) {
    std::cout << bool(x) << " " << int(int8_t(x)) << " " << int(uint8_t(x)) << " " << int16_t(x) << " " << uint16_t(x) << " ";
    std::cout << int32_t(x) << " " << uint32_t(x) << " " << int64_t(x) << " " << uint64_t(x) << " " << int(x) << " " << unsigned(x) << "\n";
}

void from_int16(int16_t x) {
    std::cout << bool(x) << " " << int(int8_t(x)) << " " << int(uint8_t(x)) << " " << int16_t(x) << " " << uint16_t(x) << " ";
    std::cout << int32_t(x) << " " << uint32_t(x) << " " << int64_t(x) << " " << uint64_t(x) << " " << int(x) << " " << unsigned(x) << "\n";
}

void from_uint16(uint16_t x) {
    std::cout << bool(x) << " " << int(int8_t(x)) << " " << int(uint8_t(x)) << " " << int16_t(x) << " " << uint16_t(x) << " ";
    std::cout << int32_t(x) << " " << uint32_t(x) << " " << int64_t(x) << " " << uint64_t(x) << " " << int(x) << " " << unsigned(x) << "\n";
}

void from_int32(int32_t x) {
    std::cout << bool(x) << " " << int(int8_t(x)) << " " << int(uint8_t(x)) << " " << int16_t(x) << " " << uint16_t(x) << " ";
    std::cout << int32_t(x) << " " << uint32_t(x) << " " << int64_t(x) << " " << uint64_t(x) << " " << int(x) << " " << unsigned(x) << "\n";
}

void from_uint32(uint32_t x) {
    std::cout << bool(x) << " " << int(int8_t(x)) << " " << int(uint8_t(x)) << " " << int16_t(x) << " " << uint16_t(x) << " ";
    std::cout << int32_t(x) << " " << uint32_t(x) << " " << int64_t(x) << " " << uint64_t(x) << " " << int(x) << " " << unsigned(x) << "\n";
}

void from_int64(int64_t x) {
    std::cout << bool(x) << " " << int(int8_t(x)) << " " << int(uint8_t(x)) << " " << int16_t(x) << " " << uint16_t(x) << " ";
    std::cout << int32_t(x) << " " << uint32_t(x) << " " << int64_t(x) << " " << uint64_t(x) << " " << int(x) << " " << unsigned(x) << "\n";
}

void from_uint64(uint64_t x) {
    std::cout << bool(x) << " " << int(int8_t(x)) << " " << int(uint8_t(x)) << " " << int16_t(x) << " " << uint16_t(x) << " ";
    std::cout << int32_t(x) << " " << uint32_t(x) << " " << int64_t(x) << " " << uint64_t(x) << " " << int(x) << " " << unsigned(x) << "\n";
}

int main() {
    from_bool(false);
    from_bool(true);
    from_int8(-128);
    from_int8(-1);
    from_int8(0);
    from_int8(127);
    from_uint8(0);
    from_uint8(127);
    from_uint8(128);
    from_uint8(255);
    from_int16(-32768);
    from_int16(-129);
    from_int16(-1);
    from_int16(256);
    from_int16(32767);
    from_uint16(0);
    from_uint16(255);
    from_uint16(32768);
    from_uint16(65535);
    from_int32(-2147483647 - 1);
    from_int32(-32769);
    from_int32(-1);
    from_int32(128);
    from_int32(65536);
    from_int32(2147483647);
    from_uint32(0u);
    from_uint32(65535u);
    from_uint32(2147483648u);
    from_uint32(4294967295u);
    from_int64(-9223372036854775807 - 1);
    from_int64(-2147483649);
    from_int64(-1);
    from_int64(255);
    from_int64(4294967296);
    from_int64(9223372036854775807);
    from_uint64(0ull);
    from_uint64(2147483648ull);
    from_uint64(9223372036854775808ull);
    from_uint64(18446744073709551615ull);
    // Through a narrow kind and back.
    int64_t x = -1234567890123;
    std::cout << int64_t(uint8_t(x)) << " " << int64_t(int8_t(x)) << " " << uint64_t(int16_t(x)) << " " << int64_t(uint32_t(int32_t(x))) << "\n";
    std::cout << uint64_t(bool(x)) << " " << int(bool(uint8_t(x * 256))) << " " << uint16_t(int8_t(uint64_t(x))) << "\n";
    return 0;
}
