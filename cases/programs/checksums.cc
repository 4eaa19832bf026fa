// Checksums of a few bytes: a cyclic one, an additive one, and a hash.
#include <cstdint>
#include <iostream>

class Check {
    uint32_t crc;
    uint16_t low;
    uint16_t high;
    uint64_t hash;
public:
    Check() : crc(0xffffffffu), low(1), high(0), hash(14695981039346656037u) {}
    void add(uint8_t byte) {
        crc = crc ^ byte;
        for (int i = 0; i < 8; ++i) {
            uint32_t bit = crc & 1u;
            crc = crc >> 1;
            if (bit) {
                crc = crc ^ 0xedb88320u;
            }
        }
        low = (low + byte) % 65521;
        high = (high + low) % 65521;
        hash = (hash ^ byte) * 1099511628211u;
    }
    uint32_t cyclic() { return ~crc; }
    uint32_t additive() { return uint32_t(high) << 16 | low; }
    uint64_t hashed() { return hash; }
};

Check check;

int main() {
    for (uint8_t digit = 0x31; digit <= 0x39; ++digit) {
        check.add(digit);
    }
    std::cout << check.cyclic() << " " << check.additive() << " " << check.hashed() << "\n";
    return 0;
}
